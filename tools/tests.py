#!/usr/bin/env python3
"""tests.py [NAME ..]: tries the tools as a new user would, with a stand-in for `rt` where one would take minutes; and checks that documents that say the same thing agree.

TREE names another tree to try."""
import glob
import os
import re
import shutil
import subprocess
import tempfile
import unittest

ROOT = os.path.abspath(os.environ.get("TREE", os.path.join(os.path.dirname(os.path.abspath(__file__)), "..")))
DOCUMENTS = ["README.md", "CHANGELOG.md", "oracle/README.md", "examples/README.md", *(os.path.relpath(path, ROOT) for path in glob.glob(os.path.join(ROOT, "docs", "*.md")))]
PATH = re.compile(r"(?<![\w./-])((?:docs|tools|crates|oracle|ask|bench|examples|include|programs)/[\w./+-]*\w)(?![*\w])")
# Made by a command, of the kit, or not there on purpose.
NOT_IN_GIT = ("docs/src", "crates/NAME", "crates/fgumi-", "examples/NAME")

# What `rt ci` prints, cut short: a page of one crate, two edits, a crate that fails, the last line.
RT_CI = """#!/bin/bash
[ "$1" != doc ] || exec {rt} doc
for crate in lent pattern; do
    echo "== $crate"
    echo "rt: note: src/lib.rt has no line #![tactic(auto)], which each crate begins with: rt tidy writes it"
    for k in $(seq 100); do echo "fn $crate::f$k: proved"; done
    echo "rt: $crate proved"
    echo "rt: $crate: trying its must-fail edits (1)"
done
[ -z "${{FAILS:-}}" ] || {{ echo "== cigar"; echo "./src/lib.rt:9:1: error: what went wrong"; echo "rt: cigar NOT PROVED"; }}
[ -z "${{BAD:-}}" ] || {{ echo "rt: must-fail lent/bad.edit: BAD EDIT: it did not reach the prover; the first lines of what it said:"; echo "what the compiler said"; }}
echo "rt: must-fail lent/rest_forgotten.edit: refused, as it must be: ./proofs/Filled.antt:1:1: error: it does not hold"
if [ -n "${{FAILS:-}}" ]; then echo "rt: FAILED: cigar"; else
    echo "rt: ok; handles allowed: none; must-fail edits: 1 refused${{BAD:+, $BAD bad}}; every proof and must-fail edit was done in this run"; fi
echo "3 passed, ${{FAILS:-0}} failed"
exit ${{FAILS:-0}}
"""

# Stands in for rt where libraries are built.
RT_BUILDS = """#!/bin/bash
case "$1" in doc | version) exec {rt} "$@" ;; esac
[ "$1" != all ] || {{ echo all >>{noted}; exit; }}
name="$(basename "$PWD")"
echo "$1 $name" >>{noted}
mkdir -p out && cp {target}/staticlib/lib$name.a out/
"""


def read(*path):
    with open(os.path.join(ROOT, *path), encoding="utf-8") as file:
        return file.read()


def run(words, **more):
    return subprocess.run(words, capture_output=True, text=True, check=False, stdin=subprocess.DEVNULL, cwd=ROOT, **more)


def tools():
    """Each program of tools/ with its first line of use."""
    for path in sorted(glob.glob(os.path.join(ROOT, "tools", "*"))):
        name = os.path.basename(path)
        if os.access(path, os.X_OK) and os.path.isfile(path):
            yield name, re.search(r'^(?:# |""")(%s\b.*)' % re.escape(name), read("tools", name), re.M)[1]


class Tree(unittest.TestCase):
    """A folder with a stand-in for a command in front of the PATH."""

    def setUp(self):
        self.folder = tempfile.mkdtemp()
        self.addCleanup(shutil.rmtree, self.folder)

    def stand_in(self, name, text):
        path = os.path.join(self.folder, name)
        with open(path, "w") as file:
            file.write(text)
        os.chmod(path, 0o755)
        return {**os.environ, "PATH": self.folder + ":" + os.environ["PATH"]}


class Usage(unittest.TestCase):
    def test_help(self):
        for name, first in tools():
            ended = run([os.path.join(ROOT, "tools", name), "--help"])
            self.assertEqual((ended.returncode, ended.stdout.split("\n")[0]), (0, first), name)

    def test_without_arguments(self):
        """A tool that takes arguments says how it is used if it has none. `ask` reads requests, and its argument is seldom given."""
        taking = [name for name, first in tools() if not first.startswith(name + ":") and name != "ask"]
        self.assertGreater(len(taking), 5)
        for name in taking:
            ended = run([os.path.join(ROOT, "tools", name)])
            self.assertEqual(ended.returncode, 2, name)
            self.assertTrue(ended.stderr.startswith(name + " "), (name, ended.stderr[:200]))


class Proving(Tree):
    """tools/proving, through which ./test runs `rt ci`."""

    def proving(self, fails, bad=""):
        settings = {**self.stand_in("rt", RT_CI.format(rt=shutil.which("rt"))), "FAILS": fails, "BAD": bad}
        return run([os.path.join(ROOT, "tools", "proving"), "--lines", "test", "ci"], env=settings)

    def test_counts_and_prints_no_page(self):
        ended = self.proving("")
        lines = ended.stdout.split("\n")[:-1]
        self.assertEqual((ended.returncode, len(lines)), (0, 5), ended.stdout)
        self.assertRegex(lines[1], r"^rt: pattern proved  2 of \d+ crates, \d+ s$")
        self.assertRegex(lines[2], r"^rt: must-fail lent/rest_forgotten\.edit: refused.*  1 of \d+ edits, \d+ s$")
        self.assertEqual(lines[-1], "3 passed, 0 failed")

    def test_shows_what_failed(self):
        ended = self.proving("1", "1")
        self.assertEqual(ended.returncode, 1)
        self.assertIn("./src/lib.rt:9:1: error: what went wrong\nrt: cigar NOT PROVED\n", ended.stdout)
        self.assertIn("BAD EDIT: it did not reach the prover; the first lines of what it said:\nwhat the compiler said\n", ended.stdout)
        self.assertNotIn("fn lent::f1", ended.stdout)

    def test_fails_for_a_bad_edit(self):
        """A bad edit shows nothing of a contract, though `rt ci` passes."""
        ended = self.proving("", "2")
        self.assertEqual(ended.returncode, 1)
        self.assertIn("what the compiler said\n", ended.stdout)
        self.assertRegex(ended.stdout.split("\n")[-2], "^test: bad must-fail edits, as told above: 2")


class Needs(Tree):
    """What is missing is said, and nothing is installed without a word."""

    def test_need(self):
        noted = os.path.join(self.folder, "noted")
        self.stand_in("id", "#!/bin/sh\necho 0\n")
        settings = self.stand_in("apt-get", "#!/bin/sh\necho \"$@\" >>%s\n" % noted)
        words = [os.path.join(ROOT, "tools", "need"), "no-such-command", "some-package", "to try this"]
        left_out = run(words, env={**settings, "NO_INSTALL": "1"})
        self.assertEqual((left_out.returncode, left_out.stdout, os.path.exists(noted)), (1, "", False))
        ended = run(words, env={name: value for name, value in settings.items() if name != "NO_INSTALL"})
        self.assertEqual(ended.returncode, 1)
        self.assertRegex(ended.stdout, r"^need: no-such-command is missing; installs Debian's package some-package to try this .*\nneed: no-such-command could not be installed\n$")
        with open(noted) as file:
            self.assertIn("install -y -qq some-package", file.read())

    def test_need_of_a_file(self):
        for name, status in ((__file__, 0), ("/no/such/file.h", 1)):
            ended = run([os.path.join(ROOT, "tools", "need"), name, "some-package", "to try this"], env={**os.environ, "NO_INSTALL": "1"})
            self.assertEqual((ended.returncode, ended.stdout), (status, ""))

    @unittest.skipUnless(os.uname().machine == "x86_64" and shutil.which("cc"), "needs a C compiler for x86-64")
    def test_examples_run(self):
        for example, output in (("c", "session.out"), ("records", "records.out")):
            ended = run(["examples/run", example])
            self.assertEqual((ended.returncode, ended.stdout), (0, read("examples", "c", output)), ended.stderr)

    def test_missing_compiler_and_archive(self):
        ended = run(["examples/run", "c"], env={**os.environ, "CC": "/no/such/cc"})
        self.assertEqual((ended.returncode, ended.stdout), (3, ""))
        if os.uname().machine == "x86_64":
            self.assertIn("needs a C compiler for x86-64: /no/such/cc is missing", ended.stderr)
        bare = os.path.join(self.folder, "bare")
        for part in ("tools", "examples", "include"):
            shutil.copytree(os.path.join(ROOT, part), os.path.join(bare, part))
        both = ["tools/kit-cc", "--records", "out", "examples/c/records.c"]
        self.says_what_builds(bare, "archive", ["examples/run", "c"], ["tools/kit-cc", "out", "examples/c/session.c"], both)
        self.says_what_builds(bare, "archive records", ["examples/run", "records"])
        os.makedirs(os.path.join(bare, "target", "staticlib"))
        shutil.copy(os.path.join(ROOT, "target", "staticlib", "libtaglib.a"), os.path.join(bare, "target", "staticlib"))
        self.says_what_builds(bare, "archive records", ["examples/run", "records"])
        self.says_what_builds(bare, "records", both)

    def says_what_builds(self, tree, parts, *commands):
        """Each command lacks an archive, and says by which words it is built."""
        for words in commands:
            ended = subprocess.run(words, cwd=tree, capture_output=True, text=True, check=False)
            self.assertEqual(ended.returncode, 1 if words[0] == "tools/kit-cc" else 3, words)
            if os.uname().machine == "x86_64" or words[0] == "tools/kit-cc":
                self.assertIn("`tools/build %s` proves and builds it" % parts, ended.stderr, words)


class Packages(Tree):
    """The first package knows nothing of the second, the record layer, whose crates are those that begin with `record`."""

    def test_first_names_nothing_of_the_second(self):
        for line in read("crates.txt").split("\n"):
            crate, _, uses = line.split("#")[0].partition(":")
            if not crate.startswith("record"):
                self.assertFalse([name for name in uses.split() if name.startswith("record")], crate)
        own = ["include/aquiledru.h", "tagedit", *glob.glob(os.path.join(ROOT, "programs", "tagedit", "*.[ch]"))]
        self.assertEqual([name for name in own if "aquiledru_record" in read(name) or "record_lib" in read(name)], [])

    def setUp(self):
        """A tree with two small crates and without archives. The stand-in for rt notes what it is asked, and copies the archives that were built here."""
        super().setUp()
        self.tree, self.noted = os.path.join(self.folder, "tree"), os.path.join(self.folder, "noted")
        ignored = shutil.ignore_patterns("__pycache__")
        for part in ("tools", "ask", "include", "programs"):
            shutil.copytree(os.path.join(ROOT, part), os.path.join(self.tree, part), ignore=ignored)
        for part in ("crates.txt", "rt-version", "tagedit"):
            shutil.copy(os.path.join(ROOT, part), self.tree)
        for crate in ("lent", "taglib", "record_lib"):
            os.makedirs(os.path.join(self.tree, "crates", crate))
            self.touch(crate)
        self.settings = self.stand_in("rt", RT_BUILDS.format(rt=shutil.which("rt"), noted=self.noted, target=os.path.join(ROOT, "target")))
        self.settings.pop("AQUILEDRU_LOCKED", None)

    def touch(self, crate):
        with open(os.path.join(self.tree, "crates", crate, "lib.rt"), "w") as file:
            file.write("\n")

    def asked(self, *words):
        """What rt is asked while a command runs: the first word of each call, with the library that is built."""
        if os.path.exists(self.noted):
            os.remove(self.noted)
        ended = subprocess.run(words, cwd=self.tree, env=self.settings, capture_output=True, text=True, check=False, stdin=subprocess.DEVNULL)
        self.assertEqual(ended.returncode, 0, ended.stderr)
        self.said = ended.stderr
        return read(self.noted).split("\n")[:-1] if os.path.exists(self.noted) else []

    def test_one_call_proves_both(self):
        self.assertEqual(self.asked("tools/build", "ask"), ["all", "lib taglib", "lib record_lib"])
        self.assertIn("build: proves the C library and the record layer and builds them, once", self.said)
        self.assertEqual(self.asked("tools/build", "exports", "tagedit", "records", "archive"), [])
        self.assertEqual(self.said, "")
        self.touch("lent")
        self.assertEqual(self.asked("tools/build", "archive", "records"), ["all", "lib taglib", "lib record_lib"])

    def test_first_is_built_alone(self):
        self.assertEqual(self.asked("./tagedit", "--version"), [])
        self.assertEqual(self.asked("tools/build", "tagedit"), ["lib taglib"])
        self.assertIn("build: proves the C library and builds it, once", self.said)
        self.assertEqual(self.asked("tools/build", "records"), ["lib record_lib"])
        self.touch("record_lib")
        os.utime(os.path.join(self.tree, "include", "aquiledru_record.h"))
        program = os.path.join(self.tree, "target", "programs", "tagedit")
        built = os.stat(program).st_mtime_ns
        self.assertEqual(self.asked("./tagedit", "--version"), [])
        self.assertEqual(os.stat(program).st_mtime_ns, built)
        self.assertEqual(self.asked("tools/build", "ask"), ["lib record_lib"])


class Documents(unittest.TestCase):
    def test_one_table_of_numbers(self):
        after = re.compile(r"^## Numbers$.*?(?=^## |\Z)", re.S | re.M)
        tables = [re.findall(r"^\| \d+ \| .*", after.search(read(*path))[0], re.M) for path in (["README.md"], ["docs", "SCOPE.md"])]
        self.assertEqual(len(tables[0]), 18)
        self.assertEqual(*tables)

    def test_pinned_kit(self):
        self.assertIn("`%s`" % read("rt-version").strip(), read("README.md"))

    def test_named_files_exist(self):
        lost = []
        for document in DOCUMENTS:
            for name in set(PATH.findall(read(document))):
                found = glob.glob(os.path.join(ROOT, name)) or glob.glob(os.path.join(ROOT, name + ".*"))
                if not found and not name.startswith(NOT_IN_GIT):
                    lost.append("%s: %s" % (document, name))
        self.assertEqual(lost, [])


if __name__ == "__main__":
    unittest.main()
