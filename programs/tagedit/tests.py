#!/usr/bin/env python3
"""tests.py [NAME ..]: tries the command `tagedit` and its launcher as a new user would: many at once, from any folder, with broken input and output.

The launcher's own tests run in a copy of the tree with a stand-in for `rt`, which counts its calls and copies the archive that was built here.
TREE names another tree to try, whose program is built."""
import concurrent.futures
import functools
import os
import pty
import re
import shlex
import shutil
import signal
import subprocess
import sys
import tempfile
import time
import unittest

ROOT = os.path.abspath(os.environ.get("TREE", os.path.join(os.path.dirname(os.path.abspath(__file__)), "..", "..")))
sys.path.insert(0, os.path.join(ROOT, "oracle"))
sys.dont_write_bytecode = True
import model
import tagedit as places

COMMAND = os.path.join(ROOT, "tagedit")
EXAMPLE = os.path.join(ROOT, "examples", "mask_drop_cut.txt")
SETTINGS = {name: value for name, value in os.environ.items() if name != "AQUILEDRU_LOCKED"}
LONG = 65_537
AT_ONCE = 50
# What the launcher may take beside the program, in seconds. `rt doc` alone takes more.
MOST_BESIDE = 0.03

STAND_IN = """#!/bin/bash
# Stands in for rt: counts its calls in CALLED, notices if two run at once, and proves nothing.
case "$1" in doc | version) echo "$1" >>"$CALLED/asked"; exec {rt} "$@" ;; esac
mkdir "$CALLED/running" || echo "two at once" >>"$CALLED/twice"
echo "$1" >>"$CALLED/calls"
echo "rt: chose --jobs 2 for lent"
echo "crate lent: modules loaded=0 checked=1"
echo "logic=proved functions=1"
sleep "${{TAKES:-0.5}}" &
echo $! >"$CALLED/pid"
wait
rmdir "$CALLED/running"
[ ! -e "$CALLED/broken" ] || {{ cat "$CALLED/broken"; exit 1; }}
mkdir -p out
cp {archive} out/
"""
NOT_PROVED = "./src/lib.rt:1:1: error: stands in for a failure\nlogic=not-proved\nrt: the library lines did not build, so nothing above it was checked\n"
RT_DIES = "rt: crates.txt: the crates depend on each other in a cycle through lines\n"


def read(path):
    with open(path, "rb") as file:
        return file.read()


def run(words, given=b"", **more):
    more.setdefault("env", SETTINGS)
    return subprocess.run(words, input=given, capture_output=True, check=False, **more)


def shell(line, **more):
    """What a shell makes of a line, in which "$T" is the command and "$X" an input."""
    return subprocess.run(["bash", "-c", line], capture_output=True, check=False, env={**SETTINGS, "T": COMMAND, "X": EXAMPLE}, **more)


def program():
    """The words that start the built program itself, without the launcher."""
    shown = run([os.path.join(ROOT, "tools", "run-program"), "--show", os.path.join(ROOT, "target", "programs", "tagedit")])
    return shown.stdout.decode().split("\n")[:-1]


def at_once(words, given, **more):
    with concurrent.futures.ThreadPoolExecutor(AT_ONCE) as pool:
        return list(pool.map(lambda _: run(words, given, **more), range(AT_ONCE)))


def is_running(pid):
    """Whether a process runs. One that has ended may still be listed, as Z, until somebody asks for its status."""
    try:
        return read("/proc/%s/stat" % pid).rsplit(b")", 1)[1].split()[0] != b"Z"
    except FileNotFoundError:
        return False


def on_terminal(words, given, settings):
    """A run whose standard error is a terminal: what it prints, and what it says there."""
    ours, theirs = pty.openpty()
    ended = subprocess.run(words, input=given, stdout=subprocess.PIPE, stderr=theirs, check=False, env=settings)
    os.close(theirs)
    said = b""
    while True:
        try:
            part = os.read(ours, 65_536)
        except OSError:  # the terminal is empty, and nobody has it open
            break
        said += part
    os.close(ours)
    return ended.stdout, said.decode().replace("\r\n", "\n")


class Launcher(unittest.TestCase):
    """`rt` is called only if the program is missing or older than its sources, by one launcher at a time."""

    def setUp(self):
        self.folder = tempfile.mkdtemp()
        self.addCleanup(shutil.rmtree, self.folder)
        self.tree, self.called = os.path.join(self.folder, "a b'c", "tree"), os.path.join(self.folder, "called")
        ignored = shutil.ignore_patterns("target", "out", ".git", "oracle", "docs", "bench", "ask", ".lock", "must-fail", "__pycache__")
        shutil.copytree(ROOT, self.tree, ignore=ignored, symlinks=True)
        bin_folder = os.path.join(self.folder, "bin")
        os.makedirs(bin_folder)
        os.makedirs(self.called)
        with open(os.path.join(bin_folder, "rt"), "w") as file:
            archive = os.path.join(ROOT, "target", "staticlib", "libtaglib.a")
            file.write(STAND_IN.format(rt=shlex.quote(shutil.which("rt")), archive=shlex.quote(archive)))
        os.chmod(file.name, 0o755)
        self.settings = {**SETTINGS, "PATH": bin_folder + ":" + os.environ["PATH"], "CALLED": self.called}
        self.command = os.path.join(self.tree, "tagedit")
        self.wanted = read(EXAMPLE.replace(".txt", ".out"))

    def noted(self, name):
        path = os.path.join(self.called, name)
        return read(path).split() if os.path.exists(path) else []

    def calls(self):
        return self.noted("calls")

    def fails_with(self, text):
        with open(os.path.join(self.called, "broken"), "w") as file:
            file.write(text)

    def start(self, *words):
        return run([self.command, *words], read(EXAMPLE), env=self.settings)

    def right(self, runs):
        self.assertEqual({(one.returncode, one.stdout) for one in runs}, {(0, self.wanted)}, runs[0].stderr)

    def test_fifty_cold_at_once(self):
        runs = at_once([self.command], read(EXAMPLE), env=self.settings)
        self.assertEqual(self.noted("twice"), [])
        self.assertEqual(self.calls(), [b"lib"])
        self.right(runs)

    def test_warm_without_rt(self):
        self.right([self.start()])
        before = self.calls(), self.noted("asked")
        self.fails_with(NOT_PROVED)
        runs = at_once([self.command], read(EXAMPLE), env=self.settings)
        self.assertEqual((self.calls(), self.noted("asked")), before)
        self.right(runs)

    def test_built_again_after_a_change(self):
        self.right([self.start()])
        for source in ("crates/lines/src/lib.rt", "crates/samtags/specs/Session.antt", "crates.txt"):
            before = len(self.calls())
            os.utime(os.path.join(self.tree, source))
            self.right([self.start(), self.start()])
            self.assertEqual(self.calls()[before:], [b"lib"], source)
        before, program = self.calls(), os.path.join(self.tree, "target/programs/tagedit")
        for source in ("programs/tagedit/main.c", "include/aquiledru.h", "tools/headers/stdio.h", "tools/kit-cc"):
            built = os.stat(program).st_mtime_ns
            os.utime(os.path.join(self.tree, source))
            self.right([self.start()])
            self.assertGreater(os.stat(program).st_mtime_ns, built, source)
        built = os.stat(program).st_mtime_ns
        os.utime(os.path.join(self.tree, "README.md"))
        self.right([self.start()])
        self.assertEqual((self.calls(), os.stat(program).st_mtime_ns), (before, built))

    def test_talks_while_it_proves(self):
        self.settings["TAKES"] = "2.5"
        _, said = on_terminal([self.command], read(EXAMPLE), self.settings)
        self.assertRegex(said, "takes some minutes")
        self.assertRegex(said, r"\r\x1b\[Kbuild: 1 of \d\d crates done, [1-9] s")

    def test_says_why_it_failed(self):
        for text in (NOT_PROVED, RT_DIES):
            self.fails_with(text)
            ended = self.start()
            self.assertEqual((ended.returncode, ended.stdout), (1, b""))
            self.assertIn(text, ended.stderr.decode())

    def test_those_who_waited_for_a_failure_fail(self):
        self.fails_with(NOT_PROVED)
        runs = at_once([self.command], read(EXAMPLE), env={**self.settings, "TAKES": "3"})
        self.assertEqual({(one.returncode, one.stdout) for one in runs}, {(1, b"")})
        self.assertLess(len(self.calls()), 3)

    def test_stopped_with_what_it_began(self):
        """After a stop nothing runs on, and the next start need not wait."""
        self.settings["TAKES"] = "60"
        words = ["setsid", self.command, EXAMPLE]
        # a shell without job control ignores the signal in what it starts in the background, and so would the launcher
        ways = {"env": self.settings, "preexec_fn": functools.partial(signal.signal, signal.SIGINT, signal.SIG_DFL)}
        with subprocess.Popen(words, stdout=subprocess.PIPE, stderr=subprocess.PIPE, **ways) as running:
            while not self.noted("pid"):
                time.sleep(0.1)
            os.killpg(running.pid, signal.SIGINT)
            running.communicate(timeout=20)
        time.sleep(0.5)
        self.assertFalse(is_running(self.noted("pid")[0].decode()))
        self.settings["TAKES"] = "0.1"
        os.rmdir(os.path.join(self.called, "running"))
        self.right([self.start()])

    def test_help_and_version_before_it_is_built(self):
        for word in ("--help", "--version"):
            cold = self.start(word)
            self.assertEqual((cold.returncode, self.calls()), (0, []))
            self.assertEqual(cold.stdout, run([COMMAND, word]).stdout)

    def test_cold_without_standard_error(self):
        for line in ('"$C" <"$X" 2>&-', '"$C" <"$X" 2>/dev/full'):
            shutil.rmtree(os.path.join(self.tree, "target"), ignore_errors=True)
            ended = subprocess.run(["bash", "-c", line], capture_output=True, check=False, env={**self.settings, "C": self.command, "X": EXAMPLE})
            self.assertEqual((ended.returncode, ended.stdout), (0, self.wanted), line)

    def test_says_that_rt_is_missing(self):
        os.remove(os.path.join(self.folder, "bin", "rt"))
        path = ":".join(part for part in os.environ["PATH"].split(":") if not os.path.exists(os.path.join(part, "rt")))
        ended = run([self.command], read(EXAMPLE), env={**self.settings, "PATH": path})
        self.assertEqual((ended.returncode, ended.stdout), (1, b""))
        self.assertIn(b"rt, the command of the Rattle kit, is not on the PATH", ended.stderr)


class Warm(unittest.TestCase):
    """The command as it is built in this tree."""

    def setUp(self):
        self.wanted = read(EXAMPLE.replace(".txt", ".out"))

    def test_fifty_at_once(self):
        runs = at_once([COMMAND], read(EXAMPLE))
        self.assertEqual({(one.returncode, one.stdout, one.stderr) for one in runs}, {(0, self.wanted, b"")})

    def test_through_a_link_from_any_folder(self):
        with tempfile.TemporaryDirectory() as folder:
            os.symlink(COMMAND, os.path.join(folder, "first"))
            os.symlink("first", os.path.join(folder, "second"))
            shutil.copy(EXAMPLE, os.path.join(folder, "input"))
            for words in (["./second", "input"], [COMMAND, "input"], [os.path.relpath(COMMAND, folder), "./input"]):
                self.assertEqual(run(words, cwd=folder).stdout, self.wanted, words)

    def test_adds_milliseconds(self):
        def least(words):
            times = []
            for _ in range(20):
                began = time.monotonic()
                run(words, read(EXAMPLE))
                times.append(time.monotonic() - began)
            return min(times)

        beside = least([COMMAND]) - least(program())
        self.assertLess(beside, MOST_BESIDE)
        print("the launcher adds %.0f ms" % (1000 * beside))


class Errors(unittest.TestCase):
    """Errors of reading and writing end with status 1 and a message."""

    def fails(self, line, message):
        ended = shell(line)
        self.assertEqual((ended.returncode, ended.stdout), (1, b""), line)
        self.assertIn(message, ended.stderr.decode(), line)

    def test_output(self):
        self.fails('"$T" <"$X" >/dev/full', "standard output: No space left on device")
        self.fails('"$T" <"$X" >&-', "standard output: Bad file descriptor")
        self.fails('"$T" --help >/dev/full', "standard output: No space left on device")
        self.fails('(sleep 0.5; "$T" <"$X" 2>&3) 3>&2 | true; exit ${PIPESTATUS[0]}', "standard output: Broken pipe")

    def test_input(self):
        self.fails('"$T" <&-', "standard input: Bad file descriptor")
        self.fails('"$T" <.', "standard input: Is a directory")
        self.fails('"$T" .', ".: Is a directory")
        self.fails('"$T" /no/such/file', "/no/such/file: No such file or directory")

    def test_longer_than_a_pipe_holds(self):
        """The writer in front is not killed: it ends with 0, whatever it writes."""
        ended = shell('head -c 10000000 /dev/zero | "$T"; echo ${PIPESTATUS[*]}')
        self.assertEqual(ended.stdout, b"AN1\n0 0\n")


class Options(unittest.TestCase):
    def test_version(self):
        version = re.search(rb'#define AQL_VERSION "([0-9.]+)"', read(os.path.join(ROOT, "include", "aquiledru.h")))[1]
        self.assertEqual(run([COMMAND, "--version"]).stdout, b"tagedit (Aquiledru) " + version + b"\n")
        newest = re.search(rb"^## ([0-9.]+)", read(os.path.join(ROOT, "CHANGELOG.md")), re.M)[1]
        self.assertEqual(newest, version)

    def test_help(self):
        for word in ("-h", "--help"):
            ended = run([COMMAND, word])
            self.assertEqual(ended.returncode, 0)
            self.assertTrue(ended.stdout.startswith(b"Usage: tagedit "))

    def test_file(self):
        wanted = read(EXAMPLE.replace(".txt", ".out"))
        for words in ([EXAMPLE], ["--", EXAMPLE], ["-v", EXAMPLE]):
            self.assertEqual(run([COMMAND, *words], b"SQA").stdout, wanted, words)
        for words in ([], ["-"]):
            self.assertEqual(run([COMMAND, *words], read(EXAMPLE)).stdout, wanted, words)

    def test_bad_usage(self):
        for words in (["--verbos"], ["-x"], [EXAMPLE, EXAMPLE], ["-vv"]):
            ended = run([COMMAND, *words])
            self.assertEqual((ended.returncode, ended.stdout), (2, b""), words)
            self.assertIn(words[-1].encode(), ended.stderr)


# What is said of an input with -v. A refused line has its line number, its number, and words.
SAID = [
    (b"SQAC\nMMC+m,0;\nML9\nMK0\nDR1\n", "line 5: 10: a drop names a listed call of a group whose header does not end in '?'\n"),
    (b"SQAC\nMMC+m,0;\nDR1\nDR1\nCU2,1\nCU0,0\n", "line 3: 10: a drop names a listed call of a group whose header does not end in '?'\n"
     "line 4: 10: a drop names a listed call of a group whose header does not end in '?'\nline 5: 11: a cut of more bases than SEQ has\n"),
    (b"SQAC\r\nMMC+m?,0;\r\n", "line 1: note: the line has a carriage return (CR); lines end in LF alone\n"
     "line 2: 4: MM lacks its final ';' (the line has a carriage return (CR); lines end in LF alone)\n"),
    (b"SQAC\r\nMMC+m?,0;\n", "line 1: note: the line has a carriage return (CR); lines end in LF alone\n"),
    (b"SQAC\rMMC+m?,0;\r", "line 2: 13: the input ends before its MM line (the line has a carriage return (CR); lines end in LF alone)\n"),
    (b"\xef\xbb\xbfSQAC\nMMC+m?,0;\n", "line 1: 13: a bad line; the first line is 'SQ' and the bases (the line begins with a byte-order mark (BOM))\n"),
    (b"SQAC\nMM:Z:C+m?,0;\n", "line 2: 7: a skip passes the last tracked base (the line begins with 'MM:Z:'; write 'MM' and the text alone)\n"),
    (b"SQAC\nMM:Z:C+m?;\n", "line 2: note: the line begins with 'MM:Z:'; write 'MM' and the text alone\n"),
    (b"SQAC\nMMC+m?,0;\nML:B:C,9\n", "line 3: 13: a bad line; after 'ML' come decimals from 0 to 255 with commas between "
     "(the line begins with 'ML:B:'; write 'ML' and the values alone)\n"),
    (b"SQAC\nMMC+m?,0;\nML9\nMK1\r\nMK0\n", "line 4: 13: a bad line; a step is 'MK' or 'DR' and places, or 'CU' and two numbers: plain decimals up to 4,294,967,295 "
     "with commas between (the line has a carriage return (CR); lines end in LF alone)\n"),
    (b"SQAC\nMMC+m?,0;\n\nMK0\n", "line 3: 13: a bad line; a step is 'MK' or 'DR' and places, or 'CU' and two numbers: plain decimals up to "
     "4,294,967,295 with commas between\n"),
    (b"", "line 1: 13: the input ends before its SQ line\n"),
    (b"SQAC\n", "line 2: 13: the input ends before its MM line\n"),
    (b"SQAC\nML9\n", "line 2: 13: a bad line; the second line is 'MM' and the MM text\n"),
    (b"SQ" + b"A" * 16_001 + b"\nMMC+m?;\n", "line 1: 1: SEQ is longer than 16,000 bases\n"),
    (b"SQ" + b"A" * LONG, "the input: 1: it is longer than 65,536 bytes\n"),
    (b"SQAC\nMM\xc3;\n", "line 2: 3: MM has a byte above 127\n"),
    (b"SQAC\nMM;\n", "line 2: 5: a group's header is shorter than two bytes\n"),
    (b"SQAC\nMMC+m?,+0;\n", "line 2: 6: a skip is empty or has a byte that is no digit\n"),
    (b"SQAC\nMMC+m?,1;\n", "line 2: 7: a skip passes the last tracked base\n"),
    (b"SQAC\nMMC+m?,0;\nML\n", "line 3: 8: ML ends inside a listed base's values\n"),
    (b"SQAC\nMMC+m?,0;\nML1,2\n", "line 3: 9: ML has bytes left over\n"),
    (b"SQAC\nMMC+m?,0;\nML1\nDR1\nCU0,0\n", ""),
]


def refused_lines(given):
    """Each refused line with its number, from the model: it takes the lines one by one, and so knows which one it refuses."""
    lines = given.split(b"\n")
    lines = lines[:-1] if not lines[-1] else lines
    left = list(lines)
    try:
        session = places.opened(left)
    except places.BadLine:
        # A line without its mark is left; a bad ML line has been taken.
        taken = len(lines) - len(left)
        return [(taken if taken == 3 else taken + 1, 13)]
    except model.Refused as refused:
        return [({model.TOO_LONG: 1, 8: 3, 9: 3}.get(refused.number, 2), refused.number)]
    found, at = [], len(lines) - len(left)
    for line in left:
        at += 1
        try:
            places.step(session, line)
        except places.BadLine:
            return [*found, (at, 13)]
        except model.Refused as refused:
            found += [(at, refused.number)] * (refused.number != model.UNCHANGED)
    return found


class Report(unittest.TestCase):
    """What is said on standard error of refused and bad lines."""

    def test_words(self):
        for given, wanted in SAID:
            ended = run([COMMAND, "-v"], given)
            self.assertEqual(ended.stderr.decode(), wanted, given[:200])
            self.assertEqual((ended.returncode, ended.stdout), (0, places.output(given)), given[:200])

    def test_said_only_if_asked_or_on_a_terminal(self):
        for given, wanted in SAID[:8]:
            self.assertEqual(run([COMMAND], given).stderr, b"")
            self.assertEqual(on_terminal([COMMAND], given, SETTINGS), (places.output(given), wanted), given)

    def test_the_lines_that_the_model_refuses(self):
        inputs = places.frozen(places.INPUTS)
        command = [*program(), "-v"]
        with concurrent.futures.ThreadPoolExecutor(os.cpu_count()) as pool:
            runs = list(pool.map(lambda given: run(command, given), inputs))
        count = 0
        for given, ended in zip(inputs, runs):
            said = [(int(line), int(number)) for line, number in re.findall(rb"^line (\d+): (\d+): ", ended.stderr, re.M)]
            self.assertEqual(said, refused_lines(given), given[:500])
            count += len(said)
        self.assertGreater(count, 1_000)
        print("%d refused lines of %d inputs are said with their line and number" % (count, len(inputs)))


if __name__ == "__main__":
    unittest.main()
