"""Builds and runs the Rust driver, or says plainly what is missing for it."""
import functools
import os
import shutil
import subprocess
import sys

HERE = os.path.dirname(os.path.abspath(__file__))
NOT_AT_HAND = 3  # the exit status if nothing could be compared


def source_folder():
    return os.environ.get("FGUMI_SRC") or os.path.join(HERE, "..", "..", "shared", "docs", "src")


def cargo_is_too_old():
    """Whether cargo is older than 1.85, which the Rust files and the driver need; a distribution's own may be older."""
    said = subprocess.run(["cargo", "--version"], stdout=subprocess.PIPE, text=True, check=True).stdout
    version = said.split()[1].split("-")[0]
    return tuple(map(int, version.split(".")[:2])) < (1, 85)


@functools.cache
def missing():
    """What the driver lacks, as a sentence, or None."""
    if shutil.which("cargo") is None:
        return "cargo is not at hand, so the Rust can't be compiled"
    if cargo_is_too_old():
        return "cargo here is older than 1.85, so the Rust can't be compiled"
    for crate, file in (("fgumi-consensus", "modifications.rs"), ("fgumi-raw-bam", "fields.rs")):
        if not os.path.isfile(os.path.join(source_folder(), "crates", crate, "src", file)):
            return f"the Rust files are not at hand: FGUMI_SRC, or else ../shared/docs/src, has no crates/{crate}"
    return None


@functools.cache
def driver():
    """The path of the built driver; exits with a sentence if it can't be built."""
    lack = missing()
    if lack:
        sys.stderr.write(lack + "; nothing was compared with it\n")
        sys.exit(NOT_AT_HAND)
    folder = os.environ.get("CARGO_TARGET_DIR") or os.path.join(HERE, "target")
    command = ["cargo", "build", "--release", "--offline", "--locked", "--quiet", "--target-dir", folder]
    environment = {**os.environ, "FGUMI_SRC": os.path.abspath(source_folder())}
    subprocess.run(command, cwd=HERE, check=True, env=environment)
    return os.path.join(folder, "release", "fgumi-oracle")


def verdicts(program, requests, answers):
    """The driver's verdict on each answer: `=`, `~` and the name of a difference, or `!` and the Rust's answer."""
    pairs = zip(requests, answers, strict=True)
    given = "".join(f"{line}\n{answer}\n" for line, answer in pairs).encode("latin-1")
    found = subprocess.run([program, "judge"], input=given, stdout=subprocess.PIPE, check=True).stdout
    lines = found.decode("latin-1").split("\n")
    if lines.pop() != "" or len(lines) != len(requests):
        raise RuntimeError(f"{program} gave {len(lines)} verdicts on {len(requests)} requests")
    return lines
