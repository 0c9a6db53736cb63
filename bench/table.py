#!/usr/bin/env python3
"""table.py [--write] OUT: prints the tables of a run of the benchmark, from the counts and times in the folder OUT.

With --write they also replace the tables in docs/BENCHMARKS.md, between the lines that name them."""
import glob
import os
import re
import statistics
import sys

ROOT = os.path.join(os.path.dirname(os.path.abspath(__file__)), "..")
SIZES = ["150", "1000", "16000"]
DENSITIES = ["dense", "sparse"]
ROWS = ["read", "mask", "drop", "cut", "build", "count"]
EDITS = ["mask", "drop", "cut"]
ALONE = ["check", "tally"]
STORED = ["read", "check", "tally", "mask", "drop", "cut"]
STRANDS = [("reverse", ""), ("forward", "-forward")]
# A record that is edited, in which ML stands before MM.
EXCHANGED = [("mask, ML before MM", "record-exchanged", DENSITIES)]
# Records that stay as they came. Without tags a record has no density.
STAYS = [("mask, same SEQ", "record-same", DENSITIES), ("mask, no tags", "record-untagged", ["dense"])]
TURNED = ["turn", "unpack", "unpack-forward"]
TURNED_SIZES = ["150", "151", "1000", "1001", "15999", "16000"]


def sides(path):
    """For each (row, bases, density, who) of a run's lines: its bucket, number of calls, and nanoseconds per call."""
    found = {}
    for line in open(path):
        bucket, row, bases, density, who, calls, time = line.split()
        found[row, bases, density, who] = bucket, int(calls), float(time)
    return found


def instructions(out):
    counted = dict(line.split() for line in open(os.path.join(out, "counts")))
    return {side: int(counted[bucket]) / calls for side, (bucket, calls, _) in sides(os.path.join(out, "counted")).items()}


def times(out):
    """The median of the runs for each side, and the largest distance of a run from its median, as a share."""
    runs = [{side: time for side, (_, _, time) in sides(path).items()} for path in glob.glob(os.path.join(out, "timed.*"))]
    median = {side: statistics.median(run[side] for run in runs) for side in runs[0]}
    spread = max(abs(run[side] / median[side] - 1) for run in runs for side in median if side[0] != "nothing")
    return median, spread


def number(cost, side):
    return f"{round(cost[side]):,}" if side in cost else ""


def ratio(cost, side, to):
    return f"{cost[side] / cost[to]:.2f}" if side in cost and to in cost else ""


def markdown(head, lines):
    shown = [head, ["---"] + ["--:"] * (len(head) - 1)] + lines
    return "".join("| " + " | ".join(line) + " |\n" for line in shown)


def whole(cost):
    """Every side's cost, and the ratios to the Rust's."""
    head = ["call", "bases", "tags", "Rust", "Rattle", "x Rust", "session", "x Rust", "htslib", "Rattle x htslib"]
    lines = []
    for row in ROWS + ALONE:
        for bases in SIZES:
            for density in DENSITIES:
                rust, rattle, session, htslib = ((row, bases, density, who) for who in ("rust", "rattle", "session", "htslib"))
                lines.append([row, f"{int(bases):,}", density, number(cost, rust), number(cost, rattle), ratio(cost, rattle, rust),
                              number(cost, session), ratio(cost, session, rust), number(cost, htslib), ratio(cost, rattle, htslib)])
    return markdown(head, lines)


def taken(row, bases, who):
    """How many bases a call on a stored read unpacks and packs, all SEQ together."""
    bases = int(bases)
    if row == "cut":
        return 2 * bases - 2 * (bases // 10)
    return 2 * bases if row == "mask" or who == "session" else bases


def beside_plain(cost, row, bases, density, who):
    """A plain call, the same call on a stored read, what it takes more for each base that is unpacked or packed, and its ratio to the Rust's."""
    plain, packed, rust = (row, bases, density, who), (f"stored-{row}", bases, density, who), (f"stored-{row}", bases, density, "rust")
    if packed not in cost:
        return [""] * 4
    above = (cost[packed] - cost[plain]) / taken(row, bases, who)
    return [number(cost, plain), number(cost, packed), f"{above:.2f}", ratio(cost, packed, rust)]


def stored(cost):
    """The calls on stored reads, beside the plain calls and the Rust's unpacking, `reverse_complement` and edit."""
    head = ["call", "bases", "tags", "Rust", "plain", "stored", "a base", "x Rust", "session, plain", "session, stored", "a base", "x Rust"]
    lines = []
    for row in TURNED:
        for bases in TURNED_SIZES:
            rust, rattle = ((row, bases, "dense", who) for who in ("rust", "rattle"))
            each = f"{cost[rattle] / int(bases):.2f}"
            known = [number(cost, rust), "", number(cost, rattle), each, ratio(cost, rattle, rust)]
            lines.append([row, f"{int(bases):,}", "", *known] + [""] * 4)
    for row in STORED:
        for bases in SIZES:
            for density in DENSITIES:
                sides = [beside_plain(cost, row, bases, density, who) for who in ("rattle", "session")]
                rust = number(cost, (f"stored-{row}", bases, density, "rust"))
                lines.append([row, f"{int(bases):,}", density, rust] + sides[0] + sides[1])
    return markdown(head, lines)


def records(cost):
    """The calls on records, beside the Rust's over two sets of stand-ins."""
    head = ["call", "bases", "tags", "strand", "Rust", "quick", "copied", "Rattle", "x Rust", "x quick", "x copied", "exact room", "x quick"]

    def line(name, row, bases, density, strand):
        rust, quick, copied, rattle, exact = ((row, bases, density, who) for who in ("rust", "quick", "copied", "rattle", "exact"))
        counts = [number(cost, side) for side in (rust, quick, copied, rattle)]
        ratios = [ratio(cost, rattle, to) for to in (rust, quick, copied)]
        tags = "none" if row == "record-untagged" else density
        return [name, f"{int(bases):,}", tags, strand, *counts, *ratios, number(cost, exact), ratio(cost, exact, quick)]

    lines = [line(row, f"record-{row}{which}", bases, density, strand)
             for row in EDITS for bases in SIZES for density in DENSITIES for strand, which in STRANDS]
    lines += [line(name, row, bases, density, "reverse") for name, row, densities in EXCHANGED + STAYS for bases in SIZES for density in densities]
    return markdown(head, lines)


def short_turned(cost):
    """Only ratios, of turning and unpacking, with a column for each length."""
    head = ["x the Rust's"] + [f"{int(bases):,}" for bases in TURNED_SIZES]

    def line(row):
        return [row] + [ratio(cost, (row, bases, "dense", "rattle"), (row, bases, "dense", "rust")) for bases in TURNED_SIZES]

    return markdown(head, [line(row) for row in TURNED])


def short(cost):
    """Only ratios, with a line for each call and a column for each input."""
    inputs = [(bases, density) for bases in SIZES for density in DENSITIES]
    head = ["x the Rust's"] + [f"{int(bases):,} {density}" for bases, density in inputs]

    def line(name, row, who="rattle", to="rust"):
        return [name] + [ratio(cost, (row, *given, who), (row, *given, to)) for given in inputs]

    lines = [line("read", "read"), line("read, x htslib's", "read", to="htslib")]
    for row in EDITS:
        lines += [line(row, row), line(f"{row}, a session's step", row, who="session")]
    lines += [line("build", "build"), line("count", "count")]
    for row in EDITS:
        kept = f"stored-{row}"
        lines += [line(f"{row}, stored", kept), line(f"{row}, stored, a session's step", kept, who="session")]
    lines += [line(f"{row}, record", f"record-{row}", to="quick") for row in EDITS]
    lines += [line(f"{name}, record", row, to="quick") for name, row, _ in EXCHANGED + STAYS]
    return markdown(head, lines) + "\n" + short_turned(cost)


def put(path, name, table):
    """Puts a table between the lines of a file that name it."""
    path = os.path.join(ROOT, path)
    text = open(path).read()
    begin, end = f"<!-- {name}, by bench/run -->\n", f"<!-- end of {name} -->\n"
    pattern = re.escape(begin) + ".*?" + re.escape(end)
    text, places = re.subn(pattern, lambda _: begin + table + end, text, flags=re.S)
    if places != 1:
        sys.exit(f"{path} has {places} places for {name}")
    open(path, "w").write(text)


def main():
    write = sys.argv[1] == "--write"
    out = sys.argv[-1]
    count = instructions(out)
    time, spread = times(out)
    said = f"Largest distance of one of the runs from the median: {100 * spread:.0f} %.\n"
    for name, cost in ("Instructions", count), ("Nanoseconds", time):
        print(f"{name}\n\n{whole(cost)}\n{stored(cost)}\n{records(cost)}")
    print(said)
    if write:
        put("docs/BENCHMARKS.md", "instructions", whole(count))
        put("docs/BENCHMARKS.md", "stored reads", stored(count))
        put("docs/BENCHMARKS.md", "records", records(count))
        put("docs/BENCHMARKS.md", "times", short(time) + "\n" + said)
        put("docs/BENCHMARKS.md", "ratios", short(count))


if __name__ == "__main__":
    main()
