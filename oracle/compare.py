#!/usr/bin/env python3
"""Compares the model of the scope (docs/SCOPE.md) with the Rust, which runs unchanged.

    python3 oracle/compare.py --seed 1                       # the whole comparison, with its table
    python3 oracle/compare.py --seed 2 --share 0.1           # a smaller one

It fails (status 1, with the first disagreements printed) unless Rust and model agree on acceptance and on
every byte, outside the differences that the scope names (src/agree.rs). Each of these is counted under its name.
It also compares the model with the answers that the documents state (stated.py), since the Rust's refusals have no
numbers. The status is 3, with a sentence, if cargo or the Rust files are missing. judge.py compares the C library with both.
"""
import argparse
import collections
import sys

import generate
import models
import rust
import stated

SHOWN = 10  # disagreements printed in full
EQUAL, DISAGREE = "=", "!"  # the driver's verdicts; the third one names a difference

# ---- Counting ----------------------------------------------------------------------------------


class Counts:
    """What a comparison found: requests equal, by call; answers, by call and number; differences, by name."""

    def __init__(self):
        self.requests = collections.Counter()
        self.equal = collections.Counter()
        self.numbers = collections.defaultdict(collections.Counter)
        self.differences = collections.defaultdict(collections.Counter)
        self.disagreements = []

    def add(self, line, answer, verdict):
        call = line.split("\t", 1)[0]
        if call not in generate.SOURCES:
            call = "(none)"
        self.requests[call] += 1
        if verdict.startswith(DISAGREE):
            self.disagreements.append((line, verdict[1:], answer))
            return
        self.numbers[call][answer.split("\t", 1)[0]] += 1
        if verdict == EQUAL:
            self.equal[call] += 1
        else:
            self.differences[call][verdict[1:]] += 1

    def add_all(self, program, requests, model):
        """Adds the requests: the model's answers to them are compared with the Rust."""
        answers = list(map(model.answer, requests))
        for line, answer, verdict in zip(requests, answers, rust.verdicts(program, requests, answers)):
            self.add(line, answer, verdict)

    def print_table(self, out):
        out.write("| call | requests | equal to the Rust | answers by number |\n|---|---|---|---|\n")
        order = ["0", *map(str, range(1, 22)), "?"]
        for call, count in self.requests.items():
            seen = self.numbers[call]
            by_number = ", ".join(f"{number}: {seen[number]:,}" for number in order if seen[number])
            out.write(f"| {call} | {count:,} | {self.equal[call]:,} | {by_number} |\n")
        total, equal = sum(self.requests.values()), sum(self.equal.values())
        out.write(f"| all | {total:,} | {equal:,} | |\n\n")
        out.write("| difference, by its name | requests | calls |\n|---|---|---|\n")
        by_name = collections.defaultdict(dict)
        for call, differences in self.differences.items():
            for name, count in differences.items():
                by_name[name][call] = count
        for name, calls in sorted(by_name.items()):
            shown = ", ".join(f"{call} {count:,}" for call, count in calls.items())
            out.write(f"| {name} | {sum(calls.values()):,} | {shown} |\n")


def shorten(text):
    return text if len(text) <= 300 else f"{text[:300]}... ({len(text)} characters)"


def print_disagreements(found, out):
    for line, given, wanted in found[:SHOWN]:
        out.write(f"request  {shorten(line)}\n  given  {shorten(given)}\n  model  {shorten(wanted)}\n")
    if len(found) > SHOWN:
        out.write(f"and {len(found) - SHOWN:,} more\n")


def not_as_stated(model, calls):
    """The stated requests to which the model gives another answer."""
    return [
        (line, answer, model.answer(line))
        for _, line, answer in stated.REQUESTS
        if line.split("\t", 1)[0] in calls and model.answer(line) != answer
    ]


# ---- The comparison ----------------------------------------------------------------------------


def compare_with_rust(options):
    program = rust.driver()
    counts = Counts()
    for call in options.calls:
        counts.add_all(program, generate.requests(call, options.seed, options.share), models)
    counts.print_table(sys.stdout)
    unlike = not_as_stated(models, options.calls)
    print_disagreements(counts.disagreements, sys.stdout)
    print_disagreements(unlike, sys.stdout)
    total = sum(counts.requests.values())
    print(f"\nseed {options.seed}, share {options.share}: {total:,} requests, "
          f"{len(counts.disagreements)} disagreements; {len(unlike)} answers other than stated")
    return bool(counts.disagreements or unlike)


def read_lines(path):
    with open(path, encoding="latin-1", newline="\n") as file:
        found = file.read().split("\n")
    return found[:-1] if found[-1] == "" else found


def main():
    parser = argparse.ArgumentParser(description=__doc__, formatter_class=argparse.RawDescriptionHelpFormatter)
    generate.add_options(parser)
    sys.exit(compare_with_rust(parser.parse_args()))


if __name__ == "__main__":
    main()
