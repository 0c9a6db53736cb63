#!/usr/bin/env python3
"""Freezes requests and their answers, so that a test can compare the program `ask` with them.

    python3 oracle/freeze.py            # writes oracle/frozen/CALL.requests and CALL.answers for every call
    python3 oracle/freeze.py --check    # writes nothing; checks that the frozen answers are still the model's

The answers are the model's. Freezing compares each answer with the Rust, and writes nothing if the two disagree.
`--check` needs no Rust: it asks the model for each answer again.
"""
import argparse
import collections
import os
import random
import sys

import compare
import generate
import models
import rust

SEED = 20_260
FROZEN = os.path.join(rust.HERE, "frozen")

# The most requests of each section; a section that is not named is frozen completely.
MOST = {"short": 400, "random": 600, "malformed": 70}
MOST_OF_RECORDS = {"short": 150, "random": 250, "malformed": 30}
WHOLE = {"PAT": ("short",)}
# Boundary requests are large. By call: the most bytes that they take together, with their answers.
BOUNDARY_BYTES = {
    "Q": 110_000, "CPG": 0, "PAT": 10_000, "FETCH": 150_000, "ANN": 260_000, "GATE": 230_000, "TRUNC": 230_000,
    "CNT": 180_000, "REST": 110_000, "BUILD": 240_000, "BUILDMM": 60_000, "DUP": 60_000, "CALLS": 100_000,
    "TALLY": 330_000, "MASK": 330_000, "DROP": 330_000, "CUT": 330_000, "STEP": 330_000,
    "K1.TURN": 110_000, "K1.UNPACK": 140_000, "K1.CALLS": 160_000, "K1.PMASK": 250_000, "K1.PDROP": 250_000,
    "K1.PCUT": 250_000, "K1.PSES": 330_000, "K2.RMASK": 20_000, "K2.RDROP": 20_000, "K2.RCUT": 20_000,
}
# The most bytes of a frozen request with its answer. A larger request is only compared, in every run of compare.py.
LARGEST = 500_000
LARGEST_OF_RECORDS = 140_000
LEAST_OF_EACH_NUMBER, SHORT_LINE = 8, 2_000


def number_of(answer):
    return answer.split("\t", 1)[0]


def size_of(line):
    return len(line) + len(models.answer(line))


def within(requests, most_bytes):
    """The requests, from the first on, that fit into so many bytes together with their answers."""
    chosen, left = [], most_bytes
    for line in requests:
        if size_of(line) <= left:
            chosen.append(line)
            left -= size_of(line)
    return chosen


def part_of(rng, call, name, requests):
    if name == "boundary":
        return within(requests, BOUNDARY_BYTES[call])
    # The lists of the plain calls stay as they were first frozen; these requests of theirs are fresh in every run.
    if name == "rows" and not call.startswith("K1."):
        return []
    most = MOST_OF_RECORDS if call.startswith("K2.") else MOST
    if name in WHOLE.get(call, ()) or name not in most or len(requests) <= most[name]:
        return requests
    kept = set(rng.sample(range(len(requests)), most[name]))
    return [line for place, line in enumerate(requests) if place in kept]


def missing_numbers(chosen, every):
    """Further requests, so that each number of the call's answers occurs several times, or once if it takes a
    large request."""
    seen = collections.Counter(number_of(models.answer(line)) for line in chosen)
    present, more = set(chosen), []
    for line in sorted(every, key=len):
        number = number_of(models.answer(line))
        wanted = LEAST_OF_EACH_NUMBER if len(line) < SHORT_LINE else 1
        if line not in present and seen[number] < wanted:
            seen[number] += 1
            more.append(line)
    return more


def list_for(call):
    """The requests to freeze for a call, each once."""
    rng = random.Random(f"freeze {call}")
    sections = generate.sections(call, SEED, 1.0)
    chosen = [line for name, found in sections.items() for line in part_of(rng, call, name, found)]
    every = [line for found in sections.values() for line in found]
    found = dict.fromkeys(chosen + missing_numbers(chosen, every))
    largest = LARGEST_OF_RECORDS if call.startswith("K2.") else LARGEST
    return [line for line in found if size_of(line) <= largest]


def path_of(call, kind):
    return os.path.join(FROZEN, f"{call}.{kind}")


def write_lines(path, found):
    with open(path, "w", encoding="latin-1", newline="\n") as file:
        file.writelines(line + "\n" for line in found)


def freeze():
    program = rust.driver()
    frozen = {call: list_for(call) for call in generate.CALLS}
    counts = compare.Counts()
    for requests in frozen.values():
        counts.add_all(program, requests, models)
    compare.print_disagreements(counts.disagreements, sys.stdout)
    unlike = compare.not_as_stated(models, generate.CALLS)
    compare.print_disagreements(unlike, sys.stdout)
    if counts.disagreements or unlike:
        sys.exit("Rust, model and the stated answers do not agree; nothing was frozen")
    os.makedirs(FROZEN, exist_ok=True)
    for call, requests in frozen.items():
        write_lines(path_of(call, "requests"), requests)
        write_lines(path_of(call, "answers"), map(models.answer, requests))
    counts.print_table(sys.stdout)


def frozen_lists(call):
    """The frozen requests of a call, and their answers."""
    return [compare.read_lines(path_of(call, kind)) for kind in ("requests", "answers")]


def frozen_pairs():
    """Every frozen request with its answer."""
    for call in generate.CALLS:
        yield from zip(*frozen_lists(call), strict=True)


def faults_of_list(call):
    requests, answers = frozen_lists(call)
    if len(requests) != len(answers):
        return [f"{call}: {len(requests)} requests, {len(answers)} answers"]
    wrong = [line for line, answer in zip(requests, answers) if models.answer(line) != answer]
    return [f"{call}: the frozen answer is not the model's: {compare.shorten(line)}" for line in wrong]


def check():
    found = [fault for call in generate.CALLS for fault in faults_of_list(call)]
    for fault in found[: compare.SHOWN]:
        print(fault)
    count = sum(len(frozen_lists(call)[0]) for call in generate.CALLS)
    print(f"frozen lists: {count:,} requests of {len(generate.CALLS)} calls, {len(found)} faults")
    sys.exit(bool(found))


def main():
    parser = argparse.ArgumentParser(description=__doc__, formatter_class=argparse.RawDescriptionHelpFormatter)
    parser.add_argument("--check", action="store_true", help="check the lists, writing nothing")
    options = parser.parse_args()
    if options.check:
        check()
    else:
        freeze()


if __name__ == "__main__":
    main()
