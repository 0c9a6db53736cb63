#!/usr/bin/env python3
"""Compares the C library, through the program `ask`, with the frozen answers, the model and the Rust.

    python3 oracle/judge.py frozen                  # every frozen request, in sixteen turns
    python3 oracle/judge.py fresh --seed 7 --share 0.5
    python3 oracle/judge.py load --seed 7 --requests 20000000 --sample 1000000
    python3 oracle/judge.py load --seed 7 --requests 1000000 --calls K2.RMASK,K2.RDROP,K2.RCUT

`frozen` asks each request sixteen times: with the untouchable page behind the rows and before them, with empty rows
that are NULL and that are not, and with each of four bytes for yes.
`fresh` takes the requests of generate.py and compares every answer with the model's.
`load` makes the Rust driver change fresh requests at random and judge the acceptance and the bytes of each answer,
without Python in between. Then the numbers of a sample are compared with the model's.

As many parts run at a time as there are processors. A failing request is shrunk before it is shown. The status is 1
if any answer differs, if a call writes or reads outside its rows, or if a program ends early; it is 3 if `load` lacks
the Rust.
"""
import argparse
import collections
import concurrent.futures
import os
import re
import subprocess
import sys
import tempfile
import time

import compare
import freeze
import generate
import models
import rust
import shrink

TOOLS = os.path.join(rust.HERE, "..", "tools")
PROCESSORS = os.cpu_count()
SHOWN = 3  # failing requests that are shrunk and shown
TURNS = range(16)  # after sixteen turns page, NULL and yes repeat
MANY_TURNS = 64  # a failing request is asked again in so many turns, since the flags' other bits vary too


# ---- Splitting and running ---------------------------------------------------------------------


def ask_command():
    """The command that starts `ask`, which is built first if necessary."""
    subprocess.run([os.path.join(TOOLS, "build"), "ask"], check=True)
    program = os.path.join(rust.HERE, "..", "target", "programs", "ask")
    shown = subprocess.run([os.path.join(TOOLS, "run-program"), "--show", program], check=True, stdout=subprocess.PIPE, text=True)
    return shown.stdout.split("\n")[:-1]


def parts_of(rows, count=PROCESSORS):
    """The rows, divided into `count` parts of about the same length."""
    size = -(-len(rows) // count) or 1
    return [rows[at : at + size] for at in range(0, len(rows), size)]


def one_part(command, requests, turn):
    given = "".join(line + "\n" for line in requests).encode("latin-1")
    run = subprocess.run([*command, str(turn)], input=given, stdout=subprocess.PIPE, stderr=subprocess.PIPE, check=False)
    answers = run.stdout.decode("latin-1").split("\n")[:-1]
    why = run.stderr.decode().strip() or "status %d" % run.returncode
    # Requests without an answer: the first of them ended the run, and the run did not reach the others.
    answers += [f"(no answer: {why})"] * (len(requests) - len(answers))
    if run.returncode and answers:
        answers[-1] += f" (then the run failed: {why})"
    return answers


def answers_of(command, requests, turn=0):
    """The library's answers; the parts run in parallel."""
    with concurrent.futures.ThreadPoolExecutor(PROCESSORS) as pool:
        found = pool.map(lambda part: one_part(command, part, turn), parts_of(requests))
        return [answer for part in found for answer in part]


def model_part(requests):
    return [models.answer(line) for line in requests]


def model_answers(requests):
    with concurrent.futures.ProcessPoolExecutor(PROCESSORS) as pool:
        return [answer for part in pool.map(model_part, parts_of(requests)) for answer in part]


# ---- Comparing and showing ---------------------------------------------------------------------


def unlike(requests, given, wanted):
    """The requests whose answer is not the wanted one."""
    return [line for line, answer, right in zip(requests, given, wanted, strict=True) if answer != right]


def given_and_wanted(command, line):
    """A wrong answer, who judges it, and what that judge says; None if every turn answers rightly."""
    wanted = models.answer(line)
    given = one_part(command, [line] * MANY_TURNS, 0)
    for answer in given:
        if answer != wanted:
            return answer, "model", wanted
    if rust.missing() is None:
        (verdict,) = rust.verdicts(rust.driver(), [line], [wanted])
        if verdict.startswith(compare.DISAGREE):
            return given[0], "Rust", verdict[1:]
    return None


def way_of(found):
    """How a request fails: both numbers, the judge, and whether the line ends in WROTE. A smaller request has to fail in the same way."""
    return found and (found[0].split("\t")[0], found[0].endswith("WROTE"), found[1], found[2].split("\t")[0])


def show(command, failing):
    """Shows the first requests that fail, each once and made smaller."""
    failing = list(dict.fromkeys(failing))
    for line in failing[:SHOWN]:
        way = way_of(given_and_wanted(command, line))
        small = shrink.shrunk(line, lambda one: way_of(given_and_wanted(command, one)) == way) if way else line
        print("request  " + compare.shorten(small))
        if small != line:
            print(f"  shrunk from {len(line):,} characters to {len(small):,}")
        if way is None:
            print("  the model's answer where it is asked by itself")
            continue
        given, who, wanted = given_and_wanted(command, small)
        print(f"  given  {compare.shorten(given)}\n  {who:<6} {compare.shorten(wanted)}")
    if len(failing) > SHOWN:
        print(f"and {len(failing) - SHOWN:,} more")


def judged(command, what, failing, count):
    show(command, failing)
    print(f"{what}: {count:,} answers of the C library, {len(failing):,} not as they should be")
    return bool(failing)


# ---- The three ways ----------------------------------------------------------------------------


def frozen(options):
    command = ask_command()
    requests, wanted = zip(*freeze.frozen_pairs())
    failing = [line for turn in TURNS for line in unlike(requests, answers_of(command, requests, turn), wanted)]
    return judged(command, f"frozen requests in {len(TURNS)} turns", failing, len(TURNS) * len(requests))


def fresh(options):
    command = ask_command()
    requests = [line for call in options.calls for line in generate.requests(call, options.seed, options.share)]
    failing = unlike(requests, answers_of(command, requests, options.seed), model_answers(requests))
    return judged(command, f"fresh requests of seed {options.seed}", failing, len(requests))


def load_part(command, options, work, number):
    """Has the driver make and judge one processor's share of the requests; gives its status and what it counted."""
    share = [-(-whole // PROCESSORS) for whole in (options.requests, options.sample)]
    words = [options.seed * PROCESSORS + number, share[0], os.path.join(work, "corpus"), share[1], os.path.join(work, f"part{number}")]
    run = subprocess.run([rust.driver(), "load", *map(str, words), "--", *command, str(number)], stdout=subprocess.PIPE, text=True, check=False)
    return run.returncode, run.stdout.split("\n")[:-1]


def counted(tables):
    """The parts' tables added up: `NAME  a: 1, b: 2` for a call, `~ NAME: 1` for a difference."""
    calls, differences = collections.defaultdict(collections.Counter), collections.Counter()
    for line in (line for table in tables for line in table):
        if line.startswith("~ "):
            name, _, count = line[2:].rpartition(": ")
            differences[name] += int(count.replace(",", ""))
        elif "  " in line:
            name, _, shown = line.partition("  ")
            for number, count in re.findall(r"(\S+): ([\d,]*\d)", shown):
                calls[name][number] += int(count.replace(",", ""))
    return calls, differences


def print_table(calls, differences):
    for name, numbers in sorted(calls.items()):
        print(f"{name}  " + ", ".join(f"{number}: {count:,}" for number, count in sorted(numbers.items(), key=lambda one: (len(one[0]), one[0]))))
    for name, count in sorted(differences.items()):
        print(f"~ {name}: {count:,}")


def write_corpus(path, seed, calls):
    """The fresh requests that the driver changes."""
    with open(path, "w", encoding="latin-1", newline="\n") as file:
        for call in calls:
            file.writelines(line + "\n" for line in generate.requests(call, seed, 0.25))


def load(options):
    began = time.monotonic()
    if lack := rust.missing():
        print(lack + "; nothing was loaded")
        return rust.NOT_AT_HAND
    command = ask_command()
    rust.driver()
    with tempfile.TemporaryDirectory() as work:
        write_corpus(os.path.join(work, "corpus"), options.seed, options.calls)
        with concurrent.futures.ThreadPoolExecutor(PROCESSORS) as pool:
            status, tables = zip(*pool.map(lambda number: load_part(command, options, work, number), range(PROCESSORS)))
        compared = time.monotonic()
        kept = [os.path.join(work, f"part{number}.") for number in range(PROCESSORS)]
        requests, answers, failing = ([line for part in kept for line in compare.read_lines(part + end)] for end in ("requests", "answers", "failures"))
        failing += unlike(requests, answers, model_answers(requests))
    calls, differences = counted(tables)
    if options.table:
        print_table(calls, differences)
    asked, done = sum(numbers.total() for numbers in calls.values()), sum(numbers["0"] for numbers in calls.values())
    print(f"load of seed {options.seed}: {asked:,} requests, {done:,} of them answered 0, judged by the Rust in {compared - began:.0f} s; "
          f"{len(requests):,} of them by the model too, {time.monotonic() - began:.0f} s in all, on {PROCESSORS} processors, {os.uname().machine}")
    if any(status):
        print(f"the parts of the load ended with the status {', '.join(map(str, status))}")
    return int(judged(command, f"load of seed {options.seed}", failing, asked) or any(status))


def main():
    parser = argparse.ArgumentParser(description=__doc__, formatter_class=argparse.RawDescriptionHelpFormatter)
    parser.add_argument("way", choices=["frozen", "fresh", "load"])
    parser.add_argument("--seed", type=int, default=1)
    parser.add_argument("--share", type=float, default=1.0, help="part of the short and random requests, 0 to 1")
    parser.add_argument("--calls", type=generate.call_list, default=generate.CALLS, help="of `fresh` and `load`: names joined by commas, or all")
    parser.add_argument("--requests", type=int, default=20_000_000)
    parser.add_argument("--sample", type=int, default=1_000_000)
    parser.add_argument("--table", action="store_true", help="also print how often each call gave each number, and each difference by its name")
    options = parser.parse_args()
    sys.exit({"frozen": frozen, "fresh": fresh, "load": load}[options.way](options))


if __name__ == "__main__":
    main()
