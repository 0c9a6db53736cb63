#!/usr/bin/env python3
"""A model of the program `tagedit` by the scope (docs/SCOPE.md), on places; and inputs to compare the program with it.

    python3 oracle/tagedit.py < input > output      # the model alone
    python3 oracle/tagedit.py --freeze              # writes oracle/frozen/TAGEDIT.inputs and TAGEDIT.outputs
    python3 oracle/tagedit.py --check               # checks that they are as they would be written
    python3 oracle/tagedit.py --run                 # the command on the frozen inputs and on the largest ones
    python3 oracle/tagedit.py --run --proved --seed N --count K     # and the program of crates/tagedit; and on K fresh inputs

The model edits no tag. The opening gives a list of calls, each at its place in the opening SEQ. The steps are kept as
what they removed (bases off the front and the back, masked places, dropped places). The text is written once, at the
end, from the places of the remaining calls. So an error in the walk that rewrites a tag is not repeated here.
"""
import argparse
import concurrent.futures
import os
import random
import re
import subprocess
import sys

import generate
import model

BAD_LINE = 13
LONGEST_INPUT = 65_536
ROOT = os.path.join(os.path.dirname(os.path.abspath(__file__)), "..")
FROZEN = os.path.join(ROOT, "oracle", "frozen")
SEED, FROZEN_COUNT = 20_261, 2_400
# The command, and the program of crates/tagedit, which `rt ci` builds.
BUILT, PROVED = "target/programs/tagedit", "crates/tagedit/out/tagedit"
is_numbers = re.compile(rb"[0-9]+(?:,[0-9]+)*").fullmatch


# ---- The model ---------------------------------------------------------------------------------


class BadLine(Exception):
    pass


def numbers(body, largest):
    """Plain decimals with commas between, leading zeros allowed."""
    if not is_numbers(body):
        raise BadLine
    fields = [field.lstrip(b"0") or b"0" for field in body.split(b",")]
    if any(len(field) > 10 or int(field) > largest for field in fields):
        raise BadLine
    return [int(field) for field in fields]


class Session:
    """An opening, and what the steps removed from it. Places are those of the opening SEQ."""

    def __init__(self, seq, mm, ml):
        model.refuse_long_tag(mm, ml, seq)
        self.seq, self.mm, self.ml = seq, mm, ml
        self.groups = [self.listed(group) for group in model.read_tag(mm, ml, seq)]
        self.front, self.end = 0, len(seq)
        self.masked, self.dropped = set(), set()
        self.edited = False

    def listed(self, group):
        """Header, base, and for each call its place and the start and end of its values."""
        spots = zip(group.places, group.row)
        return group.header, group.base, [(place, *spot) for place, spot in spots if spot is not model.BARE]

    def is_left(self, base, place):
        inside = self.front <= place < self.end
        return inside and (base == b"N" or place not in self.masked)

    def calls_left(self, base, calls):
        return [call for call in calls if self.is_left(base, call[0]) and call[0] not in self.dropped]

    def in_opening(self, places):
        return {self.front + place for place in places if self.front + place < self.end}

    def mask(self, places):
        self.masked |= self.in_opening(places)
        self.edited = True

    def drop(self, places):
        named = self.in_opening(places)
        for header, base, calls in self.groups:
            if not header.endswith(b"?"):
                listed = {place for place, _, _ in self.calls_left(base, calls)}
                model.refuse_if(named & listed, model.CANNOT_DROP)
        self.dropped |= named
        self.edited = True

    def cut(self, ends):
        front, back = ends
        model.refuse_if(front + back == 0, model.UNCHANGED)
        model.refuse_if(front + back > self.end - self.front, model.NO_WINDOW)
        self.front, self.end = self.front + front, self.end - back
        self.edited = True

    def seq_now(self):
        masked = bytearray(self.seq)
        for place in self.masked:
            masked[place] = ord("N")
        return bytes(masked[self.front : self.end])

    def group_now(self, header, base, calls):
        """A skip is the number of the group's bases between two calls."""
        tracked = model.tracked_places(self.seq_now(), base)
        ordinals = {place: ordinal for ordinal, place in enumerate(tracked)}
        fields, last = [header], -1
        for place, _, _ in self.calls_left(base, calls):
            ordinal = ordinals[place - self.front]
            fields.append(b"%d" % (ordinal - last - 1))
            last = ordinal
        return b",".join(fields) + b";"

    def lines(self):
        """The lines after the answers. A tag that no step edited keeps its spelling."""
        mm, ml = self.mm, self.ml
        if self.edited:
            mm = b"".join(self.group_now(*group) for group in self.groups)
            if ml is not None:
                left = (call for _, base, calls in self.groups for call in self.calls_left(base, calls))
                ml = b"".join(self.ml[start:end] for _, start, end in left)
        yield b"SQ" + self.seq_now()
        yield b"MM" + mm
        if ml is not None:
            yield b"ML" + b",".join(b"%d" % value for value in ml)


def step(session, line):
    """Takes one step; raises a refusal or a bad line."""
    mark, body = line[:2], line[2:]
    if mark not in (b"MK", b"DR", b"CU"):
        raise BadLine
    given = numbers(body, model.U32)
    if mark == b"CU" and len(given) != 2:
        raise BadLine
    {b"MK": session.mask, b"DR": session.drop, b"CU": session.cut}[mark](given)


def marked(lines, mark):
    if not lines or lines[0][:2] != mark:
        raise BadLine
    return lines.pop(0)[2:]


def opened(lines):
    seq, mm, ml = marked(lines, b"SQ"), marked(lines, b"MM"), None
    if lines and lines[0][:2] == b"ML":
        body = lines.pop(0)[2:]
        ml = bytes(numbers(body, 255)) if body else b""
    return Session(seq, mm, ml)


def transcript(lines):
    try:
        session = opened(lines)
        yield b"AN0"
        for line in lines:
            try:
                step(session, line)
                yield b"AN0"
            except model.Refused as refused:
                yield b"AN%d" % refused.number
        yield from session.lines()
    except BadLine:
        yield b"AN%d" % BAD_LINE
    except model.Refused as refused:
        yield b"AN%d" % refused.number


def output(given):
    if len(given) > LONGEST_INPUT:
        return b"AN%d\n" % model.TOO_LONG
    lines = given.split(b"\n")
    if not lines[-1]:
        lines.pop()
    return b"".join(line + b"\n" for line in transcript(lines))


# ---- Inputs ------------------------------------------------------------------------------------


def decimals(rng, values):
    zeros = rng.random() < 0.1
    return b",".join(b"0" * (rng.randint(0, 4) if zeros else 0) + b"%d" % value for value in values)


def random_step(rng, length):
    kind = rng.choice((b"MK", b"MK", b"DR", b"DR", b"DR", b"CU"))
    if kind == b"CU":
        most = rng.choice((1, 2, 2, length // 2 + 1))
        ends = rng.randint(0, most), rng.randint(0, most)
        ends = rng.choice((ends, ends, ends, ends, ends, (0, 0), (model.U32, model.U32), (0, model.U32)))
        return kind + decimals(rng, ends)
    places = [rng.randint(0, length + 1) for _ in range(rng.choice((1, 1, 1, 2, 3, 6)))]
    if rng.random() < 0.05:
        places.append(rng.choice((model.U32, 65_536, 16_000)))
    return kind + decimals(rng, places)


def odd_line(rng, line):
    """A line that is almost of the form (a few may be of the form by chance)."""
    ways = (
        b"", b"\r", line + b"\r", line + b",", line[:2] + b"," + line[2:], line[:1], line[:2], line.lower(), b" " + line,
        line + b" ", line[:2] + b"-1", line[:2] + b"+1", line[:2] + b"1,,2", line[:2] + b"%d" % (model.U32 + 1),
        line[:2] + b"1,2,3", b"ML256", b"ML0255", b"ML", b"SQC", b"MMC+m?;", b"XX1", line + b"\0", line[:2] + b"9" * 30,
    )
    return rng.choice(ways)


def spoilt(rng, lines):
    """The lines with one of them changed, inserted, removed or doubled, or with two of them exchanged."""
    way, at = rng.randrange(6), rng.randrange(len(lines))
    if way <= 1:
        lines[at] = odd_line(rng, lines[at])
    elif way == 2:
        lines.insert(at, odd_line(rng, lines[at]))
    elif way == 3:
        del lines[at]
    elif way == 4:
        lines.insert(at, lines[at])
    else:
        other = rng.randrange(len(lines))
        lines[at], lines[other] = lines[other], lines[at]
    return lines


def random_input(rng):
    seq = generate.random_seq(rng)
    mm, ml = generate.random_tag(rng, seq)
    lines = [b"SQ" + seq, b"MM" + mm]
    if ml is not None:
        lines.append(b"ML" + decimals(rng, ml))
    lines += [random_step(rng, len(seq)) for _ in range(rng.choice((0, 1, 2, 3, 4, 6, 9)))]
    if rng.random() < 0.15:
        lines = spoilt(rng, lines)
    return b"\n".join(lines) + (b"\n" if rng.random() < 0.85 else b"")


def refused_drops(head, size):
    """An input of at most `size` bytes: a head, then refused drops of four bytes each, the last without its LF."""
    return head + (b"DR0\n" * ((size + 1 - len(head)) // 4))[:-1]


def largest_inputs():
    head = b"SQC\nMMC+m,0;\n"
    for size in (65_533, 65_536):
        yield refused_drops(head, size)
    for extra in (0, 1):
        yield b"SQ\nMMC+m?;\nMK0" + b"0" * (LONGEST_INPUT - 14 + extra)
    for length in (16_000, 16_001):
        seq, text = b"C" * length, b"MMC+m?" + b",0" * 16_000 + b";\n"
        yield b"SQ" + seq + b"\n" + text + b"MK0,2\nDR4\nCU1,1\n"
    values = b",".join([b"7"] * 16_000)
    yield b"SQ" + b"C" * 8_000 + b"\nMMC+mh?" + b",0" * 8_000 + b";\nML" + values + b"\nMK1\nDR5\nCU0,9\n"
    yield b"SQ" + b"CA" * 8_000 + b"\nMMC+m?,0,7998;\nMK" + b",".join(b"%d" % place for place in range(1, 8_000)) + b"\n"
    yield b"SQ" + b"C" * 4_000 + b"\nMMC+m?" + b",0" * 4_000 + b";\nDR" + b",".join(b"%d" % place for place in range(0, 8_000, 2))
    yield b"SQC\nMMC+m?,0;\nMK" + b",".join([b"0"] * 32_000) + b"\nDR0\n"
    groups = b"MM" + b"C+;" * 21_841
    yield b"SQ\n" + groups + b"\nCU0,0"
    yield b"SQC\n" + groups[:65_000] + b"\nCU0,1\nML"
    yield b"SQC\nMM" + groups[2:65_000] + b";"
    codes = 250
    yield b"SQ" + b"C" * 120 + b"\nMMC+" + b"m" * codes + b"?" + b",0" * 120 + b";\nML" + b",".join([b"1"] * codes * 120) + b"\nDR7\nCU3,5\n"


INPUTS, OUTPUTS = os.path.join(FROZEN, "TAGEDIT.inputs"), os.path.join(FROZEN, "TAGEDIT.outputs")


def to_freeze():
    rng = random.Random(SEED)
    given = [random_input(rng) for _ in range(FROZEN_COUNT)]
    return (INPUTS, given), (OUTPUTS, [output(one) for one in given])


def freeze():
    for path, rows in to_freeze():
        with open(path, "w") as f:
            f.writelines(row.hex() + "\n" for row in rows)


def frozen(path):
    with open(path) as f:
        return [bytes.fromhex(line) for line in f]


def check():
    for path, rows in to_freeze():
        if frozen(path) != rows:
            sys.exit(os.path.basename(path) + " is not what the model gives")
    print("the frozen transcripts are the model's")


# ---- The program -------------------------------------------------------------------------------


def start_of(program):
    """The words that start a program."""
    shown = subprocess.run([os.path.join(ROOT, "tools", "run-program"), "--show", program], capture_output=True, text=True)
    if shown.returncode:
        sys.exit(shown.stderr.strip())
    return shown.stdout.split("\n")[:-1]


def run(programs, seed, count):
    """Runs each program once for each input, as many runs at a time as there are processors."""
    subprocess.run([os.path.join(ROOT, "tools", "build"), "tagedit"], check=True)
    commands, rng = [start_of(os.path.join(ROOT, program)) for program in programs], random.Random(seed)
    kept = list(zip(frozen(INPUTS), frozen(OUTPUTS), strict=True))
    large, fresh = list(largest_inputs()), [random_input(rng) for _ in range(count)]
    pairs = kept + [(given, output(given)) for given in large + fresh]
    tries = [(command, *pair) for pair in pairs for command in commands]
    with concurrent.futures.ThreadPoolExecutor(os.cpu_count()) as pool:
        runs = pool.map(lambda row: subprocess.run(row[0], input=row[1], capture_output=True), tries)
        for (command, given, wanted), got in zip(tries, runs):
            if got.returncode != 0 or got.stdout != wanted:
                print("input  ", given[:2_000], "\nwanted ", wanted[:2_000], "\nprogram", command[-1], got.returncode, got.stdout[:2_000])
                sys.exit(1)
    words = " and ".join(programs), len(kept), len(large), len(fresh)
    print("%s and the model agree on %d frozen, %d large and %d fresh inputs" % words)


def main():
    parser = argparse.ArgumentParser()
    for way in ("--freeze", "--check", "--run", "--proved"):
        parser.add_argument(way, action="store_true")
    parser.add_argument("--seed", type=int, default=1)
    parser.add_argument("--count", type=int, default=0)
    given = parser.parse_args()
    if given.freeze:
        freeze()
    elif given.check:
        check()
    elif given.run:
        run([BUILT, PROVED] if given.proved else [BUILT], given.seed, given.count)
    else:
        sys.stdout.buffer.write(output(sys.stdin.buffer.read()))


if __name__ == "__main__":
    main()
