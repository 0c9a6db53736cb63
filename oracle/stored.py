#!/usr/bin/env python3
"""Compares the C library's calls on stored reads with its plain calls on the same reads, unpacked and turned.

    python3 oracle/stored.py --seed 7 --share 0.5

Each fresh request on a packed read is asked through the program `ask`. So is its plain counterpart in read orientation:
CALLS, MASK, DROP or CUT, with places and start counted from the other end, and one STEP for each step of a session. The
packed answer must be the plain one, with its places counted back and its SEQ turned back and packed. A turned SEQ is
unpacked, and turned again. What no plain request can state, 1 by the stated number of bases and 2 by the packed bytes,
follows from the request. The letters are looked up here, and not in the model. The status is 1 if any answer differs,
and if a call has no request, or none that is answered 0.
"""
import argparse
import sys

import compare
import generate
import judge
import lines as p
import model

LETTERS = "=ACMGRSVTWYHKDBN"
PAIRS = dict(zip(LETTERS, "=TGKCYSBAWRDMHVN"))
CALLS = [call for call in generate.CALLS if call.startswith("K1.")]
MOST_BASES, MOST_BYTES = 16_000, 65_536
MOST_STEPS = 100  # a longer session is compared with the model alone, since each of its steps starts the program


# ---- Stored reads --------------------------------------------------------------------------------


def bytes_of(field):
    return b"" if field == "." else bytes.fromhex(field)


def turned(bases):
    return "".join(PAIRS[base] for base in reversed(bases))


class Read:
    """A stored read of three fields: whether it is reverse, its stated number of bases, its packed bytes."""

    def __init__(self, reverse, count, packed):
        self.reverse, self.count, self.packed = reverse == "1", int(count), bytes_of(packed)

    def fits(self):
        return len(self.packed) == self.count // 2 + self.count % 2

    def turned_if(self, bases):
        return turned(bases) if self.reverse else bases

    def seq(self):
        """The bases in read orientation, in hex."""
        halves = [half for byte in self.packed for half in (byte >> 4, byte & 15)]
        return p.row(self.turned_if("".join(LETTERS[half] for half in halves[: self.count])).encode())

    def place(self, place):
        return self.count - 1 - place if self.reverse else place

    def places(self, field):
        named = [] if field == "*" else map(int, field.split(","))
        return p.listed(self.place(place) for place in named if place < self.count)

    def start(self, field, window):
        """The window's start in read orientation; unknown if the window doesn't fit."""
        if field == "-" or not self.reverse:
            return field
        start = self.count - window - int(field)
        return str(start) if start >= 0 else "-"


def packed_over(bases, buffer):
    """The packed bases, in front of what the buffer holds past them."""
    codes = [LETTERS.index(base) for base in bases] + [0] * (len(bases) % 2)
    front = bytes(16 * codes[at] + codes[at + 1] for at in range(0, len(codes), 2))
    return front + buffer[len(front) :]


# ---- Requests and their counterparts -------------------------------------------------------------


def refused_by_form(reads, mm, ml):
    """1 or 2, if the request shows it; else None."""
    lengths = [p.row_length(mm), p.row_length(ml)]
    if any(read.count > MOST_BASES for read in reads) or max(lengths) > MOST_BYTES:
        return "1"
    return None if all(read.fits() for read in reads) else "2"


def reads_and_plain(call, fields):
    """The stored reads of a request, its text and ML, and a function that gives its plain counterpart."""
    reverse, count, packed, *rest = fields
    read = Read(reverse, count, packed)
    if call == "K1.CALLS":
        mm, ml = rest
        return [read], mm, ml, lambda: p.tab("CALLS", mm, ml, read.seq())
    if call == "K1.PDROP":
        places, mm, ml, _ = rest
        return [read], mm, ml, lambda: p.tab("DROP", mm, ml, read.seq(), read.places(places))
    after = Read(reverse, *rest[:2])
    if call == "K1.PMASK":
        mm, ml = rest[2:]
        return [read, after], mm, ml, lambda: p.tab("MASK", mm, ml, read.seq(), after.seq())
    start, mm, ml = rest[2:]
    return [read, after], mm, ml, lambda: p.tab("CUT", mm, ml, read.seq(), after.seq(), read.start(start, after.count))


def split(line):
    """The call, its fields, and its room as it is written, or nothing."""
    call, *fields = line.split("\t")
    room = [fields.pop()] if fields[-1].startswith("@") else []
    return call, fields, room


def calls_back(read, answer):
    """An answer to CALLS with its places as the stored read counts them."""
    number, *fields = answer.split("\t")
    if number != "0" or fields[1] == "*":
        return answer
    calls = [call.split(":", 2) for call in fields[1].split(",")]
    shown = ",".join(f"{group}:{read.place(int(place))}:{rest}" for group, place, rest in calls)
    return "\t".join([number, fields[0], shown])


def wanted_of_edits(ask, requests):
    """The answers to K1.CALLS, K1.PMASK, K1.PDROP and K1.PCUT, by the plain requests."""
    found, plain = [], []
    for line in requests:
        call, fields, room = split(line)
        reads, mm, ml, counterpart = reads_and_plain(call, fields)
        by_form = refused_by_form(reads, mm, ml)
        found.append((call, reads[0], by_form))
        if by_form is None:
            plain.append("\t".join([counterpart(), *room]))
    answers = iter(ask(plain))
    for call, read, by_form in found:
        wanted = by_form or next(answers)
        yield calls_back(read, wanted) if call == "K1.CALLS" else wanted


# ---- Turning and unpacking -----------------------------------------------------------------------


def wanted_of_unpacking(ask, requests):
    for line in requests:
        _, fields, room = split(line)
        read = Read(*fields)
        short = room and int(room[0][1:]) < read.count
        yield refused_by_form([read], ".", ".") or ("12" if short else p.done(read.seq()))


def wanted_of_turning(ask, requests):
    """The turned SEQ is the packed bases of the reverse read; turned again, it is the SEQ with a spare half of 0."""
    again, found = [], []
    for line in requests:
        _, fields, room = split(line)
        read = Read("1", *fields)
        by_form = refused_by_form([read], ".", ".")
        if by_form or (room and int(room[0][1:]) < len(read.packed)):
            found.append(by_form or "12")
            continue
        back = packed_over(bytes_of(read.seq()).decode(), b"")
        again.append((p.turn(read.count, back), p.done(p.row(clean(read)))))
        found.append(p.done(p.row(back)))
    for (line, wanted), answer in zip(again, ask([line for line, _ in again])):
        if answer != wanted:
            found.append(f"{line} turned again is {answer}")
    return found


def clean(read):
    """The packed bytes with a spare half of 0."""
    return read.packed[:-1] + bytes([read.packed[-1] & 0xF0]) if read.count % 2 else read.packed


# ---- Sessions: one STEP after the other ----------------------------------------------------------


class Session:
    """A session in read orientation, as the plain steps leave it."""

    def __init__(self, line):
        _, (reverse, count, packed, self.mm, self.ml, _, *self.steps), _ = split(line)
        self.read, self.numbers = Read(reverse, count, packed), []
        self.opening = refused_by_form([self.read], self.mm, self.ml)
        self.seq = None if self.opening else self.read.seq()

    def goes_on(self):
        return self.opening == "0" and len(self.numbers) < len(self.steps)

    def request(self):
        """The next step as a STEP."""
        kind, _, given = self.steps[len(self.numbers)].partition(":")
        if kind == "CU":
            arguments = ",".join(given.split(",")[:: -1 if self.read.reverse else 1])
        else:
            arguments = self.read.places(given)
        lengths = [self.read.count, p.row_length(self.mm), p.row_length(self.ml)]
        return p.tab("STEP", self.seq, self.mm, self.ml, p.listed(lengths), kind, arguments)

    def take(self, answer):
        """Takes over what a STEP left. Its SEQ is turned back and packed; a refusal leaves even the spare half."""
        number, *left = answer.split("\t")
        self.numbers.append(number)
        if number == "0":
            lengths = list(map(int, left[3].split(",")))
            self.seq, self.mm = (p.row(bytes_of(row)[:n]) for row, n in zip(left[:2], lengths))
            self.ml = left[2] if left[2] == "-" else p.row(bytes_of(left[2])[: lengths[2]])
            self.read.count = lengths[0]
            self.read.packed = packed_over(self.read.turned_if(bytes_of(self.seq).decode()), self.read.packed)

    def wanted(self):
        if self.opening != "0":
            return self.opening
        return p.done(",".join(self.numbers) or "*", self.read.count, p.row(self.read.packed), self.mm, self.ml)


def wanted_of_sessions(ask, requests):
    sessions = [Session(line) for line in requests]
    opened = [one for one in sessions if one.opening is None]
    for one, answer in zip(opened, ask([p.tab("CALLS", one.mm, one.ml, one.seq) for one in opened])):
        one.opening = answer.split("\t")[0]
    while going := [one for one in sessions if one.goes_on()]:
        for one, answer in zip(going, ask([one.request() for one in going])):
            one.take(answer)
    return [one.wanted() for one in sessions]


# ---- The comparison ------------------------------------------------------------------------------

WANTED = {"K1.TURN": wanted_of_turning, "K1.UNPACK": wanted_of_unpacking, "K1.PSES": wanted_of_sessions}


def fresh(call, options):
    """The requests of a call that are of its form; the others have no counterpart."""
    sections = generate.sections(call, options.seed, options.share)
    found = [line for name, section in sections.items() if name != "malformed" for line in section]
    return [line for line in found if line.count(":") <= MOST_STEPS and model.answer(line) != "?"]


def main():
    parser = argparse.ArgumentParser(description=__doc__, formatter_class=argparse.RawDescriptionHelpFormatter)
    parser.add_argument("--seed", type=int, default=1)
    parser.add_argument("--share", type=float, default=1.0, help="part of the short and random requests, 0 to 1")
    options = parser.parse_args()
    command, asked = judge.ask_command(), []

    def ask(requests):
        asked.extend(requests)
        return judge.answers_of(command, requests, options.seed) if requests else []

    different, count, untried = [], 0, []
    for call in CALLS:
        requests = fresh(call, options)
        given = judge.answers_of(command, requests, options.seed)
        if not any(answer.startswith("0\t") for answer in given):
            untried.append(call)
        wanted = list(WANTED.get(call, wanted_of_edits)(ask, requests))
        different += [(line, answer, right) for line, answer, right in zip(requests, given, wanted) if answer != right]
        different += [(extra, "", "") for extra in wanted[len(requests) :]]
        count += len(requests)
    for line, answer, right in different[: compare.SHOWN]:
        print(f"request  {compare.shorten(line)}\n  given  {compare.shorten(answer)}\n  plain  {compare.shorten(right)}")
    print(f"stored reads of seed {options.seed}: {count:,} packed requests, {len(asked):,} plain ones on turned reads, {len(different)} differences")
    if untried:
        print("no request is answered 0: " + ", ".join(untried))
    sys.exit(bool(different or untried))


if __name__ == "__main__":
    main()
