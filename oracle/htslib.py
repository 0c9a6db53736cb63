#!/usr/bin/env python3
"""Judges the calls on BAM records by htslib, which labs read tags with.

    python3 oracle/htslib.py --seed 7 --count 20000

Random records go through the program `ask`, which masks or cuts them, or drops calls. The records before and after are
written to two BAM files, and htslib lists the calls of both (htslib.c). Of a new record it must list what it lists of the
old one without the calls that were masked, dropped or cut off, and every other call as many places nearer to the front as
bases were cut off there, with its value. MN must be the number of bases. If a drop takes a call from a group whose header
does not end in '?', MM must be gone, and the answer must say so; otherwise MM must be there, also with no call left.

The same is asked of the records whose tags stayed as they came: htslib must then list something else for some of them, or
this comparison would show nothing. The status is 1 if a record differs, or if nothing was shown; 3 if htslib is not there.
"""
import argparse
import os
import random
import shutil
import struct
import subprocess
import sys
import tempfile

import bam
import compare
import judge
import lines as p
import model
import rust
from pieces import fitting_ml, masked_at, pick_bytes, random_group, some_places

REVERSE = 0x10
# One group for each base, with codes of letters: htslib 1.16 lists calls of a group with a ChEBI number and no entry.
HEADERS = {
    b"C": [b"C+m?", b"C+mh?", b"C+h", b"C+m.", b"C-m?"], b"G": [b"G-m?", b"G-m", b"G+o."], b"A": [b"A+a?", b"A+a."],
    b"T": [b"T+g?", b"T+e", b"T-fb?"], b"N": [b"N+n?", b"N+n"],
}

# ---- Records: before, as `ask` gets them, and what is asked --------------------------------------------


class Case:
    """A record and its edit. Places are those of the stored read."""

    def __init__(self, rng):
        self.seq = pick_bytes(rng, b"ACCCGGTN", rng.choice((1, 2, 5, 8, 13, 34, 35, 60)))
        self.reverse, self.front, self.back = rng.randrange(2), 0, len(self.seq)
        self.masked, self.dropped = set(), set()
        fields = self.random_fields(rng)
        self.old = self.record(self.seq, fields)
        self.request = rng.choice((self.mask, self.drop, self.cut))(rng, fields)

    def record(self, seq, fields):
        return bam.record(seq, *fields, flag=REVERSE * self.reverse, quality=30)

    def random_fields(self, rng):
        read = model.turned(self.seq) if self.reverse else self.seq
        headers = [rng.choice(HEADERS[base]) for base in rng.sample(sorted(HEADERS), rng.choice((1, 1, 2, 3)))]
        self.unmarked = {header[:1].decode() for header in headers if not header.endswith(b"?")}
        mm = b"".join(random_group(rng, read, [header]) for header in headers)
        fields = [bam.text(b"MM", mm), bam.text(b"RG", b"lane1"), bam.array(b"XX", "S", [1, 2])]
        if rng.random() < 0.8:
            fields.append(bam.values(rng.randbytes(len(fitting_ml(mm)))))
        if rng.random() < 0.5:
            fields.append(bam.integer(b"MN", rng.choice("CsSiI"), len(self.seq)))
        rng.shuffle(fields)
        return fields

    def mask(self, rng, fields):
        self.masked = set(some_places(rng, len(self.seq)))
        self.came = self.record(masked_at(self.seq, self.masked), fields)
        return p.record_mask(self.came, len(self.came), self.seq)

    def drop(self, rng, fields):
        self.dropped, self.came = {place for place in some_places(rng, len(self.seq)) if place < 2**32}, self.old
        return p.record_drop(self.came, len(self.came), sorted(self.dropped))

    def cut(self, rng, fields):
        self.front, self.back = sorted(rng.randint(0, len(self.seq)) for _ in range(2))
        self.masked = {place for place in some_places(rng, len(self.seq)) if rng.random() < 0.3}
        self.came = self.record(masked_at(self.seq, self.masked)[self.front : self.back], fields)
        return p.record_cut(self.came, len(self.came) + 3, self.seq, self.reverse, self.front)

    def wanted(self, listed):
        """What htslib should read of the new record, by what it reads of the old one."""
        _, _, mn, *calls = listed
        calls = [call.split(":") for call in calls]
        if any(int(place) in self.dropped and base in self.unmarked for place, base, *_ in calls):
            return [str(len(self.seq)), "0", "-"]
        left = [(int(place), base, *rest) for place, base, *rest in calls if int(place) not in self.dropped]
        left = [call for call in left if call[0] not in self.masked or call[1] == "N"]
        moved = [(str(place - self.front), *rest) for place, *rest in left if self.front <= place < self.back]
        bases = str(self.back - self.front)
        return [bases, "1", mn if mn == "-" else bases, *map(":".join, moved)]


# ---- htslib ------------------------------------------------------------------------------------------


def missing():
    """What is missing for this comparison, or None."""
    if shutil.which("cc") is None:
        return "a C compiler, cc"
    ended = subprocess.run(["cc", "-E", "-include", "htslib/sam.h", "-"], stdin=subprocess.DEVNULL, capture_output=True)
    return "htslib's header (Debian's package libhts-dev)" if ended.returncode else None


def compiled(folder):
    program = os.path.join(folder, "htslib")
    source = os.path.join(rust.HERE, "htslib.c")
    subprocess.run(["cc", "-std=c99", "-Wall", "-Wextra", "-Werror", "-O1", source, "-o", program, "-lhts"], check=True)
    return program


def read_by(program, folder, records):
    """What htslib reads of each record: the fields of its line."""
    path = os.path.join(folder, "records.bam")
    with open(path, "wb") as file:
        file.write(b"BAM\1" + struct.pack("<III", 0, 1, 5) + b"chr1\0" + struct.pack("<I", 1_000_000))
        for record in records:
            file.write(struct.pack("<I", len(record)) + record)
    shown = subprocess.run([program, path], check=True, stdout=subprocess.PIPE, stderr=subprocess.DEVNULL, text=True).stdout
    return [line.split("\t") for line in shown.split("\n")[:-1]]


# ---- The comparison ----------------------------------------------------------------------------------


def new_records(cases, seed):
    """The records that `ask` gives, and for each whether it says that a field went."""
    answers = [answer.split("\t") for answer in judge.answers_of(judge.ask_command(), [case.request for case in cases], seed)]
    refused = [(case, answer) for case, answer in zip(cases, answers) if answer[0] != "0"]
    if refused:
        sys.exit(f"htslib: {compare.shorten(refused[0][0].request)} is answered {refused[0][1]}")
    return [bytes.fromhex(answer[3]) for answer in answers], [answer[1] == "1" for answer in answers]


def main():
    parser = argparse.ArgumentParser(description=__doc__, formatter_class=argparse.RawDescriptionHelpFormatter)
    parser.add_argument("--seed", type=int, default=1)
    parser.add_argument("--count", type=int, default=20_000, help="how many records")
    options = parser.parse_args()
    if lacks := missing():
        print(f"htslib: {lacks} is missing; nothing was compared")
        sys.exit(3)
    rng = random.Random(options.seed)
    cases = [Case(rng) for _ in range(options.count)]
    new, went = new_records(cases, options.seed)
    with tempfile.TemporaryDirectory() as folder:
        program = compiled(folder)
        old, now = read_by(program, folder, [case.old for case in cases]), read_by(program, folder, new)
        unedited = read_by(program, folder, [case.came for case in cases])
    wanted = [case.wanted(listed) for case, listed in zip(cases, old)]
    different = [at for at in range(options.count) if now[at] != wanted[at] or went[at] != (wanted[at][1] == "0")]
    for at in different[: compare.SHOWN]:
        print(f"request  {compare.shorten(cases[at].request)}\n  htslib  {now[at]}, a field went: {went[at]}\n  wanted  {wanted[at]}")
    shown = sum(one != right for one, right in zip(unedited, wanted))
    calls = sum(len(listed) - 3 for listed in now)
    removed = sum(went)
    print(f"records as htslib reads them, seed {options.seed}: {options.count:,} records, {calls:,} calls left, {removed:,} tags removed, "
          f"{len(different)} differences; with their tags as they came {shown:,} differ")
    refused = any("refused" in listed for listed in old)
    sys.exit(bool(different or refused or not shown or not removed or not calls))


if __name__ == "__main__":
    main()
