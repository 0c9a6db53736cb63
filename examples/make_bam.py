#!/usr/bin/env python3
"""make_bam.py: writes the small BAM of examples/c/records.c to standard output: examples/c/records.bam.

It is a raw BAM stream, as SAM v1 describes it in section 4.2: the magic `BAM\\1`, the header, and records, each behind its block
size. A .bam file of a sequencer has the same stream in BGZF; `samtools view -u` still does, and `gunzip` undoes it."""
import struct
import sys

LETTERS = "=ACMGRSVTWYHKDBN"
REVERSE = 0x10


def text(name, value):
    return name.encode() + b"Z" + value.encode() + b"\0"


def values(*ml):
    return b"MLBC" + struct.pack("<I", len(ml)) + bytes(ml)


def record(name, flag, seq, qualities, *fields):
    """A record on the reference's first bases; a quality is a digit, times ten. SEQ is given as stored."""
    codes = [LETTERS.index(base) for base in seq] + [0] * (len(seq) % 2)
    packed = bytes(16 * first + second for first, second in zip(codes[::2], codes[1::2]))
    scores = bytes(10 * int(digit) for digit in qualities)
    start = struct.pack("<iiBBHHHIiii", 0, 0, len(name) + 1, 60, 4681, 1, flag, len(seq), -1, -1, 0)
    cigar = struct.pack("<I", 16 * len(seq))
    block = start + name.encode() + b"\0" + cigar + packed + scores + b"".join(fields)
    return struct.pack("<I", len(block)) + block


def header(lines, reference, length):
    name = reference.encode() + b"\0"
    return b"BAM\1" + struct.pack("<I", len(lines)) + lines.encode() + struct.pack("<II", 1, len(name)) + name + struct.pack("<I", length)


RECORDS = [
    # the second of three calls is on a base of low quality
    record("forward", 0, "ACCGTCC", "4414444", text("RG", "lane1"), text("MM", "C+m?,0,0,1;"), values(200, 90, 30), b"NMC\0"),
    # GGACGGT in read orientation is ACCGTCC; its tag is written for that
    record("reverse", REVERSE, "GGACGGT", "4444414", text("MM", "C+m?,0,1,0;"), values(200, 90, 30), b"MNC\7"),
    # nothing is masked
    record("good", 0, "ACCGTCC", "4444444", text("MM", "C+m?,0,1,0;"), values(200, 90, 30)),
    # somebody cut this read and did not edit its tag: MN is the length that the tag was written for
    record("stale", 0, "ACCGTCC", "4444444", b"MNC\11", text("MM", "C+m?,0,1,0;"), values(200, 90, 30), text("RG", "lane1")),
    # ML has a value too few, so that the tag can't be edited
    record("broken", 0, "ACCGTCC", "1444444", text("MM", "C+m?,0,1,0;"), values(200, 90)),
    # no tag
    record("plain", 0, "ACCGTCC", "1111111", text("RG", "lane1")),
]

if __name__ == "__main__":
    sys.stdout.buffer.write(header("@HD\tVN:1.6\n@SQ\tSN:chr1\tLN:7\n", "chr1", 7) + b"".join(RECORDS))
