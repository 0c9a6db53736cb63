#!/usr/bin/env python3
"""Makes requests for the program `ask`. The same seed makes the same requests.

    python3 oracle/generate.py --calls Q,CPG --seed 7 --share 0.1 > requests

For each call there are six sorts of requests: *stated* ones, whose answers the documents give (stated.py);
*short* ones, all of them up to a small size; *boundary* ones, at and around the bounds of the domain and of the
program's buffers; *rows*, of about 1,024 bases, for a call that takes a small row for its marks up to there and a
large one above; *random* ones, many of them with room exactly as needed or one less; and *malformed* lines.
A share below 1 takes that part of the short and the random requests; the other sorts are always complete. The
boundary requests of a call come in order of importance, since a frozen list takes only the first of them.
"""
import argparse
import itertools
import random
import sys

import lines as p
import model
import models
import record_requests
import stated
from pieces import (
    HEADERS, ROW_LENGTHS, STORED_HEADERS, all_listed, letters, listed_at_ends, many_groups, masked_at, near_mls, pick_bytes, places_at_ends, random_seq,
    random_tag, rows_over, short_texts, some_places, stored, stored_seq, subsets, words_over,
)

U32, U64, I64 = 2**32 - 1, 2**64 - 1, 2**63 - 1
COUNTS = [0, 0, 1, 1, 2, 3, 7, 255, 256, 32_767, 32_768, 2**31, U32 - 1, U32]


# ---- Alignment ---------------------------------------------------------------------------------


def short_q():
    operations = [length << 4 | kind for kind in (*range(10), 15) for length in range(3)]
    for words in rows_over(operations, 2):
        for start, reverse in itertools.product((0, 7, 2_147_483_647), (0, 1)):
            yield p.q(words, start, reverse)
    usual = [p.word(length, kind) for kind in "MIDS" for length in (1, 2)]
    for words in itertools.product(usual, repeat=3):
        for reverse in (0, 1):
            yield p.q(words, 10, reverse)


STARTS = [0, 1, 100, 2_147_483_646, 2_147_483_647, 2_147_483_648, -1, -2, I64, -I64 - 1]


def random_q(rng):
    kinds = "MMMIDNSHP=X"
    words = [p.word(rng.choice((0, 1, 2, 5, 30)), rng.choice(kinds)) for _ in range(rng.randint(0, 12))]
    if rng.random() < 0.1:
        words.insert(rng.randint(0, len(words)), p.word(rng.choice((268_435_455, 2**20)), rng.choice("DNHPM")))
    if rng.random() < 0.03:
        words.append(rng.randint(0, 20) << 4 | rng.randint(9, 15))
    start = rng.choice(STARTS) if rng.random() < 0.3 else rng.randint(0, 10**6)
    return p.q(words, start, rng.randint(0, 1))


def boundary_q():
    for query in (16_000, 16_001, 15_999):
        yield p.q([p.word(query, "M")], 5, query % 2)
        yield p.q([p.word(query - 9, "S"), p.word(4, "D"), p.word(9, "=")], 2_147_483_647, 1 - query % 2)
    yield p.q([p.word(16_000, "I"), p.word(1, "X")], 0, 0)
    yield p.q([p.word(1, "M")] * 16_000 + [p.word(1, "D")] * 49_535, 0, 1)
    yield p.q([6] * 65_536, 0, 0)
    yield p.q([6] * 65_537, 0, 0)
    yield p.q([9] + [0] * 65_535, 0, 0)
    yield p.q([U32], 0, 0)
    yield p.q([U32 + 1], 0, 0)
    for start in ("-0", "007", "-007", "0" * 40 + "5", I64 + 1, -I64 - 2, "+1", "--1", "-"):
        yield p.q([16], start, 0)
    yield p.q(["00016", "0" * 40 + "16"], 0, 0)
    yield p.q([U32 - 15] * 16, 0, 0)


def short_cpg():
    for reference in words_over(letters(b"CcGgA"), 3):
        for place, top in itertools.product(range(5), (0, 1)):
            yield p.cpg(reference, place, top)


def random_cpg(rng):
    reference = pick_bytes(rng, b"CGcgA\0\xc3", rng.randint(0, 12))
    place = rng.choice((U64, U64 - 1, 2**63, 2**32)) if rng.random() < 0.1 else rng.randint(0, 13)
    return p.cpg(reference, place, rng.randint(0, 1))


def boundary_cpg():
    yield p.cpg(b"CG" * 32_768, 65_534, 1)
    yield p.cpg(b"CG" * 32_768 + b"C", 65_536, 1)
    yield p.cpg(b"CG" * 32_769, 65_537, 0)


def short_pat():
    yield from map(p.pat, range(4_096))
    for power in range(17):
        for flags in (2**power - 1, 2**power, 2**power + 1):
            yield p.pat(flags)


def random_pat(rng):
    return p.pat(rng.randint(0, 65_535))


def boundary_pat():
    for flags in (65_407, 65_408, 65_534, 65_535, 65_536, 65_664, U32, U32 + 129, U64, U64 + 1):
        yield p.pat(flags)
    yield p.pat("000" * 9 + "128")
    # The longest line that the program takes, and one byte more.
    for length in (model.LONGEST_LINE, model.LONGEST_LINE + 1):
        yield p.pat("128".rjust(length - len("PAT\t"), "0"))


def short_fetch():
    places = [None, -1, 0, 1, 2, I64, -I64 - 1]
    for wanted in rows_over(places, 3):
        for reference in (b"", b"A", b"C\0", b"cG\xff"):
            yield p.fetch(wanted, reference)


def random_fetch(rng):
    reference = pick_bytes(rng, b"ACGTacgtN\0\x80", rng.randint(0, 30))
    wanted = [rng.choice((None, -1, -5, rng.randint(0, 33), rng.randint(0, 33))) for _ in range(rng.randint(0, 20))]
    return p.fetch(wanted, reference)


def boundary_fetch():
    wanted = list(range(16_001))
    yield p.fetch(wanted[:15_999], b"ACGT" * 4_000)
    yield p.fetch(wanted[:16_000], b"ACGT" * 4_000, room=16_000)
    yield p.fetch(wanted, b"ACGT" * 4_000, room=16_000)
    for place in ("-0", "01", "-01", "0" * 40 + "1", I64 + 1, -I64 - 2, "+1", "--1"):
        yield p.fetch([place], b"AC")
    yield p.fetch([0] * 65_537, b"C" * 65_537)
    yield p.fetch([0] * 65_538, b"C")
    yield p.fetch([0], b"C" * 65_538)


# ---- Evidence ----------------------------------------------------------------------------------


def short_ann():
    shown = (None, 0, *b"CcGgT")
    for base, yes, pattern, count_all in itertools.product(letters(b"CcTtGgAaN\0"), (0, 1, 2), "CG", (0, 1)):
        for reference_row in ([], *([byte] for byte in shown)):
            yield p.ann(1, pattern, count_all, reference_row, [base], [bytes([yes])])
    for length in range(4):
        for first, second in itertools.product((b"", b"C", b"CT", b"TCC"), repeat=2):
            yes = b"\1\0\1\1\0\1"[: len(first) + len(second)]
            yield p.ann(length, "C", 0, b"CCC"[:2], [first, second], [yes])
            yield p.ann(length, "C", 1, b"CCC"[:2], [first, second], [yes])


def random_ann(rng):
    length, pattern = rng.randint(0, 12), rng.choice("CG")
    reads = [pick_bytes(rng, b"CCTTGGAActgaN", rng.randint(0, 14)) for _ in range(rng.randint(0, 6))]
    aligned = [pick_bytes(rng, b"\0\1\1\1\x80", len(read)) for read in reads]
    if rng.random() < 0.1 and aligned:
        aligned[rng.randrange(len(aligned))] += b"\1"
    elif rng.random() < 0.1:
        aligned = [b"".join(aligned)]  # only the total counts
    row = [rng.choice((None, 0, *b"CCGGcgAT")) for _ in range(max(0, length + rng.randint(-3, 3)))]
    return p.ann(length, pattern, rng.randint(0, 1), row, reads, aligned)


def boundary_ann():
    for count in (4_096, 4_097, 4_095):
        yield p.ann(2, "C", 0, b"CC", [b"T"] * count, [b"\1" * count])
    yield p.ann(1, "C", 1, b"C", [b"C"] * 4_098, [b"\1" * 4_098])
    yield p.ann(1, "C", 0, b"C", [b"C"] * 4_097, [b""])
    for length in (16_000, 16_001, 15_999):
        yield p.ann(length, "G", 0, b"Gg" * 8_000, [b"GA" * 8_000], [b"\1\1\0\1" * 4_000])
    yield p.ann(U64, "G", 0, b"G", [], [])
    yield p.ann(16_000, "C", 1, [], [b"T" * 65_536], [b"\0" * 65_536])
    yield p.ann(1, "C", 0, b"C", [b"T" * 65_537], [b"\1" * 65_537])
    yield p.ann(1, "C", 0, b"C", [b"T" * 65_538], [b"\1" * 65_538])
    yield p.ann(3, "C", 0, b"C" * 65_537, [b"TTT"], [b"\1\1\1"])


def random_columns(rng, length):
    """Three columns; sometimes one of them has another length."""
    lengths = [length] * 3
    if rng.random() < 0.06:
        lengths[rng.randrange(3)] += rng.choice((-1, 1))
    inf, unc, con = (max(0, one) for one in lengths)
    return pick_bytes(rng, b"\0\1\1\xff", inf), rng.choices(COUNTS, k=unc), rng.choices(COUNTS, k=con)


SMALL_COUNTS = [0, 1, 32_767, 32_768, U32]
SMALL_COLUMNS = [
    (inf, [unc], [con]) for inf, unc, con in itertools.product((b"\0", b"\1", b"\5"), SMALL_COUNTS, SMALL_COUNTS)
]


def large_columns(length):
    return (b"\0\1\2" * length)[:length], ([1, 0, 9] * length)[:length], ([0, 5] * length)[:length]


def unequal_columns():
    """Columns of 0 to 2 positions in all combinations, and columns at the domain's bound that differ in length."""
    for inf, unc, con in itertools.product(range(3), repeat=3):
        yield b"\1" * inf, [1] * unc, [2] * con
    for lengths in ((16_001, 16_000, 16_000), (1, 16_001, 1), (16_000, 16_000, 15_999)):
        yield tuple(column[:length] for column, length in zip(large_columns(16_001), lengths))


def short_gate():
    for columns in SMALL_COLUMNS:
        yield p.gate("C", *columns)
        yield p.gate("G", *columns)


def random_gate(rng):
    return p.gate(rng.choice("CG"), *random_columns(rng, rng.randint(0, 10)))


def boundary_gate():
    for length in (16_000, 16_001, 15_999, 16_002):
        yield p.gate("C", *large_columns(length))
    for columns in unequal_columns():
        yield p.gate("G", *columns)


def short_trunc():
    for columns, length in itertools.product(SMALL_COLUMNS, (0, 1, 2, U64)):
        yield p.trunc(length, "G", *columns)


def random_trunc(rng):
    length = rng.randint(0, 10)
    return p.trunc(max(0, length + rng.randint(-4, 4)), rng.choice("CG"), *random_columns(rng, length))


def boundary_trunc():
    for length in (16_000, 16_001, 15_999):
        yield p.trunc(16_000, "C", *large_columns(length))
    yield p.trunc(15_999, "C", *large_columns(16_000), room=15_999)
    yield p.trunc(15_999, "C", *large_columns(16_000), room=15_998)
    yield p.trunc(1, "C", *large_columns(16_002))
    for columns in unequal_columns():
        yield p.trunc(1, "G", *columns)


def short_cnt():
    for columns in SMALL_COLUMNS:
        yield p.cnt("C", *columns)


def random_cnt(rng):
    return p.cnt(rng.choice("CG"), *random_columns(rng, rng.randint(0, 10)))


def boundary_cnt():
    for length in (16_000, 16_001, 15_999, 16_002):
        yield p.cnt("C", *large_columns(length))
    yield p.cnt("C", *large_columns(16_000), room=15_999)
    for columns in unequal_columns():
        yield p.cnt("G", *columns)


def short_rest():
    for seq in words_over(letters(b"TtCAaGN"), 3):
        for inf in itertools.product(b"\0\1", repeat=len(seq)):
            yield p.rest("C", seq, bytes(inf))
            yield p.rest("G", seq, bytes(inf))


def random_rest(rng):
    seq = pick_bytes(rng, b"ACGTacgtN\xd4", rng.randint(0, 15))
    length = len(seq) + (rng.choice((-1, 1)) if rng.random() < 0.06 else 0)
    return p.rest(rng.choice("CG"), seq, pick_bytes(rng, b"\0\1\x80", max(0, length)))


def boundary_rest():
    for length in (16_000, 16_001, 15_999, 16_002):
        yield p.rest("C", b"T" * length, (b"\0\1" * length)[:length])
    yield p.rest("C", b"T" * 16_001, b"\1")
    yield p.rest("C", b"T", b"\1" * 16_001)
    yield p.rest("C", b"T" * 16_000, b"\1" * 15_999)


# ---- Building ----------------------------------------------------------------------------------


def short_evidence():
    """Pattern, mode, SEQ and columns of at most two positions, and all small ratios of counts at one position."""
    at_place = list(itertools.product(b"CcGA", (0, 1), ((0, 0), (1, 0), (0, 1), (1, 1))))
    for places in rows_over(at_place, 2):
        seq = bytes(base for base, _, _ in places)
        inf = bytes(yes for _, yes, _ in places)
        unc, con = ([pair[k] for _, _, pair in places] for k in (0, 1))
        for pattern, mode in itertools.product("CG", "ETD"):
            yield pattern, mode, seq, inf, unc, con
    for unc, con, mode in itertools.product(range(21), range(21), "ET"):
        yield "C", mode, b"C", b"\1", [unc], [con]


def random_evidence(rng):
    length = rng.randint(0, 25)
    seq = pick_bytes(rng, b"CCCcGGgATN", length)
    if rng.random() < 0.03:
        seq += b"C"
    mode = rng.choice("EEETTTD")
    return rng.choice("CG"), mode, seq, *random_columns(rng, length)


def large_evidence(length):
    return "C", "E", b"C" * length, b"\1" * length, [3] * length, [1] * length


def boundary_evidence():
    for length in (16_000, 16_001, 15_999):
        yield large_evidence(length)
    yield "C", "T", b"A" * 15_999 + b"C", b"\1" * 16_000, [1] * 16_000, [U32] * 16_000
    yield "G", "T", b"G" * 16_000, b"\0" * 15_999 + b"\1", [1] * 16_000, [0] * 16_000
    yield "C", "E", b"C" * 16_002, b"\1", [1], [1]
    yield "C", "E", b"C" * 16_000, b"\1" * 16_001, [1], [1]
    for columns in unequal_columns():
        yield "C", "E", b"C", *columns


def short_build():
    return (p.build(*evidence) for evidence in short_evidence())


def random_build(rng):
    return p.build(*random_evidence(rng))


def boundary_build():
    for evidence in boundary_evidence():
        yield p.build(*evidence)
    for room in ((32_005, 16_000), (32_004, 16_000), (32_005, 15_999)):
        yield p.build(*large_evidence(16_000), room=room)


def short_buildmm():
    return (p.buildmm(*evidence) for evidence in short_evidence())


def random_buildmm(rng):
    return p.buildmm(*random_evidence(rng))


def boundary_buildmm():
    for evidence in boundary_evidence():
        yield p.buildmm(*evidence)
    yield p.buildmm(*large_evidence(16_000), room=32_004)


SMALL_STRANDS = [
    (pattern, bytes([yes]), [unc], [con])
    for pattern, yes, (unc, con) in itertools.product("CG", (0, 1), ((0, 0), (1, 2), (32_000, U32)))
]


def short_dup():
    for mode, seq in itertools.product("ETD", letters(b"CTtGaN")):
        for first in SMALL_STRANDS:
            yield p.dup(mode, seq, first)
            for second in SMALL_STRANDS:
                yield p.dup(mode, seq, first, second)


def random_strand(rng, length):
    return (rng.choice("CG"), *random_columns(rng, length))


def random_dup(rng):
    length = rng.randint(0, 16)
    count = rng.choice((1, 2, 2, 2, 2, 2, 2, 2, 2, 2, 2, 2, 2, 2, 2, 2, 0, 3))
    seq = pick_bytes(rng, b"CCTTGGAActgaN", length + (rng.random() < 0.02))
    return p.dup(rng.choice("EEETTTD"), seq, *(random_strand(rng, length) for _ in range(count)))


def boundary_dup():
    for length in (16_001, 15_999):
        _, mode, seq, *columns = large_evidence(length)
        yield p.dup(mode, seq, ("G", *columns))
    _, mode, seq, *columns = large_evidence(16_000)
    strands = ("C", *columns), ("C", *columns)
    yield p.dup(mode, seq, *strands, room=(64_010, 31_999))
    small = ("C", b"\1", [1], [0])
    yield p.dup("E", b"C", small, ("C", b"\1" * 16_001, [1], [0]))
    yield p.dup("E", b"C", small, small, small, small)
    yield p.dup("E", b"C" * 16_002, small)
    for columns in unequal_columns():
        yield p.dup("E", b"C", small, ("G", *columns))


# ---- Tags --------------------------------------------------------------------------------------


def large_tags():
    """Tags at and around the bounds of the domain, each with its ML and its SEQ."""
    yield b"N+a?,15999;C+m?,7999;", b"\1\2", b"AC" * 8_000
    yield b"N+a?,15999;", b"\1", b"C" * 16_001
    yield b"C+m?,0;", b"\x80" * 65_537, b"C"
    for size in (65_537, 65_536, 65_535):
        yield b"C+m?," + b"0" * (size - 7) + b"1;", b"\7", b"ACAC"
    # As many ML values as the domain takes: four bases of 16,384 codes each.
    yield b"C+" + b"m" * 16_384 + b"?,0,0,0,0;", b"\x7f\x80" * 32_768, b"CCCC"
    yield b"C+" + b"m" * 13_107 + b"?,0,0,0,0,0;", b"\x80" * 65_535, b"CCCCC"
    for length in (16_000, 15_999, 16_001):
        yield all_listed(length)
    # Over the program's buffers.
    yield b"C+m?;", None, b"C" * 16_002
    yield b"C+" + b"m" * 65_535 + b";", None, b"C"


def short_calls():
    for mm in short_texts():
        for ml in near_mls(mm):
            yield p.calls(mm, ml, b"CAC")


def random_calls(rng):
    seq = random_seq(rng)
    return p.calls(*random_tag(rng, seq), seq)


def boundary_calls():
    for tag in (*large_tags(), many_groups(21_845)):
        yield p.calls(*tag)
    yield p.calls(*all_listed(16_000), room=16_000)
    yield p.calls(*all_listed(16_000), room=15_999)


def short_tally():
    for mm in short_texts(symbols=3, tokens=3):
        for ml in near_mls(mm)[1:]:  # it always takes an ML
            yield p.tally(mm, ml, b"CAC")


def random_tally(rng):
    seq = random_seq(rng)
    mm, ml = random_tag(rng, seq)
    return p.tally(mm, ml or b"", seq)


def boundary_tally():
    for mm, ml, seq in large_tags():
        yield p.tally(mm, ml or b"", seq)


# ---- Edits -------------------------------------------------------------------------------------

SHORT_SEQ = b"CCAC"


def short_edits():
    """Every short tag with every set of places of the short SEQ: with an ML that fits, and with one of the near MLs by turns."""
    choices = itertools.cycle(range(4))
    for mm in short_texts(symbols=2, tokens=3):
        for places in subsets(range(4)):
            mls = near_mls(mm)
            for ml in dict.fromkeys((mls[1], mls[next(choices) % len(mls)])):
                yield mm, ml, places


def short_mask():
    for mm, ml, places in short_edits():
        yield p.mask(mm, ml, SHORT_SEQ, masked_at(SHORT_SEQ, places))
    for before, after in itertools.product(words_over(letters(b"CAN"), 2), words_over(letters(b"CAN"), 2)):
        yield p.mask(b"C+m?,0;N+n.;", b"\1", before, after)


def random_after(rng, seq):
    after = bytearray(masked_at(seq, some_places(rng, len(seq))))
    if after and rng.random() < 0.15:
        after[rng.randrange(len(after))] = rng.choice(b"nCcG\0")
    return bytes(after)


def random_mask(rng):
    seq = random_seq(rng)
    after = random_after(rng, seq)
    if rng.random() < 0.03:
        after = after + b"N" if rng.random() < 0.5 else after[:-1]
    return p.mask(*random_tag(rng, seq), seq, after)


def boundary_mask():
    for mm, ml, seq in large_tags():
        yield p.mask(mm, ml, seq, (b"CN" * len(seq))[: len(seq)])
    mm, ml, seq = all_listed(16_000)
    for room in ((16_004, 7_999), (16_005, 7_999), (16_005, 8_000), (16_004, 8_000)):
        yield p.mask(mm, ml, seq, b"CN" * 8_000, room=room)
    yield p.mask(b"C+m?;", None, b"A" * 16_000, b"A" * 16_001)
    yield p.mask(b"C+m?;", None, b"A" * 16_000, b"A" * 15_999)


def short_drop():
    for mm, ml, places in short_edits():
        yield p.drop(mm, ml, SHORT_SEQ, places)


def random_drop(rng):
    seq = random_seq(rng)
    droppable = [header for header in HEADERS if header.endswith(b"?")]
    tag = random_tag(rng, seq, rng.choice((HEADERS, droppable, droppable)))
    return p.drop(*tag, seq, some_places(rng, len(seq)))


def boundary_drop():
    for mm, ml, seq in large_tags():
        yield p.drop(mm, ml, seq, [0, U64])
    mm, ml, seq = all_listed(16_000)
    yield p.drop(mm, ml, seq, range(15_999, -1, -1))
    yield p.drop(mm, ml, seq, range(0, 16_000, 2), room=(16_005, 8_000))
    yield p.drop(mm, ml, seq, range(0, 16_000, 2), room=(16_004, 8_000))
    for place in ("00", "0" * 40 + "1", U64 + 1, "-0", "-"):
        yield p.drop(b"C+m?,0,0;", None, b"CC", [place])
    yield p.drop(b"C+m?,0;", b"\1", b"C", [0] * 65_537)
    yield p.drop(b"C+m?,0;", b"\1", b"C", [0] * 65_538)
    yield p.drop(*many_groups(21_845), [3])


def rows_drop():
    for length in ROW_LENGTHS:
        for places in places_at_ends(length):
            yield p.drop(*listed_at_ends(length), places)


def short_cut():
    tags = [(b"C+m?,0;", None), (b"C+m,1;", b"\1"), (b"N+mh?,0,0;", b"\1\2\3\4"), (b"C+m?;", b""), (b"C", None)]
    seqs = list(words_over(letters(b"CN"), 3))
    for before, after, (mm, ml) in itertools.product(seqs, seqs, tags):
        for start in (None, 0, 1, 2, 4):
            yield p.cut(mm, ml, before, after, start)
    for mm, ml, places in short_edits():
        yield p.cut(mm, ml, SHORT_SEQ, masked_at(SHORT_SEQ, places)[len(places) // 2 :], len(places) // 2)


def random_cut(rng):
    seq = random_seq(rng)
    front = rng.randint(0, len(seq)) if rng.random() < 0.8 else 0
    back = rng.randint(front, len(seq)) if rng.random() < 0.8 else len(seq)
    after = random_after(rng, seq[front:back])
    start = front
    if rng.random() < 0.12:
        start = rng.choice((None, front + 1, max(0, front - 1), U64, len(seq)))
    return p.cut(*random_tag(rng, seq), seq, after, start)


def boundary_cut():
    for mm, ml, seq in large_tags():
        yield p.cut(mm, ml, seq, seq[1:], 1)
    mm, ml, seq = all_listed(16_000)
    for room in ((32_003, 15_999), (32_002, 15_999), (32_003, 15_998)):
        yield p.cut(mm, ml, seq, seq[1:], 1, room=room)
    yield p.cut(mm, ml, seq, b"", 16_000)
    yield p.cut(mm, ml, seq, seq, None)
    yield p.cut(b"C+m?;", None, b"A" * 16_000, b"A" * 16_001, 0)


# ---- The session's steps -----------------------------------------------------------------------


def short_step():
    for mm, ml, places in short_edits():
        kind = ("MK", "DR")[len(mm) % 2]
        yield p.whole_step(SHORT_SEQ, mm, ml, kind, places)
    tags = [(b"C+m?,0;", None), (b"C+m,1;", b"\1"), (b"N+mh?,0,0;", b"\1\2\3\4"), (b"C", None)]
    for seq, (mm, ml) in itertools.product(words_over(letters(b"CA"), 3), tags):
        for front, back in itertools.product(range(4), repeat=2):
            yield p.whole_step(seq, mm, ml, "CU", [front, back])


def buffer_lengths(rng, seq, mm, ml):
    """The session's lengths; sometimes one of them is wrong, as if other code had changed it."""
    lengths = [len(seq), len(mm), len(ml or b"")]
    if rng.random() < 0.1:
        which = rng.randrange(3)
        lengths[which] = rng.choice((0, max(0, lengths[which] - 1), lengths[which] + 1, 16_000, 16_001, 65_537, U64))
    return lengths


def random_step(rng):
    seq = random_seq(rng)
    mm, ml = random_tag(rng, seq)
    lengths = buffer_lengths(rng, seq, mm, ml)
    spare = [rng.randbytes(rng.choice((0, 0, 1, 5))) for _ in range(3)]
    kind = rng.choice(("MK", "DR", "CU"))
    if kind == "CU":
        ends = rng.randint(0, len(seq) // 2 + 1), rng.randint(0, len(seq) // 2 + 1)
        arguments = rng.choice((ends, ends, ends, ends, (0, 0), (U32, U32), (U64, U64), (U64, 1)))
    else:
        arguments = some_places(rng, len(seq))
    return p.step(seq + spare[0], mm + spare[1], None if ml is None else ml + spare[2], lengths, kind, arguments)


def boundary_step():
    for number, (mm, ml, seq) in enumerate(large_tags()):
        kind, arguments = (("MK", [0, 2]), ("DR", [0]), ("CU", [1, 0]))[number % 3]
        yield p.whole_step(seq, mm, ml, kind, arguments)
    mm, ml, seq = all_listed(16_000)
    yield p.step(seq + b"x", mm, ml, [16_000, len(mm), len(ml)], "CU", [0, 16_000])
    yield p.step(seq + b"x", mm, ml, [16_001, len(mm), len(ml)], "CU", [0, 16_000])
    yield p.whole_step(seq, mm, ml, "CU", [8_000, 8_001])
    yield p.whole_step(seq, mm, ml, "DR", range(0, 16_000, 3))


def rows_step():
    for length in ROW_LENGTHS:
        mm, ml, seq = listed_at_ends(length)
        for kind, places in itertools.product(("MK", "DR"), places_at_ends(length)):
            yield p.whole_step(seq, mm, ml, kind, places)
        yield p.whole_step(seq, mm, ml, "CU", [1, 0])
        yield p.whole_step(seq, mm, ml, "CU", [0, 1])


# ---- Reads as a BAM record stores them ---------------------------------------------------------

ODD_COUNTS = [0, 1, 2, 16_000, 16_001, 2**32, 2**63, U64 - 1, U64]


def packed_pair(rng, seq, reverse):
    """The stated number of bases and the packed bytes; now and then they disagree."""
    count, packed = len(seq), stored(seq, reverse, rng.randrange(16))
    chance = rng.random()
    if chance < 0.02:
        packed = packed[:-1]
    elif chance < 0.04:
        packed += rng.randbytes(1)
    elif chance < 0.06:
        count += rng.choice((-2, -1, 1, 2))
    elif chance < 0.07:
        count = rng.choice(ODD_COUNTS)
    return max(0, count), packed


def short_pairs():
    """Every byte as no base, one, two and three; and three and four bases in two bytes."""
    for byte, count in itertools.product(range(256), range(4)):
        yield count, bytes([byte])
    for first, second in itertools.product((0x00, 0x12, 0x48, 0xF1, 0x3C), (0x00, 0x4F, 0x80, 0x8D, 0xFF)):
        for count in range(6):
            yield count, bytes([first, second])
    yield from ((count, b"") for count in ODD_COUNTS)


def boundary_pairs():
    for count in (16_000, 15_999, 16_001, 15_998):
        packed = stored((model.LETTERS * 1_001)[:count], 0, 9)
        yield count, packed
        yield count, packed[:-1]
        yield count, packed + b"\1"
    yield 16_001, b""
    yield 3, bytes(8_001)
    yield 3, bytes(65_537)
    yield 3, bytes(65_538)
    for count in ("00", "0" * 40 + "1", U64 + 1, "-0", "-", "*"):
        yield count, b"\x12"


def random_pair(rng):
    """Whether the read is reverse, the stated number of bases and the packed bytes."""
    reverse = rng.randint(0, 1)
    return reverse, *packed_pair(rng, stored_seq(rng), reverse)


def short_turn():
    return (p.turn(count, packed) for count, packed in short_pairs())


def random_turn(rng):
    return p.turn(*random_pair(rng)[1:])


def boundary_turn():
    for count, packed in boundary_pairs():
        yield p.turn(count, packed)
    for room in (8_000, 7_999):
        yield p.turn(15_999, stored(b"ACG" * 5_333, 0, 15), room=room)


def rows_of_reads():
    """Stored reads of about 1,024 bases with calls at both ends, forward and reverse: whether reverse, the number of bases, the packed bytes, text and ML."""
    for length, reverse in itertools.product(ROW_LENGTHS, (0, 1)):
        mm, ml, seq = listed_at_ends(length)
        yield reverse, length, stored(seq, reverse, 11), mm, ml


def rows_turn():
    for _, count, packed, _, _ in rows_of_reads():
        yield p.turn(count, packed)


def short_unpack():
    for (count, packed), reverse in itertools.product(short_pairs(), (0, 1)):
        yield p.unpack(reverse, count, packed)


def random_unpack(rng):
    return p.unpack(*random_pair(rng))


def boundary_unpack():
    for reverse, (count, packed) in enumerate(boundary_pairs()):
        yield p.unpack(reverse % 2, count, packed)
    for room in (15_999, 15_998):
        yield p.unpack(1, 15_999, stored(b"ACG" * 5_333, 1, 15), room=room)
    for reverse in ("2", "-", "00", "01"):
        yield p.tab("K1.UNPACK", reverse, 1, "10")


def rows_unpack():
    for reverse, count, packed, _, _ in rows_of_reads():
        yield p.unpack(reverse, count, packed)


def stored_tags():
    """The tags at and around the bounds, each with a read's packed bytes, reverse by turns."""
    for turn, (mm, ml, seq) in enumerate(large_tags()):
        reverse = turn % 2
        yield reverse, len(seq), stored(seq, reverse, turn % 16), mm, ml


def short_stored_calls():
    for mm in short_texts(symbols=2, tokens=3):
        for turn, ml in enumerate(near_mls(mm)):
            reverse = (len(mm) + turn) % 2
            yield p.stored_calls(reverse, 3, stored(b"CAC", reverse, turn), mm, ml)
    for turn, seq in enumerate(words_over(letters(b"CGN="), 3)):
        for reverse, mm in itertools.product((0, 1), (b"C+m?,0;", b"N+m?,1;", b"=+a?,0;G-m;", b"N+n?,0,0;")):
            yield p.stored_calls(reverse, len(seq), stored(seq, reverse, turn % 16), mm, None)


def random_stored_calls(rng):
    seq, reverse = stored_seq(rng), rng.randint(0, 1)
    return p.stored_calls(reverse, *packed_pair(rng, seq, reverse), *random_tag(rng, seq, STORED_HEADERS))


def boundary_stored_calls():
    for reverse, count, packed, mm, ml in stored_tags():
        yield p.stored_calls(reverse, count, packed, mm, ml)
    mm, ml, seq = all_listed(15_999)
    for room in (15_999, 15_998):
        yield p.stored_calls(1, 15_999, stored(seq, 1, 3), mm, ml, room=room)
    for count, packed in boundary_pairs():
        yield p.stored_calls(1, count, packed, b"C+m?;", None)
    # 1 comes before 2, and 2 before the text's own numbers.
    yield p.stored_calls(0, 3, b"", b"C+m?" * 16_385, None)
    yield p.stored_calls(0, 3, b"", b"", b"\0" * 65_537)
    yield p.stored_calls(1, 3, b"", b"\xff", None)


def rows_stored_calls():
    for reverse, count, packed, mm, ml in rows_of_reads():
        yield p.stored_calls(reverse, count, packed, mm, ml)
        yield p.stored_calls(reverse, count, packed, mm, None)
        # One base more is stated: the spare half is a base, or the bytes are too few.
        yield p.stored_calls(reverse, count + 1, packed, mm, ml)
        # The last skip leads past the read's end.
        yield p.stored_calls(reverse, count, packed, mm.replace(b",0;", b",1;"), ml)


def stored_edits():
    """Short tags with every set of places, on forward and reverse reads: of four bases, with an ML that fits and with one of the near MLs by turns; and of
    five bases and a spare half that is not 0, with one of these two."""
    choices = itertools.cycle(range(4))
    for mm in short_texts(symbols=1, tokens=2):
        mls = near_mls(mm)
        for places, reverse in itertools.product(subsets(range(4)), (0, 1)):
            for ml in dict.fromkeys((mls[1], mls[next(choices) % len(mls)])):
                yield reverse, 4, stored(b"CCAC", reverse), mm, ml, places
        for turn, (places, reverse) in enumerate(itertools.product(subsets(range(5)), (0, 1))):
            ml = mls[1] if turn % 4 < 2 else mls[next(choices) % len(mls)]
            yield reverse, 5, stored(b"CCACC", reverse, turn % 15 + 1), mm, ml, places


def masked_stored(count, packed, places):
    """The packed bytes with N at places of the stored read, and the spare half as it was."""
    after = masked_at(model.unpacked(count, packed), places)
    spare = packed[-1] & 15 if packed else 0
    return stored(after, 0, spare)


def short_stored_mask():
    for reverse, count, before, mm, ml, places in stored_edits():
        yield p.stored_mask(reverse, count, before, count, masked_stored(count, before, places), mm, ml)
    words = list(words_over(letters(b"CGN"), 2))
    for turn, (before, after) in enumerate(itertools.product(words, words)):
        for reverse in (0, 1):
            pair = len(before), stored(before, reverse, turn % 16), len(after), stored(after, reverse, turn % 7)
            yield p.stored_mask(reverse, *pair, b"C+m?,0;N+n.;", b"\1")


def random_stored_mask(rng):
    seq, reverse = stored_seq(rng), rng.randint(0, 1)
    after = bytearray(masked_at(seq, some_places(rng, len(seq))))
    if after and rng.random() < 0.15:
        after[rng.randrange(len(after))] = rng.choice(model.LETTERS)
    if rng.random() < 0.03:
        after = after + b"N" if rng.random() < 0.5 else after[:-1]
    pairs = *packed_pair(rng, seq, reverse), *packed_pair(rng, bytes(after), reverse)
    return p.stored_mask(reverse, *pairs, *random_tag(rng, seq, STORED_HEADERS))


def boundary_stored_mask():
    for reverse, count, packed, mm, ml in stored_tags():
        after = masked_stored(count, packed, range(1, count, 2))
        yield p.stored_mask(reverse, count, packed, count, after, mm, ml)
    mm, ml, seq = all_listed(15_999)
    packed = stored(seq, 1, 7)
    after = masked_stored(15_999, packed, range(1, 15_999, 2))
    for room in ((16_005, 8_000), (16_004, 8_000), (16_005, 7_999)):
        yield p.stored_mask(1, 15_999, packed, 15_999, after, mm, ml, room=room)
    yield p.stored_mask(0, 16_000, bytes(8_000), 16_001, bytes(8_001), b"C+m?;", None)
    yield p.stored_mask(0, 16_001, bytes(8_001), 16_000, bytes(8_000), b"C+m?;", None)
    # Equally many bytes, and still not equally many bases.
    yield p.stored_mask(1, 15_999, bytes(8_000), 16_000, bytes(8_000), b"C+m?;", None)
    yield p.stored_mask(1, 3, bytes(2), 16_001, bytes(2), b"", None)
    yield p.stored_mask(1, 3, bytes(1), 3, bytes(2), b"", None)
    yield p.stored_mask(1, 3, bytes(2), 3, bytes(3), b"", None)


def rows_stored_mask():
    for reverse, count, packed, mm, ml in rows_of_reads():
        for places in places_at_ends(count):
            yield p.stored_mask(reverse, count, packed, count, masked_stored(count, packed, places), mm, ml)
        # One base more and one fewer after the mask, so that the two SEQs take different rows.
        for other in (count + 1, count - 1):
            yield p.stored_mask(reverse, count, packed, other, stored(b"C" * other, reverse), mm, ml)


def short_stored_drop():
    for reverse, count, packed, mm, ml, places in stored_edits():
        yield p.stored_drop(reverse, count, packed, places, mm, ml)
    for turn, (count, reverse) in enumerate(itertools.product(range(6), (0, 1))):
        for place in range(8):
            mm = b"C+m?" + b",0" * count + b";"
            yield p.stored_drop(reverse, count, stored(b"C" * count, reverse, turn % 16), [place], mm, bytes(range(count)))


def random_stored_drop(rng):
    seq, reverse = stored_seq(rng), rng.randint(0, 1)
    droppable = [header for header in STORED_HEADERS if header.endswith(b"?")]
    tag = random_tag(rng, seq, rng.choice((STORED_HEADERS, droppable, droppable)))
    return p.stored_drop(reverse, *packed_pair(rng, seq, reverse), some_places(rng, len(seq)), *tag)


def boundary_stored_drop():
    for reverse, count, packed, mm, ml in stored_tags():
        yield p.stored_drop(reverse, count, packed, [0, U64], mm, ml)
    mm, ml, seq = all_listed(15_999)
    packed = stored(seq, 1, 15)
    yield p.stored_drop(1, 15_999, packed, range(15_999, -1, -1), mm, ml)
    for room in ((16_005, 8_000), (16_004, 8_000)):
        yield p.stored_drop(1, 15_999, packed, range(1, 15_999, 2), mm, ml, room=room)
    for place in ("00", "0" * 40 + "1", U64 + 1, "-0", "-"):
        yield p.stored_drop(1, 2, b"\x44", [place], b"C+m?,0,0;", None)
    yield p.stored_drop(1, 1, b"\x4f", [0] * 65_537, b"C+m?,0;", b"\1")
    yield p.stored_drop(1, 1, b"\x4f", [0] * 65_538, b"C+m?,0;", b"\1")
    for way in ("new", "OLD", ".", "", "older"):
        yield p.stored_drop(0, 1, b"\x20", [0], b"C+m?,0;", b"\1", way=way)


def rows_stored_drop():
    for reverse, count, packed, mm, ml in rows_of_reads():
        for places in places_at_ends(count):
            yield p.stored_drop(reverse, count, packed, places, mm, ml)


def short_stored_cut():
    tags = [(b"C+m?,0;", None), (b"N+mh?,0,0;", b"\1\2\3\4"), (b"C", None)]
    words = list(words_over(letters(b"CGN"), 2)) + [b"CGC", b"GCN"]
    for turn, (before, after, (mm, ml)) in enumerate(itertools.product(words, words, tags)):
        for start, reverse in itertools.product((None, 0, 1, 2, 4), (0, 1)):
            pair = len(before), stored(before, reverse, turn % 16), len(after), stored(after, reverse, turn % 7)
            yield p.stored_cut(reverse, *pair, start, mm, ml)


def random_stored_cut(rng):
    seq, reverse = stored_seq(rng), rng.randint(0, 1)
    front = rng.randint(0, len(seq)) if rng.random() < 0.8 else 0
    back = rng.randint(front, len(seq)) if rng.random() < 0.8 else len(seq)
    after = masked_at(seq[front:back], some_places(rng, back - front) if rng.random() < 0.5 else ())
    if after and rng.random() < 0.05:
        after = after[:-1] + pick_bytes(rng, model.LETTERS, 1)
    start = len(seq) - back if reverse else front
    if rng.random() < 0.12:
        start = rng.choice((None, start + 1, max(0, start - 1), U64, len(seq)))
    pairs = *packed_pair(rng, seq, reverse), *packed_pair(rng, after, reverse)
    return p.stored_cut(reverse, *pairs, start, *random_tag(rng, seq, STORED_HEADERS))


def boundary_stored_cut():
    for reverse, count, packed, mm, ml in stored_tags():
        after = stored(model.unpacked(count, packed)[1:], 0, 5)
        yield p.stored_cut(reverse, count, packed, max(0, count - 1), after, 1, mm, ml)
    mm, ml, seq = all_listed(15_999)
    packed, after = stored(seq, 1, 1), stored(seq[1:], 1)
    for room in ((32_001, 15_998), (32_000, 15_998), (32_001, 15_997)):
        yield p.stored_cut(1, 15_999, packed, 15_998, after, 0, mm, ml, room=room)
    yield p.stored_cut(1, 15_999, packed, 0, b"", 15_999, mm, ml)
    yield p.stored_cut(1, 15_999, packed, 15_999, stored(seq, 1, 2), None, mm, ml)
    yield p.stored_cut(0, 16_000, bytes(8_000), 16_001, bytes(8_001), 0, b"C+m?;", None)
    # 2 comes before 21: the same bytes, of which there is one too many.
    yield p.stored_cut(0, 2, b"\x11\x22", 2, b"\x11\x22", 0, b"", None)
    for start in (U64, U64 - 1, U64 - 2, 2**63, 2**32):
        yield p.stored_cut(1, 3, b"\x44\x40", 2, b"\x44", start, b"C+m?;", None)


def rows_stored_cut():
    """Cuts of one base at either end, so from 1,025 bases to 1,024 too; masks without a cut; and a window of one base more."""
    for reverse, count, packed, mm, ml in rows_of_reads():
        seq = model.unpacked(count, packed)
        for start in (0, 1):
            yield p.stored_cut(reverse, count, packed, count - 1, stored(seq[start:][: count - 1], 0, 6), start, mm, ml)
        yield p.stored_cut(reverse, count, packed, count, masked_stored(count, packed, [0, count - 1]), None, mm, ml)
        yield p.stored_cut(reverse, count, packed, count + 1, stored(seq + b"C", 0), 0, mm, ml)


SHORT_STEPS = [
    ("MK", [0]), ("MK", [1, 7]), ("MK", []), ("DR", [0]), ("DR", [2, 2]), ("DR", [U64]),
    ("CU", [1, 0]), ("CU", [0, 1]), ("CU", [0, 0]), ("CU", [1, 9]), ("CU", [2, 1]),
]


def short_stored_session():
    tags = [(b"C+m?,0;", b"\7"), (b"N+mh?,0;C+m;", b"\1\2"), (b"C+m?,0,0;", None), (b"C+m,0;", b"\3")]
    turn = 0
    for seq, steps in itertools.product((b"C", b"CC", b"CAC", b"CGNC", b"CCACC"), rows_over(SHORT_STEPS, 2)):
        for reverse in (0, 1):
            turn += 1
            mm, ml = tags[turn // 2 % 4]
            yield p.stored_session(reverse, len(seq), stored(seq, reverse, turn % 16), mm, ml, *steps)


def random_session_step(rng, length):
    kind = rng.choice(("MK", "DR", "CU"))
    if kind != "CU":
        return kind, some_places(rng, length)
    ends = rng.randint(0, length // 3 + 1), rng.randint(0, length // 3 + 1)
    return kind, rng.choice((ends, ends, ends, ends, ends, (0, 0), (U32, U32), (U64, 1), (length, 0)))


def random_stored_session(rng):
    seq, reverse = stored_seq(rng), rng.randint(0, 1)
    steps = [random_session_step(rng, len(seq)) for _ in range(rng.choice((0, 1, 2, 3, 3, 4, 5, 8)))]
    droppable = [header for header in STORED_HEADERS if header.endswith(b"?")]
    tag = random_tag(rng, seq, rng.choice((STORED_HEADERS, droppable)))
    return p.stored_session(reverse, *packed_pair(rng, seq, reverse), *tag, *steps)


def boundary_stored_session():
    for turn, (reverse, count, packed, mm, ml) in enumerate(stored_tags()):
        steps = [("MK", [0, 2]), ("DR", [0]), ("CU", [1, 0]), ("DR", [1]), ("CU", [0, 2])]
        yield p.stored_session(reverse, count, packed, mm, ml, *(steps[turn % 5 :] + steps[: turn % 5]))
    mm, ml, seq = all_listed(16_000)
    for reverse in (0, 1):
        packed = stored(seq, reverse)
        many = [("CU", [1, 0]), ("MK", [0, 15_998]), ("DR", range(1, 15_999, 3)), ("CU", [0, 15_997]), ("DR", [0, 1])]
        yield p.stored_session(reverse, 16_000, packed, mm, ml, *many)
        all_cut = [("CU", [8_000, 8_001]), ("CU", [0, 16_000]), ("MK", [0]), ("CU", [1, 0])]
        yield p.stored_session(reverse, 16_000, packed, mm, ml, *all_cut)
    for count, packed in boundary_pairs():
        yield p.stored_session(1, count, packed, b"C+m?;", None, ("CU", [1, 0]))
    mm, ml, seq = all_listed(91)
    many = [("MK", [1]), ("DR", [2]), ("CU", [0, 1])]
    yield p.stored_session(1, 91, stored(seq, 1, 5), mm, ml, *(many * 30))
    yield p.stored_session(1, 91, stored(seq, 1, 5), mm, ml, *(many * 1_000))
    usual = 0, 2, b"\x22", b"C+m?,0;", b"\1"
    for way in ("new", "", "old "):
        yield p.stored_session(*usual, ("MK", [0]), way=way)
    odd_steps = ["MK", "MK:", "mk:0", "MK:0,", "CU:1", "CU:1,2,3", "CU:*", "XX:0", "MK0", "MK::0", "DR:-", "", "MK:00,0", "@1,1"]
    for step in (*odd_steps, "DR:" + str(U64 + 1)):
        yield p.stored_session(*usual) + "\t" + step


def rows_stored_session():
    """One step of each kind at both ends; and a cut of one base, after which the other steps may take the smaller row."""
    for reverse, count, packed, mm, ml in rows_of_reads():
        for kind, places in itertools.product(("MK", "DR"), places_at_ends(count)):
            yield p.stored_session(reverse, count, packed, mm, ml, (kind, places))
        for ends in ([1, 0], [0, 1]):
            later = [("DR", [count - 2]), ("MK", [0]), ("CU", [1, 1])]
            yield p.stored_session(reverse, count, packed, mm, ml, ("CU", ends), *later)


# ---- All calls ---------------------------------------------------------------------------------

# By call: all short requests, one random request, the boundary requests, and the number of random requests in a whole run.
SOURCES = {
    "Q": (short_q, random_q, boundary_q, 9_000),
    "CPG": (short_cpg, random_cpg, boundary_cpg, 2_500),
    "PAT": (short_pat, random_pat, boundary_pat, 2_500),
    "FETCH": (short_fetch, random_fetch, boundary_fetch, 5_000),
    "ANN": (short_ann, random_ann, boundary_ann, 14_000),
    "GATE": (short_gate, random_gate, boundary_gate, 5_000),
    "TRUNC": (short_trunc, random_trunc, boundary_trunc, 5_000),
    "CNT": (short_cnt, random_cnt, boundary_cnt, 5_000),
    "REST": (short_rest, random_rest, boundary_rest, 4_000),
    "BUILD": (short_build, random_build, boundary_build, 16_000),
    "BUILDMM": (short_buildmm, random_buildmm, boundary_buildmm, 4_000),
    "DUP": (short_dup, random_dup, boundary_dup, 14_000),
    "CALLS": (short_calls, random_calls, boundary_calls, 18_000),
    "TALLY": (short_tally, random_tally, boundary_tally, 8_000),
    "MASK": (short_mask, random_mask, boundary_mask, 20_000),
    "DROP": (short_drop, random_drop, boundary_drop, 20_000),
    "CUT": (short_cut, random_cut, boundary_cut, 20_000),
    "STEP": (short_step, random_step, boundary_step, 20_000),
    "K1.TURN": (short_turn, random_turn, boundary_turn, 2_000),
    "K1.UNPACK": (short_unpack, random_unpack, boundary_unpack, 2_000),
    "K1.CALLS": (short_stored_calls, random_stored_calls, boundary_stored_calls, 6_000),
    "K1.PMASK": (short_stored_mask, random_stored_mask, boundary_stored_mask, 6_000),
    "K1.PDROP": (short_stored_drop, random_stored_drop, boundary_stored_drop, 6_000),
    "K1.PCUT": (short_stored_cut, random_stored_cut, boundary_stored_cut, 6_000),
    "K1.PSES": (short_stored_session, random_stored_session, boundary_stored_session, 10_000),
    **record_requests.SOURCES,
}
# By call: the requests of about 1,024 bases, where the call chooses between two rows.
ROWS = {
    "DROP": rows_drop,
    "STEP": rows_step,
    "K1.TURN": rows_turn,
    "K1.UNPACK": rows_unpack,
    "K1.CALLS": rows_stored_calls,
    "K1.PMASK": rows_stored_mask,
    "K1.PDROP": rows_stored_drop,
    "K1.PCUT": rows_stored_cut,
    "K1.PSES": rows_stored_session,
    **record_requests.ROWS,
}
CALLS = list(SOURCES)
# These two calls work in place, so the lists lend them no room.
NO_ROOM_ASKED = ("GATE", "REST")


def of_call(call):
    """The stated requests of one call."""
    return [line for _, line, _ in stated.REQUESTS if line.split("\t", 1)[0] == call]


def with_room(rng, line):
    """The request with room exactly as needed, or one less in one of the outputs, or a little more."""
    call = line.split("\t", 1)[0]
    answer = models.answer(line)
    if not answer.startswith("0\t"):
        return p.tab(line, room=[0] * models.CALLS[call][2])
    needed = p.ROOM_FOR[call](*answer.split("\t")[1:])
    which, change = rng.randrange(len(needed)), rng.choice((-1, -1, 0, 0, 1))
    needed[which] = max(0, needed[which] + change)
    return p.tab(line, room=needed)


def random_section(call, rng, count):
    make = SOURCES[call][1]
    for number in range(count):
        line = make(rng)
        yield with_room(rng, line) if call in p.ROOM_FOR and number % 4 == 0 else line


def malformed(call, rng, count=4):
    """Lines that are almost of the form of a request (a few may be requests by chance)."""
    for _ in range(count):
        name, *fields = SOURCES[call][1](rng).split("\t")
        at = rng.randrange(len(fields))
        for odd in ("", "-", "+1", "1,", ",1", "4", "4G", "4C", "zz", " 1", "1 ", "**", "..", str(U64 + 1), "0x1"):
            yield "\t".join([name, *fields[:at], odd, *fields[at + 1 :]])
        yield "\t".join([name, *fields, "1"])
        yield "\t".join([name, *fields[:-1]])
        yield "\t".join([name, *fields]) + "\r"
        yield "\t".join([name, *fields]) + "\t"
        yield "\t".join([name.lower(), *fields])
        if call not in NO_ROOM_ASKED:
            for odd_room in ("@", "@1,2,3", "@-1", "@1,", "@*", "@" + str(U64 + 1), "@0", "@1,1"):
                yield "\t".join([name, *fields, odd_room])
    yield ""
    yield call
    yield "ASK\t1"


def sample(rng, found, share):
    found = list(found)
    if share >= 1:
        return found
    return rng.sample(found, int(len(found) * share))


def sections(call, seed, share):
    """The sections of a call's requests, by name."""
    rng = random.Random(f"{seed} {call}")
    short, _, boundary, count = SOURCES[call]
    return {
        "stated": of_call(call),
        "short": sample(rng, short(), share),
        "boundary": list(boundary()),
        "rows": list(ROWS[call]()) if call in ROWS else [],
        "random": list(random_section(call, rng, int(count * share))),
        "malformed": list(malformed(call, rng)),
    }


def requests(call, seed, share=1.0):
    return [line for section in sections(call, seed, share).values() for line in section]


def call_list(text):
    """The calls that an option names, all of them for `all`."""
    chosen = CALLS if text == "all" else text.split(",")
    unknown = [call for call in chosen if call not in SOURCES]
    if unknown:
        raise argparse.ArgumentTypeError("no such call: " + ",".join(unknown))
    return chosen


def add_options(parser):
    parser.add_argument("--calls", type=call_list, default=CALLS, help="names joined by commas, or all")
    parser.add_argument("--seed", type=int, default=1)
    parser.add_argument("--share", type=float, default=1.0, help="part of the short and random requests, 0 to 1")


def main():
    parser = argparse.ArgumentParser(description=__doc__, formatter_class=argparse.RawDescriptionHelpFormatter)
    add_options(parser)
    options = parser.parse_args()
    for call in options.calls:
        for line in requests(call, options.seed, options.share):
            sys.stdout.write(line + "\n")


if __name__ == "__main__":
    main()
