#!/usr/bin/env python3
"""Puts faults into copies of the headers and of the harness, one at a time, and checks that each is noticed.

    python3 ask/faults.py

A fault of a header would mislead a lab. A fault of the harness stands for a library that reads or writes outside a row, or writes
although it refuses. Each fault is a change of a file's text that must apply exactly once. It is noticed by tools/check-header, by a
frozen answer in one of four turns, by the program `exports`, or, for a fault of a header, by the compiler. A copy without a fault
must pass all of these. Last, a fault in what is built from long evidence must be found by the load and shrunk, if the Rust is at
hand. The last line is `N faults, N noticed`. The status is 1 if a fault is not noticed.
"""
import argparse
import concurrent.futures
import contextlib
import glob
import io
import os
import re
import shutil
import subprocess
import sys
import tempfile

HERE = os.path.dirname(os.path.abspath(__file__))
ROOT = os.path.dirname(HERE)
sys.path.insert(0, os.path.join(ROOT, "oracle"))
import freeze  # noqa: E402
import judge  # noqa: E402

HEADER = "include/aquiledru.h"
RECORD_HEADER = "include/aquiledru_record.h"
TURNS = range(4)
COMPILER = "the compiler"

# The name of the fault, the file, the words to replace, and their replacement.
FAULTS = [
    ("the header lacks a parameter", HEADER,
     "const uint8_t *ml, size_t ml_len,\n                  size_t *above",
     "const uint8_t *ml,\n                  size_t *above"),
    ("the header exchanges two rows", HEADER,
     "aql_check_tag(const uint8_t *seq, size_t seq_len, const uint8_t *mm, size_t mm_len",
     "aql_check_tag(const uint8_t *mm, size_t mm_len, const uint8_t *seq, size_t seq_len"),
    ("the header makes entries narrower", HEADER,
     "uint8_t has_ml,\n                       uint32_t *call_groups", "uint8_t has_ml,\n                       uint16_t *call_groups"),
    ("the header makes a number of bases narrower", HEADER,
     "aql_turn(const uint8_t *packed, size_t packed_len, size_t bases", "aql_turn(const uint8_t *packed, size_t packed_len, uint32_t bases"),
    ("the header makes a length narrower", HEADER,
     "aql_annotate_simplex_methylation(size_t consensus_len", "aql_annotate_simplex_methylation(uint32_t consensus_len"),
    ("the header makes flags narrower", HEADER,
     "uint8_t aql_pattern_letter(uint16_t read_flags)", "uint8_t aql_pattern_letter(uint8_t read_flags)"),
    ("the header exchanges two of the duplex lengths", HEADER,
     "AQL_DUPLEX_MM = 1,\n    AQL_DUPLEX_ML = 2", "AQL_DUPLEX_MM = 2,\n    AQL_DUPLEX_ML = 1"),
    ("the header gives a number another value", HEADER,
     "AQL_NO_ROOM = 12", "AQL_NO_ROOM = 14"),
    ("the header gives a mode another value", HEADER,
     "AQL_MODE_TAPS = 2", "AQL_MODE_TAPS = 3"),
    ("the header allows one base more", HEADER,
     "AQL_MAX_SEQ 16000u", "AQL_MAX_SEQ 16001u"),
    ("the header's transcript has a byte less", HEADER,
     "AQL_TRANSCRIPT_OUT 81925u", "AQL_TRANSCRIPT_OUT 81924u"),
    ("a comment of the header leaves a number out", HEADER,
     "1 and 2 come before 21.\n * Answers 0, 1 to 9, 11, 21.", "1 and 2 come before 21.\n * Answers 0, 1 to 9, 11."),
    ("the record header lacks a parameter", RECORD_HEADER,
     "const uint8_t *before, size_t before_len, uint8_t before_reverse,\n                       uint8_t start_known",
     "const uint8_t *before, size_t before_len,\n                       uint8_t start_known"),
    ("the record header exchanges two rows", RECORD_HEADER,
     "aql_mask_record(const uint8_t *bam, size_t bam_len, const uint8_t *before, size_t before_len",
     "aql_mask_record(const uint8_t *before, size_t before_len, const uint8_t *bam, size_t bam_len"),
    ("the record header exchanges two numbers that a call writes", RECORD_HEADER,
     "const uint32_t *places, size_t places_len,\n                        uint8_t *out, size_t out_room, size_t *out_len, size_t *went",
     "const uint32_t *places, size_t places_len,\n                        uint8_t *out, size_t out_room, size_t *went, size_t *out_len"),
    ("the record header makes places narrower", RECORD_HEADER,
     "const uint32_t *places", "const uint16_t *places"),
    ("the record header makes a start narrower", RECORD_HEADER,
     "size_t start,", "uint32_t start,"),
    ("the record header makes a written number narrower", RECORD_HEADER,
     "size_t start, uint8_t *out, size_t out_room, size_t *out_len, size_t *went", "size_t start, uint8_t *out, size_t out_room, size_t *out_len, uint8_t *went"),
    ("the record header gives two numbers one value", RECORD_HEADER,
     "AQL_RECORD_SHORT = 14,     /*", "AQL_RECORD_SHORT = 15,     /*"),
    ("the record header gives a number another value", RECORD_HEADER,
     "AQL_RECORD_NO_ROOM = 12", "AQL_RECORD_NO_ROOM = 13"),
    ("the record header allows one base more", RECORD_HEADER,
     "AQL_RECORD_MAX_SEQ 16000u", "AQL_RECORD_MAX_SEQ 16001u"),
    ("the record header allows one byte of MM more", RECORD_HEADER,
     "AQL_RECORD_MAX_MM 65536u", "AQL_RECORD_MAX_MM 65537u"),
    ("the record header says that a record grows by less", RECORD_HEADER,
     "AQL_RECORD_GROWTH 3u", "AQL_RECORD_GROWTH 2u"),
    ("a comment of the record header leaves a number out", RECORD_HEADER,
     "Answers 0, 1, 12, 14, 15. */\nuint8_t aql_cut_record", "Answers 0, 1, 12, 14. */\nuint8_t aql_cut_record"),
    ("the record header has a name of the other header", RECORD_HEADER,
     "    AQL_RECORD_DONE = 0,", "    AQL_RECORD_DONE = 0,\n    AQL_DONE = 0,"),
    ("the record header needs the other header", RECORD_HEADER,
     "#include <stdint.h>", "#include <stdint.h>\n#include \"aquiledru.h\""),
    ("byte rows are lent one entry longer than they are", "ask/rows.h",
     "#define U8(r) as_u8(r), (r)->n", "#define U8(r) as_u8(r), (r)->n + 1"),
    ("rows of 32 bits are lent one entry longer than they are", "ask/rows.h",
     "#define U32(r) as_u32(r), (r)->n", "#define U32(r) as_u32(r), (r)->n + 1"),
    ("rows of 16 bits are lent one entry longer than they are", "ask/rows.h",
     "#define I16(r) as_i16(r), (r)->n", "#define I16(r) as_i16(r), (r)->n + 1"),
    ("rows of 64 bits are lent one entry longer than they are", "ask/rows.h",
     "#define I64(r) as_i64(r), (r)->n", "#define I64(r) as_i64(r), (r)->n + 1"),
    ("an edit writes one byte past its row", "ask/rewriting.c",
     "    if (!answered(number))\n        return;\n    put_bytes(t.mm_out",
     "    t.mm_out->bytes[t.mm_out->n] ^= 1;\n    if (!answered(number))\n        return;\n    put_bytes(t.mm_out"),
    ("an edit writes one byte before its row", "ask/rewriting.c",
     "    if (!answered(number))\n        return;\n    put_bytes(t.mm_out",
     "    t.mm_out->bytes[-1] ^= 1;\n    if (!answered(number))\n        return;\n    put_bytes(t.mm_out"),
    ("a refused edit has written", "ask/rewriting.c",
     "    if (!answered(number))\n        return;\n    put_bytes(t.mm_out",
     "    if (number && t.mm_out->n)\n        t.mm_out->bytes[0] ^= 1;\n    if (!answered(number))\n        return;\n    put_bytes(t.mm_out"),
    ("a refused edit has written a length", "ask/rewriting.c",
     "    if (!answered(number))\n        return;\n    put_bytes(t.mm_out",
     "    as_size(t.mm_len)[0] ^= number != 0;\n    if (!answered(number))\n        return;\n    put_bytes(t.mm_out"),
    ("an edit writes past its answer, within its row", "ask/rewriting.c",
     "    put_bytes(t.mm_out, written(t.mm_len, 0));",
     "    put_bytes(t.mm_out, written(t.mm_len, 0));\n    if (t.mm_out->filled < t.mm_out->n)\n        t.mm_out->bytes[t.mm_out->filled] ^= 1;"),
    ("an edit changes a row that it may only read", "ask/rewriting.c",
     "    if (!answered(number))\n        return;\n    put_bytes(t.mm_out",
     "    if (t.mm->n)\n        t.mm->bytes[0] ^= 1;\n    if (!answered(number))\n        return;\n    put_bytes(t.mm_out"),
    ("a step reads one byte past its row", "ask/session.c",
     "    if (!answered(number))", "    number ^= *(volatile uint8_t *)(mm->bytes + mm->n) & 0;\n    if (!answered(number))"),
    ("a step reads one byte before its row", "ask/session.c",
     "    if (!answered(number))", "    number ^= *(volatile uint8_t *)(mm->bytes - 1) & 0;\n    if (!answered(number))"),
    ("a step without ML looks at it", "ask/session.c",
     "    if (!answered(number))", "    number ^= ml->n ? *(volatile uint8_t *)ml->bytes & 0 : 0;\n    if (!answered(number))"),
    ("a refused step on a stored read clears the spare half", "ask/stored.c",
     "    number = stepped(s, t);\n",
     "    number = stepped(s, t);\n    if (number && s.packed->n)\n        s.packed->bytes[s.packed->n - 1] &= 0xf0;\n"),
    ("a step on a stored read writes past its new end", "ask/stored.c",
     "    q->wrote |= rows_wrote();\n    rows_give_back(kept);",
     "    if (s.packed->filled && s.packed->filled < s.packed->n)\n        s.packed->bytes[s.packed->filled] ^= 1;\n"
     "    q->wrote |= rows_wrote();\n    rows_give_back(kept);"),
    ("an opening of a stored read has written a length", "ask/stored.c",
     "    must_agree(q, number, again);\n", "    must_agree(q, number, again);\n    as_size(s.lengths)[AQL_SESSION_ML] ^= 1;\n"),
    ("the check of a stored read's tag counts otherwise than the list", "ask/stored.c",
     "        must_agree(q, written(c.call_count, 0), written(calls, 0));",
     "        must_agree(q, written(c.call_count, 0), written(calls, 0) + (s.bases == 7));"),
    ("the tally of a stored read exchanges its two counts", "ask/stored.c",
     "as_size(counts[0]), as_size(counts[1]));", "as_size(counts[1]), as_size(counts[0]));"),
    ("the tally of a stored read is not told that the read is reverse", "ask/stored.c",
     "aql_stored_tally(PACKED(s), reverse, ", "aql_stored_tally(PACKED(s), reverse & 0, "),
    ("a turned read reads one byte past its row", "ask/stored.c",
     "    if (answered(aql_turn(", "    s.bases += *(volatile uint8_t *)(s.row->bytes + s.row->n) & 0;\n    if (answered(aql_turn("),
    ("a refused call on a record has written", "ask/records.c",
     "    if (!answered(number))\n", "    if (number && r.out->n)\n        r.out->bytes[r.out->n - 1] ^= 1;\n    if (!answered(number))\n"),
    ("a refused call on a record has written whether a tag went", "ask/records.c",
     "    if (!answered(number))\n", "    as_size(r.went)[0] ^= number != 0;\n    if (!answered(number))\n"),
    ("a call on a record writes past its answer, within its row", "ask/records.c",
     "    put_bytes(r.out, written(r.out_len, 0));",
     "    put_bytes(r.out, written(r.out_len, 0));\n    if (r.out->filled < r.out->n)\n        r.out->bytes[r.out->filled] ^= 1;"),
    ("a call on a record writes one byte past its row", "ask/records.c",
     "    if (!answered(number))\n", "    r.out->bytes[r.out->n] ^= 1;\n    if (!answered(number))\n"),
    ("a call on a record reads one byte past the record", "ask/records.c",
     "    if (!answered(number))\n", "    number ^= *(volatile uint8_t *)(r.given->bytes + r.given->n) & 0;\n    if (!answered(number))\n"),
    ("a call on a record changes the record that it reads", "ask/records.c",
     "    if (!answered(number))\n", "    if (r.given->n)\n        r.given->bytes[0] ^= 1;\n    if (!answered(number))\n"),
    ("a record's row has one byte less room", "ask/records.c",
     "U8((r).out), as_size", "as_u8((r).out), (r).out->n - ((r).out->n > 0), as_size"),
    ("a cut record is not told that it was reverse", "ask/records.c",
     "U8(before), before_reverse, known", "U8(before), before_reverse & 0, known"),
    ("a cut record is told a start that is not known", "ask/records.c",
     "before_reverse, known, start", "before_reverse, known | 1, start"),
    ("in exports, a record is lent one byte longer than it is", "ask/exports/records.c",
     "aql_mask_record(U8(r), U8(before)", "aql_mask_record(as_u8(r), (r)->n + 1, U8(before)"),
    ("in exports, a room is one byte longer than it is", "ask/exports/records.c",
     "U8((a).out), as_size", "as_u8((a).out), (a).out->n + 1, as_size"),
    ("in exports, the length and what went are exchanged", "ask/exports/records.c",
     "as_size((a).out_len), as_size((a).went)", "as_size((a).went), as_size((a).out_len)"),
    ("in exports, a drop has a place more", "ask/exports/records.c",
     "aql_drop_record(U8(r), U32(places)", "aql_drop_record(U8(r), as_u32(places), (places)->n + 1"),
    ("in exports, a start is always known", "ask/exports/records.c",
     "U8(before), reverse, known, start, OUT_OF(a))", "U8(before), reverse, known | 1, start, OUT_OF(a))"),
]


# Only a request whose tag has four calls or more shows this fault; a shrunk request has hardly more than four.
LONG_FAULT = ("the fourth value of ML is wrong", "ask/building.c",
              "    put_bytes(ml, written(ml_len, 0));\n    }\n",
              "    if (as_size(ml_len)[0] > 3)\n            as_u8(ml)[3] ^= 1;\n        put_bytes(ml, written(ml_len, 0));\n    }\n")
MOST_CHARACTERS = 80


def copied(work):
    for folder in ("ask", "include"):
        shutil.copytree(os.path.join(ROOT, folder), os.path.join(work, folder))


def put_in(work, name, file, old, new):
    path = os.path.join(work, file)
    with open(path, encoding="utf-8") as source:
        text = source.read()
    if text.count(old) != 1:
        sys.exit(f"the fault '{name}' applies {text.count(old)} times, not once")
    with open(path, "w", encoding="utf-8") as target:
        target.write(text.replace(old, new))


def ran(work, *words):
    """Whether a command ends with status 0. It uses the header of the copy instead of the project's."""
    environment = {**os.environ, "AQUILEDRU_H": os.path.join(work, "include")}
    return subprocess.run(words, cwd=work, env=environment, stdout=subprocess.DEVNULL, stderr=subprocess.DEVNULL, check=False).returncode == 0


def built(work, program, *patterns):
    sources = [path for pattern in patterns for path in sorted(glob.glob(os.path.join(work, pattern)))]
    return ran(work, os.path.join(ROOT, "tools", "kit-cc"), "--records", os.path.join(work, program), *sources)


def noticed(command, work):
    """The checks that notice the fault of a copy, in words."""
    if not ran(work, sys.executable, os.path.join(ROOT, "tools", "check-header"), os.path.join(work, "include")):
        yield "check-header"
    if not built(work, "asked", "ask/*.c"):
        yield COMPILER
        return
    asked = [*command[:-1], os.path.join(work, "asked")]
    requests, wanted = zip(*freeze.frozen_pairs())
    wrong = sum(len(judge.unlike(requests, judge.one_part(asked, requests, turn), wanted)) for turn in TURNS)
    if wrong:
        yield f"{wrong:,} frozen answers"
    if not built(work, "exports", "ask/rows.c", "ask/reply.c", "ask/exports/*.c"):
        yield COMPILER + ", of exports"
    elif not ran(work, *command[:-1], os.path.join(work, "exports")):
        yield "exports"


def tried(command, fault):
    """The checks that notice a fault. A fault of the harness must compile, or it was never tried."""
    with tempfile.TemporaryDirectory() as work:
        copied(work)
        put_in(work, *fault)
        ways = list(noticed(command, work))
        if fault[1] not in (HEADER, RECORD_HEADER) and any(way.startswith(COMPILER) for way in ways):
            sys.exit(f"the fault '{fault[0]}' does not compile")
        return ways


def without_fault(command):
    """The checks that notice a copy without a fault. There must be none, or the other results mean nothing."""
    with tempfile.TemporaryDirectory() as work:
        copied(work)
        return list(noticed(command, work))


def loaded(command):
    """Whether the load finds a fault and shrinks the request that shows it; None if the Rust is not at hand."""
    if judge.rust.missing():
        return None
    with tempfile.TemporaryDirectory() as work:
        copied(work)
        put_in(work, *LONG_FAULT)
        if not built(work, "asked", "ask/*.c"):
            sys.exit(f"the fault '{LONG_FAULT[0]}' does not compile")
        judge.ask_command = lambda: [*command[:-1], os.path.join(work, "asked")]
        said = io.StringIO()
        with contextlib.redirect_stdout(said):
            status = judge.load(argparse.Namespace(seed=1, requests=20_000, sample=200, table=False, calls=judge.generate.CALLS))
    found = [int(size.replace(",", "")) for size in re.findall(r"shrunk from [\d,]+ characters to ([\d,]+)", said.getvalue())]
    return status == 1 and bool(found) and min(found) <= MOST_CHARACTERS


def main():
    command = judge.ask_command()
    if ways := without_fault(command):
        sys.exit("a copy without a fault is noticed by " + ", ".join(ways))
    with concurrent.futures.ThreadPoolExecutor(judge.PROCESSORS) as pool:
        found = list(pool.map(lambda fault: tried(command, fault), FAULTS))
    for (name, *_), ways in zip(FAULTS, found):
        print(f"{name}: " + ("noticed by " + ", ".join(ways) if ways else "NOT NOTICED"))
    by_load = loaded(command)
    print(f"{LONG_FAULT[0]}: " + {True: "noticed by the load, and shrunk", False: "NOT NOTICED", None: "not tried, as the Rust is not at hand"}[by_load])
    every = [bool(ways) for ways in found] + ([] if by_load is None else [by_load])
    print(f"{len(every)} faults, {sum(every)} noticed")
    sys.exit(not all(every))


if __name__ == "__main__":
    main()
