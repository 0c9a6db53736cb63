"""Requests whose answers the documents themselves state: the scope's examples and rules (docs/SCOPE.md), and the Rust's edges.

The answers are copied from the documents' words and not computed. So they also judge what no run of the Rust can
show: which number a refusal has, and which of two numbers comes first. Each entry is a name, a request and its
answer.
"""
import bam
import lines as p

U32, U64 = 2**32 - 1, 2**64 - 1
REQUESTS = []


def state(name, line, answer):
    REQUESTS.append((name, line, str(answer)))


def zeros(count):
    return b"0" * count


# ---- The scope: the examples (a) to (l) --------------------------------------------------------

state("a: empty text", p.calls(b"", b"", b"ACGT"), 4)
state("b: a lone semicolon", p.calls(b";", b"", b"ACGT"), 5)
state("c: no entries", p.calls(b"C+m?;", b"", b"ACGT"), p.done(1, "*"))
state("d: a leading plus", p.calls(b"C+m?,+1;", None, b"CCC"), 6)
state("e: the last base", p.calls(b"C+m?,2;", None, b"CCC"), p.done(1, "1:2:0:0"))
state("e: past the last base", p.calls(b"C+m?,3;", None, b"CCC"), 7)
state("f: ML empty", p.calls(b"C+m?,0;", b"", b"C"), 8)
state("f: ML one over", p.calls(b"C+m?,0;", b"\1\2", b"C"), 9)
state("f: two codes", p.calls(b"C+mh?,0;", b"\1\2", b"C"), p.done(1, "1:0:0:2"))
state("g: a ChEBI code", p.calls(b"C+76792?,0;", b"\7", b"C"), p.done(1, "1:0:0:1"))
state("h: drop without '?'", p.drop(b"C+m,0;", None, b"C", [0]), 10)
state("h: drop with '?'", p.drop(b"C+m?,0;", None, b"C", [0]), p.edited(b"C+m?;"))
state("i: mask", p.mask(b"C+m?,0,1;", None, b"CCAC", b"CNAC"), p.edited(b"C+m?,0,0;"))
for unc, con, value in [(1, 1, 128), (1, 0, 255), (1, 2, 85), (0, 5, 0)]:
    state("j: ML", p.build("C", "E", b"C", b"\1", [unc], [con]), p.edited(b"C+m?,0;", bytes([value])))
K_WORDS = [p.word(2, "S"), p.word(3, "M"), p.word(1, "D"), p.word(2, "M")]
K_PLACES = [None, None, 100, 101, 102, 104, 105]
state("k: forward", p.q(K_WORDS, 100, False), p.done(p.listed(K_PLACES)))
state("k: reverse", p.q(K_WORDS, 100, True), p.done(p.listed(K_PLACES[::-1])))
state("l: start 1", p.cut(b"C+m?,0;", None, b"ACGT", b"CG", 1), p.edited(b"C+m?,0;"))
state("l: start 2", p.cut(b"C+m?,0;", None, b"ACGT", b"CG", 2), 11)
state("l: start unknown", p.cut(b"C+m?,0;", None, b"ACGT", b"CG", None), 11)

# The scope's session, step by step.
state("session: mask", p.whole_step(b"ACCGTCC", b"C+m?,0,1,0;", bytes([200, 90, 30]), "MK", [1]),
      p.done(p.row(b"ANCGTCC"), p.row(b"C+m?,1,0;0;"), p.row(bytes([90, 30, 30])), "7,9,2"))
state("session: drop", p.whole_step(b"ANCGTCC", b"C+m?,1,0;", bytes([90, 30]), "DR", [5]),
      p.done(p.row(b"ANCGTCC"), p.row(b"C+m?,2;0;"), p.row(bytes([30, 30])), "7,7,1"))
state("session: cut", p.whole_step(b"ANCGTCC", b"C+m?,2;", bytes([30]), "CU", [3, 0]),
      p.done(p.row(b"GTCCTCC"), p.row(b"C+m?,1;"), p.row(bytes([30])), "4,7,1"))

# ---- The scope: the numbers and their order ----------------------------------------------------

state("1 before 2", p.mask(b"C+m;", None, b"A" * 16_001, b"A"), 1)
state("1: MM", p.calls(b"C+" + b"m" * 65_534 + b";", None, b""), 1)
state("65,536 bytes of MM", p.calls(b"C+" + b"m" * 65_533 + b";", None, b""), p.done(1, "*"))
state("1: ML", p.calls(b"C+m;", b"\0" * 65_537, b""), 1)
state("1: SEQ", p.calls(b"C+m;", None, b"C" * 16_001), 1)
state("16,000 bases", p.calls(b"C+m?,15999;", None, b"C" * 16_000), p.done(1, "1:15999:0:0"))
state("1 before 21", p.cut(b"C+m;", None, b"A" * 16_001, b"A" * 16_001, None), 1)
state("2 before 3", p.mask(b"\x80", None, b"A", b"AA"), 2)
state("2 before 4", p.mask(b"", None, b"A", b"AA"), 2)
state("21 with the tag unread", p.cut(b"\x80", None, b"ACGT", b"ACGT", None), 21)
state("11 before 3", p.cut(b"\x80;", None, b"ACGT", b"CC", 1), 11)
state("11 before 4", p.cut(b"", None, b"ACGT", b"CC", 1), 11)
state("a cut is never 2", p.cut(b"C+m;", None, b"A", b"AA", 0), 11)
state("3 before 4", p.calls(b"C+m\x80", None, b"C"), 3)
state("3 before 5", p.calls(b";\xc3\xa9;", None, b"C"), 3)
state("3: UTF-8 that the Rust takes", p.calls(b"C+\xc3\xa9?,0;", b"\1\2", b"C"), 3)
state("4 before 5", p.calls(b"C", None, b"C"), 4)
state("5: one byte", p.calls(b"C;", None, b"C"), 5)
state("5: one byte and a skip", p.calls(b"C,0;", None, b"C"), 5)
state("5: the second group", p.calls(b"C+m;;", None, b"C"), 5)
state("6: empty field", p.calls(b"C+m?,;", None, b"CC"), 6)
state("6 before 7", p.calls(b"C+m?,x;", None, b"A"), 6)
state("6 before 8", p.calls(b"C+m?,x;", b"", b"C"), 6)
state("7 before 8", p.calls(b"C+m?,1;", b"", b"C"), 7)
state("8 before a later 6", p.calls(b"C+m?,0,x;", b"", b"CC"), 8)
state("8: inside two values", p.calls(b"C+mh?,0;", b"\1", b"C"), 8)
state("9: after the text", p.calls(b"C+m?;", b"\1", b"C"), 9)
state("9 not before a later 5", p.calls(b"C+m?;C;", b"\1", b"C"), 5)
state("9 not before a later 6", p.calls(b"C+m?,0;C+m?,x;", b"\1\2\3\4", b"C"), 6)
state("an empty ML is an ML", p.calls(b"C+m?;", b"", b""), p.done(1, "*"))
state("9: ML present, no entry", p.drop(b"C+m?;", b"\1", b"C", []), 9)
state("12 after 9", p.drop(b"C+m?;", b"\1", b"C", [], room=(0, 0)), 9)
state("12: text", p.drop(b"C+m?,0;", b"\1", b"C", [], room=(6, 1)), 12)
state("12: ML", p.drop(b"C+m?,0;", b"\1", b"C", [], room=(7, 0)), 12)
state("room exactly", p.drop(b"C+m?,0;", b"\1", b"C", [], room=(7, 1)), p.edited(b"C+m?,0;", b"\1"))
state("no ML, no room for it", p.drop(b"C+m?,0;", None, b"C", [], room=(7, 0)), p.edited(b"C+m?,0;"))
state("room of the finished text", p.drop(b"C+m?,0;", None, b"C", [0], room=(5, 0)), p.edited(b"C+m?;"))
state("12: calls", p.calls(b"C+m?,0,0;", None, b"CC", room=1), 12)
state("20", p.build("C", "E", b"C", b"\1", [0], [0]), 20)
state("20 before 12", p.build("C", "E", b"C", b"\0", [1], [0], room=(0, 0)), 20)
state("20: Disabled", p.build("C", "D", b"C", b"\1", [1], [0]), 20)
state("2 before 20", p.build("C", "D", b"C", b"\1\1", [1, 1], [0, 0]), 2)
state("1 before 20", p.build("C", "D", b"C" * 16_001, b"", [], []), 1)
state("12: a built text", p.build("C", "E", b"C", b"\1", [1], [0], room=(6, 1)), 12)
state("12: a built ML", p.build("C", "E", b"C", b"\1", [1], [0], room=(7, 0)), 12)
state("13: no strand", p.dup("E", b"C"), 13)
C_STRAND = ("C", b"\1", [1], [0])
state("13: three strands", p.dup("E", b"C", C_STRAND, C_STRAND, C_STRAND), 13)
state("13 before 2", p.dup("E", b"CC", C_STRAND, C_STRAND, C_STRAND), 13)
state("duplex is never 20", p.dup("D", b"C", C_STRAND), p.done(p.row(b"C"), "-", "-", 1, 0, "-", 1, 0))
state("13: start", p.q([16], -1, False), 13)
state("13: start too large", p.q([16], 2_147_483_648, False), 13)
state("the largest start", p.q([16], 2_147_483_647, False), p.done(2_147_483_647))
state("13: kind 9", p.q([25], 0, False), 13)
state("13 before 1", p.q([16_001 << 4, 9], 0, False), 13)
state("13 past the 65,535th word", p.q([0] * 65_535 + [9], 0, False), 13)
state("1: words", p.q([0] * 65_536, 0, False), 1)
state("65,535 words", p.q([5] * 65_535, 0, False), p.done("*"))
state("1: query", p.q([16_001 << 4], 0, False), 1)
state("1: query summed past 2^32", p.q([U32 & ~15] * 17, 0, False), 1)
state("12: places", p.q([2 << 4], 0, False, room=1), 12)

# ---- The scope: evidence and building ----------------------------------------------------------

state("flag 0x80 clear", p.pat(0x7F), p.done("C", p.row(b"CCT")))
state("flag 0x80 set", p.pat(0x80), p.done("G", p.row(b"GGA")))
state("CpG, top", p.cpg(b"aCg", 1, True), p.done(1))
state("CpG at the slice's end", p.cpg(b"ACG"[:2], 1, True), p.done(0))
state("CpG, bottom", p.cpg(b"cG", 1, False), p.done(1))
state("CpG, bottom at 0", p.cpg(b"GC", 0, False), p.done(0))
state("CpG off the slice", p.cpg(b"CG", U64, True), p.done(0))
state("0 in the reference", p.fetch([0, 1, 2], b"A\0C"), p.done("41,-,43"))
state("fetch off the slice", p.fetch([-1, 0, 1, None], b"A"), p.done("-,41,-,-"))
state("counting", p.ann(3, "C", False, [67, 99, 71], [b"Ctc", b"tC"], [b"\1\1\1", b"\0\2"]),
      p.done("010100", "1,1,0", "0,1,0"))
state("counting all", p.ann(3, "C", True, [67], [b"CtC", b"tC"], [b"\0\0\0", b"\0\0"]),
      p.done("010000", "1,1,1", "1,1,0"))
state("gating", p.gate("C", b"\0\5", [3, 4], [5, 6]), p.done("0001", "0,4", "0,6"))
state("truncating", p.trunc(1, "C", b"\0\5", [3, 4], [5, 6]), p.done("00", "3", "5"))
state("truncating to more", p.trunc(U64, "C", b"\5", [3], [5]), p.done("01", "3", "5"))
state("cu and ct clamp", p.cnt("C", b"\0\0", [32_767, 32_768], [U32, 0]), p.done("32767,32767", "32767,0"))
state("restoring, C", p.rest("C", b"tTcAt", b"\1\2\1\1\0"), p.done(p.row(b"CCcAt")))
state("restoring, G", p.rest("G", b"aAgT", b"\1\1\1\1"), p.done(p.row(b"GGgT")))
state("evidence columns disagree", p.gate("C", b"\1", [1, 2], [1]), 2)
state("1 before 2 in columns", p.cnt("C", b"\1" * 16_001, [1], [1]), 1)
state("TAPs", p.build("G", "T", b"gAG", b"\1\1\1", [3, 1, 0], [1, 1, 0]), p.edited(b"G-m?,0;", b"\x40"))
state("skips", p.build("C", "E", b"CcAC", b"\0\1\1\1", [1] * 4, [1] * 4), p.edited(b"C+m?,1,0;", b"\x80\x80"))
G_STRAND = ("G", b"\0\1", [0, 2], [0, 0])
TC_STRAND = ("C", b"\1\0", [1, 9], [1, 0])
state("C to T first", p.dup("E", b"TG", G_STRAND, TC_STRAND),
      p.done(p.row(b"CG"), p.row(b"C+m?,0;G-m?,0;"), "80ff", "1,11", "1,0",
             p.row(b"G-m?,0;"), "0,2", "0,0", p.row(b"C+m?,0;"), "1,9", "1,0"))
state("tally from 128", p.tally(b"C+mh?,0;", bytes([127, 128]), b"C"), p.done(1, 1))
LONG_STRAND = ("C", b"\1" * 16_000, [1] * 16_000, [1] * 16_000)
LONG_TEXT = b"C+m?" + b",0" * 16_000 + b";"
state("12: one of the 64,010 bytes short",
      p.dup("E", b"C" * 16_000, LONG_STRAND, LONG_STRAND, room=(64_009, 32_000)), 12)
state("64,010 bytes", p.dup("E", b"C" * 16_000, LONG_STRAND, LONG_STRAND, room=(64_010, 32_000)),
      p.done(p.row(b"C" * 16_000), p.row(LONG_TEXT * 2), "80" * 32_000, p.listed([2] * 16_000),
             p.listed([2] * 16_000), *[p.row(LONG_TEXT), p.listed([1] * 16_000), p.listed([1] * 16_000)] * 2))

# ---- The Rust's edges, by their numbers --------------------------------------------------------

state("edge 1: built on a lower-case base", p.build("C", "E", b"cC", b"\1\0", [1, 0], [0, 0]),
      p.edited(b"C+m?,0;", b"\xff"))
state("edge 1: read back", p.calls(b"C+m?,0;", b"\xff", b"cC"), p.done(1, "1:1:0:1"))
state("edge 2: after gains a letter", p.mask(b"C+m?,0;", None, b"AC", b"CC"), p.edited(b"C+m?,0;"))
state("edge 3: respelled", p.drop(b"C+m?,00;", None, b"C", []), p.edited(b"C+m?,0;"))
state("edge 3: a mask of nothing", p.mask(b"N+m?,00;", None, b"C", b"C"), p.edited(b"N+m?,0;"))
state("edge 3: a step past the end", p.whole_step(b"C", b"C+m?,00;", None, "MK", [9]),
      p.done(p.row(b"C"), p.row(b"C+m?,0;;"), "-", "1,7,0"))
state("edge 3: a cut of 0 and 0", p.whole_step(b"C", b"C+m?,00;", None, "CU", [0, 0]), 21)
state("edge 4: a mask under '.'", p.mask(b"C+m.,0;", None, b"C", b"N"), p.edited(b"C+m.;"))
state("edge 5: '?' as the sign", p.drop(b"C?,0;", None, b"C", [0]), p.edited(b"C?;"))
state("edge 5: last mark '?'", p.drop(b"C+m.?,0;", None, b"C", [0]), p.edited(b"C+m.?;"))
state("edge 5: last mark '.'", p.drop(b"C+m?.,0;", None, b"C", [0]), 10)
VALUES = {
    1: [b"C+", b"C?", b"C.", b"CC", b"C+?", b"C+.", b"C+m?.?", b"C+m..", b"C+00", b"C+-"],
    2: [b"C+7m", b"C+m7", b"C+.m", b"C+?m", b"C++m"],
    3: [b"C+7.7", b"C+m?x", b"C+m h"],
}
for count, headers in VALUES.items():
    for header in headers:
        state("edge 6: values per base", p.calls(header + b",0;", bytes(count), b"C"), p.done(1, f"1:0:0:{count}"))
        state("edge 6: one short", p.calls(header + b",0;", bytes(count - 1), b"C"), 8)
        state("edge 6: one over", p.calls(header + b",0;", bytes(count + 1), b"C"), 9)
for skips in [b"18446744073709551615", b"18446744073709551616", b"0,18446744073709551615"]:
    state("edge 7: large skips", p.calls(b"C+m?," + skips + b";", None, b"CC"), 7)
for skips in [b"18446744073709551616x", b"+0", b"-0", b" 0", b"0 ", b"1_0", b""]:
    state("edge 7: no plain decimals", p.calls(b"C+m?," + skips + b";", None, b"CC"), 6)
state("edge 7: leading zeros", p.calls(b"C+m?," + zeros(60_000) + b";", None, b"CC"), p.done(1, "1:0:0:0"))
state("edge 8: 8 and not 10", p.drop(b"C+m,0;", b"", b"C", [0]), 8)
state("edge 8: 10 and not 5", p.drop(b"C+m,0;;", None, b"C", [0]), 10)
state("edge 8: 7 and not 6", p.calls(b"C+m?,9,x;", None, b"C"), 7)
state("edge 8: 5 and not 9", p.calls(b"C+m?,0;C;", b"\1\2", b"C"), 5)
state("edge 9: equal lengths ignore the start", p.cut(b"C+m?,0;", None, b"CA", b"CN", 1), p.edited(b"C+m?,0;"))
state("edge 9: after longer", p.cut(b"C+m?;", None, b"A", b"AC", 0), 11)
state("edge 9: before empty", p.cut(b"C+m?;", None, b"", b"A", 0), 11)
state("edge 9: after empty, start 4 of 4", p.cut(b"C+m?,0;", b"\1", b"ACGT", b"", 4), p.edited(b"C+m?;", b""))
state("edge 9: after empty, start 5 of 4", p.cut(b"C+m?,0;", b"\1", b"ACGT", b"", 5), 11)
state("edge 9: start 2^64-1", p.cut(b"C+m?,0;", None, b"ACGT", b"CG", U64), 11)
state("edge 9: both empty", p.cut(b"", None, b"", b"", None), 21)
state("edge 9: bad window, bad tag", p.cut(b"C", None, b"ACGT", b"CC", 1), 11)
state("edge 9: 'n' masks", p.cut(b"C+m?,0,0;", None, b"CC", b"nC", None), p.edited(b"C+m?,0;"))
DELETIONS = [p.word(268_435_455, "D")] * 65_534
state("edge 10: places of 64 bits", p.q(DELETIONS + [16], 2_147_483_647, False), p.done(17_593_796_591_617))
state("edge 10: and reversed", p.q(DELETIONS[:9] + [16, 16], 0, True), p.done("2415919096,2415919095"))
state("edge 10: a reverse walk from 0", p.q([2 << 4], 0, True), p.done("1,0"))
state("edge 11: every negative place", p.fetch([-2, -(2**63)], b"AC"), p.done("-,-"))
state("edge 12: longer than the consensus", p.ann(1, "C", False, [67, 67], [b"CC"], [b"\1\1"]), p.done("01", 1, 0))
state("edge 12: a read over 16,000", p.ann(1, "C", True, [67], [b"C" * 16_001], [b"\1" * 16_001]), p.done("01", 1, 0))
state("edge 12: aligned rows must total", p.ann(1, "C", True, [67], [b"C"], [b""]), 2)
state("edge 13: duplex doesn't gate", p.dup("E", b"A", ("C", b"\0", [3], [4])),
      p.done(p.row(b"A"), "-", "-", 3, 4, "-", 3, 4))
state("edge 13: Disabled still restores", p.dup("D", b"T", C_STRAND), p.done(p.row(b"C"), "-", "-", 1, 0, "-", 1, 0))
state("edge 13: a bad second strand", p.dup("E", b"T", C_STRAND, ("C", b"", [], [])), 2)
state("edge 13: 2 where Disabled", p.dup("D", b"TT", C_STRAND), 2)
state("edge 15: ML of 64 bits", p.build("C", "E", b"CC", b"\1\1", [U32, U32], [U32, 1]),
      p.edited(b"C+m?,0,0;", b"\x80\xff"))
state("edge 16: U wants U", p.calls(b"U+x?,0;", None, b"T"), 7)
state("edge 18: a cut's sum past 2^32", p.whole_step(b"C", b"C+m?;", None, "CU", [U32, U32]), 11)
state("a cut's sum past 2^64", p.whole_step(b"C", b"C+m?;", None, "CU", [U64, 1]), 11)

# ---- The session on altered buffers ------------------------------------------------------------

state("step: 1 by the lengths", p.step(b"C", b"C+m?;", None, [16_001, 5, 0], "MK", [0]), 1)
state("step: 1 before 2", p.step(b"C", b"C+m?;", b"", [2, 5, 65_537], "MK", [0]), 1)
state("step: 2", p.step(b"C", b"C+m?;", None, [2, 5, 0], "MK", [0]), 2)
state("step: 2 before 21", p.step(b"C", b"C+m?;", b"", [1, 5, 1], "CU", [0, 0]), 2)
state("step: without ML its length isn't looked at", p.step(b"C", b"C+m?;", None, [1, 5, U64], "MK", []),
      p.done(p.row(b"C"), p.row(b"C+m?;"), "-", f"1,5,{U64}"))
state("step: 21 before 3", p.whole_step(b"C", b"\xff", None, "CU", [0, 0]), 21)
state("step: 11 before 3", p.whole_step(b"C", b"\xff", None, "CU", [1, 1]), 11)
state("step: 3", p.whole_step(b"C", b"\xff;", None, "DR", [0]), 3)
state("step: 4", p.step(b"C", b"C+m?;", None, [1, 4, 0], "DR", [0]), 4)
state("step: 10", p.whole_step(b"C", b"C+m,0;", None, "DR", [0]), 10)
state("step: longer buffers", p.step(b"CCxy", b"C+m?,0,0;z", b"\1\2\3", [2, 9, 2], "MK", [0]),
      p.done(p.row(b"NCxy"), p.row(b"C+m?,0;0;z"), p.row(b"\2\2\3"), "2,7,1"))

# ---- SAMtags -----------------------------------------------------------------------------------

SAMTAGS_SEQ = b"AGCTCTCCAGAGTCGNACGCCATYCGCGCGCCACCA"
state("SAMtags: C+m,2,2,1,4,1", p.calls(b"C+m,2,2,1,4,1;", None, SAMTAGS_SEQ),
      p.done(1, "1:6:0:0,1:17:0:0,1:20:0:0,1:31:0:0,1:34:0:0"))
state("SAMtags: a group on G, the other strand", p.calls(b"G-m,0,1,4;", None, SAMTAGS_SEQ),
      p.done(1, "1:1:0:0,1:11:0:0,1:29:0:0"))
state("SAMtags: three groups", p.calls(b"C+m,2,2,1,4,1;C+76792,6,7;N+n,15;", bytes(8), SAMTAGS_SEQ),
      p.done(3, "1:6:0:1,1:17:1:1,1:20:2:1,1:31:3:1,1:34:4:1,2:19:5:1,2:34:6:1,3:15:7:1"))
state("SAMtags: two codes at once", p.calls(b"C+mh,5,0;", bytes(4), SAMTAGS_SEQ), p.done(1, "1:17:0:2,1:19:2:2"))
state("SAMtags: an empty MM", p.calls(b"", None, SAMTAGS_SEQ), 4)
# SAMtags' own examples name no SEQ: the 6th, 19th and 20th C; the 15th G; two codes at the 6th and the 19th C. They are proved too (samtags-examples).
state("SAMtags: C+m,5,12,0", p.calls(b"C+m,5,12,0;", bytes([1, 2, 3]), b"C" * 20), p.done(1, "1:5:0:1,1:18:1:1,1:19:2:1"))
state("SAMtags: G-m,14", p.calls(b"G-m,14;", bytes([1]), b"G" * 20), p.done(1, "1:14:0:1"))
state("SAMtags: C+mh,5,12", p.calls(b"C+mh,5,12;", bytes([1, 2, 3, 4]), b"C" * 20), p.done(1, "1:5:0:2,1:18:2:2"))

# ---- The smallest inputs of docs/DIFFERENCES.md that are not above --------------------------------

state("differs: UTF-8", p.calls("é;".encode(), None, b""), 3)
state("differs: a 0 in the reference", p.fetch([0], b"\0"), p.done("-"))
state("differs: 16,001 bases", p.calls(b"C+m;", None, b"C" * 16_001), 1)
state("differs: room", p.drop(b"C+m?,0;", None, b"C", [], room=(6, 0)), 12)
state("differs: an empty text", p.calls(b"", None, b""), 4)
state("differs: mask of another length", p.mask(b"C+m;", None, b"", b"A"), 2)
state("differs: restoring", p.rest("C", b"", b"\0"), 2)
state("differs: building", p.build("C", "E", b"C", b"", [], []), 2)
state("differs: duplex", p.dup("E", b"C", ("C", b"", [], [])), 2)
state("differs: aligned bytes, all counted", p.ann(1, "C", True, [], [b"C"], [b""]), 2)
state("differs: aligned bytes, informative counted", p.ann(1, "C", False, [67], [b"C"], [b""]), 2)
state("differs: the word 9", p.q([9], 0, False), 13)
state("differs: a missing place", p.q([p.word(1, "I")], 0, False), p.done("-"))
state("differs: a missing base", p.fetch([0], b""), p.done("-"))
state("differs: a refused cut", p.cut(b"C+m?,3;", None, b"CA", b"C", 0), 7)
state("differs: a cut of nothing", p.cut(b"C+m;", None, b"A", b"A", None), 21)
state("SAMtags: another base", p.calls(b"x+m;", None, b""), p.done(1, "*"))
state("SAMtags: another base, listed", p.calls(b"x+m,0;", None, b"X"), p.done(1, "1:0:0:0"))
state("SAMtags: another sign", p.calls(b"C*m;", None, b""), p.done(1, "*"))
state("SAMtags: no code", p.calls(b"C+;", None, b""), p.done(1, "*"))
state("SAMtags: three marks", p.calls(b"C+m?.?;", None, b""), p.done(1, "*"))
state("SAMtags: a lower-case base", p.calls(b"C+m?,0;", None, b"c"), 7)
state("same: masked by another letter", p.mask(b"C+m?,0;", None, b"CC", b"GC"), p.edited(b"C+m?;"))
state("same: one base twice", p.calls(b"C+m?,0;C+m?,0;", None, b"C"), p.done(2, "1:0:0:0,2:0:0:0"))

# ---- Reads as a BAM record stores them -----------------------------------------------------------


def packed(text):
    return bytes.fromhex(text)


def session_left(numbers, count, text, mm, ml=None):
    """The answer of a session on a stored read."""
    return p.done(p.listed(numbers), count, p.row(packed(text)), p.row(mm), p.row(ml))


# A reverse read of five C is stored as five G.
FIVE = packed("444440")
FIVE_LISTED = b"C+m?,0,0,0,0,0;"

state("stored: no base turns", p.turn(0, b""), p.done("."))
state("stored: one base with a dirty spare half turns", p.turn(1, packed("2f")), p.done("40"))
state("stored: two bases turn", p.turn(2, packed("12")), p.done("48"))
state("stored: three bases with a dirty spare half turn", p.turn(3, packed("124f")), p.done("2480"))
state("stored: all sixteen letters turn", p.turn(16, packed("0123456789abcdef")), p.done("f7b3d591e6a2c480"))
state("stored: turned twice", p.turn(3, packed("2480")), p.done("1240"))
state("stored: unpacked, forward", p.unpack(0, 16, packed("0123456789abcdef")), p.done(p.row(b"=ACMGRSVTWYHKDBN")))
state("stored: unpacked, reverse", p.unpack(1, 16, packed("0123456789abcdef")), p.done(p.row(b"NVHMDRWABSYCKGT=")))
state("stored: a spare half is not unpacked", p.unpack(0, 1, packed("2f")), p.done(p.row(b"C")))
state("stored: a byte too many", p.turn(1, packed("2000")), 2)
state("stored: a byte too few", p.turn(3, packed("20")), 2)
state("stored: many bytes beside few bases", p.turn(3, bytes(8_001)), 2)
state("stored: 1 before 2", p.turn(16_001, b""), 1)
state("stored: 1 of the text before 2", p.stored_calls(0, 3, b"", b"C" * 65_537, None), 1)
state("stored: 2 before the text", p.stored_calls(0, 3, b"", b"", None), 2)
state("stored: 2 before 12", p.turn(3, packed("20"), room=0), 2)
state("stored: no room for a turned byte", p.turn(1, packed("2f"), room=0), 12)
state("stored: no room for a base", p.unpack(1, 3, packed("124f"), room=2), 12)
state("stored: a spare half counts as no base", p.stored_calls(0, 1, packed("2f"), b"N+m?,1;", None), 7)
state("stored: a spare half counts as no base, reverse", p.stored_calls(1, 1, packed("2f"), b"N+m?,1;", None), 7)
state("stored: places of a reverse read, in the tag's order",
      p.stored_calls(1, 5, FIVE, b"C+m?,0,2;", b"\7\x08"), p.done(1, "1:4:0:1,1:1:1:1"))
state("stored: places of a forward read", p.stored_calls(0, 5, FIVE, b"G-m?,0,2;", b"\7\x08"), p.done(1, "1:0:0:1,1:3:1:1"))
state("stored: a drop past the end of a reverse read", p.stored_drop(1, 5, FIVE, [7], FIVE_LISTED, None), p.edited(FIVE_LISTED))
state("stored: a drop at the length of a reverse read", p.stored_drop(1, 5, FIVE, [5], FIVE_LISTED, None), p.edited(FIVE_LISTED))
state("stored: a drop at a reverse read's stored front", p.stored_drop(1, 5, FIVE, [0], FIVE_LISTED, None), p.edited(b"C+m?,0,0,0,0;"))
state("stored: a drop at a reverse read's stored back", p.stored_drop(1, 5, FIVE, [4], FIVE_LISTED, None), p.edited(b"C+m?,1,0,0,0;"))
state("stored: a mask that is none, spare halves apart", p.stored_mask(1, 1, packed("4a"), 1, packed("4b"), b"C+m?,0;", None), p.edited(b"C+m?,0;"))
state("stored: a mask of a reverse read", p.stored_mask(1, 3, packed("4440"), 3, packed("f440"), b"C+m?,1,0;", b"\1\2"), p.edited(b"C+m?,1;", b"\1"))
state("stored: equal bytes, not equal bases", p.stored_mask(0, 1, packed("20"), 2, packed("22"), b"", None), 2)
state("stored: windows are compared by bases", p.stored_cut(0, 1, packed("2a"), 1, packed("2b"), None, b"", None), 21)
state("stored: equal bytes of other lengths are no equal windows", p.stored_cut(0, 1, packed("20"), 2, packed("20"), 0, b"", None), 11)
state("stored: 2 before 21", p.stored_cut(0, 1, packed("2000"), 1, packed("2000"), 0, b"", None), 2)
state("stored: a window from the stored front", p.stored_cut(1, 3, packed("4410"), 2, packed("44"), 0, b"C+m?,0,0;", b"\1\2"), p.edited(b"C+m?,0,0;", b"\1\2"))
state("stored: no window from the other end", p.stored_cut(1, 3, packed("4410"), 2, packed("44"), 1, b"C+m?,0,0;", b"\1\2"), 11)
state("stored: a start that doesn't fit", p.stored_cut(1, 3, packed("4410"), 2, packed("44"), U64, b"C+m?,0,0;", b"\1\2"), 11)
state("stored: a start that is ignored", p.stored_cut(1, 1, packed("40"), 1, packed("f0"), U64, b"C+m?,0;", b"\1"), p.edited(b"C+m?;", b""))
state("stored: an unknown start", p.stored_cut(1, 3, packed("4410"), 2, packed("44"), None, b"C+m?;", None), 11)
state("stored session: a cut moves every half", p.stored_session(0, 4, packed("1248"), b"C+m?,0;", None, ("CU", [1, 0])),
      session_left([0], 3, "2480", b"C+m?,0;"))
state("stored session: bytes past the end stay", p.stored_session(0, 4, packed("1248"), b"C+m?,0;", None, ("CU", [3, 0])),
      session_left([0], 1, "8048", b"C+m?;"))
state("stored session: a step after a cut", p.stored_session(0, 4, packed("1248"), b"C+m?,0;", b"\7", ("CU", [0, 2]), ("DR", [1]), ("MK", [1])),
      session_left([0, 0, 0], 2, "1f48", b"C+m?;", b""))
state("stored session: the spare half is 0 after a drop", p.stored_session(1, 1, packed("4f"), b"C+m?,0;", None, ("DR", [3])),
      session_left([0], 1, "40", b"C+m?,0;"))
state("stored session: the spare half is not masked", p.stored_session(0, 1, packed("23"), b"C+m?,0;", None, ("MK", [1])),
      session_left([0], 1, "20", b"C+m?,0;"))
state("stored session: a refusal leaves the spare half", p.stored_session(0, 1, packed("2f"), b"C+m,0;", None, ("DR", [0]), ("CU", [0, 0]), ("CU", [1, 1])),
      session_left([10, 21, 11], 1, "2f", b"C+m,0;"))
state("stored session: ends of a reverse read", p.stored_session(1, 3, packed("4140"), b"C+m?,0,0;", b"\1\2", ("CU", [1, 0])),
      session_left([0], 2, "1440", b"C+m?,0;", b"\1"))
state("stored session: no step", p.stored_session(1, 1, packed("4f"), b"C+m?,0;", None), session_left([], 1, "4f", b"C+m?,0;"))
state("stored session: a byte too many at the opening", p.stored_session(0, 1, packed("2000"), b"C+m?;", None, ("MK", [0])), 2)
state("stored session: all of SEQ is cut", p.stored_session(1, 1, packed("4f"), b"C+m?,0;", b"\1", ("CU", [0, 1]), ("MK", [0]), ("CU", [0, 0])),
      session_left([0, 0, 21], 0, "4f", b"C+m?;", b""))
# The Rust's drop_modifications_at_raw takes the place 1 for the read's first base, and drops its call.
state("differs: a place past the end of a reverse read", p.stored_drop(1, 1, packed("40"), [1], b"C+m?,0;", None), p.edited(b"C+m?,0;"))

# ---- Records (K2): the request's cases -------------------------------------------------------------

AMPLE = 10_000
REVERSE = 0x10
TWO_C, FIVE_C = b"CC", b"CCCCC"
ONE_CALL, BOTH = bam.text(b"MM", b"C+m?,0;"), bam.text(b"MM", b"C+m?,0,0;")
NO_CALL = bam.text(b"MM", b"C+m?;")
OTHER = b"XXBs\1\0\0\0\7\x08"


def kept(name, make, record, *rest):
    """States that a call leaves a record as it came."""
    state("record: " + name, make(record, len(record), *rest), p.new_record(record, 0))


def becomes(name, make, record, *rest, left, went=0):
    """States what a call leaves of a record, in a row as long as that."""
    state("record: " + name, make(record, len(left), *rest), p.new_record(left, went))


def refused(name, number, make, record, room, *rest):
    state("record: " + name, make(record, room, *rest), number)


MASK, DROP, CUT = p.record_mask, p.record_drop, p.record_cut
WHOLE = bam.record(TWO_C, OTHER, BOTH, bam.values(b"\7\x08"))

refused("14: l_seq of FFFFFFFF in 40 bytes", 14, MASK, bam.head(U32, name=b"") + bytes(8), AMPLE, b"")
refused("14: 31 bytes", 14, DROP, bam.record(b"", name=b"")[:31], AMPLE, [])
refused("14: no byte", 14, CUT, b"", AMPLE, b"", 0, None)
refused("14: a quality short", 14, DROP, bam.record(b"CC")[:-1], AMPLE, [])
refused("14 before 15", 14, MASK, bam.head(3, name=b"") + b"X", AMPLE, b"")
refused("14 before 1", 14, MASK, bam.head(16_001, name=b""), AMPLE, b"")
kept("32 bytes are a record", DROP, bam.record(b"", name=b""), [0])
refused("15: XXBI with count FFFFFFFF", 15, DROP, bam.record(b"", b"XXBI\xff\xff\xff\xff"), AMPLE, [])
refused("15: count 40000000 of four bytes each", 15, DROP, bam.record(b"", b"XXBI\0\0\0\x40"), AMPLE, [])
refused("15: B of subtype A", 15, DROP, bam.record(b"", b"XXBA\1\0\0\0a"), AMPLE, [])
refused("15: B of subtype A without values", 15, DROP, bam.record(b"", b"XXBA\0\0\0\0"), AMPLE, [])
refused("15: one byte left", 15, DROP, bam.record(b"", b"X"), AMPLE, [])
refused("15: two bytes left", 15, DROP, bam.record(b"", b"XX"), AMPLE, [])
refused("15: no value", 15, DROP, bam.record(b"", b"XXA"), AMPLE, [])
refused("15: an unknown type", 15, DROP, bam.record(b"", b"XXd12345678"), AMPLE, [])
refused("15: no NUL", 15, DROP, bam.record(b"", b"XXZtext"), AMPLE, [])
refused("15: no NUL after H", 15, DROP, bam.record(b"", b"XXH"), AMPLE, [])
refused("15 before 1", 15, MASK, bam.record(b"", b"X"), AMPLE, b"C" * 16_001)
refused("1: before", 1, MASK, bam.record(b""), 0, b"C" * 16_001)
refused("1: SEQ, also where nothing would be edited", 1, DROP, bam.record(b"C" * 16_001), 0, [])
refused("1: bm of 65,537 bytes", 1, DROP, bam.record(b"", bam.text(b"bm", b"x" * 65_537)), 0, [])
refused("1: ML of 65,537 values", 1, DROP, bam.record(b"", bam.values(bytes(65_537))), 0, [])
kept("am of 65,536 bytes", DROP, bam.record(b"", bam.text(b"am", b"x" * 65_536)), [])
kept("a second ML is not looked at", DROP, bam.record(b"", bam.values(b""), bam.values(bytes(65_537))), [])
refused("12: as it came, no room", 12, DROP, WHOLE, len(WHOLE) - 1, [])
refused("12 is of the finished length", 12, MASK, bam.record(b"NC", OTHER, BOTH, bam.values(b"\7\x08")), len(WHOLE) - 4, TWO_C)
becomes("a mask", MASK, bam.record(b"NC", OTHER, BOTH, bam.values(b"\7\x08"), OTHER), TWO_C,
        left=bam.record(b"NC", OTHER, ONE_CALL, bam.values(b"\x08"), OTHER))
becomes("a mask of a reverse record", MASK, bam.record(b"NG", BOTH, bam.values(b"\7\x08"), flag=REVERSE), b"GG",
        left=bam.record(b"NG", ONE_CALL, bam.values(b"\7"), flag=REVERSE))
becomes("ML in front of MM", MASK, bam.record(b"NC", bam.values(b"\7\x08"), OTHER, BOTH), TWO_C,
        left=bam.record(b"NC", bam.values(b"\x08"), OTHER, ONE_CALL))
kept("nothing is masked, so a tag that does not fit stays", MASK, bam.record(TWO_C, bam.text(b"MM", b"C+m?,9;")), TWO_C)
becomes("a mask of another length", MASK, bam.record(TWO_C, ONE_CALL, OTHER, b"MNC\2", bam.text(b"am", b"C+m?;")), b"CCC",
        left=bam.record(TWO_C, OTHER), went=1)
kept("no MM, am or bm: ML and a stale MN stay", MASK, bam.record(TWO_C, bam.values(b"\7"), b"MNC\x09"), b"AA")
becomes("MN disagrees, and SEQ did not change", MASK, bam.record(TWO_C, OTHER, ONE_CALL, b"MNC\3", bam.values(b"\7")), TWO_C,
        left=bam.record(TWO_C, OTHER), went=1)
becomes("MN negative", DROP, bam.record(TWO_C, ONE_CALL, b"MNc\xfe"), [0], left=bam.record(TWO_C), went=1)
MANY_C = b"C" * 255
becomes("MN of type c is never 255", DROP, bam.record(MANY_C, NO_CALL, b"MNc\xff"), [0], left=bam.record(MANY_C), went=1)
kept("MN of type C is 255", DROP, bam.record(MANY_C, NO_CALL, b"MNC\xff"), [0])
becomes("MN of 254 is not -2", DROP, bam.record(TWO_C, ONE_CALL, b"MNC\xfe"), [0], left=bam.record(TWO_C), went=1)
kept("a drop of no place does not look at MN", DROP, bam.record(TWO_C, ONE_CALL, b"MNC\3"), [])
kept("a cut from no bases to no bases does not look at MN", CUT, bam.record(b"", NO_CALL, b"MNC\3"), b"", 0, None)
kept("SEQ of length 0 with an MM that lists nothing", DROP, bam.record(b"", NO_CALL, bam.values(b""), b"MNC\0"), [0])
becomes("SEQ of length 0 with an MM that lists a call", DROP, bam.record(b"", ONE_CALL, OTHER), [0], left=bam.record(b"", OTHER), went=1)
becomes("MN of another type goes with the others", DROP, bam.record(TWO_C, b"MNZ2\0", bam.text(b"MM", b"C+m"), OTHER), [0],
        left=bam.record(TWO_C, OTHER), went=1)
kept("MN of another type is no MN", DROP, bam.record(TWO_C, b"MNZ9\0", NO_CALL), [0])
becomes("ML of B:c", DROP, bam.record(TWO_C, ONE_CALL, b"MLBc\1\0\0\0\7", b"MNC\2", bam.text(b"am", b"C+m?,0;")), [1],
        left=bam.record(TWO_C, bam.text(b"am", b"C+m?,0;")), went=1)
kept("MM of another type, and its ML", DROP, bam.record(TWO_C, bam.text(b"MM", b"C+m", "H"), bam.values(b"\7")), [0])
becomes("am is edited without ML", DROP, bam.record(TWO_C, BOTH, bam.values(b"\7\x08"), bam.text(b"am", b"C+m?,0;")), [0],
        left=bam.record(TWO_C, bam.text(b"MM", b"C+m?,1;"), bam.values(b"\x08"), bam.text(b"am", b"C+m?;")))
becomes("bm goes alone", DROP, bam.record(TWO_C, ONE_CALL, bam.text(b"bm", b"C+m?,2;"), b"MNC\2"), [1],
        left=bam.record(TWO_C, ONE_CALL, b"MNC\2"), went=1)
becomes("a drop under '.' removes the tag", DROP, bam.record(TWO_C, bam.text(b"MM", b"C+m.,0;"), bam.values(b"\7"), OTHER), [0],
        left=bam.record(TWO_C, OTHER), went=1)
becomes("a drop of a reverse record", DROP, bam.record(b"GG", BOTH, flag=REVERSE), [0], left=bam.record(b"GG", ONE_CALL, flag=REVERSE))
kept("a drop past the end of a reverse record", DROP, bam.record(b"GG", BOTH, flag=REVERSE), [2])
becomes("a name twice: the first counts", DROP, bam.record(TWO_C, ONE_CALL, b"MNC\2", BOTH, b"MNC\x09"), [0],
        left=bam.record(TWO_C, NO_CALL, b"MNC\2", BOTH, b"MNC\x09"))
becomes("a name twice: the first goes", DROP, bam.record(TWO_C, b"MNC\3", ONE_CALL, b"MNC\2", BOTH), [0],
        left=bam.record(TWO_C, b"MNC\2", BOTH), went=1)
becomes("a cut", CUT, bam.record(b"CC", b"MNC\3", OTHER, bam.text(b"MM", b"C+m?,0,1;"), bam.values(b"\7\x08")), b"CCC", 0, 1,
        left=bam.record(b"CC", b"MNi\2\0\0\0", OTHER, bam.text(b"MM", b"C+m?,1;"), bam.values(b"\x08")))
becomes("a cut compares MN with the length before", CUT, bam.record(b"CC", b"MNC\2", ONE_CALL), b"CCC", 0, 1, left=bam.record(b"CC"), went=1)
# Five calls, of which a cut by one takes none, or one with its value: then the three bytes that MN gains are free.
FULL = bam.record(FIVE_C, b"MNC\6", bam.text(b"MM", b"C+m?,0,0,0,0,0;"), bam.values(b"\1\2\3\4\5"))
refused("12: MN grows in a cut by one", 12, CUT, FULL, len(FULL), FIVE_C + b"A", 0, 0)
state("record: the room that MN's growth takes", CUT(FULL, len(FULL) + 3, FIVE_C + b"A", 0, 0),
      p.new_record(bam.record(FIVE_C, b"MNi\5\0\0\0", bam.text(b"MM", b"C+m?,0,0,0,0,0;"), bam.values(b"\1\2\3\4\5")), 0))
FULLER = bam.record(FIVE_C, b"MNC\6", bam.text(b"MM", b"C+m?,0,0,0,0,0,0;"), bam.values(b"\1\2\3\4\5\6"))
state("record: MN grows by what the tag loses", CUT(FULLER, len(FULLER), FIVE_C + b"C", 0, 0),
      p.new_record(bam.record(FIVE_C, b"MNi\5\0\0\0", bam.text(b"MM", b"C+m?,0,0,0,0,0;"), bam.values(b"\1\2\3\4\5")), 0))
becomes("the reverse flag changed, same length: edited", CUT, bam.record(b"CN", b"MNC\2", BOTH, flag=0x4), b"GG", 1, None,
        left=bam.record(b"CN", b"MNC\2", ONE_CALL, flag=0x4))
kept("the reverse flag changed, SEQ turned", CUT, bam.record(b"CC", BOTH, flag=0x4), b"GG", 1, None)
becomes("the reverse flag changed, SEQ not turned", CUT, bam.record(b"GG", BOTH, flag=0x4), b"GG", 1, None, left=bam.record(b"GG", flag=0x4), went=1)
becomes("the reverse flag changed, and shorter", CUT, bam.record(b"C", b"MNC\2", BOTH, OTHER), b"GG", 1, 0, left=bam.record(b"C", OTHER), went=1)
becomes("no window", CUT, bam.record(b"A", OTHER, BOTH), b"CC", 0, 0, left=bam.record(b"A", OTHER), went=1)
becomes("an unknown start", CUT, bam.record(b"C", BOTH, OTHER), b"CC", 0, None, left=bam.record(b"C", OTHER), went=1)
kept("a cut of nothing", CUT, bam.record(b"CC", bam.text(b"MM", b"C+m")), b"CC", 0, None)
becomes("a cut from the stored front of a reverse record", CUT, bam.record(b"G", BOTH, bam.values(b"\1\2"), flag=REVERSE), b"GG", 1, 1,
        left=bam.record(b"G", ONE_CALL, bam.values(b"\1"), flag=REVERSE))
becomes("MM goes with MN, and a second MN is the new length", CUT, bam.record(b"C", bam.text(b"MM", b"x"), b"MNC\2", b"MNC\x09"), b"CC", 0, 0,
        left=bam.record(b"C", b"MNi\1\0\0\0"), went=1)
becomes("MM goes, am is edited", CUT, bam.record(b"C", bam.text(b"MM", b"x"), b"MNC\2", bam.text(b"am", b"C+m?,0,0;")), b"CC", 0, 0,
        left=bam.record(b"C", bam.text(b"am", b"C+m?,0;")), went=1)
becomes("a byte above 127 in MM, which the Rust accepts", DROP, bam.record(TWO_C, bam.text(b"MM", "C+é?,0;".encode()), OTHER), [1],
        left=bam.record(TWO_C, OTHER), went=1)
becomes("U of before pairs with A", MASK, bam.record(b"NA", bam.text(b"MM", b"A+a?,0;"), flag=REVERSE), b"UA",
        left=bam.record(b"NA", bam.text(b"MM", b"A+a?;"), flag=REVERSE))
becomes("before may have any letters", MASK, bam.record(b"NG", bam.text(b"MM", b"C+m?,0;"), flag=REVERSE), b"gG",
        left=bam.record(b"NG", bam.text(b"MM", b"C+m?,0;"), flag=REVERSE))
