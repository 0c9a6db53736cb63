"""Makes requests on BAM records (K2): well-formed records with fields of every type, and damaged ones.

A record is made around a read with its tag. A mask, a drop or a cut changes the read first; the record then has SEQ as it
is afterwards, and the request has what it was before. generate.py says what the sorts of requests are.
"""
import itertools

import bam
import lines as p
import model
import models
import records
from pieces import (
    ROW_LENGTHS, STORED_HEADERS, U64, all_listed, letters, listed_at_ends, many_groups, masked_at, pick_bytes, places_at_ends, random_tag, some_places,
    stored_seq,
)

REVERSE = 0x10
U32 = 2**32 - 1
AMPLE = 1_000_000
USUAL = [b"C+m?", b"C+m?", b"C+mh?", b"G-m?", b"N+n?", b"C+h?", b"C+76792?"]
HEADER_LISTS = [STORED_HEADERS, USUAL, USUAL, [*USUAL, b"C+m.", b"C+m", b"G-m.", b"N+ab"]]
INTEGERS = "cCsSiI"

# ---- Random fields -------------------------------------------------------------------------------

OTHER_NAMES = [b"NM", b"MD", b"RG", b"XX", b"mm", b"Mm", b"MA", b"aM", b"bn", b"ml", b"cu", b"\xff\0", b"ct"]


def random_other(rng, name):
    """A field of any type, of any name."""
    kind = rng.choice("AcCsSiIfZHB")
    if kind == "B":
        subtype, count = rng.choice("cCsSiIf"), rng.choice((0, 0, 1, 2, 3, 7))
        return name + b"B" + subtype.encode() + count.to_bytes(4, "little") + rng.randbytes(count * bam.WIDTHS.get(subtype, 4))
    if kind in "ZH":
        return bam.text(name, rng.choice((b"", b"1AE301", b"C+m?,0;", b"\xff\x80 text", b"BC")), kind)
    return name + kind.encode() + rng.randbytes({"A": 1, "f": 4}.get(kind) or bam.WIDTHS[kind])


def random_mm(rng, mm):
    return random_other(rng, b"MM") if rng.random() < 0.04 else bam.text(b"MM", mm.replace(b"\0", b"0"))


def random_ml(rng, ml):
    chance = rng.random()
    if chance < 0.92:
        return bam.values(ml)
    if chance < 0.94:
        return b"MLBc" + bam.values(ml)[4:]
    return bam.array(b"ML", "S", list(ml)) if chance < 0.96 else random_other(rng, b"ML")


def random_mn(rng, length):
    """MN, mostly as long as the tags say, in each of the integer types."""
    chance = rng.random()
    if chance < 0.06:
        return random_other(rng, b"MN")
    if chance < 0.16:
        length = rng.choice((-1, -length, length + 1, length - 1, length + 256, 0, U32, 2**31, 127, 128))
    return bam.integer(b"MN", rng.choice(INTEGERS), length)


def random_fields(rng, seq, length, headers):
    """Fields of tags that mostly fit `seq`, in any order; MN states the length. Now and then one of the five names is there twice."""
    mm, ml = random_tag(rng, seq, headers)
    found = [random_mm(rng, mm)] if rng.random() < 0.93 else []
    if ml is not None:
        found.append(random_ml(rng, ml))
    if rng.random() < 0.5:
        found.append(random_mn(rng, length))
    for name in (b"am", b"bm"):
        if rng.random() < 0.3:
            text, _ = random_tag(rng, seq, headers)
            found.append(bam.text(name, text.replace(b"\0", b"0")) if rng.random() < 0.95 else random_other(rng, name))
    for _ in range(rng.choice((0, 0, 1, 1, 2, 3))):
        found.append(random_other(rng, rng.choice(OTHER_NAMES)))
    if rng.random() < 0.07:
        name = rng.choice((b"MM", b"ML", b"MN", b"am", b"bm"))
        found.append(rng.choice((random_other(rng, name), bam.text(name, mm.replace(b"\0", b"0")), bam.integer(name, "C", length % 256))))
    rng.shuffle(found)
    return found


def random_record(rng, after, reverse, fields):
    """A record with SEQ `after`, which is in read orientation."""
    flag = rng.choice((0, 0x4, 0x63, 0x800, 0xF0F)) & ~REVERSE | (REVERSE if reverse else 0)
    name = rng.choice((b"r\0", b"r\0", b"", b"read/1\0", b"no end"))
    words = [rng.randrange(2**32) for _ in range(rng.choice((0, 0, 1, 2, 5)))]
    return bam.record(as_stored(after, reverse), *fields, flag=flag, name=name, words=words, spare=rng.randrange(16), quality=rng.randrange(256))


# ---- Damage --------------------------------------------------------------------------------------


def damaged_record(rng, record):
    """The record cut short, or with bytes changed, put in or taken out; often where a length is stated."""
    way, at = rng.randrange(9), rng.randrange(len(record) + 1)
    if way == 0:
        return record[:at]
    if way == 1:
        return record[: -rng.choice((1, 1, 2, 3, 4))]
    if way == 2:
        return record + rng.randbytes(rng.choice((1, 2, 3, 4, 8)))
    if way == 3:
        return record[:at] + rng.randbytes(1) + record[at:]
    if way == 4:
        at = rng.choice((8, 12, 13, 16, 17, 18, 19))
        return record[:at] + rng.choice((b"\xff", b"\0", b"\1", rng.randbytes(1))) + record[at + 1 :]
    if way == 5:
        return record[:16] + rng.choice((b"\xff\xff\xff\xff", b"\xfe\xff\xff\x7f", b"\xab\xaa\xaa\xaa", b"\0\0\0\0")) + record[20:]
    if way == 6:
        return record + rng.choice(ODD_FIELDS)
    if way == 7:
        return record.replace(b"\0", b"\1") if rng.random() < 0.3 else record.replace(b"BC", b"BA", 1)
    return record[:at] + rng.choice((rng.randbytes(1), b"\xff\xff\xff\xff", b"BI\xff\xff\xff\xff")) + record[at + 1 :]


ODD_FIELDS = [
    b"X", b"XX", b"XXZ", b"XXZtext", b"XXH", b"XXH1A", b"XXA", b"XXc", b"XXs\0", b"XXS\0", b"XXi\0\0\0", b"XXI\0\0\0", b"XXf\0\0\0", b"XXB", b"XXBC",
    b"XXBC\0\0\0", b"XXBA\0\0\0\0", b"XXBA\1\0\0\0a", b"XXBZ\0\0\0\0", b"XXBB\0\0\0\0", b"XXBH\0\0\0\0", b"XXBd\0\0\0\0", b"XXB\0\0\0\0\0", b"XXd\0\0\0\0\0\0\0\0",
    b"XXz\0", b"XXa1", b"XX\x001", b"XX 1", b"XXBC\1\0\0\0", b"XXBs\1\0\0\0\0", b"XXBi\1\0\0\0\0\0\0", b"XXBf\2\0\0\0\0\0\0\0\0\0\0",
    *(b"XXB" + subtype.encode() + count for subtype in "cCsSiIf" for count in (b"\xff\xff\xff\xff", b"\0\0\0\x80", b"\0\0\0\x40")),
]
GOOD_FIELDS = [
    b"XXA!", b"XXc\x80", b"XXC\xff", b"XXs\0\x80", b"XXS\xff\xff", b"XXi\0\0\0\x80", b"XXI\xff\xff\xff\xff", b"XXf\0\0\xc0\x7f", b"XXZ\0", b"XXZ text\0",
    b"XXH\0", b"XXH1AE3\0", *(b"XXB" + subtype.encode() + bytes(4) for subtype in "cCsSiIf"), b"XXBc\1\0\0\0\x80", b"XXBC\2\0\0\0\0\0",
    b"XXBs\1\0\0\0\0\0", b"XXBS\1\0\0\0\0\0", b"XXBi\1\0\0\0\0\0\0\0", b"XXBI\1\0\0\0\0\0\0\0", b"XXBf\1\0\0\0\0\0\0\0",
]


# ---- Random requests -----------------------------------------------------------------------------


def with_room(rng, record, ask):
    """The request that `ask` makes of a room: ample, as long as the record, exactly as needed, or one less."""
    chance = rng.random()
    if chance < 0.7:
        return ask(rng.choice((len(record) + 3, AMPLE, U64)))
    if chance < 0.8:
        return ask(len(record))
    answer = models.answer(ask(U64)).split("\t")
    needed = int(answer[2]) if answer[0] == "0" else len(record)
    return ask(max(0, needed - (chance < 0.9)))


def random_read(rng):
    chance = rng.random()
    if chance < 0.004:
        return pick_bytes(rng, b"AACCCGGTN", rng.choice((150, 255, 256, 257, 1_000, 1_024, 1_025)))
    return stored_seq(rng) if chance < 0.6 else pick_bytes(rng, b"ACCCCGGTT", rng.randint(6, 30))


def edit_places(rng, length):
    """Places of a read: each with the same chance, or as in the other requests."""
    if rng.random() < 0.6:
        chance = rng.random()
        return [place for place in range(length) if rng.random() < chance]
    return some_places(rng, length)


def made(rng, seq, after, reverse, length):
    """A record with SEQ `after` and tags on `seq`, both in read orientation; now and then damaged."""
    record = random_record(rng, after, reverse, random_fields(rng, seq, length, rng.choice(HEADER_LISTS)))
    return damaged_record(rng, record) if rng.random() < 0.12 else record


def as_stored(seq, reverse):
    return model.turned(seq) if reverse else seq


def odd_before(rng, before):
    """Letters that no packed SEQ has, or a base more or fewer."""
    way = rng.randrange(4)
    if way == 0:
        return before.lower()
    if way == 1:
        return before + b"C"
    if way == 2:
        return before[:-1]
    at = rng.randrange(len(before) + 1)
    return before[:at] + rng.choice((b"U", b"u", b"\0", b"\xff", b"n", b".", b"c")) + before[at + 1 :]


def random_mask(rng):
    seq, reverse = random_read(rng), rng.randrange(2)
    after = bytearray(masked_at(seq, edit_places(rng, len(seq))))
    if after and rng.random() < 0.1:
        after[rng.randrange(len(after))] = rng.choice(model.LETTERS)
    before = as_stored(seq, reverse)
    if rng.random() < 0.08:
        before = odd_before(rng, before)
    record = made(rng, seq, bytes(after), reverse, len(after))
    return with_room(rng, record, lambda room: p.record_mask(record, room, before))


def random_drop(rng):
    seq, reverse = random_read(rng), rng.randrange(2)
    record = made(rng, seq, seq, reverse, len(seq))
    places = [place for place in edit_places(rng, len(seq)) if place < len(seq) or rng.random() < 0.4]
    return with_room(rng, record, lambda room: p.record_drop(record, room, places))


def random_window(rng, seq):
    """The ends of a window: often one end alone is cut, or none."""
    front = rng.randint(0, len(seq)) if rng.random() < 0.5 else 0
    back = rng.randint(front, len(seq)) if rng.random() < 0.6 else len(seq)
    return front, back


def random_cut(rng):
    seq, reverse = random_read(rng), rng.randrange(2)
    front, back = random_window(rng, seq)
    after = masked_at(seq[front:back], some_places(rng, back - front) if rng.random() < 0.4 else ())
    if after and rng.random() < 0.05:
        after = after[:-1] + pick_bytes(rng, model.LETTERS, 1)
    before_reverse = reverse ^ (rng.random() < 0.1)
    start = len(seq) - back if before_reverse else front
    if rng.random() < 0.1:
        start = rng.choice((None, start + 1, max(0, start - 1), U64, len(seq)))
    before = as_stored(seq, before_reverse)
    if rng.random() < 0.03:
        before = odd_before(rng, before)
    record = made(rng, seq, after, reverse, len(before))
    return with_room(rng, record, lambda room: p.record_cut(record, room, before, before_reverse, start))


# ---- Short requests ------------------------------------------------------------------------------

# A read of five bases, forward C C A C G. What each field may be; None if it is absent.
READ = b"CCACG"
SHORT_MM = [
    None, bam.text(b"MM", b"C+m?,0,0;"), bam.text(b"MM", b"C+m,1;"), bam.text(b"MM", b"C+m"), bam.text(b"MM", b"C+m?,0,0;", "H"), b"MMi\0\0\0\0",
    bam.text(b"MM", b""),
]
SHORT_ML = [None, bam.values(b"\1\2"), bam.values(b"\1"), b"MLBc\2\0\0\0\1\2", b"MLBS\1\0\0\0\1\2", b"MLC\2", bam.text(b"ML", b"12")]
SHORT_TEXT = [None, bam.text(b"am", b"N+a?,00;"), bam.text(b"am", b"N+a?,9;"), bam.text(b"am", b"N+a?,0;", "H")]
SHORT_MN = [None, *(bam.integer(b"MN", kind, 5) for kind in INTEGERS), b"MNC\4", b"MNc\xff", b"MNs\xfb\xff", b"MNI\5\0\0\x80", b"MNA\5", b"MNf\0\0\xa0\x40", b"MNZ5\0"]


def short_field_lists():
    """The choices of MM, ML, am and MN, two of them all with all, and the others as they should be."""
    usual = [SHORT_MM[1], SHORT_ML[1], SHORT_TEXT[1], SHORT_MN[2]]
    choices = [SHORT_MM, SHORT_ML, SHORT_TEXT, SHORT_MN]
    for one, other in itertools.combinations(range(4), 2):
        for first, second in itertools.product(choices[one], choices[other]):
            chosen = list(usual)
            chosen[one], chosen[other] = first, second
            yield [field for field in chosen if field is not None]
    five = [*usual, bam.text(b"bm", b"C+m?,1;")]
    yield from map(list, itertools.permutations(five))
    for field in GOOD_FIELDS:
        yield [field, *five]
        yield [five[0], field, *five[1:]]
        yield [*five, field]
    for field in ODD_FIELDS:
        yield [*five, field]
        yield [field, *five]
    for again in (*five, b"MMZ\0", b"MLBC\0\0\0\0", b"MNC\x04", b"MNZ5\0", b"amA!", b"bmZC+m?,0;\0"):
        yield [*five, again]
        yield from ([again, other, *five] for other in five)


def short_records(after):
    """Every short list of fields on a record of a SEQ, by turns forward and reverse, with the room by turns."""
    for turn, fields in enumerate(short_field_lists()):
        for reverse in (0, 1):
            record = bam.record(as_stored(after, reverse), *fields, flag=REVERSE * reverse, spare=turn % 16)
            yield reverse, record, len(record) + (3, 0, -1, 2)[(turn + reverse) % 4]


def prefixes(record):
    """The record cut short at each byte, and with each byte changed."""
    for at in range(len(record)):
        yield record[:at]
        for other in (0x00, 0xFF, record[at] ^ 1, ord("B")):
            yield record[:at] + bytes([other]) + record[at + 1 :]


WHOLE = bam.record(b"CCACG", SHORT_MM[1], b"XXBi\1\0\0\0\1\2\3\4", SHORT_ML[1], SHORT_MN[2], b"XXf\0\0\0\0", SHORT_TEXT[1], words=(80,))


def complements():
    """Every byte as the one base before a mask of a reverse record, with a call on its complement, and on the byte itself."""
    for letter in letters(bytes(range(256))):
        for base in dict.fromkeys((letter.upper(), letter.translate(records.COMPLEMENTS).upper(), b"A")):
            if base != b"\0":
                yield p.record_mask(bam.record(b"N", bam.text(b"MM", base + b"+m?,0;"), flag=REVERSE), AMPLE, letter)


def short_mask():
    for after in (b"CNACG", READ):
        for reverse, record, room in short_records(after):
            yield p.record_mask(record, room, as_stored(READ, reverse))
    yield from complements()
    for record in prefixes(WHOLE):
        yield p.record_mask(record, AMPLE, b"CCACC")


def short_drop():
    for reverse, record, room in short_records(READ):
        for places in ([4 if reverse else 0], [], [9]):
            yield p.record_drop(record, room, places)
    for record in prefixes(WHOLE):
        yield p.record_drop(record, AMPLE, [1])


def short_cut():
    for start, after in ((0, b"CCAC"), (1, b"CNCG")):
        for turn, (reverse, record, room) in enumerate(short_records(after[: 4 + start])):
            before_reverse = reverse ^ (turn % 8 == 7)
            first = 1 - start if reverse else start
            yield p.record_cut(record, room, as_stored(READ, before_reverse), before_reverse, None if turn % 16 == 5 else first)
    for after, before in itertools.product((b"", b"C", b"N", b"CG", b"CN", b"NC", b"CCA"), repeat=2):
        for reverse, before_reverse, start in itertools.product((0, 1), (0, 1), (None, 0, 1, 2, U64)):
            mn = bam.integer(b"MN", "C", len(before))
            record = bam.record(as_stored(after, reverse), mn, bam.text(b"MM", b"N+m?,0;"), flag=REVERSE * reverse)
            yield p.record_cut(record, len(record) + 3 * (start != 0), as_stored(before, before_reverse), before_reverse, start)
    for record in prefixes(WHOLE):
        yield p.record_cut(record, AMPLE, b"CCACGG", 0, 0)


# ---- Boundary requests ---------------------------------------------------------------------------


def long_text(name, size):
    """A text of so many bytes that fits a SEQ with two C."""
    return bam.text(name, b"C+m?," + b"0" * (size - 7) + b"1;")


def long_values(count):
    """A text whose four calls on CCCC have so many values each, and its ML."""
    return bam.text(b"MM", b"C+" + b"m" * count + b"?,0,0,0,0;"), bam.values(bytes(4 * count))


def long_records():
    """Records at and around the bounds of the domain, each with the SEQ that it has."""
    mm, ml, seq = all_listed(16_000)
    yield bam.record(seq, bam.text(b"MM", mm), bam.values(ml), b"MNS\x80\x3e"), seq
    yield bam.record(seq + b"C", b"XXA!"), seq + b"C"
    yield bam.record(seq, b"XXA!"), seq
    for name in (b"MM", b"am", b"bm"):
        for size in (65_537, 65_536):
            yield bam.record(b"ACAC", long_text(name, size)), b"ACAC"
    yield bam.record(b"CCCC", *long_values(16_384)), b"CCCC"
    yield bam.record(b"CC", bam.text(b"MM", b"C+m?;"), bam.values(bytes(65_537))), b"CC"
    yield bam.record(b"CC", bam.values(bytes(65_537))), b"CC"
    # Not looked at: of another type, or not the first of its name.
    yield bam.record(b"ACAC", bam.text(b"MM", b"C+m?,1;"), long_text(b"MM", 65_537)), b"ACAC"
    yield bam.record(b"ACAC", bam.text(b"MM", b"C" * 65_537, "H"), bam.text(b"am", b"C+m?,1;")), b"ACAC"
    yield bam.record(b"ACAC", bam.text(b"MM", b"C+m?;"), b"MLBc" + (65_537).to_bytes(4, "little") + bytes(65_537)), b"ACAC"
    yield bam.record(b"ACAC", bam.text(b"MM", b"C+m?;"), bam.values(b""), bam.values(bytes(65_537))), b"ACAC"


def largest_records():
    """All of it one over its bound; a record as long as the program's buffer, and one byte longer; and one of small fields alone."""
    texts = [long_text(name, 65_537) for name in (b"MM", b"am", b"bm")]
    yield bam.record(b"C" * 16_001, *texts, bam.values(bytes(65_537)), name=b"n" * 254 + b"\0", words=[16] * 30_000)
    for size in (450_000, 450_001):
        record = bam.record(b"CC", bam.text(b"MM", b"C+m?,0;"))
        yield record + bam.text(b"XX", b"x" * (size - len(record) - 4))
    yield bam.record(b"CC", bam.text(b"MM", b"C+m?,0;"), *[b"XXA!"] * 60_000)


def boundary_records():
    """Pairs of a record and its SEQ; those of length FFFFFFFF and the like first."""
    yield bam.head(U32) + bytes(8), b""
    yield bam.head(0, words=65_535) + b"r\0" + bytes(6), b""
    yield bam.head(2**31 - 1, name=b"")[:32], b""
    yield bam.record(b"CC")[:31], b"CC"
    yield bam.record(b"", name=b""), b""
    yield b"", b""
    yield from long_records()
    for record in largest_records():
        yield record, b"CC"


def full_record(after, reverse):
    """A record whose tag lists all of 16,000 C, with another SEQ in read orientation."""
    mm, ml, _ = all_listed(16_000)
    fields = bam.integer(b"MN", "S", 16_000), bam.text(b"MM", mm), bam.values(ml), bam.text(b"am", mm)
    return bam.record(as_stored(after, reverse), *fields, flag=REVERSE * reverse)


def boundary_mask():
    for reverse in (0, 1):
        record = full_record(b"CN" * 8_000, reverse)
        yield p.record_mask(record, len(record), as_stored(b"C" * 16_000, reverse))
    for record, seq in boundary_records():
        yield p.record_mask(record, len(record), b"N" + seq[1:])
        yield p.record_mask(record, len(record) - 1 if record else 0, seq)
    whole = bam.record(b"CC", bam.text(b"MM", b"C+m?,0;"))
    for before in (b"C" * 16_000, b"C" * 16_001, b"C" * 16_002):
        yield p.record_mask(whole, AMPLE, before)
    for room in ("00", "0" * 40 + "1", U64 + 1, "-1", "*", U64):
        yield p.record_mask(whole, room, b"CC")


def boundary_drop():
    for reverse in (0, 1):
        record = full_record(b"C" * 16_000, reverse)
        yield p.record_drop(record, len(record), range(0, 16_001, 3))
        yield p.record_drop(record, len(record), range(16_000, -1, -1))
    mm, _, seq = many_groups(21_845)
    groups = bam.record(seq, bam.text(b"MM", mm))
    yield p.record_drop(groups, len(groups), [3])
    for record, seq in boundary_records():
        yield p.record_drop(record, len(record), [max(0, len(seq) - 1)])
        yield p.record_drop(record, len(record) - 1 if record else 0, [])
    whole = bam.record(b"GG", bam.text(b"MM", b"C+m?,0;"), flag=REVERSE)
    for place in ("00", "0" * 40 + "1", U64 + 1, "-0", "-", U64, U32, U32 + 1, 2**63):
        yield p.record_drop(whole, AMPLE, [place])
    for count in (65_537, 65_538):
        yield p.record_drop(whole, AMPLE, [0] * count)


def boundary_cut():
    for record, seq in boundary_records():
        yield p.record_cut(record, len(record) + 3, b"C" + seq, 0, 1)
        yield p.record_cut(record, len(record), seq[:16_000], 0, 0)
    seq = b"C" * 16_000
    for reverse, after in itertools.product((0, 1), (seq[1:], seq[:15_000], b"")):
        yield p.record_cut(full_record(after, reverse), AMPLE, as_stored(seq, reverse), reverse, 0)
    whole = bam.record(b"CC", bam.text(b"MM", b"C+m?,0;"))
    for before in (b"C" * 16_000, b"C" * 16_001, b"C" * 16_002):
        yield p.record_cut(whole, AMPLE, before, 0, 0)
    for start in (U64, U64 - 1, 2**63, 2**32, "00", U64 + 1, "-1"):
        yield p.record_cut(whole, AMPLE, b"CCC", 1, start)


# ---- Reads of about 1,024 bases ------------------------------------------------------------------


def rows_of_records():
    """Reads with calls at both ends, forward and reverse: whether reverse, SEQ in read orientation, and the fields."""
    for length, reverse in itertools.product(ROW_LENGTHS, (0, 1)):
        mm, ml, seq = listed_at_ends(length)
        yield reverse, seq, [bam.text(b"bm", mm), bam.integer(b"MN", "s", length), bam.values(ml), bam.text(b"MM", mm)]


def row_record(after, reverse, fields):
    return bam.record(as_stored(after, reverse), *fields, flag=REVERSE * reverse, spare=9)


def rows_mask():
    for reverse, seq, fields in rows_of_records():
        for places in places_at_ends(len(seq)):
            yield p.record_mask(row_record(masked_at(seq, places), reverse, fields), AMPLE, as_stored(seq, reverse))


def rows_drop():
    for reverse, seq, fields in rows_of_records():
        for places in places_at_ends(len(seq)):
            yield p.record_drop(row_record(seq, reverse, fields), AMPLE, places)


def rows_cut():
    """Cuts of one base at either end, so from 1,025 bases to 1,024 too; a mask; and a mask with the reverse flag changed."""
    for reverse, seq, fields in rows_of_records():
        before = as_stored(seq, reverse)
        for start, after in ((0, seq[1:] if reverse else seq[:-1]), (1, seq[:-1] if reverse else seq[1:])):
            yield p.record_cut(row_record(after, reverse, fields), AMPLE, before, reverse, start)
        after = masked_at(seq, [0, len(seq) - 1])
        yield p.record_cut(row_record(after, reverse, fields), AMPLE, before, reverse, None)
        yield p.record_cut(row_record(after, 1 - reverse, fields), AMPLE, before, reverse, None)


ROWS = {"K2.RMASK": rows_mask, "K2.RDROP": rows_drop, "K2.RCUT": rows_cut}

# As in generate.SOURCES: all short requests, one random request, the boundary requests, the number of random requests.
SOURCES = {
    "K2.RMASK": (short_mask, random_mask, boundary_mask, 38_000),
    "K2.RDROP": (short_drop, random_drop, boundary_drop, 38_000),
    "K2.RCUT": (short_cut, random_cut, boundary_cut, 38_000),
}
