"""Pieces that requests are made of: byte strings, tags, places, and reads as a BAM record stores them."""
import itertools

import model

U64 = 2**64 - 1

# ---- Rows ----------------------------------------------------------------------------------------


def words_over(symbols, most):
    """All byte strings of at most `most` symbols."""
    for count in range(most + 1):
        for chosen in itertools.product(symbols, repeat=count):
            yield b"".join(chosen)


def letters(text):
    """The single bytes of a text."""
    return [bytes([byte]) for byte in text]


def rows_over(values, most):
    """All lists of at most `most` values."""
    for count in range(most + 1):
        yield from map(list, itertools.product(values, repeat=count))


def pick_bytes(rng, alphabet, length):
    return bytes(rng.choices(alphabet, k=length))


def subsets(places):
    for count in range(len(places) + 1):
        yield from itertools.combinations(places, count)


# ---- Tags ----------------------------------------------------------------------------------------

SYMBOLS = letters(b"CN+m?,;01")
TOKENS = [b"C+m?", b"C+m", b"N+mh?", b"c+", b",0", b",1", b",", b";"]
HEADERS = [
    b"C+m?", b"C+m?", b"C+m", b"C+m.", b"C+mh?", b"C+mh", b"C+hm.", b"G-m?", b"G-m", b"N+n?", b"N+n", b"n+ab?",
    b"c+m?", b"C+76792?", b"C+76792", b"C+", b"C?", b"CC", b"T+7m?", b"A+a.?", b"C+m?.", b"C+?m", b"U+x?", b"N-",
]
# Groups may be on any letter that a packed SEQ can hold; a group on a turned letter is read at other places.
STORED_HEADERS = HEADERS + [b"=+m?", b"M+m?", b"K+m", b"R-a?", b"B-h?", b"V+hm?", b"D+z?", b"H+z", b"Y+b?", b"S+b?", b"W+b?"]


def fitting_ml(mm):
    """An ML of as many values as a text over TOKENS or HEADERS takes."""
    count = 0
    for group in mm.split(b";"):
        header, *skips = group.split(b",")
        count += len(skips) * model.values_per_base(header)
    return bytes(value * 37 % 256 for value in range(count))


def near_mls(mm):
    """No ML, an ML that fits, one that is one short, one that is one over."""
    ml = fitting_ml(mm)
    return [None, ml, ml + b"\xee"] + ([ml[:-1]] if ml else [])


def short_texts(symbols=4, tokens=4):
    for text in words_over(SYMBOLS, symbols):
        yield text + b";"
    for text in words_over(TOKENS, tokens):
        yield text + b";"
    yield from words_over(SYMBOLS, min(symbols, 3))


def random_seq(rng):
    return pick_bytes(rng, b"AACCCCCCGGGTTNnccgU\0", rng.choice((0, 1, 2, 3, 5, 8, 13, 21, 34)))


def random_group(rng, seq, headers):
    header = rng.choice(headers)
    tracked = model.tracked_places(seq, header[:1].upper())
    chance, fields, bare = rng.random(), [header], 0
    for _ in tracked:
        if rng.random() < chance:
            zeros = b"0" * (rng.randint(1, 3) if rng.random() < 0.05 else 0)
            fields.append(zeros + b"%d" % bare)
            bare = 0
        else:
            bare += 1
    return b",".join(fields) + b";"


def damaged(rng, mm, ml):
    """The tag with one byte changed, put in or taken out, or its ML one value short or over."""
    way, at = rng.randrange(6), rng.randint(0, len(mm))
    odd = rng.choice((b",", b";", b"?", b".", b"+", b"-", b"0", b"9", b"m", b" ", b"\0", b"\x80", "é".encode()))
    if way == 0:
        return mm[:at] + odd + mm[at:], ml
    if way == 1:
        return mm[:at] + odd + mm[at + 1 :], ml
    if way == 2:
        return mm[:at] + mm[at + 1 :], ml
    if way == 3:
        return mm[:at] + rng.choice((b"18446744073709551616", b"18446744073709551615", b"40")) + mm[at:], ml
    if ml is None:
        return mm[:-1], ml
    return (mm, ml[:-1]) if way == 4 else (mm, ml + b"\1")


def random_tag(rng, seq, headers=HEADERS):
    mm = b"".join(random_group(rng, seq, headers) for _ in range(rng.choice((1, 1, 1, 2, 2, 3))))
    ml = None if rng.random() < 0.25 else rng.randbytes(len(fitting_ml(mm)))
    return damaged(rng, mm, ml) if rng.random() < 0.25 else (mm, ml)


def all_listed(length):
    """A tag that lists every C of a SEQ of `length` C."""
    return b"C+m?" + b",0" * length + b";", (bytes(range(256)) * 63)[:length], b"C" * length


def many_groups(count):
    """`count` groups without an entry, on the longest SEQ: the Rust searches SEQ for each group."""
    return b"C+;" * count, None, b"C" * 16_000


# A call takes one row for at most 1,024 bases, and another one for more.
ROW_LENGTHS = (1_024, 1_025, 1_023)


def listed_at_ends(length):
    """A tag with calls on two bases at each end of a SEQ of all sixteen letters, C only at the ends."""
    seq = b"CC" + (model.LETTERS.replace(b"C", b"") * 70)[: length - 4] + b"CC"
    return b"C+m?,0,0,0,0;N+n?,0,%d;" % (length - 2), b"\1\x7f\x80\xff\2\x81", seq


# ---- Places, and stored reads --------------------------------------------------------------------


def masked_at(seq, places):
    after = bytearray(seq)
    for place in places:
        if place < len(after):
            after[place] = ord("N")
    return bytes(after)


def some_places(rng, length):
    places = [rng.randint(0, length + 2) for _ in range(rng.choice((0, 1, 1, 2, 3, 6)))]
    if rng.random() < 0.05:
        places.append(rng.choice((U64, 2**63, 2**32, 65_536)))
    return places


def places_at_ends(length):
    """Places of which a wrong row would miss some, or take one more: at the end, at both ends, and past the end."""
    return [length - 1], [0, length - 2], [length, length - 1, 1], [length]


def stored(seq, reverse, spare=0):
    """The packed bytes of a read whose bases in read orientation are `seq`; at odd lengths with that spare half."""
    packed = bytearray(model.repacked(model.turned(seq) if reverse else seq))
    if len(seq) % 2:
        packed[-1] |= spare
    return bytes(packed)


def stored_seq(rng):
    """Bases in read orientation, of all sixteen letters."""
    alphabet = rng.choice((b"AACCCCCCGGGTTN", b"AACCCCCCGGGTTN", model.LETTERS, b"CGN"))
    return pick_bytes(rng, alphabet, rng.choice((0, 1, 2, 3, 3, 4, 5, 7, 8, 13, 21, 34, 35)))
