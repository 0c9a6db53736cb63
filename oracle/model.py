#!/usr/bin/env python3
"""A model of the scope (docs/SCOPE.md): answers the requests of the program `ask` as the scope requires.

    python3 oracle/model.py < requests > answers

It is written from the scope's words. A tag is read as rows of spots: each group has one spot for every base
that it tracks, in order, and a spot is bare or called; a skip is a count of bare spots. Masking and cutting
remove spots, dropping makes a call bare, and the text is written from the spots that are left.

The requests on whole BAM records (K2) are in records.py; models.py answers both.

The parts, in order: the scope's numbers and bounds; the form of requests; alignment; evidence; building;
reading; editing; the session's steps; reads as a BAM record stores them; the table of calls.
"""
import re
import sys

# ---- The scope's numbers and bounds ------------------------------------------------------------

TOO_LONG, UNEQUAL, NOT_ASCII, NO_LAST_SEMICOLON, SHORT_HEADER = 1, 2, 3, 4, 5
BAD_SKIP, PAST_LAST_BASE, ML_ENDS, ML_LEFT_OVER, CANNOT_DROP = 6, 7, 8, 9, 10
NO_WINDOW, NO_ROOM, BAD_KIND_OR_START, NO_CALLS, UNCHANGED = 11, 12, 13, 20, 21

MOST_BASES = 16_000
MOST_BYTES = 65_536
MOST_READS = 4_096
MOST_READ_BASES = 1_048_576
MOST_WORDS = 65_535
LARGEST_START = 2_147_483_647
LARGEST_TAG_COUNT = 32_767
U16, U32, U64 = 2**16 - 1, 2**32 - 1, 2**64 - 1

# The program's buffers take one more than the domain allows.
BASES_BUFFER = MOST_BASES + 1
BYTES_BUFFER = MOST_BYTES + 1
READS_BUFFER = MOST_READS + 1
WORDS_BUFFER = MOST_WORDS + 1
LONGEST_LINE = 1_048_575  # the line end not counted


class Refused(Exception):
    """An answer other than 0."""

    def __init__(self, number):
        self.number = number


class Malformed(Exception):
    """A line that isn't a request, or is larger than the program's buffers."""


def refuse_if(condition, number):
    if condition:
        raise Refused(number)


def refuse_longer(most, *rows):
    """Refuses with 1 if any row is longer than the domain allows; an absent row (None) is ignored."""
    for row in rows:
        refuse_if(row is not None and len(row) > most, TOO_LONG)


def refuse_unequal(*rows):
    """Refuses with 2 if the rows differ in length."""
    refuse_if(len({len(row) for row in rows}) > 1, UNEQUAL)


# ---- The form of requests and answers ----------------------------------------------------------

is_digits = re.compile("[0-9]+").fullmatch
is_hex = re.compile("(?:[0-9a-f]{2})+").fullmatch
is_decimals = re.compile("[0-9]{1,20}(?:,[0-9]{1,20})*").fullmatch


def number(field, largest=U64):
    """A plain decimal, leading zeros allowed."""
    if not is_digits(field):
        raise Malformed
    digits = field.lstrip("0") or "0"
    if len(digits) > 20 or int(digits) > largest:
        raise Malformed
    return int(digits)


def signed(field):
    """A decimal of 64 bits with an optional minus."""
    if field[:1] == "-":
        return -number(field[1:], 2**63)
    return number(field, 2**63 - 1)


def yes_or_no(field):
    if field not in ("0", "1"):
        raise Malformed
    return field == "1"


def one_of(letters):
    def read(field):
        if len(field) != 1 or field not in letters:
            raise Malformed
        return field

    return read


pattern_letter = one_of("CG")
mode_letter = one_of("ETD")


def byte_row(field, buffer):
    """Lower-case hex, `.` for none, at most as many bytes as the program's buffer takes."""
    if field == ".":
        return b""
    if len(field) > 2 * buffer or not is_hex(field):
        raise Malformed
    return bytes.fromhex(field)


def bases(field):
    return byte_row(field, BASES_BUFFER)


def text(field):
    return byte_row(field, BYTES_BUFFER)


def text_or_none(field):
    return None if field == "-" else text(field)


def items(field, buffer):
    """The items of a list, `*` for none."""
    if field == "*":
        return []
    found = field.split(",")
    if len(found) > buffer:
        raise Malformed
    return found


def numbers(field, largest, buffer):
    """A list of plain decimals."""
    found = items(field, buffer)
    if is_decimals(field):  # the usual case, at once
        values = list(map(int, found))
        if max(values) > largest:
            raise Malformed
        return values
    return [number(item, largest) for item in found]


def counts(field):
    return numbers(field, U32, BASES_BUFFER)


def places(field):
    return numbers(field, U64, BYTES_BUFFER)


def reference_base(field):
    """Two hex digits, or `-` for a missing base, which is byte 0."""
    if field == "-":
        return 0
    if len(field) != 2:
        raise Malformed
    return byte_row(field, 1)[0]


def show_bytes(row):
    return row.hex() or "."


def show_bytes_or_none(row):
    return "-" if row is None else show_bytes(row)


def show_list(shown):
    return ",".join(shown) or "*"


def show_numbers(values):
    return show_list(map(str, values))


class Room:
    """The room lent for outputs: one number for each sort of output, or ample."""

    def __init__(self, sizes=None):
        self.sizes = sizes

    def take(self, *needed):
        """Refuses with 12, last of all, if an output needs more room than is lent; an output that is None isn't written."""
        if self.sizes is not None:
            for need, lent in zip(needed, self.sizes):
                refuse_if(need is not None and need > lent, NO_ROOM)


# ---- Alignment ---------------------------------------------------------------------------------

MATCH, INSERTION, DELETION, SKIP, SOFT_CLIP, HARD_CLIP, PAD, EQUAL, DIFFERENT = range(9)
PLACED = (MATCH, EQUAL, DIFFERENT)
UNPLACED = (INSERTION, SOFT_CLIP)
MOVING = (DELETION, SKIP)


def forward_places(operations, start):
    """The reference place of each base, from the left; None if it is missing."""
    found, at = [], start
    for length, kind in operations:
        if kind in PLACED:
            found.extend(range(at, at + length))
            at += length
        elif kind in UNPLACED:
            found.extend([None] * length)
        elif kind in MOVING:
            at += length
    return found


def query_places(words, start, reverse):
    operations = [(word >> 4, word & 15) for word in words]
    refuse_if(any(kind > DIFFERENT for _, kind in operations), BAD_KIND_OR_START)
    refuse_if(not 0 <= start <= LARGEST_START, BAD_KIND_OR_START)
    refuse_longer(MOST_WORDS, words)
    query = sum(length for length, kind in operations if kind in PLACED + UNPLACED)
    refuse_if(query > MOST_BASES, TOO_LONG)
    found = forward_places(operations, start)
    # A reverse read is the mirror of the forward one.
    return found[::-1] if reverse else found


def ask_places(words, start, reverse, room):
    found = query_places(numbers(words, U32, WORDS_BUFFER), signed(start), yes_or_no(reverse))
    room.take(len(found))
    return [show_list("-" if place is None else str(place) for place in found)]


def is_cpg(reference, place, top):
    """Top: C, then G at the next place; bottom: G, with C at the place before. Outside the slice the answer is no."""
    first = place if top else place - 1
    return first >= 0 and reference[first : first + 2].upper() == b"CG"


def ask_cpg(reference, place, top, room):
    return [str(int(is_cpg(text(reference), number(place), yes_or_no(top))))]


def fetched_base(reference, place):
    """The base at a place; 0 if it is missing: the place is negative, or outside the slice."""
    return reference[place] if 0 <= place < len(reference) else 0


def ask_fetch(wanted, reference, room):
    wanted = [-1 if item == "-" else signed(item) for item in items(wanted, BYTES_BUFFER)]
    reference = text(reference)
    found = [fetched_base(reference, place) for place in wanted]
    room.take(len(found))
    return [show_list("%02x" % base if base else "-" for base in found)]


# ---- Evidence ----------------------------------------------------------------------------------

# By pattern: reference base, unconverted base, converted base.
BASES = {"C": b"CCT", "G": b"GGA"}
GROUP_HEADER = {"C": b"C+m?", "G": b"G-m?"}
LAST_SEGMENT = 0x80


def ask_pattern(flags, room):
    pattern = "G" if number(flags, U16) & LAST_SEGMENT else "C"
    return [pattern, show_bytes(BASES[pattern])]


def informative_row(length, pattern, reference_row):
    """Positions beyond the reference row are not informative."""
    wanted = BASES[pattern][0]
    row = bytes(reference_row[:length]).upper().ljust(length, b"\0")
    return [base == wanted for base in row]


def count_reads(length, pattern, count_all, reference_row, reads, aligned):
    """Informative, unconverted and converted at each position, over the reads in their order."""
    informative = informative_row(length, pattern, reference_row)
    counted = range(length) if count_all else [i for i in range(length) if informative[i]]
    unconverted, converted = [0] * length, [0] * length
    _, kept, changed = BASES[pattern]
    first = 0
    for read in reads:
        letters = read.upper()
        for i in counted:
            if i >= len(letters):
                break
            if count_all or aligned[first + i]:
                if letters[i] == kept:
                    unconverted[i] = min(unconverted[i] + 1, U32)
                elif letters[i] == changed:
                    converted[i] = min(converted[i] + 1, U32)
        first += len(letters)
    return informative, unconverted, converted


def show_columns(informative, unconverted, converted):
    yes = bytes(1 if byte else 0 for byte in informative)
    return [show_bytes(yes), show_numbers(unconverted), show_numbers(converted)]


def joined(field, most):
    """A list of byte rows, and the rows joined."""
    rows = [text(item) for item in items(field, most)]
    whole = b"".join(rows)
    if len(whole) > BYTES_BUFFER:
        raise Malformed
    return rows, whole


def ask_annotate(length, pattern, count_all, reference_row, reads, aligned, room):
    length, pattern, count_all = number(length), pattern_letter(pattern), yes_or_no(count_all)
    reference_row = [reference_base(item) for item in items(reference_row, BYTES_BUFFER)]
    reads, all_bases = joined(reads, READS_BUFFER)
    _, aligned = joined(aligned, BYTES_BUFFER)
    refuse_if(length > MOST_BASES, TOO_LONG)
    refuse_longer(MOST_READS, reads)
    refuse_longer(MOST_READ_BASES, all_bases, aligned)
    refuse_unequal(all_bases, aligned)
    columns = count_reads(length, pattern, count_all, reference_row, reads, aligned)
    room.take(length)
    return show_columns(*columns)


def read_columns(inf, unc, con):
    return bases(inf), counts(unc), counts(con)


def refuse_bad_columns(*rows):
    refuse_longer(MOST_BASES, *rows)
    refuse_unequal(*rows)


def ask_gate(pattern, inf, unc, con, room):
    pattern_letter(pattern)
    inf, unc, con = read_columns(inf, unc, con)
    refuse_bad_columns(inf, unc, con)
    gated_unc = [count if yes else 0 for yes, count in zip(inf, unc)]
    gated_con = [count if yes else 0 for yes, count in zip(inf, con)]
    return show_columns(inf, gated_unc, gated_con)


def ask_truncate(length, pattern, inf, unc, con, room):
    pattern_letter(pattern)
    length = number(length)
    inf, unc, con = read_columns(inf, unc, con)
    refuse_bad_columns(inf, unc, con)
    room.take(min(length, len(inf)))
    return show_columns(inf[:length], unc[:length], con[:length])


def tag_counts(column):
    """Counts as `cu` and `ct` hold them."""
    return [min(count, LARGEST_TAG_COUNT) for count in column]


def ask_counts(pattern, inf, unc, con, room):
    pattern_letter(pattern)
    inf, unc, con = read_columns(inf, unc, con)
    refuse_bad_columns(inf, unc, con)
    room.take(len(inf))
    return [show_numbers(tag_counts(unc)), show_numbers(tag_counts(con))]


def restored(pattern, seq, inf):
    """SEQ with the unconverted base in place of each converted one, in upper or lower case, at informative places."""
    _, kept, changed = BASES[pattern]
    letters = seq.upper()
    return bytes(
        kept if yes and letter == changed else base for base, letter, yes in zip(seq, letters, inf)
    )


def ask_restore(pattern, seq, inf, room):
    pattern, seq, inf = pattern_letter(pattern), bases(seq), bases(inf)
    refuse_bad_columns(seq, inf)
    return [show_bytes(restored(pattern, seq, inf))]


# ---- Building ----------------------------------------------------------------------------------

BARE = None


def ml_value(numerator, total):
    return min(255, 256 * numerator // total)


def build_tag(pattern, mode, seq, inf, unc, con):
    """Text and ML of the calls that the evidence gives; both are empty if it gives none."""
    if mode == "D":
        return b"", b""
    tracked = BASES[pattern][0]
    row, ml = [], []
    for i, letter in enumerate(seq.upper()):
        if letter != tracked:
            continue
        total = unc[i] + con[i]
        if inf[i] and total > 0:
            row.append(i)
            ml.append(ml_value(unc[i] if mode == "E" else con[i], total))
        else:
            row.append(BARE)
    if not ml:
        return b"", b""
    return write_group(GROUP_HEADER[pattern], row), bytes(ml)


def build_request(pattern, mode, seq, inf, unc, con):
    """The tag that a BUILD or BUILDMM asks for, before the room is checked."""
    pattern, mode, seq = pattern_letter(pattern), mode_letter(mode), bases(seq)
    inf, unc, con = read_columns(inf, unc, con)
    refuse_bad_columns(seq, inf, unc, con)
    mm, ml = build_tag(pattern, mode, seq, inf, unc, con)
    refuse_if(not mm, NO_CALLS)
    return mm, ml


def ask_build(pattern, mode, seq, inf, unc, con, room):
    mm, ml = build_request(pattern, mode, seq, inf, unc, con)
    room.take(len(mm), len(ml))
    return [show_bytes(mm), show_bytes(ml)]


def ask_build_text(pattern, mode, seq, inf, unc, con, room):
    mm, _ = build_request(pattern, mode, seq, inf, unc, con)
    room.take(len(mm))
    return [show_bytes(mm)]


def combined_counts(columns):
    """The strands' counts, summed place by place: saturating, then clamped."""
    return tag_counts(min(sum(at_place), U32) for at_place in zip(*columns))


def text_or_dash(row):
    """A text, or `-` if it has no calls."""
    return show_bytes(row) if row else "-"


def ask_duplex(mode, seq, *rest):
    *rest, room = rest
    mode, seq = mode_letter(mode), bases(seq)
    if len(rest) % 4 or len(rest) > 12:
        raise Malformed
    strands = [
        (pattern_letter(rest[k]), *read_columns(*rest[k + 1 : k + 4])) for k in range(0, len(rest), 4)
    ]
    refuse_if(len(strands) not in (1, 2), BAD_KIND_OR_START)
    refuse_bad_columns(seq, *(column for strand in strands for column in strand[1:]))
    for pattern, inf, _, _ in strands:
        seq = restored(pattern, seq, inf)
    tags = [build_tag(pattern, mode, seq, *columns) for pattern, *columns in strands]
    in_order = [tags[k] for k in sorted(range(len(strands)), key=lambda k: strands[k][0] != "C")]
    mm, ml = (b"".join(parts) for parts in zip(*in_order))
    room.take(max(map(len, [mm] + [text for text, _ in tags])), len(ml))
    answer = [show_bytes(seq), text_or_dash(mm), show_bytes(ml) if mm else "-"]
    answer.append(show_numbers(combined_counts([unc for _, _, unc, _ in strands])))
    answer.append(show_numbers(combined_counts([con for _, _, _, con in strands])))
    for (own_text, _), (_, _, unc, con) in zip(tags, strands):
        answer += [text_or_dash(own_text), show_numbers(tag_counts(unc)), show_numbers(tag_counts(con))]
    return answer


# ---- Reading: a tag as rows of spots -----------------------------------------------------------


class Group:
    """A group's header, the places in SEQ of its spots, and its spots up to the last call.

    A spot is BARE, or the start and end of its values in ML.
    """

    __slots__ = ("header", "base", "places", "row")

    def __init__(self, header, base, places):
        self.header = header
        self.base = base
        self.places = places
        self.row = []


def tracked_places(seq, base):
    """Every place for base N; else the places whose byte equals the base exactly."""
    if base == b"N":
        return range(len(seq))
    wanted = base[0]
    return [place for place, letter in enumerate(seq) if letter == wanted]


def values_per_base(header):
    codes = header[2:].rstrip(b".?")
    return 1 if not codes or codes.isdigit() else len(codes)


def bare_spots(field, room_left):
    """How many bare spots a skip counts; refuses with 7 if the call after them would be outside SEQ."""
    refuse_if(not field.isdigit(), BAD_SKIP)
    digits = field.lstrip(b"0")
    refuse_if(len(digits) > 20, PAST_LAST_BASE)  # however large the number
    skip = int(digits or b"0")
    refuse_if(skip >= room_left, PAST_LAST_BASE)
    return skip


def read_groups(mm, ml, seq, dropped):
    """The groups of a tag that fits SEQ and ML, or the first refusal from the left.

    `dropped` are the places that a drop names. Without ML a call has no values."""
    rows_by_base = {}
    groups, used = [], 0
    for group_text in mm[:-1].split(b";"):
        header, *skips = group_text.split(b",")
        refuse_if(len(header) < 2, SHORT_HEADER)
        base = header[:1].upper()
        if skips and base not in rows_by_base:
            rows_by_base[base] = tracked_places(seq, base)
        group = Group(header, base, rows_by_base.get(base, ()))
        row, group_places, values = group.row, group.places, values_per_base(header)
        for skip in skips:
            row.extend([BARE] * bare_spots(skip, len(group_places) - len(row)))
            start = used
            if ml is not None:
                used += values
                refuse_if(used > len(ml), ML_ENDS)
            if group_places[len(row)] in dropped:
                refuse_if(not header.endswith(b"?"), CANNOT_DROP)
            row.append((start, used))
        groups.append(group)
    refuse_if(ml is not None and used != len(ml), ML_LEFT_OVER)
    return groups


def refuse_bad_text(mm):
    refuse_if(not mm.isascii(), NOT_ASCII)
    refuse_if(not mm.endswith(b";"), NO_LAST_SEMICOLON)


def read_tag(mm, ml, seq, dropped=frozenset()):
    refuse_bad_text(mm)
    return read_groups(mm, ml, seq, dropped)


def refuse_long_tag(mm, ml, *rows_of_bases):
    refuse_longer(MOST_BYTES, mm, ml)
    refuse_longer(MOST_BASES, *rows_of_bases)


def show_calls(groups, room, place_of=lambda place: place):
    """The number of groups, and the calls, with each place as `place_of` counts it."""
    calls = [
        "%d:%d:%d:%d" % (group_number, place_of(place), spot[0], spot[1] - spot[0])
        for group_number, group in enumerate(groups, 1)
        for place, spot in zip(group.places, group.row)
        if spot is not BARE
    ]
    room.take(len(calls))
    return [str(len(groups)), show_list(calls)]


def ask_calls(mm, ml, seq, room):
    mm, ml, seq = text(mm), text_or_none(ml), bases(seq)
    refuse_long_tag(mm, ml, seq)
    return show_calls(read_tag(mm, ml, seq), room)


def ask_tally(mm, ml, seq, room):
    mm, ml, seq = text(mm), text(ml), bases(seq)
    refuse_long_tag(mm, ml, seq)
    read_tag(mm, ml, seq)
    above = sum(value >= 128 for value in ml)
    return [str(above), str(len(ml) - above)]


# ---- Editing: change the spots, write them again -----------------------------------------------


def write_group(header, row):
    """A group's text: each call with the number of bare spots since the last one."""
    fields, bare = [header], 0
    for spot in row:
        if spot is BARE:
            bare += 1
        else:
            fields.append(b"%d" % bare)
            bare = 0
    return b",".join(fields) + b";"


def write_tag(groups, ml):
    """The text, and the ML values of the calls that are still listed."""
    mm = b"".join(write_group(group.header, group.row) for group in groups)
    if ml is None:
        return mm, None
    spots = (spot for group in groups for spot in group.row if spot is not BARE)
    return mm, b"".join(ml[start:end] for start, end in spots)


def take_spots_out(groups, after, first):
    """Keeps the spots whose base `after` still holds; `after` is the edited SEQ and begins at the place `first`.

    A group on N tracks every base that is left."""
    last = first + len(after)
    for group in groups:
        any_base, wanted = group.base == b"N", group.base[0]
        group.row = [
            spot
            for place, spot in zip(group.places, group.row)
            if first <= place < last and (any_base or after[place - first] == wanted)
        ]


def make_bare(groups, dropped):
    """Makes each dropped call a bare spot: its base stays in SEQ."""
    for group in groups:
        group.row = [
            BARE if place in dropped else spot for place, spot in zip(group.places, group.row)
        ]


def window_tag(mm, ml, before, after, first):
    """The tag of `after`, which begins in `before` at the place `first`."""
    groups = read_tag(mm, ml, before)
    take_spots_out(groups, after, first)
    return write_tag(groups, ml)


def dropped_tag(mm, ml, seq, named):
    """The tag without the calls at the named places. Places past the end do nothing."""
    dropped = frozenset(named)
    groups = read_tag(mm, ml, seq, dropped)
    make_bare(groups, dropped)
    return write_tag(groups, ml)


def window_start(before, after, start):
    """The place in `before` at which `after` begins, or 11. With equal lengths it is 0, and a given start is ignored."""
    first = 0 if len(after) == len(before) else start
    refuse_if(first is None or first + len(after) > len(before), NO_WINDOW)
    window = before[first : first + len(after)]
    if window != after:
        fits = all(new == old or new in b"Nn" for old, new in zip(window, after))
        refuse_if(not fits, NO_WINDOW)
    return first


def show_edited(room, mm, ml):
    room.take(len(mm), None if ml is None else len(ml))
    return [show_bytes(mm), show_bytes_or_none(ml)]


def ask_mask(mm, ml, before, after, room):
    mm, ml, before, after = text(mm), text_or_none(ml), bases(before), bases(after)
    refuse_long_tag(mm, ml, before, after)
    refuse_unequal(before, after)
    return show_edited(room, *window_tag(mm, ml, before, after, 0))


def ask_drop(mm, ml, seq, named, room):
    mm, ml, seq, named = text(mm), text_or_none(ml), bases(seq), places(named)
    refuse_long_tag(mm, ml, seq)
    return show_edited(room, *dropped_tag(mm, ml, seq, named))


def ask_cut(mm, ml, before, after, start, room):
    mm, ml, before, after = text(mm), text_or_none(ml), bases(before), bases(after)
    start = None if start == "-" else number(start)
    refuse_long_tag(mm, ml, before, after)
    refuse_if(after == before, UNCHANGED)
    first = window_start(before, after, start)
    return show_edited(room, *window_tag(mm, ml, before, after, first))


# ---- The session's steps -----------------------------------------------------------------------


def mask_step(seq, mm, ml, named):
    after = bytearray(seq)
    for place in named:
        if place < len(after):
            after[place] = ord("N")
    return bytes(after), *window_tag(mm, ml, seq, after, 0)


def drop_step(seq, mm, ml, named):
    return seq, *dropped_tag(mm, ml, seq, named)


def cut_step(seq, mm, ml, ends):
    front, back = ends
    refuse_if(front == 0 and back == 0, UNCHANGED)
    refuse_if(front + back > len(seq), NO_WINDOW)
    after = seq[front : len(seq) - back]
    return after, *window_tag(mm, ml, seq, after, front)


STEPS = {"MK": mask_step, "DR": drop_step, "CU": cut_step}


def over(new, buffer):
    """The buffer with its front replaced; bytes past the new length are unchanged."""
    return new + buffer[len(new) :]


def ask_step(seq, mm, ml, lengths, kind, arguments, room):
    seq, mm, ml = bases(seq), text(mm), text_or_none(ml)
    lengths, arguments = numbers(lengths, U64, 3), places(arguments)
    if len(lengths) != 3 or kind not in STEPS or (kind == "CU" and len(arguments) != 2):
        raise Malformed
    in_seq, in_mm, in_ml = lengths
    refuse_if(in_seq > MOST_BASES or in_mm > MOST_BYTES, TOO_LONG)
    refuse_if(ml is not None and in_ml > MOST_BYTES, TOO_LONG)
    refuse_if(in_seq > len(seq) or in_mm > len(mm), UNEQUAL)
    refuse_if(ml is not None and in_ml > len(ml), UNEQUAL)
    own_ml = None if ml is None else ml[:in_ml]
    new_seq, new_mm, new_ml = STEPS[kind](seq[:in_seq], mm[:in_mm], own_ml, arguments)
    # Without ML its length is ignored and stays unchanged.
    new_lengths = [len(new_seq), len(new_mm), in_ml if ml is None else len(new_ml)]
    buffers = [show_bytes(over(new_seq, seq)), show_bytes(over(new_mm, mm))]
    buffers.append("-" if ml is None else show_bytes(over(new_ml, ml)))
    return buffers + [show_numbers(new_lengths)]


# ---- Reads as a BAM record stores them: turn, do as above, turn back ---------------------------

LETTERS = b"=ACMGRSVTWYHKDBN"
COMPLEMENTS = bytes.maketrans(LETTERS, b"=TGKCYSBAWRDMHVN")
TO_CODE = bytes.maketrans(LETTERS, b"0123456789abcdef")
TO_LETTER = bytes.maketrans(b"0123456789abcdef", LETTERS)


def turned(seq):
    """The reverse complement."""
    return seq[::-1].translate(COMPLEMENTS)


def bytes_for(count):
    return (count + 1) // 2


def unpacked(count, packed):
    """The letters of the first `count` bases. A code is a hex digit; a spare half is left out."""
    return packed.hex()[:count].encode().translate(TO_LETTER)


def repacked(seq):
    """The packed bytes of letters, with a spare half of 0."""
    codes = seq.translate(TO_CODE).decode()
    return bytes.fromhex(codes + "0" * (len(codes) % 2))


class Stored:
    """A stored read: its stated number of bases, whether it is reverse, and its bases in read orientation."""

    def __init__(self, reverse, count, packed):
        self.reverse, self.count = reverse, count
        self.seq = self.turned_if(unpacked(count, packed))

    def turned_if(self, seq):
        """From the stored read to read orientation, and back."""
        return turned(seq) if self.reverse else seq

    def place(self, place):
        """A place of the stored read in read orientation, and back."""
        return self.count - 1 - place if self.reverse else place

    def places(self, named):
        """Places past the end do nothing."""
        return [self.place(place) for place in named if place < self.count]

    def ends(self, ends):
        return ends[::-1] if self.reverse else ends

    def start(self, start, window):
        """The start of a window of so many bases; unknown if it doesn't fit."""
        if not self.reverse or start is None:
            return start
        return self.count - window - start if start + window <= self.count else None


def packed_row(field):
    """A packed SEQ, of which the program takes more bytes than the domain's bases need."""
    return byte_row(field, BYTES_BUFFER)


def old_way(field):
    if field != "old":
        raise Malformed


def refuse_bad_packed(*pairs):
    """Refuses with 1 by the stated numbers of bases, and then with 2 if bytes are not as many as the bases take."""
    refuse_if(any(count > MOST_BASES for count, _ in pairs), TOO_LONG)
    refuse_if(any(len(packed) != bytes_for(count) for count, packed in pairs), UNEQUAL)


def ask_turn(count, packed, room):
    count, packed = number(count), packed_row(packed)
    refuse_bad_packed((count, packed))
    room.take(len(packed))
    return [show_bytes(repacked(turned(unpacked(count, packed))))]


def ask_unpack(reverse, count, packed, room):
    reverse, count, packed = yes_or_no(reverse), number(count), packed_row(packed)
    refuse_bad_packed((count, packed))
    room.take(count)
    return [show_bytes(Stored(reverse, count, packed).seq)]


def ask_stored_calls(reverse, count, packed, mm, ml, room):
    reverse, count, packed, mm, ml = yes_or_no(reverse), number(count), packed_row(packed), text(mm), text_or_none(ml)
    refuse_long_tag(mm, ml)
    refuse_bad_packed((count, packed))
    read = Stored(reverse, count, packed)
    return show_calls(read_tag(mm, ml, read.seq), room, read.place)


def ask_stored_mask(reverse, count, packed, after_count, after, mm, ml, room):
    reverse, mm, ml = yes_or_no(reverse), text(mm), text_or_none(ml)
    count, packed, after_count, after = number(count), packed_row(packed), number(after_count), packed_row(after)
    refuse_long_tag(mm, ml)
    refuse_bad_packed((count, packed), (after_count, after))
    refuse_if(after_count != count, UNEQUAL)
    before, after = Stored(reverse, count, packed), Stored(reverse, after_count, after)
    return show_edited(room, *window_tag(mm, ml, before.seq, after.seq, 0))


def ask_stored_drop(reverse, count, packed, named, mm, ml, way, room):
    reverse, count, packed, named = yes_or_no(reverse), number(count), packed_row(packed), places(named)
    mm, ml = text(mm), text_or_none(ml)
    old_way(way)
    refuse_long_tag(mm, ml)
    refuse_bad_packed((count, packed))
    read = Stored(reverse, count, packed)
    return show_edited(room, *dropped_tag(mm, ml, read.seq, read.places(named)))


def ask_stored_cut(reverse, count, packed, after_count, after, start, mm, ml, room):
    reverse, mm, ml = yes_or_no(reverse), text(mm), text_or_none(ml)
    count, packed, after_count, after = number(count), packed_row(packed), number(after_count), packed_row(after)
    start = None if start == "-" else number(start)
    refuse_long_tag(mm, ml)
    refuse_bad_packed((count, packed), (after_count, after))
    before, after = Stored(reverse, count, packed), Stored(reverse, after_count, after)
    refuse_if(after.seq == before.seq, UNCHANGED)
    first = window_start(before.seq, after.seq, before.start(start, after_count))
    return show_edited(room, *window_tag(mm, ml, before.seq, after.seq, first))


def session_step(field):
    """The kind of a step, and its places or ends."""
    kind, arguments = field[:2], places(field[3:])
    if kind not in STEPS or field[2:3] != ":" or (kind == "CU" and len(arguments) != 2):
        raise Malformed
    return kind, arguments


def stored_step(reverse, count, packed, mm, ml, kind, arguments):
    """The number of bases, the packed buffer, the text and ML after a step."""
    refuse_if(len(packed) < bytes_for(count), UNEQUAL)
    read = Stored(reverse, count, packed)
    meant = read.ends(arguments) if kind == "CU" else read.places(arguments)
    seq, mm, ml = STEPS[kind](read.seq, mm, ml, meant)
    return len(seq), over(repacked(read.turned_if(seq)), packed), mm, ml


def ask_stored_session(*fields):
    *fields, room = fields
    if len(fields) < 6:
        raise Malformed
    reverse, count, packed, mm, ml, way, *steps = fields
    reverse, held = yes_or_no(reverse), (number(count), packed_row(packed), text(mm), text_or_none(ml))
    old_way(way)
    steps, answers = list(map(session_step, steps)), []
    count, packed, mm, ml = held
    refuse_long_tag(mm, ml)
    refuse_bad_packed((count, packed))
    read_tag(mm, ml, Stored(reverse, count, packed).seq)
    for step in steps:
        try:
            held = stored_step(reverse, *held, *step)
            answers.append(0)
        except Refused as refused:
            answers.append(refused.number)
    count, packed, mm, ml = held
    return [show_numbers(answers), str(count), show_bytes(packed), show_bytes(mm), show_bytes_or_none(ml)]


# ---- The calls ---------------------------------------------------------------------------------

# By name: the function, the number of fields (None: the function checks it), how many numbers of room it may be lent.
CALLS = {
    "Q": (ask_places, 3, 1),
    "CPG": (ask_cpg, 3, 0),
    "PAT": (ask_pattern, 1, 0),
    "FETCH": (ask_fetch, 2, 1),
    "ANN": (ask_annotate, 6, 1),
    "GATE": (ask_gate, 4, 0),
    "TRUNC": (ask_truncate, 5, 1),
    "CNT": (ask_counts, 4, 1),
    "REST": (ask_restore, 3, 0),
    "BUILD": (ask_build, 6, 2),
    "BUILDMM": (ask_build_text, 6, 1),
    "DUP": (ask_duplex, None, 2),
    "CALLS": (ask_calls, 3, 1),
    "TALLY": (ask_tally, 3, 0),
    "MASK": (ask_mask, 4, 2),
    "DROP": (ask_drop, 4, 2),
    "CUT": (ask_cut, 5, 2),
    "STEP": (ask_step, 6, 0),
    "K1.TURN": (ask_turn, 2, 1),
    "K1.UNPACK": (ask_unpack, 3, 1),
    "K1.CALLS": (ask_stored_calls, 5, 1),
    "K1.PMASK": (ask_stored_mask, 7, 2),
    "K1.PDROP": (ask_stored_drop, 7, 2),
    "K1.PCUT": (ask_stored_cut, 8, 2),
    "K1.PSES": (ask_stored_session, None, 0),
}
AMPLE = Room()


def read_room(fields, sizes):
    """Takes the room off the end of the fields, if the request lends any."""
    if not fields or not fields[-1].startswith("@"):
        return AMPLE
    room = numbers(fields.pop()[1:], U64, 2)
    if not room or len(room) != sizes:
        raise Malformed
    return Room(room)


def answer(line, calls=CALLS):
    """The line that the program `ask` must give for a request; `calls` is the table of its calls."""
    name, *fields = line.split("\t")
    if name not in calls or len(line) > LONGEST_LINE:
        return "?"
    function, field_count, room_sizes = calls[name]
    try:
        room = read_room(fields, room_sizes)
        if len(fields) != field_count and (field_count or len(fields) < 2):
            return "?"
        return "\t".join(["0", *function(*fields, room)])
    except Malformed:
        return "?"
    except Refused as refused:
        return str(refused.number)


def main(calls=CALLS):
    lines = sys.stdin.buffer.read().decode("latin-1").split("\n")
    if lines[-1] == "":
        lines.pop()
    for line in lines:
        sys.stdout.write(answer(line, calls) + "\n")


if __name__ == "__main__":
    main()
