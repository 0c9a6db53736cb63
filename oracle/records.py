"""A model of the record layer (K2): one BAM record goes in, and comes out with its tags edited.

It is written from SAM v1, section 4.2, and from the request's words. A record is a head and a list of fields. A call looks
at the head's flag and SEQ, changes the list, and joins both again. The tags themselves are edited by model.py.

The parts, in order: the record; its fields; the five names; what a call does with them; the requests.
"""
import model
from model import Refused, refuse_if

SHORT_RECORD, BAD_FIELDS = 14, 15
FIXED = 32
REVERSE = 0x10

# The program's buffer for a record: more than one takes in which SEQ, MM, ML, am and bm are each one over the bound.
RECORD_BUFFER = 450_000

# ---- The record: its head, and its fields --------------------------------------------------------


def number_in(row, at, size):
    return int.from_bytes(row[at : at + size], "little")


class Record:
    """A record's head, whether it is reverse, its SEQ in letters as stored, and its fields."""

    def __init__(self, record):
        refuse_if(len(record) < FIXED, SHORT_RECORD)
        name, words, self.bases = number_in(record, 8, 1), number_in(record, 12, 2), number_in(record, 16, 4)
        seq = FIXED + name + 4 * words
        end = seq + model.bytes_for(self.bases) + self.bases
        refuse_if(len(record) < end, SHORT_RECORD)
        self.head = record[:end]
        self.reverse = bool(number_in(record, 14, 2) & REVERSE)
        self.fields = read_fields(record[end:])
        self.seq = model.unpacked(self.bases, record[seq : seq + model.bytes_for(self.bases)])

    def joined(self):
        return self.head + b"".join(name + kind + value for name, kind, value in self.fields)


# ---- Fields: a name of two bytes, a type of one, and the value's own bytes ------------------------

SIZES = {b"A": 1, b"c": 1, b"C": 1, b"s": 2, b"S": 2, b"i": 4, b"I": 4, b"f": 4}
SUBTYPES = [bytes([letter]) for letter in b"cCsSiIf"]
ENDED_BY_NUL = (b"Z", b"H")
ARRAY, ARRAY_HEAD = b"B", 5


def value_end(kind, row, at):
    """Where a value of this type ends that begins at a place of the row."""
    if kind in ENDED_BY_NUL:
        last = row.find(b"\0", at)
        refuse_if(last < 0, BAD_FIELDS)
        return last + 1
    if kind == ARRAY:
        subtype, count = row[at : at + 1], number_in(row, at + 1, 4)
        refuse_if(len(row) < at + ARRAY_HEAD or subtype not in SUBTYPES, BAD_FIELDS)
        return at + ARRAY_HEAD + count * SIZES[subtype]
    refuse_if(kind not in SIZES, BAD_FIELDS)
    return at + SIZES[kind]


def read_fields(row):
    """The fields in their order, each as its name, its type and the bytes of its value."""
    found, at = [], 0
    while at < len(row):
        refuse_if(len(row) < at + 3, BAD_FIELDS)
        kind = row[at + 2 : at + 3]
        end = value_end(kind, row, at + 3)
        refuse_if(end > len(row), BAD_FIELDS)
        found.append((row[at : at + 2], kind, row[at + 3 : end]))
        at = end
    return found


# ---- The five names: the first field of a name counts ----------------------------------------------

MM, ML, MN, AM, BM = b"MM", b"ML", b"MN", b"am", b"bm"
LISTING = (MM, AM, BM)
ALL_FIVE = (MM, ML, MN, AM, BM)
SIGNED = {b"c": True, b"C": False, b"s": True, b"S": False, b"i": True, b"I": False}
MN_KIND = b"i"  # how MN is written: no file at hand says how the Rust writes it


def place_of(fields, name):
    """The place of the first field of a name, or None."""
    return next((place for place, field in enumerate(fields) if field[0] == name), None)


def first(fields, name):
    place = place_of(fields, name)
    return (None, None) if place is None else fields[place][1:]


def text_of(fields, name):
    """The text of the name's field, None if there is no such field or it is not of type Z."""
    kind, value = first(fields, name)
    return value[:-1] if kind == b"Z" else None


def values_of(fields):
    """The values of ML, None if ML is not an array of C."""
    kind, value = first(fields, ML)
    return value[ARRAY_HEAD:] if kind == ARRAY and value[:1] == b"C" else None


def stated_length(fields):
    """MN's number, None if there is no such field or it is no integer."""
    kind, value = first(fields, MN)
    return int.from_bytes(value, "little", signed=SIGNED[kind]) if kind in SIGNED else None


def put(fields, name, kind, value):
    fields[place_of(fields, name)] = name, kind, value


def remove(fields, *names):
    for name in names:
        place = place_of(fields, name)
        if place is not None:
            del fields[place]


# ---- What a call does with the fields. Each function says whether a field went -----------------------


def remove_all(fields):
    remove(fields, *ALL_FIVE)
    return True


def edited(edit, text, ml):
    """The new text and ML, None if the edit refuses."""
    try:
        return edit(text, ml)
    except Refused:
        return None


def edit_mm(fields, edit):
    """MM with its ML; without an ML alone. If the two can't be edited together, both go, and MN."""
    mm, ml = text_of(fields, MM), values_of(fields)
    if mm is None:
        return False
    other_ml = ml is None and place_of(fields, ML) is not None
    new = None if other_ml else edited(edit, mm, ml)
    if new is None:
        remove(fields, MM, ML, MN)
        return True
    mm, ml = new
    put(fields, MM, b"Z", mm + b"\0")
    if ml is not None:
        put(fields, ML, ARRAY, b"C" + len(ml).to_bytes(4, "little") + ml)
    return False


def edit_alone(fields, name, edit):
    """am or bm, which have no ML."""
    text = text_of(fields, name)
    if text is None:
        return False
    new = edited(edit, text, None)
    if new is None:
        remove(fields, name)
        return True
    put(fields, name, b"Z", new[0] + b"\0")
    return False


def edit_tags(fields, edit):
    went = [edit_mm(fields, edit), edit_alone(fields, AM, edit), edit_alone(fields, BM, edit)]
    return any(went)


def disagrees(fields, bases):
    stated = stated_length(fields)
    return stated is not None and stated != bases


def turned_if(reverse, letters):
    """From the stored read to read orientation."""
    return letters[::-1].translate(COMPLEMENTS) if reverse else letters


# SAM's letters in both cases; U pairs with A as T does. Any other byte stays.
PAIRS = "AT TA CG GC UA RY YR SS WW KM MK BV VB DH HD NN".split()
COMPLEMENTS = bytes.maketrans(
    "".join(pair[0] + pair[0].lower() for pair in PAIRS).encode(),
    "".join(pair[1] + pair[1].lower() for pair in PAIRS).encode(),
)


def mask(record, before):
    if disagrees(record.fields, record.bases):
        return remove_all(record.fields)
    if record.seq == before:
        return False
    old, new = turned_if(record.reverse, before), turned_if(record.reverse, record.seq)

    def edit(mm, ml):
        model.refuse_unequal(old, new)
        return model.window_tag(mm, ml, old, new, 0)

    return edit_tags(record.fields, edit)


def drop(record, places):
    if not places:
        return False
    if disagrees(record.fields, record.bases):
        return remove_all(record.fields)
    seq, last = turned_if(record.reverse, record.seq), record.bases - 1
    named = [last - place if record.reverse else place for place in places if place <= last]
    return edit_tags(record.fields, lambda mm, ml: model.dropped_tag(mm, ml, seq, named))


def start_in_read(record, before, before_reverse, start):
    """Where SEQ starts in `before`, in read orientation; None if that is not known."""
    if start is None or before_reverse != record.reverse:
        return None
    behind = len(before) - start - record.bases
    return start if not record.reverse else behind if behind >= 0 else None


def cut(record, before, before_reverse, start):
    if not before and not record.seq:
        return False
    if disagrees(record.fields, len(before)):
        return remove_all(record.fields)
    old, new = turned_if(before_reverse, before), turned_if(record.reverse, record.seq)
    if old == new:
        return False
    try:
        at = model.window_start(old, new, start_in_read(record, before, before_reverse, start))
    except Refused:
        return remove_all(record.fields)
    went = edit_tags(record.fields, lambda mm, ml: model.window_tag(mm, ml, old, new, at))
    if len(old) != len(new) and stated_length(record.fields) is not None:
        put(record.fields, MN, MN_KIND, len(new).to_bytes(4, "little"))
    return went


# ---- The requests --------------------------------------------------------------------------------


def refuse_long(record, before):
    refuse_if(record.bases > model.MOST_BASES, model.TOO_LONG)
    model.refuse_longer(model.MOST_BASES, before)
    model.refuse_longer(model.MOST_BYTES, values_of(record.fields), *(text_of(record.fields, name) for name in LISTING))


def answered(given, room, before, call, *arguments):
    """What a call answers on a record: whether a field went, the new length, the new record."""
    record = Record(given)
    refuse_long(record, before)
    listed = any(place_of(record.fields, name) is not None for name in LISTING)
    went = listed and call(record, *arguments)
    new = record.joined()
    refuse_if(len(new) > room, model.NO_ROOM)
    return [str(int(went)), str(len(new)), model.show_bytes(new)]


def record_row(field):
    return model.byte_row(field, RECORD_BUFFER)


def ask_mask(record, room, before, _):
    record, room, before = record_row(record), model.number(room), model.bases(before)
    return answered(record, room, before, mask, before)


def ask_drop(record, room, places, _):
    record, room, places = record_row(record), model.number(room), model.places(places)
    return answered(record, room, b"", drop, places)


def ask_cut(record, room, before, before_reverse, start, _):
    record, room, before = record_row(record), model.number(room), model.bases(before)
    before_reverse, start = model.yes_or_no(before_reverse), None if start == "-" else model.number(start)
    return answered(record, room, before, cut, before, before_reverse, start)


# As model.CALLS: the function, the number of fields, and no room but the one that is a field.
CALLS = {"K2.RMASK": (ask_mask, 3, 0), "K2.RDROP": (ask_drop, 3, 0), "K2.RCUT": (ask_cut, 5, 0)}
