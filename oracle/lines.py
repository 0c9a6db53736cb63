"""Writes requests and answers of the program `ask`'s protocol; one function for each request.

Byte rows are `bytes`, None is the absent `-`, lists are Python lists, and `room` is a number, a pair, or None
for no room field.
"""


def row(value):
    """Bytes in lower-case hex, `.` for none, `-` for absent."""
    if value is None:
        return "-"
    return value.hex() or "."


def listed(values):
    """Items joined by commas, `*` for none, `-` for an item that is None."""
    return ",".join("-" if value is None else str(value) for value in values) or "*"


def rows(values):
    return ",".join(map(row, values)) or "*"


def bases_or_missing(values):
    """A list of two hex digits each, `-` for None."""
    return ",".join("-" if value is None else "%02x" % value for value in values) or "*"


def tab(name, *fields, room=None):
    parts = [name, *map(str, fields)]
    if room is not None:
        parts.append("@" + (str(room) if isinstance(room, int) else ",".join(map(str, room))))
    return "\t".join(parts)


def columns(inf, unc, con):
    return row(inf), listed(unc), listed(con)


def word(length, kind):
    """A BAM operation word; the kind by its letter."""
    return length << 4 | "MIDNSHP=X".index(kind)


def q(words, start, reverse, room=None):
    return tab("Q", listed(words), start, int(reverse), room=room)


def cpg(reference, place, top):
    return tab("CPG", row(reference), place, int(top))


def pat(flags):
    return tab("PAT", flags)


def fetch(places, reference, room=None):
    return tab("FETCH", listed(places), row(reference), room=room)


def ann(length, pattern, count_all, reference_row, reads, aligned, room=None):
    fields = bases_or_missing(reference_row), rows(reads), rows(aligned)
    return tab("ANN", length, pattern, int(count_all), *fields, room=room)


def gate(pattern, inf, unc, con):
    return tab("GATE", pattern, *columns(inf, unc, con))


def trunc(length, pattern, inf, unc, con, room=None):
    return tab("TRUNC", length, pattern, *columns(inf, unc, con), room=room)


def cnt(pattern, inf, unc, con, room=None):
    return tab("CNT", pattern, *columns(inf, unc, con), room=room)


def rest(pattern, seq, inf):
    return tab("REST", pattern, row(seq), row(inf))


def build(pattern, mode, seq, inf, unc, con, room=None):
    return tab("BUILD", pattern, mode, row(seq), *columns(inf, unc, con), room=room)


def buildmm(pattern, mode, seq, inf, unc, con, room=None):
    return tab("BUILDMM", pattern, mode, row(seq), *columns(inf, unc, con), room=room)


def dup(mode, seq, *strands, room=None):
    """Each strand is (pattern, inf, unc, con)."""
    fields = [field for pattern, *own in strands for field in (pattern, *columns(*own))]
    return tab("DUP", mode, row(seq), *fields, room=room)


def calls(mm, ml, seq, room=None):
    return tab("CALLS", row(mm), row(ml), row(seq), room=room)


def tally(mm, ml, seq):
    return tab("TALLY", row(mm), row(ml), row(seq))


def mask(mm, ml, before, after, room=None):
    return tab("MASK", row(mm), row(ml), row(before), row(after), room=room)


def drop(mm, ml, seq, places, room=None):
    return tab("DROP", row(mm), row(ml), row(seq), listed(places), room=room)


def cut(mm, ml, before, after, start, room=None):
    return tab("CUT", row(mm), row(ml), row(before), row(after), "-" if start is None else start, room=room)


def step(seq, mm, ml, lengths, kind, arguments):
    return tab("STEP", row(seq), row(mm), row(ml), listed(lengths), kind, listed(arguments))


def whole_step(seq, mm, ml, kind, arguments):
    """A step on buffers that the session fills completely."""
    return step(seq, mm, ml, [len(seq), len(mm), len(ml or b"")], kind, arguments)


# ---- Stored reads: packed bytes, with the number of bases that is stated for them ----------------


def turn(count, packed, room=None):
    return tab("K1.TURN", count, row(packed), room=room)


def unpack(reverse, count, packed, room=None):
    return tab("K1.UNPACK", int(reverse), count, row(packed), room=room)


def stored_calls(reverse, count, packed, mm, ml, room=None):
    return tab("K1.CALLS", int(reverse), count, row(packed), row(mm), row(ml), room=room)


def stored_mask(reverse, count, before, after_count, after, mm, ml, room=None):
    return tab("K1.PMASK", int(reverse), count, row(before), after_count, row(after), row(mm), row(ml), room=room)


def stored_drop(reverse, count, packed, places, mm, ml, way="old", room=None):
    return tab("K1.PDROP", int(reverse), count, row(packed), listed(places), row(mm), row(ml), way, room=room)


def stored_cut(reverse, count, before, after_count, after, start, mm, ml, room=None):
    start = "-" if start is None else start
    return tab("K1.PCUT", int(reverse), count, row(before), after_count, row(after), start, row(mm), row(ml), room=room)


def stored_session(reverse, count, packed, mm, ml, *steps, way="old"):
    """Each step is a kind and its numbers."""
    shown = [f"{kind}:{listed(arguments)}" for kind, arguments in steps]
    return tab("K1.PSES", int(reverse), count, row(packed), row(mm), row(ml), way, *shown)


# ---- Records: BAM's bytes, the room for the new record, SEQ before in letters as stored ----------


def record_mask(record, room, before):
    return tab("K2.RMASK", row(record), room, row(before))


def record_drop(record, room, places):
    return tab("K2.RDROP", row(record), room, listed(places))


def record_cut(record, room, before, before_reverse, start):
    return tab("K2.RCUT", row(record), room, row(before), int(before_reverse), "-" if start is None else start)


# ---- Answers -----------------------------------------------------------------------------------


def done(*fields):
    return "\t".join(["0", *map(str, fields)])


def edited(mm, ml=None):
    return done(row(mm), row(ml))


def new_record(record, went):
    return done(int(went), len(record), row(record))


# ---- How long the inputs of a request are ------------------------------------------------------


def row_length(field):
    return 0 if field in (".", "-") else len(field) // 2


def list_length(field):
    return 0 if field == "*" else field.count(",") + 1


# ---- How much room an answer takes -------------------------------------------------------------


def duplex_room(seq, mm, ml, cu, ct, *strands):
    return [max(map(row_length, (mm, *strands[::3]))), row_length(ml)]


# For each call that may be lent room: a function from the fields of answer 0 to the least room for them.
ROOM_FOR = {
    "Q": lambda places: [list_length(places)],
    "FETCH": lambda found: [list_length(found)],
    "ANN": lambda inf, unc, con: [row_length(inf)],
    "TRUNC": lambda inf, unc, con: [row_length(inf)],
    "CNT": lambda cu, ct: [list_length(cu)],
    "CALLS": lambda groups, found: [list_length(found)],
    "BUILDMM": lambda mm: [row_length(mm)],
    "BUILD": lambda mm, ml: [row_length(mm), row_length(ml)],
    "MASK": lambda mm, ml: [row_length(mm), row_length(ml)],
    "DROP": lambda mm, ml: [row_length(mm), row_length(ml)],
    "CUT": lambda mm, ml: [row_length(mm), row_length(ml)],
    "DUP": duplex_room,
    "K1.TURN": lambda packed: [row_length(packed)],
    "K1.UNPACK": lambda seq: [row_length(seq)],
    "K1.CALLS": lambda groups, found: [list_length(found)],
    "K1.PMASK": lambda mm, ml: [row_length(mm), row_length(ml)],
    "K1.PDROP": lambda mm, ml: [row_length(mm), row_length(ml)],
    "K1.PCUT": lambda mm, ml: [row_length(mm), row_length(ml)],
}
