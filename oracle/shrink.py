"""Makes a failing request smaller: takes parts out of its fields for as long as it still fails.

Fields of the same length, such as `before` and `after` of a mask, also lose the same part together. The code does not
know what each field holds: a request that has lost its form is answered `?` by every program, and so does not fail.
Only of stored reads it knows more: a number of bases and the packed bytes behind it get smaller together, and a session
loses whole steps. A BAM record loses whole fields, and bases, with as many letters of the SEQ before it.
"""
import re

import model
import records

MOST_TRIES = 1_500  # each starts a program


def items_of(field):
    """The items of a field, and the text between two items. The field is bytes in hex, or a list."""
    if re.fullmatch("(?:[0-9a-f]{2})+", field):
        return re.findall("..", field), ""
    return ([] if field == "*" else field.split(",")), ","


def written(items, between):
    return between.join(items) or ("." if between == "" else "*")


def without_part(fields, chosen, at, size):
    """The fields with the items from `at` on taken out of the chosen ones."""
    left = list(fields)
    for k in chosen:
        items, between = items_of(fields[k])
        left[k] = written(items[:at] + items[at + size :], between)
    return left


def groups_of(fields):
    """Fields to shorten together: those of one length, and then each by itself."""
    lengths = [len(items_of(field)[0]) for field in fields]
    for length in sorted(set(lengths), reverse=True):
        alike = [k for k, own in enumerate(lengths) if own == length]
        if length > 1 and len(alike) > 1:
            yield alike, length
    for k, length in enumerate(lengths):
        yield [k], length


def smaller_numbers(fields):
    """The fields with one item that is a number made smaller."""
    for k, field in enumerate(fields):
        items, between = items_of(field)
        for at, item in enumerate(items):
            if between and item.isdigit() and int(item) > 0:
                for less in dict.fromkeys((0, int(item) // 2, int(item) - 1)):
                    yield fields[:k] + [",".join(items[:at] + [str(less)] + items[at + 1 :])] + fields[k + 1 :]


def stored_reads(fields):
    """The fields that state a number of bases for the packed bytes in the next field."""
    for k, (count, packed) in enumerate(zip(fields, fields[1:])):
        if count.isdigit() and len(items_of(packed)[0]) == (int(count) + 1) // 2 and items_of(packed)[1] == "":
            yield k


def fewer_bases(fields):
    """The fields with fewer bases at the back of every stored read, or of one of them, or at its front."""
    reads = list(stored_reads(fields))
    for chosen, front in [(reads, False), *(([k], front) for k in reads for front in (False, True))]:
        most = min((int(fields[k]) for k in chosen), default=0)
        for less in dict.fromkeys((most, most // 2, most // 4, 4, 2, 1)):
            if 0 < less <= most and not (front and less % 2):
                left = list(fields)
                for k in chosen:
                    count, packed = int(fields[k]) - less, items_of(fields[k + 1])[0]
                    kept = packed[less // 2 :] if front else packed[: (count + 1) // 2]
                    left[k : k + 2] = [str(count), written(kept, "")]
                yield left


def smaller_stored(name, fields):
    """Requests on stored reads with fewer bases, or without a step."""
    if name.startswith("K1."):
        yield from fewer_bases(fields)
    if name == "K1.PSES":
        yield from (fields[:k] + fields[k + 1 :] for k in range(6, len(fields)))


def with_fewer_bases(record, less, front):
    """The bytes of a record without some bases at its stored front or back; of its name and its CIGAR too."""
    seq = record.seq[less:] if front else record.seq[: len(record.seq) - less]
    fixed = bytearray(record.head[: records.FIXED])
    fixed[8], fixed[12:14], fixed[16:20] = 0, b"\0\0", len(seq).to_bytes(4, "little")
    record.head = bytes(fixed) + model.repacked(seq) + b"\xff" * len(seq)
    return record.joined()


def smaller_records(name, fields):
    """Requests on a record that parses, with a field less, or with fewer bases in SEQ and before."""
    if not name.startswith("K2.") or not re.fullmatch("(?:[0-9a-f]{2})+", fields[0]):
        return
    given = bytes.fromhex(fields[0])
    try:
        count, bases = len(records.Record(given).fields), records.Record(given).bases
    except records.Refused:
        return
    for k in range(count):
        record = records.Record(given)
        del record.fields[k]
        yield [record.joined().hex(), *fields[1:]]
    for less, front in ((less, front) for less in dict.fromkeys((bases, bases // 2, 4, 1, 0)) if less <= bases for front in (0, 1)):
        smaller = with_fewer_bases(records.Record(given), less, front).hex()
        yield [smaller, *fields[1:]]
        if not name.endswith("DROP"):
            letters, _ = items_of(fields[2])
            left = letters[less:] if front else letters[: len(letters) - less]
            yield [smaller, fields[1], written(left, ""), *fields[3:]]


def candidates(line):
    """Smaller requests, those that lose most first."""
    name, *fields = line.split("\t")
    for fewer in (*smaller_stored(name, fields), *smaller_records(name, fields)):
        yield "\t".join([name, *fewer])
    if fields and fields[-1].startswith("@"):
        yield "\t".join([name, *fields[:-1]])
    for k in range(len(fields)):
        # Without ML a text can be shortened by itself.
        yield "\t".join([name, *fields[:k], "-", *fields[k + 1 :]])
    for chosen, length in groups_of(fields):
        size = length
        while size > 0:
            for at in range(0, length - size + 1, max(1, size // 4)):
                yield "\t".join([name, *without_part(fields, chosen, at, size)])
            size //= 2
    for fewer in smaller_numbers(fields):
        yield "\t".join([name, *fewer])


def next_smaller(line, fails, tries):
    for one in candidates(line):
        if tries[0] == 0:
            return None
        # The request gets shorter, or keeps its length with a smaller number; so shrinking ends.
        if (len(one), one) < (len(line), line):
            tries[0] -= 1
            if fails(one):
                return one
    return None


def shrunk(line, fails):
    """The smallest failing request that was found; the request itself if it does not fail alone."""
    tries = [MOST_TRIES]
    if not fails(line):
        return line
    while (one := next_smaller(line, fails, tries)) is not None:
        line = one
    return line
