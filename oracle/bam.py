"""Builds BAM records for requests, as SAM v1 has them (section 4.2), without the block size before them."""
import struct

from pieces import stored

WIDTHS = {"c": 1, "C": 1, "s": 2, "S": 2, "i": 4, "I": 4}
ITEMS = {"c": "b", "C": "B", "s": "h", "S": "H", "i": "i", "I": "I", "f": "f"}


def integer(name, kind, number):
    """A field of an integer type; a number that the type can't hold is cut to its bytes."""
    return name + kind.encode() + (number % 2 ** (8 * WIDTHS[kind])).to_bytes(WIDTHS[kind], "little")


def text(name, value, kind="Z"):
    return name + kind.encode() + value + b"\0"


def array(name, subtype, items, count=None):
    """An array of numbers; it may state another count than it has."""
    packed = struct.pack(f"<{len(items)}{ITEMS[subtype]}", *items)
    return name + b"B" + subtype.encode() + struct.pack("<I", len(items) if count is None else count) + packed


def values(ml):
    """ML as it should be: an array of C."""
    return b"MLBC" + struct.pack("<I", len(ml)) + ml


def head(bases, flag=0, name=b"r\0", words=0):
    """The 32 bytes of fixed length, which state the lengths of what follows."""
    return struct.pack("<iiBBHHHIiii", 0, 7, len(name), 60, 4681, words, flag, bases, -1, -1, 0)


def record(seq, *fields, flag=0, name=b"r\0", words=(), spare=0, quality=0xFF):
    """A record of a SEQ in letters as stored, and of fields in their order."""
    cigar = struct.pack(f"<{len(words)}I", *words)
    start = head(len(seq), flag, name, len(words)) + name + cigar
    return start + stored(seq, 0, spare) + bytes([quality]) * len(seq) + b"".join(fields)
