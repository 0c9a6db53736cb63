#!/usr/bin/env python3
"""Puts deliberate faults into the models, one at a time, and checks that the comparison notices each.

    python3 oracle/faults.py

Each fault is a change of the text of model.py or of records.py that must apply exactly once. A fault is noticed if the changed model
disagrees with the Rust on a modest list of requests, or with an answer that the documents state. The last line is
`N faults, N noticed`. The status is 1 if a fault is not noticed, and 3 if the Rust is missing.
"""
import os
import sys
import types

import compare
import generate
import model
import rust
import stated

SEED, SHARE = 11, 0.05

# Name, the model's text, the text that replaces it.
FAULTS = [
    ("a masked base is counted in later skips",
     """            spot
            for place, spot in zip(group.places, group.row)
            if first <= place < last and (any_base or after[place - first] == wanted)
""",
     """            spot if first <= place < last and (any_base or after[place - first] == wanted) else BARE
            for place, spot in zip(group.places, group.row)
"""),
    ("a dropped base is left out of later skips",
     "            BARE if place in dropped else spot for place, spot in zip(group.places, group.row)\n",
     "            spot for place, spot in zip(group.places, group.row) if place not in dropped\n"),
    ("a drop does nothing",
     "    make_bare(groups, dropped)\n",
     ""),
    ("ML rounded to nearest",
     "256 * numerator // total",
     "(512 * numerator + total) // (2 * total)"),
    ("ML scaled by 255",
     "256 * numerator // total",
     "255 * numerator // total"),
    ("ML of two codes advanced by one",
     "                used += values\n",
     "                used += 1\n"),
    ("7 missed above 2^64",
     "    refuse_if(len(digits) > 20, PAST_LAST_BASE)  # however large the number\n    skip = int(digits or b\"0\")\n",
     "    skip = int(digits[-4000:] or b\"0\") % 2**64\n"),
    ("a leading '+' is accepted",
     "refuse_if(not field.isdigit(), BAD_SKIP)",
     "refuse_if(not field.removeprefix(b\"+\").isdigit(), BAD_SKIP)"),
    ("6 asked after 7",
     "    refuse_if(not field.isdigit(), BAD_SKIP)\n",
     "    refuse_if(room_left == 0, PAST_LAST_BASE)\n    refuse_if(not field.isdigit(), BAD_SKIP)\n"),
    ("8 and 10 in the wrong order",
     """            if ml is not None:
                used += values
                refuse_if(used > len(ml), ML_ENDS)
            if group_places[len(row)] in dropped:
                refuse_if(not header.endswith(b"?"), CANNOT_DROP)
""",
     """            if group_places[len(row)] in dropped:
                refuse_if(not header.endswith(b"?"), CANNOT_DROP)
            if ml is not None:
                used += values
                refuse_if(used > len(ml), ML_ENDS)
"""),
    ("9 asked before the text is read",
     "    groups, used = [], 0\n",
     """    groups, used = [], 0
    refuse_if(ml is not None and len(ml) > 0 and b"," not in mm, ML_LEFT_OVER)
"""),
    ("9 never asked",
     "    refuse_if(ml is not None and used != len(ml), ML_LEFT_OVER)\n",
     ""),
    ("a '?' in the middle taken for the last mark",
     'header.endswith(b"?")',
     'b"?" in header'),
    ("the reader tracks bases of any case",
     "for place, letter in enumerate(seq) if letter == wanted",
     "for place, letter in enumerate(seq.upper()) if letter == wanted"),
    ("an emptied group goes",
     'return b",".join(fields) + b";"',
     'return b",".join(fields) + b";" if len(fields) > 1 or not row else b""'),
    ("'n' doesn't mask in a window",
     'new in b"Nn"',
     'new in b"N"'),
    ("a start ignored in a cut",
     "first = 0 if len(after) == len(before) else start",
     "first = 0 if len(after) == len(before) or start is not None else None"),
    ("a start heeded where lengths are equal",
     "first = 0 if len(after) == len(before) else start",
     "first = start"),
    ("21 answered after the tag is read",
     "    refuse_if(after == before, UNCHANGED)\n",
     "    read_tag(mm, ml, before)\n    refuse_if(after == before, UNCHANGED)\n"),
    ("2 asked after the text",
     "    refuse_unequal(before, after)\n",
     "    read_tag(mm, ml, before)\n    refuse_unequal(before, after)\n"),
    ("room one short is taken",
     "need > lent",
     "need > lent + 1"),
    ("a step clears the bytes past the new lengths",
     "return new + buffer[len(new) :]",
     "return new + bytes(len(buffer) - len(new))"),
    ("the tally's above from 129",
     "value >= 128",
     "value > 128"),
    ("a reverse walk off by one",
     "return found[::-1] if reverse else found",
     "return [place and place + 1 for place in found[::-1]] if reverse else found"),
    ("hard clips are in the query",
     "UNPLACED = (INSERTION, SOFT_CLIP)",
     "UNPLACED = (INSERTION, SOFT_CLIP, HARD_CLIP)"),
    ("an unknown kind past the 65,535th word missed",
     "for _, kind in operations), BAD_KIND_OR_START)",
     "for _, kind in operations[:MOST_WORDS]), BAD_KIND_OR_START)"),
    ("a negative start is taken",
     "not 0 <= start <= LARGEST_START",
     "not start <= LARGEST_START"),
    ("CpG at the slice's end",
     'reference[first : first + 2].upper() == b"CG"',
     'reference[first : first + 2].upper() in (b"CG", b"C")'),
    ("negative places counted from the end",
     "reference[place] if 0 <= place < len(reference) else 0",
     "reference[place] if -len(reference) <= place < len(reference) else 0"),
    ("only 1 means aligned",
     "if count_all or aligned[first + i]:",
     "if count_all or aligned[first + i] == 1:"),
    ("read bases match in upper case alone",
     "letters = read.upper()",
     "letters = read"),
    ("invented counts beyond a read's end",
     "            if i >= len(letters):\n                break\n",
     "            if i >= len(letters):\n                unconverted[i] += 1\n                continue\n"),
    ("gating keeps a count",
     "gated_con = [count if yes else 0 for yes, count in zip(inf, con)]",
     "gated_con = con"),
    ("counts clamped at 32,768",
     "LARGEST_TAG_COUNT = 32_767",
     "LARGEST_TAG_COUNT = 32_768"),
    ("restoring keeps the case",
     "kept if yes and letter == changed else base",
     "kept | base & 32 if yes and letter == changed else base"),
    ("lower case not matched in building",
     "for i, letter in enumerate(seq.upper()):",
     "for i, letter in enumerate(seq):"),
    ("TAPs counts the unconverted",
     'unc[i] if mode == "E" else con[i]',
     "unc[i]"),
    ("G to A first in the join",
     'strands[k][0] != "C"',
     'strands[k][0] != "G"'),
    ("duplex restores by the first strand alone",
     "    for pattern, inf, _, _ in strands:\n",
     "    for pattern, inf, _, _ in strands[:1]:\n"),
    ("one base over the domain accepted",
     "MOST_BASES = 16_000\n",
     "MOST_BASES = 16_001\n"),
    ("a spare half is a base",
     "return packed.hex()[:count]",
     "return packed.hex()"),
    ("a wrong complement",
     '"=TGKCYSBAWRDMHVN"',
     '"=TGKCYSBAWRHMDVN"'),
    ("a turned read is complemented alone",
     "return seq[::-1].translate(COMPLEMENTS)",
     "return seq.translate(COMPLEMENTS)"),
    ("a spare half is written as N",
     '"0" * (len(codes) % 2)',
     '"f" * (len(codes) % 2)'),
    ("the mirror of a place is length-p",
     "return self.count - 1 - place if self.reverse else place",
     "return self.count - place if self.reverse else place"),
    ("a place past the end of a reverse read is its first base",
     "[self.place(place) for place in named if place < self.count]",
     "[max(0, self.place(place)) for place in named]"),
    ("the ends of a reverse read are not exchanged",
     "return ends[::-1] if self.reverse else ends",
     "return ends"),
    ("a window's start is not counted from the other end",
     "return self.count - window - start if",
     "return start if"),
    ("2 asked exactly at a step on a stored read",
     "refuse_if(len(packed) < bytes_for(count), UNEQUAL)",
     "refuse_if(len(packed) != bytes_for(count), UNEQUAL)"),
    ("2 not asked for packed bytes too many",
     "refuse_if(any(len(packed) != bytes_for(count) for",
     "refuse_if(any(len(packed) < bytes_for(count) for"),
    ("1 asked after 2 of a stored read",
     """    refuse_if(any(count > MOST_BASES for count, _ in pairs), TOO_LONG)
    refuse_if(any(len(packed) != bytes_for(count) for count, packed in pairs), UNEQUAL)
""",
     """    refuse_if(any(len(packed) != bytes_for(count) for count, packed in pairs), UNEQUAL)
    refuse_if(any(count > MOST_BASES for count, _ in pairs), TOO_LONG)
"""),
    ("a refused step on a stored read ends its session",
     "            answers.append(refused.number)\n",
     "            answers.append(refused.number)\n            break\n"),
    ("restoring refuses the domain's last base",
     "    refuse_bad_columns(seq, inf)\n    return [show_bytes(restored(",
     "    refuse_longer(MOST_BASES - 1, seq)\n    refuse_bad_columns(seq, inf)\n    return [show_bytes(restored("),
]

# The same of the record layer's model.
RECORD_FAULTS = [
    ("MN compared with SEQ in a cut",
     "disagrees(record.fields, len(before))",
     "disagrees(record.fields, record.bases)"),
    ("B:c taken for B:C",
     'value[:1] == b"C"',
     'value[:1] in (b"C", b"c")'),
    ("am edited with ML",
     "new = edited(edit, text, None)",
     "new = edited(edit, text, values_of(fields))"),
    ("a field lost behind the edited one",
     '    put(fields, name, b"Z", new[0] + b"\\0")\n    return False\n',
     '    put(fields, name, b"Z", new[0] + b"\\0")\n    place = place_of(fields, name)\n    del fields[place + 1 : place + 2]\n    return False\n'),
    ("an edited field moves to the end",
     "    fields[place_of(fields, name)] = name, kind, value\n",
     "    del fields[place_of(fields, name)]\n    fields.append((name, kind, value))\n"),
    ("MN not updated",
     '        put(record.fields, MN, MN_KIND, len(new).to_bytes(4, "little"))\n',
     "        pass\n"),
    ("MN updated where the length stays",
     "    if len(old) != len(new) and stated_length",
     "    if stated_length"),
    ("MN written as I",
     'MN_KIND = b"i"',
     'MN_KIND = b"I"'),
    ("MN of type Z not removed",
     "        remove(fields, MM, ML, MN)\n",
     "        remove(fields, MM, ML, *([] if stated_length(fields) is None else [MN]))\n"),
    ("MN of type A is a number",
     'SIGNED = {b"c": True,',
     'SIGNED = {b"A": False, b"c": True,'),
    ("MN has no sign",
     'SIGNED = {b"c": True,',
     'SIGNED = {b"c": False,'),
    ("a stale MN leaves am and bm",
     "    remove(fields, *ALL_FIVE)\n",
     "    remove(fields, MM, ML, MN)\n"),
    ("the last of a name counts",
     "return next((place for place, field in enumerate(fields) if field[0] == name), None)",
     "return max((place for place, field in enumerate(fields) if field[0] == name), default=None)"),
    ("all of a name go",
     """        place = place_of(fields, name)
        if place is not None:
            del fields[place]
""",
     """        fields[:] = [field for field in fields if field[0] != name]
"""),
    ("it is not said that bm went",
     "    return any(went)\n",
     "    return any(went[:2])\n"),
    ("a tag went where one was edited",
     '    put(fields, name, b"Z", new[0] + b"\\0")\n    return False\n',
     '    put(fields, name, b"Z", new[0] + b"\\0")\n    return True\n'),
    ("12 by the old length",
     "refuse_if(len(new) > room",
     "refuse_if(len(given) > room"),
    ("ML of another kind taken for none",
     "other_ml = ml is None and place_of(fields, ML) is not None",
     "other_ml = False"),
    ("MM of another type is removed",
     "    if mm is None:\n        return False\n",
     "    if mm is None:\n        remove(fields, MM, ML, MN)\n        return False\n"),
    ("a mask looks at SEQ before MN",
     """    if disagrees(record.fields, record.bases):
        return remove_all(record.fields)
    if record.seq == before:
        return False
""",
     """    if record.seq == before:
        return False
    if disagrees(record.fields, record.bases):
        return remove_all(record.fields)
"""),
    ("a mask of another length is edited",
     "        model.refuse_unequal(old, new)\n",
     ""),
    ("a drop of no place looks at MN",
     "    if not places:\n        return False\n",
     ""),
    ("a cut of no bases looks at MN",
     "    if not before and not record.seq:\n        return False\n",
     ""),
    ("a drop past the end of a reverse record takes the first base",
     "[last - place if record.reverse else place for place in places if place <= last]",
     "[max(0, last - place) if record.reverse else place for place in places]"),
    ("a drop takes a call under '.'",
     "model.dropped_tag(mm, ml, seq, named)",
     'model.dropped_tag(mm.replace(b".,", b"?,"), ml, seq, named)'),
    ("a start counts though the reverse flag changed",
     "    if start is None or before_reverse != record.reverse:\n",
     "    if start is None:\n"),
    ("a start of a reverse record is counted from the read's front",
     "return start if not record.reverse else behind if behind >= 0 else None",
     "return start"),
    ("before is turned by the flag of now",
     "old, new = turned_if(before_reverse, before), turned_if(record.reverse, record.seq)",
     "old, new = turned_if(record.reverse, before), turned_if(record.reverse, record.seq)"),
    ("U has no complement",
     "CG GC UA RY",
     "CG GC RY"),
    ("a record without MM loses a stale MN",
     "went = listed and call(record, *arguments)",
     "went = call(record, *arguments)"),
    ("count times size in 32 bits",
     "return at + ARRAY_HEAD + count * SIZES[subtype]",
     "return at + ARRAY_HEAD + count * SIZES[subtype] % 2**32"),
    ("the header's sums in 32 bits",
     "refuse_if(len(record) < end, SHORT_RECORD)",
     "refuse_if(len(record) < end % 2**32, SHORT_RECORD)"),
    ("an array of A is taken",
     'for letter in b"cCsSiIf"]',
     'for letter in b"AcCsSiIf"]'),
    ("two bytes left are no field",
     "        refuse_if(len(row) < at + 3, BAD_FIELDS)\n",
     "        if len(row) < at + 3:\n            break\n"),
    ("1 asked of MM alone",
     "for name in LISTING))",
     "for name in LISTING[:1]))"),
    ("1 not asked where there is no MM, am or bm",
     """    refuse_long(record, before)
    listed = any(place_of(record.fields, name) is not None for name in LISTING)
""",
     """    listed = any(place_of(record.fields, name) is not None for name in LISTING)
    if listed:
        refuse_long(record, before)
"""),
]


def text_of(file):
    with open(os.path.join(rust.HERE, file), encoding="utf-8") as source:
        return source.read()


def model_with(text, name="the model"):
    model = types.ModuleType(name)
    exec(compile(text, name, "exec"), model.__dict__)
    return model


def records_with(text, name="the record layer's model"):
    """The same of records.py, which uses the sound model of tags."""
    found = model_with(text, name)
    found.answer = lambda line: model.answer(line, found.CALLS)
    return found


def with_fault(text, name, old, new):
    if text.count(old) != 1:
        sys.exit(f"the fault '{name}' applies {text.count(old)} times, not once")
    return text.replace(old, new)


def modest_lists(calls):
    """Requests of these calls. Boundary requests are large, so they are here for one call only."""
    for call in calls:
        sections = generate.sections(call, SEED, SHARE)
        yield sections["short"] + sections["random"] + (sections["boundary"] if call == "REST" else [])


def disagreement(program, pairs):
    """The first request whose answer the Rust disagrees with."""
    verdicts = rust.verdicts(program, *zip(*pairs)) if pairs else []
    for (line, _), verdict in zip(pairs, verdicts):
        if verdict.startswith(compare.DISAGREE):
            return line
    return None


def noticed_by_rust(program, model, lists):
    """The first request on which the Rust disagrees with a faulty model. Answers that equal the sound model's are not judged."""
    for pairs in lists:
        changed = [(line, given) for line, answer in pairs if (given := model.answer(line)) != answer]
        line = disagreement(program, changed)
        if line:
            return line
    return None


def noticed_as_stated(model):
    """The name of the first stated answer that the model doesn't give."""
    for name, line, answer in stated.REQUESTS:
        if line.split("\t", 1)[0] in model.CALLS and model.answer(line) != answer:
            return name
    return None


def noticed_faults(text, with_text, faults):
    """How many of the faults in a model's text are noticed."""
    program, sound = rust.driver(), with_text(text)
    lists = [[(line, sound.answer(line)) for line in requests] for requests in modest_lists(sound.CALLS)]
    if any(disagreement(program, pairs) for pairs in lists) or noticed_as_stated(sound):
        sys.exit("the model without a fault does not agree; run compare.py")
    noticed = 0
    for name, old, new in faults:
        faulty = with_text(with_fault(text, name, old, new), name)
        line, statement = noticed_by_rust(program, faulty, lists), noticed_as_stated(faulty)
        noticed += bool(line or statement)
        ways = [f"the Rust at {compare.shorten(line)!r}"] if line else []
        ways += [f"the stated '{statement}'"] if statement else []
        print(f"{name}: " + ("noticed by " + " and ".join(ways) if ways else "NOT NOTICED"))
    return noticed


def main():
    noticed = noticed_faults(text_of("model.py"), model_with, FAULTS)
    noticed += noticed_faults(text_of("records.py"), records_with, RECORD_FAULTS)
    count = len(FAULTS) + len(RECORD_FAULTS)
    print(f"{count} faults, {noticed} noticed")
    sys.exit(noticed != count)


if __name__ == "__main__":
    main()
