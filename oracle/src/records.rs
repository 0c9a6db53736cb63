//! The requests on whole BAM records (K2), and how their answers are compared with the Rust's.
//!
//! The Rust's three functions run on the record's own bytes (stand-ins/fgumi-records). They refuse nothing: what the
//! record shows, 14, 15 and 1, is found here, and 12 by the length of what the Rust leaves. Where a difference has a
//! name, the Rust also runs on the request without what makes the difference, and must then leave the same bytes.

use crate::agree::{Verdict, named_if};
use crate::calls::done;
use crate::dna::reverse_complement;
use crate::form::{MOST_BASES, MOST_BYTES, Request};
use crate::protocol::{Reply, absent_or, bytes, list, number, show_bytes, size, yes_or_no};
use crate::stored::{Stored, repacked};
use fgumi_records::modifications::{
    drop_masked_modifications_raw, drop_modifications_at_raw, trim_clipped_modifications_raw,
};
use std::ops::Range;

const SHORT: &str = "14 a record shorter than its header says can't be put to the Rust";
const FIELDS: &str = "15 optional fields that do not parse can't be put to the Rust";
const ARRAY_OF_A: &str = "15 an array of subtype A, which the Rust's size table takes";
const LONG: &str = "1 a record longer than the domain allows, which the Rust takes";
const NO_SPACE: &str = "12 no room: the record that the Rust leaves passes the room";
const PAST_END: &str =
    "a drop past the end of a reverse record, which the Rust takes for the read's first base";
const HIGH: &str = "a byte above 127 in a record's MM, am or bm, which the Rust accepts";

const FIXED: usize = 32;
const NAME_AND_TYPE: usize = 3;
const REVERSE: u8 = 0x10;
/// SAM v1's subtypes of an array; and A, which the Rust's size table has too.
const SUBTYPES: &[u8] = b"cCsSiIf";
const SUBTYPES_AND_A: &[u8] = b"AcCsSiIf";

// ---- A record's parts --------------------------------------------------------------------------

/// Where the parts of a record are.
pub struct Parts {
    pub seq: usize,
    pub bases: usize,
    /// The end of the qualities.
    pub head: usize,
}

impl Parts {
    /// None if the record is shorter than its header says.
    #[must_use]
    pub fn of(record: &[u8]) -> Option<Self> {
        let fixed: &[u8; FIXED] = record.first_chunk()?;
        let words = u64::from(u16::from_le_bytes([fixed[12], fixed[13]]));
        let bases = u64::from(u32::from_le_bytes([fixed[16], fixed[17], fixed[18], fixed[19]]));
        let seq = 32 + u64::from(fixed[8]) + 4 * words;
        let head = seq + bases.div_ceil(2) + bases;
        let place = |place: u64| usize::try_from(place).ok();
        (head <= record.len() as u64).then_some(())?;
        Some(Self { seq: place(seq)?, bases: place(bases)?, head: place(head)? })
    }

    /// The record's read.
    #[must_use]
    pub fn read(&self, record: &[u8]) -> Option<Stored> {
        Stored::of(is_reverse(record), self.bases, &record[self.seq..self.seq + self.bases.div_ceil(2)])
    }
}

fn is_reverse(record: &[u8]) -> bool {
    record[14] & REVERSE != 0
}

/// How many bytes the value of a field takes; None if it does not parse.
fn value_length(kind: u8, rest: &[u8], subtypes: &[u8]) -> Option<u64> {
    let fixed = |kind: u8| match kind {
        b'A' | b'c' | b'C' => Some(1),
        b's' | b'S' => Some(2),
        b'i' | b'I' | b'f' => Some(4),
        _ => None,
    };
    match kind {
        b'Z' | b'H' => Some(rest.iter().position(|&byte| byte == 0)? as u64 + 1),
        b'B' => {
            let &[subtype, a, b, c, d] = rest.first_chunk()?;
            subtypes.contains(&subtype).then_some(())?;
            Some(5 + u64::from(u32::from_le_bytes([a, b, c, d])) * fixed(subtype)?)
        }
        _ => fixed(kind),
    }
}

/// Where the optional fields are, from the record's head on; None if they do not parse.
#[must_use]
pub fn fields_of(record: &[u8], head: usize, subtypes: &[u8]) -> Option<Vec<Range<usize>>> {
    let (mut found, mut at) = (Vec::new(), head);
    while at < record.len() {
        let value = at + NAME_AND_TYPE;
        let length = value_length(*record.get(at + 2)?, record.get(value..)?, subtypes)?;
        let end = value.checked_add(usize::try_from(length).ok()?).filter(|&end| end <= record.len())?;
        found.push(at..end);
        at = end;
    }
    Some(found)
}

/// The optional fields as SAM v1 has them.
#[must_use]
pub fn parsed(record: &[u8]) -> Option<(Parts, Vec<Range<usize>>)> {
    let parts = Parts::of(record)?;
    let fields = fields_of(record, parts.head, SUBTYPES)?;
    Some((parts, fields))
}

/// The first field of a name.
fn first<'a>(fields: &'a [Range<usize>], record: &[u8], name: &[u8]) -> Option<&'a Range<usize>> {
    fields.iter().find(|field| record[field.start..].starts_with(name))
}

/// The places of the texts that an edit reads: of the first MM, am and bm, where they are of type Z.
fn texts(fields: &[Range<usize>], record: &[u8]) -> Vec<Range<usize>> {
    let named = [b"MM", b"am", b"bm"].into_iter().filter_map(|name| first(fields, record, name));
    let text = |field: &Range<usize>| field.start + NAME_AND_TYPE..field.end - 1;
    named.filter(|field| record[field.start + 2] == b'Z').map(text).collect()
}

// ---- Requests ----------------------------------------------------------------------------------

/// What a request asks of its record.
enum Edit {
    Mask { before: Vec<u8> },
    Drop { places: Vec<usize> },
    Cut { before: Vec<u8>, before_reverse: bool, start: Option<usize> },
}

/// Whether the Rust says that a tag went, and the record that it leaves.
type Left = (bool, Vec<u8>);

struct Asked {
    record: Vec<u8>,
    room: u64,
    edit: Edit,
}

impl Asked {
    /// None if the request is not of its form.
    fn of(request: &Request) -> Option<Self> {
        let (record, room, rest) = match &request.fields[..] {
            [record, room, rest @ ..] => (bytes(record)?, number(room)?, rest),
            _ => return None,
        };
        let edit = match (request.name, rest) {
            ("K2.RMASK", [before]) => Edit::Mask { before: bytes(before)? },
            ("K2.RDROP", [places]) => Edit::Drop { places: list(places, size)? },
            ("K2.RCUT", [before, before_reverse, start]) => Edit::Cut {
                before: bytes(before)?,
                before_reverse: yes_or_no(before_reverse)?,
                start: absent_or(start, size)?,
            },
            _ => return None,
        };
        Some(Self { record, room, edit })
    }

    fn before(&self) -> &[u8] {
        match &self.edit {
            Edit::Mask { before } | Edit::Cut { before, .. } => before,
            Edit::Drop { .. } => &[],
        }
    }

    /// What the Rust leaves of a record.
    fn run(&self, record: &[u8]) -> Left {
        let mut left = record.to_vec();
        let went = match &self.edit {
            Edit::Mask { before } => drop_masked_modifications_raw(&mut left, before),
            Edit::Drop { places } => drop_modifications_at_raw(&mut left, places),
            Edit::Cut { before, before_reverse, start } => {
                trim_clipped_modifications_raw(&mut left, before, *before_reverse, *start)
            }
        };
        (went, left)
    }
}

fn reply_of((went, left): &Left) -> [String; 3] {
    [u8::from(*went).to_string(), left.len().to_string(), show_bytes(left)]
}

/// The Rust's answer. A record goes to it only if its header is whole and its fields have lengths by the Rust's table.
#[must_use]
pub fn answer(request: &Request) -> Option<Reply> {
    let asked = Asked::of(request)?;
    let parts = Parts::of(&asked.record)?;
    fields_of(&asked.record, parts.head, SUBTYPES_AND_A)?;
    done(reply_of(&asked.run(&asked.record)))
}

// ---- Agreement ---------------------------------------------------------------------------------

/// Compares an answer with the Rust's. The request has the form of its call.
#[must_use]
pub fn verdict(request: &Request, rust: &str, answer: &str) -> Verdict {
    let Some(asked) = Asked::of(request) else { return Verdict::Disagreement };
    let Some(parts) = Parts::of(&asked.record) else {
        return named_if(answer == "14" && rust == "?", SHORT);
    };
    let Some(fields) = fields_of(&asked.record, parts.head, SUBTYPES) else {
        let name = if rust == "?" { FIELDS } else { ARRAY_OF_A };
        return named_if(answer == "15" && (rust == "?" || rust.starts_with("0\t")), name);
    };
    if asked.is_long(&parts, &fields) {
        return named_if(answer == "1" && rust.starts_with("0\t"), LONG);
    }
    let (wanted, name) = match asked.by_scope(&parts, &fields) {
        Some((left, name)) => (Reply::Done(reply_of(&left).to_vec()).to_line(), Some(name)),
        None => (rust.to_string(), None),
    };
    match name {
        _ if asked.in_room(&wanted) != answer => Verdict::Disagreement,
        Some(name) if wanted != rust => Verdict::Named(name),
        _ if answer == "12" => Verdict::Named(NO_SPACE),
        _ => Verdict::Equal,
    }
}

impl Asked {
    fn is_long(&self, parts: &Parts, fields: &[Range<usize>]) -> bool {
        let values =
            first(fields, &self.record, b"ML").filter(|ml| self.record[ml.start + 2..].starts_with(b"BC"));
        parts.bases > MOST_BASES
            || self.before().len() > MOST_BASES
            || texts(fields, &self.record).iter().any(|text| text.len() > MOST_BYTES)
            || values.is_some_and(|ml| ml.len() - NAME_AND_TYPE - 5 > MOST_BYTES)
    }

    /// An answer 0, or 12 if its record passes the room.
    fn in_room(&self, answer: &str) -> String {
        let length = answer.split('\t').nth(2).and_then(number);
        if length.is_some_and(|length| length > self.room) { "12".to_string() } else { answer.to_string() }
    }

    /// What the Rust leaves if it is asked without what is named as a difference, and the name; None if the request has
    /// nothing that is named. A text with a byte above 127 gets bytes that no text of the Rust's can have. A reverse
    /// record is turned if a drop names a place past its end, and is given to the Rust as a forward one.
    fn by_scope(&self, parts: &Parts, fields: &[Range<usize>]) -> Option<(Left, &'static str)> {
        let mut record = self.record.clone();
        for text in texts(fields, &self.record) {
            record[text].iter_mut().filter(|byte| **byte > 127).for_each(|byte| *byte = 0xff);
        }
        let high = texts(fields, &self.record).into_iter().any(|text| !self.record[text].is_ascii());
        let ((went, left), name) = match &self.edit {
            Edit::Drop { places }
                if is_reverse(&record) && places.iter().any(|&place| place >= parts.bases) =>
            {
                (self.dropped_forward(record, parts, places), PAST_END)
            }
            _ if high => (self.run(&record), HIGH),
            _ => return None,
        };
        // If no field went, the texts with the other bytes were not read, and the record is as it came.
        Some(if high && !went { ((went, self.record.clone()), name) } else { ((went, left), name) })
    }

    /// A drop on the turned record, whose places past the end stay past the end.
    fn dropped_forward(&self, mut record: Vec<u8>, parts: &Parts, places: &[usize]) -> Left {
        let turned = parts.read(&record).map(|read| repacked(&reverse_complement(&read.letters)));
        let turned = turned.unwrap_or_default();
        record[parts.seq..parts.seq + turned.len()].copy_from_slice(&turned);
        record[14] &= !REVERSE;
        let counted = |&place: &usize| if place < parts.bases { parts.bases - 1 - place } else { place };
        let places = places.iter().map(counted);
        let went = drop_modifications_at_raw(&mut record, &places.collect::<Vec<_>>());
        record[..parts.head].copy_from_slice(&self.record[..parts.head]);
        (went, record)
    }
}
