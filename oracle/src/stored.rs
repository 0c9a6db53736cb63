//! The requests on reads as a BAM record stores them: packed, and with reverse 1 reverse-complemented.
//!
//! The driver unpacks SEQ by a table of letters. The Rust's own `reverse_complement` turns it. Reading, masking and
//! dropping are then the plain requests in read orientation, with the places counted from the other end. A cut goes
//! to `trim_clipped_modifications_raw` with the stored bases and the reverse flag, so that the Rust itself turns SEQ
//! and counts the window's start from the other end.

use crate::calls::{Effort, Trimmed, accepted, answer, done, refused, refused_bytes, tag_fields, trim};
use crate::dna::reverse_complement;
use crate::form::{Request, session_step};
use crate::modifications::{drop_masked_modifications, drop_modifications_at, drop_modifications_at_raw};
use crate::protocol::{
    Reply, absent_or, bytes, list, number, show_absent_or, show_bytes, show_list, size, yes_or_no,
};
use fgumi_raw_bam::{RawTagsEditor, SamTag, aux_data_slice, find_array_tag, find_string_tag, new_record};

pub const LETTERS: &[u8; 16] = b"=ACMGRSVTWYHKDBN";
/// A longer read isn't passed to the Rust; it is refused by its length.
const MOST_LETTERS: usize = 200_000;

/// The letters of a packed SEQ; None if its bytes are not as many as the bases take.
fn unpacked(count: usize, packed: &[u8]) -> Option<Vec<u8>> {
    if count > MOST_LETTERS || packed.len() != count.div_ceil(2) {
        return None;
    }
    let half = |place: usize| {
        if place.is_multiple_of(2) { packed[place / 2] >> 4 } else { packed[place / 2] & 15 }
    };
    Some((0..count).map(|place| LETTERS[usize::from(half(place))]).collect())
}

fn code(letter: u8) -> u8 {
    let place = LETTERS.iter().position(|&one| one == letter).expect("a letter of a packed SEQ");
    u8::try_from(place).expect("there are sixteen")
}

/// Letters as packed bytes, with a spare half of 0.
#[must_use]
pub fn repacked(letters: &[u8]) -> Vec<u8> {
    letters.chunks(2).map(|pair| code(pair[0]) << 4 | pair.get(1).map_or(0, |&second| code(second))).collect()
}

/// A stored read: its letters as they are stored, and whether it is reverse.
pub struct Stored {
    pub letters: Vec<u8>,
    reverse: bool,
}

impl Stored {
    /// The read of three fields; None if the packed bytes are not as many as the bases take.
    #[must_use]
    pub fn read(reverse: &str, count: &str, packed: &str) -> Option<Self> {
        Self::of(yes_or_no(reverse)?, size(count)?, &bytes(packed)?)
    }

    #[must_use]
    pub fn of(reverse: bool, count: usize, packed: &[u8]) -> Option<Self> {
        Some(Self { letters: unpacked(count, packed)?, reverse })
    }

    fn turned_if(&self, letters: &[u8]) -> Vec<u8> {
        if self.reverse { reverse_complement(letters) } else { letters.to_vec() }
    }

    #[must_use]
    pub fn in_read(&self) -> Vec<u8> {
        self.turned_if(&self.letters)
    }

    /// A place of the stored read in read orientation, and back.
    fn place(&self, place: usize) -> usize {
        if self.reverse { self.letters.len() - 1 - place } else { place }
    }

    /// The places that are not past the end, in read orientation.
    fn places(&self, named: &[u64]) -> Vec<usize> {
        let inside = named.iter().filter_map(|&place| usize::try_from(place).ok());
        inside.filter(|&place| place < self.letters.len()).map(|place| self.place(place)).collect()
    }

    /// The start of a window in read orientation; None if the window doesn't fit.
    fn start(&self, start: usize, window: usize) -> Option<usize> {
        if !self.reverse {
            return Some(start);
        }
        self.letters.len().checked_sub(start)?.checked_sub(window)
    }
}

// ---- As plain requests in read orientation -----------------------------------------------------

/// The plain request that asks the same in read orientation; None for the other requests, and if the packed bytes are
/// not as many as the bases take.
#[must_use]
pub fn plain(request: &Request) -> Option<String> {
    let shown = |read: &Stored| show_bytes(&read.in_read());
    let line = match (request.name, &request.fields[..]) {
        ("K1.CALLS", &[reverse, count, packed, mm, ml]) => {
            format!("CALLS\t{mm}\t{ml}\t{}", shown(&Stored::read(reverse, count, packed)?))
        }
        ("K1.PMASK", &[reverse, count, before, after_count, after, mm, ml]) => {
            let (before, after) =
                (Stored::read(reverse, count, before)?, Stored::read(reverse, after_count, after)?);
            format!("MASK\t{mm}\t{ml}\t{}\t{}", shown(&before), shown(&after))
        }
        ("K1.PDROP", &[reverse, count, packed, places, mm, ml, "old"]) => {
            let read = Stored::read(reverse, count, packed)?;
            let places = show_list(&read.places(&list(places, number)?), usize::to_string);
            format!("DROP\t{mm}\t{ml}\t{}\t{places}", shown(&read))
        }
        ("K1.PCUT", &[reverse, count, before, after_count, after, start, mm, ml]) => {
            let (before, after) =
                (Stored::read(reverse, count, before)?, Stored::read(reverse, after_count, after)?);
            let start = absent_or(start, size)?.and_then(|start| before.start(start, after.letters.len()));
            let start = show_absent_or(start.as_ref(), usize::to_string);
            format!("CUT\t{mm}\t{ml}\t{}\t{}\t{start}", shown(&before), shown(&after))
        }
        _ => return None,
    };
    Some(request.room.map_or(line.clone(), |room| format!("{line}\t@{room}")))
}

/// An answer to K1.CALLS with the places counted from the other end, if the read is reverse. Any other answer stays.
#[must_use]
pub fn mirrored(request: &Request, line: &str) -> String {
    let counted = || {
        let (&[reverse, count, packed, ..], "K1.CALLS") = (request.fields.get(..3)?, request.name) else {
            return None;
        };
        let read = Stored::read(reverse, count, packed).filter(|read| read.reverse)?;
        let mut parts: Vec<String> = line.split('\t').map(str::to_string).collect();
        let calls = list(parts.get(2)?, |call| mirrored_call(&read, call))?;
        parts[2] = show_list(&calls, String::clone);
        Some(parts.join("\t"))
    };
    counted().unwrap_or_else(|| line.to_string())
}

fn mirrored_call(read: &Stored, call: &str) -> Option<String> {
    let [group, place, rest] = call.splitn(3, ':').collect::<Vec<_>>().try_into().ok()?;
    let place = size(place).filter(|&place| place < read.letters.len())?;
    Some(format!("{group}:{}:{rest}", read.place(place)))
}

/// The Rust's answer to K1.CALLS, K1.PMASK and K1.PDROP.
pub fn in_read_orientation(request: &Request, effort: Effort) -> Option<Reply> {
    let reply = answer(&plain(request)?, effort)?;
    let Reply::Done(fields) = reply else { return Some(reply) };
    let line = mirrored(request, &Reply::Done(fields).to_line());
    Some(Reply::Done(line.split('\t').skip(1).map(str::to_string).collect()))
}

/// What the Rust's own drop on a stored record shows about an answer.
#[derive(Clone, Copy, Debug, PartialEq, Eq)]
pub enum OwnDrop {
    /// It leaves the same tag, or none for a refusal. Or it isn't asked: the request is no drop, or names no place, in
    /// which case the Rust doesn't look at the tag.
    Same,
    /// It leaves another tag, and a place is past the end of a reverse read: it takes the place for the read's first base.
    PastEnd,
    /// It leaves another tag.
    Other,
}

#[must_use]
pub fn own_drop(request: &Request, answer: &str) -> OwnDrop {
    let compared = || {
        let (&[reverse, count, packed, places, mm, ml, _], "K1.PDROP") = (&request.fields[..], request.name)
        else {
            return None;
        };
        let read = Stored::read(reverse, count, packed)?;
        let places: Vec<usize> = list(places, number)?.into_iter().map(|place| place as usize).collect();
        if places.is_empty() || left_by_drop(&read, &places, mm, ml)? == left_by_answer(answer, ml) {
            return Some(OwnDrop::Same);
        }
        let past = places.iter().any(|&place| place >= read.letters.len());
        Some(if read.reverse && past { OwnDrop::PastEnd } else { OwnDrop::Other })
    };
    compared().unwrap_or(OwnDrop::Same)
}

/// MM and ML as fields, each if the record has it.
type Left = (Option<String>, Option<String>);

/// The tag that `drop_modifications_at_raw` leaves in a record of the stored bases. The Rust itself turns SEQ, and
/// counts the places from the other end.
fn left_by_drop(read: &Stored, places: &[usize], mm: &str, ml: &str) -> Option<Left> {
    let mut record = new_record(&read.letters, read.reverse);
    let mut editor = RawTagsEditor::from_vec(&mut record);
    editor.update_string(SamTag::MM, &bytes(mm)?);
    if let Some(ml) = absent_or(ml, bytes)? {
        editor.update_array_u8(SamTag::ML, &ml);
    }
    drop_modifications_at_raw(&mut record, places);
    let aux = aux_data_slice(&record);
    let left_ml = find_array_tag(aux, SamTag::ML).map(|array| show_bytes(array.data));
    Some((find_string_tag(aux, SamTag::MM).map(show_bytes), left_ml))
}

/// The tag that an answer leaves: none after a refusal, and no ML if the request has none.
fn left_by_answer(answer: &str, ml: &str) -> Left {
    let [number, mm, new_ml] = answer.split('\t').collect::<Vec<_>>().try_into().unwrap_or_default();
    if number != "0" {
        return (None, None);
    }
    (Some(mm.to_string()), (ml != "-").then(|| new_ml.to_string()))
}

// ---- Turning and unpacking ---------------------------------------------------------------------

pub fn turn(fields: &[&str]) -> Option<Reply> {
    let &[count, packed] = fields else { return None };
    done([show_bytes(&repacked(&Stored::read("1", count, packed)?.in_read()))])
}

pub fn unpack(fields: &[&str]) -> Option<Reply> {
    let &[reverse, count, packed] = fields else { return None };
    done([show_bytes(&Stored::read(reverse, count, packed)?.in_read())])
}

// ---- Cutting -----------------------------------------------------------------------------------

pub fn cut(fields: &[&str], effort: Effort) -> Option<Reply> {
    let &[reverse, count, before, after_count, after, start, mm, ml] = fields else { return None };
    let (before, after) = (Stored::read(reverse, count, before)?, Stored::read(reverse, after_count, after)?);
    let (mm, ml, start) = (bytes(mm)?, absent_or(ml, bytes)?, absent_or(start, size)?);
    match trim(&mm, ml.as_deref(), &before.letters, &after.letters, before.reverse, start) {
        Trimmed::Edited(mm, ml) => done([show_bytes(&mm), show_absent_or(ml.as_ref(), |ml| show_bytes(ml))]),
        Trimmed::Refused => refused_bytes(&mm, ml.as_deref(), &before.in_read(), effort),
        Trimmed::NoWindow => Some(Reply::NoWindow),
        Trimmed::Same => Some(Reply::Same),
    }
}

// ---- The session -------------------------------------------------------------------------------

/// A session on a stored read.
struct Session {
    read: Stored,
    packed: Vec<u8>,
    mm: String,
    ml: Option<Vec<u8>>,
}

impl Session {
    /// Makes a step and gives its number. A drop that the Rust refuses is 10, since it accepts the tag itself. A cut of
    /// more than SEQ is 11, and can't be put to the Rust.
    fn step(&mut self, kind: &str, given: &[u64]) -> Option<u32> {
        let seq = self.read.in_read();
        let ml = self.ml.as_deref();
        match (kind, given) {
            ("MK", places) => {
                let mut after = self.read.letters.clone();
                for place in self.read.places(places) {
                    after[self.read.place(place)] = b'N';
                }
                let (mm, ml) = drop_masked_modifications(&self.mm, ml, &seq, &self.read.turned_if(&after))?;
                self.write(after, mm, ml)
            }
            ("DR", places) => match drop_modifications_at(&self.mm, ml, &seq, &self.read.places(places)) {
                Some((mm, ml)) => self.write(self.read.letters.clone(), mm, ml),
                None => accepted(&self.mm, ml, &seq).then_some(10),
            },
            (_, &[front, back]) => self.cut(front, back),
            _ => None,
        }
    }

    fn cut(&mut self, front: u64, back: u64) -> Option<u32> {
        let count = self.read.letters.len();
        if u128::from(front) + u128::from(back) > count as u128 {
            return Some(11);
        }
        let (front, back) = (usize::try_from(front).ok()?, usize::try_from(back).ok()?);
        let after = self.read.letters[front..count - back].to_vec();
        let (mm, ml) = (self.mm.as_bytes(), self.ml.as_deref());
        match trim(mm, ml, &self.read.letters, &after, self.read.reverse, Some(front)) {
            Trimmed::Edited(mm, ml) => self.write(after, String::from_utf8(mm).ok()?, ml.unwrap_or_default()),
            Trimmed::Same => Some(21),
            Trimmed::Refused | Trimmed::NoWindow => None,
        }
    }

    /// Takes over what a step left. The packed bytes past the new end stay.
    fn write(&mut self, letters: Vec<u8>, mm: String, ml: Vec<u8>) -> Option<u32> {
        let front = repacked(&letters);
        self.packed[..front.len()].copy_from_slice(&front);
        self.read.letters = letters;
        self.mm = mm;
        if self.ml.is_some() {
            self.ml = Some(ml);
        }
        Some(0)
    }
}

pub fn session(fields: &[&str], effort: Effort) -> Option<Reply> {
    let &[reverse, count, packed, mm, ml, "old", ref steps @ ..] = fields else { return None };
    let steps = steps.iter().map(|step| session_step(step)).collect::<Option<Vec<_>>>()?;
    let read = Stored::read(reverse, count, packed)?;
    let (mm, ml) = tag_fields(mm, ml)?;
    if !accepted(&mm, ml.as_deref(), &read.in_read()) {
        return refused(&mm, ml.as_deref(), &read.in_read(), &[], effort);
    }
    let mut session = Session { read, packed: bytes(packed)?, mm, ml };
    let numbers = steps.iter().map(|(kind, given)| session.step(kind, given)).collect::<Option<Vec<_>>>()?;
    done([
        show_list(&numbers, u32::to_string),
        session.read.letters.len().to_string(),
        show_bytes(&session.packed),
        show_bytes(session.mm.as_bytes()),
        show_absent_or(session.ml.as_ref(), |ml| show_bytes(ml)),
    ])
}
