//! Changes the BAM record of a request (K2): its fields, its header, single bytes; or makes read, tag and edit anew.

use super::{CHANGES, Change, Damage, change, cycle_to};
use crate::answer_line;
use crate::calls::QUICK;
use crate::dna::reverse_complement;
use crate::form::Kind;
use crate::records::parsed;
use crate::stored::{LETTERS, repacked};
use crate::tag::{Group, groups, joined};
use crate::value::{Value, Values};

/// The places in a record at which a length is stated: of the name, of the CIGAR, of SEQ.
const LENGTHS: [usize; 7] = [8, 12, 13, 16, 17, 18, 19];
const FIVE: [&[u8; 2]; 5] = [b"MM", b"ML", b"MN", b"am", b"bm"];
const TYPES: &[u8] = b"AcCsSiIfZHBBd";
/// Fields that parse, and fields that don't.
const FIELDS: [&[u8]; 24] = [
    b"XXA!",
    b"XXc\x80",
    b"XXC\xff",
    b"XXs\0\x80",
    b"XXS\xff\xff",
    b"XXi\0\0\0\x80",
    b"XXI\xff\xff\xff\xff",
    b"XXf\0\0\xc0\x7f",
    b"XXZ\0",
    b"XXH1A\0",
    b"XXBc\0\0\0\0",
    b"XXBs\x01\0\0\0\0\0",
    b"MNc\xff",
    b"MNZ5\0",
    b"MLBc\x01\0\0\0\x07",
    b"MMH\0",
    b"X",
    b"XX",
    b"XXZ",
    b"XXBI\xff\xff\xff\xff",
    b"XXBA\0\0\0\0",
    b"XXd\0",
    b"XXBS\0\0\0\x80",
    b"XXi\0\0\0",
];

/// A record that parses, taken apart. The qualities are made anew.
struct Whole {
    /// The fixed part, the name and the CIGAR.
    front: Vec<u8>,
    letters: Vec<u8>,
    fields: Vec<Vec<u8>>,
}

impl Whole {
    fn of(record: &[u8]) -> Option<Self> {
        let (parts, fields) = parsed(record)?;
        let letters = parts.read(record)?.letters;
        let fields = fields.into_iter().map(|field| record[field].to_vec()).collect();
        Some(Self { front: record[..parts.seq].to_vec(), letters, fields })
    }

    fn write(&self) -> Vec<u8> {
        let mut record = self.front.clone();
        let bases = u32::try_from(self.letters.len()).unwrap_or(u32::MAX);
        record[16..20].copy_from_slice(&bases.to_le_bytes());
        record.extend(repacked(&self.letters));
        record.extend(self.letters.iter().map(|_| 0x1f));
        record.extend(self.fields.iter().flatten());
        record
    }

    fn is_reverse(&self) -> bool {
        self.front[14] & 0x10 != 0
    }

    /// The place of the first field that begins with these bytes: a name, and perhaps a type.
    fn place_of(&self, begin: &[u8]) -> Option<usize> {
        self.fields.iter().position(|field| field.starts_with(begin))
    }

    /// States the number of bases in MN, in the type that it has.
    fn set_mn(&mut self, bases: usize) {
        if let Some(place) = self.place_of(b"MN") {
            let field = &mut self.fields[place];
            if b"cCsSiI".contains(&field[2]) {
                let width = field.len() - 3;
                field[3..].copy_from_slice(&bases.to_le_bytes()[..width]);
            }
        }
    }
}

fn text_field(name: &[u8], text: &[u8]) -> Vec<u8> {
    [name, b"Z", text, b"\0"].concat()
}

fn values_field(ml: &[u8]) -> Vec<u8> {
    let count = u32::try_from(ml.len()).unwrap_or(u32::MAX).to_le_bytes();
    [b"MLBC", &count[..], ml].concat()
}

impl Damage<'_> {
    pub(super) fn change_record(&mut self, request: &mut Values) {
        let record = request.fields[0].1.bytes().to_vec();
        let new = match self.random.below(10) {
            0..4 => self.remade(request, &record),
            4..6 => Whole::of(&record).map(|whole| self.with_other_fields(whole)),
            6 | 7 => Some(self.with_other_bytes(record)),
            8 => return self.change_field(request),
            _ => return self.take_from_another(request),
        };
        if let Some(new) = new {
            request.fields[0].1 = Value::Bytes(new);
        }
    }

    // ---- Fields and bytes ------------------------------------------------------------------------

    fn with_other_fields(&mut self, mut whole: Whole) -> Vec<u8> {
        let at = self.random.below(whole.fields.len() + 1);
        let other = self.random.pick(&FIELDS).to_vec();
        let way = self.random.below(9);
        match whole.fields.get_mut(at) {
            None => whole.fields.push(other),
            Some(field) => match way {
                0 => field[..2].copy_from_slice(&self.random.pick(&FIVE)[..]),
                1 => field[2] = self.random.pick(TYPES),
                2 => {
                    let place = self.random.below(field.len());
                    field[place] = self.random.byte();
                }
                3 => {
                    let last = field.len() - 1;
                    field.truncate(self.random.below(last) + 1);
                }
                4 => whole.front[14] ^= 0x10,
                5 => {
                    let with = self.random.below(whole.fields.len());
                    whole.fields.swap(at, with);
                }
                _ => change(&mut whole.fields, self.random.pick(&CHANGES), at, other),
            },
        }
        whole.write()
    }

    fn with_other_bytes(&mut self, mut record: Vec<u8>) -> Vec<u8> {
        let place = self.random.below(record.len() + 1);
        match self.random.below(7) {
            0 => record.truncate(place),
            1 => record.truncate(record.len() - self.random.below(record.len().min(4) + 1)),
            2 => {
                let at = self.random.pick(&LENGTHS);
                let byte = self.random.pick(&[0, 1, 0x7f, 0x80, 0xff]);
                change(&mut record, Change::Set, at, byte);
            }
            3 => {
                let most = [u32::MAX, 1 << 31, 1 << 30, 0xaaaa_aaab, 0x5555_5555];
                let at = if self.random.one_in(2) { 16 } else { place };
                for (k, byte) in self.random.pick(&most).to_le_bytes().into_iter().enumerate() {
                    change(&mut record, Change::Set, at + k, byte);
                }
            }
            _ => {
                let (way, byte) = (self.random.pick(&CHANGES), self.random.byte());
                change(&mut record, way, place, byte);
            }
        }
        record
    }

    // ---- Read, tag and edit anew -----------------------------------------------------------------

    /// A record whose tag fits the read before, and whose read is that one edited; the request is made to say so. None if
    /// the record does not parse, or has no base.
    fn remade(&mut self, request: &mut Values, record: &[u8]) -> Option<Vec<u8>> {
        let mut whole = Whole::of(record)?;
        let given = request.fields[2].1.bytes();
        let stored = !given.is_empty() && given.iter().all(|letter| LETTERS.contains(letter));
        let mut before = if stored { given.to_vec() } else { whole.letters.clone() };
        if self.random.one_in(2) {
            let length = self.length().min(4_000);
            cycle_to(&mut before, length);
        }
        if before.is_empty() {
            return None;
        }
        let turned = whole.is_reverse().then(|| reverse_complement(&before));
        self.list_tags_anew(&mut whole, turned.as_deref().unwrap_or(&before));
        whole.set_mn(before.len());
        whole.letters = self.edited_letters(request, &before, whole.is_reverse());
        Some(whole.write())
    }

    /// Makes MM, am and bm list some of the tracked bases, with an ML that fits if MM has one.
    fn list_tags_anew(&mut self, whole: &mut Whole, seq: &[u8]) {
        for name in [b"MM", b"am", b"bm"] {
            let Some(place) = whole.place_of(&[&name[..], b"Z"].concat()) else { continue };
            let text = &whole.fields[place];
            let found = groups(&text[3..text.len() - 1], None)
                .filter(|found| found.iter().all(|group| group.header.len() >= 2 && group.header.is_ascii()));
            let usual = || vec![Group { header: b"C+m?".to_vec(), entries: Vec::new() }];
            let mut found = found.unwrap_or_else(usual);
            found.truncate(8);
            for group in &mut found {
                self.list_anew(group, seq);
                group.fit_values();
            }
            let (mm, ml) = joined(&found);
            whole.fields[place] = text_field(name, &mm);
            if let (b"MM", Some(place)) = (name, whole.place_of(b"MLBC")) {
                whole.fields[place] = values_field(&ml);
            }
        }
    }

    /// SEQ after the request's edit, and the request's other fields to go with it.
    fn edited_letters(&mut self, request: &mut Values, before: &[u8], reverse: bool) -> Vec<u8> {
        if request.call.name == "K2.RDROP" {
            request.fields[2].1 = Value::Numbers(self.places(before.len()));
            return before.to_vec();
        }
        request.fields[2].1 = Value::Bytes(before.to_vec());
        if request.call.name == "K2.RMASK" {
            return self.masked_letters(before);
        }
        let front = if self.random.one_in(3) { 0 } else { self.random.below(before.len() + 1) };
        let left = before.len() - front;
        let kept = if self.random.one_in(3) { left } else { self.random.below(left + 1) };
        request.fields[3].1 = Value::Word(u8::from(reverse).to_string());
        request.fields[4].1 = Value::number(front);
        let after = &before[front..front + kept];
        if self.random.one_in(2) { self.masked_letters(after) } else { after.to_vec() }
    }

    // ---- Room ------------------------------------------------------------------------------------

    /// Mostly gives enough room; now and then as much as the Rust's record needs, or one byte less.
    pub(super) fn settle_record(&mut self, request: &mut Values) {
        let held = request.fields[0].1.len();
        let room = match self.random.below(12) {
            0 => held,
            1 => held.saturating_sub(self.random.below(40)),
            2..4 => self.needed_by_rust(request).unwrap_or(held).saturating_sub(self.random.below(2)),
            4 => usize::MAX,
            _ => held + 3,
        };
        if request.fields[1].0 == Kind::RecordRoom {
            request.fields[1].1 = Value::number(room);
        }
    }

    /// The length of the record that the Rust leaves.
    fn needed_by_rust(&self, request: &Values) -> Option<usize> {
        let mut line = Vec::new();
        request.write(&mut line);
        answer_line(&line, QUICK).split('\t').nth(2)?.parse().ok()
    }
}
