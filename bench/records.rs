//! Whole BAM records (SAM v1, 4.2) without their block size: the records of a case, and the calls on them of the Rust and of Rattle.

use crate::dna::reverse_complement;
use crate::inputs::{Case, packed};

/// How many bytes a new record is longer than the old one at most, as include/aquiledru_record.h has it.
pub const GROWTH: usize = 3;
const NAME: &[u8] = b"5f8c1e2a-9d40-4b77-8a16-3c0e9b7d2f51\0";
const REVERSE: u16 = 0x10;
const BIN_OF_THE_FIRST_16_KB: u16 = 4681;
const MAPPING_QUALITY: u8 = 60;
/// CIGAR's codes.
const MATCH: u32 = 0;
const DELETION: u32 = 2;
const HARD_CLIP: u32 = 5;

unsafe extern "C" {
    fn aql_mask_record(
        bam: *const u8, bam_len: usize, before: *const u8, before_len: usize,
        out: *mut u8, out_room: usize, out_len: &mut usize, went: &mut usize,
    ) -> u8;
    fn aql_drop_record(
        bam: *const u8, bam_len: usize, places: *const u32, places_len: usize,
        out: *mut u8, out_room: usize, out_len: &mut usize, went: &mut usize,
    ) -> u8;
    fn aql_cut_record(
        bam: *const u8, bam_len: usize, before: *const u8, before_len: usize, before_reverse: u8, start_known: u8, start: usize,
        out: *mut u8, out_room: usize, out_len: &mut usize, went: &mut usize,
    ) -> u8;
}

/// The read of a case as a record, in the ways that the calls take it. The cut takes as many bases off one end as off the other, so
/// its start is the same in both orientations.
pub struct Records {
    reverse: bool,
    start: usize,
    /// SEQ's letters as they are stored, before the edit.
    before: Vec<u8>,
    places: Vec<u32>,
    places_as_sizes: Vec<usize>,
    pub whole: Vec<u8>,
    pub masked: Vec<u8>,
    pub cut: Vec<u8>,
    /// As `masked`, with ML before MM.
    pub exchanged: Vec<u8>,
    pub untagged: Vec<u8>,
}

impl Records {
    pub fn new(c: &Case, reverse: bool) -> Self {
        let stored = |seq: &[u8]| if reverse { reverse_complement(seq) } else { seq.to_vec() };
        let [mm, ml, mn] = tags(c);
        let tags = [&mm[..], &ml, &mn].concat();
        let (places, places_as_sizes) =
            if reverse { (&c.stored.places, &c.stored.places_as_sizes) } else { (&c.places, &c.places_as_sizes) };
        Self {
            reverse,
            start: c.cut,
            before: stored(&c.seq),
            places: places.clone(),
            places_as_sizes: places_as_sizes.clone(),
            whole: record(&stored(&c.seq), reverse, 0, &tags),
            masked: record(&stored(&c.masked), reverse, 0, &tags),
            cut: record(&stored(c.window()), reverse, c.cut, &tags),
            exchanged: record(&stored(&c.masked), reverse, 0, &[&ml[..], &mm, &mn].concat()),
            untagged: record(&stored(&c.seq), reverse, 0, &[]),
        }
    }
}

/// MM, ML, and MN, the number of bases that they were written for.
fn tags(c: &Case) -> [Vec<u8>; 3] {
    let values = (c.ml.len() as u32).to_le_bytes();
    let bases = (c.bases as u16).to_le_bytes();
    [
        [b"MMZ", c.mm.as_bytes(), b"\0"].concat(),
        [&b"MLBC"[..], &values, &c.ml].concat(),
        [&b"MNS"[..], &bases].concat(),
    ]
}

/// A record of the bases: aligned from the reference's front, with a mismatch in the middle of every 200 bases and a deleted base between
/// these and the next 200. Some bases were hard-clipped at each end. The fields are RG, NM, MD, and then the given ones.
fn record(bases: &[u8], reverse: bool, clipped: usize, tags: &[u8]) -> Vec<u8> {
    let pieces: Vec<u32> = bases.chunks(200).map(|piece| piece.len() as u32).collect();
    let word = |length: u32, code: u32| length << 4 | code;
    let mut words: Vec<u32> = pieces.iter().flat_map(|&length| [word(length, MATCH), word(1, DELETION)]).collect();
    words.pop();
    if clipped > 0 {
        words.insert(0, word(clipped as u32, HARD_CLIP));
        words.push(word(clipped as u32, HARD_CLIP));
    }
    let differences = u8::try_from(2 * pieces.len() - 1).expect("at most 255 differences");
    let matched: Vec<String> = pieces.iter().map(|length| format!("{}A{}", length / 2, length - length / 2 - 1)).collect();
    let nowhere = (-1_i32).to_le_bytes();
    [
        &[0; 8][..], // the first reference, from its front
        &[NAME.len() as u8, MAPPING_QUALITY],
        &BIN_OF_THE_FIRST_16_KB.to_le_bytes(),
        &(words.len() as u16).to_le_bytes(),
        &(if reverse { REVERSE } else { 0 }).to_le_bytes(),
        &(bases.len() as u32).to_le_bytes(),
        &nowhere,
        &nowhere,
        &[0; 4],
        NAME,
        &words.iter().flat_map(|word| word.to_le_bytes()).collect::<Vec<u8>>(),
        &packed(bases),
        &(0..bases.len()).map(|place| 30 + (place % 11) as u8).collect::<Vec<u8>>(),
        b"RGZsample-1\0NMC",
        &[differences],
        b"MDZ",
        matched.join("^C").as_bytes(),
        b"\0",
        tags,
    ]
    .concat()
}

/// The Rust's functions on records, compiled over stand-ins.
pub struct Rust {
    mask: fn(&mut Vec<u8>, &[u8]) -> bool,
    drop_calls: fn(&mut Vec<u8>, &[usize]) -> bool,
    cut: fn(&mut Vec<u8>, &[u8], bool, Option<usize>) -> bool,
}

macro_rules! rust_of {
    ($stand_ins:ident) => {
        Rust {
            mask: $stand_ins::modifications::drop_masked_modifications_raw,
            drop_calls: $stand_ins::modifications::drop_modifications_at_raw,
            cut: $stand_ins::modifications::trim_clipped_modifications_raw,
        }
    };
}

/// Over the stand-ins of the oracle.
pub const RUST: Rust = rust_of!(fgumi_records);
/// Over those of quick.rs.
pub const QUICK: Rust = rust_of!(quick_records);

impl Rust {
    pub fn mask(&self, record: &mut Vec<u8>, r: &Records) -> bool {
        (self.mask)(record, &r.before)
    }

    pub fn drop_calls(&self, record: &mut Vec<u8>, r: &Records) -> bool {
        (self.drop_calls)(record, &r.places_as_sizes)
    }

    pub fn cut(&self, record: &mut Vec<u8>, r: &Records) -> bool {
        (self.cut)(record, &r.before, r.reverse, Some(r.start))
    }
}

/// A lent row for the new record, and what the last call answered.
pub struct RecordRow {
    row: Vec<u8>,
    filled: usize,
    went: usize,
}

impl RecordRow {
    pub fn new(room: usize) -> Self {
        Self { row: vec![0; room], filled: 0, went: 0 }
    }

    /// Whether a tag went, and the new record.
    pub fn answer(&self) -> (bool, &[u8]) {
        (self.went != 0, &self.row[..self.filled])
    }

    pub fn mask(&mut self, record: &[u8], r: &Records) -> u8 {
        unsafe {
            aql_mask_record(
                record.as_ptr(), record.len(), r.before.as_ptr(), r.before.len(),
                self.row.as_mut_ptr(), self.row.len(), &mut self.filled, &mut self.went,
            )
        }
    }

    pub fn drop_calls(&mut self, record: &[u8], r: &Records) -> u8 {
        unsafe {
            aql_drop_record(
                record.as_ptr(), record.len(), r.places.as_ptr(), r.places.len(),
                self.row.as_mut_ptr(), self.row.len(), &mut self.filled, &mut self.went,
            )
        }
    }

    pub fn cut(&mut self, record: &[u8], r: &Records) -> u8 {
        unsafe {
            aql_cut_record(
                record.as_ptr(), record.len(), r.before.as_ptr(), r.before.len(), u8::from(r.reverse), 1, r.start,
                self.row.as_mut_ptr(), self.row.len(), &mut self.filled, &mut self.went,
            )
        }
    }
}
