//! Rattle's side: the calls of include/aquiledru.h that are measured, over rows that are lent once and never cleared.

use crate::inputs::{Case, Columns};

#[path = "stored.rs"]
pub mod stored;

unsafe extern "C" {
    fn aql_check_tag(
        seq: *const u8, seq_len: usize, mm: *const u8, mm_len: usize, ml: *const u8, ml_len: usize, has_ml: u8,
        groups: &mut usize, calls: &mut usize,
    ) -> u8;
    fn aql_read_calls(
        seq: *const u8, seq_len: usize, mm: *const u8, mm_len: usize, ml: *const u8, ml_len: usize, has_ml: u8,
        call_groups: *mut u32, call_groups_room: usize, call_places: *mut u32, call_places_room: usize,
        call_starts: *mut u32, call_starts_room: usize, groups: &mut usize, calls: &mut usize,
    ) -> u8;
    fn aql_tally(
        seq: *const u8, seq_len: usize, mm: *const u8, mm_len: usize, ml: *const u8, ml_len: usize,
        above: &mut usize, below: &mut usize,
    ) -> u8;
    fn aql_drop_masked_modifications(
        before: *const u8, before_len: usize, after: *const u8, after_len: usize,
        mm: *const u8, mm_len: usize, ml: *const u8, ml_len: usize, has_ml: u8,
        mm_out: *mut u8, mm_out_room: usize, ml_out: *mut u8, ml_out_room: usize,
        mm_out_len: &mut usize, ml_out_len: &mut usize,
    ) -> u8;
    fn aql_drop_modifications_at(
        seq: *const u8, seq_len: usize, places: *const u32, places_len: usize,
        mm: *const u8, mm_len: usize, ml: *const u8, ml_len: usize, has_ml: u8,
        mm_out: *mut u8, mm_out_room: usize, ml_out: *mut u8, ml_out_room: usize,
        mm_out_len: &mut usize, ml_out_len: &mut usize,
    ) -> u8;
    fn aql_trim_clipped_modifications(
        before: *const u8, before_len: usize, after: *const u8, after_len: usize, start_known: u8, start: usize,
        mm: *const u8, mm_len: usize, ml: *const u8, ml_len: usize, has_ml: u8,
        mm_out: *mut u8, mm_out_room: usize, ml_out: *mut u8, ml_out_room: usize,
        mm_out_len: &mut usize, ml_out_len: &mut usize,
    ) -> u8;
    fn aql_session_mask(
        seq: *mut u8, seq_room: usize, mm: *mut u8, mm_room: usize, ml: *mut u8, ml_room: usize, has_ml: u8,
        lengths: &mut [usize; 3], places: *const u32, places_len: usize,
    ) -> u8;
    fn aql_session_drop_calls(
        seq: *const u8, seq_room: usize, mm: *mut u8, mm_room: usize, ml: *mut u8, ml_room: usize, has_ml: u8,
        lengths: &mut [usize; 3], places: *const u32, places_len: usize,
    ) -> u8;
    fn aql_session_cut(
        seq: *mut u8, seq_room: usize, mm: *mut u8, mm_room: usize, ml: *mut u8, ml_room: usize, has_ml: u8,
        lengths: &mut [usize; 3], front: u32, back: u32,
    ) -> u8;
    fn aql_build_mm_ml_tags(
        consensus_bases: *const u8, consensus_bases_len: usize, informative: *const u8, informative_len: usize,
        unconverted: *const u32, unconverted_len: usize, converted: *const u32, converted_len: usize,
        read_flags: u16, mode: u8, mm: *mut u8, mm_room: usize, ml: *mut u8, ml_room: usize,
        mm_len: &mut usize, ml_len: &mut usize,
    ) -> u8;
    fn aql_annotate_simplex_methylation(
        consensus_len: usize, read_lengths: *const u32, read_lengths_len: usize,
        read_bases: *const u8, read_bases_len: usize, ref_bases: *const u8, ref_bases_len: usize, read_flags: u16,
        read_aligned: *const u8, read_aligned_len: usize, count_all_positions: u8,
        informative: *mut u8, informative_room: usize, unconverted: *mut u32, unconverted_room: usize,
        converted: *mut u32, converted_room: usize, n: &mut usize,
    ) -> u8;
}

const HAS_ML: u8 = 1;
const EM_SEQ: u8 = 1;
const FIRST_READ: u16 = 0;

/// Two lent rows for a tag, and how much of them the last call filled.
pub struct TagRows {
    mm: Vec<u8>,
    ml: Vec<u8>,
    mm_len: usize,
    ml_len: usize,
}

impl TagRows {
    pub fn new(case: &Case) -> Self {
        Self { mm: vec![0; case.mm.len()], ml: vec![0; case.ml.len()], mm_len: 0, ml_len: 0 }
    }

    pub fn tag(&self) -> (String, Vec<u8>) {
        let text = std::str::from_utf8(&self.mm[..self.mm_len]).expect("a text of ASCII");
        (text.to_string(), self.ml[..self.ml_len].to_vec())
    }

    pub fn mask(&mut self, c: &Case) -> u8 {
        unsafe {
            aql_drop_masked_modifications(
                c.seq.as_ptr(), c.seq.len(), c.masked.as_ptr(), c.masked.len(),
                c.mm.as_ptr(), c.mm.len(), c.ml.as_ptr(), c.ml.len(), HAS_ML,
                self.mm.as_mut_ptr(), self.mm.len(), self.ml.as_mut_ptr(), self.ml.len(),
                &mut self.mm_len, &mut self.ml_len,
            )
        }
    }

    pub fn drop_calls(&mut self, c: &Case) -> u8 {
        unsafe {
            aql_drop_modifications_at(
                c.seq.as_ptr(), c.seq.len(), c.places.as_ptr(), c.places.len(),
                c.mm.as_ptr(), c.mm.len(), c.ml.as_ptr(), c.ml.len(), HAS_ML,
                self.mm.as_mut_ptr(), self.mm.len(), self.ml.as_mut_ptr(), self.ml.len(),
                &mut self.mm_len, &mut self.ml_len,
            )
        }
    }

    pub fn cut(&mut self, c: &Case) -> u8 {
        let window = c.window();
        unsafe {
            aql_trim_clipped_modifications(
                c.seq.as_ptr(), c.seq.len(), window.as_ptr(), window.len(), 1, c.cut,
                c.mm.as_ptr(), c.mm.len(), c.ml.as_ptr(), c.ml.len(), HAS_ML,
                self.mm.as_mut_ptr(), self.mm.len(), self.ml.as_mut_ptr(), self.ml.len(),
                &mut self.mm_len, &mut self.ml_len,
            )
        }
    }

    pub fn build(&mut self, c: &Case) -> u8 {
        let e = &c.columns;
        unsafe {
            aql_build_mm_ml_tags(
                c.seq.as_ptr(), c.seq.len(), e.informative.as_ptr(), e.informative.len(),
                e.unconverted.as_ptr(), e.unconverted.len(), e.converted.as_ptr(), e.converted.len(),
                FIRST_READ, EM_SEQ, self.mm.as_mut_ptr(), self.mm.len(), self.ml.as_mut_ptr(), self.ml.len(),
                &mut self.mm_len, &mut self.ml_len,
            )
        }
    }
}

/// Three lent columns for a list of calls.
pub struct CallRows {
    groups: Vec<u32>,
    places: Vec<u32>,
    starts: Vec<u32>,
    group_count: usize,
    call_count: usize,
}

impl CallRows {
    pub fn new(case: &Case) -> Self {
        let calls = case.ml.len();
        Self { groups: vec![0; calls], places: vec![0; calls], starts: vec![0; calls], group_count: 0, call_count: 0 }
    }

    pub fn read(&mut self, c: &Case) -> u8 {
        unsafe {
            aql_read_calls(
                c.seq.as_ptr(), c.seq.len(), c.mm.as_ptr(), c.mm.len(), c.ml.as_ptr(), c.ml.len(), HAS_ML,
                self.groups.as_mut_ptr(), self.groups.len(), self.places.as_mut_ptr(), self.places.len(),
                self.starts.as_mut_ptr(), self.starts.len(), &mut self.group_count, &mut self.call_count,
            )
        }
    }

    /// Place and value of each call; the tags here have one group with one code.
    pub fn calls(&self, case: &Case) -> Vec<(u32, u8)> {
        assert_eq!(self.group_count, 1);
        (0..self.call_count).map(|i| (self.places[i], case.ml[self.starts[i] as usize])).collect()
    }
}

/// Two numbers, the answers of check and tally.
pub fn check(c: &Case) -> (u8, usize, usize) {
    let (mut groups, mut calls) = (0, 0);
    let answer = unsafe {
        aql_check_tag(
            c.seq.as_ptr(), c.seq.len(), c.mm.as_ptr(), c.mm.len(), c.ml.as_ptr(), c.ml.len(), HAS_ML,
            &mut groups, &mut calls,
        )
    };
    (answer, groups, calls)
}

pub fn tally(c: &Case) -> (u8, usize, usize) {
    let (mut above, mut below) = (0, 0);
    let answer = unsafe {
        aql_tally(
            c.seq.as_ptr(), c.seq.len(), c.mm.as_ptr(), c.mm.len(), c.ml.as_ptr(), c.ml.len(),
            &mut above, &mut below,
        )
    };
    (answer, above, below)
}

/// Three lent columns for a count.
pub struct CountRows {
    pub columns: Columns,
    filled: usize,
}

impl CountRows {
    pub fn new(case: &Case) -> Self {
        let n = case.bases;
        Self { columns: Columns { informative: vec![0; n], unconverted: vec![0; n], converted: vec![0; n] }, filled: 0 }
    }

    pub fn count(&mut self, c: &Case, all_positions: bool) -> u8 {
        let (r, e) = (&c.reads, &mut self.columns);
        unsafe {
            aql_annotate_simplex_methylation(
                c.bases, r.lengths.as_ptr(), r.lengths.len(), r.joined.as_ptr(), r.joined.len(),
                r.reference_bytes.as_ptr(), r.reference_bytes.len(), FIRST_READ,
                r.aligned_joined.as_ptr(), r.aligned_joined.len(), u8::from(all_positions),
                e.informative.as_mut_ptr(), e.informative.len(), e.unconverted.as_mut_ptr(), e.unconverted.len(),
                e.converted.as_mut_ptr(), e.converted.len(), &mut self.filled,
            )
        }
    }
}

/// A session's own rows. A step changes them, so each counted call has its own session, restored before. SEQ of a stored read is packed.
pub struct Session {
    seq: Vec<u8>,
    mm: Vec<u8>,
    ml: Vec<u8>,
    lengths: [usize; 3],
}

impl Session {
    pub fn new(c: &Case, seq: &[u8]) -> Self {
        Self { seq: seq.to_vec(), mm: c.mm.clone().into_bytes(), ml: c.ml.clone(), lengths: [c.bases, c.mm.len(), c.ml.len()] }
    }

    pub fn restore(&mut self, c: &Case, seq: &[u8]) {
        self.seq.copy_from_slice(seq);
        self.mm.copy_from_slice(c.mm.as_bytes());
        self.ml.copy_from_slice(&c.ml);
        self.lengths = [c.bases, c.mm.len(), c.ml.len()];
    }

    pub fn tag(&self) -> (String, Vec<u8>) {
        let text = std::str::from_utf8(&self.mm[..self.lengths[1]]).expect("a text of ASCII");
        (text.to_string(), self.ml[..self.lengths[2]].to_vec())
    }

    pub fn bases(&self) -> usize {
        self.lengths[0]
    }

    /// The front of SEQ's row.
    pub fn front(&self, entries: usize) -> &[u8] {
        &self.seq[..entries]
    }

    pub fn mask(&mut self, c: &Case) -> u8 {
        unsafe {
            aql_session_mask(
                self.seq.as_mut_ptr(), self.seq.len(), self.mm.as_mut_ptr(), self.mm.len(),
                self.ml.as_mut_ptr(), self.ml.len(), HAS_ML, &mut self.lengths, c.places.as_ptr(), c.places.len(),
            )
        }
    }

    pub fn drop_calls(&mut self, c: &Case) -> u8 {
        unsafe {
            aql_session_drop_calls(
                self.seq.as_ptr(), self.seq.len(), self.mm.as_mut_ptr(), self.mm.len(),
                self.ml.as_mut_ptr(), self.ml.len(), HAS_ML, &mut self.lengths, c.places.as_ptr(), c.places.len(),
            )
        }
    }

    pub fn cut(&mut self, c: &Case) -> u8 {
        unsafe {
            aql_session_cut(
                self.seq.as_mut_ptr(), self.seq.len(), self.mm.as_mut_ptr(), self.mm.len(),
                self.ml.as_mut_ptr(), self.ml.len(), HAS_ML, &mut self.lengths, c.cut as u32, c.cut as u32,
            )
        }
    }
}
