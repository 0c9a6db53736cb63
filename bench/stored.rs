//! Rattle's calls on a read as a BAM record stores it, over the same lent rows as the plain calls. Every read here is reverse.

use super::{CallRows, HAS_ML, Session, TagRows};
use crate::inputs::Case;

unsafe extern "C" {
    fn aql_turn(packed: *const u8, packed_len: usize, bases: usize, out: *mut u8, out_room: usize, out_len: &mut usize) -> u8;
    fn aql_unpack(
        packed: *const u8, packed_len: usize, bases: usize, reverse: u8, seq: *mut u8, seq_room: usize, seq_len: &mut usize,
    ) -> u8;
    fn aql_stored_check_tag(
        packed: *const u8, packed_len: usize, bases: usize, reverse: u8,
        mm: *const u8, mm_len: usize, ml: *const u8, ml_len: usize, has_ml: u8, groups: &mut usize, calls: &mut usize,
    ) -> u8;
    fn aql_stored_read_calls(
        packed: *const u8, packed_len: usize, bases: usize, reverse: u8,
        mm: *const u8, mm_len: usize, ml: *const u8, ml_len: usize, has_ml: u8,
        call_groups: *mut u32, call_groups_room: usize, call_places: *mut u32, call_places_room: usize,
        call_starts: *mut u32, call_starts_room: usize, groups: &mut usize, calls: &mut usize,
    ) -> u8;
    fn aql_stored_tally(
        packed: *const u8, packed_len: usize, bases: usize, reverse: u8,
        mm: *const u8, mm_len: usize, ml: *const u8, ml_len: usize, above: &mut usize, below: &mut usize,
    ) -> u8;
    fn aql_stored_drop_masked_modifications(
        before: *const u8, before_len: usize, before_bases: usize, after: *const u8, after_len: usize, after_bases: usize, reverse: u8,
        mm: *const u8, mm_len: usize, ml: *const u8, ml_len: usize, has_ml: u8,
        mm_out: *mut u8, mm_out_room: usize, ml_out: *mut u8, ml_out_room: usize,
        mm_out_len: &mut usize, ml_out_len: &mut usize,
    ) -> u8;
    fn aql_stored_drop_modifications_at(
        packed: *const u8, packed_len: usize, bases: usize, reverse: u8, places: *const u32, places_len: usize,
        mm: *const u8, mm_len: usize, ml: *const u8, ml_len: usize, has_ml: u8,
        mm_out: *mut u8, mm_out_room: usize, ml_out: *mut u8, ml_out_room: usize,
        mm_out_len: &mut usize, ml_out_len: &mut usize,
    ) -> u8;
    fn aql_stored_trim_clipped_modifications(
        before: *const u8, before_len: usize, before_bases: usize, after: *const u8, after_len: usize, after_bases: usize, reverse: u8,
        start_known: u8, start: usize, mm: *const u8, mm_len: usize, ml: *const u8, ml_len: usize, has_ml: u8,
        mm_out: *mut u8, mm_out_room: usize, ml_out: *mut u8, ml_out_room: usize,
        mm_out_len: &mut usize, ml_out_len: &mut usize,
    ) -> u8;
    fn aql_stored_mask(
        packed: *mut u8, packed_room: usize, reverse: u8, mm: *mut u8, mm_room: usize, ml: *mut u8, ml_room: usize, has_ml: u8,
        lengths: &mut [usize; 3], places: *const u32, places_len: usize,
    ) -> u8;
    fn aql_stored_drop_calls(
        packed: *mut u8, packed_room: usize, reverse: u8, mm: *mut u8, mm_room: usize, ml: *mut u8, ml_room: usize, has_ml: u8,
        lengths: &mut [usize; 3], places: *const u32, places_len: usize,
    ) -> u8;
    fn aql_stored_cut(
        packed: *mut u8, packed_room: usize, reverse: u8, mm: *mut u8, mm_room: usize, ml: *mut u8, ml_room: usize, has_ml: u8,
        lengths: &mut [usize; 3], front: u32, back: u32,
    ) -> u8;
}

const REVERSE: u8 = 1;
const FORWARD: u8 = 0;

/// A lent row for SEQ, and how much of it the last call filled.
pub struct SeqRow {
    row: Vec<u8>,
    filled: usize,
}

impl SeqRow {
    pub fn new(entries: usize) -> Self {
        Self { row: vec![0; entries], filled: 0 }
    }

    pub fn seq(&self) -> &[u8] {
        &self.row[..self.filled]
    }

    pub fn turn(&mut self, c: &Case) -> u8 {
        let p = &c.stored.seq;
        unsafe { aql_turn(p.as_ptr(), p.len(), c.bases, self.row.as_mut_ptr(), self.row.len(), &mut self.filled) }
    }

    pub fn unpack(&mut self, c: &Case) -> u8 {
        self.unpack_as(c, REVERSE)
    }

    /// The same bytes, as those of a forward read.
    pub fn unpack_forward(&mut self, c: &Case) -> u8 {
        self.unpack_as(c, FORWARD)
    }

    fn unpack_as(&mut self, c: &Case, reverse: u8) -> u8 {
        let p = &c.stored.seq;
        unsafe { aql_unpack(p.as_ptr(), p.len(), c.bases, reverse, self.row.as_mut_ptr(), self.row.len(), &mut self.filled) }
    }
}

impl CallRows {
    pub fn stored_read(&mut self, c: &Case) -> u8 {
        let p = &c.stored.seq;
        unsafe {
            aql_stored_read_calls(
                p.as_ptr(), p.len(), c.bases, REVERSE, c.mm.as_ptr(), c.mm.len(), c.ml.as_ptr(), c.ml.len(), HAS_ML,
                self.groups.as_mut_ptr(), self.groups.len(), self.places.as_mut_ptr(), self.places.len(),
                self.starts.as_mut_ptr(), self.starts.len(), &mut self.group_count, &mut self.call_count,
            )
        }
    }
}

pub fn check(c: &Case) -> (u8, usize, usize) {
    let p = &c.stored.seq;
    let (mut groups, mut calls) = (0, 0);
    let answer = unsafe {
        aql_stored_check_tag(
            p.as_ptr(), p.len(), c.bases, REVERSE, c.mm.as_ptr(), c.mm.len(), c.ml.as_ptr(), c.ml.len(), HAS_ML,
            &mut groups, &mut calls,
        )
    };
    (answer, groups, calls)
}

pub fn tally(c: &Case) -> (u8, usize, usize) {
    let p = &c.stored.seq;
    let (mut above, mut below) = (0, 0);
    let answer = unsafe {
        aql_stored_tally(
            p.as_ptr(), p.len(), c.bases, REVERSE, c.mm.as_ptr(), c.mm.len(), c.ml.as_ptr(), c.ml.len(),
            &mut above, &mut below,
        )
    };
    (answer, above, below)
}

impl TagRows {
    pub fn stored_mask(&mut self, c: &Case) -> u8 {
        let (before, after) = (&c.stored.seq, &c.stored.masked);
        unsafe {
            aql_stored_drop_masked_modifications(
                before.as_ptr(), before.len(), c.bases, after.as_ptr(), after.len(), c.bases, REVERSE,
                c.mm.as_ptr(), c.mm.len(), c.ml.as_ptr(), c.ml.len(), HAS_ML,
                self.mm.as_mut_ptr(), self.mm.len(), self.ml.as_mut_ptr(), self.ml.len(),
                &mut self.mm_len, &mut self.ml_len,
            )
        }
    }

    pub fn stored_drop_calls(&mut self, c: &Case) -> u8 {
        let (p, places) = (&c.stored.seq, &c.stored.places);
        unsafe {
            aql_stored_drop_modifications_at(
                p.as_ptr(), p.len(), c.bases, REVERSE, places.as_ptr(), places.len(),
                c.mm.as_ptr(), c.mm.len(), c.ml.as_ptr(), c.ml.len(), HAS_ML,
                self.mm.as_mut_ptr(), self.mm.len(), self.ml.as_mut_ptr(), self.ml.len(),
                &mut self.mm_len, &mut self.ml_len,
            )
        }
    }

    pub fn stored_cut(&mut self, c: &Case) -> u8 {
        let (before, after) = (&c.stored.seq, &c.stored.window);
        unsafe {
            aql_stored_trim_clipped_modifications(
                before.as_ptr(), before.len(), c.bases, after.as_ptr(), after.len(), c.window().len(), REVERSE, 1, c.cut,
                c.mm.as_ptr(), c.mm.len(), c.ml.as_ptr(), c.ml.len(), HAS_ML,
                self.mm.as_mut_ptr(), self.mm.len(), self.ml.as_mut_ptr(), self.ml.len(),
                &mut self.mm_len, &mut self.ml_len,
            )
        }
    }
}

impl Session {
    pub fn stored_mask(&mut self, c: &Case) -> u8 {
        let places = &c.stored.places;
        unsafe {
            aql_stored_mask(
                self.seq.as_mut_ptr(), self.seq.len(), REVERSE, self.mm.as_mut_ptr(), self.mm.len(),
                self.ml.as_mut_ptr(), self.ml.len(), HAS_ML, &mut self.lengths, places.as_ptr(), places.len(),
            )
        }
    }

    pub fn stored_drop_calls(&mut self, c: &Case) -> u8 {
        let places = &c.stored.places;
        unsafe {
            aql_stored_drop_calls(
                self.seq.as_mut_ptr(), self.seq.len(), REVERSE, self.mm.as_mut_ptr(), self.mm.len(),
                self.ml.as_mut_ptr(), self.ml.len(), HAS_ML, &mut self.lengths, places.as_ptr(), places.len(),
            )
        }
    }

    pub fn stored_cut(&mut self, c: &Case) -> u8 {
        unsafe {
            aql_stored_cut(
                self.seq.as_mut_ptr(), self.seq.len(), REVERSE, self.mm.as_mut_ptr(), self.mm.len(),
                self.ml.as_mut_ptr(), self.ml.len(), HAS_ML, &mut self.lengths, c.cut as u32, c.cut as u32,
            )
        }
    }
}
