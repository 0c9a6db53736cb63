//! The Rust's side: the original's functions, each behind one call that is not inlined. The count includes making and freeing their results.

use crate::MethylationMode;
use crate::dna::reverse_complement;
use crate::inputs::Case;
use crate::methylation::{MethylationAnnotation, annotate_simplex_methylation, build_mm_ml_tags};
use crate::modifications::{drop_masked_modifications, drop_modifications_at, trim_clipped_modifications};

pub type Tag = Option<(String, Vec<u8>)>;

/// The original has no reader. This is its walk over a tag with nothing to change.
#[inline(never)]
pub fn read(c: &Case) -> Tag {
    drop_modifications_at(&c.mm, Some(&c.ml), &c.seq, &[])
}

#[inline(never)]
pub fn mask(c: &Case) -> Tag {
    drop_masked_modifications(&c.mm, Some(&c.ml), &c.seq, &c.masked)
}

#[inline(never)]
pub fn drop_calls(c: &Case) -> Tag {
    drop_modifications_at(&c.mm, Some(&c.ml), &c.seq, &c.places_as_sizes)
}

#[inline(never)]
pub fn cut(c: &Case) -> Tag {
    trim_clipped_modifications(&c.mm, Some(&c.ml), &c.seq, c.window(), Some(c.cut))
}

#[inline(never)]
pub fn build(c: &Case) -> Tag {
    build_mm_ml_tags(&c.seq, &c.annotation, MethylationMode::EmSeq)
}

#[inline(never)]
pub fn count(c: &Case, all_positions: bool) -> MethylationAnnotation {
    let r = &c.reads;
    annotate_simplex_methylation(
        c.bases,
        &r.by_read,
        &r.reference,
        c.annotation.pattern,
        &r.aligned_by_read,
        all_positions,
    )
}

/// `reverse_complement` of the unpacked bases of a stored read.
#[inline(never)]
pub fn turn(bases: &[u8]) -> Vec<u8> {
    reverse_complement(bases)
}

/// Unpacks a stored read. The original leaves this to a crate that is not at hand, so this is the usual loop: a table of letters, two to a
/// byte.
#[inline(never)]
pub fn unpack(packed: &[u8], bases: usize) -> Vec<u8> {
    const LETTERS: &[u8; 16] = b"=ACMGRSVTWYHKDBN";
    let mut letters = vec![0; packed.len() * 2];
    for (two, &pair) in letters.chunks_exact_mut(2).zip(packed) {
        two[0] = LETTERS[usize::from(pair >> 4)];
        two[1] = LETTERS[usize::from(pair & 15)];
    }
    letters.truncate(bases);
    letters
}

/// The bases of a stored reverse read in read orientation.
#[inline(never)]
pub fn unpack_and_turn(packed: &[u8], bases: usize) -> Vec<u8> {
    reverse_complement(&unpack(packed, bases))
}

#[inline(never)]
pub fn stored_mask(c: &Case) -> Tag {
    let (before, after) = (unpack_and_turn(&c.stored.seq, c.bases), unpack_and_turn(&c.stored.masked, c.bases));
    drop_masked_modifications(&c.mm, Some(&c.ml), &before, &after)
}

/// The places are mirrored as in `drop_modifications_at_raw`.
#[inline(never)]
pub fn stored_drop_calls(c: &Case) -> Tag {
    let seq = unpack_and_turn(&c.stored.seq, c.bases);
    let last = seq.len().saturating_sub(1);
    let drop: Vec<usize> = c.stored.places_as_sizes.iter().map(|&p| last.saturating_sub(p)).collect();
    drop_modifications_at(&c.mm, Some(&c.ml), &seq, &drop)
}

/// The start is mirrored as in `trim_clipped_modifications_raw`.
#[inline(never)]
pub fn stored_cut(c: &Case) -> Tag {
    let (before, after) = (unpack_and_turn(&c.stored.seq, c.bases), unpack_and_turn(&c.stored.window, c.window().len()));
    let start = before.len().checked_sub(c.cut)?.checked_sub(after.len())?;
    trim_clipped_modifications(&c.mm, Some(&c.ml), &before, &after, Some(start))
}
