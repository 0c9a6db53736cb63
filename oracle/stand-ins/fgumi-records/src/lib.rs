//! modifications.rs, fields.rs and dna.rs, unchanged, on real BAM records.
//!
//! What fields.rs has is its own: the fixed part, where the optional fields begin, and how long a value is. What the
//! originals take from files that are not available has stand-ins here, each of which says so: `memchr`, `SamTag`, the
//! unpacking of SEQ (sequence.rs), and the finder and the editor of optional fields (tags.rs). What a stand-in decides
//! counts as not compared with the Rust.

// The originals name these crates; all of them are this one.
extern crate self as fgumi_dna;
extern crate self as fgumi_raw_bam;
extern crate self as memchr;

mod sequence;
mod tags;

include!(concat!(env!("OUT_DIR"), "/originals.rs"));

pub use fields::{RawRecordView, aux_data_slice, l_seq, tag_value_size};
pub use tags::{
    ArrayTagRef, RawTagsEditor, find_array_tag, find_int_tag, find_string_tag, find_tag_type, first_field,
};

/// Stand-in for the crate `memchr`'s function: where the byte is first.
#[must_use]
pub fn memchr(wanted: u8, bytes: &[u8]) -> Option<usize> {
    bytes.iter().position(|&byte| byte == wanted)
}

/// Stand-in for `fgumi_tag::SamTag`: the name of an optional field.
#[derive(Clone, Copy, Debug, PartialEq, Eq)]
pub struct SamTag(pub [u8; 2]);

impl SamTag {
    pub const MM: Self = Self(*b"MM");
    pub const ML: Self = Self(*b"ML");
    pub const MN: Self = Self(*b"MN");
    pub const AM_BASES: Self = Self(*b"am");
    pub const BM_BASES: Self = Self(*b"bm");
}
