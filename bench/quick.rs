//! modifications.rs, fields.rs and dna.rs, unchanged, once more over stand-ins. Those of the oracle (oracle/stand-ins/fgumi-records) are
//! written to be read, and make the Rust slow. Here they are quick: the search for a NUL is the C library's, SEQ is unpacked two letters to
//! a byte, and the editor of optional fields moves the record's end once and copies what is new. The finder is the oracle's.

extern crate self as fgumi_dna;
extern crate self as fgumi_raw_bam;
extern crate self as memchr;

#[allow(dead_code)]
#[path = "../oracle/stand-ins/fgumi-records/src/tags.rs"]
mod tags;

include!(concat!(env!("OUT_DIR"), "/originals.rs"));

pub use fields::{RawRecordView, aux_data_slice};
pub use tags::{find_array_tag, find_int_tag, find_string_tag, find_tag_type};

use tags::first_field;

mod c {
    use std::ffi::{c_int, c_void};
    unsafe extern "C" {
        pub fn memchr(bytes: *const c_void, wanted: c_int, length: usize) -> *const c_void;
    }
}

/// Stand-in for the crate `memchr`'s function, which also looks at many bytes at once.
#[must_use]
pub fn memchr(wanted: u8, bytes: &[u8]) -> Option<usize> {
    let found = unsafe { c::memchr(bytes.as_ptr().cast(), i32::from(wanted), bytes.len()) };
    (!found.is_null()).then(|| found as usize - bytes.as_ptr() as usize)
}

/// Stand-in for `fgumi_tag::SamTag`: the name of an optional field.
#[derive(Clone, Copy, PartialEq, Eq)]
pub struct SamTag(pub [u8; 2]);

impl SamTag {
    pub const MM: Self = Self(*b"MM");
    pub const ML: Self = Self(*b"ML");
    pub const MN: Self = Self(*b"MN");
    pub const AM_BASES: Self = Self(*b"am");
    pub const BM_BASES: Self = Self(*b"bm");
}

impl RawRecordView<'_> {
    /// Stand-in for the unpacking of SEQ: the usual loop, as in original.rs.
    #[must_use]
    pub fn sequence_vec(&self) -> Vec<u8> {
        const LETTERS: &[u8; 16] = b"=ACMGRSVTWYHKDBN";
        let bases = self.l_seq() as usize;
        let packed = &self.as_bytes()[fields::seq_offset(self.as_bytes())..][..bases.div_ceil(2)];
        let mut letters = vec![0; packed.len() * 2];
        for (two, &pair) in letters.chunks_exact_mut(2).zip(packed) {
            two[0] = LETTERS[usize::from(pair >> 4)];
            two[1] = LETTERS[usize::from(pair & 15)];
        }
        letters.truncate(bases);
        letters
    }
}

/// Stand-in for the editor of optional fields: the oracle's, with `replace` as a move and some copies.
pub struct RawTagsEditor<'a>(&'a mut Vec<u8>);

impl<'a> RawTagsEditor<'a> {
    #[must_use]
    pub fn from_vec(record: &'a mut Vec<u8>) -> Self {
        Self(record)
    }

    pub fn remove(&mut self, tag: SamTag) {
        self.replace(tag, &[]);
    }

    pub fn update_string(&mut self, tag: SamTag, text: &[u8]) {
        self.replace(tag, &[&tag.0, b"Z", text, b"\0"]);
    }

    pub fn update_array_u8(&mut self, tag: SamTag, bytes: &[u8]) {
        let count = u32::try_from(bytes.len()).expect("an array of a record").to_le_bytes();
        self.replace(tag, &[&tag.0, b"BC", &count, bytes]);
    }

    pub fn update_int(&mut self, tag: SamTag, number: i32) {
        self.replace(tag, &[&tag.0, b"i", &number.to_le_bytes()]);
    }

    /// Puts the parts in place of the first field of that name, if there is one.
    fn replace(&mut self, tag: SamTag, parts: &[&[u8]]) {
        let aux = aux_data_slice(self.0);
        let Some(old) = first_field(aux, tag) else { return };
        let fixed = self.0.len() - aux.len();
        let (mut at, end, behind) = (fixed + old.start, fixed + old.end, aux.len() - old.end);
        let length: usize = parts.iter().map(|part| part.len()).sum();
        self.0.resize(self.0.len() + length.saturating_sub(old.len()), 0);
        self.0.copy_within(end..end + behind, at + length);
        self.0.truncate(at + length + behind);
        for part in parts {
            self.0[at..at + part.len()].copy_from_slice(part);
            at += part.len();
        }
    }
}
