//! Stand-ins for the finder and the editor of optional fields in `fgumi-raw-bam`'s tags.rs.
//!
//! A field is two bytes of name, one of type, and a value as long as fields.rs's own `tag_value_size` says. The first
//! field of a name is the one that is found, removed or changed. A changed field stays where it is. An integer is
//! written as type `i`.

use crate::SamTag;
use crate::fields::{aux_data_slice, tag_value_size};
use std::ops::Range;

const NAME_AND_TYPE: usize = 3;

/// Where the first field of that name is in `aux`; None also if the fields before it do not parse.
#[must_use]
pub fn first_field(aux: &[u8], tag: SamTag) -> Option<Range<usize>> {
    let mut at = 0;
    loop {
        let value = aux.get(at + NAME_AND_TYPE..)?;
        let end = at + NAME_AND_TYPE + tag_value_size(aux[at + 2], value)?;
        if end > aux.len() {
            return None;
        }
        if aux[at..at + 2] == tag.0 {
            return Some(at..end);
        }
        at = end;
    }
}

/// The type and the value of the first field of that name.
fn found(aux: &[u8], tag: SamTag) -> Option<(u8, &[u8])> {
    let field = first_field(aux, tag)?;
    Some((aux[field.start + 2], &aux[field.start + NAME_AND_TYPE..field.end]))
}

#[must_use]
pub fn find_tag_type(aux: &[u8], tag: SamTag) -> Option<u8> {
    found(aux, tag).map(|(kind, _)| kind)
}

/// The text of a field of type Z, without its NUL.
#[must_use]
pub fn find_string_tag(aux: &[u8], tag: SamTag) -> Option<&[u8]> {
    let (kind, value) = found(aux, tag)?;
    (kind == b'Z').then(|| &value[..value.len() - 1])
}

/// An array field: its element type and its bytes.
pub struct ArrayTagRef<'a> {
    pub elem_type: u8,
    pub data: &'a [u8],
}

#[must_use]
pub fn find_array_tag(aux: &[u8], tag: SamTag) -> Option<ArrayTagRef<'_>> {
    let (kind, value) = found(aux, tag)?;
    (kind == b'B').then(|| ArrayTagRef { elem_type: value[0], data: &value[5..] })
}

/// The number of a field of type c, C, s, S, i or I.
#[must_use]
pub fn find_int_tag(aux: &[u8], tag: SamTag) -> Option<i64> {
    let (kind, value) = found(aux, tag)?;
    match (kind, value) {
        (b'c', &[a]) => Some(i64::from(i8::from_le_bytes([a]))),
        (b'C', &[a]) => Some(i64::from(a)),
        (b's', &[a, b]) => Some(i64::from(i16::from_le_bytes([a, b]))),
        (b'S', &[a, b]) => Some(i64::from(u16::from_le_bytes([a, b]))),
        (b'i', &[a, b, c, d]) => Some(i64::from(i32::from_le_bytes([a, b, c, d]))),
        (b'I', &[a, b, c, d]) => Some(i64::from(u32::from_le_bytes([a, b, c, d]))),
        _ => None,
    }
}

/// Changes optional fields of a record.
pub struct RawTagsEditor<'a>(&'a mut Vec<u8>);

impl<'a> RawTagsEditor<'a> {
    #[must_use]
    pub fn from_vec(record: &'a mut Vec<u8>) -> Self {
        Self(record)
    }

    /// Removes the first field of that name, if there is one.
    pub fn remove(&mut self, tag: SamTag) {
        self.replace(tag, &[]);
    }

    pub fn update_string(&mut self, tag: SamTag, text: &[u8]) {
        self.replace(tag, &[&tag.0[..], b"Z", text, b"\0"].concat());
    }

    pub fn update_array_u8(&mut self, tag: SamTag, bytes: &[u8]) {
        let count = u32::try_from(bytes.len()).expect("an array of a record").to_le_bytes();
        self.replace(tag, &[&tag.0[..], b"BC", &count[..], bytes].concat());
    }

    /// Writes a number as type `i`. No file at hand says how the Rust writes it: docs/DIFFERENCES.md.
    pub fn update_int(&mut self, tag: SamTag, number: i32) {
        self.replace(tag, &[&tag.0[..], b"i", &number.to_le_bytes()[..]].concat());
    }

    /// Puts bytes in place of the first field of that name, if there is one.
    fn replace(&mut self, tag: SamTag, field: &[u8]) {
        let aux = aux_data_slice(self.0);
        let fixed = self.0.len() - aux.len();
        if let Some(old) = first_field(aux, tag) {
            self.0.splice(fixed + old.start..fixed + old.end, field.iter().copied());
        }
    }
}
