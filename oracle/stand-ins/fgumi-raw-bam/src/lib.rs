//! Stand-in for what methylation.rs and modifications.rs take from `fgumi-raw-bam`.
//!
//! A record here is not a BAM record. It has a private layout with one byte per base (BAM packs a
//! base into four bits), so that any SEQ byte reaches the functions under comparison:
//!
//! ```text
//! reverse (1 byte, 0 or 1) | number of bases (4 bytes, little endian) | the bases
//! then per optional field: name (2 bytes) | type (1) | length of the value (4) | the value
//! ```
//!
//! Types are `Z` for text, `C` for an array of bytes and `i` for a 32-bit number.

/// The SAM flag bits in use.
pub mod flags {
    /// SAM v1: the last segment in the template.
    pub const LAST_SEGMENT: u16 = 0x80;
}

const HEADER: usize = 5;
const FIELD_HEADER: usize = 7;

/// The name of an optional field.
#[derive(Clone, Copy, Debug, PartialEq, Eq)]
pub struct SamTag([u8; 2]);

impl SamTag {
    pub const MM: Self = Self(*b"MM");
    pub const ML: Self = Self(*b"ML");
    pub const MN: Self = Self(*b"MN");
    pub const AM_BASES: Self = Self(*b"am");
    pub const BM_BASES: Self = Self(*b"bm");
}

fn length_at(bytes: &[u8], at: usize) -> usize {
    let four: [u8; 4] = bytes[at..at + 4].try_into().expect("four bytes");
    u32::from_le_bytes(four) as usize
}

fn length_bytes(length: usize) -> [u8; 4] {
    u32::try_from(length).expect("a length below 2^32").to_le_bytes()
}

/// A record of these bases, without optional fields.
#[must_use]
pub fn new_record(bases: &[u8], reverse: bool) -> Vec<u8> {
    let mut record = vec![u8::from(reverse)];
    record.extend(length_bytes(bases.len()));
    record.extend_from_slice(bases);
    record
}

/// The record's fixed part.
pub struct RawRecordView<'a>(&'a [u8]);

impl<'a> RawRecordView<'a> {
    #[must_use]
    pub fn new(record: &'a [u8]) -> Self {
        Self(record)
    }

    #[must_use]
    pub fn is_reverse(&self) -> bool {
        self.0[0] != 0
    }

    #[must_use]
    pub fn l_seq(&self) -> u32 {
        u32::try_from(length_at(self.0, 1)).expect("stored in four bytes")
    }

    #[must_use]
    pub fn sequence_vec(&self) -> Vec<u8> {
        self.0[HEADER..HEADER + length_at(self.0, 1)].to_vec()
    }
}

/// The record's optional fields.
#[must_use]
pub fn aux_data_slice(record: &[u8]) -> &[u8] {
    &record[HEADER + length_at(record, 1)..]
}

/// The start and the end of the field of that name in `aux`.
fn find(aux: &[u8], tag: SamTag) -> Option<(usize, usize)> {
    let mut at = 0;
    while at < aux.len() {
        let end = at + FIELD_HEADER + length_at(aux, at + 3);
        if aux[at..at + 2] == tag.0 {
            return Some((at, end));
        }
        at = end;
    }
    None
}

#[must_use]
pub fn find_tag_type(aux: &[u8], tag: SamTag) -> Option<u8> {
    find(aux, tag).map(|(at, _)| aux[at + 2])
}

fn value(aux: &[u8], tag: SamTag, wanted: u8) -> Option<&[u8]> {
    let (at, end) = find(aux, tag)?;
    (aux[at + 2] == wanted).then(|| &aux[at + FIELD_HEADER..end])
}

#[must_use]
pub fn find_string_tag(aux: &[u8], tag: SamTag) -> Option<&[u8]> {
    value(aux, tag, b'Z')
}

/// An array field: its element type and its bytes.
pub struct ArrayTagRef<'a> {
    pub elem_type: u8,
    pub data: &'a [u8],
}

#[must_use]
pub fn find_array_tag(aux: &[u8], tag: SamTag) -> Option<ArrayTagRef<'_>> {
    value(aux, tag, b'C').map(|data| ArrayTagRef { elem_type: b'C', data })
}

#[must_use]
pub fn find_int_tag(aux: &[u8], tag: SamTag) -> Option<i64> {
    let four: [u8; 4] = value(aux, tag, b'i')?.try_into().ok()?;
    Some(i64::from(i32::from_le_bytes(four)))
}

/// Changes optional fields: an updated field is removed, if present, and appended.
pub struct RawTagsEditor<'a>(&'a mut Vec<u8>);

impl<'a> RawTagsEditor<'a> {
    #[must_use]
    pub fn from_vec(record: &'a mut Vec<u8>) -> Self {
        Self(record)
    }

    pub fn remove(&mut self, tag: SamTag) {
        let aux = aux_data_slice(self.0);
        let fixed = self.0.len() - aux.len();
        if let Some((at, end)) = find(aux, tag) {
            self.0.drain(fixed + at..fixed + end);
        }
    }

    pub fn update_string(&mut self, tag: SamTag, text: &[u8]) {
        self.put(tag, b'Z', text);
    }

    pub fn update_array_u8(&mut self, tag: SamTag, bytes: &[u8]) {
        self.put(tag, b'C', bytes);
    }

    pub fn update_int(&mut self, tag: SamTag, number: i32) {
        self.put(tag, b'i', &number.to_le_bytes());
    }

    fn put(&mut self, tag: SamTag, kind: u8, value: &[u8]) {
        self.remove(tag);
        self.0.extend(tag.0);
        self.0.push(kind);
        self.0.extend(length_bytes(value.len()));
        self.0.extend_from_slice(value);
    }
}
