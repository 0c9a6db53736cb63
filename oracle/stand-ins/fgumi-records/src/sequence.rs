//! Stand-in for the unpacking of SEQ in `fgumi-raw-bam`'s sequence.rs.

use crate::fields::{RawRecordView, seq_offset};

/// SAM v1, 4.2: the letter of each four-bit code.
const LETTERS: &[u8; 16] = b"=ACMGRSVTWYHKDBN";

impl RawRecordView<'_> {
    /// The letters of SEQ as they are stored: two in a byte, the first in the upper half.
    #[must_use]
    pub fn sequence_vec(&self) -> Vec<u8> {
        let packed = &self.as_bytes()[seq_offset(self.as_bytes())..];
        let half = |place: usize| packed[place / 2] >> (4 * ((place + 1) % 2)) & 15;
        (0..self.l_seq() as usize).map(|place| LETTERS[usize::from(half(place))]).collect()
    }
}
