//! Finds the scope's number (docs/SCOPE.md) of a refused tag by running the Rust on the tag's beginnings.
//!
//! The Rust gives None at every exit. So the text is built up again from the left, one header or one
//! entry at a time. The first of these beginnings that is refused shows where the Rust stopped. The order
//! of reasons at one and the same entry (6, 7, 8, 10) can't be found in this way; it is the scope's.

use crate::modifications::drop_modifications_at;

fn accepted(mm: &str, ml: Option<&[u8]>, seq: &[u8], dropped: &[usize]) -> bool {
    drop_modifications_at(mm, ml, seq, dropped).is_some()
}

/// 6 or 7 for an entry that the Rust refuses. With all its digits made 0, and one more base of the
/// group at the end of SEQ, the entry can't pass the last tracked base: if it is accepted now, it was 7.
fn skip_exit(before: &str, header: &str, skip: &str, seq: &[u8]) -> u32 {
    let zero: String = skip.chars().map(|c| if c.is_ascii_digit() { '0' } else { c }).collect();
    let mut longer = seq.to_vec();
    longer.push(header.as_bytes()[0].to_ascii_uppercase());
    if accepted(&format!("{before},{zero};"), None, &longer, &[]) { 7 } else { 6 }
}

/// The number of a refusal, if it can be found.
#[must_use]
pub fn number(mm: &str, ml: Option<&[u8]>, seq: &[u8], dropped: &[usize]) -> Option<u32> {
    if !mm.is_ascii() {
        return None;
    }
    let Some(groups) = mm.strip_suffix(';') else { return Some(4) };
    let (mut text, mut taken) = (String::new(), 0);
    for group in groups.split(';') {
        let mut fields = group.split(',');
        let header = fields.next()?;
        text.push_str(header);
        if !accepted(&format!("{text};"), None, seq, &[]) {
            return Some(5);
        }
        for skip in fields {
            let longer = format!("{text},{skip}");
            let closed = format!("{longer};");
            if !accepted(&closed, None, seq, &[]) {
                return Some(skip_exit(&text, header, skip, seq));
            }
            if let Some(ml) = ml {
                // The length of ML that this much text takes, if ML is that long.
                match (taken..=ml.len()).find(|&n| accepted(&closed, Some(&ml[..n]), seq, &[])) {
                    Some(n) => taken = n,
                    None => return Some(8),
                }
            }
            if !accepted(&closed, None, seq, dropped) {
                return Some(10);
            }
            text = longer;
        }
        text.push(';');
    }
    ml.map(|_| 9)
}
