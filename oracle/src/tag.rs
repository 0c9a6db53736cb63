//! MM and ML as groups of entries, so that both can be changed together.

/// A skip as it is spelled, and the ML values of its call.
#[derive(Clone)]
pub struct Entry {
    pub skip: Vec<u8>,
    pub values: Vec<u8>,
}

#[derive(Clone)]
pub struct Group {
    pub header: Vec<u8>,
    pub entries: Vec<Entry>,
}

/// How many ML values an entry of the group takes.
fn values_per_entry(header: &[u8]) -> usize {
    let codes = header.get(2..).unwrap_or_default();
    let marks = codes.iter().rev().take_while(|byte| matches!(byte, b'.' | b'?')).count();
    let codes = &codes[..codes.len() - marks];
    if codes.iter().all(u8::is_ascii_digit) { 1 } else { codes.len() }
}

impl Group {
    /// Gives each entry as many values as the header says; for a tag with an ML.
    pub fn fit_values(&mut self) {
        let count = values_per_entry(&self.header);
        for entry in &mut self.entries {
            entry.values.resize(count, 0x80);
        }
    }

    /// How many bases of SEQ the group tracks.
    #[must_use]
    pub fn tracked(&self, seq: &[u8]) -> usize {
        match self.header.first().map(u8::to_ascii_uppercase) {
            Some(b'N') | None => seq.len(),
            Some(base) => seq.iter().filter(|&&byte| byte == base).count(),
        }
    }
}

/// The groups of a text; None unless it ends in ';' and its ML is as long as its entries say.
#[must_use]
pub fn groups(mm: &[u8], ml: Option<&[u8]>) -> Option<Vec<Group>> {
    let mut values = ml.unwrap_or_default();
    let mut found = Vec::new();
    for text in mm.strip_suffix(b";")?.split(|&byte| byte == b';') {
        let mut parts = text.split(|&byte| byte == b',');
        let header = parts.next()?.to_vec();
        let count = if ml.is_some() { values_per_entry(&header) } else { 0 };
        let mut entries = Vec::new();
        for skip in parts {
            let (own, rest) = values.split_at_checked(count)?;
            values = rest;
            entries.push(Entry { skip: skip.to_vec(), values: own.to_vec() });
        }
        found.push(Group { header, entries });
    }
    values.is_empty().then_some(found)
}

/// The text and the ML of groups.
#[must_use]
pub fn joined(groups: &[Group]) -> (Vec<u8>, Vec<u8>) {
    let (mut mm, mut ml) = (Vec::new(), Vec::new());
    for group in groups {
        mm.extend(&group.header);
        for entry in &group.entries {
            mm.push(b',');
            mm.extend(&entry.skip);
            ml.extend(&entry.values);
        }
        mm.push(b';');
    }
    (mm, ml)
}
