//! The written form of requests and answers: bytes in hex, lists, decimals.

/// The Rust's answer to a request.
pub enum Reply {
    Done(Vec<String>),
    /// The Rust's None.
    Refused,
    /// The Rust's None, with the number of its exit.
    RefusedWith(u32),
    /// A cut lost every tag: SEQ now is not a window of SEQ before.
    NoWindow,
    /// A cut left the tag unread.
    Same,
}

impl Reply {
    #[must_use]
    pub fn to_line(&self) -> String {
        match self {
            Self::Done(fields) => fields.iter().fold("0".to_string(), |line, field| line + "\t" + field),
            Self::Refused => "None".to_string(),
            Self::RefusedWith(number) => format!("None{number}"),
            Self::NoWindow => "None11".to_string(),
            Self::Same => "Same".to_string(),
        }
    }
}

#[must_use]
pub fn number(field: &str) -> Option<u64> {
    let plain = !field.is_empty() && field.bytes().all(|b| b.is_ascii_digit());
    if plain { field.parse().ok() } else { None }
}

#[must_use]
pub fn size(field: &str) -> Option<usize> {
    usize::try_from(number(field)?).ok()
}

#[must_use]
pub fn small(field: &str) -> Option<u32> {
    u32::try_from(number(field)?).ok()
}

#[must_use]
pub fn signed(field: &str) -> Option<i64> {
    let digits = field.strip_prefix('-').unwrap_or(field);
    let plain = !digits.is_empty() && digits.bytes().all(|b| b.is_ascii_digit());
    if plain { field.parse().ok() } else { None }
}

#[must_use]
pub fn yes_or_no(field: &str) -> Option<bool> {
    match field {
        "0" => Some(false),
        "1" => Some(true),
        _ => None,
    }
}

fn nibble(digit: u8) -> Option<u8> {
    match digit {
        b'0'..=b'9' => Some(digit - b'0'),
        b'a'..=b'f' => Some(digit - b'a' + 10),
        _ => None,
    }
}

/// Whether a field is lower-case hex, or `.` for none.
#[must_use]
pub fn is_bytes(field: &str) -> bool {
    let hex = |&digit: &u8| nibble(digit).is_some();
    field == "." || !field.is_empty() && field.len().is_multiple_of(2) && field.as_bytes().iter().all(hex)
}

/// Lower-case hex, `.` for none.
#[must_use]
pub fn bytes(field: &str) -> Option<Vec<u8>> {
    if field == "." {
        return Some(Vec::new());
    }
    if field.is_empty() || !field.len().is_multiple_of(2) {
        return None;
    }
    field.as_bytes().chunks(2).map(|pair| Some(nibble(pair[0])? << 4 | nibble(pair[1])?)).collect()
}

/// One byte as two hex digits.
#[must_use]
pub fn byte(field: &str) -> Option<u8> {
    if field.len() == 2 { bytes(field).map(|one| one[0]) } else { None }
}

/// What `read` gives, or `Some(None)` for `-`.
pub fn absent_or<T>(field: &str, read: impl Fn(&str) -> Option<T>) -> Option<Option<T>> {
    if field == "-" { Some(None) } else { read(field).map(Some) }
}

/// Items joined by commas, `*` for none.
pub fn list<T>(field: &str, read: impl Fn(&str) -> Option<T>) -> Option<Vec<T>> {
    if field == "*" { Some(Vec::new()) } else { field.split(',').map(read).collect() }
}

#[must_use]
pub fn show_bytes(bytes: &[u8]) -> String {
    if bytes.is_empty() {
        return ".".to_string();
    }
    let digit = |half: u8| char::from(b"0123456789abcdef"[usize::from(half)]);
    let mut hex = String::with_capacity(2 * bytes.len());
    for byte in bytes {
        hex.push(digit(byte >> 4));
        hex.push(digit(byte & 15));
    }
    hex
}

pub fn show_list<T>(items: &[T], show: impl Fn(&T) -> String) -> String {
    if items.is_empty() {
        return "*".to_string();
    }
    items.iter().map(show).collect::<Vec<_>>().join(",")
}

pub fn show_absent_or<T>(item: Option<&T>, show: impl Fn(&T) -> String) -> String {
    item.map_or_else(|| "-".to_string(), show)
}
