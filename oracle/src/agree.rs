//! Whether an answer in the scope's numbers (docs/SCOPE.md) agrees with the Rust's answer to the same request.
//!
//! The differences that the scope names have names here. What the request itself shows is checked first, in
//! the scope's order: its form, 13, 1, 2, a session's 11, 3 and 4. All else is taken from the Rust's answer.
//!
//! A request on a stored read is judged, after its form, 1 and 2, as the plain request in read orientation (stored.rs).
//! A session on a stored read is judged whole, with the numbers of its steps. A request on a record has rules of its own (records.rs).

use crate::calls::{Effort, are_calls};
use crate::form::{Call, Kind, MOST_BASES, MOST_BYTES, Request, joined_length, list_length, row_length};
use crate::protocol::{bytes, list, number, signed, small};
use crate::records;
use crate::stored::{self, OwnDrop};

const FORM: &str = "? the line is no request, or passes the program's buffers";
const LONG: &str = "1 longer than the domain allows";
const COLUMNS: &str = "2 columns that disagree can't be put to the Rust";
const ALIGNED: &str = "2 aligned bytes of another total, which the Rust takes";
const BUFFERS: &str = "2 a session's length over its buffer can't be put to the Rust";
const PACKED: &str = "2 packed bytes that are not as many as the bases take can't be put to the Rust";
const PAST_END: &str = "a place past the end of a reverse read, which the Rust takes for its first base";
const HIGH_ACCEPTED: &str = "3 a byte above 127 in MM, which the Rust accepts";
const HIGH_REFUSED: &str = "3 a byte above 127 in MM, where the Rust gives None too";
const NOT_UTF8: &str = "MM is not UTF-8 and can't be put to the Rust";
const CUT_OVER: &str = "11 a session cut of more than SEQ can't be put to the Rust";
const KIND: &str = "13 unknown CIGAR kind can't be put to the Rust";
const START: &str = "13 start negative or too large, which the Rust takes";
const STRANDS: &str = "13 strands not 1 or 2, of which the Rust takes any number";
const ZERO_BASE: &str = "0 in the reference is missing here, a base in the Rust";
const LONG_CALLS: &str = "calls not derived one by one: dropping those of the list leaves none in the Rust";
const UNNUMBERED: &str = "4 to 10: the Rust gives None, and the number was not derived";
const NO_SPACE: &str = "12 no room: the Rust's answer passes the room";

const MOST_READS: usize = 4_096;
const MOST_READ_BASES: usize = 1_048_576;
const MOST_WORDS: usize = 65_535;
/// A shorter line can't be larger than the program's buffers.
const LONG_LINE: usize = 8_000;

#[derive(Clone, Copy, Debug, PartialEq, Eq)]
pub enum Verdict {
    Equal,
    /// A difference that the scope names.
    Named(&'static str),
    Disagreement,
}

fn equal_if(agrees: bool) -> Verdict {
    if agrees { Verdict::Equal } else { Verdict::Disagreement }
}

pub fn named_if(agrees: bool, name: &'static str) -> Verdict {
    if agrees { Verdict::Named(name) } else { Verdict::Disagreement }
}

/// Compares an answer with the Rust's answer line, which was found with that effort.
#[must_use]
pub fn verdict(line: &str, rust: &str, answer: &str, effort: Effort) -> Verdict {
    let asked = Request::of(line);
    let unlike_rust = asked.room.is_some() || line.len() > LONG_LINE;
    let no_request = || named_if(answer == "?" && (rust == "?" || unlike_rust), FORM);
    let Some(call) = Call::named(asked.name) else {
        return if answer == "?" { no_request() } else { equal_if(answer == rust) };
    };
    if !asked.is_of_form(call, line) {
        return no_request();
    }
    if call.name.starts_with("K2.") {
        return records::verdict(&asked, rust, answer);
    }
    let asked = Asked { request: &asked, call };
    asked
        .shown_by_request(rust, answer)
        .or_else(|| asked.shown_in_read_orientation(rust, answer, effort))
        .or_else(|| asked.shown_by_text(rust, answer))
        .unwrap_or_else(|| asked.shown_by_rust(rust, answer, effort))
}

/// A request that has the form of its call.
struct Asked<'a> {
    request: &'a Request<'a>,
    call: &'static Call,
}

impl<'a> Asked<'a> {
    fn field(&self, place: usize) -> &'a str {
        self.request.fields[place]
    }

    /// The fields of these kinds.
    fn of_kinds(&self, wanted: &[Kind]) -> impl Iterator<Item = &'a str> {
        self.call.kinds().zip(&self.request.fields).filter(|(kind, _)| wanted.contains(kind)).map(|(_, f)| *f)
    }

    fn is(&self, names: &[&str]) -> bool {
        names.contains(&self.call.name)
    }

    // ---- What the request shows: 13, 1, 2, and a session's 11 ---------------------------------

    fn shown_by_request(&self, rust: &str, answer: &str) -> Option<Verdict> {
        if let Some(name) = self.reason_for_13() {
            return Some(named_if(answer == "13" && (name != KIND || rust == "?"), name));
        }
        if self.is_long() {
            return Some(named_if(answer == "1", LONG));
        }
        if self.is_unequal() {
            return Some(if answer == "2" { self.unequal(rust) } else { Verdict::Disagreement });
        }
        self.cuts_too_much().then(|| named_if(answer == "11" && rust == "?", CUT_OVER))
    }

    fn reason_for_13(&self) -> Option<&'static str> {
        match self.call.name {
            "DUP" => (!matches!(self.request.fields.len(), 6 | 10)).then_some(STRANDS),
            "Q" if words(self.field(0)).any(|word| word % 16 > 8) => Some(KIND),
            "Q" => signed(self.field(1)).is_none_or(|n| !(0..1 << 31).contains(&n)).then_some(START),
            _ => None,
        }
    }

    /// The lengths of the rows that must be of one length.
    fn rows_in_parallel(&self) -> impl Iterator<Item = usize> {
        let rows = self.of_kinds(&[Kind::Bases, Kind::Informative]).map(row_length);
        rows.chain(self.of_kinds(&[Kind::Counts]).map(list_length))
    }

    fn is_long(&self) -> bool {
        match self.call.name {
            "Q" => {
                let query = words(self.field(0)).filter(|word| matches!(word % 16, 0 | 1 | 4 | 7 | 8));
                list_length(self.field(0)) > MOST_WORDS || query.map(|word| word >> 4).sum::<u64>() > 16_000
            }
            "ANN" => {
                number(self.field(0)).is_none_or(|n| n > 16_000)
                    || list_length(self.field(4)) > MOST_READS
                    || joined_length(self.field(4)) > MOST_READ_BASES
            }
            "STEP" => {
                let [seq, mm, ml] = self.lengths();
                seq > MOST_BASES || mm > MOST_BYTES || (self.field(2) != "-" && ml > MOST_BYTES)
            }
            _ => {
                let mut texts = self.of_kinds(&[Kind::Text, Kind::Values, Kind::GivenValues]);
                let mut counts = self.of_kinds(&[Kind::BaseCount]);
                counts.any(|count| number(count).is_none_or(|n| n > MOST_BASES as u64))
                    || self.rows_in_parallel().any(|length| length > MOST_BASES)
                    || self.of_kinds(&[Kind::Window]).any(|after| row_length(after) > MOST_BASES)
                    || texts.any(|text| row_length(text) > MOST_BYTES)
            }
        }
    }

    fn is_unequal(&self) -> bool {
        match self.call.name {
            "ANN" => joined_length(self.field(4)) != joined_length(self.field(5)),
            "STEP" => {
                let [seq, mm, ml] = self.lengths();
                let held = |place| row_length(self.field(place));
                seq > held(0) || mm > held(1) || (self.field(2) != "-" && ml > held(2))
            }
            "K1.PMASK" => self.bytes_disagree() || number(self.field(1)) != number(self.field(3)),
            name if name.starts_with("K1.") => self.bytes_disagree(),
            _ => {
                let mut lengths = self.rows_in_parallel();
                let first = lengths.next();
                lengths.any(|length| Some(length) != first)
            }
        }
    }

    /// Whether a packed SEQ has more or fewer bytes than its stated number of bases takes.
    fn bytes_disagree(&self) -> bool {
        let mut pairs = self.of_kinds(&[Kind::BaseCount]).zip(self.of_kinds(&[Kind::Packed]));
        pairs.any(|(count, packed)| number(count).map(|n| n.div_ceil(2)) != Some(row_length(packed) as u64))
    }

    /// For 2 the Rust gives None in a mask, an answer in ANN, or a panic at an assert, or it can't take the request.
    fn unequal(&self, rust: &str) -> Verdict {
        match self.call.name {
            name if name.starts_with("K1.") && self.bytes_disagree() => named_if(rust == "?", PACKED),
            "MASK" | "K1.PMASK" if rust == "?" => named_if(!self.is_utf8(), NOT_UTF8),
            "MASK" | "K1.PMASK" => equal_if(rust.starts_with("None")),
            "ANN" => named_if(rust.starts_with("0\t"), ALIGNED),
            "STEP" => named_if(rust == "?", BUFFERS),
            _ if rust == "?" => Verdict::Named(COLUMNS),
            _ => equal_if(rust == "PANIC" && self.is(&["BUILD", "BUILDMM", "REST", "DUP"])),
        }
    }

    /// A session's three lengths.
    fn lengths(&self) -> [usize; 3] {
        let read = |length: &str| number(length).map(|n| usize::try_from(n).unwrap_or(usize::MAX));
        list(self.field(3), read).and_then(|found| found.try_into().ok()).unwrap_or_default()
    }

    fn cuts_too_much(&self) -> bool {
        if self.call.name != "STEP" || self.field(4) != "CU" {
            return false;
        }
        let ends = list(self.field(5), number).unwrap_or_default();
        ends.iter().map(|&end| u128::from(end)).sum::<u128>() > self.lengths()[0] as u128
    }

    // ---- What the plain request in read orientation shows -------------------------------------

    /// The verdict on a stored read's request by that on the plain one. The Rust's own drop on a stored record must leave
    /// the same tag, except for the difference that has a name.
    fn shown_in_read_orientation(&self, rust: &str, answer: &str, effort: Effort) -> Option<Verdict> {
        let plain = stored::plain(self.request)?;
        let [rust, plain_answer] = [rust, answer].map(|line| stored::mirrored(self.request, line));
        let found = verdict(&plain, &rust, &plain_answer, effort);
        if found != Verdict::Equal {
            return Some(found);
        }
        Some(match stored::own_drop(self.request, answer) {
            OwnDrop::Same => found,
            OwnDrop::PastEnd => Verdict::Named(PAST_END),
            OwnDrop::Other => Verdict::Disagreement,
        })
    }

    // ---- What the text shows: 3 and 4 ---------------------------------------------------------

    /// MM in hex, for a session only as far as its length says; None if the call takes no MM.
    fn mm(&self) -> Option<&'a str> {
        let field = self.of_kinds(&[Kind::Text]).next()?;
        let field = if field == "." { "" } else { field };
        Some(if self.call.name == "STEP" { &field[..2 * self.lengths()[1]] } else { field })
    }

    fn is_utf8(&self) -> bool {
        self.mm().and_then(bytes).is_none_or(|mm| String::from_utf8(mm).is_ok())
    }

    fn shown_by_text(&self, rust: &str, answer: &str) -> Option<Verdict> {
        let mm = self.mm()?;
        if matches!(rust, "Same" | "None11") {
            return None;
        }
        if mm.bytes().step_by(2).any(|digit| digit > b'7') {
            return Some(if answer == "3" { self.not_ascii(rust) } else { Verdict::Disagreement });
        }
        if mm.ends_with("3b") {
            return None;
        }
        match rust {
            "None4" => Some(equal_if(answer == "4")),
            _ => Some(named_if(answer == "4" && rust == "None", UNNUMBERED)),
        }
    }

    fn not_ascii(&self, rust: &str) -> Verdict {
        match rust {
            "?" => named_if(!self.is_utf8(), NOT_UTF8),
            _ if rust.starts_with("0\t") => Verdict::Named(HIGH_ACCEPTED),
            _ => named_if(rust.starts_with("None"), HIGH_REFUSED),
        }
    }

    // ---- What the Rust shows ------------------------------------------------------------------

    fn shown_by_rust(&self, rust: &str, answer: &str, effort: Effort) -> Verdict {
        match rust {
            _ if rust.starts_with("0\t") => self.answered(rust, answer),
            "None" if self.is(&["BUILD", "BUILDMM"]) => equal_if(answer == "20"),
            "None" => {
                let long = self.mm().is_some_and(|mm| mm.len() / 2 > effort.longest_numbered);
                named_if(long && self.may_be_refused_with(answer), UNNUMBERED)
            }
            "Same" => equal_if(answer == "21"),
            _ => equal_if(rust.strip_prefix("None") == Some(answer)),
        }
    }

    /// Whether a text that ends in ';' can be refused with this number. 8 and 9 need an ML, 10 needs a drop.
    fn may_be_refused_with(&self, answer: &str) -> bool {
        match answer {
            "5" | "6" | "7" => true,
            "8" | "9" => self.of_kinds(&[Kind::Values, Kind::GivenValues]).all(|ml| ml != "-"),
            "10" => self.is(&["DROP"]) || self.is(&["STEP"]) && self.field(4) == "DR",
            _ => false,
        }
    }

    /// The answer must be the Rust's bytes if they fit the room, and 12 if they don't.
    fn answered(&self, rust: &str, answer: &str) -> Verdict {
        let lent = self.request.sizes().unwrap_or_default();
        let needed = needed(self.request, rust);
        if needed.iter().zip(lent).any(|(&need, lent)| need as u64 > lent) {
            return named_if(answer == "12", NO_SPACE);
        }
        match self.call.name {
            _ if answer == rust => Verdict::Equal,
            "FETCH" => named_if(answer == zero_bases_as_missing(rust), ZERO_BASE),
            "CALLS" => {
                // The driver did not derive the calls, so the Rust confirms the list.
                let listed = answer.strip_prefix(rust).and_then(|rest| rest.strip_prefix('\t'));
                named_if(listed.is_some_and(|calls| are_calls(&self.request.fields, calls)), LONG_CALLS)
            }
            _ => Verdict::Disagreement,
        }
    }
}

fn words(field: &str) -> impl Iterator<Item = u64> {
    field.split(',').filter_map(small).map(u64::from)
}

/// The Rust's fetched bases as the scope writes them.
fn zero_bases_as_missing(rust: &str) -> String {
    let found = rust.strip_prefix("0\t").unwrap_or_default();
    let shown: Vec<&str> = found.split(',').map(|base| if base == "00" { "-" } else { base }).collect();
    format!("0\t{}", shown.join(","))
}

/// How many commas a text has.
fn entries(mm: &str) -> usize {
    mm.as_bytes().chunks(2).filter(|pair| pair == b"2c").count()
}

/// The least room for the Rust's answer 0, in the order in which a request lends it. Without ML the room for
/// ML is 0.
#[must_use]
pub fn needed(request: &Request, rust: &str) -> [usize; 2] {
    let fields: Vec<&str> = rust.split('\t').skip(1).collect();
    match (request.name, &fields[..]) {
        // Each entry of an accepted text is a call.
        ("CALLS", _) => [entries(request.fields[0]), 0],
        ("K1.CALLS", _) => [entries(request.fields[3]), 0],
        ("Q" | "FETCH" | "CNT", [first, ..]) => [list_length(first), 0],
        ("BUILD" | "MASK" | "DROP" | "CUT" | "K1.PMASK" | "K1.PDROP" | "K1.PCUT", [mm, ml]) => {
            [row_length(mm), row_length(ml)]
        }
        ("DUP", [_, mm, ml, _, _, strands @ ..]) => {
            let texts = strands.iter().step_by(3).chain([mm]);
            [texts.map(|text| row_length(text)).max().unwrap_or(0), row_length(ml)]
        }
        (_, [first, ..]) => [row_length(first), 0],
        _ => [0, 0],
    }
}
