//! The form of requests: what each field of a call holds, and how much of it the program's buffers take.

use crate::protocol::{absent_or, byte, is_bytes, list, number, signed, small, yes_or_no};
use Kind::{
    Aligned, BaseCount, Bases, Before, Counts, CutStart, Flags, GivenValues, Informative, Length, Lengths,
    Mode, Packed, Pattern, Place, Places, Reads, Record, RecordRoom, Reference, ReferenceRow, SessionStep,
    SignedPlaces, Start, Step, Text, Values, Way, Window, Words, YesNo,
};

/// What a field holds. `Bases`, `Informative` and `Counts` of one request are parallel rows.
#[derive(Clone, Copy, Debug, PartialEq, Eq)]
pub enum Kind {
    /// MM.
    Text,
    /// ML, `-` for none.
    Values,
    /// An ML that must not be missing.
    GivenValues,
    Bases,
    /// SEQ after a cut.
    Window,
    Informative,
    Counts,
    /// CIGAR words.
    Words,
    Places,
    /// Places of a reference, `-` for a missing place.
    SignedPlaces,
    Place,
    Start,
    /// A number, `-` if it is unknown.
    CutStart,
    Length,
    /// A session's three lengths.
    Lengths,
    Flags,
    Reference,
    ReferenceRow,
    Reads,
    Aligned,
    YesNo,
    Pattern,
    Mode,
    Step,
    /// The stated number of bases of the packed SEQ that follows.
    BaseCount,
    Packed,
    /// The way of a drop.
    Way,
    /// A step with its numbers, such as `MK:0,1`.
    SessionStep,
    /// A BAM record.
    Record,
    /// The bytes of the row for the new record.
    RecordRoom,
    /// The letters of a record's SEQ before it was changed.
    Before,
}

/// A call, the kinds of its fields, and how many numbers of room it may be lent.
pub struct Call {
    pub name: &'static str,
    fields: &'static [Kind],
    pub room: usize,
    /// Fields that may come again and again after the others.
    again: &'static [Kind],
    most_times: usize,
}

const fn call(name: &'static str, fields: &'static [Kind], room: usize) -> Call {
    Call { name, fields, room, again: &[], most_times: 0 }
}

const STRAND: &[Kind] = &[Pattern, Informative, Counts, Counts];

pub const CALLS: [Call; 28] = [
    call("Q", &[Words, Start, YesNo], 1),
    call("CPG", &[Reference, Place, YesNo], 0),
    call("PAT", &[Flags], 0),
    call("FETCH", &[SignedPlaces, Reference], 1),
    call("ANN", &[Length, Pattern, YesNo, ReferenceRow, Reads, Aligned], 1),
    call("GATE", STRAND, 0),
    call("TRUNC", &[Length, Pattern, Informative, Counts, Counts], 1),
    call("CNT", STRAND, 1),
    call("REST", &[Pattern, Bases, Informative], 0),
    call("BUILD", &[Pattern, Mode, Bases, Informative, Counts, Counts], 2),
    call("BUILDMM", &[Pattern, Mode, Bases, Informative, Counts, Counts], 1),
    Call { name: "DUP", fields: &[Mode, Bases], room: 2, again: STRAND, most_times: 3 },
    call("CALLS", &[Text, Values, Bases], 1),
    call("TALLY", &[Text, GivenValues, Bases], 0),
    call("MASK", &[Text, Values, Bases, Bases], 2),
    call("DROP", &[Text, Values, Bases, Places], 2),
    call("CUT", &[Text, Values, Bases, Window, CutStart], 2),
    call("STEP", &[Bases, Text, Values, Lengths, Step, Places], 0),
    call("K1.TURN", &[BaseCount, Packed], 1),
    call("K1.UNPACK", &[YesNo, BaseCount, Packed], 1),
    call("K1.CALLS", &[YesNo, BaseCount, Packed, Text, Values], 1),
    call("K1.PMASK", &[YesNo, BaseCount, Packed, BaseCount, Packed, Text, Values], 2),
    call("K1.PDROP", &[YesNo, BaseCount, Packed, Places, Text, Values, Way], 2),
    call("K1.PCUT", &[YesNo, BaseCount, Packed, BaseCount, Packed, CutStart, Text, Values], 2),
    Call {
        name: "K1.PSES",
        fields: &[YesNo, BaseCount, Packed, Text, Values, Way],
        room: 0,
        again: &[SessionStep],
        most_times: usize::MAX,
    },
    call("K2.RMASK", &[Record, RecordRoom, Before], 0),
    call("K2.RDROP", &[Record, RecordRoom, Places], 0),
    call("K2.RCUT", &[Record, RecordRoom, Before, YesNo, CutStart], 0),
];

impl Call {
    /// The call of that name, if the table has it.
    #[must_use]
    pub fn named(name: &str) -> Option<&'static Self> {
        CALLS.iter().find(|call| call.name == name)
    }

    /// The kinds of the fields, as many as a request may have.
    pub fn kinds(&self) -> impl Iterator<Item = Kind> {
        self.fields.iter().chain(self.again.iter().cycle()).copied()
    }

    fn takes(&self, count: usize) -> bool {
        let over = count.checked_sub(self.fields.len());
        over.is_some_and(|over| {
            over == 0
                || !self.again.is_empty()
                    && over.is_multiple_of(self.again.len())
                    && over / self.again.len() <= self.most_times
        })
    }
}

// ---- Buffers ---------------------------------------------------------------------------------

pub const MOST_BASES: usize = 16_000;
pub const MOST_BYTES: usize = 65_536;
// Each takes one more than the domain allows.
const BASES: usize = MOST_BASES + 1;
const BYTES: usize = MOST_BYTES + 1;
const READS: usize = 4_097;
const WORDS: usize = 65_536;
/// More than a record takes in which SEQ, MM, ML, am and bm are each one over the domain's bound.
const RECORD: usize = 450_000;
const LONGEST_LINE: usize = 1_048_575;

/// How many bytes a row of the form has.
#[must_use]
pub fn row_length(field: &str) -> usize {
    if matches!(field, "." | "-") { 0 } else { field.len() / 2 }
}

/// How many items a list of the form has.
#[must_use]
pub fn list_length(field: &str) -> usize {
    if field == "*" { 0 } else { 1 + field.bytes().filter(|&byte| byte == b',').count() }
}

fn is_row(field: &str, most: usize) -> bool {
    is_bytes(field) && row_length(field) <= most
}

fn is_list<T>(field: &str, most: usize, read: impl Fn(&str) -> Option<T>) -> bool {
    list_length(field) <= most && (field == "*" || field.split(',').all(|item| read(item).is_some()))
}

/// Rows that fit the buffer one by one and joined.
fn are_rows(field: &str, most: usize) -> bool {
    is_list(field, most, |row| is_row(row, BYTES).then_some(())) && joined_length(field) <= BYTES
}

/// How many bytes a list of rows has.
#[must_use]
pub fn joined_length(field: &str) -> usize {
    if field == "*" { 0 } else { field.split(',').map(row_length).sum() }
}

fn holds(kind: Kind, field: &str) -> bool {
    match kind {
        Text | GivenValues | Reference | Packed => is_row(field, BYTES),
        Values => field == "-" || is_row(field, BYTES),
        Bases | Before | Window | Informative => is_row(field, BASES),
        Record => is_row(field, RECORD),
        Counts => is_list(field, BASES, small),
        Words => is_list(field, WORDS, small),
        Places => is_list(field, BYTES, number),
        SignedPlaces => is_list(field, BYTES, |place| absent_or(place, signed)),
        ReferenceRow => is_list(field, BYTES, |base| absent_or(base, byte)),
        Reads => are_rows(field, READS),
        Aligned => are_rows(field, BYTES),
        Lengths => list_length(field) == 3 && list(field, number).is_some_and(|found| found.len() == 3),
        Place | Length | BaseCount | RecordRoom => number(field).is_some(),
        CutStart => absent_or(field, number).is_some(),
        Start => signed(field).is_some(),
        Flags => number(field).is_some_and(|flags| flags <= 65_535),
        YesNo => yes_or_no(field).is_some(),
        Pattern => matches!(field, "C" | "G"),
        Mode => matches!(field, "E" | "T" | "D"),
        Step => matches!(field, "MK" | "DR" | "CU"),
        Way => field == "old",
        SessionStep => session_step(field).is_some_and(|(_, given)| given.len() <= BYTES),
    }
}

/// The kind and the numbers of a session's step; None if it is not of its form.
#[must_use]
pub fn session_step(field: &str) -> Option<(&str, Vec<u64>)> {
    let (kind, given) = field.split_once(':')?;
    let given = list(given, number)?;
    (matches!(kind, "MK" | "DR") || kind == "CU" && given.len() == 2).then_some((kind, given))
}

// ---- Requests --------------------------------------------------------------------------------

/// A line taken apart: its call's name, its fields, and the room if it lends any.
pub struct Request<'a> {
    pub name: &'a str,
    pub fields: Vec<&'a str>,
    pub room: Option<&'a str>,
}

impl<'a> Request<'a> {
    #[must_use]
    pub fn of(line: &'a str) -> Self {
        let mut parts = line.split('\t');
        let name = parts.next().unwrap_or_default();
        let mut fields: Vec<&str> = parts.collect();
        let room = fields.last().and_then(|last| last.strip_prefix('@'));
        if room.is_some() {
            fields.pop();
        }
        Self { name, fields, room }
    }

    /// The numbers of the room, if it is of its form.
    #[must_use]
    pub fn sizes(&self) -> Option<Vec<u64>> {
        list(self.room?, number)
    }

    /// Whether the program must accept this as a request of the call.
    #[must_use]
    pub fn is_of_form(&self, call: &Call, line: &str) -> bool {
        line.len() <= LONGEST_LINE
            && self.room.is_none_or(|_| call.room > 0 && self.sizes().is_some_and(|n| n.len() == call.room))
            && call.takes(self.fields.len())
            && call.kinds().zip(&self.fields).all(|(kind, field)| holds(kind, field))
            && (self.fields.get(4) != Some(&"CU") || call.name != "STEP" || list_length(self.fields[5]) == 2)
    }
}
