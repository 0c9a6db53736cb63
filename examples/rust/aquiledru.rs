//! The edit session of Aquiledru's C library for Rust. `Session` owns its rows. The C library requires of its caller that rows are as long as their
//! lengths say and that nothing overlaps; here the types guarantee both. Add the library's other calls in the same way, from include/aquiledru.h.

/// Why a call did nothing: the numbers of include/aquiledru.h. The last two are not refusals, but the call did nothing there either.
#[derive(Clone, Copy, Debug, PartialEq, Eq)]
pub enum Refusal {
    TooLong,
    LengthsDisagree,
    MmNotAscii,
    MmNotClosed,
    ShortHeader,
    BadSkip,
    SkipTooFar,
    MlTooShort,
    MlLeftOver,
    DropWithoutMark,
    NoWindow,
    NoRoom,
    BadNumber,
    NoCalls,
    Unchanged,
}

const NUMBERS: [(u8, Refusal); 15] = [
    (1, Refusal::TooLong),
    (2, Refusal::LengthsDisagree),
    (3, Refusal::MmNotAscii),
    (4, Refusal::MmNotClosed),
    (5, Refusal::ShortHeader),
    (6, Refusal::BadSkip),
    (7, Refusal::SkipTooFar),
    (8, Refusal::MlTooShort),
    (9, Refusal::MlLeftOver),
    (10, Refusal::DropWithoutMark),
    (11, Refusal::NoWindow),
    (12, Refusal::NoRoom),
    (13, Refusal::BadNumber),
    (20, Refusal::NoCalls),
    (21, Refusal::Unchanged),
];

impl Refusal {
    pub fn number(self) -> u8 {
        NUMBERS.iter().find(|known| known.1 == self).expect("every refusal has a number").0
    }
}

fn answer(number: u8) -> Result<(), Refusal> {
    match NUMBERS.iter().find(|known| known.0 == number) {
        Some(known) => Err(known.1),
        None => {
            assert_eq!(number, 0, "the library answers with no other number");
            Ok(())
        }
    }
}

#[link(name = "taglib", kind = "static")]
extern "C" {
    fn aql_check_tag(
        seq: *const u8,
        seq_len: usize,
        mm: *const u8,
        mm_len: usize,
        ml: *const u8,
        ml_len: usize,
        has_ml: u8,
        groups: &mut usize,
        calls: &mut usize,
    ) -> u8;

    fn aql_read_calls(
        seq: *const u8,
        seq_len: usize,
        mm: *const u8,
        mm_len: usize,
        ml: *const u8,
        ml_len: usize,
        has_ml: u8,
        call_groups: *mut u32,
        call_groups_room: usize,
        call_places: *mut u32,
        call_places_room: usize,
        call_starts: *mut u32,
        call_starts_room: usize,
        groups: &mut usize,
        calls: &mut usize,
    ) -> u8;

    fn aql_session_open(
        seq: *const u8,
        seq_room: usize,
        mm: *const u8,
        mm_room: usize,
        ml: *const u8,
        ml_room: usize,
        has_ml: u8,
        lengths: &[usize; 3],
        groups: &mut usize,
        calls: &mut usize,
    ) -> u8;

    fn aql_session_mask(
        seq: *mut u8,
        seq_room: usize,
        mm: *mut u8,
        mm_room: usize,
        ml: *mut u8,
        ml_room: usize,
        has_ml: u8,
        lengths: &mut [usize; 3],
        places: *const u32,
        places_len: usize,
    ) -> u8;

    fn aql_session_drop_calls(
        seq: *const u8,
        seq_room: usize,
        mm: *mut u8,
        mm_room: usize,
        ml: *mut u8,
        ml_room: usize,
        has_ml: u8,
        lengths: &mut [usize; 3],
        places: *const u32,
        places_len: usize,
    ) -> u8;

    fn aql_session_cut(
        seq: *mut u8,
        seq_room: usize,
        mm: *mut u8,
        mm_room: usize,
        ml: *mut u8,
        ml_room: usize,
        has_ml: u8,
        lengths: &mut [usize; 3],
        front: u32,
        back: u32,
    ) -> u8;
}

/// How many groups and calls a tag has.
#[derive(Clone, Copy, Debug, PartialEq, Eq)]
pub struct Counts {
    pub groups: usize,
    pub calls: usize,
}

/// A call: its group (from 1), its place in SEQ (from 0), and the start of its values in ML.
#[derive(Clone, Copy, Debug, PartialEq, Eq)]
pub struct Call {
    pub group: u32,
    pub place: u32,
    pub start: u32,
}

/// SEQ, MM and ML in three rows, and how much of each the session holds. A refused step changes nothing.
#[derive(Clone, Debug, PartialEq, Eq)]
pub struct Session {
    seq: Vec<u8>,
    mm: Vec<u8>,
    ml: Vec<u8>,
    has_ml: bool,
    lengths: [usize; 3],
}

/// A session's rows as a step takes them: the pointer and the length of each.
struct Rows {
    seq: (*mut u8, usize),
    mm: (*mut u8, usize),
    ml: (*mut u8, usize),
    has_ml: u8,
}

impl Session {
    /// Opens a session on a tag with or without ML.
    pub fn open(seq: Vec<u8>, mm: Vec<u8>, ml: Option<Vec<u8>>) -> Result<(Session, Counts), Refusal> {
        let has_ml = ml.is_some();
        let ml = ml.unwrap_or_default();
        let lengths = [seq.len(), mm.len(), ml.len()];
        let session = Session { seq, mm, ml, has_ml, lengths };
        let mut counts = Counts { groups: 0, calls: 0 };
        // SAFETY: each row is a Vec with its own length, which the call only reads; the two numbers are our own.
        let number = unsafe {
            aql_session_open(
                session.seq.as_ptr(),
                session.seq.len(),
                session.mm.as_ptr(),
                session.mm.len(),
                session.ml.as_ptr(),
                session.ml.len(),
                session.has_ml.into(),
                &session.lengths,
                &mut counts.groups,
                &mut counts.calls,
            )
        };
        answer(number).map(|()| (session, counts))
    }

    pub fn seq(&self) -> &[u8] {
        &self.seq[..self.lengths[0]]
    }

    pub fn mm(&self) -> &[u8] {
        &self.mm[..self.lengths[1]]
    }

    pub fn ml(&self) -> Option<&[u8]> {
        self.has_ml.then(|| &self.ml[..self.lengths[2]])
    }

    fn rows(&mut self) -> Rows {
        let row = |bytes: &mut Vec<u8>| (bytes.as_mut_ptr(), bytes.len());
        Rows { seq: row(&mut self.seq), mm: row(&mut self.mm), ml: row(&mut self.ml), has_ml: self.has_ml.into() }
    }

    /// Writes N to the places of SEQ. Except in a group on N, the calls on these bases are removed, and the bases count in no later skip.
    pub fn mask(&mut self, places: &[u32]) -> Result<(), Refusal> {
        let Rows { seq, mm, ml, has_ml } = self.rows();
        // SAFETY: the rows and the lengths are three Vecs and an array, all borrowed for writing with `self`, so none overlaps another or the places.
        answer(unsafe { aql_session_mask(seq.0, seq.1, mm.0, mm.1, ml.0, ml.1, has_ml, &mut self.lengths, places.as_ptr(), places.len()) })
    }

    /// Drops the calls at the places. SEQ is unchanged, so their bases still count in later skips.
    pub fn drop_calls(&mut self, places: &[u32]) -> Result<(), Refusal> {
        let Rows { seq, mm, ml, has_ml } = self.rows();
        // SAFETY: as in `mask`; SEQ is only read.
        answer(unsafe { aql_session_drop_calls(seq.0, seq.1, mm.0, mm.1, ml.0, ml.1, has_ml, &mut self.lengths, places.as_ptr(), places.len()) })
    }

    /// Cuts bases off the front and off the back.
    pub fn cut(&mut self, front: u32, back: u32) -> Result<(), Refusal> {
        let Rows { seq, mm, ml, has_ml } = self.rows();
        // SAFETY: as in `mask`.
        answer(unsafe { aql_session_cut(seq.0, seq.1, mm.0, mm.1, ml.0, ml.1, has_ml, &mut self.lengths, front, back) })
    }

    /// The calls of the tag, in order.
    pub fn calls(&self) -> Result<Vec<Call>, Refusal> {
        let (seq, mm, ml) = (self.seq(), self.mm(), self.ml().unwrap_or_default());
        let has_ml = self.has_ml.into();
        let (mut groups, mut calls) = (0, 0);
        // SAFETY: the slices are only read; the two numbers are our own.
        answer(unsafe {
            aql_check_tag(seq.as_ptr(), seq.len(), mm.as_ptr(), mm.len(), ml.as_ptr(), ml.len(), has_ml, &mut groups, &mut calls)
        })?;
        let (mut group, mut place, mut start) = (vec![0; calls], vec![0; calls], vec![0; calls]);
        // SAFETY: as above, and the columns are three Vecs with their own lengths.
        answer(unsafe {
            aql_read_calls(
                seq.as_ptr(),
                seq.len(),
                mm.as_ptr(),
                mm.len(),
                ml.as_ptr(),
                ml.len(),
                has_ml,
                group.as_mut_ptr(),
                group.len(),
                place.as_mut_ptr(),
                place.len(),
                start.as_mut_ptr(),
                start.len(),
                &mut groups,
                &mut calls,
            )
        })?;
        Ok((0..calls).map(|i| Call { group: group[i], place: place[i], start: start[i] }).collect())
    }
}
