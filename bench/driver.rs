//! All sides of the benchmark in one program: makes the inputs, runs each side on them, compares their answers, and prints for each side
//! its bucket, row and time. The plugin count.c counts the instructions of each bucket.
//!
//! The argument is the number of rounds.

mod inputs;
mod original;
mod rattle;
mod records;
#[path = "../oracle/src/stand_ins.rs"]
mod stand_ins;

// The originals use `crate::MethylationMode` and `crate::vanilla_caller`, and the path `fgumi_dna::dna` for the module that is `dna` here.
extern crate self as fgumi_dna;
pub use stand_ins::{MethylationMode, vanilla_caller};
include!(env!("BENCH_ORIGINALS"));

use fgumi_records::modifications::has_modification_tags;
use inputs::{Case, Columns, Density, turned_and_packed};
use rattle::stored::{self, SeqRow};
use rattle::{Session, TagRows};
use records::{GROWTH, QUICK, RUST, RecordRow, Records, Rust};
use std::cell::RefCell;
use std::ffi::{CString, c_char, c_long, c_void};
use std::hint::black_box;
use std::time::Instant;

const CHOOSE_BUCKET: c_long = 8888;

unsafe extern "C" {
    fn syscall(number: c_long, ...) -> c_long;
    fn hts_side_open(seq: *const u8, bases: usize, mm: *const c_char, ml: *const u8, values: usize) -> *mut c_void;
    fn hts_side_read(side: *mut c_void, places: *mut u32, values: *mut u8) -> c_long;
}

#[inline(never)]
fn count_in(bucket: c_long) {
    unsafe { syscall(CHOOSE_BUCKET, bucket) };
}

/// How many calls a round has, each with its own session: enough for the clock, and few enough for the processor's caches.
fn calls_a_round(c: &Case) -> usize {
    (64_000 / c.bases).min(64)
}

/// Measures the sides, each in its own bucket.
struct Meter {
    bucket: c_long,
    rounds: usize,
}

impl Meter {
    /// Runs a side for some rounds, after one round that is not counted. `restore` runs before each round and is not counted either. Prints the
    /// side's bucket, row and number of calls, and the nanoseconds of a call in its fastest round.
    fn side(&mut self, c: &Case, row: &str, who: &str, mut restore: impl FnMut(), mut call: impl FnMut(usize)) {
        self.bucket += 1;
        let calls = calls_a_round(c);
        let mut best = f64::MAX;
        restore();
        (0..calls).for_each(&mut call);
        for _ in 0..self.rounds {
            restore();
            let begun = Instant::now();
            count_in(self.bucket);
            (0..calls).for_each(&mut call);
            count_in(0);
            best = best.min(begun.elapsed().as_nanos() as f64 / calls as f64);
        }
        println!("{} {row} {} {} {who} {} {best:.1}", self.bucket, c.bases, c.density.name(), calls * self.rounds);
    }
}

fn reading(meter: &mut Meter, c: &Case) {
    meter.side(c, "read", "rust", || {}, |_| drop(black_box(original::read(black_box(c)))));
    assert_eq!(original::read(c), Some((c.mm.clone(), c.ml.clone())));

    let mut rows = rattle::CallRows::new(c);
    meter.side(c, "read", "rattle", || {}, |_| assert_eq!(rows.read(black_box(c)), 0));

    let text = CString::new(c.mm.as_str()).expect("no 0 in a tag");
    let side = unsafe { hts_side_open(c.seq.as_ptr(), c.bases, text.as_ptr(), c.ml.as_ptr(), c.ml.len()) };
    assert!(!side.is_null());
    let (mut places, mut values) = (vec![0; c.bases], vec![0; c.bases]);
    let mut read = || unsafe { hts_side_read(black_box(side), places.as_mut_ptr(), values.as_mut_ptr()) };
    meter.side(c, "read", "htslib", || {}, |_| {
        black_box(read());
    });
    let calls = usize::try_from(read()).expect("htslib reads the tag");
    let found: Vec<(u32, u8)> = (0..calls).map(|i| (places[i], values[i])).collect();
    assert_eq!(found, rows.calls(c), "calls of htslib and of Rattle");

    meter.side(c, "check", "rattle", || {}, |_| assert_eq!(rattle::check(black_box(c)).0, 0));
    assert_eq!(rattle::check(c), (0, 1, calls));
    meter.side(c, "tally", "rattle", || {}, |_| assert_eq!(rattle::tally(black_box(c)).0, 0));
    let above = c.ml.iter().filter(|&&value| value >= 128).count();
    assert_eq!(rattle::tally(c), (0, above, c.ml.len() - above));
}

/// Turning and unpacking, at any length.
fn turning(meter: &mut Meter, c: &Case) {
    let turned = original::turn(&c.seq);
    meter.side(c, "turn", "rust", || {}, |_| drop(black_box(original::turn(black_box(&turned)))));
    let mut row = SeqRow::new(c.stored.seq.len());
    meter.side(c, "turn", "rattle", || {}, |_| assert_eq!(row.turn(black_box(c)), 0));
    assert_eq!(row.seq(), turned_and_packed(&turned), "{} bases, turned", c.bases);

    meter.side(c, "unpack", "rust", || {}, |_| drop(black_box(original::unpack_and_turn(black_box(&c.stored.seq), c.bases))));
    let mut row = SeqRow::new(c.bases);
    meter.side(c, "unpack", "rattle", || {}, |_| assert_eq!(row.unpack(black_box(c)), 0));
    assert_eq!(row.seq(), original::unpack_and_turn(&c.stored.seq, c.bases));
    assert_eq!(row.seq(), c.seq, "{} bases, unpacked", c.bases);

    meter.side(c, "unpack-forward", "rust", || {}, |_| drop(black_box(original::unpack(black_box(&c.stored.seq), c.bases))));
    meter.side(c, "unpack-forward", "rattle", || {}, |_| assert_eq!(row.unpack_forward(black_box(c)), 0));
    assert_eq!(row.seq(), original::unpack(&c.stored.seq, c.bases));
    assert_eq!(row.seq(), turned, "{} bases, unpacked as they are stored", c.bases);
}

/// Reads the stored read. The answers are those of the plain calls, with each place mirrored.
fn reading_stored(meter: &mut Meter, c: &Case) {
    let (mut rows, mut plain) = (rattle::CallRows::new(c), rattle::CallRows::new(c));
    meter.side(c, "stored-read", "rattle", || {}, |_| assert_eq!(rows.stored_read(black_box(c)), 0));
    assert_eq!(plain.read(c), 0);
    let mirrored: Vec<(u32, u8)> = plain.calls(c).iter().map(|&(place, value)| (c.bases as u32 - 1 - place, value)).collect();
    assert_eq!(rows.calls(c), mirrored, "calls of a stored read of {} bases", c.bases);

    meter.side(c, "stored-check", "rattle", || {}, |_| assert_eq!(stored::check(black_box(c)).0, 0));
    assert_eq!(stored::check(c), rattle::check(c));
    meter.side(c, "stored-tally", "rattle", || {}, |_| assert_eq!(stored::tally(black_box(c)).0, 0));
    assert_eq!(stored::tally(c), rattle::tally(c));
}

/// One kind of edit: the Rust's, Rattle's from row to row, and Rattle's session step.
struct Sides(fn(&Case) -> original::Tag, fn(&mut TagRows, &Case) -> u8, fn(&mut Session, &Case) -> u8);

/// SEQ in a session's row before and after the step, and how many bases are left.
struct Seq<'a>(&'a [u8], &'a [u8], usize);

fn edit(meter: &mut Meter, c: &Case, row: &str, Sides(rust, rewrite, step): Sides, Seq(seq, left, bases): Seq) {
    meter.side(c, row, "rust", || {}, |_| drop(black_box(rust(black_box(c)))));
    let expected = rust(c).expect("the Rust edits the tag");

    let mut rows = TagRows::new(c);
    meter.side(c, row, "rattle", || {}, |_| assert_eq!(rewrite(&mut rows, black_box(c)), 0));
    assert_eq!(rows.tag(), expected, "{row} of {} bases", c.bases);

    let all = RefCell::new(Vec::from_iter((0..calls_a_round(c)).map(|_| Session::new(c, seq))));
    let restore = || all.borrow_mut().iter_mut().for_each(|session| session.restore(c, seq));
    meter.side(c, row, "session", restore, |i| assert_eq!(step(&mut all.borrow_mut()[i], black_box(c)), 0));
    for session in all.borrow().iter() {
        let found = (session.bases(), session.front(left.len()), session.tag());
        assert_eq!(found, (bases, left, expected.clone()), "a session's {row} of {} bases", c.bases);
    }
}

fn editing(meter: &mut Meter, c: &Case) {
    let (n, cut) = (c.bases, c.window().len());
    edit(meter, c, "mask", Sides(original::mask, TagRows::mask, Session::mask), Seq(&c.seq, &c.masked, n));
    edit(meter, c, "drop", Sides(original::drop_calls, TagRows::drop_calls, Session::drop_calls), Seq(&c.seq, &c.seq, n));
    edit(meter, c, "cut", Sides(original::cut, TagRows::cut, Session::cut), Seq(&c.seq, c.window(), cut));
}

/// Edits the stored read. The tags are those of the plain edits.
fn editing_stored(meter: &mut Meter, c: &Case) {
    let (n, cut, s) = (c.bases, c.window().len(), &c.stored);
    let mask = Sides(original::stored_mask, TagRows::stored_mask, Session::stored_mask);
    let drop_calls = Sides(original::stored_drop_calls, TagRows::stored_drop_calls, Session::stored_drop_calls);
    assert_eq!(original::stored_mask(c), original::mask(c));
    edit(meter, c, "stored-mask", mask, Seq(&s.seq, &s.masked, n));
    assert_eq!(original::stored_drop_calls(c), original::drop_calls(c));
    edit(meter, c, "stored-drop", drop_calls, Seq(&s.seq, &s.seq, n));
    assert_eq!(original::stored_cut(c), original::cut(c));
    edit(meter, c, "stored-cut", Sides(original::stored_cut, TagRows::stored_cut, Session::stored_cut), Seq(&s.seq, &s.window, cut));
}

/// A call on a record: the Rust's, which changes it, and Rattle's, which writes a new one to a lent row.
#[derive(Clone, Copy)]
struct OnRecord(fn(&Rust, &mut Vec<u8>, &Records) -> bool, fn(&mut RecordRow, &[u8], &Records) -> u8);

/// Measures a call on a record, and returns what it leaves. The Rust works in place, so each counted call has its own record, restored
/// before. On the side "copied" it works on a copy that is made and freed in the call, as if the caller needed the old record too.
fn on_record(meter: &mut Meter, c: &Case, row: &str, OnRecord(rust, rattle): OnRecord, record: &Vec<u8>, r: &Records) -> Vec<u8> {
    let mut left = record.clone();
    let went = rust(&RUST, &mut left, r);
    let check = |who: &str, answer: (bool, &[u8])| assert!(answer == (went, &left), "{who}, {row} of {} bases", c.bases);

    for (who, over) in [("rust", &RUST), ("quick", &QUICK)] {
        let all = RefCell::new(vec![record.clone(); calls_a_round(c)]);
        let restore = || all.borrow_mut().iter_mut().for_each(|own| own.clone_from(record));
        meter.side(c, row, who, restore, |i| assert_eq!(rust(over, black_box(&mut all.borrow_mut()[i]), black_box(r)), went));
        all.borrow().iter().for_each(|own| check(who, (went, own)));
    }
    meter.side(c, row, "copied", || {}, |_| {
        let mut own = black_box(record).clone();
        assert_eq!(rust(&QUICK, &mut own, black_box(r)), went);
        drop(black_box(own));
    });

    for (who, room) in [("rattle", record.len() + GROWTH), ("exact", left.len())] {
        let mut lent = RecordRow::new(room);
        meter.side(c, row, who, || {}, |_| assert_eq!(rattle(&mut lent, black_box(record), black_box(r)), 0));
        check(who, lent.answer());
    }
    left
}

/// Records whose tag is edited, reverse and forward, and records that stay as they came.
fn on_records(meter: &mut Meter, c: &Case) {
    let mask = OnRecord(Rust::mask, RecordRow::mask);
    for (reverse, which) in [(true, ""), (false, "-forward")] {
        let r = Records::new(c, reverse);
        let edits = [
            ("mask", mask, &r.masked),
            ("drop", OnRecord(Rust::drop_calls, RecordRow::drop_calls), &r.whole),
            ("cut", OnRecord(Rust::cut, RecordRow::cut), &r.cut),
        ];
        for (name, call, record) in edits {
            let left = on_record(meter, c, &format!("record-{name}{which}"), call, record, &r);
            assert!(has_modification_tags(&left), "a record of {} bases keeps its tags", c.bases);
            // Few bases in sparse tags: a drop may name no listed base.
            assert!(left != *record || name == "drop", "{name} edits a record of {} bases", c.bases);
        }
    }
    let r = Records::new(c, true);
    let left = on_record(meter, c, "record-exchanged", mask, &r.exchanged, &r);
    assert!(has_modification_tags(&left) && left != r.exchanged, "a record of {} bases is edited with ML before MM", c.bases);
    for (row, record) in [("record-same", &r.whole), ("record-untagged", &r.untagged)] {
        let left = on_record(meter, c, row, mask, record, &r);
        assert!(left == *record, "a record of {} bases stays as it came", c.bases);
    }
}

fn building(meter: &mut Meter, c: &Case) {
    meter.side(c, "build", "rust", || {}, |_| drop(black_box(original::build(black_box(c)))));
    let mut rows = TagRows::new(c);
    meter.side(c, "build", "rattle", || {}, |_| assert_eq!(rows.build(black_box(c)), 0));
    assert_eq!(Some(rows.tag()), original::build(c));
}

fn counting(meter: &mut Meter, c: &Case) {
    let all_positions = c.density == Density::Dense;
    meter.side(c, "count", "rust", || {}, |_| drop(black_box(original::count(black_box(c), all_positions))));
    let mut rows = rattle::CountRows::new(c);
    meter.side(c, "count", "rattle", || {}, |_| assert_eq!(rows.count(black_box(c), all_positions), 0));
    let expected = Columns::of(&original::count(c, all_positions));
    assert!(rows.columns == expected, "the counts of {} bases", c.bases);
}

fn measure(meter: &mut Meter, c: &Case) {
    meter.side(c, "nothing", "driver", || {}, |i| {
        black_box(i);
    });
    reading(meter, c);
    editing(meter, c);
    building(meter, c);
    counting(meter, c);
    reading_stored(meter, c);
    editing_stored(meter, c);
    on_records(meter, c);
}

fn main() {
    let rounds = std::env::args().nth(1).and_then(|word| word.parse().ok()).expect("a number of rounds");
    let mut meter = Meter { bucket: 0, rounds };
    for bases in [150, 1_000, 16_000] {
        for density in [Density::Dense, Density::Sparse] {
            measure(&mut meter, &Case::new(bases, density));
        }
    }
    for bases in [150, 151, 1_000, 1_001, 15_999, 16_000] {
        turning(&mut meter, &Case::new(bases, Density::Dense));
    }
}
