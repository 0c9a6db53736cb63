//! Random and damaged requests, made from those of a corpus.
//!
//! A request of the corpus is changed field by field, by the fields' kinds (form.rs). Parallel rows are changed at
//! the same place, and MM and ML together, so that many requests are still answered with 0. Sometimes one field is
//! changed alone, or the line itself. damage/records.rs changes BAM records.

mod records;

use crate::agree::needed;
use crate::answer_line;
use crate::calls::QUICK;
use crate::corpus::Corpus;
use crate::form::{Kind, Request};
use crate::random::Random;
use crate::stored::{LETTERS, Stored, repacked};
use crate::tag::{Entry, Group, groups, joined};
use crate::value::{Value, Values};

/// The kinds of a request's parallel rows.
const PARALLEL: [Kind; 3] = [Kind::Bases, Kind::Informative, Kind::Counts];
/// The most bytes of MM, or bases of reads, that repeating makes, roughly: longer lines would take all the time.
const MOST_REPEATED: usize = 6_000;

/// A change of one item.
#[derive(Clone, Copy)]
enum Change {
    Set,
    Insert,
    Remove,
    Double,
}

const CHANGES: [Change; 5] = [Change::Set, Change::Set, Change::Insert, Change::Remove, Change::Double];

/// Makes the change at a place of the items, or at their end.
fn change<T: Clone>(items: &mut Vec<T>, change: Change, place: usize, new: T) {
    let place = place.min(items.len());
    match change {
        Change::Insert => items.insert(place, new),
        _ if place == items.len() => items.push(new),
        Change::Set => items[place] = new,
        Change::Remove => {
            items.remove(place);
        }
        Change::Double => items.insert(place, items[place].clone()),
    }
}

/// Repeats the items, from the first again, until there are `length` of them.
fn cycle_to<T: Clone>(items: &mut Vec<T>, length: usize) {
    let once = items.len();
    if once > 0 && once < length {
        *items = items.iter().cycle().take(length).cloned().collect();
    }
}

/// Cuts a session's buffers to its lengths, so that bytes added at their end are not behind spare bytes.
fn leave_out_spare_bytes(request: &mut Values) {
    if let [seq, mm, ml, (Kind::Lengths, Value::Numbers(lengths)), ..] = &mut request.fields[..] {
        for ((_, value), length) in [seq, mm, ml].into_iter().zip(lengths) {
            if let (Value::Bytes(bytes), Some(length)) = (value, length) {
                bytes.truncate(usize::try_from(*length).unwrap_or(usize::MAX));
            }
        }
    }
}

/// The stored read whose packed bytes are the field at `packed`: of the stated number of bases if the bytes take so
/// many, and else of as many as they hold.
fn stored_at(request: &Values, packed: usize) -> Option<Stored> {
    let (Value::Bytes(bytes), Value::Word(reverse)) = (&request.fields.get(packed)?.1, &request.fields[0].1)
    else {
        return None;
    };
    let stated = match &request.fields[packed - 1].1 {
        Value::Numbers(count) => count.first().copied().flatten().and_then(|n| usize::try_from(n).ok()),
        _ => None,
    };
    let count = stated.filter(|&n| n < usize::MAX && n.div_ceil(2) == bytes.len()).unwrap_or(2 * bytes.len());
    Stored::of(reverse == "1", count, bytes)
}

/// The bases that a request's tag is read on.
fn seq_of(request: &Values) -> Option<Vec<u8>> {
    match request.place_of(Kind::Bases) {
        Some(seq) => Some(request.fields[seq].1.bytes().to_vec()),
        None => stored_at(request, request.place_of(Kind::Packed)?).map(|read| read.in_read()),
    }
}

pub struct Damage<'a> {
    random: Random,
    corpus: &'a Corpus,
}

impl<'a> Damage<'a> {
    #[must_use]
    pub fn new(seed: u64, corpus: &'a Corpus) -> Self {
        Self { random: Random::new(seed), corpus }
    }

    /// Appends the next request to the lines, without a line end.
    pub fn write_next(&mut self, lines: &mut Vec<u8>) {
        let begin = lines.len();
        let line = self.corpus.pick(&mut self.random);
        let changes = [0, 1, 1, 1, 1, 2, 2, 2, 3, 4][self.random.below(10)];
        match Values::of(line).filter(|_| changes > 0) {
            Some(mut request) => {
                leave_out_spare_bytes(&mut request);
                for _ in 0..changes {
                    self.change(&mut request);
                }
                self.settle(&mut request);
                request.write(lines);
                self.lend_room(&request, begin, lines);
            }
            None => lines.extend(line.as_bytes()),
        }
        if self.random.one_in(100) {
            self.break_form(begin, lines);
        }
    }

    fn change(&mut self, request: &mut Values) {
        if request.place_of(Kind::Record).is_some() {
            return self.change_record(request);
        }
        match self.random.below(20) {
            0..6 => self.stretch(request),
            6..11 if request.place_of(Kind::Text).is_some() => self.change_tag(request),
            6..14 => self.change_rows(request),
            14..18 => self.change_field(request),
            _ => self.take_from_another(request),
        }
    }

    // ---- Items by kind -------------------------------------------------------------------------

    fn byte(&mut self, kind: Kind) -> u8 {
        let rare = self.random.one_in(40);
        match kind {
            Kind::Text if rare => self.random.pick(b"\0\x7f\x80\xbf\xc3\xa9\xff"),
            Kind::Text => self.random.pick(b",,;??..+-0123456789mhCNcn"),
            Kind::Values | Kind::GivenValues | Kind::Record => self.random.byte(),
            Kind::Informative | Kind::Aligned if !rare => self.random.pick(b"\0\x01\x01"),
            _ if rare => self.random.byte(),
            Kind::Packed if self.random.one_in(4) => self.random.byte(),
            Kind::Packed => {
                self.random.pick(b"\x11\x12\x14\x18\x21\x22\x24\x28\x41\x42\x44\x48\x82\x84\x88\xff")
            }
            Kind::Reference | Kind::ReferenceRow => self.random.pick(b"CGCGACGTNcgacgt\0"),
            _ => self.random.pick(b"ACCGGTNCGACGTNcgtan"),
        }
    }

    /// A number within what the kind's form allows, often near a power of two.
    fn number(&mut self, kind: Kind) -> Option<i128> {
        let (least, most): (i128, i128) = match kind {
            Kind::Flags => (0, (1 << 16) - 1),
            Kind::Counts | Kind::Words => (0, (1 << 32) - 1),
            Kind::Start | Kind::SignedPlaces => (-(1 << 63), (1 << 63) - 1),
            _ => (0, (1 << 64) - 1),
        };
        if matches!(kind, Kind::SignedPlaces | Kind::CutStart) && self.random.one_in(8) {
            return None;
        }
        let small = self.random.below(40) as i128;
        if self.random.below(5) < 3 {
            return Some(small);
        }
        let power = self.random.pick(&[0, 4, 5, 8, 15, 16, 31, 32, 63, 64]);
        let near = (1i128 << power) + self.random.below(5) as i128 - 2;
        let signed = if self.random.one_in(4) { -near } else { near };
        Some(signed.clamp(least, most))
    }

    /// A CIGAR word, mostly short and of a known kind.
    fn word(&mut self) -> i128 {
        let length = match self.random.below(60) {
            0 => self.random.pick(&[(1 << 28) - 1, 1 << 20, 16_000, 16_001, 15_990]),
            1..8 => self.random.below(2_000),
            _ => self.random.below(40),
        };
        let kind = if self.random.one_in(60) { 9 + self.random.below(7) } else { self.random.below(9) };
        (length << 4 | kind) as i128
    }

    fn item(&mut self, kind: Kind) -> Option<i128> {
        if kind == Kind::Words { Some(self.word()) } else { self.number(kind) }
    }

    // ---- Rows in parallel ----------------------------------------------------------------------

    fn change_rows(&mut self, request: &mut Values) {
        let rows: Vec<usize> =
            (0..request.fields.len()).filter(|&k| PARALLEL.contains(&request.fields[k].0)).collect();
        let Some(&first) = rows.first() else { return self.change_field(request) };
        let alone = self.random.one_in(12).then(|| self.random.pick(&rows));
        let (way, base) = (self.random.pick(&CHANGES), self.byte(Kind::Bases));
        let place = self.random.below(request.fields[first].1.len() + 1);
        for row in rows.into_iter().filter(|&row| alone.is_none_or(|one| one == row)) {
            match &mut request.fields[row] {
                (Kind::Bases, Value::Bytes(bases)) => change(bases, way, place, base),
                (kind, Value::Bytes(bytes)) => change(bytes, way, place, self.byte(*kind)),
                (kind, Value::Numbers(numbers)) => change(numbers, way, place, self.number(*kind)),
                _ => {}
            }
        }
    }

    // ---- One field -----------------------------------------------------------------------------

    fn change_field(&mut self, request: &mut Values) {
        if request.fields.is_empty() {
            return;
        }
        let at = self.random.below(request.fields.len());
        let (kind, value) = &mut request.fields[at];
        match value {
            Value::Word(word) => *word = self.other_word(*kind),
            Value::Bytes(_) if *kind == Kind::Values && self.random.one_in(10) => {
                *value = Value::Word("-".to_string());
            }
            Value::Bytes(bytes) => self.change_bytes(*kind, bytes),
            Value::Numbers(numbers) => self.change_numbers(*kind, numbers),
            Value::Rows(_) => self.change_reads(request),
        }
    }

    fn other_word(&mut self, kind: Kind) -> String {
        if kind == Kind::SessionStep {
            return self.session_step();
        }
        let choices: &[&str] = match kind {
            Kind::YesNo => &["0", "1"],
            Kind::Pattern => &["C", "G"],
            Kind::Mode => &["E", "T", "E", "T", "D"],
            Kind::Step => &["MK", "DR", "CU"],
            Kind::Way => &["old"],
            _ => &["-", "."],
        };
        self.random.pick(choices).to_string()
    }

    fn change_bytes(&mut self, kind: Kind, bytes: &mut Vec<u8>) {
        let of_ml = matches!(kind, Kind::Values | Kind::GivenValues);
        let way = if of_ml && !self.random.one_in(4) { Change::Set } else { self.random.pick(&CHANGES) };
        let place = self.random.below(bytes.len() + usize::from(!of_ml || bytes.is_empty()));
        change(bytes, way, place, self.byte(kind));
    }

    fn change_numbers(&mut self, kind: Kind, numbers: &mut Vec<Option<i128>>) {
        let one = matches!(kind, Kind::Place | Kind::Start | Kind::CutStart | Kind::Length | Kind::Flags);
        let fixed = one || matches!(kind, Kind::Lengths | Kind::BaseCount | Kind::RecordRoom);
        let way = if fixed { Change::Set } else { self.random.pick(&CHANGES) };
        let place = self.random.below(numbers.len() + usize::from(!fixed));
        change(numbers, way, place, self.item(kind));
    }

    /// Changes the reads, and the aligned rows with them if these are as many.
    fn change_reads(&mut self, request: &mut Values) {
        let [.., (_, Value::Rows(reads)), (_, Value::Rows(aligned))] = &mut request.fields[..] else {
            return;
        };
        let way = self.random.pick(&CHANGES);
        let row = self.random.below(reads.len() + 1);
        let whole = row == reads.len() || self.random.one_in(3);
        if aligned.len() != reads.len() || self.random.one_in(12) {
            return change(aligned, way, row, vec![1; row % 5]);
        }
        if whole {
            let new: Vec<u8> = (0..self.random.below(40)).map(|_| self.byte(Kind::Reads)).collect();
            change(aligned, way, row, vec![1; new.len()]);
            return change(reads, way, row, new);
        }
        let place = self.random.below(reads[row].len() + 1);
        change(&mut reads[row], way, place, self.byte(Kind::Reads));
        change(&mut aligned[row], way, place, self.byte(Kind::Aligned));
    }

    /// Takes one field, or all but one, from another request of the call.
    fn take_from_another(&mut self, request: &mut Values) {
        let other = self.corpus.pick_of(request.call.name, &mut self.random);
        let Some(other) = other.and_then(Values::of) else { return };
        if other.fields.len() != request.fields.len() {
            return *request = other;
        }
        let (at, one) = (self.random.below(other.fields.len()), self.random.one_in(3));
        for (place, field) in other.fields.into_iter().enumerate() {
            if (place == at) == one {
                request.fields[place] = field;
            }
        }
    }

    // ---- Stretching ----------------------------------------------------------------------------

    /// A length for rows: often around the code's blocks of 32, rarely up to the domain's bound.
    fn length(&mut self) -> usize {
        let (least, doublings) = match self.random.below(3_000) {
            0 => return self.random.pick(&[16_000, 15_999, 16_001, 16_000 - 31, 8_192]),
            1 | 2 => (2_000, 3),
            3..75 => (250, 3),
            _ => (25, 3),
        };
        let scale = least << self.random.below(doublings);
        let length = scale + self.random.below(scale);
        if self.random.one_in(3) { length.div_ceil(32) * 32 + self.random.below(3) - 1 } else { length }
    }

    /// Makes rows longer, so that a request that was answered with 0 mostly still is.
    fn stretch(&mut self, request: &mut Values) {
        let length = self.length();
        if request.call.name == "ANN" {
            return self.stretch_reads(request, length);
        }
        let held = seq_of(request).map_or(0, |seq| seq.len());
        for (kind, value) in &mut request.fields {
            match value {
                Value::Bytes(packed) if *kind == Kind::Packed => cycle_to(packed, length.div_ceil(2)),
                Value::Bytes(row) if !matches!(kind, Kind::Text | Kind::Values | Kind::GivenValues) => {
                    cycle_to(row, length);
                }
                Value::Numbers(words) if *kind == Kind::Words => {
                    cycle_to(words, words.len() * (2 + self.random.below(12)));
                }
                Value::Numbers(numbers) if matches!(kind, Kind::Counts | Kind::SignedPlaces) => {
                    cycle_to(numbers, length);
                }
                Value::Numbers(numbers) if matches!(kind, Kind::Length | Kind::Place) => {
                    *numbers = vec![Some(self.random.below(length + 3) as i128)];
                }
                _ => {}
            }
        }
        self.stretch_tag(request, length / held.max(1));
    }

    fn stretch_reads(&mut self, request: &mut Values, length: usize) {
        let [
            (_, wanted),
            ..,
            (_, Value::Bytes(reference)),
            (_, Value::Rows(reads)),
            (_, Value::Rows(aligned)),
        ] = &mut request.fields[..]
        else {
            return;
        };
        let alike = reads.iter().map(Vec::len).eq(aligned.iter().map(Vec::len));
        let bases: usize = reads.iter().map(Vec::len).sum();
        if self.random.one_in(3) {
            let times = 2 + self.random.below(60).min(MOST_REPEATED / bases.max(100));
            cycle_to(aligned, if alike { times * reads.len() } else { times * aligned.len() });
            return cycle_to(reads, times * reads.len());
        }
        *wanted = Value::number(length);
        cycle_to(reference, (length + 2).saturating_sub(self.random.below(5)));
        if alike && length * reads.len() <= MOST_REPEATED.max(2 * length) {
            for row in reads.iter_mut().chain(aligned) {
                cycle_to(row, length);
            }
        }
    }

    // ---- MM and ML together --------------------------------------------------------------------

    /// Changes the groups of the tag and writes MM and ML; false if the two do not fit each other.
    fn with_groups(
        &mut self,
        request: &mut Values,
        edit: impl FnOnce(&mut Self, &mut Vec<Group>, &[u8]),
    ) -> bool {
        let (Some(text), Some(seq)) = (request.place_of(Kind::Text), seq_of(request)) else { return false };
        let ml = text + 1;
        let given = matches!(request.fields[ml].1, Value::Bytes(_));
        let values = given.then(|| request.fields[ml].1.bytes());
        let Some(mut found) = groups(request.fields[text].1.bytes(), values) else { return false };
        edit(self, &mut found, &seq);
        if given {
            found.iter_mut().for_each(Group::fit_values);
        }
        let (new_mm, new_ml) = joined(&found);
        request.fields[text].1 = Value::Bytes(new_mm);
        if given {
            request.fields[ml].1 = Value::Bytes(new_ml);
        }
        true
    }

    /// Makes the tag longer, if there is one, after its SEQ was repeated so many times.
    fn stretch_tag(&mut self, request: &mut Values, times: usize) {
        let held = request.place_of(Kind::Text).map_or(0, |text| request.fields[text].1.len());
        let times = times.min(MOST_REPEATED / held.max(1));
        self.with_groups(request, |damage, groups, seq| match damage.random.below(8) {
            0 => cycle_to(groups, groups.len() * times.min(2 + damage.random.below(4))),
            1 => cycle_to(groups, groups.len() * times.min(60)),
            2 | 3 => {
                for Group { entries, .. } in groups {
                    cycle_to(entries, entries.len() * times);
                }
            }
            4 | 5 => {
                let at = damage.random.below(groups.len());
                damage.list_anew(&mut groups[at], seq);
            }
            _ => {}
        });
    }

    fn change_tag(&mut self, request: &mut Values) {
        let way = self.random.below(12);
        let done = way < 11
            && self.with_groups(request, |damage, groups, seq| {
                let at = damage.random.below(groups.len());
                match way {
                    0 => change(groups, Change::Double, at, groups[at].clone()),
                    1 if groups.len() > 1 => change(groups, Change::Remove, at, groups[at].clone()),
                    2 => damage.change_header(&mut groups[at]),
                    3..6 => damage.list_anew(&mut groups[at], seq),
                    _ => damage.change_entry(&mut groups[at]),
                }
            });
        if !done {
            let at = request.place_of(Kind::Text).unwrap_or_default();
            if let (kind, Value::Bytes(text)) = &mut request.fields[at] {
                self.change_bytes(*kind, text);
            }
        }
    }

    fn change_header(&mut self, group: &mut Group) {
        let place = self.random.below(group.header.len() + 1);
        let new = match place {
            0 => self.random.pick(b"ACGTUNacgtun"),
            1 => self.random.pick(b"+-"),
            _ => self.random.pick(b"mhcfgeab?..??0123456789"),
        };
        let ways = [Change::Set, Change::Insert, Change::Remove];
        let way = if place < 2 { Change::Set } else { self.random.pick(&ways) };
        change(&mut group.header, way, place, new);
    }

    /// Lists some of the tracked bases, whatever was listed before.
    fn list_anew(&mut self, group: &mut Group, seq: &[u8]) {
        group.entries.clear();
        let (tracked, sparse) = (group.tracked(seq), 1 + self.random.below(12));
        let mut bare = 0;
        for _ in 0..tracked {
            if self.random.one_in(sparse) {
                let values = (0..2).map(|_| self.random.byte()).collect();
                group.entries.push(Entry { skip: format!("{bare}").into_bytes(), values });
                bare = 0;
            } else {
                bare += 1;
            }
        }
    }

    /// Removes an entry, inserts one so that later calls keep their places, or changes a skip or the values.
    fn change_entry(&mut self, group: &mut Group) {
        let (entries, way) = (&mut group.entries, self.random.below(7));
        let at = self.random.below(entries.len() + 1);
        if at == entries.len() {
            return entries.push(Entry { skip: b"0".to_vec(), values: vec![self.random.byte()] });
        }
        let skip: usize =
            std::str::from_utf8(&entries[at].skip).ok().and_then(|n| n.parse().ok()).unwrap_or(0);
        match way {
            0 | 1 => {
                entries.remove(at);
            }
            2 | 3 if skip > 0 => {
                let first = self.random.below(skip.min(1 << 20));
                entries[at].skip = format!("{}", skip - 1 - first).into_bytes();
                entries.insert(at, Entry { skip: format!("{first}").into_bytes(), values: vec![0x7f] });
            }
            4 => entries[at].skip.insert(0, b'0'),
            5 => entries[at].skip.push(b'0' + self.random.byte() % 10),
            _ => entries[at].values.iter_mut().for_each(|value| *value = self.random.byte()),
        }
    }

    // ---- Edits that mean something ---------------------------------------------------------------

    /// Mostly makes the edit fit the present SEQ.
    fn settle(&mut self, request: &mut Values) {
        if self.random.one_in(5) {
            return;
        }
        match request.call.name {
            "MASK" => {
                let after = self.masked(request.fields[2].1.bytes());
                request.fields[3].1 = Value::Bytes(after);
            }
            "CUT" => self.settle_cut(request),
            "DROP" if self.random.one_in(2) => {
                let places = self.places(request.fields[2].1.len());
                request.fields[3].1 = Value::Numbers(places);
            }
            "STEP" => self.settle_step(request),
            name if name.starts_with("K1.") => self.settle_stored(request),
            name if name.starts_with("K2.") => self.settle_record(request),
            _ => {}
        }
    }

    // ---- Stored reads --------------------------------------------------------------------------

    /// Mostly states as many bases as the packed bytes hold, and makes the edit fit them.
    fn settle_stored(&mut self, request: &mut Values) {
        for packed in 1..request.fields.len() {
            if request.fields[packed].0 == Kind::Packed {
                let held = 2 * request.fields[packed].1.len();
                let count = stored_at(request, packed).map_or(held, |read| read.letters.len());
                let other = held.saturating_sub(usize::from(count == held));
                request.fields[packed - 1].1 =
                    Value::number(if self.random.one_in(8) { other } else { count });
            }
        }
        let Some(letters) = stored_at(request, 2).map(|read| read.letters) else { return };
        match request.call.name {
            "K1.PMASK" => {
                let after = self.masked_letters(&letters);
                self.put_stored(request, 4, &after);
            }
            "K1.PDROP" if self.random.one_in(2) => {
                request.fields[3].1 = Value::Numbers(self.places(letters.len()));
            }
            "K1.PCUT" => self.settle_stored_cut(request, &letters),
            _ => {}
        }
    }

    /// Some letters masked by N, and now and then replaced by another letter.
    fn masked_letters(&mut self, letters: &[u8]) -> Vec<u8> {
        let sparse = self.random.pick(&[2, 5, 9, 30, 400]);
        let mut after = letters.to_vec();
        for letter in &mut after {
            if self.random.one_in(sparse) {
                *letter = if self.random.one_in(25) { self.random.pick(LETTERS) } else { b'N' };
            }
        }
        after
    }

    fn settle_stored_cut(&mut self, request: &mut Values, letters: &[u8]) {
        let front = if self.random.one_in(3) { 0 } else { self.random.below(letters.len() + 1) };
        let left = letters.len() - front;
        let kept = if self.random.one_in(3) { left } else { self.random.below(left + 1) };
        let mut after = letters[front..front + kept].to_vec();
        if let (true, Some(letter)) = (self.random.one_in(2), after.last_mut()) {
            *letter = b'N';
        }
        let start = match self.random.below(25) {
            0 => None,
            1 => self.number(Kind::CutStart),
            2 => Some(front as i128 + 1),
            _ => Some(front as i128),
        };
        self.put_stored(request, 4, &after);
        request.fields[5].1 = Value::Numbers(vec![start]);
    }

    /// Writes letters to a packed field, with any spare half, and their number before it.
    fn put_stored(&mut self, request: &mut Values, packed: usize, letters: &[u8]) {
        let mut bytes = repacked(letters);
        if let (Some(last), false) = (bytes.last_mut(), letters.len().is_multiple_of(2)) {
            *last |= self.random.byte() & 15;
        }
        request.fields[packed].1 = Value::Bytes(bytes);
        request.fields[packed - 1].1 = Value::number(letters.len());
    }

    fn session_step(&mut self) -> String {
        let given = match self.random.below(3) {
            0 => return format!("CU:{},{}", self.random.below(9), self.random.below(9)),
            1 => ("MK", self.places(60)),
            _ => ("DR", self.places(60)),
        };
        let shown: Vec<String> = given.1.into_iter().flatten().map(|place| place.to_string()).collect();
        format!("{}:{}", given.0, if shown.is_empty() { "*".to_string() } else { shown.join(",") })
    }

    // ---- Plain edits ---------------------------------------------------------------------------

    /// The row with some of its bases masked.
    fn masked(&mut self, row: &[u8]) -> Vec<u8> {
        let mut after = row.to_vec();
        let sparse = self.random.pick(&[2, 5, 9, 30, 400]);
        for base in &mut after {
            if self.random.one_in(sparse) {
                *base = if self.random.one_in(25) { self.random.pick(b"nCcG\0") } else { b'N' };
            }
        }
        after
    }

    fn settle_cut(&mut self, request: &mut Values) {
        let before = request.fields[2].1.bytes();
        let front = if self.random.one_in(3) { 0 } else { self.random.below(before.len() + 1) };
        let left = before.len() - front;
        let kept = if self.random.one_in(3) { left } else { self.random.below(left + 1) };
        let mut after = before[front..front + kept].to_vec();
        if self.random.one_in(2) {
            for _ in 0..1 + self.random.below(3) {
                let place = self.random.below(after.len() + 1);
                if let Some(base) = after.get_mut(place) {
                    *base = self.random.pick(b"NNNNNNNNNn");
                }
            }
        }
        let known = Some(front as i128);
        let start = match self.random.below(25) {
            0 => None,
            1 => self.number(Kind::CutStart),
            2 => Some(front as i128 + 1),
            _ => known,
        };
        request.fields[3].1 = Value::Bytes(after);
        request.fields[4].1 = Value::Numbers(vec![start]);
    }

    /// Places of a row of `length` bases, some of them past its end.
    fn places(&mut self, length: usize) -> Vec<Option<i128>> {
        let many = self.random.one_in(10);
        let count = if many { self.random.below(length.min(200) + 1) } else { self.random.below(6) };
        let mut places: Vec<_> =
            (0..count).map(|_| Some(self.random.below(length + 1 + length / 16) as i128)).collect();
        if self.random.one_in(20) {
            places.push(self.number(Kind::Places));
        }
        places
    }

    /// Makes the step fit SEQ. The lengths are those of the buffers, or leave some bytes of them over.
    fn settle_step(&mut self, request: &mut Values) {
        let [(_, seq), (_, mm), (_, ml), (_, lengths), (_, Value::Word(kind)), (_, arguments)] =
            &mut request.fields[..]
        else {
            return;
        };
        let held = seq.len();
        let mut used = [seq.len(), mm.len(), ml.len()].map(|length| Some(length as i128));
        if self.random.one_in(4) {
            let over = self.random.below(6);
            for value in [seq, mm, ml] {
                if let Value::Bytes(bytes) = value {
                    bytes.extend((0..over).map(|_| self.random.byte()));
                }
            }
        }
        if self.random.one_in(20) {
            let (which, odd) = (self.random.below(3), self.number(Kind::Lengths));
            used[which] = if self.random.one_in(2) { used[which].map(|n| n + 1) } else { odd };
        }
        *lengths = Value::Numbers(used.to_vec());
        let wrong = kind.as_str() == "CU" && arguments.len() != 2;
        if wrong || self.random.one_in(2) {
            *arguments = Value::Numbers(if kind.as_str() == "CU" {
                let most = held + 1 + usize::from(self.random.one_in(8));
                let front = self.random.below(most);
                vec![Some(front as i128), Some(self.random.below(most - front) as i128)]
            } else {
                self.places(held)
            });
        }
    }

    // ---- Room, and the line itself -----------------------------------------------------------------

    /// Lends about as much room as the Rust's answer needs, or the room that the request had, or none.
    fn lend_room(&mut self, request: &Values, begin: usize, lines: &mut Vec<u8>) {
        let count = request.call.room;
        if count == 0 || !self.random.one_in(7) {
            return;
        }
        if let (Some(room), true) = (&request.room, self.random.one_in(4)) {
            return lines.extend(format!("\t@{room}").as_bytes());
        }
        let rust = answer_line(&lines[begin..], QUICK);
        let mut sizes = if rust.starts_with("0\t") {
            let line = String::from_utf8_lossy(&lines[begin..]);
            needed(&Request::of(&line), &rust).map(|size| size as u64)
        } else {
            [0, 1].map(|_| self.random.below(4) as u64)
        };
        let which = self.random.below(count);
        sizes[which] = match self.random.below(12) {
            0 => u64::MAX,
            1 => self.random.below(40) as u64,
            2..6 => sizes[which].saturating_sub(1),
            6 => sizes[which] + 1,
            _ => sizes[which],
        };
        let shown: Vec<String> = sizes[..count].iter().map(u64::to_string).collect();
        lines.extend(format!("\t@{}", shown.join(",")).as_bytes());
    }

    /// Changes one character of the line, or a field of it.
    fn break_form(&mut self, begin: usize, lines: &mut Vec<u8>) {
        let mut line = lines.split_off(begin);
        let place = self.random.below(line.len() + 1);
        match self.random.below(12) {
            0 => line.extend(b"\t1"),
            1 => line.extend(b"\t"),
            2 => {
                let tab = line[place..].iter().position(|&byte| byte == b'\t');
                line.truncate(tab.map_or(line.len(), |tab| place + tab));
            }
            _ => {
                let odd = self.random.pick(b"\t,@-+*.00019AFfGx \r\0\xff");
                let way = self.random.pick(&CHANGES);
                change(&mut line, way, place, odd);
            }
        }
        lines.extend(line);
    }
}
