//! One function for each call of the protocol, which calls the functions of the originals.

use crate::MethylationMode;
use crate::exits;
use crate::form::Request;
use crate::methylation::{
    ConversionPattern, MethylationAnnotation, MethylationEvidence, RefBaseProvider,
    annotate_simplex_methylation, build_mm_ml_tags, build_mm_tag_no_ml, duplex_methylation_tags,
    fetch_ref_bases_at_positions, gate_to_informative, is_cpg_context, query_to_ref_positions,
    restore_unconverted_bases,
};
use crate::modifications::{
    drop_masked_modifications, drop_modifications_at, trim_clipped_modifications_raw,
};
use crate::protocol::{
    Reply, absent_or, byte, bytes, list, number, show_absent_or, show_bytes, show_list, signed, size, small,
    yes_or_no,
};
use crate::records;
use crate::stored;
use crate::vanilla_caller::SourceRead;
use fgumi_raw_bam::{RawTagsEditor, SamTag, aux_data_slice, find_array_tag, find_string_tag, new_record};
use noodles::sam::alignment::record::cigar::op::Kind;

/// The most ML values for deriving calls: all must differ, since they tell the calls apart.
const MOST_ML_FOR_CALLS: usize = 255;

/// Which requests the driver passes to the Rust, and when it makes further runs to find what the Rust does not say.
#[derive(Clone, Copy)]
pub struct Effort {
    /// A longer query or consensus isn't passed to the Rust, which would take gigabytes for 268435455M.
    largest_query: usize,
    /// The longest MM for which a refusal's number is searched; the cost grows with the square of its bytes.
    pub longest_numbered: usize,
    /// The most groups times places for which calls are derived, by one run for each group and place.
    most_runs_for_calls: usize,
}

pub const WHOLE: Effort =
    Effort { largest_query: 100_000, longest_numbered: 400, most_runs_for_calls: 4_096 };
pub const QUICK: Effort = Effort { largest_query: 16_000, longest_numbered: 0, most_runs_for_calls: 0 };

/// The Rust's answer to a request; None if the request can't be passed to it.
#[must_use]
pub fn answer(line: &str, effort: Effort) -> Option<Reply> {
    let request = Request::of(line);
    let fields = &request.fields[..];
    match request.name {
        "Q" => positions(fields, effort),
        "CPG" => cpg(fields),
        "PAT" => pattern_of_flags(fields),
        "FETCH" => fetch(fields),
        "ANN" => annotate(fields, effort),
        "GATE" => gate(fields),
        "TRUNC" => truncate(fields),
        "CNT" => counts(fields),
        "REST" => restore(fields),
        "BUILD" => build(fields),
        "BUILDMM" => build_text(fields),
        "DUP" => duplex(fields),
        "CALLS" => read_calls(fields, effort),
        "TALLY" => tally(fields, effort),
        "MASK" => mask(fields, effort),
        "DROP" => drop_places(fields, effort),
        "CUT" => cut(fields, effort),
        "STEP" => step(fields, effort),
        "K1.TURN" => stored::turn(fields),
        "K1.UNPACK" => stored::unpack(fields),
        "K1.CALLS" | "K1.PMASK" | "K1.PDROP" => stored::in_read_orientation(&request, effort),
        "K1.PCUT" => stored::cut(fields, effort),
        "K1.PSES" => stored::session(fields, effort),
        "K2.RMASK" | "K2.RDROP" | "K2.RCUT" => records::answer(&request),
        _ => None,
    }
}

pub fn done<const N: usize>(fields: [String; N]) -> Option<Reply> {
    Some(Reply::Done(fields.to_vec()))
}

// ---- Alignment -------------------------------------------------------------------------------

fn operation(word: &str) -> Option<(Kind, usize)> {
    let word = small(word)?;
    let kind = match word & 15 {
        0 => Kind::Match,
        1 => Kind::Insertion,
        2 => Kind::Deletion,
        3 => Kind::Skip,
        4 => Kind::SoftClip,
        5 => Kind::HardClip,
        6 => Kind::Pad,
        7 => Kind::SequenceMatch,
        8 => Kind::SequenceMismatch,
        _ => return None,
    };
    Some((kind, (word >> 4) as usize))
}

fn positions(fields: &[&str], effort: Effort) -> Option<Reply> {
    let &[words, start, reverse] = fields else { return None };
    let cigar = list(words, operation)?;
    let query: usize = cigar.iter().filter(|(k, _)| k.consumes_read()).map(|(_, n)| n).sum();
    if query > effort.largest_query {
        return None;
    }
    let places = query_to_ref_positions(&cigar, signed(start)?, yes_or_no(reverse)?);
    done([show_list(&places, |place| show_absent_or(place.as_ref(), i64::to_string))])
}

fn cpg(fields: &[&str]) -> Option<Reply> {
    let &[reference, pos, top] = fields else { return None };
    let yes = is_cpg_context(&bytes(reference)?, size(pos)?, yes_or_no(top)?);
    done([u8::from(yes).to_string()])
}

/// A reference of one sequence; with `whole` the Rust gets the sequence at once, without it base by base.
struct Reference {
    bases: Vec<u8>,
    whole: bool,
}

impl RefBaseProvider for Reference {
    fn base_at_0based(&self, _chrom: &str, pos: u64) -> Option<u8> {
        self.bases.get(usize::try_from(pos).ok()?).copied()
    }

    fn sequence_for(&self, _chrom: &str) -> Option<&[u8]> {
        self.whole.then_some(&self.bases)
    }
}

fn fetch(fields: &[&str]) -> Option<Reply> {
    let &[places, reference] = fields else { return None };
    let places = list(places, |place| absent_or(place, signed))?;
    let mut reference = Reference { bases: bytes(reference)?, whole: true };
    let fetched = fetch_ref_bases_at_positions(&places, "", &reference);
    reference.whole = false;
    let one_by_one = fetch_ref_bases_at_positions(&places, "", &reference);
    assert_eq!(fetched, one_by_one, "the Rust's two ways to a reference base");
    done([show_list(&fetched, |base| show_absent_or(base.as_ref(), |&b| show_bytes(&[b])))])
}

// ---- Evidence --------------------------------------------------------------------------------

fn pattern(field: &str) -> Option<ConversionPattern> {
    match field {
        "C" => Some(ConversionPattern::CToT),
        "G" => Some(ConversionPattern::GToA),
        _ => None,
    }
}

fn mode(field: &str) -> Option<MethylationMode> {
    match field {
        "E" => Some(MethylationMode::EmSeq),
        "T" => Some(MethylationMode::Taps),
        "D" => Some(MethylationMode::Disabled),
        _ => None,
    }
}

fn pattern_of_flags(fields: &[&str]) -> Option<Reply> {
    let &[flags] = fields else { return None };
    let pattern = ConversionPattern::from_read_flags(u16::try_from(number(flags)?).ok()?);
    let letter = match pattern {
        ConversionPattern::CToT => "C",
        ConversionPattern::GToA => "G",
    };
    let (reference, unconverted, converted) = pattern.bases();
    done([letter.to_string(), show_bytes(&[reference, unconverted, converted])])
}

/// Three columns as the Rust's evidence; None if they differ in length.
fn annotation(letter: &str, inf: &str, unc: &str, con: &str) -> Option<MethylationAnnotation> {
    let (pattern, inf) = (pattern(letter)?, bytes(inf)?);
    let (unc, con) = (list(unc, small)?, list(con, small)?);
    if unc.len() != inf.len() || con.len() != inf.len() {
        return None;
    }
    let evidence = (0..inf.len())
        .map(|i| MethylationEvidence {
            informative: inf[i] != 0,
            unconverted_count: unc[i],
            converted_count: con[i],
        })
        .collect();
    Some(MethylationAnnotation { evidence, pattern })
}

fn columns(annotation: &MethylationAnnotation) -> Option<Reply> {
    let evidence = &annotation.evidence;
    let informative: Vec<u8> = evidence.iter().map(|e| u8::from(e.informative)).collect();
    done([
        show_bytes(&informative),
        show_list(evidence, |e| e.unconverted_count.to_string()),
        show_list(evidence, |e| e.converted_count.to_string()),
    ])
}

/// The aligned bytes by read. If there are as many of them as bases, each read gets as many as it has
/// bases; otherwise they stay as the request lists them, which the Rust takes as well.
fn aligned_by_read(reads: &[SourceRead], rows: Vec<Vec<u8>>) -> Vec<Vec<bool>> {
    let truths = |row: &[u8]| row.iter().map(|&b| b != 0).collect::<Vec<bool>>();
    let joined = rows.concat();
    if joined.len() != reads.iter().map(|read| read.bases.len()).sum::<usize>() {
        return rows.iter().map(|row| truths(row)).collect();
    }
    let mut rest = &joined[..];
    reads
        .iter()
        .map(|read| {
            let (row, after) = rest.split_at(read.bases.len());
            rest = after;
            truths(row)
        })
        .collect()
}

fn annotate(fields: &[&str], effort: Effort) -> Option<Reply> {
    let &[length, letter, count_all, reference_row, reads, aligned] = fields else { return None };
    let reference_row = list(reference_row, |base| absent_or(base, byte))?;
    let reads = list(reads, |read| Some(SourceRead { bases: bytes(read)? }))?;
    let aligned = aligned_by_read(&reads, list(aligned, bytes)?);
    let length = size(length)?;
    if length > effort.largest_query {
        return None;
    }
    columns(&annotate_simplex_methylation(
        length,
        &reads,
        &reference_row,
        pattern(letter)?,
        &aligned,
        yes_or_no(count_all)?,
    ))
}

fn gate(fields: &[&str]) -> Option<Reply> {
    let &[letter, inf, unc, con] = fields else { return None };
    let mut annotation = annotation(letter, inf, unc, con)?;
    gate_to_informative(&mut annotation);
    columns(&annotation)
}

fn truncate(fields: &[&str]) -> Option<Reply> {
    let &[length, letter, inf, unc, con] = fields else { return None };
    columns(&annotation(letter, inf, unc, con)?.truncate(size(length)?))
}

fn show_counts(counts: &[i16]) -> String {
    show_list(counts, i16::to_string)
}

fn counts(fields: &[&str]) -> Option<Reply> {
    let &[letter, inf, unc, con] = fields else { return None };
    let annotation = annotation(letter, inf, unc, con)?;
    done([show_counts(&annotation.unconverted_counts()), show_counts(&annotation.converted_counts())])
}

fn restore(fields: &[&str]) -> Option<Reply> {
    let &[letter, seq, inf] = fields else { return None };
    let (mut seq, inf) = (bytes(seq)?, bytes(inf)?);
    let evidence =
        inf.iter().map(|&b| MethylationEvidence { informative: b != 0, ..Default::default() }).collect();
    restore_unconverted_bases(&mut seq, &MethylationAnnotation { evidence, pattern: pattern(letter)? });
    done([show_bytes(&seq)])
}

// ---- Building --------------------------------------------------------------------------------

fn build(fields: &[&str]) -> Option<Reply> {
    let &[letter, chemistry, seq, inf, unc, con] = fields else { return None };
    let annotation = annotation(letter, inf, unc, con)?;
    match build_mm_ml_tags(&bytes(seq)?, &annotation, mode(chemistry)?) {
        Some((mm, ml)) => done([show_bytes(mm.as_bytes()), show_bytes(&ml)]),
        None => Some(Reply::Refused),
    }
}

fn build_text(fields: &[&str]) -> Option<Reply> {
    let &[letter, chemistry, seq, inf, unc, con] = fields else { return None };
    let annotation = annotation(letter, inf, unc, con)?;
    match build_mm_tag_no_ml(&bytes(seq)?, &annotation, mode(chemistry)?) {
        Some(mm) => done([show_bytes(mm.as_bytes())]),
        None => Some(Reply::Refused),
    }
}

fn duplex(fields: &[&str]) -> Option<Reply> {
    let [chemistry, seq, strands @ ..] = fields else { return None };
    if !strands.len().is_multiple_of(4) || strands.len() > 12 {
        return None;
    }
    let strands =
        strands.chunks(4).map(|s| annotation(s[0], s[1], s[2], s[3])).collect::<Option<Vec<_>>>()?;
    let lent: Vec<&MethylationAnnotation> = strands.iter().collect();
    let tags = duplex_methylation_tags(&bytes(seq)?, &lent, mode(chemistry)?);
    let text = |mm: Option<&String>| show_absent_or(mm, |mm| show_bytes(mm.as_bytes()));
    let (mm, ml) = match &tags.mm_ml {
        Some((mm, ml)) => (text(Some(mm)), show_bytes(ml)),
        None => (text(None), "-".to_string()),
    };
    let mut fields =
        vec![show_bytes(&tags.seq), mm, ml, show_counts(&tags.unconverted), show_counts(&tags.converted)];
    for strand in &tags.strands {
        fields.push(text(strand.mm.as_ref()));
        fields.push(show_counts(&strand.unconverted));
        fields.push(show_counts(&strand.converted));
    }
    Some(Reply::Done(fields))
}

// ---- Reading ---------------------------------------------------------------------------------

/// MM and ML of a request; None if MM isn't UTF-8.
pub fn tag_fields(mm: &str, ml: &str) -> Option<(String, Option<Vec<u8>>)> {
    Some((String::from_utf8(bytes(mm)?).ok()?, absent_or(ml, bytes)?))
}

/// The Rust's None for a tag, with its number if runs on the tag's beginnings show it.
pub fn refused(mm: &str, ml: Option<&[u8]>, seq: &[u8], dropped: &[usize], effort: Effort) -> Option<Reply> {
    if mm.len() > effort.longest_numbered {
        return Some(Reply::Refused);
    }
    Some(exits::number(mm, ml, seq, dropped).map_or(Reply::Refused, Reply::RefusedWith))
}

pub fn accepted(mm: &str, ml: Option<&[u8]>, seq: &[u8]) -> bool {
    drop_modifications_at(mm, ml, seq, &[]).is_some()
}

/// The same group with one more `?` at the end of its header: neither its base nor its values per
/// base change, and calls can be dropped from it.
fn droppable(group: &str) -> String {
    match group.split_once(',') {
        Some((header, skips)) => format!("{header}?,{skips};"),
        None => format!("{group}?;"),
    }
}

/// How many ML values a text takes: the one length that the Rust accepts.
fn values_taken(mm: &str, seq: &[u8], at_least: usize) -> Option<usize> {
    (at_least..=MOST_ML_FOR_CALLS + 1).find(|&n| accepted(mm, Some(&vec![0; n]), seq))
}

/// What dropping `place` removes: whether the last group lost an entry, and which ML values went.
fn taken_by_drop(mm: &str, ml: Option<&[u8]>, seq: &[u8], place: usize) -> Option<(bool, Vec<u8>)> {
    let (left, left_ml) = drop_modifications_at(mm, ml, seq, &[place])?;
    let entries = |text: &str| text.rsplit(';').nth(1).map(|group| group.matches(',').count());
    let gone = ml.unwrap_or_default().iter().filter(|v| !left_ml.contains(v)).copied().collect();
    Some((entries(&left) != entries(mm), gone))
}

/// The calls as the Rust sees them, found by dropping one place at a time from the text's first
/// group, from its first two groups, and so on: an entry that the last of them loses is a call of that group.
fn derived_calls(mm: &str, ml: Option<&[u8]>, seq: &[u8]) -> Option<Vec<String>> {
    let mut calls = Vec::new();
    let (mut fewer, mut fewer_taken) = (String::new(), 0);
    for (group, text) in mm.strip_suffix(';')?.split(';').enumerate() {
        let groups = fewer.clone() + &droppable(text);
        let taken = if ml.is_some() { values_taken(&groups, seq, fewer_taken)? } else { 0 };
        let values: Vec<u8> = (0..taken).map(|v| u8::try_from(v).ok()).collect::<Option<_>>()?;
        for place in 0..seq.len() {
            let (lost, gone) = taken_by_drop(&groups, ml.map(|_| &values[..]), seq, place)?;
            if lost {
                let own: Vec<u8> = gone.into_iter().filter(|&v| usize::from(v) >= fewer_taken).collect();
                let start = own.first().copied().unwrap_or(0);
                calls.push(format!("{}:{place}:{start}:{}", group + 1, own.len()));
            }
        }
        (fewer, fewer_taken) = (groups, taken);
    }
    Some(calls)
}

fn read_calls(fields: &[&str], effort: Effort) -> Option<Reply> {
    let &[mm, ml, seq] = fields else { return None };
    let ((mm, ml), seq) = (tag_fields(mm, ml)?, bytes(seq)?);
    if !accepted(&mm, ml.as_deref(), &seq) {
        return refused(&mm, ml.as_deref(), &seq, &[], effort);
    }
    let groups = mm.matches(';').count();
    let short = groups * seq.len() <= effort.most_runs_for_calls
        && ml.as_ref().is_none_or(|ml| ml.len() <= MOST_ML_FOR_CALLS);
    match if short { derived_calls(&mm, ml.as_deref(), &seq) } else { None } {
        Some(calls) => done([groups.to_string(), show_list(&calls, String::clone)]),
        None => done([groups.to_string()]),
    }
}

/// Whether an answer's list has exactly the calls of a tag that the Rust accepts.
#[must_use]
pub fn are_calls(fields: &[&str], listed: &str) -> bool {
    confirmed_calls(fields, listed).is_some_and(|calls| show_list(&calls, String::clone) == listed)
}

/// The calls of a tag that the Rust accepts, if a list has their places and counts.
fn confirmed_calls(fields: &[&str], listed: &str) -> Option<Vec<String>> {
    let &[mm, ml, seq] = fields else { return None };
    let ((mm, ml), seq) = (tag_fields(mm, ml)?, bytes(seq)?);
    let mut left = list(listed, place_and_count)?.into_iter();
    let (mut calls, mut taken) = (Vec::new(), 0);
    for (group, text) in mm.strip_suffix(';')?.split(';').enumerate().filter(|(_, text)| text.contains(',')) {
        let own: Vec<(usize, usize)> = left.by_ref().take(text.matches(',').count()).collect();
        let places: Vec<usize> = own.iter().map(|&(place, _)| place).collect();
        let count = own.first()?.1;
        if count > ml.as_ref().map_or(0, Vec::len)
            || !has_calls(text, &places, ml.as_ref().map(|_| count), &seq)
        {
            return None;
        }
        for place in places {
            calls.push(format!("{}:{place}:{taken}:{count}", group + 1));
            taken += count;
        }
    }
    left.next().is_none().then_some(calls)
}

fn place_and_count(call: &str) -> Option<(usize, usize)> {
    let numbers = call.split(':').map(size).collect::<Option<Vec<_>>>()?;
    let &[_, place, _, count] = &numbers[..] else { return None };
    Some((place, count))
}

/// Whether a group has its calls at these places, as many as it has entries, with `count` ML values each: if so,
/// dropping them leaves no entry.
fn has_calls(group: &str, places: &[usize], count: Option<usize>, seq: &[u8]) -> bool {
    let text = droppable(group);
    let values = count.map(|count| vec![0; count * places.len()]);
    let left = drop_modifications_at(&text, values.as_deref(), seq, places);
    places.is_sorted_by(|first, second| first < second) && left.is_some_and(|(left, _)| !left.contains(','))
}

fn tally(fields: &[&str], effort: Effort) -> Option<Reply> {
    let &[mm, ml, seq] = fields else { return None };
    let (mm, ml) = tag_fields(mm, ml)?;
    let (ml, seq) = (ml?, bytes(seq)?);
    if !accepted(&mm, Some(&ml), &seq) {
        return refused(&mm, Some(&ml), &seq, &[], effort);
    }
    let above = ml.iter().filter(|&&value| value >= 128).count();
    done([above.to_string(), (ml.len() - above).to_string()])
}

// ---- Editing ---------------------------------------------------------------------------------

fn edited(ml_given: bool, mm: &str, ml: &[u8]) -> Option<Reply> {
    let ml = if ml_given { show_bytes(ml) } else { "-".to_string() };
    done([show_bytes(mm.as_bytes()), ml])
}

fn mask(fields: &[&str], effort: Effort) -> Option<Reply> {
    let &[mm, ml, before, after] = fields else { return None };
    let (mm, ml) = tag_fields(mm, ml)?;
    let (before, after) = (bytes(before)?, bytes(after)?);
    match drop_masked_modifications(&mm, ml.as_deref(), &before, &after) {
        Some((new_mm, new_ml)) => edited(ml.is_some(), &new_mm, &new_ml),
        None if before.len() != after.len() => Some(Reply::Refused),
        None => refused(&mm, ml.as_deref(), &before, &[], effort),
    }
}

fn drop_places(fields: &[&str], effort: Effort) -> Option<Reply> {
    let &[mm, ml, seq, places] = fields else { return None };
    let (mm, ml) = tag_fields(mm, ml)?;
    let (seq, places) = (bytes(seq)?, list(places, size)?);
    match drop_modifications_at(&mm, ml.as_deref(), &seq, &places) {
        Some((new_mm, new_ml)) => edited(ml.is_some(), &new_mm, &new_ml),
        None => refused(&mm, ml.as_deref(), &seq, &places, effort),
    }
}

/// What a cut made of the tag.
pub enum Trimmed {
    Edited(Vec<u8>, Option<Vec<u8>>),
    Refused,
    NoWindow,
    Same,
}

/// Passes a cut to `trim_clipped_modifications_raw`, of bases as they are stored. An `am` beside MM tells its
/// outcomes apart: every edit respells or drops the `00` of `am`, and `am` is removed only if all tags are removed.
pub fn trim(
    mm: &[u8],
    ml: Option<&[u8]>,
    before: &[u8],
    after: &[u8],
    reverse: bool,
    start: Option<usize>,
) -> Trimmed {
    const WITNESS: &[u8] = b"N+a?,00;";
    let mut record = new_record(after, reverse);
    let mut editor = RawTagsEditor::from_vec(&mut record);
    editor.update_string(SamTag::MM, mm);
    if let Some(ml) = ml {
        editor.update_array_u8(SamTag::ML, ml);
    }
    editor.update_string(SamTag::AM_BASES, WITNESS);
    trim_clipped_modifications_raw(&mut record, before, reverse, start);
    let aux = aux_data_slice(&record);
    match (find_string_tag(aux, SamTag::AM_BASES), find_string_tag(aux, SamTag::MM)) {
        (None, _) => Trimmed::NoWindow,
        (Some(WITNESS), _) => Trimmed::Same,
        (Some(_), None) => Trimmed::Refused,
        (Some(_), Some(mm)) => {
            let ml = find_array_tag(aux, SamTag::ML).map(|array| array.data.to_vec());
            Trimmed::Edited(mm.to_vec(), ml)
        }
    }
}

/// The Rust's None for a tag of a record, which need not be text.
pub fn refused_bytes(mm: &[u8], ml: Option<&[u8]>, seq: &[u8], effort: Effort) -> Option<Reply> {
    match std::str::from_utf8(mm) {
        Ok(mm) => refused(mm, ml, seq, &[], effort),
        Err(_) => Some(Reply::Refused),
    }
}

fn cut(fields: &[&str], effort: Effort) -> Option<Reply> {
    let &[mm, ml, before, after, start] = fields else { return None };
    let (mm, ml) = (bytes(mm)?, absent_or(ml, bytes)?);
    let (before, start) = (bytes(before)?, absent_or(start, size)?);
    match trim(&mm, ml.as_deref(), &before, &bytes(after)?, false, start) {
        Trimmed::Edited(mm, ml) => done([show_bytes(&mm), show_absent_or(ml.as_ref(), |ml| show_bytes(ml))]),
        Trimmed::Refused => refused_bytes(&mm, ml.as_deref(), &before, effort),
        Trimmed::NoWindow => Some(Reply::NoWindow),
        Trimmed::Same => Some(Reply::Same),
    }
}

// ---- The session's steps ---------------------------------------------------------------------

/// The buffers of a session; the Rust's functions get their front parts.
struct Buffers {
    seq: Vec<u8>,
    mm: Vec<u8>,
    ml: Option<Vec<u8>>,
    lengths: [usize; 3],
}

impl Buffers {
    fn read(seq: &str, mm: &str, ml: &str, lengths: &str) -> Option<Self> {
        let lengths: [usize; 3] = list(lengths, size)?.try_into().ok()?;
        let buffers = Self { seq: bytes(seq)?, mm: bytes(mm)?, ml: absent_or(ml, bytes)?, lengths };
        let fits = lengths[0] <= buffers.seq.len()
            && lengths[1] <= buffers.mm.len()
            && buffers.ml.as_ref().is_none_or(|ml| lengths[2] <= ml.len());
        fits.then_some(buffers)
    }

    fn seq(&self) -> &[u8] {
        &self.seq[..self.lengths[0]]
    }

    fn mm(&self) -> &[u8] {
        &self.mm[..self.lengths[1]]
    }

    fn ml(&self) -> Option<&[u8]> {
        self.ml.as_ref().map(|ml| &ml[..self.lengths[2]])
    }

    /// Writes the new contents over the front of each buffer and answers with all of them.
    fn write(mut self, seq: &[u8], mm: &[u8], ml: &[u8]) -> Option<Reply> {
        self.seq[..seq.len()].copy_from_slice(seq);
        self.mm[..mm.len()].copy_from_slice(mm);
        self.lengths[0] = seq.len();
        self.lengths[1] = mm.len();
        if let Some(buffer) = &mut self.ml {
            buffer[..ml.len()].copy_from_slice(ml);
            self.lengths[2] = ml.len();
        }
        done([
            show_bytes(&self.seq),
            show_bytes(&self.mm),
            show_absent_or(self.ml.as_ref(), |ml| show_bytes(ml)),
            show_list(&self.lengths, usize::to_string),
        ])
    }
}

fn mask_step(buffers: Buffers, places: &[usize], effort: Effort) -> Option<Reply> {
    let mut after = buffers.seq().to_vec();
    for &place in places {
        if let Some(base) = after.get_mut(place) {
            *base = b'N';
        }
    }
    let mm = std::str::from_utf8(buffers.mm()).ok()?;
    match drop_masked_modifications(mm, buffers.ml(), buffers.seq(), &after) {
        Some((mm, ml)) => buffers.write(&after, mm.as_bytes(), &ml),
        None => refused(mm, buffers.ml(), buffers.seq(), &[], effort),
    }
}

fn drop_step(buffers: Buffers, places: &[usize], effort: Effort) -> Option<Reply> {
    let mm = std::str::from_utf8(buffers.mm()).ok()?;
    match drop_modifications_at(mm, buffers.ml(), buffers.seq(), places) {
        Some((mm, ml)) => {
            let seq = buffers.seq().to_vec();
            buffers.write(&seq, mm.as_bytes(), &ml)
        }
        None => refused(mm, buffers.ml(), buffers.seq(), places, effort),
    }
}

fn cut_step(buffers: Buffers, front: usize, back: usize, effort: Effort) -> Option<Reply> {
    // A cut of more than SEQ leaves no SEQ that could be passed to the Rust.
    let end = buffers.seq().len().checked_sub(back)?;
    let after = buffers.seq().get(front..end)?.to_vec();
    match trim(buffers.mm(), buffers.ml(), buffers.seq(), &after, false, Some(front)) {
        Trimmed::Edited(mm, ml) => buffers.write(&after, &mm, &ml.unwrap_or_default()),
        Trimmed::Refused => refused_bytes(buffers.mm(), buffers.ml(), buffers.seq(), effort),
        Trimmed::NoWindow => Some(Reply::NoWindow),
        Trimmed::Same => Some(Reply::Same),
    }
}

fn step(fields: &[&str], effort: Effort) -> Option<Reply> {
    let &[seq, mm, ml, lengths, kind, arguments] = fields else { return None };
    let buffers = Buffers::read(seq, mm, ml, lengths)?;
    let arguments = list(arguments, size)?;
    match (kind, &arguments[..]) {
        ("MK", places) => mask_step(buffers, places, effort),
        ("DR", places) => drop_step(buffers, places, effort),
        ("CU", &[front, back]) => cut_step(buffers, front, back, effort),
        _ => None,
    }
}
