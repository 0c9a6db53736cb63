//! The inputs of one size and density, the same for every side and every run.

use crate::MethylationMode;
use crate::dna::reverse_complement;
use crate::methylation::{ConversionPattern, MethylationAnnotation, MethylationEvidence, build_mm_ml_tags};
use crate::vanilla_caller::SourceRead;

const READS: usize = 8;

/// How many of the tracked bases are listed, and where reads are counted.
#[derive(Clone, Copy, PartialEq)]
pub enum Density {
    /// Every tracked base is listed; reads are counted at every position.
    Dense,
    /// One tracked base in twenty is listed; reads are counted at the informative positions.
    Sparse,
}

impl Density {
    pub fn name(self) -> &'static str {
        match self {
            Self::Dense => "dense",
            Self::Sparse => "sparse",
        }
    }
}

/// Marsaglia's xorshift, so that no library decides the inputs.
struct Random(u64);

impl Random {
    fn below(&mut self, n: u64) -> u64 {
        self.0 ^= self.0 << 13;
        self.0 ^= self.0 >> 7;
        self.0 ^= self.0 << 17;
        (self.0 >> 20) % n
    }

    fn one_in(&mut self, n: u64) -> bool {
        self.below(n) == 0
    }
}

/// The evidence as the port takes it: three columns.
#[derive(PartialEq)]
pub struct Columns {
    pub informative: Vec<u8>,
    pub unconverted: Vec<u32>,
    pub converted: Vec<u32>,
}

impl Columns {
    pub fn of(annotation: &MethylationAnnotation) -> Self {
        let evidence = &annotation.evidence;
        Self {
            informative: evidence.iter().map(|e| u8::from(e.informative)).collect(),
            unconverted: evidence.iter().map(|e| e.unconverted_count).collect(),
            converted: evidence.iter().map(|e| e.converted_count).collect(),
        }
    }
}

/// The reads of a count, as each side takes them.
pub struct Reads {
    pub by_read: Vec<SourceRead>,
    pub aligned_by_read: Vec<Vec<bool>>,
    pub lengths: Vec<u32>,
    pub joined: Vec<u8>,
    pub aligned_joined: Vec<u8>,
    pub reference: Vec<Option<u8>>,
    pub reference_bytes: Vec<u8>,
}

/// The read as a BAM record stores it if it is reverse: reverse-complemented, two bases to a byte. So are SEQ after a mask and after a
/// cut. The places are those of the stored read.
pub struct Stored {
    pub seq: Vec<u8>,
    pub masked: Vec<u8>,
    pub window: Vec<u8>,
    pub places: Vec<u32>,
    pub places_as_sizes: Vec<usize>,
}

pub struct Case {
    pub bases: usize,
    pub density: Density,
    pub seq: Vec<u8>,
    pub annotation: MethylationAnnotation,
    pub columns: Columns,
    pub mm: String,
    pub ml: Vec<u8>,
    /// One place in ten, to be masked or dropped.
    pub places: Vec<u32>,
    pub places_as_sizes: Vec<usize>,
    pub masked: Vec<u8>,
    /// How many bases a cut takes off each end.
    pub cut: usize,
    pub reads: Reads,
    pub stored: Stored,
}

fn evidence(seq: &[u8], density: Density, random: &mut Random) -> MethylationAnnotation {
    let evidence = seq
        .iter()
        .map(|&base| {
            let listed = base == b'C' && (density == Density::Dense || random.one_in(20));
            let (unconverted, converted) = (random.below(30) as u32 + 1, random.below(30) as u32);
            MethylationEvidence {
                informative: listed,
                unconverted_count: if listed { unconverted } else { 0 },
                converted_count: if listed { converted } else { 0 },
            }
        })
        .collect();
    MethylationAnnotation { evidence, pattern: ConversionPattern::CToT }
}

/// Reads of more than three quarters of the length of SEQ. Half of their C are converted, and one base in twenty is not aligned.
fn reads(seq: &[u8], random: &mut Random) -> Reads {
    let lengths: Vec<usize> = (0..READS).map(|_| seq.len() - random.below(seq.len() as u64 / 4) as usize).collect();
    let read = |&n: &usize, random: &mut Random| -> Vec<u8> {
        seq[..n].iter().map(|&b| if b == b'C' && random.one_in(2) { b'T' } else { b }).collect()
    };
    let bases: Vec<Vec<u8>> = lengths.iter().map(|n| read(n, random)).collect();
    let aligned: Vec<Vec<bool>> = lengths.iter().map(|&n| (0..n).map(|_| !random.one_in(20)).collect()).collect();
    let reference: Vec<Option<u8>> = seq.iter().map(|&b| if random.one_in(50) { None } else { Some(b) }).collect();
    Reads {
        lengths: lengths.iter().map(|&n| n as u32).collect(),
        joined: bases.concat(),
        aligned_joined: aligned.concat().iter().map(|&yes| u8::from(yes)).collect(),
        reference_bytes: reference.iter().map(|b| b.unwrap_or(0)).collect(),
        by_read: bases.into_iter().map(|bases| SourceRead { bases }).collect(),
        aligned_by_read: aligned,
        reference,
    }
}

/// The bases two to a byte, by the codes of SAM v1. A spare half is 0.
pub fn packed(seq: &[u8]) -> Vec<u8> {
    let code = |base: &u8| b"=ACMGRSVTWYHKDBN".iter().position(|letter| letter == base).expect("a letter of SAM") as u8;
    let pair = |two: &[u8]| code(&two[0]) * 16 + two.get(1).map_or(0, code);
    seq.chunks(2).map(pair).collect()
}

pub fn turned_and_packed(seq: &[u8]) -> Vec<u8> {
    packed(&reverse_complement(seq))
}

/// `places` rise in read orientation, and so do those of the stored read.
fn stored(seq: &[u8], masked: &[u8], window: &[u8], places: &[u32]) -> Stored {
    let mirrored: Vec<u32> = places.iter().rev().map(|&place| seq.len() as u32 - 1 - place).collect();
    Stored {
        seq: turned_and_packed(seq),
        masked: turned_and_packed(masked),
        window: turned_and_packed(window),
        places_as_sizes: mirrored.iter().map(|&place| place as usize).collect(),
        places: mirrored,
    }
}

impl Case {
    pub fn new(bases: usize, density: Density) -> Self {
        let mut random = Random(88_172_645_463_325_252);
        let seq: Vec<u8> = (0..bases).map(|_| b"ACGT"[random.below(4) as usize]).collect();
        let annotation = evidence(&seq, density, &mut random);
        let (mm, ml) = build_mm_ml_tags(&seq, &annotation, MethylationMode::EmSeq).expect("some base is listed");
        let places: Vec<u32> = (0..bases as u32).filter(|_| random.one_in(10)).collect();
        let mut masked = seq.clone();
        places.iter().for_each(|&place| masked[place as usize] = b'N');
        let cut = bases / 10;
        Self {
            bases,
            density,
            columns: Columns::of(&annotation),
            annotation,
            mm,
            ml,
            places_as_sizes: places.iter().map(|&place| place as usize).collect(),
            stored: stored(&seq, &masked, &seq[cut..bases - cut], &places),
            places,
            masked,
            cut,
            reads: reads(&seq, &mut random),
            seq,
        }
    }

    /// SEQ after the cut.
    pub fn window(&self) -> &[u8] {
        &self.seq[self.cut..self.bases - self.cut]
    }
}
