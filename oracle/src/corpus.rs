//! The requests from which random requests are made.

use crate::answer_line;
use crate::calls::QUICK;
use crate::random::Random;
use std::collections::HashMap;
use std::{fs, io};

/// Longer lines are picked rarely.
const LONG_LINE: usize = 4_000;
const LONG_ONE_IN: usize = 2_000;
/// One picked short line in so many is a line that the Rust doesn't answer.
const REFUSED_ONE_IN: usize = 8;

pub struct Corpus {
    lines: Vec<String>,
    // Places in `lines`.
    answered: Vec<usize>,
    refused: Vec<usize>,
    long: Vec<usize>,
    by_call: HashMap<String, Vec<usize>>,
}

impl Corpus {
    /// Reads a file of requests.
    pub fn read(path: &str) -> io::Result<Self> {
        let text = fs::read(path)?;
        let lines = text.split(|&byte| byte == b'\n').map(|line| String::from_utf8_lossy(line).into_owned());
        let mut corpus = Self {
            lines: lines.collect(),
            answered: Vec::new(),
            refused: Vec::new(),
            long: Vec::new(),
            by_call: HashMap::new(),
        };
        for (place, line) in corpus.lines.iter().enumerate() {
            if line.len() > LONG_LINE {
                corpus.long.push(place);
                continue;
            }
            let answered = answer_line(line.as_bytes(), QUICK).starts_with("0\t");
            if answered { &mut corpus.answered } else { &mut corpus.refused }.push(place);
            let call = line.split('\t').next().unwrap_or_default();
            corpus.by_call.entry(call.to_string()).or_default().push(place);
        }
        if corpus.answered.is_empty() {
            return Err(io::Error::other(format!("{path} has no request that the Rust answers")));
        }
        Ok(corpus)
    }

    pub fn pick(&self, random: &mut Random) -> &str {
        let wanted = if random.one_in(LONG_ONE_IN) {
            &self.long
        } else if random.one_in(REFUSED_ONE_IN) {
            &self.refused
        } else {
            &self.answered
        };
        let from = if wanted.is_empty() { &self.answered } else { wanted };
        &self.lines[random.pick(from)]
    }

    /// A short request of the call.
    pub fn pick_of(&self, call: &str, random: &mut Random) -> Option<&str> {
        self.by_call.get(call).map(|places| self.lines[random.pick(places)].as_str())
    }
}
