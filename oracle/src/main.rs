//! Runs the Rust's files, unchanged, behind the line protocol of the program `ask`.
//!
//!     fgumi-oracle < requests > answers        # the Rust's answers
//!     fgumi-oracle judge < pairs > verdicts    # compares answers with the Rust's (agree.rs)
//!     fgumi-oracle load ..                     # sends random requests to a program and to the Rust (load.rs)
//!
//! A pair is a request and an answer, a line each. Its verdict is `=`, or `~` and the name of a difference, or, if
//! the two disagree, `!` and the Rust's answer. An answer of the Rust is a line:
//!
//! - `0` and the fields if the Rust answers;
//! - `None` if it gives None, and `None4` to `None10` if further runs show at which exit (exits.rs);
//! - `None11` if a cut lost every tag, since SEQ is not a window; `Same` if a cut left the tag unread;
//! - `PANIC` if it panicked;
//! - `?` if the request cannot be passed to the Rust at all.
//!
//! The Rust has no counterpart of the room that a request may lend (`@..`), so the room is ignored.

mod agree;
mod calls;
mod corpus;
mod damage;
mod exits;
mod form;
mod load;
mod protocol;
mod random;
mod records;
mod stand_ins;
mod stored;
mod tag;
mod value;

// methylation.rs and modifications.rs use `crate::MethylationMode` and `crate::vanilla_caller`, and the
// path `fgumi_dna::dna` for the module that is `dna` here.
extern crate self as fgumi_dna;
pub use stand_ins::{MethylationMode, vanilla_caller};

include!(concat!(env!("OUT_DIR"), "/originals.rs"));

use agree::Verdict;
use calls::{Effort, WHOLE};
use std::borrow::Cow;
use std::io::{self, BufRead, BufWriter, Write};
use std::{env, panic, process};

/// The Rust's answer line.
fn answer_line(line: &[u8], effort: Effort) -> String {
    let Ok(line) = std::str::from_utf8(line) else { return "?".to_string() };
    match panic::catch_unwind(|| calls::answer(line, effort)) {
        Ok(Some(reply)) => reply.to_line(),
        Ok(None) => "?".to_string(),
        Err(_) => "PANIC".to_string(),
    }
}

/// Compares an answer with the Rust's.
fn verdict(line: &[u8], rust: &str, answer: &[u8], effort: Effort) -> Verdict {
    let [line, answer] = [line, answer].map(|text| match std::str::from_utf8(text) {
        Ok(text) => Cow::Borrowed(text),
        // A line that is not UTF-8 is not of the form, and is still not of the form with its odd bytes replaced.
        Err(_) => String::from_utf8_lossy(text),
    });
    agree::verdict(&line, rust, &answer, effort)
}

/// Reads a line without its end; false if there is none.
fn read_line(input: &mut impl BufRead, line: &mut Vec<u8>) -> io::Result<bool> {
    line.clear();
    let found = input.read_until(b'\n', line)? > 0;
    if line.last() == Some(&b'\n') {
        line.pop();
    }
    Ok(found)
}

fn print_answers(input: &mut impl BufRead, output: &mut impl Write) -> io::Result<()> {
    let mut line = Vec::new();
    while read_line(input, &mut line)? {
        writeln!(output, "{}", answer_line(&line, WHOLE))?;
    }
    Ok(())
}

fn print_verdicts(input: &mut impl BufRead, output: &mut impl Write) -> io::Result<()> {
    let (mut line, mut answer) = (Vec::new(), Vec::new());
    while read_line(input, &mut line)? && read_line(input, &mut answer)? {
        let rust = answer_line(&line, WHOLE);
        match verdict(&line, &rust, &answer, WHOLE) {
            Verdict::Equal => writeln!(output, "=")?,
            Verdict::Named(name) => writeln!(output, "~{name}")?,
            Verdict::Disagreement => writeln!(output, "!{rust}")?,
        }
    }
    Ok(())
}

fn main() -> io::Result<()> {
    let usual = panic::take_hook();
    panic::set_hook(Box::new(move |what| {
        // A panic of the originals is an answer here; its message would only fill the terminal.
        let original = |file: &str| file.ends_with("methylation.rs") || file.ends_with("modifications.rs");
        if !what.location().is_some_and(|place| original(place.file())) {
            usual(what);
        }
    }));
    let arguments: Vec<String> = env::args().skip(1).collect();
    let (mut input, mut output) = (io::stdin().lock(), BufWriter::new(io::stdout().lock()));
    match arguments.first().map(String::as_str) {
        None => print_answers(&mut input, &mut output)?,
        Some("judge") => print_verdicts(&mut input, &mut output)?,
        Some("load") => {
            let status = load::run(&arguments[1..], &mut output)?;
            output.flush()?;
            process::exit(status);
        }
        Some(other) => panic!("no such way to run: {other}"),
    }
    output.flush()
}
