//! Sends random and damaged requests to a program, and compares its answers with the Rust's.
//!
//!     fgumi-oracle load SEED COUNT CORPUS SAMPLE OUT -- COMMAND ARGS..
//!
//! CORPUS is a file of requests, from which COUNT requests are made. About SAMPLE of them, with the program's
//! answers, go to OUT.requests and OUT.answers, to be compared with the model. A request whose answer disagrees with
//! the Rust's, or is missing, goes to OUT.failures. The status is 1 if there is one, or if the program fails.

use crate::agree::Verdict;
use crate::calls::QUICK;
use crate::corpus::Corpus;
use crate::damage::Damage;
use crate::form::Call;
use crate::{answer_line, read_line, verdict};
use std::collections::BTreeMap;
use std::fs::File;
use std::io::{self, BufRead, BufReader, BufWriter, Write};
use std::process::{Child, ChildStdin, Command, ExitStatus, Stdio};
use std::sync::Arc;
use std::sync::mpsc::{Receiver, SyncSender, sync_channel};
use std::thread;
use std::time::Duration;

/// The number of requests in a chunk.
const CHUNK: usize = 2_000;
/// How many chunks may wait for their answers: a program may hold answers back until its buffer is full.
const WAITING: usize = 16;
/// A run ends after so many disagreements.
const MOST_FAILURES: usize = 10;

struct Options<'a> {
    seed: u64,
    count: usize,
    corpus: &'a str,
    sample: usize,
    out: &'a str,
    command: &'a [String],
}

impl<'a> Options<'a> {
    fn of(arguments: &'a [String]) -> Option<Self> {
        let [seed, count, corpus, sample, out, dashes, command @ ..] = arguments else { return None };
        let (seed, count, sample) = (seed.parse().ok()?, count.parse().ok()?, sample.parse().ok()?);
        let whole = dashes == "--" && !command.is_empty();
        whole.then_some(Self { seed, count, corpus, sample, out, command })
    }

    fn file(&self, kind: &str) -> io::Result<BufWriter<File>> {
        Ok(BufWriter::new(File::create(format!("{}.{kind}", self.out))?))
    }
}

/// Makes the requests and feeds them to the program; ends early if the program takes no more.
fn feed(options: &Options, corpus: &Corpus, mut program: ChildStdin, chunks: SyncSender<Arc<Vec<u8>>>) {
    let mut damage = Damage::new(options.seed, corpus);
    let mut left = options.count;
    while left > 0 {
        let mut lines = Vec::new();
        for _ in 0..left.min(CHUNK) {
            damage.write_next(&mut lines);
            lines.push(b'\n');
        }
        left -= left.min(CHUNK);
        let lines = Arc::new(lines);
        // The judge must have a chunk before the program can answer it.
        if chunks.send(Arc::clone(&lines)).is_err() || program.write_all(&lines).is_err() {
            return;
        }
    }
}

/// The results of the requests so far.
struct Tally {
    asked: usize,
    disagreements: usize,
    /// By call, then by the answer's number; None for an answer without a number, such as `?`.
    numbers: BTreeMap<String, BTreeMap<Option<u32>, usize>>,
    named: BTreeMap<&'static str, usize>,
    every: usize,
    requests: BufWriter<File>,
    answers: BufWriter<File>,
    failures: BufWriter<File>,
}

impl Tally {
    fn new(options: &Options) -> io::Result<Self> {
        Ok(Self {
            asked: 0,
            disagreements: 0,
            numbers: BTreeMap::new(),
            named: BTreeMap::new(),
            every: options.count.checked_div(options.sample).map_or(usize::MAX, |every| every.max(1)),
            requests: options.file("requests")?,
            answers: options.file("answers")?,
            failures: options.file("failures")?,
        })
    }

    fn add(&mut self, line: &[u8], answer: &[u8]) -> io::Result<()> {
        if self.asked % self.every == self.every - 1 {
            for (file, text) in [(&mut self.requests, line), (&mut self.answers, answer)] {
                file.write_all(text)?;
                file.write_all(b"\n")?;
            }
        }
        self.asked += 1;
        self.count(line, answer);
        let rust = answer_line(line, QUICK);
        match verdict(line, &rust, answer, QUICK) {
            Verdict::Equal => {}
            Verdict::Named(name) => *self.named.entry(name).or_default() += 1,
            Verdict::Disagreement => {
                self.disagreements += 1;
                self.fail(line)?;
            }
        }
        Ok(())
    }

    fn count(&mut self, line: &[u8], answer: &[u8]) {
        let first = |text: &[u8]| {
            String::from_utf8_lossy(text.split(|&byte| byte == b'\t').next().unwrap_or_default()).into_owned()
        };
        let (call, number) = (first(line), first(answer).parse().ok());
        let known = number.is_some() || Call::named(&call).is_some();
        let call = if known { call } else { "(none)".to_string() };
        *self.numbers.entry(call).or_default().entry(number).or_default() += 1;
    }

    fn fail(&mut self, line: &[u8]) -> io::Result<()> {
        self.failures.write_all(line)?;
        self.failures.write_all(b"\n")
    }

    fn print(&self, output: &mut impl Write) -> io::Result<()> {
        for (call, numbers) in &self.numbers {
            let name = |number: &Option<u32>| number.map_or("?".to_string(), |number| number.to_string());
            let shown =
                numbers.iter().map(|(number, &count)| format!("{}: {}", name(number), grouped(count)));
            writeln!(output, "{call}  {}", shown.collect::<Vec<_>>().join(", "))?;
        }
        for (name, &count) in &self.named {
            writeln!(output, "~ {name}: {}", grouped(count))?;
        }
        let answered: usize = self.numbers.values().filter_map(|numbers| numbers.get(&Some(0))).sum();
        let [asked, answered, wrong] = [self.asked, answered, self.disagreements].map(grouped);
        writeln!(output, "{asked} requests, {answered} answered 0, {wrong} disagreements")
    }
}

/// A number with commas between its thousands.
fn grouped(number: usize) -> String {
    let digits = number.to_string();
    let mut shown = String::new();
    for (place, digit) in digits.chars().enumerate() {
        if place > 0 && (digits.len() - place).is_multiple_of(3) {
            shown.push(',');
        }
        shown.push(digit);
    }
    shown
}

/// How the answers ended.
#[derive(Clone, Copy, PartialEq, Eq)]
enum End {
    Whole,
    /// The program's answers ended before the requests.
    Missing,
    /// There are more answers than requests.
    Over,
    TooManyDisagree,
}

/// Reads and judges an answer for each request.
fn judge(chunks: &Receiver<Arc<Vec<u8>>>, program: &mut impl BufRead, tally: &mut Tally) -> io::Result<End> {
    let mut answer = Vec::new();
    for lines in chunks {
        for line in lines.strip_suffix(b"\n").unwrap_or_default().split(|&byte| byte == b'\n') {
            if !read_line(program, &mut answer)? {
                tally.fail(line)?;
                return Ok(End::Missing);
            }
            tally.add(line, &answer)?;
            if tally.disagreements == MOST_FAILURES {
                return Ok(End::TooManyDisagree);
            }
        }
    }
    Ok(if read_line(program, &mut answer)? { End::Over } else { End::Whole })
}

fn start(command: &[String]) -> io::Result<Child> {
    Command::new(&command[0]).args(&command[1..]).stdin(Stdio::piped()).stdout(Stdio::piped()).spawn()
}

/// The program's status. Mostly it has ended by itself, and the status shows why; otherwise it is killed.
fn status_of(program: &mut Child) -> io::Result<ExitStatus> {
    for _ in 0..100 {
        if let Some(status) = program.try_wait()? {
            return Ok(status);
        }
        thread::sleep(Duration::from_millis(20));
    }
    program.kill()?;
    program.wait()
}

/// Runs the load and gives its exit status.
pub fn run(arguments: &[String], output: &mut impl Write) -> io::Result<i32> {
    let Some(options) = Options::of(arguments) else {
        eprintln!("load SEED COUNT CORPUS SAMPLE OUT -- COMMAND ARGS..");
        return Ok(2);
    };
    let corpus = Corpus::read(options.corpus)?;
    let mut tally = Tally::new(&options)?;
    let mut program = start(options.command)?;
    let input = program.stdin.take().expect("it was asked for");
    let mut answers = BufReader::new(program.stdout.take().expect("it was asked for"));
    let (sender, chunks) = sync_channel(WAITING);
    let (end, status) = thread::scope(|scope| {
        let (options, corpus) = (&options, &corpus);
        scope.spawn(move || feed(options, corpus, input, sender));
        let end = judge(&chunks, &mut answers, &mut tally);
        // The feeding ends when neither the judge nor the program takes anything more.
        drop((chunks, answers));
        let end = end?;
        Ok::<_, io::Error>((end, if end == End::Whole { program.wait()? } else { status_of(&mut program)? }))
    })?;
    match end {
        End::Missing => eprintln!("the program gave {} answers and ended: {status}", grouped(tally.asked)),
        End::Over => eprintln!("the program gives more answers than there are requests"),
        End::Whole if !status.success() => eprintln!("the program answered all and then failed: {status}"),
        _ => {}
    }
    tally.print(output)?;
    for file in [&mut tally.requests, &mut tally.answers, &mut tally.failures] {
        file.flush()?;
    }
    Ok(i32::from(end != End::Whole || !status.success() || tally.disagreements > 0))
}
