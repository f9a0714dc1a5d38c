//! Runs both sides on the same requests and counts the answers that differ.

use crate::answer::{answer, be_silent_in_panics};
use crate::request::LONGEST_LINE;
use crate::requests::kinds;
use crate::retire;
use std::io::{BufWriter, Read, Write};
use std::process::{Command, Stdio};

/// Our side is started anew for each batch, so that neither side holds more than this.
const BATCH_REQUESTS: usize = 50_000;
const BATCH_BYTES: usize = 4_000_000;

/// Prints, for each kind, the first request whose answers differ, and the count; true if none differ.
pub fn compare(kind: &str, count: &str, seed: &str, ours: &[&str]) -> Result<bool, String> {
    be_silent_in_panics();
    let kinds = kinds(kind)?;
    let (mut requests, mut differ) = (0, 0);
    for kind in &kinds {
        let mut both = Both { ours, batch: String::new(), waiting: 0, requests: 0, differ: 0, problem: None };
        kind.make(read_count(count)?, read_seed(seed)?, &mut |line| both.add(line));
        both.finish();
        if kinds.len() > 1 {
            println!("{}: {} requests, {} differ", kind.name, both.requests, both.differ);
        }
        requests += both.requests;
        differ += both.differ;
    }
    println!("{requests} requests, {differ} differ");
    Ok(differ == 0)
}

/// Prints the requests alone.
pub fn make(kind: &str, count: &str, seed: &str) -> Result<bool, String> {
    let mut output = BufWriter::new(std::io::stdout().lock());
    let mut failed = false;
    for kind in kinds(kind)? {
        kind.make(read_count(count)?, read_seed(seed)?, &mut |line| failed |= writeln!(output, "{line}").is_err());
    }
    Ok(!failed)
}

/// `-` leaves the count to the kind.
fn read_count(word: &str) -> Result<Option<u64>, String> {
    if word == "-" {
        return Ok(None);
    }
    word.parse().map(Some).map_err(|_| format!("{word} is no count"))
}

fn read_seed(word: &str) -> Result<u64, String> {
    word.parse().map_err(|_| format!("{word} is no seed"))
}

struct Both<'a> {
    ours: &'a [&'a str],
    batch: String,
    waiting: usize,
    requests: usize,
    differ: usize,
    problem: Option<String>,
}

impl Both<'_> {
    fn add(&mut self, line: &str) {
        if self.problem.is_some() || line.len() > LONGEST_LINE {
            return;
        }
        if self.waiting == BATCH_REQUESTS || self.batch.len() + line.len() > BATCH_BYTES {
            self.run_batch();
        }
        self.batch.push_str(line);
        self.batch.push('\n');
        self.waiting += 1;
    }

    /// Runs what still waits. A problem with our side counts as a difference.
    fn finish(&mut self) {
        self.run_batch();
        if let Some(problem) = &self.problem {
            println!("{problem}");
            self.differ = self.differ.max(1);
        }
    }

    /// Asks our side and the crate, and compares line by line.
    fn run_batch(&mut self) {
        let batch = std::mem::take(&mut self.batch);
        self.waiting = 0;
        if batch.is_empty() || self.problem.is_some() {
            return;
        }
        let (answers, status) = match ask(self.ours, &batch) {
            Ok(done) => done,
            Err(problem) => return self.problem = Some(problem),
        };
        let mut answers = answers.split_terminator('\n');
        for request in batch.split_terminator('\n') {
            self.hold(request, answers.next().unwrap_or("(no answer)"));
        }
        if answers.next().is_some() {
            self.problem = Some("our side gave more answers than it had requests".to_string());
        } else if status != "exit status: 0" {
            self.problem = Some(format!("our side ended with {status}"));
        }
    }

    fn hold(&mut self, request: &str, ours: &str) {
        self.requests += 1;
        let Some(theirs) = difference(request, ours) else {
            return;
        };
        self.differ += 1;
        if self.differ == 1 {
            println!("request: {request}\ncrate:   {theirs}\nours:    {ours}");
        }
    }
}

/// What the crate says, where that isn't what our side says. Of a filter that our side has rewritten it is also asked
/// what it does with messages.
fn difference(request: &str, ours: &str) -> Option<String> {
    let theirs = answer(request.as_bytes());
    if theirs != ours {
        return Some(theirs);
    }
    request.strip_prefix("retire ").and_then(|filter| retire::other_verdict(filter, ours))
}

/// What our side answers to a batch, and how it ended.
fn ask(ours: &[&str], batch: &str) -> Result<(String, String), String> {
    let (program, words) = ours.split_first().ok_or("no command for our side")?;
    let started = Command::new(program).args(words).stdin(Stdio::piped()).stdout(Stdio::piped()).spawn();
    let mut child = started.map_err(|error| format!("can't start our side, {program}: {error}"))?;
    let (Some(mut input), Some(mut output)) = (child.stdin.take(), child.stdout.take()) else {
        return Err("no pipe to our side".to_string());
    };
    let mut answers = Vec::new();
    std::thread::scope(|threads| {
        // if our side ends early, the answers that lack will say so
        threads.spawn(move || drop(input.write_all(batch.as_bytes())));
        output.read_to_end(&mut answers)
    })
    .map_err(|error| error.to_string())?;
    let status = child.wait().map_err(|error| error.to_string())?;
    Ok((String::from_utf8_lossy(&answers).into_owned(), status.to_string()))
}
