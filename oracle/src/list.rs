//! Makes the fixed list of requests, with the crate's answers, that the gate replays.

use crate::answer::{answer, be_silent_in_panics};
use crate::check::written_answers;
use crate::requests::{kinds, Kind};
use crate::retire::twin;
use std::collections::HashSet;
use std::fs;
use std::path::Path;

const SEED: u64 = 1;

/// Requests of a kind beside the written and the tiny ones, if there is room for them.
const MOST_OF_A_KIND: u64 = 2_500;

/// The same of a kind of `why`.
const MOST_OF_A_WHY: u64 = 66;

/// The same of old filters.
const MOST_OF_RETIRE: u64 = 360;

/// The same of a kind of the confined reading.
const MOST_OF_CONFINED: u64 = 700;

/// Longer lines are left to `compare`.
const LONGEST_LISTED: usize = 400;

/// Both files together stay below this, but for what stands behind the others and takes no room from them: the lines of
/// `why`, the twins without counts of all these, the lines of `retire`, and those of `conf` and `overrun`.
const MOST_BYTES: usize = 1_500_000;

/// A few lines that can't be read.
const UNREADABLE: [&str; 8] =
    ["", "zap 41", "zts 1 414", "zts 1 4g", "zts 1", "zts 18446744073709551616 41", "zts 1  41", "zts 1 41 "];

/// Writes `stdin` and `stdout` into a folder.
pub fn list(design: &Path, folder: &Path, words: &[&str]) -> Result<bool, String> {
    be_silent_in_panics();
    let mut chosen = Vec::new();
    for word in words {
        chosen.extend(kinds(word)?);
    }
    let (retire, chosen): (Vec<&Kind>, Vec<&Kind>) = chosen.into_iter().partition(|kind| kind.is_retire());
    let (confined, chosen): (Vec<&Kind>, Vec<&Kind>) = chosen.into_iter().partition(|kind| kind.is_confined());
    let (why, others): (Vec<&Kind>, Vec<&Kind>) = chosen.into_iter().partition(|kind| kind.is_why());
    let written = written_answers(design)?;
    let mut count = MOST_OF_A_KIND;
    let mut files = files(&others, &written, count);
    while files.requests.len() + files.answers.len() > MOST_BYTES {
        count = count * 9 / 10;
        files = self::files(&others, &written, count);
    }
    why.iter().for_each(|kind| kind.make_short(MOST_OF_A_WHY, SEED, &mut |line| files.add(line)));
    files.add_twins();
    files.add_kinds(&retire, &written, MOST_OF_RETIRE);
    files.add_kinds(&confined, &written, MOST_OF_CONFINED);
    write(folder, "stdin", &files.requests)?;
    write(folder, "stdout", &files.answers)?;
    let lines = files.requests.lines().count();
    println!("{lines} requests, {} and {} bytes", files.requests.len(), files.answers.len());
    Ok(true)
}

fn write(folder: &Path, name: &str, words: &str) -> Result<(), String> {
    let path = folder.join(name);
    fs::write(&path, words).map_err(|error| format!("can't write {}: {error}", path.display()))
}

/// The two files.
#[derive(Default)]
struct Files {
    requests: String,
    answers: String,
    seen: HashSet<String>,
}

impl Files {
    /// Adds a request that isn't there yet, and its answer.
    fn add(&mut self, line: &str) {
        if line.len() <= LONGEST_LISTED && self.seen.insert(line.to_string()) {
            self.requests.push_str(line);
            self.requests.push('\n');
            self.answers.push_str(&answer(line.as_bytes()));
            self.answers.push('\n');
        }
    }

    /// To each request whose filter has counts the same without them.
    fn add_twins(&mut self) {
        let twins: Vec<String> = self.requests.lines().filter_map(twin).collect();
        twins.iter().for_each(|line| self.add(line));
    }

    /// Of each kind the written requests, the tiny ones and so many more.
    fn add_kinds(&mut self, kinds: &[&Kind], written: &[(String, String)], count: u64) {
        for kind in kinds {
            let of_kind = |request: &&(String, String)| request.0.split(' ').next() == Some(kind.name);
            written.iter().filter(of_kind).for_each(|(request, _)| self.add(request));
            kind.make_short(count, SEED, &mut |line| self.add(line));
        }
    }
}

/// The files of some kinds.
fn files(kinds: &[&Kind], written: &[(String, String)], count: u64) -> Files {
    let mut files = Files::default();
    UNREADABLE.iter().for_each(|line| files.add(line));
    files.add_kinds(kinds, written, count);
    files
}
