//! Holds the oracle to answers that were written down before.

use crate::index::{whole_walk, Reach};
use crate::{answer, request, retire};
use std::fmt;
use std::fs;
use std::path::{Path, PathBuf};

/// Checks both parts and prints what differs; true if nothing does.
pub fn check(design: &Path, corpus: &Path) -> Result<bool, String> {
    answer::be_silent_in_panics();
    let mut walks = Held::default();
    for recording in &recordings(corpus)? {
        if recording.written.is_none() {
            return Err(format!("no walk of {} is written", recording.name));
        }
        walks.hold(recording, &recording.walk());
    }
    println!("{walks}");
    let (answers, answers_differ) = check_answers(design)?;
    println!("{answers} answers, {answers_differ} differ");
    Ok(walks.differ + answers_differ == 0)
}

fn read(path: &Path) -> Result<Vec<u8>, String> {
    fs::read(path).map_err(|error| format!("can't read {}: {error}", path.display()))
}

fn text(path: &Path) -> Result<String, String> {
    String::from_utf8(read(path)?).map_err(|_| format!("{} is no text", path.display()))
}

/// A request and its answer.
type Pair = (String, String);

/// What the design has. Of the vectors those that can be read here: others belong to changes that are to come.
pub fn written_answers(design: &Path) -> Result<Vec<Pair>, String> {
    let mut pairs = Vec::new();
    for name in ["SUMS.txt", "SILENT_PLACES.txt"] {
        pairs.extend(answers_in(design, name)?.into_iter().map(as_it_is_now));
    }
    let is_read = |(request, _): &Pair| request::read(request.as_bytes()).is_some();
    for name in ["wishes/vectors/vectors3.txt", "wishes/vectors/vectors11.txt"] {
        pairs.extend(answers_in(design, name)?.into_iter().filter(is_read));
    }
    Ok(pairs)
}

/// Requests stand behind `> `, the answer on the line after; `#` begins a comment.
fn answers_in(design: &Path, name: &str) -> Result<Vec<Pair>, String> {
    let words = text(&design.join(name))?;
    let mut pairs = Vec::new();
    let mut lines = words.lines();
    while let Some(line) = lines.next() {
        if let Some(request) = line.strip_prefix("> ") {
            let answer = lines.next().ok_or(format!("{name}: no answer to the last request"))?;
            pairs.push((request.to_string(), answer.to_string()));
        }
    }
    Ok(pairs)
}

/// Answers from before the counts left the filter: such a message is now answered by the number alone.
fn as_it_is_now((request, answer): Pair) -> Pair {
    let has_counts = retire::twin(&request).is_some();
    (request, if has_counts { "13".to_string() } else { answer })
}

fn check_answers(design: &Path) -> Result<(usize, usize), String> {
    let pairs = written_answers(design)?;
    let mut differ = 0;
    for (request, expected) in &pairs {
        let answered = answer::answer(request.as_bytes());
        if answered != *expected {
            differ += 1;
            println!("request:  {request}\nexpected: {expected}\nanswered: {answered}");
        }
    }
    Ok((pairs.len(), differ))
}

/// A recording, and its walk if one was written down.
pub struct Recording {
    pub name: String,
    pub bytes: Vec<u8>,
    pub written: Option<String>,
}

impl Recording {
    pub fn walk(&self) -> String {
        self.walk_by(Reach::Declared)
    }

    /// With a newline at its end; what went wrong, where there is none.
    fn walk_by(&self, reach: Reach) -> String {
        whole_walk(&self.bytes, reach).unwrap_or_else(|line| line) + "\n"
    }
}

/// Each recording FOLDER/NAME of the corpus may have its walk in walks/FOLDER-NAME.txt.
pub fn recordings(corpus: &Path) -> Result<Vec<Recording>, String> {
    let mut all = Vec::new();
    for folder in ["real", "damaged", "stream"] {
        for path in files(&corpus.join(folder))? {
            let name = path.file_name().unwrap_or_default().to_string_lossy().to_string();
            let walk = corpus.join("walks").join(format!("{folder}-{name}.txt"));
            let written = if walk.exists() { Some(text(&walk)?) } else { None };
            all.push(Recording { name: format!("{folder}/{name}"), bytes: read(&path)?, written });
        }
    }
    Ok(all)
}

/// Walks that were held to written ones.
#[derive(Default)]
pub struct Held {
    walks: usize,
    overrun: usize,
    pub differ: usize,
}

impl Held {
    /// A written walk knows no overrun: it must be the walk without them, and where there are none this walk. Where there
    /// are some, both are told.
    pub fn hold(&mut self, recording: &Recording, walk: &str) {
        let Recording { name, written: Some(written), .. } = recording else {
            return;
        };
        self.walks += 1;
        let overruns = entries_of(walk, "overrun") > 0;
        if overruns {
            self.overrun += 1;
            println!("{name}: {}; without overruns {}", sum_of(walk), sum_of(written));
        }
        if recording.walk_by(Reach::Further) != *written || !overruns && walk != written {
            self.differ += 1;
            println!("the walk of {name} differs");
        }
    }
}

impl fmt::Display for Held {
    fn fmt(&self, line: &mut fmt::Formatter) -> fmt::Result {
        write!(line, "{} walks, {} of them with overruns, {} differ", self.walks, self.overrun, self.differ)
    }
}

fn entries_of(walk: &str, kind: &str) -> usize {
    walk.lines().filter(|line| line.split(' ').nth(3) == Some(kind)).count()
}

/// How many entries of each kind a walk has, and its last line.
fn sum_of(walk: &str) -> String {
    let counts = ["item", "filtered", "hickup", "unrecoverable", "overrun"].map(|kind| (entries_of(walk, kind), kind));
    let there = counts.iter().filter(|(count, _)| *count > 0).map(|(count, kind)| format!("{count} {kind}, "));
    there.collect::<String>() + walk.lines().last().unwrap_or_default()
}

fn files(folder: &Path) -> Result<Vec<PathBuf>, String> {
    let entries = fs::read_dir(folder).map_err(|error| format!("can't read {}: {error}", folder.display()))?;
    let mut paths: Vec<PathBuf> = entries.filter_map(|entry| entry.ok().map(|entry| entry.path())).collect();
    paths.sort();
    Ok(paths)
}
