//! worth COUNT SEED [THREADS]: what a need is worth. Messages are cut behind their headers, where the need is what the declared length says is missing, and
//! asked of the crate and of the archive: cut; with all bytes of the need but one; and with all of them, which are random. The first two must wait. The third
//! must be decided, if the message isn't verbose or the filter drops it. The index is asked the same of messages with a storage header, and there
//! the third must be decided always: where the message waits on, by an overrun. First comes a fixed part with every message info. No answer may be Hickup 3. With
//! threads, each has a seed of its own: SEED, SEED + 1, ..
//! worth recordings DIR: the same of the index over each recording below DIR, cut at every byte; the bytes of the need are the recording's own.
//! worth --self-test: false answers, each of which the judges must catch.

#[path = "worth/judge.rs"]
mod judge;
#[path = "worth/make.rs"]
mod make;
#[path = "worth/recordings.rs"]
mod recordings;
#[path = "worth/self_test.rs"]
mod self_test;

use host::{Entry, State, NO_LIMIT};
use judge::{judge, judge_walks, judge_whole, Due, Pair, Stand, Verdict, Walks};
use make::{random_case, short_messages, Case, FILTERS};
use oracle::requests::messages::request;
use oracle::requests::random::Rng;
use std::io::IsTerminal;
use std::panic::catch_unwind;
use std::path::Path;
use std::process::exit;
use std::sync::atomic::{AtomicU64, Ordering};

const HELP: &str = "\
worth COUNT SEED [THREADS]  COUNT messages cut behind their headers, asked of the crate and of the archive
worth recordings DIR        every recording (*.dlt) below DIR, cut at every byte, asked of the index
worth --self-test           false answers, each of which must be caught
Exit status: 0 if nothing fails, 1 if something does, 2 if the words are wrong or a file can't be read.
";

/// What was asked, and what came of it. The messages that fail are in none of the counts from `items` on.
#[derive(Default)]
struct Tally {
    questions: u64,
    hickups_three: u64,
    cut: u64,
    whole: u64,
    walks: u64,
    fail: u64,
    first: Option<String>,
    items: u64,
    filtered: u64,
    unrecoverable: u64,
    verbose: u64,
    wait_on: u64,
    walks_decided: u64,
    overruns: u64,
}

impl Tally {
    fn add(&mut self, other: Tally) {
        self.questions += other.questions;
        self.hickups_three += other.hickups_three;
        self.cut += other.cut;
        self.whole += other.whole;
        self.walks += other.walks;
        self.fail += other.fail;
        self.first = self.first.take().or(other.first);
        self.items += other.items;
        self.filtered += other.filtered;
        self.unrecoverable += other.unrecoverable;
        self.verbose += other.verbose;
        self.wait_on += other.wait_on;
        self.walks_decided += other.walks_decided;
        self.overruns += other.overruns;
    }

    fn fails(&mut self, text: impl FnOnce() -> String) {
        self.fail += 1;
        self.first.get_or_insert_with(text);
    }

    /// A cut message of which everything holds.
    fn holds(&mut self, verdict: Verdict, due: &Due, storage: bool) {
        let waits = u64::from(matches!(verdict, Verdict::Waits(_)));
        match verdict {
            Verdict::Filtered(_) => self.filtered += 1,
            _ if due.verbose => self.verbose += 1,
            Verdict::Unrecoverable => self.unrecoverable += 1,
            _ => self.items += 1,
        }
        self.wait_on += waits;
        if storage {
            self.walks_decided += 1;
            self.overruns += waits;
        }
    }

    /// The first bytes of a case up to `end`, asked of both.
    fn ask(&mut self, case: &Case, end: usize) -> Pair {
        let line = case.request(end);
        let ours = catch_unwind(|| host::text::answer(&line)).unwrap_or(Some("panic".to_string()));
        let pair = Pair { theirs: oracle::answer::answer(line.as_bytes()), ours: ours.unwrap_or("bad request".to_string()) };
        self.questions += 1;
        self.hickups_three += pair.hickups_three();
        pair
    }
}

fn shown(why: &str, line: &str, pair: &Pair) -> String {
    format!("fails:   {why}\nrequest: {line}\ncrate:   {}\nours:    {}", pair.theirs, pair.ours)
}

/// A whole message: one question.
fn try_whole(case: &Case, tally: &mut Tally) {
    let due = case.due();
    let pair = tally.ask(case, due.end);
    tally.whole += 1;
    if let Err(why) = judge_whole(&due, &pair) {
        tally.fails(|| shown(why, &case.request(due.end), &pair));
    }
}

/// A cut message: three questions, and the index if it has a storage header. The verdict on the whole, if all holds.
fn try_cut(case: &Case, tally: &mut Tally) -> Option<Verdict> {
    let due = case.due();
    let ends = [case.cut, due.end - 1, due.end];
    let pairs = ends.map(|end| tally.ask(case, end));
    tally.cut += 1;
    let verdict = match judge(&due, &pairs) {
        Ok(verdict) => verdict,
        Err((which, why)) => {
            tally.fails(|| shown(why, &case.request(ends[which]), &pairs[which]));
            return None;
        }
    };
    if case.storage && !try_walks(case, &due, verdict, tally) {
        return None;
    }
    tally.holds(verdict, &due, case.storage);
    Some(verdict)
}

/// Entries that the table has room for.
const ROOM: usize = 16;

/// The index over the trace without the need's bytes, and from where it stands then. None if it refuses.
fn walks(case: &Case, trace: &[u8], need: usize) -> Option<Walks> {
    let mut table = [Entry::default(); ROOM];
    let mut call = |from: State, end: usize| host::index(trace.get(from.at..end)?, &case.filter, from, &mut table, NO_LIMIT).ok();
    let cut = call(State::default(), trace.len() - need)?;
    let fewer = call(cut.state, trace.len() - 1)?;
    let whole = call(cut.state, trace.len())?;
    Some(Walks { cut, fewer, whole, entry: host::text::entry_text(&table[case.leads]) })
}

fn try_walks(case: &Case, due: &Due, verdict: Verdict, tally: &mut Tally) -> bool {
    let trace = [&case.lead[..], &case.bytes[..due.end]].concat();
    let state = State { at: case.lead.len(), used: case.leads };
    let stand = Stand { state, need: due.need, skipped: case.skipped, declared: case.heads().declared };
    tally.walks += 1;
    let walks = walks(case, &trace, due.need);
    let judged = walks.as_ref().map_or(Err("the index refuses"), |walks| judge_walks(&stand, verdict, walks));
    if let Err(why) = judged {
        tally.fails(|| {
            let line = request(true, &case.filter, &trace).replacen("msg 1", &format!("index {ROOM} 0 0"), 1);
            format!("fails:   {why}; the need is the last {} bytes\nrequest: {line}\nours:    {walks:?}", due.need)
        });
    }
    judged.is_ok()
}

/// The fixed part: every message info in short messages, whole and cut at each place behind their headers.
fn every_message_info(seed: u64) -> Tally {
    let (mut rng, mut tally) = (Rng::new(!seed), Tally::default());
    for info in 0..=255 {
        short_messages(&mut rng, info, &mut |case| {
            if case.cut == case.bytes.len() {
                try_whole(case, &mut tally);
            } else {
                try_cut(case, &mut tally);
            }
        });
    }
    tally
}

/// What the random part has met: each message info in an extended header, and of each kind of filter how many messages it was given and how many it dropped.
struct Met {
    infos: [bool; 256],
    given: [u64; FILTERS.len()],
    dropped: [u64; FILTERS.len()],
}

impl Met {
    fn none() -> Met {
        Met { infos: [false; 256], given: [0; FILTERS.len()], dropped: [0; FILTERS.len()] }
    }

    fn add(&mut self, other: &Met) {
        self.infos.iter_mut().zip(other.infos).for_each(|(mine, met)| *mine |= met);
        self.given.iter_mut().zip(other.given).for_each(|(mine, more)| *mine += more);
        self.dropped.iter_mut().zip(other.dropped).for_each(|(mine, more)| *mine += more);
    }
}

/// A line on a terminal that says how far it is.
struct Progress {
    done: AtomicU64,
    count: u64,
    shown: bool,
}

impl Progress {
    fn step(&self) {
        let done = self.done.fetch_add(1, Ordering::Relaxed) + 1;
        if self.shown && done == self.count {
            eprint!("\r\x1b[K");
        } else if self.shown && done % 10_000 == 0 {
            eprint!("\r{done} of {}", self.count);
        }
    }
}

fn random_part(count: u64, seed: u64, progress: &Progress) -> (Tally, Met) {
    let (mut rng, mut tally, mut met) = (Rng::new(seed), Tally::default(), Met::none());
    for number in 0..count {
        // every message info in turn, but a quarter become log messages, which alone have a level
        let info = if rng.one_in(4) { number as u8 & 0xf1 } else { number as u8 };
        let kind = rng.below(FILTERS.len());
        let case = random_case(&mut rng, info, kind);
        let verdict = try_cut(&case, &mut tally);
        met.infos[usize::from(info)] |= case.has_extended_header();
        met.given[kind] += 1;
        met.dropped[kind] += u64::from(matches!(verdict, Some(Verdict::Filtered(_))));
        progress.step();
    }
    (tally, met)
}

/// The same on each thread with a seed of its own.
fn random_parts(count: u64, seed: u64, threads: u64) -> Result<(Tally, Met), String> {
    let progress = &Progress { done: AtomicU64::new(0), count, shown: std::io::stderr().is_terminal() };
    let parts: Vec<_> = std::thread::scope(|scope| {
        let start = |thread: u64| {
            let share = count / threads + u64::from(thread < count % threads);
            scope.spawn(move || random_part(share, seed.wrapping_add(thread), progress))
        };
        let started: Vec<_> = (0..threads).map(start).collect();
        started.into_iter().map(|part| part.join()).collect()
    });
    let (mut tally, mut met) = (Tally::default(), Met::none());
    for part in parts {
        let part = part.map_err(|_| "a panic".to_string())?;
        tally.add(part.0);
        met.add(&part.1);
    }
    Ok((tally, met))
}

fn print_sections(fixed: &Tally, random: &Tally, met: &Met) {
    let asked = |tally: &Tally| format!("{} questions to each side, {} answers are Hickup 3, {} fail", tally.questions, tally.hickups_three, tally.fail);
    println!("every message info: {} short messages cut at {} places: {}", fixed.whole, fixed.cut, asked(fixed));
    let infos = met.infos.iter().filter(|met| **met).count();
    println!("random: {} cut messages, {infos} message infos: {}", random.cut, asked(random));
    let filter = |kind: usize| format!("{} {} of {}", FILTERS[kind], met.dropped[kind], met.given[kind]);
    println!("dropped by filter: {}", (0..FILTERS.len()).map(filter).collect::<Vec<_>>().join(", "));
    let (walks, decided, overruns) = (fixed.walks + random.walks, fixed.walks_decided + random.walks_decided, fixed.overruns + random.overruns);
    println!(
        "index: of {walks} cut traces {decided} wait with the message's need, and with one byte fewer, and take its entry with all of it, {overruns} of them an \
         overrun where the message waits on; {} fail",
        walks - decided,
    );
}

fn print_last(random: &Tally, fail: u64) {
    println!(
        "{} cut messages: {} not verbose or dropped, each decided by its need ({} items and {} filtered, used to the last byte, and {} Unrecoverable); \
         each waits with one byte fewer; {} verbose, of which {} wait on; {fail} fail",
        random.cut,
        random.items + random.filtered + random.unrecoverable,
        random.items,
        random.filtered,
        random.unrecoverable,
        random.verbose,
        random.wait_on,
    );
}

fn cut_messages(count: u64, seed: u64, threads: u64) -> Result<bool, String> {
    oracle::answer::be_silent_in_panics();
    let fixed = std::thread::spawn(move || every_message_info(seed)).join().map_err(|_| "a panic".to_string())?;
    let (random, met) = random_parts(count, seed, threads)?;
    for first in [&fixed.first, &random.first].into_iter().flatten() {
        println!("{first}");
    }
    print_sections(&fixed, &random, &met);
    print_last(&random, fixed.fail + random.fail);
    Ok(fixed.fail + random.fail == 0)
}

fn run(words: &[&str]) -> Result<bool, String> {
    let number = |word: &str| word.parse::<u64>().map_err(|_| format!("{word} is no number; --help says what is expected"));
    match words {
        ["--help"] => {
            print!("{HELP}");
            Ok(true)
        }
        ["--self-test"] => Ok(self_test::self_test()),
        ["recordings", dir] => recordings::recordings(Path::new(dir)),
        [count, seed] => cut_messages(number(count)?, number(seed)?, 1),
        [count, seed, threads] => match number(threads)? {
            threads @ 1..=64 => cut_messages(number(count)?, number(seed)?, threads),
            _ => Err("THREADS is a number from 1 to 64".to_string()),
        },
        _ => Err("expected COUNT SEED [THREADS], recordings DIR, --self-test or --help".to_string()),
    }
}

fn main() {
    let words: Vec<String> = std::env::args().skip(1).collect();
    match run(&words.iter().map(String::as_str).collect::<Vec<_>>()) {
        Ok(true) => (),
        Ok(false) => exit(1),
        Err(problem) => {
            eprintln!("worth: {problem}");
            exit(2);
        }
    }
}
