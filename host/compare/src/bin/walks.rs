//! walks corpus DIR [RECORDING]..: each recording below DIR, and each named behind it, gives exactly the oracle's walk: in one call; cut in two, at every
//! byte where it has under 8,192 bytes and at 1,000 places else, with the bytes before the resume position overwritten between the calls; with a table of as
//! many entries as the walk has, of one less, of one and of none; and 1, 2, 7 and 1,000 entries at a time, at some cut and with each of these tables. The
//! oracle's walk is held to the one in DIR/walks, which knows no overrun: those with overruns are told with both.
//! walks random COUNT SEED: traces with damage, made by seed, in pieces at random places, against one call of the oracle over all of it.
//! walks limits COUNT SEED: the same, with random limits, 0 among them: each call against the oracle's walk with that limit, and all of them against one call
//! of the oracle without.
//! All three count the waits at a message whose standard header the crate accepts: none may ask for a byte behind its declared end.

use host::{End, Entry, IndexRefusal, Indexed, State, NO_LIMIT};
use oracle::check::{recordings, Held, Recording};
use oracle::confined::accepted_end;
use std::{fmt, fs, path::Path, process::exit};

struct Random(u64);

impl Random {
    fn next(&mut self) -> u64 {
        self.0 ^= self.0 << 13;
        self.0 ^= self.0 >> 7;
        self.0 ^= self.0 << 17;
        self.0
    }

    fn below(&mut self, n: usize) -> usize {
        (self.next() % n as u64) as usize
    }
}

/// Recordings with fewer bytes are cut at every one.
const CUT_EVERYWHERE: usize = 8192;

/// The waits at a message whose standard header the crate accepts.
#[derive(Default)]
struct Waits {
    all: u64,
    wrong: u64,
}

impl Waits {
    /// A call that leaves these bytes to come again. If it waits at such a message, then for a byte that is declared and isn't there: so the declared bytes
    /// aren't all there, and the need is 1 or more and no more than those that lack.
    fn look(&mut self, left: &[u8], end: End) {
        let End::Waits(need) = end else { return };
        let declared = match accepted_end(left) {
            Ok(None) => return,
            Ok(Some(end)) => end as u64,
            Err(_) => 0,
        };
        self.all += 1;
        if need < 1 || left.len() as u64 + need > declared {
            self.wrong += 1;
            if self.wrong == 1 {
                println!("waits past the declared end: {declared} bytes to it, {} there, need {need}: {:02x?}", left.len(), &left[..left.len().min(99)]);
            }
        }
    }
}

impl fmt::Display for Waits {
    fn fmt(&self, line: &mut fmt::Formatter) -> fmt::Result {
        write!(line, "{} waits behind an accepted standard header, {} past the declared end", self.all, self.wrong)
    }
}

/// Calls one after another: each is given the bytes from the resume position on, up to the next cut, and stops after `n` entries; where it was Paused it is
/// repeated. What lies before the resume position is overwritten. The number taken is that of all the calls.
fn in_pieces(bytes: &[u8], cuts: &[usize], filter: &[u8], table: &mut [Entry], n: usize, waits: &mut Waits) -> Result<Indexed, IndexRefusal> {
    let mut all = Indexed { state: State::default(), taken: 0, end: End::Paused };
    let mut held = bytes.to_vec();
    for end in cuts.iter().copied().chain([bytes.len()]) {
        loop {
            held[..all.state.at].fill(0x44);
            let one = host::index(&held[all.state.at..end], filter, all.state, table, n)?;
            waits.look(&bytes[one.state.at..end], one.end);
            all = Indexed { taken: all.taken + one.taken, ..one };
            if one.end != End::Paused {
                break;
            }
        }
    }
    Ok(all)
}

fn listed(bytes: &[u8], cuts: &[usize], cap: usize, n: usize, waits: &mut Waits) -> String {
    let mut table = vec![Entry::default(); cap];
    let all = match in_pieces(bytes, cuts, &[], &mut table, n, waits) {
        Ok(all) => all,
        Err(refusal) => return refused(refusal),
    };
    if all.taken != all.state.used {
        return format!("{} taken, {} used", all.taken, all.state.used);
    }
    let mut lines = vec!["start skipped length kind".to_string()];
    lines.extend(table[..all.state.used].iter().map(host::text::entry_text));
    lines.push(match all.end {
        End::Waits(need) => format!("waits {} {need}", all.state.at),
        _ => format!("full {}", all.state.at),
    });
    lines.join("\n") + "\n"
}

/// The walk with a table of `cap` entries, from the whole walk's lines.
fn cut_short(walk: &str, cap: usize) -> String {
    let lines: Vec<&str> = walk.lines().collect();
    let entries = &lines[1..lines.len() - 1];
    if entries.len() <= cap {
        return walk.to_string();
    }
    let number = |line: &str, i: usize| line.split(' ').nth(i).unwrap().parse::<u64>().unwrap();
    let at: u64 = entries[..cap].iter().map(|line| number(line, 1) + number(line, 2)).sum();
    [&lines[..=cap], &[&format!("full {at}")[..]]].concat().join("\n") + "\n"
}

/// Every walk of a recording, against this one: how many there were, and how many differ.
fn every_walk(bytes: &[u8], walk: &str, random: &mut Random, waits: &mut Waits) -> (u64, u64) {
    let count = walk.lines().count() - 2;
    let (mut walks, mut wrong) = (0, 0);
    let mut hold = |cuts: &[usize], cap: usize, n: usize| {
        walks += 1;
        wrong += u64::from(listed(bytes, cuts, cap, n, waits) != cut_short(walk, cap));
    };
    for cap in [count, count.saturating_sub(1), 1, 0, count + 7] {
        for n in [NO_LIMIT, 1, 2, 7, 1000] {
            hold(&[], cap, n);
            hold(&[random.below(bytes.len() + 1)], cap, n);
        }
    }
    if bytes.len() < CUT_EVERYWHERE {
        (0..=bytes.len()).for_each(|cut| hold(&[cut], count, NO_LIMIT));
    } else {
        (0..1000).for_each(|_| hold(&[random.below(bytes.len() + 1)], count, NO_LIMIT));
    }
    (walks, wrong)
}

/// A recording that has no written walk.
fn recording(path: &str) -> Result<Recording, String> {
    let bytes = fs::read(path).map_err(|e| format!("{path}: {e}"))?;
    Ok(Recording { name: path.to_string(), bytes, written: None })
}

fn corpus(dir: &Path, more: &[&str]) -> Result<bool, String> {
    let mut all = recordings(dir)?;
    for path in more {
        all.push(recording(path)?);
    }
    let mut random = Random(88172645463325252);
    let (mut held, mut waits, mut walks, mut wrong) = (Held::default(), Waits::default(), 0, 0);
    for recording in &all {
        let walk = recording.walk();
        if !walk.starts_with("start") {
            return Err(format!("{}: {}", recording.name, walk.trim_end()));
        }
        held.hold(recording, &walk);
        let (made, bad) = every_walk(&recording.bytes, &walk, &mut random, &mut waits);
        if bad > 0 {
            println!("{}: {bad} walks differ", recording.name);
        }
        (walks, wrong) = (walks + made, wrong + bad);
    }
    println!("written: {held}\n{waits}\n{} recordings, {walks} walks, {wrong} differ", all.len());
    Ok(wrong + waits.wrong + held.differ as u64 == 0)
}

fn unhex(word: &str) -> Vec<u8> {
    (0..word.len() / 2).map(|i| u8::from_str_radix(&word[2 * i..2 * i + 2], 16).unwrap_or(0)).collect()
}

/// What the calls left, as the oracle writes it.
fn told(all: &Indexed, table: &[Entry], from: usize) -> String {
    let (number, need) = match all.end {
        End::Waits(need) => (0, need.to_string()),
        End::Full => (7, "-".to_string()),
        End::Paused => (8, "-".to_string()),
    };
    let mut text = format!("{number} resume={} used={} need={need} taken={}", all.state.at, all.state.used, all.taken);
    table[from..all.state.used].iter().for_each(|e| text += &format!(" ({})", host::text::entry_text(e)));
    text
}

/// How a refusal of either side is told.
fn refused(refusal: IndexRefusal) -> String {
    format!("{refusal:?}")
}

/// The oracle's answer from that state, with this limit.
fn asked(cap: usize, state: State, filter: &[u8], bytes: &[u8], n: usize) -> String {
    let given = oracle::index::State { resume: state.at as u64, used: state.used as u64 };
    let line = oracle::index::answer(cap, given, filter, bytes, Some(n as u64)).unwrap_or_else(|problem| problem);
    match line.split(' ').next() {
        Some("1") => refused(IndexRefusal::BadFilter),
        Some("13") => refused(IndexRefusal::RetiredTag),
        _ => line,
    }
}

struct Trace {
    cap: usize,
    filter: Vec<u8>,
    bytes: Vec<u8>,
    cuts: Vec<usize>,
}

/// Traces with cuts, made by seed, until so many are made.
fn traces(count: u64, seed: u64, dice: &mut Random, each: &mut dyn FnMut(&mut Random, &Trace)) -> Result<(), String> {
    for kind in oracle::requests::kinds("index")? {
        kind.make(Some(count), seed, &mut |line| {
            let words: Vec<&str> = line.split(' ').collect();
            let ["index", cap, _, _, filter, bytes] = words[..] else { return };
            let (cap, filter, bytes) = (cap.parse::<usize>().unwrap_or(0), unhex(filter), unhex(bytes));
            let mut cuts: Vec<usize> = (0..dice.below(6)).map(|_| dice.below(bytes.len() + 1)).collect();
            cuts.sort_unstable();
            each(dice, &Trace { cap, filter, bytes, cuts });
        });
    }
    Ok(())
}

fn random(count: u64, seed: u64) -> Result<bool, String> {
    let mut dice = Random(seed.wrapping_mul(0x9E37_79B9_7F4A_7C15) | 1);
    let (mut made, mut calls, mut entries, mut wrong) = (0u64, 0u64, 0u64, 0u64);
    let mut waits = Waits::default();
    traces(count, seed, &mut dice, &mut |_, trace| {
        let mut table = vec![Entry::default(); trace.cap];
        let ours = in_pieces(&trace.bytes, &trace.cuts, &trace.filter, &mut table, NO_LIMIT, &mut waits);
        let ours = ours.map_or_else(refused, |all| {
            entries += all.taken as u64;
            told(&all, &table, 0)
        });
        let theirs = asked(trace.cap, State::default(), &trace.filter, &trace.bytes, NO_LIMIT);
        made += 1;
        calls += trace.cuts.len() as u64 + 1;
        if ours != theirs {
            wrong += 1;
            if wrong == 1 {
                println!("cuts:  {:?}\ncrate: {theirs}\nours:  {ours}", trace.cuts);
            }
        }
    })?;
    println!("{waits}\n{made} traces in {calls} calls with {entries} entries, {wrong} differ");
    Ok(wrong + waits.wrong == 0)
}

fn some_limit(dice: &mut Random) -> usize {
    match dice.below(10) {
        0 => 0,
        1 => NO_LIMIT,
        2 => dice.next() as usize,
        _ => dice.below(6),
    }
}

/// One trace with limits: how many calls were made, how many were Paused, and how many differ.
fn with_limits(dice: &mut Random, trace: &Trace, waits: &mut Waits) -> (u64, u64, u64) {
    let mut table = vec![Entry::default(); trace.cap];
    let mut held = trace.bytes.clone();
    let mut all = Indexed { state: State::default(), taken: 0, end: End::Paused };
    let (mut calls, mut paused, mut wrong) = (0, 0, 0);
    for end in trace.cuts.iter().copied().chain([trace.bytes.len()]) {
        loop {
            let (from, n) = (all.state, some_limit(dice));
            held[..from.at].fill(0x44);
            let theirs = asked(trace.cap, from, &trace.filter, &trace.bytes[from.at..end], n);
            calls += 1;
            let one = match host::index(&held[from.at..end], &trace.filter, from, &mut table, n) {
                Ok(one) => one,
                Err(refusal) => return (calls, paused, wrong + u64::from(theirs != refused(refusal))),
            };
            wrong += u64::from(told(&one, &table, from.used) != theirs);
            waits.look(&trace.bytes[one.state.at..end], one.end);
            all = Indexed { taken: all.taken + one.taken, ..one };
            if one.end != End::Paused {
                break;
            }
            paused += 1;
            // at times it is cancelled here, and goes on with more bytes
            if end != trace.bytes.len() && dice.below(8) == 0 {
                break;
            }
        }
    }
    let whole = asked(trace.cap, State::default(), &trace.filter, &trace.bytes, NO_LIMIT);
    (calls, paused, wrong + u64::from(told(&all, &table, 0) != whole))
}

fn limits(count: u64, seed: u64) -> Result<bool, String> {
    let mut dice = Random(seed.wrapping_mul(0x9E37_79B9_7F4A_7C15) | 1);
    let (mut made, mut calls, mut paused, mut wrong) = (0u64, 0u64, 0u64, 0u64);
    let mut waits = Waits::default();
    traces(count, seed, &mut dice, &mut |dice, trace| {
        let (c, p, w) = with_limits(dice, trace, &mut waits);
        if w > 0 && wrong == 0 {
            println!("differs: a table of {}, cuts {:?}, filter {:?}, bytes {:?}", trace.cap, trace.cuts, trace.filter, trace.bytes);
        }
        (made, calls, paused, wrong) = (made + 1, calls + c, paused + p, wrong + w);
    })?;
    println!("{waits}\n{made} traces in {calls} calls with random limits, {paused} of them Paused, {wrong} differ");
    Ok(wrong + waits.wrong == 0)
}

fn main() {
    let words: Vec<String> = std::env::args().skip(1).collect();
    let said = match &words.iter().map(String::as_str).collect::<Vec<_>>()[..] {
        ["corpus", dir, more @ ..] => corpus(Path::new(dir), more),
        [word @ ("random" | "limits"), count, seed] => match (count.parse(), seed.parse()) {
            (Ok(count), Ok(seed)) if *word == "random" => random(count, seed),
            (Ok(count), Ok(seed)) => limits(count, seed),
            _ => Err("COUNT and SEED are numbers".to_string()),
        },
        _ => Err("expected corpus DIR [RECORDING].., random COUNT SEED or limits COUNT SEED".to_string()),
    };
    match said {
        Ok(true) => (),
        Ok(false) => exit(1),
        Err(problem) => {
            eprintln!("walks: {problem}");
            exit(2);
        }
    }
}
