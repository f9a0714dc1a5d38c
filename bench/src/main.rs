//! bench [ROUNDS]: both sides in turn on the same input. Each line is the best of the rounds, ours, dlt-core's, and the ratio.

#![allow(unexpected_cfgs)]

#[macro_use]
extern crate log;

#[allow(dead_code)]
#[path = "../../oracle/dlt-core/src/dlt.rs"]
mod dlt;
#[allow(dead_code)]
#[path = "../../oracle/dlt-core/src/filtering.rs"]
mod filtering;
#[allow(dead_code)]
#[path = "../../oracle/dlt-core/src/parse.rs"]
mod parse;
mod calls;
mod traces;

use calls::Calls;
use filtering::ProcessedDltFilterConfig;
use host::raw::{Answer, IndexAnswer};
use parse::{dlt_consume_msg, dlt_message, ParsedMessage};
use std::hint::black_box;
use std::time::{Duration, Instant};
use traces::Ids;

const SIZE: usize = 64 << 20;

/// The archive that is linked.
struct Linked;

impl Calls for Linked {
    fn message(&self, s: &[u8], f: &[u8], out: &mut [u64]) -> Answer {
        host::raw::message(s, f, true, out)
    }

    fn argument(&self, s: &[u8], at: usize, left: usize, big: bool, out: &mut [u64]) -> Answer {
        host::raw::argument(s, at, left, big, out)
    }

    fn raw_value(&self, s: &[u8], at: usize, left: usize, big: bool, out: &mut [u64]) -> Answer {
        host::raw::raw_value(s, at, left, big, out)
    }

    fn forward(&self, s: &[u8]) -> Answer {
        host::raw::forward(s, 0)
    }

    fn consume(&self, s: &[u8]) -> Answer {
        host::raw::consume(s)
    }

    fn index(&self, s: &[u8], f: &[u8], at: usize, used: usize, table: &mut [u64]) -> IndexAnswer {
        host::raw::index(s, f, at, used, table, host::NO_LIMIT)
    }
}

fn core_messages(bytes: &[u8], filter: Option<&ProcessedDltFilterConfig>) -> u64 {
    let (mut at, mut items) = (0, 0);
    while at < bytes.len() {
        match dlt_message(&bytes[at..], filter, true) {
            Ok((rest, message)) => {
                if !matches!(message, ParsedMessage::Invalid) {
                    items += 1;
                }
                black_box(&message);
                at = bytes.len() - rest.len();
            }
            Err(parse::DltParseError::IncompleteParse { .. }) => break,
            Err(_) => at += parse::forward_to_next_storage_header(&bytes[at..]).map_or(bytes.len(), |(skipped, _)| skipped as usize + 4),
        }
    }
    items
}

/// The walk over a trace of which no message overruns: there `dlt_message` over all bytes gives the rule's entries.
fn core_indexed(bytes: &[u8], filter: Option<&ProcessedDltFilterConfig>) -> u64 {
    core_walked(bytes, filter, |_| None)
}

/// The walk over any trace, as the rule has it: each message sees its bytes up to the declared end alone.
fn core_confined(bytes: &[u8]) -> u64 {
    core_walked(bytes, None, core_declared_end)
}

/// Where the declared bytes end, if the crate accepts the standard header and they are all there.
fn core_declared_end(bytes: &[u8]) -> Option<usize> {
    let (_, stored) = parse::forward_to_next_storage_header(bytes)?;
    match dlt_consume_msg(stored) {
        Ok((rest, Some(_))) => Some(bytes.len() - rest.len()),
        _ => None,
    }
}

/// Document 01's walk by the crate's own calls: `dlt_message` up to a declared end, where Incomplete is an overrun, or over all bytes, where it waits.
fn core_walked(bytes: &[u8], filter: Option<&ProcessedDltFilterConfig>, declared_end: impl Fn(&[u8]) -> Option<usize>) -> u64 {
    let mut entries: Vec<(usize, usize, usize, u8)> = Vec::new();
    let mut at = 0;
    while at < bytes.len() {
        let left = &bytes[at..];
        let end = declared_end(left);
        let read = dlt_message(end.map_or(left, |end| &left[..end]), filter, true);
        let lacks = matches!(read, Err(parse::DltParseError::IncompleteParse { .. }));
        if lacks && end.is_none() {
            break;
        }
        let Some((skipped, _)) = parse::forward_to_next_storage_header(left) else { break };
        let start = at + skipped as usize;
        let declared = usize::from(u16::from_be_bytes([bytes[start + 18], bytes[start + 19]]));
        let (length, kind) = match read {
            Ok((_, ParsedMessage::Item(_))) => (16 + declared, 0),
            Ok(_) => (16 + declared, 1),
            Err(_) if lacks => (16 + declared, 4),
            Err(_) => (4, 2),
        };
        entries.push((start, skipped as usize, length, kind));
        at = start + length;
    }
    black_box(&entries);
    entries.len() as u64
}

fn core_consumed(bytes: &[u8]) -> u64 {
    let (mut at, mut count) = (0, 0);
    while at < bytes.len() {
        let Ok((rest, _)) = dlt_consume_msg(&bytes[at..]) else { break };
        count += 1;
        at = bytes.len() - rest.len();
    }
    count
}

fn plain_loop(bytes: &[u8]) -> u64 {
    let mut i = 0;
    while i + 4 <= bytes.len() {
        if bytes[i] == b'D' && bytes[i + 1] == b'L' && bytes[i + 2] == b'T' && bytes[i + 3] == 1 {
            return i as u64;
        }
        i += 1;
    }
    bytes.len() as u64
}

fn ours_search(bytes: &[u8]) -> u64 {
    host::forward_to_next_storage_header(bytes, 0).map_or(bytes.len() as u64, |place| place as u64)
}

/// The best time of each side, run in turn; the sides must agree.
fn in_turn(rounds: u32, mut ours: impl FnMut() -> u64, mut theirs: impl FnMut() -> u64) -> (Duration, Duration, u64) {
    let mut best = (Duration::MAX, Duration::MAX);
    let mut counted = 0;
    for _ in 0..rounds {
        let begun = Instant::now();
        counted = black_box(ours());
        best.0 = best.0.min(begun.elapsed());
        let begun = Instant::now();
        let other = black_box(theirs());
        best.1 = best.1.min(begun.elapsed());
        assert_eq!(counted, other, "the sides don't agree");
    }
    (best.0, best.1, counted)
}

fn row(name: &str, bytes: usize, beside: &str, (ours, theirs, count): (Duration, Duration, u64)) {
    let rate = |time: Duration| bytes as f64 / time.as_secs_f64() / 1e6;
    println!(
        "| {name} | {count} | {:.1} ms, {:.0} MB/s | {beside} {:.1} ms, {:.0} MB/s | {:.2} |",
        ours.as_secs_f64() * 1e3,
        rate(ours),
        theirs.as_secs_f64() * 1e3,
        rate(theirs),
        theirs.as_secs_f64() / ours.as_secs_f64()
    );
}

/// A filter as bytes, and as the crate has it.
fn filters(n: u64, app: &str, ids: Ids) -> (Vec<u8>, ProcessedDltFilterConfig) {
    let sets = traces::filter_sets(n, app, ids);
    let bytes = traces::filter_bytes(&sets);
    let [apps, ecus, contexts] = sets;
    let config = ProcessedDltFilterConfig {
        min_log_level: Some(dlt::LogLevel::Verbose),
        app_ids: Some(apps.into_iter().collect()),
        ecu_ids: Some(ecus.into_iter().collect()),
        context_ids: Some(contexts.into_iter().collect()),
        // filter bytes have no counts
        app_id_count: 0,
        context_id_count: 0,
    };
    (bytes, config)
}

fn machine() -> String {
    let told = std::process::Command::new("lscpu").output().map(|said| String::from_utf8_lossy(&said.stdout).into_owned()).unwrap_or_default();
    let name = told.lines().find_map(|line| line.trim_start().strip_prefix("Model name:")).unwrap_or(std::env::consts::ARCH).trim();
    format!("{name}, {} processors", std::thread::available_parallelism().map_or(1, |n| n.get()))
}

fn main() {
    let rounds = std::env::args().nth(1).and_then(|word| word.parse().ok()).unwrap_or(5);
    println!("Machine: {}. Best of {rounds} rounds, in turn. `out` is not cleared between calls.\n", machine());
    println!("| Call and input | Count | Ours | Beside it | Ratio |\n|---|---|---|---|---|");
    let trace = traces::mixed(SIZE, 7, true, Ids::Letters);
    row("dlt_message, and every argument by its cursor, mixed trace", trace.len(), "dlt-core", in_turn(rounds, || Linked.messages(&trace, &[], true), || core_messages(&trace, None)));
    row("dlt_message, the same trace", trace.len(), "dlt-core", in_turn(rounds, || Linked.messages(&trace, &[], false), || core_messages(&trace, None)));
    let (bytes, config) = filters(4, "APP", Ids::Letters);
    row("dlt_message, filter of three sets of 4", trace.len(), "dlt-core", in_turn(rounds, || Linked.messages(&trace, &bytes, false), || core_messages(&trace, Some(&config))));
    if let Some(real) = traces::corpus(SIZE) {
        row("dlt_message, corpus repeated", real.len(), "dlt-core", in_turn(rounds, || Linked.messages(&real, &[], false), || core_messages(&real, None)));
    }
    let clean = traces::mixed(SIZE, 7, false, Ids::Letters);
    row("dlt_consume_msg, the same without junk", clean.len(), "dlt-core", in_turn(rounds, || Linked.consumed(&clean), || core_consumed(&clean)));
    let mut table = vec![0; 4 * (SIZE / 20 + 1)];
    for part in [SIZE / 64, SIZE / 16, SIZE / 4, SIZE] {
        row(&format!("index, {} MB of the mixed trace", part >> 20), part, "dlt-core", in_turn(rounds, || Linked.indexed(&trace[..part], &[], SIZE * 2, &mut table), || core_indexed(&trace[..part], None)));
    }
    row("index, filter of three sets of 4", trace.len(), "dlt-core", in_turn(rounds, || Linked.indexed(&trace, &bytes, SIZE * 2, &mut table), || core_indexed(&trace, Some(&config))));
    let (others, other_config) = filters(4, "NON", Ids::Letters);
    row("index, the same with other app ids", trace.len(), "dlt-core", in_turn(rounds, || Linked.indexed(&trace, &others, SIZE * 2, &mut table), || core_indexed(&trace, Some(&other_config))));
    let mut other = table.clone();
    row("index, in calls of 64 KB", trace.len(), "one call", in_turn(rounds, || Linked.indexed(&trace, &[], 1 << 16, &mut table), || Linked.indexed(&trace, &[], SIZE * 2, &mut other)));
    drop((trace, clean));
    other_ids(rounds, &mut table);
    searches(rounds);
    worst(rounds, &mut table);
}

/// The mixed trace with other identifiers. The index looks at them only under a filter.
fn other_ids(rounds: u32, table: &mut [u64]) {
    for (name, ids) in [("ids of three letters and a zero byte", Ids::Short), ("ids with a letter above 7F", Ids::Wide)] {
        let trace = traces::mixed(SIZE, 7, true, ids);
        let (bytes, config) = filters(4, "APP", ids);
        row(&format!("dlt_message, {name}"), trace.len(), "dlt-core", in_turn(rounds, || Linked.messages(&trace, &[], false), || core_messages(&trace, None)));
        row("dlt_message, the same, filter of three sets of 4", trace.len(), "dlt-core", in_turn(rounds, || Linked.messages(&trace, &bytes, false), || core_messages(&trace, Some(&config))));
        row("index, the same, filter of three sets of 4", trace.len(), "dlt-core", in_turn(rounds, || Linked.indexed(&trace, &bytes, SIZE * 2, table), || core_indexed(&trace, Some(&config))));
    }
}

fn searches(rounds: u32) {
    for (name, bytes) in [
        ("random", traces::random(SIZE, 5)),
        ("zeros", vec![0; SIZE]),
        ("`44`", vec![0x44; SIZE]),
        ("`44 4C 54`", traces::repeated(SIZE, b"DLT")),
    ] {
        row(&format!("search, {name}"), bytes.len(), "plain loop", in_turn(rounds, || ours_search(&bytes), || plain_loop(&bytes)));
        let finder = memchr::memmem::Finder::new(b"DLT\x01");
        row(&format!("search, {name}"), bytes.len(), "memmem", in_turn(rounds, || ours_search(&bytes), || finder.find(&bytes).map_or(bytes.len() as u64, |i| i as u64)));
        row(&format!("dlt_message, {name}"), bytes.len(), "dlt-core", in_turn(rounds, || Linked.messages(&bytes, &[], false), || core_messages(&bytes, None)));
    }
}

fn worst(rounds: u32, table: &mut [u64]) {
    for (name, bytes) in [
        ("20-byte hickups", traces::hickups(SIZE / 4)),
        ("255 arguments each", traces::repeated(SIZE, &traces::many_arguments())),
        ("counted arguments far past the declared end", traces::past_the_end(SIZE / 16)),
        ("strings of 65,503 bytes", traces::repeated(SIZE, &traces::long_string())),
    ] {
        row(&format!("dlt_message, {name}"), bytes.len(), "dlt-core", in_turn(rounds, || Linked.messages(&bytes, &[], false), || core_messages(&bytes, None)));
    }
    // ours: one index call; dlt-core: the search, dlt_consume_msg for the declared end, and dlt_message up to there
    let overruns = traces::overruns(SIZE);
    row("index, counted arguments far past the declared end", overruns.len(), "dlt-core", in_turn(rounds, || Linked.indexed(&overruns, &[], SIZE * 2, table), || core_confined(&overruns)));
    let small = traces::mixed(SIZE / 16, 7, true, Ids::Letters);
    let (bytes, config) = filters(64, "APP", Ids::Letters);
    row("dlt_message, filter of three sets of 64", small.len(), "dlt-core", in_turn(rounds, || Linked.messages(&small, &bytes, false), || core_messages(&small, Some(&config))));
}
