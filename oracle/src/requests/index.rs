//! Requests for document 01's index call, without a limit and with one.

use super::build::{damage, filter, filter_or_none, junk, overrunning, storage_header, stored_message, PATTERN};
use super::random::Rng;
use super::{hex, Emit, Section};
use crate::filter::Old;
use crate::index::{call_by, Reach, Reader, State, NONE};

pub const TINY: &[Section] = &[];
pub const SECTIONS: &[Section] = &[tables, cuts, carried_on, refusals, long_traces];
pub const LIMITED: &[Section] = &[limits, paused_and_carried_on, limited_refusals, long_limits];

/// A filter with a count.
pub const RETIRED: [u8; 11] = [5, 0, 8, 0, 0, 0, 0, 0, 0, 0, 0];

pub const FRESH: State = State { resume: 0, used: 0 };

pub fn request(table: usize, state: State, filter: &[u8], bytes: &[u8]) -> String {
    format!("index {table} {} {} {} {}", state.resume, state.used, hex(filter), hex(bytes))
}

pub fn limited(table: usize, state: State, filter: &[u8], bytes: &[u8], limit: u64) -> String {
    format!("{} {limit}", request(table, state, filter, bytes))
}

/// A trace of messages, damaged messages, bare patterns and junk. Half of the messages are made to overrun, but for the
/// list.
fn trace(rng: &mut Rng, pieces: usize) -> Vec<u8> {
    let mut bytes = Vec::new();
    for _ in 0..rng.below(pieces + 1) {
        let mut piece = match rng.below(8) {
            0 => junk(rng, 20),
            1 => PATTERN.to_vec(),
            _ if !rng.is_listing && rng.one_in(2) => [storage_header(rng), overrunning(rng)].concat(),
            _ => stored_message(rng),
        };
        if rng.one_in(3) {
            damage(rng, &mut piece);
        }
        bytes.extend(piece);
    }
    bytes
}

/// Tables of every small size, some of it used.
fn tables(rng: &mut Rng, emit: Emit) {
    for _ in 0..60 {
        let trace = trace(rng, 6);
        let filter = filter_or_none(rng);
        for table in 0..=6 {
            for used in 0..=table.min(2) {
                emit(&request(table, State { resume: 0, used: used as u64 }, &filter, &trace));
            }
        }
    }
}

/// A trace that grows byte by byte, always from a fresh state.
fn cuts(rng: &mut Rng, emit: Emit) {
    for _ in 0..25 {
        let trace = trace(rng, 4);
        let filter = filter_or_none(rng);
        for end in 0..=trace.len() {
            emit(&request(6, FRESH, &filter, &trace[..end]));
        }
    }
}

/// The state that the crate leaves after a cut trace, and then more of it.
fn carried_on(rng: &mut Rng, emit: Emit) {
    for _ in 0..300 {
        emit(&carry_on(rng));
    }
}

/// The state that a call leaves, under a filter with its counts, if it has any. In the list it is that of a walk without
/// overruns.
fn carried(rng: &Rng, table: usize, state: State, filter: &[u8], bytes: &[u8], limit: u64) -> State {
    let Some(old) = Old::read(filter) else {
        return state;
    };
    let filter = old.with_counts();
    let reach = if rng.is_listing { Reach::Further } else { Reach::Declared };
    let reader = Reader { filter: filter.as_ref(), reach };
    call_by(reader, table, state, bytes, limit).map_or(state, |(_, after, _)| after)
}

fn carry_on(rng: &mut Rng) -> String {
    let trace = trace(rng, 6);
    let filter = filter_or_none(rng);
    let table = rng.below(7);
    let mut state = FRESH;
    let mut end = 0;
    for _ in 0..rng.below(4) {
        end += rng.below(trace.len() - end + 1);
        state = carried(rng, table, state, &filter, &trace[state.resume as usize..end], NONE);
    }
    end += rng.below(trace.len() - end + 1);
    request(table, state, &filter, &trace[state.resume as usize..end])
}

/// Bad filters and filters with a count, states that don't fit the table, positions near the last one.
fn refusals(rng: &mut Rng, emit: Emit) {
    const LAST: u64 = 4_294_967_295;
    for _ in 0..12 {
        let trace = trace(rng, 3);
        let length = trace.len() as u64;
        let near_last =
            [LAST - length - 1, LAST - length, LAST - length + 1, LAST, LAST + 1, u64::MAX, u64::MAX - length, 0];
        for resume in near_last {
            for used in [0, 1, 2, 3, u64::MAX] {
                for filter in [&[][..], &[0], &[1, 0, 1, 7], &[1, 0, 1, 2], &RETIRED, &[&RETIRED[..], &[0]].concat()] {
                    emit(&request(2, State { resume, used }, filter, &trace));
                }
            }
        }
    }
}

/// Thousands of bare patterns and short messages, more and fewer than the table holds.
fn long_traces(_: &mut Rng, emit: Emit) {
    let hickup = [&PATTERN[..], &[0; 12], &[0x20, 0, 0, 3]].concat();
    let unrecoverable = [&PATTERN[..], &[0; 12], &[0x20, 0, 0, 4]].concat();
    let item = [&PATTERN[..], &[0; 12], &[0x20, 0, 0, 8, 1, 2, 3, 4]].concat();
    for piece in [hickup, unrecoverable, item] {
        let trace = piece.repeat(4100);
        for table in [0, 1, 4095, 4096] {
            emit(&request(table, FRESH, &[], &trace));
            emit(&request(table, FRESH, &[], &trace[..table * piece.len()]));
        }
    }
}

pub fn random(rng: &mut Rng) -> String {
    if rng.one_in(2) {
        return carry_on(rng);
    }
    let pieces = if rng.one_in(40) { 60 } else { 6 };
    let bytes = trace(rng, pieces);
    let filter = if rng.one_in(2) { filter(rng) } else { Vec::new() };
    let table = if rng.one_in(10) { rng.below(4097) } else { rng.below(7) };
    let used = if rng.one_in(3) { rng.below(8) as u64 } else { 0 };
    let resume = if rng.one_in(3) { rng.next() >> rng.below(64) } else { 0 };
    request(table, State { resume, used }, &filter, &bytes)
}

/// Every small limit with tables of every small size, some of it used: a limit below the free entries, at them and above.
fn limits(rng: &mut Rng, emit: Emit) {
    for _ in 0..30 {
        let trace = trace(rng, 6);
        let filter = filter_or_none(rng);
        for table in 0..=5 {
            for used in 0..=table.min(2) {
                for limit in 0..=6 {
                    emit(&limited(table, State { resume: 0, used: used as u64 }, &filter, &trace, limit));
                }
            }
        }
    }
}

/// The state that limited calls leave, and then one more.
fn paused_and_carried_on(rng: &mut Rng, emit: Emit) {
    for _ in 0..300 {
        emit(&pause_and_carry_on(rng));
    }
}

fn some_limit(rng: &mut Rng) -> u64 {
    match rng.below(8) {
        0 => 0,
        1 => NONE,
        2 => rng.next() >> rng.below(64),
        _ => rng.below(5) as u64,
    }
}

fn pause_and_carry_on(rng: &mut Rng) -> String {
    let trace = trace(rng, 6);
    let filter = filter_or_none(rng);
    let table = rng.below(7);
    let mut state = FRESH;
    let mut end = 0;
    for _ in 0..rng.below(4) {
        end += rng.below(trace.len() - end + 1);
        let limit = some_limit(rng);
        state = carried(rng, table, state, &filter, &trace[state.resume as usize..end], limit);
    }
    end += rng.below(trace.len() - end + 1);
    limited(table, state, &filter, &trace[state.resume as usize..end], some_limit(rng))
}

/// A refusal comes before Paused, also with a limit of 0.
fn limited_refusals(rng: &mut Rng, emit: Emit) {
    let trace = trace(rng, 3);
    let last = 4_294_967_295 - trace.len() as u64;
    for resume in [0, last, last + 1] {
        for used in [0, 2, 3] {
            for filter in [&[][..], &[0], &[1, 0, 1, 2], &RETIRED] {
                for limit in [0, 1, NONE] {
                    emit(&limited(2, State { resume, used }, filter, &trace, limit));
                }
            }
        }
    }
}

/// Limits near the number of entries, and near the table's end.
fn long_limits(_: &mut Rng, emit: Emit) {
    let item = [&PATTERN[..], &[0; 12], &[0x20, 0, 0, 8, 1, 2, 3, 4]].concat();
    let trace = item.repeat(1000);
    for table in [999, 1000, 1001] {
        for limit in [998, 999, 1000, 1001, NONE] {
            emit(&limited(table, FRESH, &[], &trace, limit));
        }
    }
}

pub fn random_limited(rng: &mut Rng) -> String {
    if rng.one_in(2) {
        return pause_and_carry_on(rng);
    }
    format!("{} {}", random(rng), some_limit(rng))
}
