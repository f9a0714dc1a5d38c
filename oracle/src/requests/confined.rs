//! Requests for the confined reading, and for the index over messages whose arguments run past their declared end.

use super::build::{
    argument, damage, declare, filter_field, filter_or_none, headers, junk, number, overrunning, storage_header,
    stored_message, BAD_WORDS, GOOD_KINDS, VERBOSE_INFOS,
};
use super::index::{self, limited, FRESH, RETIRED};
use super::random::Rng;
use super::{every_cut, messages, Emit, Section};

pub const TINY: &[Section] = &[examples];
pub const SECTIONS: &[Section] = &[
    |rng, emit| every_declared_end(rng, &mut |bytes| emit(&request(false, &[], bytes))),
    |rng, emit| two_faults(rng, &mut |bytes| emit(&request(false, &[], bytes))),
    |rng, emit| counts(rng, &mut |bytes| emit(&request(false, &[], bytes))),
    |rng, emit| sizes(rng, &mut |bytes| emit(&request(false, &[], bytes))),
    cuts,
    under_filters,
    |rng, emit| as_confined(messages::SECTIONS, rng, emit),
    |rng, emit| as_confined(messages::TRACES, rng, emit),
];

/// The same messages in traces.
pub const WALKED_TINY: &[Section] = &[walked_examples];
pub const WALKED: &[Section] = &[
    |rng, emit| every_declared_end(rng, &mut |bytes| emit(&walked(bytes))),
    |rng, emit| two_faults(rng, &mut |bytes| emit(&walked(bytes))),
    |rng, emit| counts(rng, &mut |bytes| emit(&walked(bytes))),
    |rng, emit| sizes(rng, &mut |bytes| emit(&walked(bytes))),
    walked_cuts,
    walked_under_filters,
];

/// Takes one message and what stands behind it.
type Take<'a> = &'a mut dyn FnMut(&[u8]);

/// An item of 24 bytes with its storage header.
const NEIGHBOUR: &[u8] = b"DLT\x01\x01\0\0\0\x02\0\0\0ECU\0\x20\x07\0\x08\0\0\0\x2a";

/// Payloads of messages that count one argument or two, and what stands behind them: each way to fit, to lack bytes, and to
/// have a word that doesn't pass, inside and behind the declared end.
const EXAMPLES: [(u8, &[u8], &[u8]); 16] = [
    (1, b"", b""),
    (1, b"", b"\x11\0\0\0\x01"),
    (1, b"", NEIGHBOUR),
    (1, b"\x11\0\0\0\x01", b""),
    (1, b"\x11\0\0\0\x01\xff", b""),
    (1, b"\x11\0\0\0", b"\x01"),
    (1, b"\xff\xff\xff", b"\xff"),
    (1, b"\0\0\0\0", b""),
    (1, b"\0\0\0", b"\0"),
    (2, b"\0\0\0\0", b""),
    (2, b"\x43\0\0\0\x01\x02", b"\0\0\0\0\0\0\0\0"),
    (2, b"\x11\0\0\0\x01\0\0\0\0", b""),
    (2, b"\x11\0\0\0\x01\0\0\0", b"\0"),
    (1, b"\0\x02\0\0\xff\xffAB", NEIGHBOUR),
    (1, b"\0\x02\0\0\x03\0AB", b"C"),
    (0, b"\x01\x02\x03", b""),
];

/// Message infos of a verbose log, network trace and control message, and of a log and a control message that aren't.
const INFOS: [u8; 5] = [0x41, 0x15, 0x27, 0x40, 0x26];

pub fn request(storage: bool, filter: &[u8], bytes: &[u8]) -> String {
    confined(&messages::request(storage, filter, bytes))
}

/// A request of the kind `msg`, asked of the confined reading.
fn confined(line: &str) -> String {
    line.replacen("msg", "conf", 1)
}

fn as_confined(sections: &[Section], rng: &mut Rng, emit: Emit) {
    for section in sections {
        section(rng, &mut |line| emit(&confined(line)));
    }
}

/// A storage header, the message and what stands behind it, and a neighbour at each side.
fn trace_of(bytes: &[u8]) -> Vec<u8> {
    [NEIGHBOUR, &NEIGHBOUR[..16], bytes, NEIGHBOUR].concat()
}

fn walked(bytes: &[u8]) -> String {
    index::request(9, FRESH, &[], &trace_of(bytes))
}

fn every_example(take: Take) {
    for info in INFOS {
        for (count, payload, behind) in EXAMPLES {
            let flags_to_length = [0x21, 0, 0, 14 + payload.len() as u8];
            take(&[&flags_to_length[..], &[info, count], b"APP\0CTX\0", payload, behind].concat());
        }
    }
}

fn examples(_: &mut Rng, emit: Emit) {
    every_example(&mut |bytes| {
        emit(&request(false, &[], bytes));
        emit(&request(true, &[], &[b".", &NEIGHBOUR[..16], bytes].concat()));
    });
}

fn walked_examples(_: &mut Rng, emit: Emit) {
    every_example(&mut |bytes| emit(&walked(bytes)));
}

/// Headers of a verbose message with this payload, which it declares to each end, and some bytes behind it.
fn at_every_end(rng: &mut Rng, big: bool, count: usize, payload: &[u8], take: Take) {
    let info = rng.pick(&VERBOSE_INFOS);
    let before = headers(rng, if big { 0x23 } else { 0x21 }, info, count as u8, 0);
    let mut bytes = [&before[..], payload, &[0xa5; 2]].concat();
    for declared in before.len()..bytes.len() {
        declare(&mut bytes, declared);
        take(&bytes);
    }
}

/// An argument of every kind, without and with names, declared to each of its bytes, and one byte further.
fn every_declared_end(rng: &mut Rng, take: Take) {
    for kind in GOOD_KINDS {
        for names in [0, 0x800] {
            for big in [false, true] {
                let argument = argument(rng, kind | names, big);
                at_every_end(rng, big, 1, &argument, take);
            }
        }
    }
}

/// A word that doesn't pass before, behind and between sound arguments, declared to each byte.
fn two_faults(rng: &mut Rng, take: Take) {
    for sound in [0x10, 0x43, 0x810, 0x200] {
        for bad in BAD_WORDS {
            for order in ["sb", "bs", "sbs"] {
                let big = rng.one_in(2);
                let piece = |name| match name {
                    's' => argument(rng, sound, big),
                    _ => number(u128::from(bad), 4, big),
                };
                let payload: Vec<u8> = order.chars().flat_map(piece).collect();
                at_every_end(rng, big, order.len(), &payload, take);
            }
        }
    }
}

/// Two arguments of which fewer, as many and more are counted, of every type; behind the declared end nothing, an argument,
/// a word that doesn't pass, or a neighbour.
fn counts(rng: &mut Rng, take: Take) {
    for info in VERBOSE_INFOS {
        for count in [0, 1, 2, 3, 4, 255] {
            for behind in [&b""[..], b"\x11\0\0\0\x01", b"\0\0\0\0", NEIGHBOUR] {
                let payload = b"\x11\0\0\0\x01\0\x04\0\0\x02\0AB";
                let before = headers(rng, 0x21, info, count, payload.len());
                take(&[&before[..], payload, behind].concat());
            }
        }
    }
}

/// Texts and names whose size is what stands there, more, and the most, where that lacks and where it follows.
fn sizes(rng: &mut Rng, take: Take) {
    for (word, rest) in [(0x200, 0), (0x400, 0), (0x810, 1), (0x841, 3)] {
        for size in [2, 3, 4, 11, 256, 65_535] {
            for behind in [0, 1, 9, 70_000] {
                let big = rng.one_in(2);
                let payload = [number(word, 4, big), number(size, 2, big), vec![0; rest], b"AB".to_vec()].concat();
                let before = headers(rng, if big { 0x23 } else { 0x21 }, 0x41, 1, payload.len());
                take(&[before, payload, vec![0; behind]].concat());
            }
        }
    }
}

/// Messages that overrun, cut at every byte: they wait for their headers and their declared bytes alone.
fn cuts(rng: &mut Rng, emit: Emit) {
    for round in 0..24 {
        let storage = round % 2 == 1;
        let before = if storage { storage_header(rng) } else { Vec::new() };
        let bytes = [before, overrunning(rng), NEIGHBOUR.to_vec()].concat();
        every_cut(&bytes).for_each(|cut| emit(&request(storage, &[], cut)));
    }
}

fn walked_cuts(rng: &mut Rng, emit: Emit) {
    for _ in 0..12 {
        let trace = trace_of(&overrunning(rng));
        every_cut(&trace).for_each(|cut| emit(&index::request(9, FRESH, &[], cut)));
    }
}

/// Filters that pass the examples and that drop them, by application, context and level, bad ones, and one with a count.
fn filters() -> Vec<Vec<u8>> {
    let level = |level| filter_field(1, &[level]);
    let [passing, dropping] = [b"APP\0", b"X\0\0\0"].map(|id| filter_field(2, id));
    let other_context = filter_field(4, b"APP\0");
    let behind_count = [&RETIRED[..], &[0]].concat();
    vec![passing, dropping, other_context, level(3), level(6), level(7), vec![0], RETIRED.to_vec(), behind_count]
}

fn under_filters(_: &mut Rng, emit: Emit) {
    for filter in filters() {
        every_example(&mut |bytes| {
            emit(&request(false, &filter, bytes));
            emit(&request(true, &filter, &trace_of(bytes)[24..]));
        });
    }
}

fn walked_under_filters(_: &mut Rng, emit: Emit) {
    for filter in filters() {
        every_example(&mut |bytes| {
            for limit in [1, 2, 3] {
                emit(&limited(9, FRESH, &filter, &trace_of(bytes), limit));
            }
        });
    }
}

/// A message that mostly overruns, at times with a neighbour, damaged or cut; one in four is of the kind `msg`.
pub fn random(rng: &mut Rng) -> String {
    if rng.one_in(4) {
        return confined(&messages::random(rng));
    }
    let storage = rng.one_in(2);
    let mut bytes = overrunning(rng);
    if storage {
        bytes = [if rng.one_in(3) { junk(rng, 12) } else { Vec::new() }, storage_header(rng), bytes].concat();
    }
    if rng.one_in(2) {
        bytes.extend(stored_message(rng));
    }
    if rng.one_in(8) {
        damage(rng, &mut bytes);
    }
    if rng.one_in(8) {
        bytes.truncate(rng.below(bytes.len() + 1));
    }
    request(storage, &filter_or_none(rng), &bytes)
}

/// The index over traces in which half of the messages are made to overrun, without a limit and with one.
pub fn random_walked(rng: &mut Rng) -> String {
    if rng.one_in(2) {
        index::random(rng)
    } else {
        index::random_limited(rng)
    }
}
