//! Requests for the small functions: the pattern's search, skip, consume, the
//! length, message info and type info.

use super::build::{damage, every_word, headers, junk, storage_header, stored_message, PATTERN};
use super::random::Rng;
use super::{every_cut, every_string, hex, Emit, Section};

const NEAR_PATTERN: [u8; 6] = [0x44, 0x4c, 0x54, 0x01, 0x00, 0xff];

pub const FORWARD_TINY: &[Section] = &[|_, emit| pattern_strings("fwd", emit)];
pub const SKIP_TINY: &[Section] = &[|_, emit| pattern_strings("skip", emit), skip_cuts];
pub const CONSUME_TINY: &[Section] = &[|_, emit| pattern_strings("consume", emit)];
pub const LENGTH_TINY: &[Section] = &[];
pub const TYPE_INFO_TINY: &[Section] = &[type_info_kinds];

pub const FORWARD: &[Section] = &[forward_short, forward_places, forward_misses, forward_far];
pub const SKIP: &[Section] = &[skip_short, skip_cuts, skip_misses];
pub const CONSUME: &[Section] = &[consume_short, consume_cuts, consume_lengths, consume_misses];
pub const LENGTH: &[Section] = &[length_cuts, length_all];
pub const MESSAGE_INFO: &[Section] = &[message_info_all];
pub const TYPE_INFO: &[Section] = &[type_info_all, type_info_high_bits];

fn one(word: &str, bytes: &[u8]) -> String {
    format!("{word} {}", hex(bytes))
}

fn short_strings(word: &str, longest: usize, emit: Emit) {
    for length in 0..=longest {
        every_string(&NEAR_PATTERN, length, &mut |bytes| emit(&one(word, bytes)));
    }
}

/// Up to four bytes of the pattern in any order.
fn pattern_strings(word: &str, emit: Emit) {
    for length in 0..=4 {
        every_string(&PATTERN, length, &mut |bytes| emit(&one(word, bytes)));
    }
}

/// Each byte of some bytes replaced by each value.
fn every_change(bytes: &[u8], take: &mut dyn FnMut(&[u8])) {
    let mut changed = bytes.to_vec();
    for place in 0..bytes.len() {
        for value in 0..=255 {
            changed[place] = value;
            take(&changed);
        }
        changed[place] = bytes[place];
    }
}

fn forward_short(_: &mut Rng, emit: Emit) {
    short_strings("fwd", 6, emit);
}

/// The pattern at every place among fillers that are like its beginning.
fn forward_places(_: &mut Rng, emit: Emit) {
    for filler in [&b"\0"[..], b"D", b"DL", b"DLT", b"DLT\0", b"\x01"] {
        for before in 0..70 {
            for after in [0, 1, 3, 40] {
                let mut bytes: Vec<u8> = filler.iter().cycle().take(before).copied().collect();
                bytes.extend(PATTERN);
                bytes.extend(filler.iter().cycle().take(after));
                emit(&one("fwd", &bytes));
            }
        }
    }
}

fn forward_misses(_: &mut Rng, emit: Emit) {
    every_change(&PATTERN, &mut |bytes| {
        emit(&one("fwd", bytes));
        emit(&one("fwd", &[bytes, &PATTERN].concat()));
    });
}

/// The pattern far on, or not at all.
fn forward_far(_: &mut Rng, emit: Emit) {
    for before in [65_535, 65_536, 140_000] {
        let mut bytes = vec![0x44; before];
        emit(&one("fwd", &bytes));
        bytes.extend(PATTERN);
        emit(&one("fwd", &bytes));
    }
}

pub fn random_forward(rng: &mut Rng) -> String {
    let most = if rng.one_in(50) { 5_000 } else { 100 };
    let mut bytes = junk(rng, most);
    if rng.one_in(2) {
        bytes.extend(PATTERN);
        bytes.extend(junk(rng, 20));
    }
    one("fwd", &bytes)
}

fn skip_short(_: &mut Rng, emit: Emit) {
    short_strings("skip", 5, emit);
}

fn skip_cuts(rng: &mut Rng, emit: Emit) {
    for _ in 0..8 {
        let mut bytes = storage_header(rng);
        bytes.extend(rng.bytes(24));
        for cut in every_cut(&bytes) {
            emit(&one("skip", cut));
        }
    }
}

fn skip_misses(rng: &mut Rng, emit: Emit) {
    let header = storage_header(rng);
    every_change(&header, &mut |bytes| emit(&one("skip", bytes)));
    every_change(&PATTERN, &mut |bytes| emit(&one("skip", bytes)));
}

pub fn random_skip(rng: &mut Rng) -> String {
    let mut bytes = storage_header(rng);
    bytes.extend(junk(rng, 10));
    damage(rng, &mut bytes);
    one("skip", &bytes)
}

fn consume_short(_: &mut Rng, emit: Emit) {
    short_strings("consume", 5, emit);
}

/// Every type byte, cut at every length.
fn consume_cuts(rng: &mut Rng, emit: Emit) {
    for flags in 0..=255 {
        let mut bytes = storage_header(rng);
        bytes.extend(headers(rng, flags, 0, 0, 3));
        bytes.extend(rng.bytes(5));
        for cut in every_cut(&bytes) {
            emit(&one("consume", cut));
        }
    }
}

/// Every set of flags with declared lengths around all the headers.
fn consume_lengths(rng: &mut Rng, emit: Emit) {
    for flags in 0..32 {
        for declared in (0..40u16).chain([255, 256, 257, 65_534, 65_535]) {
            let mut bytes = storage_header(rng);
            bytes.extend(headers(rng, flags, 0, 0, 0));
            bytes[18..20].copy_from_slice(&declared.to_be_bytes());
            bytes.extend(rng.bytes(8));
            emit(&one("consume", &bytes));
        }
    }
}

fn consume_misses(rng: &mut Rng, emit: Emit) {
    let mut message = storage_header(rng);
    message.extend(headers(rng, 0x3d, 0x41, 0, 2));
    message.extend(rng.bytes(2));
    every_change(&message, &mut |bytes| emit(&one("consume", bytes)));
}

pub fn random_consume(rng: &mut Rng) -> String {
    let mut bytes = stored_message(rng);
    damage(rng, &mut bytes);
    one("consume", &bytes)
}

fn length_cuts(rng: &mut Rng, emit: Emit) {
    for byte in 0..=255 {
        let bytes = [byte, rng.byte(), rng.byte(), rng.byte(), rng.byte(), rng.byte()];
        for cut in every_cut(&bytes) {
            emit(&one("len", cut));
        }
    }
}

fn length_all(rng: &mut Rng, emit: Emit) {
    for length in 0..=u16::MAX {
        let [high, low] = length.to_be_bytes();
        emit(&one("len", &[rng.byte(), rng.byte(), high, low]));
    }
}

pub fn random_length(rng: &mut Rng) -> String {
    let count = rng.below(9);
    one("len", &rng.bytes(count))
}

fn message_info_all(_: &mut Rng, emit: Emit) {
    for byte in 0..=255u8 {
        emit(&format!("mi {byte:02x}"));
    }
}

pub fn random_message_info(rng: &mut Rng) -> String {
    format!("mi {:02X}", rng.byte())
}

fn type_info_kinds(_: &mut Rng, emit: Emit) {
    every_word(&mut |word| emit(&format!("ti {word:x}")));
}

/// Every combination of the bits that decide.
fn type_info_all(_: &mut Rng, emit: Emit) {
    for word in 0..1u32 << 18 {
        emit(&format!("ti {word:x}"));
    }
}

fn type_info_high_bits(rng: &mut Rng, emit: Emit) {
    for low in 0..1u32 << 13 {
        let high = rng.next() as u32 & 0xffff_e000;
        emit(&format!("ti {:08X}", high | low));
    }
}

pub fn random_type_info(rng: &mut Rng) -> String {
    let word = rng.next() as u32;
    let word = if rng.one_in(2) { word & 0xffff_f00f | 0x10 << rng.below(7) } else { word };
    format!("ti {word:x}")
}
