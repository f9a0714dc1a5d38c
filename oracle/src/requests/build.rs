//! Building blocks of requests: texts, arguments, messages, filters, and damage.

use super::random::Rng;
use super::strings::BOUNDARY;
use crate::filter::Old;

pub const PATTERN: [u8; 4] = [0x44, 0x4c, 0x54, 0x01];

/// Identifiers: padded, full, empty, not UTF-8, with a zero between, letters of two to four bytes.
pub const IDS: [[u8; 4]; 12] = [
    *b"APP\0",
    *b"ECU1",
    *b"A\0\0\0",
    *b"\0\0\0\0",
    *b"A\xff\0\0",
    *b"A\0B\0",
    *b"\xc3\x28\0\0",
    *b"\xc3\xa9\0\0",
    *b"AB\xc3\xa9",
    *b"\xf0\x9f\x98\x80",
    *b"\xe2\x82\xac\xf0",
    *b"CTX\0",
];

/// Those of them that a filter may hold.
pub const FILTER_IDS: [[u8; 4]; 8] =
    [*b"APP\0", *b"ECU1", *b"A\0\0\0", *b"\0\0\0\0", *b"\xc3\xa9\0\0", *b"AB\xc3\xa9", *b"\xf0\x9f\x98\x80", *b"CTX\0"];

/// Counts that a filter could have: fewer, as many and more than it holds ids, and the ends of their range.
pub const COUNTS: [i64; 10] = [0, 1, 2, 4, 5, 8, 9, -1, i64::MAX, i64::MIN];

/// Patterns of floats of 32 bits: zeros, smallest, largest, infinite, every class of not-a-number.
pub const FLOATS32: [u32; 16] = [
    0,
    0x8000_0000,
    1,
    0x007f_ffff,
    0x0080_0000,
    0x3f80_0000,
    0x7f7f_ffff,
    0x7f80_0000,
    0xff80_0000,
    0x7f80_0001,
    0xff80_0001,
    0x7fbf_ffff,
    0x7fc0_0000,
    0xffc0_0000,
    0x7fff_ffff,
    0xffff_ffff,
];

/// The same for 64 bits.
pub const FLOATS64: [u64; 14] = [
    0,
    1 << 63,
    1,
    0x000f_ffff_ffff_ffff,
    0x3ff0_0000_0000_0000,
    0x7fef_ffff_ffff_ffff,
    0x7ff0_0000_0000_0000,
    0xfff0_0000_0000_0000,
    0x7ff0_0000_0000_0001,
    0xfff0_0000_0000_0001,
    0x7ff7_ffff_ffff_ffff,
    0x7ff8_0000_0000_0000,
    0xfff8_0000_0000_0000,
    0xffff_ffff_ffff_ffff,
];

/// A word for each kind that passes, without flags.
pub const GOOD_KINDS: [u32; 19] = [
    0x10, 0x21, 0x22, 0x23, 0x24, 0x25, 0x41, 0x42, 0x43, 0x44, 0x45, 0x83, 0x84, 0x200, 0x400, 0x1023, 0x1024, 0x1043,
    0x1044,
];

/// Words that don't pass: no kind, every bit, two kinds, bit 8, and lengths that don't fit.
pub const BAD_WORDS: [u32; 6] = [0, 0xffff_ffff, 0x30, 0x110, 0x20, 0x81];

const VARIABLE_INFO: u32 = 1 << 11;
const FIXED_POINT: u32 = 1 << 12;

/// Every length with each single kind bit, with and without variable info and fixed point.
pub fn every_word(take: &mut dyn FnMut(u32)) {
    for flags in [0, VARIABLE_INFO, FIXED_POINT, VARIABLE_INFO | FIXED_POINT] {
        for kind in 4..=10 {
            for length in 0..16 {
                take(flags | 1 << kind | length);
            }
        }
    }
}

/// A word that mostly passes: a good kind, with any of the flags that are kept or dropped.
pub fn random_word(rng: &mut Rng) -> u32 {
    let mut word = rng.pick(&GOOD_KINDS);
    if rng.one_in(2) {
        word |= VARIABLE_INFO;
    }
    if rng.one_in(4) {
        word |= rng.next() as u32 & 0xffff_e000;
    }
    if rng.one_in(20) {
        word ^= 1 << rng.below(13);
    }
    word
}

/// A number of some width in a byte order.
pub fn number(value: u128, width: usize, big: bool) -> Vec<u8> {
    let bytes = value.to_be_bytes();
    let mut bytes = bytes[16 - width..].to_vec();
    if !big {
        bytes.reverse();
    }
    bytes
}

/// Up to `most` bytes: letters of one to four bytes, some zero bytes, some of it broken.
pub fn text_bytes(rng: &mut Rng, most: usize) -> Vec<u8> {
    let length = rng.below(most + 1);
    let mut bytes = Vec::new();
    while bytes.len() < length {
        match rng.below(10) {
            0..=4 => bytes.push(rng.between(0x20, 0x7e) as u8),
            5..=7 => bytes.extend(letter(rng).to_string().bytes()),
            8 => bytes.push(rng.pick(&BOUNDARY)),
            _ => bytes.push(if rng.one_in(2) { 0 } else { rng.byte() }),
        }
    }
    if rng.one_in(3) {
        bytes.truncate(length);
    }
    bytes
}

/// Any letter, most often one near a boundary of UTF-8.
pub fn letter(rng: &mut Rng) -> char {
    const NEAR: [u32; 12] =
        [0x7f, 0x80, 0x7ff, 0x800, 0xfff, 0x1000, 0xd7ff, 0xe000, 0xffff, 0x1_0000, 0x3_ffff, 0x10_ffff];
    let code = if rng.one_in(2) { rng.pick(&NEAR) } else { rng.below(0x11_0000) as u32 };
    char::from_u32(code).unwrap_or('\u{fffd}')
}

/// A size field that mostly tells the truth.
fn size_field(rng: &mut Rng, length: usize, big: bool) -> Vec<u8> {
    let size = match rng.below(30) {
        0 => length + 1,
        1 => length.saturating_sub(1),
        2 => rng.below(65_536),
        _ => length,
    };
    number(size as u128, 2, big)
}

/// Draws up to so many bytes of a name, a unit or a value.
pub type Draw = fn(&mut Rng, usize) -> Vec<u8>;

/// What follows the word of a message's argument.
pub fn argument_body(rng: &mut Rng, word: u32, big: bool, text: Draw) -> Vec<u8> {
    let named = word & VARIABLE_INFO != 0;
    let mut body = Vec::new();
    if word & 0x10 != 0 {
        if named {
            push_name(rng, &mut body, big, text);
        }
        body.push(rng.byte());
    } else if word & 0x600 != 0 {
        push_sized(rng, &mut body, named, big, text);
    } else {
        if named {
            push_name_and_unit(rng, &mut body, big, text);
        }
        push_number(rng, &mut body, word, big);
    }
    body
}

fn push_name(rng: &mut Rng, body: &mut Vec<u8>, big: bool, text: Draw) {
    let name = text(rng, 8);
    body.extend(size_field(rng, name.len(), big));
    body.extend(name);
}

fn push_name_and_unit(rng: &mut Rng, body: &mut Vec<u8>, big: bool, text: Draw) {
    let name = text(rng, 8);
    let unit = text(rng, 5);
    body.extend(size_field(rng, name.len(), big));
    body.extend(size_field(rng, unit.len(), big));
    body.extend(name);
    body.extend(unit);
}

fn push_sized(rng: &mut Rng, body: &mut Vec<u8>, named: bool, big: bool, text: Draw) {
    let value = text(rng, 20);
    body.extend(size_field(rng, value.len(), big));
    if named {
        push_name(rng, body, big, text);
    }
    body.extend(value);
}

/// A number or float of the word's length, and a fixed point before it if flagged.
fn push_number(rng: &mut Rng, body: &mut Vec<u8>, word: u32, big: bool) {
    let width = 1 << (word & 15).clamp(1, 5) >> 1;
    if word & FIXED_POINT != 0 && word & 0x60 != 0 {
        body.extend(number(u128::from(rng.pick(&FLOATS32)), 4, big));
        body.extend(rng.bytes(if width > 4 { 8 } else { 4 }));
    }
    match (word & 0x80 != 0, width) {
        (true, 4) => body.extend(number(u128::from(rng.pick(&FLOATS32)), 4, big)),
        (true, 8) => body.extend(number(u128::from(rng.pick(&FLOATS64)), 8, big)),
        _ => body.extend(rng.bytes(width)),
    }
}

/// An argument as it stands in a message: the word, then its body.
pub fn argument(rng: &mut Rng, word: u32, big: bool) -> Vec<u8> {
    argument_of(rng, word, big, text_bytes)
}

/// The same, with texts drawn otherwise.
pub fn argument_of(rng: &mut Rng, word: u32, big: bool, text: Draw) -> Vec<u8> {
    let mut bytes = number(u128::from(word), 4, big);
    bytes.extend(argument_body(rng, word, big, text));
    bytes
}

/// A standard header and, if flagged, an extended header, which declare a payload of some length.
pub fn headers(rng: &mut Rng, flags: u8, info: u8, count: u8, payload: usize) -> Vec<u8> {
    let mut bytes = vec![flags, rng.byte(), 0, 0];
    if flags & 4 != 0 {
        bytes.extend(rng.pick(&IDS));
    }
    for flag in [8, 16] {
        if flags & flag != 0 {
            bytes.extend(rng.bytes(4));
        }
    }
    if flags & 1 != 0 {
        bytes.extend([info, count]);
        bytes.extend(rng.pick(&IDS));
        bytes.extend(rng.pick(&IDS));
    }
    let declared = bytes.len() + payload;
    declare(&mut bytes, declared);
    bytes
}

/// Writes the declared length into a message that begins with its standard header.
pub fn declare(message: &mut [u8], length: usize) {
    message[2] = (length / 256) as u8;
    message[3] = length as u8;
}

/// A message with some flags, message info and arguments or other payload.
pub fn message_with(rng: &mut Rng, flags: u8, info: u8, words: &[u32]) -> Vec<u8> {
    let big = flags & 2 != 0;
    let verbose = flags & 1 != 0 && info & 1 != 0;
    let payload: Vec<u8> = if verbose {
        words.iter().flat_map(|&word| argument(rng, word, big)).collect()
    } else {
        // under 4 bytes, or none in a control message, is too short
        let length = if rng.one_in(5) { rng.below(4) } else { rng.between(4, 12) };
        rng.bytes(length)
    };
    let mut message = headers(rng, flags, info, words.len() as u8, payload.len());
    message.extend(payload);
    message
}

/// A message of any kind that is mostly sound.
pub fn message(rng: &mut Rng) -> Vec<u8> {
    let mut flags = rng.byte();
    if rng.one_in(2) {
        flags |= 1;
    }
    let mut info = rng.byte();
    if rng.one_in(2) {
        info = info & 0xf0 | rng.pick(&[1, 1, 1, 5, 6, 4, 0]);
    }
    let words: Vec<u32> = (0..rng.below(4)).map(|_| random_word(rng)).collect();
    let mut message = message_with(rng, flags, info, &words);
    if rng.one_in(12) {
        let length = (message.len() + rng.below(8)).saturating_sub(4);
        declare(&mut message, length);
    }
    message
}

/// Message infos of verbose messages: logs, network traces, control messages, an application trace and an unknown type.
pub const VERBOSE_INFOS: [u8; 7] = [0x41, 0x61, 0x15, 0x75, 0x17, 0x27, 0x09];

/// What a message counts as an argument: mostly a sound one; else a text that is shorter than its size, or a word that
/// doesn't pass.
fn counted_argument(rng: &mut Rng, big: bool) -> Vec<u8> {
    match rng.below(8) {
        0 => number(u128::from(rng.pick(&BAD_WORDS)), 4, big),
        1 | 2 => {
            let content = text_bytes(rng, 12);
            let size = if rng.one_in(2) { 65_535 } else { content.len() + rng.between(1, 9) };
            let word = rng.pick(&[0x200, 0x400, 0x8200]);
            [number(word, 4, big), number(size as u128, 2, big), content].concat()
        }
        _ => {
            let word = random_word(rng);
            argument(rng, word, big)
        }
    }
}

/// A verbose message that mostly declares fewer bytes than its arguments have, or counts more arguments than there are.
/// What it doesn't declare stands behind it half of the time.
pub fn overrunning(rng: &mut Rng) -> Vec<u8> {
    let flags = rng.byte() | 1;
    let info = if rng.one_in(4) { rng.byte() | 1 } else { rng.pick(&VERBOSE_INFOS) };
    let arguments = rng.between(1, 3);
    let mut payload: Vec<u8> = (0..arguments).flat_map(|_| counted_argument(rng, flags & 2 != 0)).collect();
    if rng.one_in(8) {
        payload.extend(rng.bytes(3));
    }
    let count = arguments + rng.pick(&[0, 0, 0, 1, 2, 200]);
    let declared = match rng.below(4) {
        0 => payload.len(),
        1 => payload.len() - 1,
        _ => rng.below(payload.len() + 1),
    };
    let mut message = headers(rng, flags, info, count as u8, declared);
    let there = if rng.one_in(2) { declared } else { payload.len() };
    message.extend(&payload[..there]);
    message
}

/// A storage header with any time and identifier.
pub fn storage_header(rng: &mut Rng) -> Vec<u8> {
    let mut bytes = PATTERN.to_vec();
    bytes.extend(rng.bytes(8));
    bytes.extend(rng.pick(&IDS));
    bytes
}

pub fn stored_message(rng: &mut Rng) -> Vec<u8> {
    let mut bytes = storage_header(rng);
    bytes.extend(message(rng));
    bytes
}

/// Bytes between messages: random, or pieces of the pattern.
pub fn junk(rng: &mut Rng, most: usize) -> Vec<u8> {
    let length = rng.below(most + 1);
    let mut bytes = Vec::new();
    while bytes.len() < length {
        match rng.below(4) {
            0 => bytes.extend(&PATTERN[..rng.between(1, 3)]),
            1 => bytes.push(0),
            _ => bytes.push(rng.byte()),
        }
    }
    bytes
}

/// Flips bits, cuts, repeats, inserts or changes bytes; sometimes does nothing.
pub fn damage(rng: &mut Rng, bytes: &mut Vec<u8>) {
    for _ in 0..rng.pick(&[0, 0, 1, 1, 1, 2, 3]) {
        if bytes.is_empty() {
            return;
        }
        let place = rng.below(bytes.len());
        match rng.below(7) {
            0 | 1 => bytes[place] ^= 1 << rng.below(8),
            2 => bytes.truncate(place),
            3 => bytes.insert(place, rng.byte()),
            4 => drop(bytes.remove(place)),
            5 => bytes[place] = rng.pick(&BOUNDARY),
            _ => bytes.extend(rng.bytes(3)),
        }
    }
}

pub fn filter_field(tag: u8, value: &[u8]) -> Vec<u8> {
    let mut bytes = vec![tag, (value.len() / 256) as u8, value.len() as u8];
    bytes.extend(value);
    bytes
}

/// A set of different identifiers.
pub fn id_set(rng: &mut Rng) -> Vec<u8> {
    let chosen = rng.byte();
    let chosen = (0..8).filter(|place| chosen >> place & 1 == 1);
    chosen.flat_map(|place| FILTER_IDS[place]).collect()
}

/// A filter that mostly keeps the rules. Of the good ones one in sixteen has counts, unless it is for the list.
pub fn filter(rng: &mut Rng) -> Vec<u8> {
    let drawn = old_filter(rng);
    // counts are drawn for five in nine
    if rng.is_listing || rng.one_in(9) {
        return drawn;
    }
    match Old::read(&drawn) {
        Some(old) => old.without_counts(),
        None => drawn,
    }
}

/// A filter of the time when counts belonged to it.
fn old_filter(rng: &mut Rng) -> Vec<u8> {
    let mut bytes = Vec::new();
    if rng.one_in(3) {
        bytes.extend(filter_field(1, &[rng.between(1, 6) as u8]));
    }
    for tag in 2..=4 {
        if rng.one_in(3) {
            bytes.extend(filter_field(tag, &id_set(rng)));
        }
    }
    for tag in 5..=6 {
        if rng.one_in(3) {
            let count = rng.pick(&COUNTS);
            bytes.extend(filter_field(tag, &count.to_be_bytes()));
        }
    }
    if rng.one_in(8) {
        damage(rng, &mut bytes);
    }
    bytes
}

/// No filter half of the time.
pub fn filter_or_none(rng: &mut Rng) -> Vec<u8> {
    if rng.one_in(2) {
        Vec::new()
    } else {
        filter(rng)
    }
}
