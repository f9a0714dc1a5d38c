//! Requests with identifiers of every make at the four places where a message has one.

use super::build::{filter_field, FILTER_IDS, PATTERN};
use super::messages::request;
use super::random::Rng;
use super::{every_string, Emit, Section};

/// Of each class of bytes that UTF-8 and the zero byte tell apart the first and the last, and an ordinary letter.
pub const CLASSES: [u8; 26] = [
    0x00, 0x01, 0x41, 0x7f, 0x80, 0x8f, 0x90, 0x9f, 0xa0, 0xbf, 0xc0, 0xc1, 0xc2, 0xdf, 0xe0, 0xe1, 0xec, 0xed, 0xee,
    0xef, 0xf0, 0xf1, 0xf3, 0xf4, 0xf5, 0xff,
];

/// One for each way through the rule: zero bytes, letters, sequences of two to four, whole, cut and not well-formed.
const EXAMPLES: [&[u8]; 38] = [
    b"",
    b"A",
    b"\0",
    b"\xff",
    b"A\0",
    b"\0A",
    b"AB",
    b"\xff\0",
    b"\xc3\xa9",
    b"ABC",
    b"A\0C",
    b"ABCD",
    b"ABCE",
    b"APP\0",
    b"\0ABC",
    b"A\0BC",
    b"AB\0C",
    b"AB\xffC",
    b"A\0\xff\xff",
    b"\xc3(\xc3(",
    b"A\xc3\0A",
    b"ABC\xc3",
    b"\xc3\xa9\xc3\xa9",
    b"\xc3\xa9AB",
    b"A\xc3\xa9B",
    b"A\xe2\x82\xac",
    b"\xe2\x82\xacA",
    b"\xe2\x82\xac\0",
    b"\xf0\x9f\x98\x80",
    b"\xf0\x9f\x98\0",
    b"A\xf0\x9f\x98",
    b"\xc0\x80AA",
    b"\xe0\x9f\xbfA",
    b"\xed\xa0\x80A",
    b"\xf0\x8f\xbf\xbf",
    b"\xf0\x90\x80\x80",
    b"\xf4\x8f\xbf\xbf",
    b"\xf4\x90\x80\x80",
];

pub const TINY: &[Section] = &[examples];
pub const SECTIONS: &[Section] = &[cut, by_fields, at_a_glance, filtered_by_fields, filtered_at_a_glance];

/// A message from its pattern on, with an identifier's bytes at all four places: 34 bytes, which are read field by
/// field, or 42, of which every header field is known to be there.
fn message(id: &[u8], glance: bool) -> Vec<u8> {
    let (flags, other_fields): (u8, &[u8]) = if glance { (0x3d, &[1, 2, 3, 4, 5, 6, 7, 8]) } else { (0x25, &[]) };
    let mut bytes = [&PATTERN, &[1, 0, 0, 0, 2, 0, 0, 0][..], id].concat();
    bytes.extend([flags, 7, 0, 18 + other_fields.len() as u8]);
    bytes.extend([id, other_fields, &[0x41, 0], id, id].concat());
    bytes
}

/// A message's first bytes up to each of the places, and the fewer than four bytes of an identifier.
fn cut_at_each_place(id: &[u8], emit: Emit) {
    let whole = message(b"APP\0", false);
    // in storage mode fewer than 16 bytes wait, whatever they are: so four bytes of junk come first
    emit(&request(true, &[], &[b"junk", &whole[..12], id].concat()));
    for place in [20, 26, 30] {
        emit(&request(false, &[], &[&whole[16..place], id].concat()));
    }
}

/// A filter of three sets, each with this one identifier.
fn filter_of(id: [u8; 4]) -> Vec<u8> {
    [2, 3, 4].into_iter().flat_map(|tag| filter_field(tag, &id)).collect()
}

/// Its value as Rust's own reading of UTF-8 has it, padded with zero bytes.
pub fn padded(id: &[u8]) -> [u8; 4] {
    let before_zero = id.split(|&byte| byte == 0).next().unwrap_or_default();
    let length = std::str::from_utf8(before_zero).map_or_else(|error| error.valid_up_to(), str::len);
    let mut padded = [0; 4];
    padded[..length].copy_from_slice(&before_zero[..length]);
    padded
}

fn every_whole(take: &mut dyn FnMut(&[u8])) {
    every_string(&CLASSES, 4, take);
}

fn cut(_: &mut Rng, emit: Emit) {
    for length in 0..4 {
        every_string(&CLASSES, length, &mut |id| cut_at_each_place(id, emit));
    }
}

fn by_fields(_: &mut Rng, emit: Emit) {
    every_whole(&mut |id| emit(&request(true, &[], &message(id, false))));
}

fn at_a_glance(_: &mut Rng, emit: Emit) {
    every_whole(&mut |id| emit(&request(true, &[], &message(id, true))));
}

/// Half of the filters let the message pass, most others drop it.
fn filtered(rng: &mut Rng, id: &[u8], glance: bool) -> String {
    let held = if rng.one_in(2) { padded(id) } else { rng.pick(&FILTER_IDS) };
    request(true, &filter_of(held), &message(id, glance))
}

fn filtered_by_fields(rng: &mut Rng, emit: Emit) {
    every_whole(&mut |id| emit(&filtered(rng, id, false)));
}

fn filtered_at_a_glance(rng: &mut Rng, emit: Emit) {
    every_whole(&mut |id| emit(&filtered(rng, id, true)));
}

pub fn examples(_: &mut Rng, emit: Emit) {
    for id in EXAMPLES {
        if id.len() < 4 {
            cut_at_each_place(id, emit);
            continue;
        }
        for glance in [false, true] {
            emit(&request(true, &[], &message(id, glance)));
            emit(&request(true, &filter_of(padded(id)), &message(id, glance)));
        }
    }
}

/// Any four bytes, with and without a filter.
pub fn random(rng: &mut Rng) -> String {
    let id = rng.bytes(4);
    let glance = rng.one_in(2);
    if rng.one_in(2) {
        return filtered(rng, &id, glance);
    }
    request(true, &[], &message(&id, glance))
}
