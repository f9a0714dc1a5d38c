//! Cut messages, the same ones for the same seed.

use crate::judge::{header_length, heads, Due, Heads, STORAGE_HEADER};
use oracle::requests::build::{argument, filter_field, headers, id_set, junk, random_word, storage_header, PATTERN};
use oracle::requests::messages::request;
use oracle::requests::random::Rng;

/// A message to its declared end, the bytes skipped before it, and where it is cut; and whole messages before all this, for the index.
pub struct Case {
    pub storage: bool,
    pub filter: Vec<u8>,
    pub lead: Vec<u8>,
    pub leads: usize,
    pub skipped: usize,
    pub bytes: Vec<u8>,
    pub cut: usize,
}

impl Case {
    fn standard(&self) -> usize {
        if self.storage {
            self.skipped + STORAGE_HEADER
        } else {
            0
        }
    }

    pub fn heads(&self) -> Heads {
        heads(&self.bytes, self.standard()).expect("whole headers")
    }

    pub fn has_extended_header(&self) -> bool {
        self.bytes[self.standard()] & 1 == 1
    }

    pub fn due(&self) -> Due {
        let heads = self.heads();
        let end = self.standard() + heads.declared;
        Due { need: end - self.cut, verbose: heads.verbose, end }
    }

    pub fn request(&self, end: usize) -> String {
        request(self.storage, &self.filter, &self.bytes[..end])
    }
}

pub const FILTERS: [&str; 6] = ["none", "level", "app ids", "context ids", "ECU ids", "several tags"];

fn filter(rng: &mut Rng, kind: usize) -> Vec<u8> {
    match FILTERS[kind] {
        "none" => Vec::new(),
        "level" => filter_field(1, &[rng.between(1, 6) as u8]),
        "app ids" => filter_field(2, &id_set(rng)),
        "context ids" => filter_field(4, &id_set(rng)),
        "ECU ids" => filter_field(3, &id_set(rng)),
        _ => several_tags(rng),
    }
}

/// A level, and each of the three sets half of the time.
fn several_tags(rng: &mut Rng) -> Vec<u8> {
    let mut bytes = filter_field(1, &[rng.between(1, 6) as u8]);
    for tag in 2..=4 {
        if rng.one_in(2) {
            bytes.extend(filter_field(tag, &id_set(rng)));
        }
    }
    bytes
}

/// Bytes before a pattern with no whole pattern among them; some end in its beginning.
fn bytes_before(rng: &mut Rng) -> Vec<u8> {
    if rng.one_in(2) {
        return Vec::new();
    }
    loop {
        let mut bytes = junk(rng, 12);
        if rng.one_in(3) {
            bytes.extend(&PATTERN[..rng.between(1, 3)]);
        }
        if bytes.windows(4).all(|four| four != PATTERN) {
            return bytes;
        }
    }
}

/// Up to two whole messages that are items or dropped, and their number.
fn lead(rng: &mut Rng) -> (Vec<u8>, usize) {
    let leads = rng.below(3);
    let mut bytes = Vec::new();
    for _ in 0..leads {
        let (flags, info, payload) = (rng.byte(), rng.byte() & 0xfe, rng.between(4, 12));
        bytes.extend(storage_header(rng));
        bytes.extend(headers(rng, flags, info, 0, payload));
        bytes.extend(rng.bytes(payload));
    }
    (bytes, leads)
}

/// Mostly 1 to 8 bytes, since the shortest are too short for what they must hold; seldom as many as a message can have.
fn payload_length(rng: &mut Rng, most: usize) -> usize {
    match rng.below(1000) {
        0 if rng.one_in(2) => most,
        0 => rng.between(1, most),
        1..=40 => rng.between(65, 600),
        41..=300 => rng.between(9, 64),
        _ => rng.between(1, 8),
    }
}

/// A payload and an argument count: of half of the verbose messages sound arguments, at times fewer bytes or arguments than counted; else any.
fn payload(rng: &mut Rng, flags: u8, info: u8) -> (Vec<u8>, u8) {
    if flags & info & 1 == 0 || rng.one_in(2) {
        let length = payload_length(rng, usize::from(u16::MAX) - header_length(flags));
        let count = if rng.one_in(2) { rng.byte() } else { rng.below(4) as u8 };
        return (rng.bytes(length), count);
    }
    let (arguments, more) = (rng.between(1, 3), rng.pick(&[0, 0, 0, 1]));
    let mut bytes = Vec::new();
    for _ in 0..arguments {
        let word = random_word(rng);
        bytes.extend(argument(rng, word, flags & 2 != 0));
    }
    if rng.one_in(4) {
        bytes.truncate(rng.between(1, bytes.len()));
    }
    (bytes, (arguments + more) as u8)
}

/// How many bytes of a payload stand before the cut: none, all but one, or any number between.
fn bytes_there(rng: &mut Rng, payload: usize) -> usize {
    match rng.below(4) {
        0 => 0,
        1 => payload - 1,
        _ => rng.below(payload),
    }
}

/// A cut message with this message info, if it has one, under a filter of a kind. What is behind the cut is random.
pub fn random_case(rng: &mut Rng, info: u8, kind: usize) -> Case {
    let storage = rng.one_in(2);
    let filter = filter(rng, kind);
    let flags = rng.byte() | u8::from(rng.one_in(2));
    let (mut payload, count) = payload(rng, flags, info);
    let there = bytes_there(rng, payload.len());
    let behind = payload.len() - there;
    payload.truncate(there);
    payload.extend(rng.bytes(behind));
    let (lead, leads) = lead(rng);
    let mut bytes = if storage { bytes_before(rng) } else { Vec::new() };
    let skipped = bytes.len();
    if storage {
        bytes.extend(storage_header(rng));
    }
    bytes.extend(headers(rng, flags, info, count, payload.len()));
    bytes.extend(payload);
    let cut = bytes.len() - behind;
    Case { storage, filter, lead, leads, skipped, bytes, cut }
}

/// Hands over a message whole, its cut being its length, and then cut at each place behind its headers.
fn every_place(rng: &mut Rng, storage: bool, filter: &[u8], headers: Vec<u8>, payload: usize, take: &mut dyn FnMut(&Case)) {
    let before = if storage { storage_header(rng) } else { Vec::new() };
    let bytes = [before, headers, rng.bytes(payload)].concat();
    let whole = bytes.len();
    let mut case = Case { storage, filter: filter.to_vec(), lead: Vec::new(), leads: 0, skipped: 0, bytes, cut: whole };
    take(&case);
    for cut in whole - payload..whole {
        case.cut = cut;
        take(&case);
    }
}

/// Short messages with a message info: both modes, both byte orders, few and all header fields, none or one argument, without and with a filter.
pub fn short_messages(rng: &mut Rng, info: u8, take: &mut dyn FnMut(&Case)) {
    for flags in [0x21, 0x23, 0x3d, 0x3f] {
        for count in [0, 1] {
            for filter in [Vec::new(), filter_field(1, &[3])] {
                for payload in 0..=4 {
                    for storage in [false, true] {
                        let headers = headers(rng, flags, info, count, payload);
                        every_place(rng, storage, &filter, headers, payload, take);
                    }
                }
            }
        }
    }
}
