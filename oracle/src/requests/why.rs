//! Requests that ask why texts ended, so that every reason is met at every place that has a text.

use super::build::{
    argument_of, damage, filter, filter_field, headers, junk, letter, number, random_word, storage_header,
};
use super::identifiers::{self, padded, CLASSES};
use super::random::Rng;
use super::signals::{self, signal, sized};
use super::{every_string, hex_of_either_case, messages, strings, Emit, Section};

pub const STRINGS_TINY: &[Section] = &[written_strings, tiny_strings];
pub const STRINGS: &[Section] = &[every_small_string];

pub const MESSAGES_TINY: &[Section] = &[written_messages, tiny_texts];
pub const MESSAGES: &[Section] = &[every_text, |rng, emit| behind_why(messages::SECTIONS, rng, emit)];

pub const SIGNALS_TINY: &[Section] = &[written_signals];
pub const SIGNALS: &[Section] = &[zeros_within, |rng, emit| behind_why(signals::SECTIONS, rng, emit)];

pub const IDS_TINY: &[Section] = &[|rng, emit| behind_why(identifiers::TINY, rng, emit)];
pub const IDS: &[Section] = &[|rng, emit| behind_why(identifiers::SECTIONS, rng, emit)];

/// A few lines that can't be read.
const UNREADABLE: [&str; 5] = ["why", "why zts 1", "why zts 1 414", "why skip 44", "why why zts 1 41"];

/// One for each way in which a string ends.
const WRITTEN_STRINGS: [&str; 14] = [
    "why zts 0 -",
    "why zts 0 00",
    "why zts 1 00",
    "why zts 1 4100",
    "why zts 2 4100",
    "why zts 2 c328",
    "why zts 3 4100ff",
    "why zts 2 ff00",
    "why zts 2 c300",
    "why zts 2 41c3",
    "why zts 3 41c3a9",
    "why zts 2 41",
    "why zts 2 00",
    "why zts 3 00",
];

/// Each reason at an identifier, and texts of arguments.
const WRITTEN_MESSAGES: [&str; 7] = [
    "why msg 0 - 2400000c4142434400000000",
    "why msg 0 - 2400000c4150500000000000",
    "why msg 0 - 2400000c415050ff00000000",
    "why msg 0 - 2100000e410141505000435458001100000001",
    "why msg 0 - 2100000e410141424344435458000002000002004100",
    "why msg 0 - 2100000e410141424344435458000004000002004100",
    "why msg 0 - 2100000e41014142434443545800410800000000020041c307",
];

/// Signal strings end at their size, or are refused.
const WRITTEN_SIGNALS: [&str; 4] =
    ["why args L 200 02004100", "why args L 200 0200c328", "why args L 200 0000", "why args L 41,200 07010041"];

/// How many places of a text `argument_with` knows.
const PLACES: usize = 7;

/// Requests of other kinds, with `why` in front.
fn behind_why(sections: &[Section], rng: &mut Rng, emit: Emit) {
    for section in sections {
        section(rng, &mut |line| emit(&format!("why {line}")));
    }
}

fn written_strings(_: &mut Rng, emit: Emit) {
    UNREADABLE.iter().chain(&WRITTEN_STRINGS).for_each(|line| emit(line));
}

fn written_messages(_: &mut Rng, emit: Emit) {
    WRITTEN_MESSAGES.iter().for_each(|line| emit(line));
}

fn written_signals(_: &mut Rng, emit: Emit) {
    WRITTEN_SIGNALS.iter().for_each(|line| emit(line));
}

/// Strings of up to so many bytes at every size up to so many.
fn strings_of(alphabet: &[u8], longest: usize, largest: u64, emit: Emit) {
    for length in 0..=longest {
        every_string(alphabet, length, &mut |bytes| {
            for size in 0..=largest {
                emit(&format!("why {}", strings::request(size, bytes)));
            }
        });
    }
}

fn tiny_strings(_: &mut Rng, emit: Emit) {
    strings_of(&[0x00, 0x41, 0xc3, 0xa9, 0xff], 2, 3, emit);
}

fn every_small_string(_: &mut Rng, emit: Emit) {
    strings_of(&CLASSES, 3, 4, emit);
}

/// Exactly so many bytes of letters.
fn letters(rng: &mut Rng, size: usize) -> Vec<u8> {
    let mut bytes = Vec::new();
    while bytes.len() < size {
        let next = letter(rng);
        if rng.one_in(2) && next != '\0' && next.len_utf8() <= size - bytes.len() {
            bytes.extend(next.to_string().bytes());
        } else {
            bytes.push(rng.between(0x20, 0x7e) as u8);
        }
    }
    bytes
}

/// The beginning of a letter of two to four bytes.
fn cut_letter(rng: &mut Rng) -> &'static [u8] {
    let whole = rng.pick(&["\u{e9}", "\u{20ac}", "\u{d7ff}", "\u{1f600}", "\u{10ffff}"]).as_bytes();
    &whole[..rng.between(1, whole.len() - 1)]
}

/// Exactly so many bytes: letters that fill them, or that a zero byte, bytes that are no UTF-8 or a cut letter ends.
fn text_of(rng: &mut Rng, size: usize) -> Vec<u8> {
    let before = rng.below(size + 1);
    let mut bytes = letters(rng, before);
    match rng.below(12) {
        0..=2 => bytes = letters(rng, size),
        3 | 4 => bytes.resize(size, 0),
        5 | 6 => bytes.push(0),
        7 => bytes.push(rng.pick(&[0x80, 0xbf, 0xc0, 0xc1, 0xf5, 0xff])),
        8 => bytes.extend(cut_letter(rng)),
        9 => bytes.extend([cut_letter(rng), &[0]].concat()),
        10 => {
            let cut = cut_letter(rng);
            bytes = letters(rng, size.saturating_sub(cut.len()));
            bytes.extend(cut);
        }
        _ => bytes.extend((before..size).map(|_| rng.pick(&CLASSES)).collect::<Vec<u8>>()),
    }
    let more = size.saturating_sub(bytes.len());
    bytes.extend(if rng.one_in(2) { letters(rng, more) } else { rng.bytes(more) });
    bytes.truncate(size);
    bytes
}

/// Up to so many bytes of that.
fn text(rng: &mut Rng, most: usize) -> Vec<u8> {
    let size = rng.below(most + 1);
    text_of(rng, size)
}

/// Sizes near the length, and bytes behind the size.
pub fn random_string(rng: &mut Rng) -> String {
    let most = if rng.one_in(8) { 150 } else { 14 };
    let mut bytes = text(rng, most);
    let size = match rng.below(8) {
        0 => bytes.len() + rng.below(3),
        1 => bytes.len().saturating_sub(1),
        2 => rng.below(bytes.len() + 1),
        3 => 4,
        _ => bytes.len(),
    };
    if rng.one_in(3) {
        bytes.extend(text(rng, 6));
    }
    format!("why zts {size} {}", hex_of_either_case(rng, &bytes))
}

/// An argument with a text at one of the places: a name of a bool, of a number, of a string and of raw data, a unit, a
/// string without and with a name.
fn argument_with(place: usize, words: &[u8], big: bool) -> Vec<u8> {
    let word = |word: u32| number(u128::from(word), 4, big);
    let size = |bytes: &[u8]| number(bytes.len() as u128, 2, big);
    let other = b"n\0";
    match place {
        0 => [word(0x810), size(words), words.to_vec(), vec![1]].concat(),
        1 => [word(0x841), size(words), size(other), words.to_vec(), other.to_vec(), vec![7]].concat(),
        2 => [word(0x841), size(other), size(words), other.to_vec(), words.to_vec(), vec![7]].concat(),
        3 => [word(0xa00), size(other), size(words), words.to_vec(), other.to_vec()].concat(),
        4 => [word(0xc00), size(other), size(words), words.to_vec(), other.to_vec()].concat(),
        5 => [word(0x200), size(words), words.to_vec()].concat(),
        _ => [word(0xa00), size(words), size(other), other.to_vec(), words.to_vec()].concat(),
    }
}

/// A message with this text at each place of an argument.
fn at_each_place(rng: &mut Rng, words: &[u8], emit: Emit) {
    for place in 0..PLACES {
        let big = rng.one_in(2);
        let argument = argument_with(place, words, big);
        let mut bytes = headers(rng, if big { 0x23 } else { 0x21 }, 0x41, 1, argument.len());
        bytes.extend(argument);
        emit(&format!("why {}", messages::request(false, &[], &bytes)));
    }
}

fn tiny_texts(rng: &mut Rng, emit: Emit) {
    for words in [&b""[..], b"A", b"\0", b"A\0\xff", b"\xff\0", b"A\xc3", b"\xc3\0"] {
        at_each_place(rng, words, emit);
    }
}

fn every_text(rng: &mut Rng, emit: Emit) {
    for length in 0..=3 {
        every_string(&[0x00, 0x41, 0xc3, 0xa9, 0xe2, 0x82, 0xff], length, &mut |words| at_each_place(rng, words, emit));
    }
}

/// An argument's word, mostly one with texts.
fn word_with_text(rng: &mut Rng) -> u32 {
    const WITH_TEXT: [u32; 10] = [0x200, 0x200, 0xa00, 0x8a00, 0x810, 0x841, 0x824, 0x883, 0x1823, 0xc00];
    if rng.one_in(4) {
        random_word(rng)
    } else {
        rng.pick(&WITH_TEXT)
    }
}

/// Headers with these identifiers (ECU, application, context), and arguments whose texts end for every reason.
fn message(rng: &mut Rng, ids: &[Vec<u8>]) -> Vec<u8> {
    let flags = rng.byte() | rng.pick(&[0, 1, 1, 5, 5, 0x3d]);
    let info = if rng.one_in(6) { rng.byte() } else { rng.pick(&[0x41, 0x41, 0x31, 0x03, 0x15, 0x40, 0x26]) };
    let words: Vec<u32> = (0..rng.below(4)).map(|_| word_with_text(rng)).collect();
    let payload: Vec<u8> = if flags & 1 != 0 && info & 1 != 0 {
        words.iter().flat_map(|&word| argument_of(rng, word, flags & 2 != 0, text)).collect()
    } else {
        let length = rng.between(3, 9);
        rng.bytes(length)
    };
    let mut bytes = headers(rng, flags, info, words.len() as u8, payload.len());
    if flags & 4 != 0 {
        bytes[4..8].copy_from_slice(&ids[0]);
    }
    if flags & 1 != 0 {
        let at = bytes.len() - 8;
        bytes[at..].copy_from_slice(&ids[1..].concat());
    }
    bytes.extend(payload);
    bytes
}

/// None, one that these identifiers pass, or any.
fn filter_for(rng: &mut Rng, ids: &[Vec<u8>]) -> Vec<u8> {
    match rng.below(8) {
        0..=3 => Vec::new(),
        4 => filter_field(2, &padded(&ids[1])),
        5 => [filter_field(3, &padded(&ids[0])), filter_field(4, &padded(&ids[2]))].concat(),
        6 => filter_field(1, &[rng.between(4, 6) as u8]),
        _ => filter(rng),
    }
}

pub fn random_message(rng: &mut Rng) -> String {
    let storage = rng.one_in(2);
    let ids: Vec<Vec<u8>> = (0..3).map(|_| text_of(rng, 4)).collect();
    let filter = filter_for(rng, &ids);
    let mut bytes = message(rng, &ids);
    if storage {
        let mut header = storage_header(rng);
        header.truncate(12);
        header.extend(text_of(rng, 4));
        let before = if rng.one_in(3) { junk(rng, 12) } else { Vec::new() };
        bytes = [before, header, bytes].concat();
    }
    if rng.one_in(6) {
        damage(rng, &mut bytes);
    }
    if rng.one_in(3) {
        bytes.extend(rng.bytes(6));
    }
    format!("why {}", messages::request(storage, &filter, &bytes))
}

/// Letters with zero bytes among them; one in eight is a text of any make.
fn signal_text(rng: &mut Rng) -> Vec<u8> {
    if rng.one_in(8) {
        return text(rng, 12);
    }
    let mut bytes = Vec::new();
    for _ in 0..rng.below(5) {
        let length = rng.below(4);
        bytes.extend(letters(rng, length));
        if rng.one_in(2) {
            bytes.push(0);
        }
    }
    bytes
}

/// Signal strings of up to four bytes, with zero bytes at every place, sound and broken.
fn zeros_within(rng: &mut Rng, emit: Emit) {
    for length in 0..=4 {
        every_string(&[0x00, 0x41, 0xc3, 0xa9], length, &mut |words| {
            let big = rng.one_in(2);
            let line = signals::request(big, &[0x200, 0x41], &[sized(big, length, words), vec![7]].concat());
            emit(&format!("why {line}"));
        });
    }
}

/// Signals of up to five words, most of them strings.
pub fn random_signals(rng: &mut Rng) -> String {
    let big = rng.one_in(2);
    let mut words = Vec::new();
    let mut data = Vec::new();
    for _ in 0..rng.below(6) {
        let word = if rng.one_in(3) { random_word(rng) & !0x1000 } else { rng.pick(&[0x200, 0xa00, 0x8200]) };
        words.push(word);
        if word & 0x7f0 == 0x200 {
            let content = signal_text(rng);
            data.extend(sized(big, content.len(), &content));
        } else {
            data.extend(signal(rng, word, big));
        }
    }
    if rng.one_in(8) {
        damage(rng, &mut data);
    }
    format!("why {}", signals::request(big, &words, &data))
}

pub fn random_ids(rng: &mut Rng) -> String {
    format!("why {}", identifiers::random(rng))
}
