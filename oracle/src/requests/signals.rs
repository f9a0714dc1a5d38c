//! Requests for `construct_arguments`.

use super::build::{damage, every_word, number, random_word, text_bytes, FLOATS32, FLOATS64, GOOD_KINDS};
use super::random::Rng;
use super::strings::BOUNDARY;
use super::{every_string, hex, Emit, Section};

pub const TINY: &[Section] = &[good_kinds];
pub const SECTIONS: &[Section] =
    &[every_kind, every_short_data, floats, short_strings, long_strings, sizes, two_words, bad_word_later];

pub fn request(big: bool, words: &[u32], data: &[u8]) -> String {
    let order = if big { "B" } else { "L" };
    let words: Vec<String> = words.iter().map(|word| format!("{word:x}")).collect();
    let words = if words.is_empty() { "-".to_string() } else { words.join(",") };
    format!("args {order} {words} {}", hex(data))
}

/// Each kind that passes, with data that suits it, one byte less and one more.
fn good_kinds(rng: &mut Rng, emit: Emit) {
    for word in GOOD_KINDS {
        for big in [false, true] {
            let mut data = signal(rng, word, big);
            emit(&request(big, &[word], &data));
            emit(&request(big, &[word], &data[1..]));
            data.push(0);
            emit(&request(big, &[word], &data));
        }
    }
}

/// Every word with data of each length around the widths.
fn every_kind(rng: &mut Rng, emit: Emit) {
    every_word(&mut |word| {
        for big in [false, true] {
            for length in 0..=17 {
                emit(&request(big, &[word], &rng.bytes(length)));
            }
        }
    });
}

/// The empty list and single words of each kind with one and two bytes.
fn every_short_data(_: &mut Rng, emit: Emit) {
    for word in [0x10, 0x21, 0x41] {
        for byte in 0..=255 {
            emit(&request(false, &[word], &[byte]));
        }
    }
    for word in [0x22, 0x42] {
        every_string(&BOUNDARY, 2, &mut |data| {
            emit(&request(false, &[word], data));
            emit(&request(true, &[word], data));
        });
    }
    for length in 0..4 {
        emit(&request(false, &[], &vec![1; length]));
    }
}

fn floats(_: &mut Rng, emit: Emit) {
    for big in [false, true] {
        for bits in FLOATS32 {
            for word in [0x83, 0x1083, 0x883] {
                emit(&request(big, &[word], &number(u128::from(bits), 4, big)));
            }
        }
        for bits in FLOATS64 {
            for word in [0x84, 0x1084, 0x884] {
                emit(&request(big, &[word], &number(u128::from(bits), 8, big)));
            }
        }
    }
}

pub fn sized(big: bool, size: usize, content: &[u8]) -> Vec<u8> {
    let mut data = number(size as u128, 2, big);
    data.extend(content);
    data
}

/// Strings of up to two bytes and raw data of the same.
fn short_strings(_: &mut Rng, emit: Emit) {
    for length in 0..=2 {
        every_string(&BOUNDARY, length, &mut |content| {
            for word in [0x200, 0x400] {
                for size in length.saturating_sub(1)..=length + 1 {
                    emit(&request(false, &[word], &sized(false, size, content)));
                    emit(&request(true, &[word], &sized(true, size, content)));
                }
            }
        });
    }
}

/// Strings of three bytes, and of four in letters of four.
fn long_strings(_: &mut Rng, emit: Emit) {
    every_string(&BOUNDARY, 3, &mut |content| emit(&request(false, &[0x8200], &sized(false, 3, content))));
    for first in 0xef..=0xf5 {
        every_string(&BOUNDARY, 3, &mut |rest| {
            let content = [first, rest[0], rest[1], rest[2]];
            if rest[2] & 0x1f == 0 || rest[2] == 0xbf {
                emit(&request(true, &[0x200], &sized(true, 4, &content)));
            }
        });
    }
}

/// Sizes above, at and below what stands there.
fn sizes(rng: &mut Rng, emit: Emit) {
    for big in [false, true] {
        for word in [0x200, 0x400, 0xa00, 0xc00] {
            for size in [0, 1, 2, 3, 5, 255, 256, 257, 32_768, 65_535] {
                for length in [0, 1, 2, 3, 4, 6, 255, 256, 257] {
                    let content: Vec<u8> = (0..length).map(|_| rng.between(0x20, 0x7e) as u8).collect();
                    emit(&request(big, &[word], &sized(big, size, &content)));
                }
            }
        }
    }
}

/// Every pair of kinds, with data that suits both and is then cut.
fn two_words(rng: &mut Rng, emit: Emit) {
    const KINDS: [u32; 11] = [0x10, 0x21, 0x42, 0x23, 0x44, 0x25, 0x83, 0x84, 0x200, 0x400, 0x1023];
    for first in KINDS {
        for second in KINDS {
            let big = rng.one_in(2);
            let mut data = signal(rng, first, big);
            data.extend(signal(rng, second, big));
            for cut in 0..4.min(data.len()) {
                emit(&request(big, &[first, second], &data[..data.len() - cut]));
            }
            data.push(rng.byte());
            emit(&request(big, &[first, second], &data));
        }
    }
}

/// A word that doesn't pass, before and after one that reads and one that lacks data.
fn bad_word_later(rng: &mut Rng, emit: Emit) {
    for bad in [0, 0x30, 0x100, 0x300, 0x20, 0x46, 0x81, 0x85, 0x1021, 0x1025, 0x700, 0xffff_ffff] {
        for length in 0..6 {
            let data = rng.bytes(length);
            for words in
                [&[bad][..], &[bad, 0x43], &[0x43, bad], &[0x43, bad, 0x10], &[0x10, 0x42, bad], &[0x1023, bad]]
            {
                emit(&request(false, words, &data));
            }
        }
    }
}

/// Data for one word.
pub fn signal(rng: &mut Rng, word: u32, big: bool) -> Vec<u8> {
    match word & 0x7f0 {
        0x10 => rng.bytes(1),
        0x200 | 0x400 => {
            let mut content = text_bytes(rng, 12);
            if rng.one_in(2) {
                content = String::from_utf8_lossy(&content).into_owned().into_bytes();
            }
            let size = if rng.one_in(10) { rng.below(16) } else { content.len() };
            sized(big, size, &content)
        }
        0x80 if word & 15 == 3 => number(u128::from(rng.pick(&FLOATS32)), 4, big),
        0x80 if word & 15 == 4 => number(u128::from(rng.pick(&FLOATS64)), 8, big),
        _ => {
            let width = 1 << (word & 15).clamp(1, 5) >> 1;
            rng.bytes(width)
        }
    }
}

pub fn random(rng: &mut Rng) -> String {
    let big = rng.one_in(2);
    let words: Vec<u32> = (0..rng.below(6)).map(|_| random_word(rng)).collect();
    // a fixed point never gives a value, so most lists go without
    let words: Vec<u32> = words.iter().map(|&word| if rng.one_in(8) { word } else { word & !0x1000 }).collect();
    let mut data: Vec<u8> = words.iter().flat_map(|&word| signal(rng, word, big)).collect();
    if rng.one_in(3) {
        damage(rng, &mut data);
    }
    let line = request(big, &words, &data);
    if rng.one_in(6) {
        return line.to_lowercase();
    }
    line
}
