//! Requests for `dlt_zero_terminated_string`.

use super::build::text_bytes;
use super::random::Rng;
use super::{every_string, hex, hex_of_either_case, Emit, Section};

/// Bytes on both sides of every boundary that UTF-8 and the zero byte have.
pub const BOUNDARY: [u8; 25] = [
    0x00, 0x41, 0x7f, 0x80, 0x8f, 0x90, 0x9f, 0xa0, 0xbf, 0xc0, 0xc1, 0xc2, 0xdf, 0xe0, 0xec, 0xed, 0xee, 0xef, 0xf0,
    0xf1, 0xf3, 0xf4, 0xf5, 0xf8, 0xff,
];

pub const LARGE_SIZES: [u64; 9] =
    [255, 65_535, 65_536, 1 << 32, (1 << 32) - 1, 1 << 63, (1 << 63) - 1, u64::MAX - 1, u64::MAX];

pub const TINY: &[Section] = &[empty, boundary_bytes];
pub const SECTIONS: &[Section] = &[
    empty,
    one_byte,
    two_bytes,
    three_bytes,
    four_bytes,
    large_sizes,
    three_byte_letters,
    four_byte_letters,
    zeros_among,
    long_texts,
];

pub fn request(size: u64, bytes: &[u8]) -> String {
    format!("zts {size} {}", hex(bytes))
}

fn empty(_: &mut Rng, emit: Emit) {
    for size in (0..5).chain(LARGE_SIZES) {
        emit(&request(size, &[]));
    }
}

/// One and two boundary bytes at the sizes around them.
fn boundary_bytes(_: &mut Rng, emit: Emit) {
    for length in 1..=2 {
        every_string(&BOUNDARY, length, &mut |bytes| {
            for size in length as u64 - 1..=length as u64 + 1 {
                emit(&request(size, bytes));
            }
        });
    }
}

fn one_byte(_: &mut Rng, emit: Emit) {
    for byte in 0..=255 {
        for size in 0..=2 {
            emit(&request(size, &[byte]));
        }
    }
}

fn two_bytes(_: &mut Rng, emit: Emit) {
    for first in 0..=255 {
        for second in 0..=255 {
            for size in 1..=3 {
                emit(&request(size, &[first, second]));
            }
        }
    }
}

fn three_bytes(_: &mut Rng, emit: Emit) {
    every_string(&BOUNDARY, 3, &mut |bytes| {
        for size in 2..=4 {
            emit(&request(size, bytes));
        }
    });
}

fn four_bytes(_: &mut Rng, emit: Emit) {
    every_string(&BOUNDARY, 4, &mut |bytes| emit(&request(4, bytes)));
}

fn large_sizes(_: &mut Rng, emit: Emit) {
    for length in 1..=2 {
        every_string(&BOUNDARY, length, &mut |bytes| {
            for size in LARGE_SIZES {
                emit(&request(size, bytes));
            }
        });
    }
}

/// Every first and second byte of letters of three bytes.
fn three_byte_letters(_: &mut Rng, emit: Emit) {
    for first in 0xdf..=0xf0 {
        for second in 0..=255 {
            for third in [0x00, 0x41, 0x7f, 0x80, 0xbf, 0xc0, 0xff] {
                emit(&request(3, &[first, second, third]));
            }
        }
    }
}

/// Every first and second byte of letters of four bytes.
fn four_byte_letters(_: &mut Rng, emit: Emit) {
    for first in 0xef..=0xf5 {
        for second in 0..=255 {
            for third in [0x00, 0x7f, 0x80, 0xbf, 0xc0] {
                for fourth in [0x00, 0x7f, 0x80, 0xbf, 0xc0] {
                    emit(&request(4, &[first, second, third, fourth]));
                }
            }
        }
    }
}

/// Zero bytes at every place, with letters whole and broken around them.
fn zeros_among(_: &mut Rng, emit: Emit) {
    every_string(&[0x00, 0x41, 0xc3, 0xa9], 6, &mut |bytes| {
        for size in [3, 4, 6, 7] {
            emit(&request(size, bytes));
        }
    });
}

/// As long as 16 bits can count, and longer; a zero byte last, or a broken letter.
fn long_texts(_: &mut Rng, emit: Emit) {
    for length in [65_534, 65_535, 65_536, 140_000] {
        let mut bytes = vec![0x41; length];
        for last in [0x41, 0x00, 0xc3] {
            bytes[length - 1] = last;
            for size in length as u64 - 1..=length as u64 + 1 {
                emit(&request(size, &bytes));
            }
        }
    }
}

pub fn random(rng: &mut Rng) -> String {
    let bytes = text_bytes(rng, 40);
    let near = bytes.len() as u64 + 3 - rng.below(6.min(bytes.len() + 4)) as u64;
    let size = match rng.below(8) {
        0 => rng.pick(&LARGE_SIZES),
        1 => rng.next(),
        2 => 4,
        3 => rng.below(bytes.len() + 1) as u64,
        _ => near,
    };
    format!("zts {size} {}", hex_of_either_case(rng, &bytes))
}
