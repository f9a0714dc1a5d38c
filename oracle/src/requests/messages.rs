//! Requests for `dlt_message`.

use super::build::{
    argument, damage, declare, every_word, filter, filter_field, filter_or_none, headers, junk, message, message_with,
    number, random_word, storage_header, stored_message, FLOATS32, FLOATS64, GOOD_KINDS, IDS,
};
use super::identifiers;
use super::needs;
use super::random::Rng;
use super::strings::BOUNDARY;
use super::{every_cut, every_string, hex, Emit, Section};

pub const TINY: &[Section] = &[every_argument_kind, identifiers::examples, needs::examples, needs::every_info];
pub const SECTIONS: &[Section] = &[
    every_flag_cut,
    every_message_info,
    every_declared_length,
    every_argument_kind,
    every_argument_cut,
    floats,
    strings,
    identifiers,
    network_traces,
    storage_places,
    good_filters,
    bad_filters,
    levels,
    long_messages,
];

/// Verbose network traces alone.
pub const TRACES_TINY: &[Section] = &[every_pair_of_kinds];
pub const TRACES: &[Section] = &[every_pair_of_kinds, network_traces];

pub fn request(storage: bool, filter: &[u8], bytes: &[u8]) -> String {
    format!("msg {} {} {}", u8::from(storage), hex(filter), hex(bytes))
}

fn plain(bytes: &[u8]) -> String {
    request(false, &[], bytes)
}

/// Every type byte, verbose, control and neither, cut at every length, with and without storage.
fn every_flag_cut(rng: &mut Rng, emit: Emit) {
    for flags in 0..=255 {
        let info = rng.pick(&[0x41, 0x40, 0x16, 0x26, 0x24, 0x25, 0x08]);
        let sound = message_with(rng, flags, info, &[0x10]);
        for cut in every_cut(&sound) {
            emit(&plain(cut));
        }
        let stored = [storage_header(rng), sound].concat();
        for cut in every_cut(&stored).skip(16) {
            emit(&request(true, &[], cut));
        }
    }
}

/// Every message info with short payloads and no or one argument.
fn every_message_info(rng: &mut Rng, emit: Emit) {
    for info in 0..=255 {
        for payload in 0..6 {
            for count in 0..2 {
                let flags = if payload % 2 == 0 { 0x21 } else { 0x23 };
                let mut bytes = headers(rng, flags, info, count, payload);
                bytes.extend(&[0x10, 0, 0, 0, 1, 0][..payload]);
                emit(&plain(&bytes));
            }
        }
    }
}

/// Every set of flags with declared lengths around all the headers, and more or fewer bytes than declared.
fn every_declared_length(rng: &mut Rng, emit: Emit) {
    for flags in 0..32 {
        for declared in (0..36).chain([255, 256, 257, 65_534, 65_535]) {
            for more in [0, 1, 4, 7] {
                let info = rng.pick(&[0x40, 0x41, 0x16, 0x24]);
                let mut bytes = headers(rng, flags | 0x20, info, 0, 0);
                declare(&mut bytes, declared);
                bytes.extend(rng.bytes(more));
                emit(&plain(&bytes));
            }
        }
    }
}

/// Headers of a verbose message around one argument.
fn around(rng: &mut Rng, big: bool, argument: &[u8]) -> Vec<u8> {
    let mut bytes = headers(rng, if big { 0x23 } else { 0x21 }, 0x41, 1, argument.len());
    bytes.extend(argument);
    bytes
}

fn every_argument_kind(rng: &mut Rng, emit: Emit) {
    every_word(&mut |word| {
        for big in [false, true] {
            let argument = argument(rng, word, big);
            emit(&plain(&around(rng, big, &argument)));
        }
    });
}

/// Every kind, both orders, cut at every length; the declared length isn't cut down.
fn every_argument_cut(rng: &mut Rng, emit: Emit) {
    for kind in GOOD_KINDS {
        for flags in [0, 0x800, 0x1_a000] {
            for big in [false, true] {
                let argument = argument(rng, kind | flags, big);
                let mut bytes = around(rng, big, &argument);
                let declared = bytes.len() - argument.len();
                declare(&mut bytes, declared);
                for cut in every_cut(&bytes).skip(declared) {
                    emit(&plain(cut));
                }
            }
        }
    }
}

/// Every class of float as a value and as a quantization.
fn floats(rng: &mut Rng, emit: Emit) {
    for big in [false, true] {
        for bits in FLOATS32 {
            let value = number(u128::from(bits), 4, big);
            let float = [number(0x83, 4, big), value.clone()].concat();
            emit(&plain(&around(rng, big, &float)));
            for (word, rest) in [(0x1023, 8), (0x1044, 16)] {
                let fixed = [number(word, 4, big), value.clone(), rng.bytes(rest)].concat();
                emit(&plain(&around(rng, big, &fixed)));
            }
        }
        for bits in FLOATS64 {
            let float = [number(0x84, 4, big), number(u128::from(bits), 8, big)].concat();
            emit(&plain(&around(rng, big, &float)));
        }
    }
}

/// Strings and raw data with sizes around what stands there.
fn strings(rng: &mut Rng, emit: Emit) {
    for length in 0..=2 {
        every_string(&BOUNDARY, length, &mut |content| {
            for word in [0x200, 0x400] {
                for size in length.saturating_sub(1)..=length + 2 {
                    let argument = [number(word, 4, false), number(size as u128, 2, false), content.to_vec()].concat();
                    emit(&plain(&around(rng, false, &argument)));
                }
            }
        });
    }
}

/// Identifiers of every make at all four places.
fn identifiers(rng: &mut Rng, emit: Emit) {
    for length in 0..=4 {
        every_string(&[0x00, 0x41, 0xc3, 0xa9], length, &mut |id| {
            let mut bytes = [storage_header(rng), headers(rng, 0x35, 0x41, 0, 0)].concat();
            for place in [12, 20, 30, 34] {
                bytes[place..place + length].copy_from_slice(id);
            }
            emit(&request(true, &[], &bytes));
            emit(&plain(&bytes[16..]));
        });
    }
    for id in IDS {
        for cut in 0..=4 {
            emit(&plain(&[&[0x24, 0, 0, 12][..], &id[..cut]].concat()));
        }
    }
}

fn network_traces(rng: &mut Rng, emit: Emit) {
    for _ in 0..60 {
        let words: Vec<u32> = (0..rng.below(4)).map(|_| rng.pick(&[0x400, 0xc00, 0x10, 0x200, 0x42, 0x400])).collect();
        let flags = rng.pick(&[0x21, 0x23, 0x3d]);
        let info = rng.pick(&[0x15, 0x05, 0x75]);
        let bytes = message_with(rng, flags, info, &words);
        for cut in every_cut(&bytes).skip(bytes.len() - 6) {
            emit(&plain(cut));
        }
    }
}

/// A raw value before and behind an argument of every kind, and one of every kind before and behind a raw value.
fn every_pair_of_kinds(rng: &mut Rng, emit: Emit) {
    for kind in GOOD_KINDS {
        for flags in [0x21, 0x23] {
            for words in [vec![kind], vec![kind, 0x400], vec![0x400, kind], vec![0xc00, kind, 0x400], vec![kind, 0x400, kind]] {
                let bytes = message_with(rng, flags, 0x15, &words);
                emit(&plain(&bytes));
                emit(&request(true, &[], &[storage_header(rng), bytes].concat()));
            }
        }
    }
}

/// Junk of every length before the pattern, cut at some places.
fn storage_places(rng: &mut Rng, emit: Emit) {
    for length in 0..24 {
        let sound = message_with(rng, 0x21, 0x41, &[0x41]);
        let mut bytes: Vec<u8> = junk(rng, length);
        bytes.resize(length, 0x44);
        bytes.extend(storage_header(rng));
        bytes.extend(sound);
        for end in [3, 4, 8, 12, 15, 16, 17, 19, 20, 25, 30, 33, 34, 35] {
            let end = (length + end).min(bytes.len());
            emit(&request(true, &[], &bytes[..end]));
        }
    }
    for length in 0..20 {
        emit(&request(true, &[], &vec![0; length]));
    }
}

/// Each single rule and some together, against messages of every make.
fn good_filters(rng: &mut Rng, emit: Emit) {
    for _ in 0..40 {
        let mut messages: Vec<Vec<u8>> = Vec::new();
        for flags in [0x20, 0x24, 0x21, 0x25, 0x27, 0x3d] {
            for info in [0x41, 0x40, 0x16] {
                messages.push(message_with(rng, flags, info, &[0x10]));
            }
        }
        let filter = filter(rng);
        for message in &messages {
            emit(&request(false, &filter, message));
        }
    }
}

/// Filters that break each rule, and those just inside it.
fn bad_filters(rng: &mut Rng, emit: Emit) {
    let message = message_with(rng, 0x25, 0x41, &[]);
    let mut try_one = |filter: &[u8]| emit(&request(false, filter, &message));
    for tag in 0..=255 {
        for length in 0..=9 {
            try_one(&filter_field(tag, &vec![1; length]));
        }
    }
    for level in 0..=255 {
        try_one(&filter_field(1, &[level]));
    }
    for count in [0, 1, 63, 64, 65, 66] {
        let ids: Vec<u8> = (0..count).flat_map(|n| [b'A' + n / 26, b'a' + n % 26, 0, 0]).collect();
        try_one(&filter_field(2, &ids));
        try_one(&filter_field(3, &ids));
        try_one(&filter_field(4, &ids));
    }
    every_string(&[0x00, 0x41, 0xc3, 0xa9], 4, &mut |id| try_one(&filter_field(2, id)));
    for first in 1..=6 {
        for second in 1..=6 {
            let field = |tag| filter_field(tag, [&[2][..], &[], &[], &[], &[0; 8], &[255; 8]][tag as usize - 1]);
            try_one(&[field(first), field(second)].concat());
        }
    }
    let full = [filter_field(1, &[3]), filter_field(2, b"APP\0A\0\0\0"), filter_field(5, &[0; 8])].concat();
    for cut in every_cut(&full) {
        try_one(cut);
    }
    try_one(&filter_field(2, b"APP\0APP\0"));
    try_one(&filter_field(4, b"APP\0A\0\0\0APP\0"));
}

/// Every level of a message against every level of a filter.
fn levels(rng: &mut Rng, emit: Emit) {
    for level in 1..=6 {
        for info in 0..=255 {
            let message = message_with(rng, 0x21, info, &[]);
            emit(&request(false, &filter_field(1, &[level]), &message));
        }
    }
}

/// The longest messages that can be declared, whole and a byte short.
fn long_messages(rng: &mut Rng, emit: Emit) {
    for (flags, info) in [(0x20, 0), (0x22, 0), (0x21, 0x16), (0x3d, 0x40)] {
        let mut bytes = headers(rng, flags, info, 0, 0);
        bytes.resize(65_535, 0x41);
        declare(&mut bytes, 65_535);
        emit(&plain(&bytes));
        emit(&plain(&bytes[..65_534]));
        emit(&request(false, &filter_field(1, &[1]), &bytes));
    }
    for word in [0x200, 0x400] {
        for length in [65_534, 65_535] {
            let argument = [number(word, 4, true), number(65_535, 2, true), vec![0x41; length]].concat();
            let mut bytes = headers(rng, 0x23, 0x41, 1, 0);
            bytes.extend(argument);
            emit(&plain(&bytes));
        }
    }
}

pub fn random(rng: &mut Rng) -> String {
    let storage = rng.one_in(2);
    let filter = filter_or_none(rng);
    let mut bytes = if storage { stored_message(rng) } else { message(rng) };
    if storage && rng.one_in(2) {
        bytes = [junk(rng, 12), bytes].concat();
    }
    damage(rng, &mut bytes);
    if rng.one_in(3) {
        bytes.extend(rng.bytes(6));
    }
    request(storage, &filter, &bytes)
}

/// A verbose network trace of up to eight arguments of any kinds, half of them raw; two thirds are sound.
pub fn random_trace(rng: &mut Rng) -> String {
    let storage = rng.one_in(2);
    let words: Vec<u32> = (0..rng.below(9)).map(|_| if rng.one_in(2) { rng.pick(&[0x400, 0xc00]) } else { random_word(rng) }).collect();
    let flags = rng.byte() | 1;
    let info = rng.byte() & 0xf0 | 5;
    let mut bytes = message_with(rng, flags, info, &words);
    if storage {
        bytes = [junk(rng, 8), storage_header(rng), bytes].concat();
    }
    if rng.one_in(3) {
        damage(rng, &mut bytes);
    }
    let filter = if rng.one_in(8) { filter(rng) } else { Vec::new() };
    request(storage, &filter, &bytes)
}
