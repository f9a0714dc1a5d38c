//! A filter with a count is refused by a number of its own, and a message without an extended header is never filtered out.

use host::{index, message, raw, Entry, IndexRefusal, Parsed, Refusal, State, NO_LIMIT};

/// Tag 5 of count 0.
const RETIRED: [u8; 11] = [5, 0, 8, 0, 0, 0, 0, 0, 0, 0, 0];

/// The same with a byte behind it, which breaks a rule.
const BAD: [u8; 12] = [5, 0, 8, 0, 0, 0, 0, 0, 0, 0, 0, 0];

/// A set of application ids with none in it.
const NO_APPS: [u8; 3] = [2, 0, 0];

/// Document 01's P1, which has no extended header.
const PLAIN: [u8; 8] = [0x20, 7, 0, 8, 0, 0, 0, 42];

#[test]
fn of_a_message() {
    for bytes in [&PLAIN[..], &[]] {
        assert_eq!(message(bytes, &RETIRED, false), Err(Refusal::RetiredTag));
        assert_eq!(message(bytes, &BAD, false), Err(Refusal::BadFilter));
        let mut out = [9; raw::MESSAGE_SIZE];
        assert_eq!(raw::message(bytes, &RETIRED, false, &mut out).number, raw::RETIRED_TAG);
        assert_eq!(raw::message(bytes, &BAD, false, &mut out).number, raw::BAD_FILTER);
        assert_eq!(out, [9; raw::MESSAGE_SIZE]);
    }
}

#[test]
fn of_the_index() {
    let trace = [b"DLT\x01", &[0; 12][..], &PLAIN].concat();
    // a fresh state, one that doesn't fit the table, and one that is too far on
    for (at, used) in [(0, 0), (7, 1), (0, 3), (4_294_967_295, 0)] {
        let mut numbers = [9; 8];
        let answer = raw::index(&trace, &RETIRED, at, used, &mut numbers, NO_LIMIT);
        assert_eq!((answer.number, answer.at, answer.used, answer.taken), (raw::RETIRED_TAG, at as u64, used as u64, 0));
        assert_eq!(numbers, [9; 8]);
        let mut table = [Entry::default(); 2];
        assert_eq!(index(&trace, &RETIRED, State { at, used }, &mut table, NO_LIMIT), Err(IndexRefusal::RetiredTag));
        assert_eq!(index(&trace, &BAD, State { at, used }, &mut table, NO_LIMIT), Err(IndexRefusal::BadFilter));
        assert_eq!(table, [Entry::default(); 2]);
    }
}

#[test]
fn never_without_an_extended_header() {
    let (Parsed::Item(plain), 8) = message(&PLAIN, &NO_APPS, false).unwrap() else { panic!("no item") };
    assert_eq!(plain.extended_header, None);
    let extended = b"\x21\0\0\x12\x40\0APP\0CTX\0\0\0\0\0";
    assert_eq!(message(extended, &NO_APPS, false), Ok((Parsed::FilteredOut(4), 18)));
}

#[test]
fn in_text() {
    let answer = |line: &str| host::text::answer(line).unwrap();
    assert_eq!(answer("msg 0 0500080000000000000000 200700080000002a"), "13");
    assert_eq!(answer("why msg 0 0500080000000000000000 -"), "13");
    assert_eq!(answer("msg 0 050008000000000000000000 200700080000002a"), "1");
    assert_eq!(answer("index 0 0 1 0500080000000000000001 -"), "13 resume=0 used=1 need=-");
    assert_eq!(answer("index 4 0 0 0500080000000000000001 - 3"), "13 resume=0 used=0 need=- taken=0");
    assert_eq!(answer("index 0 0 1 050008000000000000000100 -"), "1 resume=0 used=1 need=-");
}
