//! A message whose arguments lack bytes within its declared length is an entry of its own, and the walk goes on behind it.

use host::{index, message, End, Entry, EntryKind, Parsed, Refusal, State, NO_LIMIT};

const STORAGE_HEADER: &[u8; 16] = b"DLT\x01\0\0\0\0\0\0\0\0\0\0\0\0";

/// Document 01's P12: it counts one argument and declares no byte of it.
const P12: &[u8; 14] = b"\x21\0\0\x0e\x41\x01APP\0CTX\0";

/// A bool, which P12 borrows if it may.
const BOOL: &[u8; 5] = b"\x11\0\0\0\x01";

/// Document 01's P1.
const P1: &[u8; 8] = b"\x20\x07\0\x08\0\0\0\x2a";

fn stored(parts: &[&[u8]]) -> Vec<u8> {
    [&STORAGE_HEADER[..], &parts.concat()].concat()
}

/// The entries of a trace, each with start, length and kind, and how the walk ended.
fn walked(trace: &[u8], filter: &[u8]) -> (Vec<(u64, u64, EntryKind)>, End) {
    let mut table = [Entry::default(); 16];
    let all = index(trace, filter, State::default(), &mut table, NO_LIMIT).unwrap();
    let entries = table[..all.state.used].iter().map(|entry| (entry.start, entry.length, entry.kind()));
    (entries.collect(), all.end)
}

#[test]
fn by_what_follows() {
    let overrun = (0, 30, EntryKind::Overrun);
    assert_eq!(walked(&stored(&[P12]), &[]), (vec![overrun], End::Waits(0)));
    assert_eq!(walked(&stored(&[P12, BOOL]), &[]), (vec![overrun], End::Waits(0)));
    let neighbour = stored(&[P1]);
    assert_eq!(walked(&stored(&[P12, &neighbour]), &[]), (vec![overrun, (30, 24, EntryKind::Item)], End::Waits(0)));
    // bytes inside an overrun are not searched: a string of 65,535 bytes, and 44 bytes declared, the neighbour among them
    let around = stored(&[b"\x21\0\0\x2c\x41\x01APP\0CTX\0", b"\0\x02\0\0\xff\xff", &neighbour]);
    assert_eq!(walked(&around, &[]), (vec![(0, 60, EntryKind::Overrun)], End::Waits(0)));
}

#[test]
fn message_borrows() {
    let trace = stored(&[P12, BOOL]);
    let (Parsed::Item(item), 35) = message(&trace, &[], true).unwrap() else { panic!("no item") };
    assert_eq!(item.header.payload_length, 0);
    // up to the entry's end it lacks the type info
    assert_eq!(message(&trace[..30], &[], true), Err(Refusal::Incomplete(4)));
}

#[test]
fn every_kind() {
    let apps = b"\x02\0\x04APP\0";
    let dropped = stored(&[b"\x21\0\0\x0e\x41\x01X\0\0\0CTX\0"]);
    let bad_word = stored(&[b"\x21\0\0\x12\x41\x01APP\0CTX\0\0\0\0\0"]);
    let short = stored(&[b"\x20\x07\0\x07\0\0\0"]);
    let trace = [stored(&[P1]), dropped, bad_word, short, stored(&[P12])].concat();
    let expected = vec![
        (0, 24, EntryKind::Item),
        (24, 30, EntryKind::Filtered),
        (54, 4, EntryKind::Hickup),
        (88, 4, EntryKind::Unrecoverable),
        (111, 30, EntryKind::Overrun),
    ];
    assert_eq!(walked(&trace, apps), (expected, End::Waits(0)));
}

#[test]
fn it_waits_for_declared_bytes_alone() {
    let mut trace = stored(&[P12]);
    trace[19] += 4;
    assert_eq!(walked(&trace, &[]), (vec![], End::Waits(4)));
    for (four, length, kind) in [(BOOL[..4].to_vec(), 34, EntryKind::Overrun), (vec![0; 4], 4, EntryKind::Hickup)] {
        let (entries, _) = walked(&[&trace[..], &four].concat(), &[]);
        assert_eq!(entries, [(0, length, kind)], "{four:02x?}");
    }
}

#[test]
fn in_text() {
    let answer = |line: &str| host::text::answer(line).unwrap();
    let p12 = "444c54010000000000000000000000002100000e41014150500043545800";
    assert_eq!(answer(&format!("index 9 0 0 - {p12}")), "0 resume=30 used=1 need=0 (0 0 30 overrun)");
    assert_eq!(answer(&format!("index 9 0 0 - ff{p12}1100 1")), "8 resume=31 used=1 need=- taken=1 (1 1 30 overrun)");
    assert_eq!(answer(&format!("index 9 0 0 02000458000000 {p12}")), "0 resume=30 used=1 need=0 (0 0 30 filtered)");
    // the confined reading of one message has no call
    assert_eq!(host::text::answer("conf 0 - 2100000e41014150500043545800"), None);
}
