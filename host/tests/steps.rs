//! The index in steps, cancelled at every place and carried on, leaves what one call leaves.

use host::{index, index_in_steps, Entry, Indexed, State, NO_LIMIT};

fn recording() -> Vec<u8> {
    std::fs::read(concat!(env!("CARGO_MANIFEST_DIR"), "/../data/example-user-marker.dlt")).unwrap()
}

#[test]
fn as_one_call() {
    let bytes = recording();
    for room in [0, 1, 5, 12, 20] {
        let mut table = vec![Entry::default(); room];
        let whole = index(&bytes, &[], State::default(), &mut table, NO_LIMIT).unwrap();
        for n in 1..15 {
            let mut other = vec![Entry::default(); room];
            let steps = index_in_steps(&bytes, &[], State::default(), &mut other, n.try_into().unwrap(), |_| false).unwrap();
            assert_eq!((steps, other), (whole, table.clone()), "{n} at a time, into {room}");
        }
    }
}

#[test]
fn cancelled_and_carried_on() {
    let bytes = recording();
    let mut table = vec![Entry::default(); 20];
    let whole = index(&bytes, &[], State::default(), &mut table, NO_LIMIT).unwrap();
    for cancel_behind in 0..14 {
        let mut other = vec![Entry::default(); 20];
        let mut calls = 0;
        let first = index_in_steps(&bytes[..600], &[], State::default(), &mut other, 1.try_into().unwrap(), |_| {
            calls += 1;
            calls > cancel_behind
        });
        let first = first.unwrap();
        // the bytes before the resume position are the host's: they need not be there any more
        let left = bytes[first.state.at..].to_vec();
        let then = index_in_steps(&left, &[], first.state, &mut other, 2.try_into().unwrap(), |_| false).unwrap();
        assert_eq!((Indexed { taken: first.taken + then.taken, ..then }, other), (whole, table.clone()), "cancelled behind {cancel_behind}");
    }
}

#[test]
fn nothing_at_zero() {
    let bytes = recording();
    let mut table = vec![Entry::default(); 20];
    let got = index(&bytes, &[], State { at: 7, used: 3 }, &mut table, 0).unwrap();
    assert_eq!(got, Indexed { state: State { at: 7, used: 3 }, taken: 0, end: host::End::Paused });
    assert_eq!(table, vec![Entry::default(); 20]);
}
