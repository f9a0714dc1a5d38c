//! False answers, each of which the judges must catch.

use crate::judge::{judge, judge_walks, Due, Pair, Stand, Verdict, Walks};
use host::{End, Indexed, State};

/// Document 01's P1, cut behind its fifth byte: the answers to it, with two bytes more, and with three.
const TRUE: [&str; 3] = ["2 3", "2 1", "0 item used=8 sh=- ver=1 end=L ctr=7 plen=4 ecu=- ses=- ts=- ext=- pay=N(704643072)@8+0"];

/// What is false, in which of the three, and the crate's answer and ours in its place.
const FALSE: [(&str, usize, &str, &str); 16] = [
    ("a need one too large", 0, "2 4", "2 4"),
    ("a need one too small", 0, "2 2", "2 2"),
    ("a need of the crate's alone", 0, "2 4", "2 3"),
    ("a need of ours alone", 0, "2 3", "2 4"),
    ("decided though cut", 0, TRUE[2], TRUE[2]),
    ("decided with one byte fewer", 1, "4", "4"),
    ("another need with one byte fewer", 1, "2 2", "2 2"),
    ("decided answer replaced by Incomplete", 2, "2 1", "2 1"),
    ("decided answer replaced by Incomplete, ours alone", 2, TRUE[2], "2 1"),
    ("decided answer replaced by Hickup", 2, "3 1", "3 1"),
    ("one byte used less", 2, "0 item used=7 sh=- ver=1", "0 item used=7 sh=- ver=1"),
    ("one byte used less of a dropped one", 2, "0 filtered used=7 plen=4", "0 filtered used=7 plen=4"),
    ("Unrecoverable of ours alone", 2, TRUE[2], "4"),
    ("a field of ours that differs", 2, TRUE[2], "0 item used=8 sh=- ver=1 end=L ctr=8"),
    ("a panic of the crate", 2, "panic", "panic"),
    ("a filter refused", 2, "1", "1"),
];

/// The answers, with one of them replaced.
fn answers(which: usize, theirs: &str, ours: &str) -> [Pair; 3] {
    let mut pairs = TRUE.map(|line| Pair { theirs: line.to_string(), ours: line.to_string() });
    pairs[which] = Pair { theirs: theirs.to_string(), ours: ours.to_string() };
    pairs
}

/// What was found, as a line; true if it is as it must be.
fn told(name: &str, found: Option<&str>) -> bool {
    println!("{}: {name}{}", if found.is_some() { "caught" } else { "not caught" }, found.map_or(String::new(), |why| format!(" ({why})")));
    found.is_some()
}

fn false_answers() -> Vec<bool> {
    let due = |verbose| Due { need: 3, verbose, end: 8 };
    let why = |verbose, which, theirs, ours| judge(&due(verbose), &answers(which, theirs, ours)).err().map(|(_, why)| why);
    let mut caught: Vec<bool> = FALSE.iter().map(|&(name, which, theirs, ours)| told(name, why(false, which, theirs, ours))).collect();
    for (which, place) in ["cut", "with one byte fewer", "whole"].into_iter().enumerate() {
        for verbose in [false, true] {
            let name = format!("Hickup 3, {place}{}", if verbose { ", verbose" } else { "" });
            caught.push(told(&name, why(verbose, which, "3 3", "3 3")));
        }
    }
    caught.push(told("one byte used less of a dropped verbose one", why(true, 2, FALSE[11].2, FALSE[11].3)));
    caught.push(told("a verbose one that only ours lets wait", why(true, 2, TRUE[2], "2 1")));
    caught
}

/// The same message behind one of 24 bytes and one byte of junk, as the index must walk it.
fn true_walks() -> (Stand, Walks) {
    let state = State { at: 24, used: 1 };
    let waits = |taken, need| Indexed { state, taken, end: End::Waits(need) };
    let whole = Indexed { state: State { at: 49, used: 2 }, taken: 1, end: End::Waits(0) };
    (Stand { state, need: 3, skipped: 1, declared: 8 }, Walks { cut: waits(1, 3), fewer: waits(0, 1), whole, entry: "25 1 24 item".to_string() })
}

type Falsify = fn(&mut Walks);

fn false_walks() -> Vec<bool> {
    let falsify: [(&str, Falsify); 9] = [
        ("the index, a need one too large", |walks| walks.cut.end = End::Waits(4)),
        ("the index, a resume position past the junk", |walks| walks.cut.state.at = 25),
        ("the index, an entry taken though cut", |walks| walks.cut.taken = 2),
        ("the index, an entry taken with one byte fewer", |walks| walks.fewer = walks.whole),
        ("the index, another need with one byte fewer", |walks| walks.fewer.end = End::Waits(3)),
        ("the index, no entry taken with all bytes", |walks| walks.whole = walks.fewer),
        ("the index, one byte used less", |walks| walks.whole.state.at = 48),
        ("the index, an entry of another kind", |walks| walks.entry = "25 1 24 filtered".to_string()),
        ("the index, an entry one byte shorter", |walks| walks.entry = "25 1 23 item".to_string()),
    ];
    let (stand, walks) = true_walks();
    let mut caught = Vec::new();
    for (name, falsify) in falsify {
        let mut walks = walks.clone();
        falsify(&mut walks);
        caught.push(told(name, judge_walks(&stand, Verdict::Item(8), &walks).err()));
    }
    for (name, verdict) in [("of Unrecoverable", Verdict::Unrecoverable), ("of a message that waits on", Verdict::Waits(1))] {
        caught.push(told(&format!("the index, an item's entry {name}"), judge_walks(&stand, verdict, &walks).err()));
    }
    let waiting = Walks { whole: walks.fewer, ..walks };
    caught.push(told("the index, which waits on as the message does", judge_walks(&stand, Verdict::Waits(1), &waiting).err()));
    caught
}

/// True if each is caught, and the true answers pass.
pub fn self_test() -> bool {
    let (stand, walks) = true_walks();
    let due = Due { need: 3, verbose: false, end: 8 };
    let overrun = Walks { entry: "25 1 24 overrun".to_string(), ..walks.clone() };
    let walks_pass = judge_walks(&stand, Verdict::Item(24), &walks).and(judge_walks(&stand, Verdict::Waits(1), &overrun));
    let pass = judge(&due, &answers(0, TRUE[0], TRUE[0])) == Ok(Verdict::Item(8)) && walks_pass == Ok(());
    let caught = [false_answers(), false_walks()].concat();
    let missed = caught.iter().filter(|caught| !**caught).count();
    println!("{} false answers, {missed} not caught; the true ones {}", caught.len(), if pass { "pass" } else { "fail" });
    pass && missed == 0
}
