//! Lines that can't be read, and lines that are just readable.

use super::random::Rng;
use super::{Emit, Kind, Section, KINDS, WHY};

pub const TINY: &[Section] = &[written];
pub const SECTIONS: &[Section] = &[written, spoilt_examples];

/// Lines at the edges of the rule in README.md.
const WRITTEN: [&str; 107] = [
    "",
    " ",
    "-",
    "zts",
    "zts ",
    "zts 1",
    "zts 1 ",
    "zts  1 41",
    "zts 1  41",
    " zts 1 41",
    "zts 1 41 ",
    "zts 1 41 41",
    "ZTS 1 41",
    "zt 1 41",
    "ztss 1 41",
    "zts\t1 41",
    "zts 1 4",
    "zts 1 414",
    "zts 1 4g",
    "zts 1 --",
    "zts 1 -41",
    "zts - 41",
    "zts -1 41",
    "zts +1 41",
    "zts 0x1 41",
    "zts 1a 41",
    "zts 18446744073709551615 41",
    "zts 18446744073709551616 41",
    "zts 99999999999999999999 41",
    "zts 00000000000000000001 41",
    "zts 000000000000000000001 41",
    "zts 1 Ff",
    "zts 1 41\r",
    "> zts 1 41",
    "# zts 1 41",
    "msg 0 -",
    "msg 2 - 20",
    "msg 00 - 20",
    "msg - - 20",
    "msg 0 20",
    "msg 1 0 20",
    "conf",
    "conf 0 -",
    "conf 0 - ",
    "conf 2 - 20",
    "conf - - 20",
    "conf 0 20",
    "conf 0 - 2",
    "conf 1 - 20 0",
    "conf 1 -  20",
    "CONF 0 - 20",
    "confs 0 - 20",
    "why conf 0 - 20",
    "skip",
    "skip -",
    "skip - -",
    "consume",
    "fwd",
    "fwd 4",
    "len 0 0",
    "args X 10 01",
    "args LL 10 01",
    "args L 10, 01",
    "args L ,10 01",
    "args L 123456789 01",
    "args L -,10 01",
    "args b 00000010 01",
    "index 4097 0 0 - -",
    "index 04096 0 0 - -",
    "index 1 0 0 -",
    "index 1 0 0 - - -",
    "index 1 0 0 - - 0",
    "index 1 0 0 - - 00000000000000000001",
    "index 1 0 0 - - 18446744073709551615",
    "index 1 0 0 - - 18446744073709551616",
    "index 1 0 0 - - 0 ",
    "index 1 0 0 - - 0 0",
    "mi 1",
    "mi 123",
    "mi 4G",
    "ti",
    "ti 000000010",
    "why",
    "why ",
    "why  zts 1 41",
    "why zts 1",
    "why zts 1 41 ",
    "WHY zts 1 41",
    "why why zts 1 41",
    "zts why 1 41",
    "why skip 44",
    "why index 1 0 0 - -",
    "why ti 10",
    "whyzts 1 41",
    "retire",
    "retire ",
    "retire -",
    "retire --",
    "retire 5",
    "retire 0500080000000000000001 ",
    "retire 0500080000000000000001 -",
    "retire  0500080000000000000001",
    "retire 050008000000000000000g",
    "retire 05 00 08 00 00 00 00 00 00 00 01",
    "RETIRE -",
    "retires -",
    "why retire -",
];

fn written(_: &mut Rng, emit: Emit) {
    for line in WRITTEN {
        emit(line);
    }
}

/// A sound request of each kind with each byte taken away, doubled and replaced.
fn spoilt_examples(_: &mut Rng, emit: Emit) {
    for line in [
        "msg 0 - 20070003",
        "conf 0 - 20070003",
        "zts 2 c328",
        "skip 44",
        "consume 44",
        "args l 200 0200c3",
        "fwd 44",
        "len 00",
        "index 1 0 0 - 44",
        "mi 41",
        "ti 10",
        "why zts 2 c328",
        "why msg 0 - 20070003",
        "why args l 200 0200c3",
        "retire 0500080000000000000001",
    ] {
        for place in 0..line.len() {
            let (before, rest) = line.split_at(place);
            emit(&format!("{before}{}", &rest[1..]));
            emit(&format!("{before}{}{rest}", &rest[..1]));
            for other in [" ", "-", "0", "f", "G", ","] {
                emit(&format!("{before}{other}{}", &rest[1..]));
            }
        }
    }
}

/// A random request of another kind with a byte or two spoilt.
pub fn random(rng: &mut Rng) -> String {
    let others: Vec<&Kind> = KINDS.iter().filter(|kind| kind.name != "bad").chain(&WHY).collect();
    let kind = rng.pick(&others);
    let mut line = (kind.random)(rng).into_bytes();
    for _ in 0..rng.between(1, 2) {
        let place = rng.below(line.len());
        match rng.below(4) {
            0 => drop(line.remove(place)),
            1 => line[place] = rng.pick(b" -,0aFgG+"),
            2 => line.insert(place, rng.pick(b" -,0aFgG+")),
            _ => line.truncate(place + 1),
        }
    }
    String::from_utf8(line).unwrap_or_default()
}
