//! Old filters: with counts and without, good, and bad in each way.

use super::build::{damage, filter_field, id_set, letter, COUNTS};
use super::identifiers::padded;
use super::random::Rng;
use super::{every_cut, hex, hex_of_either_case, Emit, Section};

pub const TINY: &[Section] = &[every_bad_way];
pub const SECTIONS: &[Section] = &[every_set_of_fields, every_count, every_bad_way, cuts, longest];

fn request(filter: &[u8]) -> String {
    format!("retire {}", hex(filter))
}

fn count_field(tag: u8, count: i64) -> Vec<u8> {
    filter_field(tag, &count.to_be_bytes())
}

/// A level, three sets and two counts.
fn six_fields(rng: &mut Rng) -> [Vec<u8>; 6] {
    let level = filter_field(1, &[rng.between(1, 6) as u8]);
    let sets = [2, 3, 4].map(|tag| filter_field(tag, &id_set(rng)));
    let counts = [5, 6].map(|tag| count_field(tag, rng.pick(&COUNTS)));
    let [apps, ecus, contexts] = sets;
    let [app_count, context_count] = counts;
    [level, apps, ecus, contexts, app_count, context_count]
}

/// Those of the six fields whose bits are set.
fn chosen(fields: &[Vec<u8>; 6], bits: u8) -> Vec<u8> {
    (0..6).filter(|place| bits >> place & 1 == 1).flat_map(|place| fields[place].clone()).collect()
}

fn every_set_of_fields(rng: &mut Rng, emit: Emit) {
    for bits in 0..64 {
        for _ in 0..4 {
            emit(&request(&chosen(&six_fields(rng), bits)));
        }
    }
}

/// Every power of two, one more and one less, of either sign: alone, behind a set, and both counts.
fn every_count(rng: &mut Rng, emit: Emit) {
    for power in 0..64 {
        for count in [-1, 0, 1].map(|more| (1i64 << power).wrapping_add(more)) {
            for count in [count, count.wrapping_neg()] {
                let tag = rng.pick(&[5, 6]);
                emit(&request(&count_field(tag, count)));
                emit(&request(&[filter_field(2, b"APP\0"), count_field(tag, count)].concat()));
                emit(&request(&[count_field(5, count), count_field(6, rng.pick(&COUNTS))].concat()));
            }
        }
    }
}

/// Identifiers that a set may not have: cut, twice, with a zero between, and not UTF-8.
const BAD_IDS: [&[u8]; 6] = [b"APP", b"APP\0A", b"APP\0APP\0", b"A\0B\0", b"A\xff\0\0", b"\xe2\x82\xac\xf0"];

/// Values that no field of a tag may have, each by another rule.
fn bad_values() -> Vec<(u8, Vec<u8>)> {
    let mut bad: Vec<(u8, Vec<u8>)> = [vec![], vec![0], vec![7], vec![255], vec![3, 3]].map(|level| (1, level)).into();
    let too_many = (0..65u8).flat_map(|n| [b'A' + n / 26, b'a' + n % 26, 0, 0]).collect::<Vec<u8>>();
    for tag in 2..=4 {
        bad.extend(BAD_IDS.map(|ids| (tag, ids.to_vec())));
        bad.push((tag, too_many.clone()));
    }
    for tag in 5..=6 {
        bad.extend([0, 1, 7, 9, 16].map(|length| (tag, vec![0; length])));
    }
    bad.extend([0, 7, 8, 255].map(|tag| (tag, vec![0; 8])));
    bad
}

/// A field in six with a bad value, also with a wrong length, doubled, swapped with the next, or with bytes behind.
fn every_bad_way(rng: &mut Rng, emit: Emit) {
    for (tag, value) in bad_values() {
        let mut fields = six_fields(rng);
        fields[usize::from(tag.clamp(1, 6)) - 1] = filter_field(tag, &value);
        emit(&request(&filter_field(tag, &value)));
        emit(&request(&fields.concat()));
    }
    for place in 0..6 {
        let fields = six_fields(rng);
        let (before, behind) = (fields[..place].concat(), fields[place..].concat());
        emit(&request(&[&before[..], &fields[place], &behind].concat()));
        emit(&request(&[&behind[..], &before].concat()));
        for more in [-1, 1] {
            let mut wrong = fields.clone();
            wrong[place][2] = wrong[place][2].wrapping_add_signed(more);
            emit(&request(&wrong.concat()));
        }
    }
    let whole = six_fields(rng).concat();
    for behind in [&[0][..], &[6], &[7, 0, 0], &[0, 0, 0], &[255; 11]] {
        emit(&request(&[&whole[..], behind].concat()));
    }
}

/// Six fields, cut at every place.
fn cuts(rng: &mut Rng, emit: Emit) {
    for _ in 0..6 {
        let whole = six_fields(rng).concat();
        every_cut(&whole).for_each(|cut| emit(&request(cut)));
    }
}

/// Different identifiers of two letters and a number.
fn many_ids(rng: &mut Rng, count: u8) -> Vec<u8> {
    let front = rng.between(b'A'.into(), b'Z'.into()) as u8;
    (0..count).flat_map(|n| [front, b'0' + n / 10, b'0' + n % 10, if n % 2 == 0 { 0 } else { front }]).collect()
}

/// The most bytes that a good filter can have, one more and one less, and far more.
fn longest(rng: &mut Rng, emit: Emit) {
    for _ in 0..4 {
        let sets = [2, 3, 4].map(|tag| filter_field(tag, &many_ids(rng, 64)));
        let counts = [5, 6].map(|tag| count_field(tag, rng.pick(&COUNTS)));
        let whole = [filter_field(1, &[6]), sets.concat(), counts.concat()].concat();
        emit(&request(&whole));
        emit(&request(&whole[..whole.len() - 1]));
        emit(&request(&whole[..whole.len() - 11]));
        emit(&request(&[&whole[..], &[0]].concat()));
    }
    for length in [802, 803, 804, 1023, 1024, 1025, 65_536] {
        emit(&request(&vec![0; length]));
        emit(&request(&[filter_field(5, &[0; 8]), vec![6; length - 11]].concat()));
    }
}

/// Up to three different identifiers of any letters, or many, or some of the few that messages have.
fn random_ids(rng: &mut Rng) -> Vec<u8> {
    if rng.one_in(8) {
        let count = rng.between(4, 64) as u8;
        return many_ids(rng, count);
    }
    if rng.one_in(2) {
        return id_set(rng);
    }
    let mut ids: Vec<[u8; 4]> = Vec::new();
    for _ in 0..rng.below(4) {
        let letters = format!("{}{}", letter(rng), letter(rng));
        let id = padded(&letters.as_bytes()[..letters.len().min(4)]);
        if !ids.contains(&id) {
            ids.push(id);
        }
    }
    ids.concat()
}

/// Half of the good ones have counts; one in eight is damaged.
pub fn random(rng: &mut Rng) -> String {
    let mut fields = Vec::new();
    if rng.one_in(2) {
        fields.extend(filter_field(1, &[rng.between(1, 6) as u8]));
    }
    for tag in 2..=4 {
        if rng.one_in(2) {
            fields.extend(filter_field(tag, &random_ids(rng)));
        }
    }
    let counts = if rng.one_in(2) { rng.pick(&[&[5][..], &[6], &[5, 6]]) } else { &[] };
    for &tag in counts {
        let count = if rng.one_in(2) { rng.pick(&COUNTS) } else { rng.next() as i64 >> rng.below(64) };
        fields.extend(count_field(tag, count));
    }
    if rng.one_in(8) {
        damage(rng, &mut fields);
    }
    format!("retire {}", hex_of_either_case(rng, &fields))
}
