//! Making requests, the same ones for the same seed.
//!
//! Each kind has fixed sections, which try every small case near a boundary, and
//! a maker of random requests for whatever is wanted beyond them. Its tiny sections
//! are the few cases that even the shortest list must have.

mod bad;
pub mod build;
mod confined;
mod fields;
mod identifiers;
mod index;
pub mod messages;
mod needs;
pub mod random;
mod retire;
mod signals;
mod strings;
mod why;

use random::Rng;

/// Takes one request line.
pub type Emit<'a> = &'a mut dyn FnMut(&str);

/// Makes every request of one section.
type Section = fn(&mut Rng, Emit);

pub struct Kind {
    pub name: &'static str,
    tiny: &'static [Section],
    sections: &'static [Section],
    random: fn(&mut Rng) -> String,
}

/// The kind of old filters.
const RETIRE: &str = "retire";

/// The kinds of the confined reading, and of traces with messages that overrun.
const CONF: &str = "conf";
const OVERRUN: &str = "overrun";

/// Every kind but those of `why`, in the order in which `all` goes through them.
pub const KINDS: [Kind; 17] = [
    Kind { name: "zts", tiny: strings::TINY, sections: strings::SECTIONS, random: strings::random },
    Kind { name: "fwd", tiny: fields::FORWARD_TINY, sections: fields::FORWARD, random: fields::random_forward },
    Kind { name: "skip", tiny: fields::SKIP_TINY, sections: fields::SKIP, random: fields::random_skip },
    Kind { name: "consume", tiny: fields::CONSUME_TINY, sections: fields::CONSUME, random: fields::random_consume },
    Kind { name: "len", tiny: fields::LENGTH_TINY, sections: fields::LENGTH, random: fields::random_length },
    Kind {
        name: "mi",
        tiny: fields::MESSAGE_INFO,
        sections: fields::MESSAGE_INFO,
        random: fields::random_message_info,
    },
    Kind { name: "ti", tiny: fields::TYPE_INFO_TINY, sections: fields::TYPE_INFO, random: fields::random_type_info },
    Kind { name: "args", tiny: signals::TINY, sections: signals::SECTIONS, random: signals::random },
    Kind { name: "msg", tiny: messages::TINY, sections: messages::SECTIONS, random: messages::random },
    Kind { name: "index", tiny: index::TINY, sections: index::SECTIONS, random: index::random },
    Kind { name: "limited", tiny: index::TINY, sections: index::LIMITED, random: index::random_limited },
    Kind { name: "net", tiny: messages::TRACES_TINY, sections: messages::TRACES, random: messages::random_trace },
    Kind { name: "ids", tiny: identifiers::TINY, sections: identifiers::SECTIONS, random: identifiers::random },
    Kind { name: CONF, tiny: confined::TINY, sections: confined::SECTIONS, random: confined::random },
    Kind { name: OVERRUN, tiny: confined::WALKED_TINY, sections: confined::WALKED, random: confined::random_walked },
    Kind { name: RETIRE, tiny: retire::TINY, sections: retire::SECTIONS, random: retire::random },
    Kind { name: "bad", tiny: bad::TINY, sections: bad::SECTIONS, random: bad::random },
];

/// The kinds that `why` names: requests of the kinds above, and others, with `why` in front.
pub const WHY: [Kind; 4] = [
    Kind { name: "why-zts", tiny: why::STRINGS_TINY, sections: why::STRINGS, random: why::random_string },
    Kind { name: "why-msg", tiny: why::MESSAGES_TINY, sections: why::MESSAGES, random: why::random_message },
    Kind { name: "why-args", tiny: why::SIGNALS_TINY, sections: why::SIGNALS, random: why::random_signals },
    Kind { name: "why-ids", tiny: why::IDS_TINY, sections: why::IDS, random: why::random_ids },
];

/// The kinds that a word names: one of them, `why` or `all`.
pub fn kinds(word: &str) -> Result<Vec<&'static Kind>, String> {
    let every = || KINDS.iter().chain(&WHY);
    let is_named = |kind: &&Kind| word == "all" || word == kind.name || word == "why" && kind.is_why();
    let named: Vec<&Kind> = every().filter(is_named).collect();
    if named.is_empty() {
        let names: Vec<&str> = every().map(|kind| kind.name).collect();
        return Err(format!("no kind {word}; there are {}, why and all", names.join(", ")));
    }
    Ok(named)
}

/// Random requests that are added to the fixed part when no count is asked for.
const RANDOM_BY_DEFAULT: u64 = 20_000;

impl Kind {
    pub fn is_why(&self) -> bool {
        WHY.iter().any(|kind| kind.name == self.name)
    }

    pub fn is_retire(&self) -> bool {
        self.name == RETIRE
    }

    pub fn is_confined(&self) -> bool {
        self.name == CONF || self.name == OVERRUN
    }

    /// Makes `count` requests: an even sample of the fixed part if it is larger
    /// than that, else all of it and random ones. With no count: the fixed part and some.
    pub fn make(&self, count: Option<u64>, seed: u64, emit: Emit) {
        let fixed = self.fixed_size(seed);
        let count = count.unwrap_or(fixed + RANDOM_BY_DEFAULT);
        let mut number = 0;
        for section in 0..self.sections.len() {
            self.run(section, self.rng(section, seed), &mut |line| {
                if is_sampled(number, fixed, count) {
                    emit(line);
                }
                number += 1;
            });
        }
        self.make_random(count.saturating_sub(fixed), self.random_rng(seed), emit);
    }

    /// A short list: the tiny sections, then `count` more, the same number from
    /// each section and of random ones.
    pub fn make_short(&self, count: u64, seed: u64, emit: Emit) {
        for section in self.tiny {
            section(&mut self.for_list(Rng::new(seed)), emit);
        }
        let share = count / (self.sections.len() as u64 + 1);
        for section in 0..self.sections.len() {
            let rng = || self.for_list(self.rng(section, seed));
            let size = self.section_size(section, rng());
            let mut number = 0;
            self.run(section, rng(), &mut |line| {
                if is_sampled(number, size, share) {
                    emit(line);
                }
                number += 1;
            });
        }
        self.make_random(share, self.for_list(self.random_rng(seed)), emit);
    }

    fn make_random(&self, count: u64, mut rng: Rng, emit: Emit) {
        for _ in 0..count {
            emit(&(self.random)(&mut rng));
        }
    }

    fn run(&self, section: usize, mut rng: Rng, emit: Emit) {
        self.sections[section](&mut rng, emit);
    }

    fn section_size(&self, section: usize, rng: Rng) -> u64 {
        let mut size = 0;
        self.run(section, rng, &mut |_| size += 1);
        size
    }

    fn fixed_size(&self, seed: u64) -> u64 {
        (0..self.sections.len()).map(|section| self.section_size(section, self.rng(section, seed))).sum()
    }

    /// The kinds of the confined reading came last: nothing of theirs has to stay as it was.
    fn for_list(&self, rng: Rng) -> Rng {
        if self.is_confined() {
            rng
        } else {
            rng.listing()
        }
    }

    fn random_rng(&self, seed: u64) -> Rng {
        self.rng(self.sections.len(), seed)
    }

    /// Each section has numbers of its own, so that one can be changed without the others.
    fn rng(&self, section: usize, seed: u64) -> Rng {
        let name = self.name.bytes().fold(0, |n, b| n * 256 + u64::from(b));
        Rng::new(seed ^ Rng::new(name).next() ^ Rng::new(section as u64).next())
    }
}

/// True for `count` of the numbers below `size`, evenly spread; for all of them if they are fewer.
fn is_sampled(number: u64, size: u64, count: u64) -> bool {
    let rank = |n: u64| u128::from(n) * u128::from(count) / u128::from(size);
    count >= size || rank(number + 1) > rank(number)
}

/// Bytes in hex, `-` for none.
pub fn hex(bytes: &[u8]) -> String {
    if bytes.is_empty() {
        return "-".to_string();
    }
    let mut line = String::with_capacity(2 * bytes.len());
    crate::text::push_hex(&mut line, bytes);
    line
}

/// The same in upper or lower case.
fn hex_of_either_case(rng: &mut Rng, bytes: &[u8]) -> String {
    let digits = hex(bytes);
    if rng.one_in(6) {
        digits.to_uppercase()
    } else {
        digits
    }
}

/// Every string of a length over an alphabet.
fn every_string(alphabet: &[u8], length: usize, take: &mut dyn FnMut(&[u8])) {
    let mut digits = vec![0; length];
    let mut bytes = vec![alphabet[0]; length];
    loop {
        take(&bytes);
        let Some(place) = (0..length).rev().find(|&place| digits[place] + 1 < alphabet.len()) else {
            return;
        };
        digits[place] += 1;
        digits[place + 1..].fill(0);
        for (byte, &digit) in bytes.iter_mut().zip(&digits).skip(place) {
            *byte = alphabet[digit];
        }
    }
}

/// Every beginning of some bytes, the empty one and the whole too.
fn every_cut<'a>(bytes: &'a [u8]) -> impl Iterator<Item = &'a [u8]> + 'a {
    (0..=bytes.len()).map(move |end| &bytes[..end])
}
