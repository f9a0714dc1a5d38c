//! The inputs, each made by seed.

pub struct Rng(u64);

impl Rng {
    pub fn new(seed: u64) -> Rng {
        Rng(seed.wrapping_mul(0x9E37_79B9_7F4A_7C15) | 1)
    }

    pub fn next(&mut self) -> u64 {
        self.0 ^= self.0 << 13;
        self.0 ^= self.0 >> 7;
        self.0 ^= self.0 << 17;
        self.0
    }

    pub fn below(&mut self, n: u64) -> u64 {
        (self.next() >> 11) % n
    }
}

fn bytes(out: &mut Vec<u8>, rng: &mut Rng, count: u64) {
    for _ in 0..count {
        out.push(rng.next() as u8);
    }
}

/// What a trace's identifiers are made of.
#[derive(Clone, Copy)]
pub enum Ids {
    /// Four letters.
    Letters,
    /// Three letters and a zero byte.
    Short,
    /// A letter of two bytes and two of one.
    Wide,
}

impl Ids {
    pub fn id(self, front: &str, n: u64) -> String {
        match self {
            Ids::Letters => format!("{front}{n}"),
            Ids::Short => format!("{}{n}", &front[..2]),
            Ids::Wide => format!("Ä{}{n}", &front[..1]),
        }
    }
}

/// An identifier as a message and a filter have it.
pub fn padded(id: &str) -> [u8; 4] {
    let mut bytes = [0; 4];
    bytes[..id.len()].copy_from_slice(id.as_bytes());
    bytes
}

/// The parts of a message that its payload doesn't decide.
pub struct Frame {
    pub big: bool,
    /// Message info and argument count.
    pub extended: Option<(u8, u8)>,
    pub ids: Ids,
}

/// A message with its storage header, all optional fields and this payload.
pub fn message(out: &mut Vec<u8>, rng: &mut Rng, frame: &Frame, payload: &[u8]) {
    out.extend(b"DLT\x01");
    bytes(out, rng, 4);
    out.extend((rng.below(1_000_000) as u32).to_le_bytes());
    let ecu = padded(&frame.ids.id("ECU", 1));
    out.extend(ecu);
    let length = 16 + if frame.extended.is_some() { 10 } else { 0 } + payload.len();
    out.push(0x3C | u8::from(frame.big) << 1 | u8::from(frame.extended.is_some()));
    out.push(rng.next() as u8);
    out.extend((length as u16).to_be_bytes());
    out.extend(ecu);
    bytes(out, rng, 8);
    if let Some((info, count)) = frame.extended {
        out.extend([info, count]);
        out.extend(padded(&frame.ids.id("APP", rng.below(4))));
        out.extend(padded(&frame.ids.id("CTX", 1)));
    }
    out.extend(payload);
}

fn word(out: &mut Vec<u8>, big: bool, number: u32) {
    out.extend(if big { number.to_be_bytes() } else { number.to_le_bytes() });
}

fn string(out: &mut Vec<u8>, rng: &mut Rng, big: bool) {
    let length = 5 + rng.below(60) as u16;
    word(out, big, 0x8200);
    out.extend(if big { (length + 1).to_be_bytes() } else { (length + 1).to_le_bytes() });
    for _ in 0..length {
        out.push(b'a' + rng.below(26) as u8);
    }
    out.push(0);
}

fn integer(out: &mut Vec<u8>, rng: &mut Rng, big: bool) {
    let (info, width) = [(0x41, 1), (0x42, 2), (0x43, 4), (0x44, 8), (0x23, 4), (0x24, 8)][rng.below(6) as usize];
    word(out, big, info);
    bytes(out, rng, width);
}

/// 70 % verbose logs with 1 to 4 string and integer arguments, 20 % non-verbose, 10 % control, a little junk if wanted.
pub fn mixed(size: usize, seed: u64, junk: bool, ids: Ids) -> Vec<u8> {
    let mut rng = Rng::new(seed);
    let mut out = Vec::with_capacity(size + 1000);
    let mut payload = Vec::new();
    while out.len() < size {
        if junk && rng.below(200) == 0 {
            let count = rng.below(30);
            bytes(&mut out, &mut rng, count);
        }
        payload.clear();
        let big = rng.below(2) == 1;
        let kind = rng.below(10);
        let mut extended = None;
        if kind < 7 {
            let count = 1 + rng.below(4) as u8;
            for _ in 0..count {
                if rng.below(2) == 0 {
                    string(&mut payload, &mut rng, big);
                } else {
                    integer(&mut payload, &mut rng, big);
                }
            }
            extended = Some((((1 + rng.below(6) as u8) << 4) | 1, count));
        } else if kind < 9 {
            let count = 4 + rng.below(60);
            bytes(&mut payload, &mut rng, count);
        } else {
            let count = 1 + rng.below(20);
            bytes(&mut payload, &mut rng, count);
            extended = Some((0x26, 0));
        }
        message(&mut out, &mut rng, &Frame { big, extended, ids }, &payload);
    }
    out
}

/// Storage headers with a declared length below the headers: twenty bytes each.
pub fn hickups(size: usize) -> Vec<u8> {
    let one = b"DLT\x01\0\0\0\0\0\0\0\0ECU1\x20\0\0\x03";
    one.iter().copied().cycle().take(size / 20 * 20).collect()
}

/// One kind of message over and over.
pub fn repeated(size: usize, one: &[u8]) -> Vec<u8> {
    one.iter().copied().cycle().take(size / one.len() * one.len()).collect()
}

/// A message with 255 arguments of one byte.
pub fn many_arguments() -> Vec<u8> {
    let payload: Vec<u8> = (0..255).flat_map(|i| [0x41, 0, 0, 0, i as u8]).collect();
    let mut out = Vec::new();
    message(&mut out, &mut Rng::new(1), &Frame { big: false, extended: Some((0x41, 255)), ids: Ids::Letters }, &payload);
    out
}

/// A message with one string of nearly 65,535 bytes without a zero byte.
pub fn long_string() -> Vec<u8> {
    let mut payload = vec![0, 0x82, 0, 0, 0, 0];
    let length = 65_535 - 26 - 6;
    payload[4..6].copy_from_slice(&(length as u16).to_le_bytes());
    payload.resize(6 + length, b'x');
    let mut out = Vec::new();
    message(&mut out, &mut Rng::new(1), &Frame { big: false, extended: Some((0x41, 1)), ids: Ids::Letters }, &payload);
    out
}

pub fn random(size: usize, seed: u64) -> Vec<u8> {
    let mut rng = Rng::new(seed);
    (0..size).map(|_| rng.next() as u8).collect()
}

/// Short messages that count an argument whose bytes run far past the declared end: a string of 65,535 bytes, or as many as there are.
pub fn past_the_end(size: usize) -> Vec<u8> {
    let mut one = Vec::new();
    message(&mut one, &mut Rng::new(1), &Frame { big: false, extended: Some((0x41, 40)), ids: Ids::Letters }, &[]);
    one.extend([0, 0x82, 0, 0, 0xFF, 0xFF]);
    repeated(size, &one)
}

/// Messages that count 255 arguments and declare twenty numbers and the beginning of a string of 65,535 bytes: the rest lies far past the declared end.
pub fn overruns(size: usize) -> Vec<u8> {
    let mut payload: Vec<u8> = (0..20).flat_map(|i| [0x41, 0, 0, 0, i]).collect();
    payload.extend(b"\0\x82\0\0\xff\xffsome text");
    let mut one = Vec::new();
    message(&mut one, &mut Rng::new(1), &Frame { big: false, extended: Some((0x41, 255)), ids: Ids::Letters }, &payload);
    repeated(size, &one)
}

/// The recordings of the folder that CORPUS names, one after the other, repeated; where there are none, that is said.
pub fn corpus(size: usize) -> Option<Vec<u8>> {
    let folder = std::env::var("CORPUS").unwrap_or(concat!(env!("CARGO_MANIFEST_DIR"), "/../../shared/corpus/real").to_string());
    let listed = std::fs::read_dir(&folder).into_iter().flatten();
    let mut names: Vec<_> = listed.filter_map(|entry| Some(entry.ok()?.path())).filter(|path| path.is_file()).collect();
    names.sort();
    let all: Vec<u8> = names.iter().filter_map(|name| std::fs::read(name).ok()).flatten().collect();
    if all.is_empty() {
        eprintln!("bench: no recordings in {folder} (CORPUS names another folder), so the rows of the corpus are left out");
        return None;
    }
    Some(repeated(size.max(all.len()), &all))
}

/// A filter's application, ECU and context ids, `n` each. The trace's own are among them where `app` is APP.
pub fn filter_sets(n: u64, app: &str, ids: Ids) -> [Vec<String>; 3] {
    [app, "ECU", "CTX"].map(|front| (0..n).map(|i| if i < 9 { ids.id(front, i) } else { format!("{}{i:02}", &front[..2]) }).collect())
}

/// The filter with these sets and the lowest level as its bytes.
pub fn filter_bytes(sets: &[Vec<String>; 3]) -> Vec<u8> {
    let mut bytes = vec![1, 0, 1, 6];
    for (tag, ids) in (2..).zip(sets) {
        bytes.push(tag);
        bytes.extend((4 * ids.len() as u16).to_be_bytes());
        bytes.extend(ids.iter().flat_map(|id| padded(id)));
    }
    bytes
}
