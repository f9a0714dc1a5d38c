//! mutate DIR SECONDS SEED: for so many seconds, parts of the recordings below DIR, damaged as a fuzzer does it (bits flipped, bytes set to values near a
//! boundary, parts cut out, doubled, moved and spliced), asked of the crate and of the archive: one message with and without storage header, the index
//! without and with a limit, the search, and dlt_consume_msg.

use std::{fs, path::Path, process::exit, time::Instant};

struct Random(u64);

impl Random {
    fn next(&mut self) -> u64 {
        self.0 ^= self.0 << 13;
        self.0 ^= self.0 >> 7;
        self.0 ^= self.0 << 17;
        self.0
    }

    fn below(&mut self, n: usize) -> usize {
        (self.next() % n.max(1) as u64) as usize
    }
}

const TELLING: [u8; 16] = [0, 1, 2, 3, 4, 8, 0x0F, 0x10, 0x20, 0x3F, 0x41, 0x44, 0x7F, 0x80, 0xC3, 0xFF];

fn part(dice: &mut Random, file: &[u8], most: usize) -> Vec<u8> {
    let start = dice.below(file.len());
    // mostly at a pattern
    let start = if dice.below(8) == 0 { start } else { host::forward_to_next_storage_header(file, start).unwrap_or(start) };
    let len = dice.below(most.min(file.len() - start) + 1);
    file[start..start + len].to_vec()
}

fn damage(dice: &mut Random, bytes: &mut Vec<u8>, other: &[u8]) {
    for _ in 0..dice.below(6) {
        let (at, n) = (dice.below(bytes.len()), dice.below(16) + 1);
        match dice.below(7) {
            _ if bytes.is_empty() => bytes.push(TELLING[dice.below(16)]),
            0 => bytes[at] ^= 1 << dice.below(8),
            1 => bytes[at] = TELLING[dice.below(16)],
            2 => bytes[at] = dice.next() as u8,
            3 => drop(bytes.drain(at..(at + n).min(bytes.len()))),
            4 => {
                let again = bytes[at..(at + n).min(bytes.len())].to_vec();
                let to = dice.below(bytes.len());
                bytes.splice(to..to, again);
            }
            5 => bytes.truncate(at),
            _ => {
                let from = dice.below(other.len());
                let end = (from + 4 * n).min(other.len());
                bytes.splice(at..at, other[from..end].iter().copied());
            }
        }
    }
}

fn hex(bytes: &[u8]) -> String {
    if bytes.is_empty() {
        return "-".to_string();
    }
    bytes.iter().map(|b| format!("{b:02x}")).collect()
}

fn run(dir: &Path, seconds: u64, seed: u64) -> Result<bool, String> {
    let mut files = Vec::new();
    for part in ["real", "damaged", "stream"] {
        let found = fs::read_dir(dir.join(part)).map_err(|e| format!("{part}: {e}"))?;
        files.extend(found.flatten().filter_map(|f| fs::read(f.path()).ok()).filter(|bytes| !bytes.is_empty()));
    }
    oracle::answer::be_silent_in_panics();
    let mut dice = Random(seed.wrapping_mul(0x9E37_79B9_7F4A_7C15) | 1);
    let begun = Instant::now();
    let (mut asked, mut differ) = (0u64, 0u64);
    while begun.elapsed().as_secs() < seconds {
        for _ in 0..200 {
            let file = dice.below(files.len());
            let other = dice.below(files.len());
            let most = if dice.below(10) == 0 { 1500 } else { 160 };
            let mut bytes = part(&mut dice, &files[file], most);
            damage(&mut dice, &mut bytes, &files[other]);
            let text = hex(&bytes);
            let plain = hex(bytes.get(16..).unwrap_or(&[]));
            for line in [format!("msg 1 - {text}"), format!("msg 0 - {plain}"), format!("index 64 0 0 - {text}"), format!("index 64 0 0 - {text} {}", dice.below(4)), format!("fwd {text}"), format!("consume {text}")] {
                let Some(ours) = host::text::answer(&line) else { continue };
                let theirs = oracle::answer::answer(line.as_bytes());
                asked += 1;
                if ours != theirs {
                    differ += 1;
                    if differ == 1 {
                        println!("request: {line}\ncrate:   {theirs}\nours:    {ours}");
                    }
                }
            }
        }
    }
    println!("{asked} inputs from {} recordings in {seconds} s, {differ} differ", files.len());
    Ok(differ == 0)
}

fn main() {
    let words: Vec<String> = std::env::args().skip(1).collect();
    let said = match &words[..] {
        [dir, seconds, seed] => match (seconds.parse(), seed.parse()) {
            (Ok(seconds), Ok(seed)) => run(Path::new(dir), seconds, seed),
            _ => Err("SECONDS and SEED are numbers".to_string()),
        },
        _ => Err("expected DIR SECONDS SEED".to_string()),
    };
    match said {
        Ok(true) => (),
        Ok(false) => exit(1),
        Err(problem) => {
            eprintln!("mutate: {problem}");
            exit(2);
        }
    }
}
