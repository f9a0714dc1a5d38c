//! Reading a request line. README.md has the rule in words; the program that
//! answers for our port keeps the same rule.

/// No longer line is read as a request.
pub const LONGEST_LINE: usize = 300_000;

/// No larger table is asked of the index.
const LARGEST_TABLE: u64 = 4096;

pub enum Request {
    Message { storage: bool, filter: Vec<u8>, bytes: Vec<u8> },
    Confined { storage: bool, filter: Vec<u8>, bytes: Vec<u8> },
    ZeroTerminated { size: u64, bytes: Vec<u8> },
    Skip { bytes: Vec<u8> },
    Consume { bytes: Vec<u8> },
    Arguments { big: bool, words: Vec<u32>, bytes: Vec<u8> },
    Forward { bytes: Vec<u8> },
    Length { bytes: Vec<u8> },
    Index { table: usize, resume: u64, used: u64, filter: Vec<u8>, bytes: Vec<u8>, limit: Option<u64> },
    List { bytes: Vec<u8> },
    MessageInfo { byte: u8 },
    TypeInfo { word: u32 },
    Retire { filter: Vec<u8> },
    Why { of: Box<Request> },
}

/// The request that a line holds (without its newline), or None.
pub fn read(line: &[u8]) -> Option<Request> {
    if line.len() > LONGEST_LINE {
        return None;
    }
    let words: Vec<&[u8]> = line.split(|&b| b == b' ').collect();
    match words[..] {
        [b"why", ref of @ ..] => why(of),
        _ => read_words(&words),
    }
}

/// A request behind `why`, which asks why each text ended: only those whose answers have texts may stand there.
fn why(words: &[&[u8]]) -> Option<Request> {
    let of = read_words(words)?;
    let has_texts = matches!(of, Request::Message { .. } | Request::ZeroTerminated { .. } | Request::Arguments { .. });
    has_texts.then(|| Request::Why { of: Box::new(of) })
}

fn read_words(words: &[&[u8]]) -> Option<Request> {
    match *words {
        [b"msg", storage, filter, bytes] => {
            Some(Request::Message { storage: bit(storage)?, filter: hex(filter)?, bytes: hex(bytes)? })
        }
        [b"conf", storage, filter, bytes] => {
            Some(Request::Confined { storage: bit(storage)?, filter: hex(filter)?, bytes: hex(bytes)? })
        }
        [b"zts", size, bytes] => Some(Request::ZeroTerminated { size: decimal(size)?, bytes: hex(bytes)? }),
        [b"skip", bytes] => Some(Request::Skip { bytes: hex(bytes)? }),
        [b"consume", bytes] => Some(Request::Consume { bytes: hex(bytes)? }),
        [b"args", order, words, bytes] => {
            Some(Request::Arguments { big: is_big(order)?, words: hex_words(words)?, bytes: hex(bytes)? })
        }
        [b"fwd", bytes] => Some(Request::Forward { bytes: hex(bytes)? }),
        [b"len", bytes] => Some(Request::Length { bytes: hex(bytes)? }),
        [b"index", table, resume, used, filter, bytes, ref limit @ ..] if limit.len() <= 1 => Some(Request::Index {
            table: table_size(table)?,
            resume: decimal(resume)?,
            used: decimal(used)?,
            filter: hex(filter)?,
            bytes: hex(bytes)?,
            limit: match limit.first() {
                Some(word) => Some(decimal(word)?),
                None => None,
            },
        }),
        [b"list", bytes] => Some(Request::List { bytes: hex(bytes)? }),
        [b"mi", [high, low]] => Some(Request::MessageInfo { byte: digit(*high)? * 16 + digit(*low)? }),
        [b"ti", word] => Some(Request::TypeInfo { word: hex_word(word)? }),
        [b"retire", filter] => Some(Request::Retire { filter: hex(filter)? }),
        _ => None,
    }
}

fn bit(word: &[u8]) -> Option<bool> {
    match word {
        b"0" => Some(false),
        b"1" => Some(true),
        _ => None,
    }
}

fn is_big(word: &[u8]) -> Option<bool> {
    match word {
        b"L" | b"l" => Some(false),
        b"B" | b"b" => Some(true),
        _ => None,
    }
}

/// 1 to 20 decimal digits that fit 64 bits.
fn decimal(word: &[u8]) -> Option<u64> {
    if word.is_empty() || word.len() > 20 {
        return None;
    }
    word.iter().try_fold(0u64, |value, &b| {
        let digit = b.is_ascii_digit().then(|| u64::from(b - b'0'))?;
        value.checked_mul(10)?.checked_add(digit)
    })
}

fn table_size(word: &[u8]) -> Option<usize> {
    decimal(word).filter(|&n| n <= LARGEST_TABLE).map(|n| n as usize)
}

fn digit(b: u8) -> Option<u8> {
    (b as char).to_digit(16).map(|d| d as u8)
}

/// `-`, or pairs of hex digits, at least one.
pub fn hex(word: &[u8]) -> Option<Vec<u8>> {
    if word == b"-" {
        return Some(Vec::new());
    }
    if word.is_empty() || word.len() % 2 == 1 {
        return None;
    }
    word.chunks(2).map(|pair| Some(digit(pair[0])? * 16 + digit(pair[1])?)).collect()
}

/// 1 to 8 hex digits.
fn hex_word(word: &[u8]) -> Option<u32> {
    if word.is_empty() || word.len() > 8 {
        return None;
    }
    word.iter().try_fold(0u32, |value, &b| Some(value * 16 + u32::from(digit(b)?)))
}

/// `-`, or hex words joined by commas.
fn hex_words(word: &[u8]) -> Option<Vec<u32>> {
    if word == b"-" {
        return Some(Vec::new());
    }
    word.split(|&b| b == b',').map(hex_word).collect()
}
