//! What the answers are held to.

use host::{End, Indexed, State};

pub const STORAGE_HEADER: usize = 16;
const PATTERN: usize = 4;

/// All headers but the storage header, by the type byte.
pub fn header_length(flags: u8) -> usize {
    4 + 4 * (flags >> 2 & 7).count_ones() as usize + 10 * usize::from(flags & 1)
}

/// What the headers of a message say.
pub struct Heads {
    pub declared: usize,
    pub verbose: bool,
}

/// The headers, whose standard header stands at a place; None if they aren't whole.
pub fn heads(bytes: &[u8], standard: usize) -> Option<Heads> {
    let &[flags, _, high, low] = bytes.get(standard..standard + 4)? else { return None };
    let all = bytes.get(standard..standard + header_length(flags))?;
    let verbose = flags & 1 == 1 && all[all.len() - 10] & 1 == 1;
    Some(Heads { declared: usize::from(u16::from_be_bytes([high, low])), verbose })
}

/// An answer line, as far as it is judged: the bytes used, the need or the reason.
#[derive(Clone, Copy, Debug, PartialEq)]
pub enum Verdict {
    Item(usize),
    Filtered(usize),
    Waits(usize),
    Hickup(usize),
    Unrecoverable,
}

/// None for any other line: a bad filter, a panic, or the oracle's complaint.
fn verdict(line: &str) -> Option<Verdict> {
    let words: Vec<&str> = line.splitn(4, ' ').collect();
    let used = |word: &str| word.strip_prefix("used=")?.parse().ok();
    match words[..] {
        ["0", "item", word, _] => Some(Verdict::Item(used(word)?)),
        ["0", "filtered", word, _] => Some(Verdict::Filtered(used(word)?)),
        ["2", need] => Some(Verdict::Waits(need.parse().ok()?)),
        ["3", reason] => Some(Verdict::Hickup(reason.parse().ok()?)),
        ["4"] => Some(Verdict::Unrecoverable),
        _ => None,
    }
}

/// Both answers to one question.
#[derive(Clone)]
pub struct Pair {
    pub theirs: String,
    pub ours: String,
}

impl Pair {
    /// How many of the two are Hickup 3, which never comes out.
    pub fn hickups_three(&self) -> u64 {
        [&self.theirs, &self.ours].into_iter().filter(|line| *line == "3 3").count() as u64
    }

    /// The verdict of both, who must have answered the same in full.
    fn agreed(&self) -> Result<Verdict, &'static str> {
        if self.hickups_three() > 0 {
            return Err("a Hickup 3");
        }
        if self.theirs != self.ours {
            return Err("the answers differ");
        }
        verdict(&self.ours).ok_or("no answer to a message under a good filter")
    }
}

/// What a cut message is held to: its need by the declared length, whether it is verbose, and its declared end.
pub struct Due {
    pub need: usize,
    pub verbose: bool,
    pub end: usize,
}

/// The rule for a whole message. A verbose one that isn't dropped may be anything but Hickup 3.
pub fn judge_whole(due: &Due, whole: &Pair) -> Result<Verdict, &'static str> {
    let verdict = whole.agreed()?;
    match verdict {
        Verdict::Filtered(used) if used != due.end => Err("a dropped message isn't used to the last byte"),
        Verdict::Filtered(_) => Ok(verdict),
        _ if due.verbose => Ok(verdict),
        Verdict::Item(used) if used != due.end => Err("an item isn't used to the last byte"),
        Verdict::Waits(_) => Err("it waits with all bytes of its need"),
        Verdict::Hickup(_) => Err("it is a Hickup with all bytes of its need"),
        Verdict::Item(_) | Verdict::Unrecoverable => Ok(verdict),
    }
}

/// The answers to a cut message, with all bytes of its need but one, and with all of them. What fails comes with the number of its question.
pub fn judge(due: &Due, [cut, fewer, whole]: &[Pair; 3]) -> Result<Verdict, (usize, &'static str)> {
    if cut.agreed().map_err(|why| (0, why))? != Verdict::Waits(due.need) {
        return Err((0, "cut, it doesn't wait with the declared length's shortfall"));
    }
    if fewer.agreed().map_err(|why| (1, why))? != Verdict::Waits(1) {
        return Err((1, "with one byte fewer than its need it doesn't wait for that byte"));
    }
    judge_whole(due, whole).map_err(|why| (2, why))
}

/// Where the index must stand at a cut message, and the message's own numbers.
pub struct Stand {
    pub state: State,
    pub need: usize,
    pub skipped: usize,
    pub declared: usize,
}

/// What three calls leave: over the cut trace from nothing, and from there on with all bytes of the need but one and with all of them; and the entry that
/// the third wrote first.
#[derive(Clone, Debug)]
pub struct Walks {
    pub cut: Indexed,
    pub fewer: Indexed,
    pub whole: Indexed,
    pub entry: String,
}

/// The index, by the message's verdict over its declared bytes: if it waits on, its arguments lack bytes there, and the index doesn't wait. A message passed
/// by its declared length leaves nothing; where only the pattern is passed, what is left could hold another pattern.
pub fn judge_walks(stand: &Stand, verdict: Verdict, walks: &Walks) -> Result<(), &'static str> {
    let waits = |taken: usize, need: usize| Indexed { state: stand.state, taken, end: End::Waits(need as u64) };
    if walks.cut != waits(stand.state.used, stand.need) {
        return Err("the index doesn't wait at the cut message with its need");
    }
    if walks.fewer != waits(0, 1) {
        return Err("with one byte fewer than the need the index doesn't wait where it was");
    }
    let message = STORAGE_HEADER + stand.declared;
    let (length, kind) = match verdict {
        Verdict::Waits(_) => (message, "overrun"),
        Verdict::Item(_) => (message, "item"),
        Verdict::Filtered(_) => (message, "filtered"),
        Verdict::Hickup(_) => (PATTERN, "hickup"),
        Verdict::Unrecoverable => (PATTERN, "unrecoverable"),
    };
    let start = stand.state.at + stand.skipped;
    let next = State { at: start + length, used: stand.state.used + 1 };
    if length == message && walks.whole != (Indexed { state: next, taken: 1, end: End::Waits(0) }) {
        return Err("with all bytes of the need the index doesn't take one entry and pass the message");
    }
    if walks.whole.taken == 0 || walks.whole.state.at < next.at {
        return Err("with all bytes of the need the index takes no entry");
    }
    let entry = format!("{start} {} {length} {kind}", stand.skipped);
    (walks.entry == entry).then_some(()).ok_or("the index takes another entry than the message's")
}
