//! The trace index: entries in a table that the host owns, and a state of two numbers between calls.

use crate::raw;
use std::num::NonZeroUsize;

/// What an entry is.
#[derive(Clone, Copy, Debug, PartialEq, Eq)]
pub enum EntryKind {
    /// A message.
    Item,
    /// A message that the filter drops.
    Filtered,
    /// A pattern behind which no message can be read.
    Hickup,
    /// A message whose payload is too short for what it must hold.
    Unrecoverable,
    /// A message whose arguments lack bytes within its declared length. [`message`](crate::message()) of the bytes up to the entry's end says Incomplete; of
    /// more bytes it may still give an item, which borrows from the neighbour.
    Overrun,
}

/// One entry of the table.
#[repr(C)]
#[derive(Clone, Copy, Debug, Default, PartialEq, Eq)]
pub struct Entry {
    /// Where its pattern stands, counted from the trace's beginning.
    pub start: u64,
    /// The bytes skipped before it.
    pub skipped: u64,
    /// 16 plus the declared length, of an overrun too, or 4 for a hickup and an unrecoverable message. The walk goes on behind it: bytes inside are not
    /// searched for a pattern, so an overrun whose declared length is damaged takes what it covers with it.
    pub length: u64,
    kind: u64,
}

impl Entry {
    /// What it is.
    pub fn kind(&self) -> EntryKind {
        match self.kind {
            0 => EntryKind::Item,
            1 => EntryKind::Filtered,
            2 => EntryKind::Hickup,
            3 => EntryKind::Unrecoverable,
            4 => EntryKind::Overrun,
            // entries are written by the index alone, and it has no other kind
            other => unreachable!("entry kind {other}"),
        }
    }
}

/// Where the next call goes on, and how many entries are used. Both are 0 when fresh.
#[derive(Clone, Copy, Debug, Default, PartialEq, Eq)]
pub struct State {
    /// The resume position: the bytes from here on are owed to the index, those before are the host's.
    pub at: usize,
    /// How many entries of the table are used.
    pub used: usize,
}

/// How a call's walk ended.
#[derive(Clone, Copy, Debug, PartialEq, Eq)]
pub enum End {
    /// It waits for at least so many bytes, 0 for unknown. If the headers of the message that it waits for are there, exactly so many decide it.
    Waits(u64),
    /// A decided message remains and the table has no free entry.
    Full,
    /// It took as many entries as it may, and looked no further.
    Paused,
}

/// What a call leaves besides the table.
#[derive(Clone, Copy, Debug, PartialEq, Eq)]
pub struct Indexed {
    /// Where the next call goes on.
    pub state: State,
    /// How many entries this call wrote.
    pub taken: usize,
    /// How it ended.
    pub end: End,
}

/// No limit: no call can take so many entries.
pub const NO_LIMIT: usize = usize::MAX;

/// Why a call did nothing: state and table are as they were.
#[derive(Clone, Copy, Debug, PartialEq, Eq)]
pub enum IndexRefusal {
    /// The filter's bytes break a rule.
    BadFilter,
    /// The filter has a count (tag 5 or 6), and else keeps every rule: rewrite it with the program `rewriter`.
    RetiredTag,
    /// More entries are used than the table holds.
    BadState,
    /// Resume position plus bytes exceed 4,294,967,295.
    TooLong,
}

/// The index call. `bytes` are those from the state's resume position on. It stops after `n` entries; [`NO_LIMIT`] is none.
///
/// No message looks past its declared end: arguments that lack bytes there are an [`Overrun`](EntryKind::Overrun), and once a standard header is accepted
/// the walk waits for declared bytes alone.
///
/// ```
/// use host::{index, Entry, End, EntryKind, State, NO_LIMIT};
/// // an item of 24 bytes, one byte of junk, a pattern; then the rest of a second message
/// let trace = [&b"DLT\x01\x01\0\0\0\x02\0\0\0ECU\0"[..], &[0x20, 7, 0, 8, 0, 0, 0, 42], &[0xFF], b"DLT\x01", &[0; 12], &[0x20, 8, 0, 3]].concat();
/// let mut table = vec![Entry::default(); 8];
/// let first = index(&trace[..30], &[], State::default(), &mut table, NO_LIMIT).unwrap();
/// assert_eq!((first.state, first.end), (State { at: 24, used: 1 }, End::Waits(0)));
/// // the bytes before 24 are the host's again; those from 24 on come once more, with what was added
/// let then = index(&trace[24..], &[], first.state, &mut table, NO_LIMIT).unwrap();
/// assert_eq!((then.state, then.end), (State { at: 29, used: 2 }, End::Waits(1)));
/// assert_eq!((first.taken, then.taken), (1, 1));
/// assert_eq!((table[1].start, table[1].skipped, table[1].kind()), (25, 1, EntryKind::Hickup));
/// ```
pub fn index(bytes: &[u8], filter: &[u8], state: State, table: &mut [Entry], n: usize) -> Result<Indexed, IndexRefusal> {
    // an entry is four u64 in a row and no more
    let numbers = unsafe { std::slice::from_raw_parts_mut(table.as_mut_ptr().cast::<u64>(), 4 * table.len()) };
    let answer = raw::index(bytes, filter, state.at, state.used, numbers, n);
    let end = match answer.number {
        raw::DONE => End::Waits(answer.need),
        raw::FULL => End::Full,
        raw::PAUSED => End::Paused,
        raw::BAD_FILTER => return Err(IndexRefusal::BadFilter),
        raw::RETIRED_TAG => return Err(IndexRefusal::RetiredTag),
        raw::BAD_STATE => return Err(IndexRefusal::BadState),
        _ => return Err(IndexRefusal::TooLong),
    };
    let state = State { at: answer.at as usize, used: answer.used as usize };
    Ok(Indexed { state, taken: answer.taken as usize, end })
}

/// The index call, `n` entries at a time, until it ends or `cancel` says so. Not cancelled, it leaves what one call without a limit leaves, and takes as
/// many entries.
///
/// `cancel` is asked between two calls: there the table and what it is shown are all that there is to keep. To go on, at any later time and with more
/// bytes at the end, give the state back and the bytes from its resume position on.
///
/// ```
/// use host::{index_in_steps, Entry, End, State};
/// let trace = [&b"DLT\x01\x01\0\0\0\x02\0\0\0ECU\0"[..], &[0x20, 7, 0, 8, 0, 0, 0, 42], &[0xFF], b"DLT\x01", &[0; 12], &[0x20, 8, 0, 3]].concat();
/// let mut table = vec![Entry::default(); 8];
/// let one = 1.try_into().unwrap();
/// // cancelled behind the first message
/// let first = index_in_steps(&trace, &[], State::default(), &mut table, one, |_| true).unwrap();
/// assert_eq!((first.state, first.taken, first.end), (State { at: 24, used: 1 }, 1, End::Paused));
/// // and later it goes on
/// let then = index_in_steps(&trace[first.state.at..], &[], first.state, &mut table, one, |_| false).unwrap();
/// assert_eq!((then.state, then.taken, then.end), (State { at: 29, used: 2 }, 1, End::Waits(1)));
/// ```
pub fn index_in_steps(
    bytes: &[u8],
    filter: &[u8],
    state: State,
    table: &mut [Entry],
    n: NonZeroUsize,
    mut cancel: impl FnMut(&Indexed) -> bool,
) -> Result<Indexed, IndexRefusal> {
    let mut so_far = Indexed { state, taken: 0, end: End::Paused };
    loop {
        let step = index(&bytes[so_far.state.at - state.at..], filter, so_far.state, table, n.get())?;
        so_far = Indexed { taken: so_far.taken + step.taken, ..step };
        // here a cancel lands: no call is under way, and nothing is half done
        if step.end != End::Paused || cancel(&so_far) {
            return Ok(so_far);
        }
    }
}
