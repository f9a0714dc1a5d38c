//! The proved calls for a Rust host: safe functions with Rust's types over the archive's numbers.
//!
//! Texts are parts of the bytes that the caller gave: a [`Text`] is a place, a length and why it ended, and [`Text::of`] gives the bytes. A [`Run`] is the same
//! of bytes that are no text.
//!
//! ```
//! // document 01's P2: a message of eight bytes, big-endian, with the id 42 and nothing behind it
//! let bytes = [0x22, 7, 0, 8, 0, 0, 0, 42];
//! let (parsed, used) = host::message(&bytes, &[], false).unwrap();
//! assert_eq!(used, 8);
//! let host::Parsed::Item(message) = parsed else { panic!() };
//! assert_eq!(message.header.message_counter, 7);
//! assert_eq!(message.payload, host::Payload::NonVerbose { id: 42, rest: host::Run { start: 8, len: 0 } });
//! ```

mod argument;
mod message;
pub mod raw;
pub mod text;
mod trace;

pub use argument::{arguments, raw_values, signals, Argument, Arguments, FixedPoint, Kind, Offset, RawValues, Signals, TypeInfo, Value};
pub use trace::{index, index_in_steps, End, Entry, EntryKind, IndexRefusal, Indexed, State, NO_LIMIT};
pub use message::{message, Cursor, ExtendedHeader, Message, MessageType, Parsed, Payload, RawCursor, StandardHeader, StorageHeader};

/// Why there is no value: document 01's numbers 1 to 4, and 13.
#[derive(Clone, Copy, Debug, PartialEq, Eq)]
pub enum Refusal {
    /// The filter's bytes break a rule.
    BadFilter,
    /// The filter has a count (tag 5 or 6), and else keeps every rule: rewrite it with the program `rewriter`.
    RetiredTag,
    /// More bytes could help: at least so many, 0 for unknown. Of [`message`], if the headers are there and it isn't verbose or the filter
    /// drops it, exactly so many decide it.
    Incomplete(u64),
    /// The bytes are no message, whatever follows.
    Hickup(Reason),
    /// The payload is too short for what it must hold.
    Unrecoverable,
}

/// Why bytes are no message: document 01's reasons. It is proved which of them each call gives (crates/reasons), and that 3 comes out of none.
#[derive(Clone, Copy, Debug, PartialEq, Eq)]
pub enum Reason {
    /// 1: the declared length is below the headers.
    Length,
    /// 2: a type info word is no type.
    TypeInfo,
    /// 4: the pattern is missing.
    Pattern,
    /// 5: signal data is too short.
    SignalShort,
    /// 6: a signal string is not UTF-8.
    SignalText,
    /// 7: a signal of a fixed-point kind.
    SignalFixedPoint,
}

impl Reason {
    /// Every reason, in the order of the numbers.
    pub const ALL: [Reason; 6] = [Reason::Length, Reason::TypeInfo, Reason::Pattern, Reason::SignalShort, Reason::SignalText, Reason::SignalFixedPoint];

    /// Document 01's number.
    ///
    /// ```
    /// assert_eq!(host::Reason::ALL.map(|reason| reason.number()), [1, 2, 4, 5, 6, 7]);
    /// ```
    pub fn number(self) -> u64 {
        match self {
            Reason::Length => raw::HICKUP_LENGTH,
            Reason::TypeInfo => raw::HICKUP_TYPE_INFO,
            Reason::Pattern => raw::HICKUP_PATTERN,
            Reason::SignalShort => raw::HICKUP_SIGNAL_SHORT,
            Reason::SignalText => raw::HICKUP_SIGNAL_TEXT,
            Reason::SignalFixedPoint => raw::HICKUP_SIGNAL_FIXED_POINT,
        }
    }

    fn of(number: u64) -> Reason {
        // that no other number comes out is proved of each call
        Reason::ALL.into_iter().find(|reason| reason.number() == number).unwrap_or_else(|| unreachable!("hickup reason {number}"))
    }
}

/// Why a text ended where it did. Its content is the bytes before the first zero byte, or all of its size; the text is the longest part of the content, from
/// its start on, that is UTF-8.
#[derive(Clone, Copy, Debug, PartialEq, Eq)]
pub enum Ended {
    /// 1: a zero byte ended it.
    Zero,
    /// 2: it fills its size, as every signal string does.
    Size,
    /// 3: bytes that are no UTF-8 came first, a sequence cut by a zero byte or by the size too.
    Invalid,
}

impl Ended {
    /// Every reason, in the order of the numbers.
    pub const ALL: [Ended; 3] = [Ended::Zero, Ended::Size, Ended::Invalid];

    /// The number that the archive has for it; 0 is that of no text.
    ///
    /// ```
    /// assert_eq!(host::Ended::ALL.map(|ended| ended.number()), [1, 2, 3]);
    /// ```
    pub fn number(self) -> u64 {
        match self {
            Ended::Zero => raw::ENDED_ZERO,
            Ended::Size => raw::ENDED_SIZE,
            Ended::Invalid => raw::ENDED_INVALID,
        }
    }

    fn of(number: u64) -> Ended {
        // of a text that is there no other number comes out
        Ended::ALL.into_iter().find(|ended| ended.number() == number).unwrap_or_else(|| unreachable!("a text's reason {number}"))
    }
}

/// A text: a part of the bytes that were given, always UTF-8.
#[derive(Clone, Copy, Debug, PartialEq, Eq)]
pub struct Text {
    /// Where it stands.
    pub start: usize,
    /// How many bytes it has.
    pub len: usize,
    /// Why it has no more.
    pub ended: Ended,
}

impl Text {
    /// The bytes themselves, of the slice that the call was given.
    ///
    /// ```
    /// assert_eq!(host::Text { start: 1, len: 2, ended: host::Ended::Size }.of(b"abcd"), b"bc");
    /// ```
    pub fn of<'a>(&self, bytes: &'a [u8]) -> &'a [u8] {
        &bytes[self.start..self.start + self.len]
    }
}

/// A part of the bytes that were given which is no text: a raw value, the rest of a payload.
#[derive(Clone, Copy, Debug, PartialEq, Eq)]
pub struct Run {
    /// Where it stands.
    pub start: usize,
    /// How many bytes it has.
    pub len: usize,
}

impl Run {
    /// The bytes themselves, of the slice that the call was given.
    ///
    /// ```
    /// assert_eq!(host::Run { start: 1, len: 2 }.of(b"abcd"), b"bc");
    /// ```
    pub fn of<'a>(&self, bytes: &'a [u8]) -> &'a [u8] {
        &bytes[self.start..self.start + self.len]
    }
}

/// The refusal that an answer is, if it is one.
fn refused(answer: raw::Answer) -> Result<(), Refusal> {
    match answer.number {
        raw::DONE => Ok(()),
        raw::BAD_FILTER => Err(Refusal::BadFilter),
        raw::RETIRED_TAG => Err(Refusal::RetiredTag),
        raw::INCOMPLETE => Err(Refusal::Incomplete(answer.value)),
        raw::HICKUP => Err(Refusal::Hickup(Reason::of(answer.value))),
        raw::UNRECOVERABLE => Err(Refusal::Unrecoverable),
        // the slices lent here are as long as they must be
        other => unreachable!("answer number {other}"),
    }
}

fn run(out: &[u64], at: usize) -> Run {
    Run { start: out[at] as usize, len: out[at + 1] as usize }
}

/// A text, if there is one, by the places of its start and of why it ended. What is absent has no reason.
fn text_if(there: bool, out: &[u64], at: usize, ended: usize) -> Option<Text> {
    match out[ended] {
        raw::ENDED_NONE if !there => None,
        number if there => Some(Text { start: out[at] as usize, len: out[at + 1] as usize, ended: Ended::of(number) }),
        number => unreachable!("no text, and the reason {number}"),
    }
}

/// The same of a flag and the text behind it.
fn maybe_text(out: &[u64], at: usize, ended: usize) -> Option<Text> {
    text_if(out[at] == 1, out, at + 1, ended)
}

/// The first place from `at` on where the storage pattern stands.
///
/// ```
/// assert_eq!(host::forward_to_next_storage_header(b"..DLT\x01..", 0), Some(2));
/// assert_eq!(host::forward_to_next_storage_header(b"..DLT\x01..", 3), None);
/// ```
pub fn forward_to_next_storage_header(bytes: &[u8], at: usize) -> Option<usize> {
    let answer = raw::forward(bytes, at);
    (answer.value == 1).then_some(answer.used as usize)
}

/// Passes one message whose storage header stands at the front: how many bytes it had (none of no bytes), and how many were used.
///
/// ```
/// assert_eq!(host::consume_msg(&[]), Ok((None, 0)));
/// assert_eq!(host::consume_msg(b"DLX"), Err(host::Refusal::Hickup(host::Reason::Pattern)));
/// assert_eq!(host::consume_msg(b"DL"), Err(host::Refusal::Incomplete(1)));
/// ```
pub fn consume_msg(bytes: &[u8]) -> Result<(Option<u64>, usize), Refusal> {
    let answer = raw::consume(bytes);
    refused(answer)?;
    Ok(((answer.value != 0).then_some(answer.value), answer.used as usize))
}

/// How many arguments the data has for these type info words, and how many bytes they use.
///
/// ```
/// // an unsigned number of 16 bits
/// assert_eq!(host::construct_arguments(false, &[0x42], &[0x34, 0x12, 0xFF]), Ok((1, 2)));
/// assert_eq!(host::construct_arguments(false, &[0x42], &[0x34]), Err(host::Refusal::Hickup(host::Reason::SignalShort)));
/// ```
pub fn construct_arguments(big: bool, words: &[u32], data: &[u8]) -> Result<(usize, usize), Refusal> {
    let answer = raw::construct(big, words, data);
    refused(answer)?;
    Ok((answer.value as usize, answer.used as usize))
}

#[cfg(test)]
mod tests {
    use super::*;

    #[test]
    fn a_short_out_is_told_first_and_left_alone() {
        let bytes = [0x22, 7, 0, 8, 0, 0, 0, 42];
        for len in 0..raw::MESSAGE_SIZE {
            let mut out = vec![9; len];
            let answer = raw::message(&bytes, &[1], false, &mut out);
            assert_eq!(answer, raw::Answer { number: raw::SHORT_OUT, value: raw::MESSAGE_SIZE as u64, used: 0 });
            assert!(out.iter().all(|&n| n == 9));
        }
        for len in 0..raw::ARGUMENT_SIZE {
            let mut out = vec![9; len];
            let short = raw::Answer { number: raw::SHORT_OUT, value: raw::ARGUMENT_SIZE as u64, used: 0 };
            assert_eq!(raw::argument(&bytes, 0, 1, false, &mut out), short);
            assert_eq!(raw::signal(&[0x42], &bytes, 0, 0, false, &mut out), short);
            assert!(out.iter().all(|&n| n == 9));
        }
        for len in 0..raw::RAW_SIZE {
            let mut out = vec![9; len];
            assert_eq!(raw::raw_value(&bytes, 0, 1, false, &mut out), raw::Answer { number: raw::SHORT_OUT, value: raw::RAW_SIZE as u64, used: 0 });
            assert!(out.iter().all(|&n| n == 9));
        }
    }

    #[test]
    fn a_refusal_changes_nothing_lent() {
        let mut out = [9; raw::MESSAGE_SIZE + 7];
        assert_eq!(raw::message(&[0x22, 7, 0, 8], &[], false, &mut out).number, raw::INCOMPLETE);
        assert_eq!(raw::message(&[0x22, 7, 0, 8], &[1], false, &mut out).number, raw::BAD_FILTER);
        assert_eq!(raw::message(&[0x22, 7, 0, 8], &[6, 0, 8, 0, 0, 0, 0, 0, 0, 0, 0], false, &mut out).number, raw::RETIRED_TAG);
        assert_eq!(raw::message(&[0x22, 7, 0, 3], &[], false, &mut out).number, raw::HICKUP);
        assert_eq!(raw::message(&[0x22, 7, 0, 7, 0, 0, 0], &[], false, &mut out).number, raw::UNRECOVERABLE);
        assert_eq!(out, [9; raw::MESSAGE_SIZE + 7]);
        raw::message(&[0x22, 7, 0, 8, 0, 0, 0, 42], &[], false, &mut out);
        assert_eq!(out[raw::MESSAGE_SIZE..], [9; 7]);
    }

    #[test]
    fn of_a_network_trace_only_raw_values_are_handed_out() {
        // one bool: an argument is left, and no raw value comes of it
        let bytes = [0x21, 0, 0, 14, 0x15, 1, 0, 0, 0, 0, 0, 0, 0, 0, 0x11, 0, 0, 0, 1];
        let (Parsed::Item(message), 19) = message(&bytes, &[], false).unwrap() else { panic!() };
        let Payload::NetworkTrace(trace) = message.payload else { panic!() };
        assert_eq!(trace, RawCursor { at: 14, left: 1, big_endian: false });
        assert_eq!(raw_values(&bytes, trace).count(), 0);
        let mut out = [9; 5];
        assert_eq!(raw::raw_value(&bytes, 14, 1, false, &mut out), raw::Answer { number: 0, value: 0, used: 19 });
        assert_eq!(out, [9; 5]);
    }

    #[test]
    fn a_position_past_the_end_is_nothing_left() {
        assert_eq!(forward_to_next_storage_header(b"DLT\x01", usize::MAX), None);
        let mut out = [0; raw::ARGUMENT_SIZE];
        assert_eq!(raw::argument(&[1, 2], usize::MAX, 1, true, &mut out), raw::Answer { number: 2, value: 4, used: 0 });
    }
}
