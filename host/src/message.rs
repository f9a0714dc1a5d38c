//! A message: its headers and its payload.

use crate::{maybe_text, raw, refused, run, text_if, Refusal, Run, Text};

/// What a message was parsed to.
#[derive(Clone, Copy, Debug, PartialEq, Eq)]
pub enum Parsed {
    /// The message.
    Item(Message),
    /// The filter dropped it: its payload length.
    FilteredOut(u64),
}

/// A message.
#[derive(Clone, Copy, Debug, PartialEq, Eq)]
pub struct Message {
    /// Present in storage mode.
    pub storage_header: Option<StorageHeader>,
    /// The standard header.
    pub header: StandardHeader,
    /// Present where the standard header says so.
    pub extended_header: Option<ExtendedHeader>,
    /// The payload.
    pub payload: Payload,
}

/// A storage header, and the bytes skipped before its pattern.
#[derive(Clone, Copy, Debug, PartialEq, Eq)]
pub struct StorageHeader {
    pub seconds: u32,
    pub microseconds: u32,
    pub ecu_id: Text,
    pub skipped: usize,
}

/// The standard header.
#[derive(Clone, Copy, Debug, PartialEq, Eq)]
pub struct StandardHeader {
    pub version: u8,
    pub big_endian: bool,
    pub has_extended_header: bool,
    pub message_counter: u8,
    pub ecu_id: Option<Text>,
    pub session_id: Option<u32>,
    pub timestamp: Option<u32>,
    pub payload_length: u16,
}

/// The extended header.
#[derive(Clone, Copy, Debug, PartialEq, Eq)]
pub struct ExtendedHeader {
    pub verbose: bool,
    pub argument_count: u8,
    pub message_type: MessageType,
    pub application_id: Text,
    pub context_id: Text,
}

/// The type of a message, with its subtype's number.
#[derive(Clone, Copy, Debug, PartialEq, Eq)]
pub enum MessageType {
    Log(u8),
    ApplicationTrace(u8),
    NetworkTrace(u8),
    Control(u8),
    Unknown(u8, u8),
}

/// The payload. A list of arguments is its cursor: [`crate::arguments`] hands them out, and of a network trace [`crate::raw_values`] the raw values, which are
/// all that is kept of it.
#[derive(Clone, Copy, Debug, PartialEq, Eq)]
pub enum Payload {
    Verbose(Cursor),
    NonVerbose { id: u32, rest: Run },
    Control { id: u8, rest: Run },
    NetworkTrace(RawCursor),
}

/// Where the next argument of a list stands, and how many are left.
#[derive(Clone, Copy, Debug, PartialEq, Eq)]
pub struct Cursor {
    pub at: usize,
    pub left: usize,
    pub big_endian: bool,
}

/// Where the next argument of a network trace stands, and how many are left, raw or not.
#[derive(Clone, Copy, Debug, PartialEq, Eq)]
pub struct RawCursor {
    pub at: usize,
    pub left: usize,
    pub big_endian: bool,
}

/// One message at the front of the bytes, under a filter (document 01, "Filter bytes", without counts; empty for none), with how many bytes were used.
/// A message without an extended header is never filtered out.
///
/// Arguments of a verbose message are read from all bytes given, past its declared end too. To keep it to its own, give the bytes up to that end, as an index
/// entry tells it: Incomplete then means that arguments overrun.
///
/// ```
/// use host::{message, Parsed, Reason, Refusal};
/// assert_eq!(message(&[0x20, 7, 0, 8, 0], &[], false), Err(Refusal::Incomplete(3)));
/// assert_eq!(message(&[0x20, 7, 0, 3], &[], false), Err(Refusal::Hickup(Reason::Length)));
/// assert_eq!(message(&[0x20, 7, 0, 7, 0, 0, 0], &[], false), Err(Refusal::Unrecoverable));
/// assert_eq!(message(&[], &[9], false), Err(Refusal::BadFilter));
/// assert_eq!(message(&[], &[5, 0, 8, 0, 0, 0, 0, 0, 0, 0, 1], false), Err(Refusal::RetiredTag));
/// let (parsed, used) = message(&[0x20, 7, 0, 8, 0, 0, 0, 42], &[], false).unwrap();
/// assert!(matches!(parsed, Parsed::Item(_)) && used == 8);
/// ```
pub fn message(bytes: &[u8], filter: &[u8], with_storage_header: bool) -> Result<(Parsed, usize), Refusal> {
    let mut out = [0; raw::MESSAGE_SIZE];
    let answer = raw::message(bytes, filter, with_storage_header, &mut out);
    refused(answer)?;
    let parsed = match out[raw::MESSAGE_FILTERED] {
        0 => Parsed::Item(item(&out)),
        _ => Parsed::FilteredOut(out[raw::MESSAGE_PAYLOAD_LENGTH]),
    };
    Ok((parsed, answer.used as usize))
}

fn item(out: &[u64]) -> Message {
    let stored_ecu = text_if(out[raw::MESSAGE_STORED] == 1, out, raw::MESSAGE_STORED_ECU, raw::MESSAGE_STORED_ECU_ENDED);
    let has_extended = out[raw::MESSAGE_EXTENDED] == 1;
    let application = text_if(has_extended, out, raw::MESSAGE_APPLICATION, raw::MESSAGE_APPLICATION_ENDED);
    let context = text_if(has_extended, out, raw::MESSAGE_CONTEXT, raw::MESSAGE_CONTEXT_ENDED);
    Message {
        storage_header: stored_ecu.map(|ecu_id| StorageHeader {
            seconds: out[raw::MESSAGE_SECONDS] as u32,
            microseconds: out[raw::MESSAGE_MICROSECONDS] as u32,
            ecu_id,
            skipped: out[raw::MESSAGE_SKIPPED] as usize,
        }),
        header: standard(out),
        extended_header: application.zip(context).map(|(application_id, context_id)| extended(out, application_id, context_id)),
        payload: payload(out),
    }
}

fn maybe_number(out: &[u64], at: usize) -> Option<u32> {
    (out[at] == 1).then(|| out[at + 1] as u32)
}

fn standard(out: &[u64]) -> StandardHeader {
    StandardHeader {
        version: out[raw::MESSAGE_VERSION] as u8,
        big_endian: out[raw::MESSAGE_BIG] == 1,
        has_extended_header: out[raw::MESSAGE_HAS_EXTENDED] == 1,
        message_counter: out[raw::MESSAGE_COUNTER] as u8,
        ecu_id: maybe_text(out, raw::MESSAGE_ECU, raw::MESSAGE_ECU_ENDED),
        session_id: maybe_number(out, raw::MESSAGE_SESSION),
        timestamp: maybe_number(out, raw::MESSAGE_TIMESTAMP),
        payload_length: out[raw::MESSAGE_PAYLOAD_LENGTH] as u16,
    }
}

fn extended(out: &[u64], application_id: Text, context_id: Text) -> ExtendedHeader {
    let subtype = out[raw::MESSAGE_SUBTYPE] as u8;
    ExtendedHeader {
        verbose: out[raw::MESSAGE_VERBOSE] == 1,
        argument_count: out[raw::MESSAGE_ARGUMENTS] as u8,
        message_type: match out[raw::MESSAGE_TYPE] {
            0 => MessageType::Log(subtype),
            1 => MessageType::ApplicationTrace(subtype),
            2 => MessageType::NetworkTrace(subtype),
            3 => MessageType::Control(subtype),
            kind => MessageType::Unknown(kind as u8, subtype),
        },
        application_id,
        context_id,
    }
}

fn payload(out: &[u64]) -> Payload {
    let rest = run(out, raw::MESSAGE_START);
    let (at, left, big_endian) = (rest.start, rest.len, out[raw::MESSAGE_LIST_BIG] == 1);
    let id = out[raw::MESSAGE_ID];
    match out[raw::MESSAGE_PAYLOAD] {
        0 => Payload::Verbose(Cursor { at, left, big_endian }),
        1 => Payload::NonVerbose { id: id as u32, rest },
        2 => Payload::Control { id: id as u8, rest },
        _ => Payload::NetworkTrace(RawCursor { at, left, big_endian }),
    }
}
