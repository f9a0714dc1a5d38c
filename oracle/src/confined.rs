//! The confined reading: the crate's `dlt_message`, shown nothing behind the declared end of the message.

use crate::message::{self, places, STORAGE_HEADER};
use crate::parse::{dlt_consume_msg, dlt_standard_header, forward_to_next_storage_header};
use crate::text::{expect, guarded, Line};

/// Stands before a message that has no storage header of its own.
const LENT_HEADER: &[u8; STORAGE_HEADER] = b"DLT\x01\0\0\0\0\0\0\0\0\0\0\0\0";

/// The declared end of the first message, if the crate accepts its standard header and all declared bytes are there. The
/// crate's `dlt_consume_msg` says so; where it says anything else, `dlt_message` doesn't come to the payload.
pub fn declared_end(bytes: &[u8], storage: bool) -> Result<Option<usize>, String> {
    if !storage {
        let consumed = consumed(&[LENT_HEADER, bytes].concat())?;
        return Ok(consumed.map(|length| length - STORAGE_HEADER));
    }
    match guarded(|| forward_to_next_storage_header(bytes))? {
        Some((skipped, stored)) => Ok(consumed(stored)?.map(|length| skipped as usize + length)),
        None => Ok(None),
    }
}

fn consumed(stored: &[u8]) -> Result<Option<usize>, String> {
    match guarded(|| dlt_consume_msg(stored))? {
        Ok((_, length)) => Ok(length.map(|length| length as usize)),
        Err(_) => Ok(None),
    }
}

/// The declared end of the first stored message, if the crate accepts its standard header, whether or not the declared bytes
/// are there. The crate's reader of that header says so.
pub fn accepted_end(bytes: &[u8]) -> Result<Option<usize>, String> {
    let Some((skipped, stored)) = guarded(|| forward_to_next_storage_header(bytes))? else {
        return Ok(None);
    };
    let Some(standard) = stored.get(STORAGE_HEADER..) else {
        return Ok(None);
    };
    let header = guarded(|| dlt_standard_header(standard).ok())?;
    Ok(header.map(|(_, header)| skipped as usize + STORAGE_HEADER + usize::from(header.overall_length())))
}

/// The answer to `conf`: that to `msg` over the bytes up to the declared end, where an item uses them all and Incomplete
/// is overrun.
pub fn answer(storage: bool, filter: &[u8], bytes: &[u8]) -> Line {
    let Some(end) = declared_end(bytes, storage)? else {
        return message::answer(storage, filter, bytes, false);
    };
    let line = message::answer(storage, filter, &bytes[..end], false)?;
    if line.starts_with("2 ") {
        return overrun(bytes, storage, end);
    }
    match line.strip_prefix("0 item used=").and_then(|rest| rest.split_once(' ')) {
        Some((_, fields)) => Ok(format!("0 item used={end} {fields}")),
        None => Ok(line),
    }
}

fn overrun(bytes: &[u8], storage: bool, end: usize) -> Line {
    let places = places(bytes, storage)?;
    expect(places.end() == end, "an overrun's end")?;
    Ok(format!("0 overrun used={end} plen={}", end - places.payload))
}
