//! The answer to `msg`: what `dlt_message` says, with the places of its texts.
//!
//! The layout of the headers is counted here once more (derived from the header readers
//! in dlt-core's src/parse.rs, Apache-2.0) because the crate hands back no places.

use crate::arguments::{label, label_ended, network_trace, verbose};
use crate::dlt::{Endianness, ExtendedHeader, Message, MessageType, PayloadContent};
use crate::filter::{self, Filter};
use crate::filtering::ProcessedDltFilterConfig;
use crate::parse::{dlt_message, forward_to_next_storage_header, ParsedMessage};
use crate::text::{disagree, ended, expect, guarded, or_dash, refusal, text, used, Line};

pub const STORAGE_HEADER: usize = 16;
const EXTENDED_HEADER: usize = 10;
const ID: usize = 4;

/// With `why`, an item also says why each of its texts ended.
pub fn answer(storage: bool, filter: &[u8], bytes: &[u8], why: bool) -> Line {
    match filter::read(filter) {
        Filter::Bad => Ok("1".to_string()),
        Filter::Retired => Ok("13".to_string()),
        Filter::Good(filter) => answer_under(filter.as_ref(), storage, bytes, why),
    }
}

/// The same under a filter of the crate.
pub fn answer_under(filter: Option<&ProcessedDltFilterConfig>, storage: bool, bytes: &[u8], why: bool) -> Line {
    match guarded(|| dlt_message(bytes, filter, storage))? {
        Err(error) => refusal(&error),
        Ok((rest, ParsedMessage::Item(message))) => item(bytes, used(bytes, rest)?, storage, &message, why),
        Ok((rest, ParsedMessage::FilteredOut(length))) => filtered(bytes, used(bytes, rest)?, storage, length),
        Ok((_, ParsedMessage::Invalid)) => Err("oracle: the crate answered Invalid".to_string()),
    }
}

/// Where the headers of a message stand, counted by its flags.
pub struct Places {
    pub skipped: usize,
    standard: usize,
    extended: usize,
    pub payload: usize,
    pub declared: usize,
}

impl Places {
    /// Where the message ends by its declared length.
    pub fn end(&self) -> usize {
        self.standard + self.declared
    }
}

/// Only asked of messages whose headers the crate could read.
pub fn places(bytes: &[u8], storage: bool) -> Result<Places, String> {
    let skipped = if storage { bytes_before_pattern(bytes)? } else { 0 };
    let standard = if storage { skipped + STORAGE_HEADER } else { 0 };
    let Some(&[flags, _, high, low]) = bytes.get(standard..standard + 4) else {
        return disagree("the standard header");
    };
    let extended = standard + 4 + 4 * (flags >> 2 & 7).count_ones() as usize;
    let payload = extended + if flags & 1 == 1 { EXTENDED_HEADER } else { 0 };
    let declared = usize::from(u16::from_be_bytes([high, low]));
    Ok(Places { skipped, standard, extended, payload, declared })
}

pub fn bytes_before_pattern(bytes: &[u8]) -> Result<usize, String> {
    match guarded(|| forward_to_next_storage_header(bytes))? {
        Some((drop, _)) => Ok(drop as usize),
        None => disagree("the pattern"),
    }
}

fn filtered(bytes: &[u8], used: usize, storage: bool, length: usize) -> Line {
    let places = places(bytes, storage)?;
    expect(used == places.end(), "a filtered message's end")?;
    expect(used == places.payload + length, "a filtered message's payload")?;
    Ok(format!("0 filtered used={used} plen={length}"))
}

fn item(bytes: &[u8], used: usize, storage: bool, message: &Message, why: bool) -> Line {
    let places = places(bytes, storage)?;
    let header = &message.header;
    expect(usize::from(header.overall_length()) == places.declared, "the declared length")?;
    let stored = storage_header(bytes, &places, message)?;
    let order = if header.endianness == Endianness::Big { "B" } else { "L" };
    let ecu = label(bytes, places.standard + 4, &header.ecu_id)?;
    let extended = match &message.extended_header {
        Some(extended) => extended_header(bytes, &places, extended)?,
        None => "-".to_string(),
    };
    let payload = payload(bytes, used, &places, message, why)?;
    let ends = if why { ends(bytes, &places, message)? } else { String::new() };
    Ok(format!(
        "0 item used={used} sh={stored} ver={} end={order} ctr={} plen={} ecu={ecu} ses={} ts={} ext={extended} pay={payload}{ends}",
        header.version,
        header.message_counter,
        header.payload_length,
        or_dash(header.session_id),
        or_dash(header.timestamp),
    ))
}

/// ` ends=STORED,ECU,APP,CTX`: why each identifier ended.
fn ends(bytes: &[u8], places: &Places, message: &Message) -> Line {
    let stored = match &message.storage_header {
        Some(stored) => ended(bytes, places.skipped + 12, ID, &stored.ecu_id)?,
        None => '-',
    };
    let ecu = label_ended(bytes, places.standard + 4, ID, &message.header.ecu_id)?;
    let (application, context) = match &message.extended_header {
        Some(extended) => (
            ended(bytes, places.extended + 2, ID, &extended.application_id)?,
            ended(bytes, places.extended + 6, ID, &extended.context_id)?,
        ),
        None => ('-', '-'),
    };
    Ok(format!(" ends={stored},{ecu},{application},{context}"))
}

fn storage_header(bytes: &[u8], places: &Places, message: &Message) -> Line {
    let Some(stored) = &message.storage_header else {
        return Ok("-".to_string());
    };
    let id = text(bytes, places.skipped + 12, stored.ecu_id.as_bytes())?;
    let time = &stored.timestamp;
    Ok(format!("{},{},.{id},skip{}", time.seconds, time.microseconds, places.skipped))
}

fn extended_header(bytes: &[u8], places: &Places, extended: &ExtendedHeader) -> Line {
    let application = text(bytes, places.extended + 2, extended.application_id.as_bytes())?;
    let context = text(bytes, places.extended + 6, extended.context_id.as_bytes())?;
    let kind = message_type(&extended.message_type);
    Ok(format!("v{},n{},{kind},.{application},.{context}", u8::from(extended.verbose), extended.argument_count))
}

/// `log:N`, `app:N`, `net:N`, `ctl:N` or `unk:T:N`.
pub fn message_type(kind: &MessageType) -> String {
    let subtype = u8::from(kind) >> 4;
    match kind {
        MessageType::Log(_) => format!("log:{subtype}"),
        MessageType::ApplicationTrace(_) => format!("app:{subtype}"),
        MessageType::NetworkTrace(_) => format!("net:{subtype}"),
        MessageType::Control(_) => format!("ctl:{subtype}"),
        MessageType::Unknown((number, _)) => format!("unk:{number}:{subtype}"),
    }
}

fn payload(bytes: &[u8], used: usize, places: &Places, message: &Message, why: bool) -> Line {
    let big = message.header.endianness == Endianness::Big;
    let count = message.extended_header.as_ref().map_or(0, |extended| extended.argument_count);
    let (end, line) = match &message.payload {
        PayloadContent::Verbose(arguments) => verbose(bytes, big, places.payload, count, arguments, why)?,
        PayloadContent::NetworkTrace(slices) => network_trace(bytes, big, places.payload, count, slices)?,
        PayloadContent::NonVerbose(id, rest) => {
            let at = places.payload + 4;
            (places.end(), format!("N({id}){}", text(bytes, at, rest)?))
        }
        PayloadContent::ControlMsg(id, rest) => {
            let at = places.payload + 1;
            (places.end(), format!("C({}){}", id.value(), text(bytes, at, rest)?))
        }
    };
    expect(end == used, "the payload's end")?;
    Ok(line)
}
