//! Document 01's trace index and listing, over the crate's `dlt_message`, shown no byte behind the declared end.

use crate::confined::declared_end;
use crate::filter::{self, Filter};
use crate::filtering::ProcessedDltFilterConfig;
use crate::message::{bytes_before_pattern, places, STORAGE_HEADER};
use crate::parse::{dlt_message, DltParseError, ParsedMessage};
use crate::text::{expect, guarded, or_dash, used, Line};

const LAST_POSITION: u128 = 4_294_967_295;
const PATTERN: usize = 4;
const LISTED_BYTES: usize = 65_536;
const LISTED_ENTRIES: usize = 1024;

pub struct Entry {
    start: u64,
    skipped: usize,
    length: usize,
    kind: &'static str,
}

/// How far a message's arguments may reach.
#[derive(Clone, Copy, PartialEq)]
pub enum Reach {
    /// To the declared end: the rule.
    Declared,
    /// As far as there are bytes, as in `dlt_message`: the rule of walks that know no overrun.
    Further,
}

/// What a message is read by.
#[derive(Clone, Copy)]
pub struct Reader<'a> {
    pub filter: Option<&'a ProcessedDltFilterConfig>,
    pub reach: Reach,
}

/// What the reader says at one place of the trace.
enum Step {
    Wait { need: usize },
    Take { skipped: usize, length: usize, kind: &'static str },
}

/// Where it may reach to the declared end and all declared bytes are there, it never waits: lacking bytes are an overrun.
fn step(bytes: &[u8], reader: Reader) -> Result<Step, String> {
    let end = match reader.reach {
        Reach::Declared => declared_end(bytes, true)?,
        Reach::Further => None,
    };
    let bytes = end.map_or(bytes, |end| &bytes[..end]);
    match guarded(|| dlt_message(bytes, reader.filter, true))? {
        Ok((_, ParsedMessage::Item(message))) => {
            let declared = usize::from(message.header.overall_length());
            expect(places(bytes, true)?.declared == declared, "the declared length")?;
            whole_message(bytes, "item")
        }
        Ok((rest, ParsedMessage::FilteredOut(_))) => {
            expect(used(bytes, rest)? == places(bytes, true)?.end(), "a filtered message's end")?;
            whole_message(bytes, "filtered")
        }
        Ok((_, ParsedMessage::Invalid)) => Err("oracle: the crate answered Invalid".to_string()),
        Err(DltParseError::ParsingHickup(_)) => only_pattern(bytes, "hickup"),
        Err(DltParseError::Unrecoverable(_)) => only_pattern(bytes, "unrecoverable"),
        Err(DltParseError::IncompleteParse { .. }) if end.is_some() => whole_message(bytes, "overrun"),
        Err(DltParseError::IncompleteParse { needed }) => Ok(Step::Wait { need: needed.map_or(0, |n| n.get()) }),
    }
}

fn whole_message(bytes: &[u8], kind: &'static str) -> Result<Step, String> {
    let places = places(bytes, true)?;
    Ok(Step::Take { skipped: places.skipped, length: STORAGE_HEADER + places.declared, kind })
}

fn only_pattern(bytes: &[u8], kind: &'static str) -> Result<Step, String> {
    Ok(Step::Take { skipped: bytes_before_pattern(bytes)?, length: PATTERN, kind })
}

/// How a walk ended.
#[derive(Clone, Copy, PartialEq)]
pub enum End {
    Waits(usize),
    Full,
    Paused,
}

/// What a walk leaves: the new entries, the resume position, and how it ended.
pub struct Walk {
    pub entries: Vec<Entry>,
    pub resume: u64,
    pub end: End,
}

/// No limit.
pub const NONE: u64 = u64::MAX;

fn walk(bytes: &[u8], resume: u64, room: usize, limit: u64, reader: Reader) -> Result<Walk, String> {
    let mut entries = Vec::new();
    let mut at = 0;
    loop {
        let position = resume + at as u64;
        if entries.len() as u64 == limit {
            return Ok(Walk { entries, resume: position, end: End::Paused });
        }
        match step(&bytes[at..], reader)? {
            Step::Wait { need } => return Ok(Walk { entries, resume: position, end: End::Waits(need) }),
            Step::Take { .. } if entries.len() == room => {
                return Ok(Walk { entries, resume: position, end: End::Full })
            }
            Step::Take { skipped, length, kind } => {
                entries.push(Entry { start: position + skipped as u64, skipped, length, kind });
                at += skipped + length;
            }
        }
    }
}

/// The state that an index call is given and hands back.
#[derive(Clone, Copy)]
pub struct State {
    pub resume: u64,
    pub used: u64,
}

/// The answer's number, the state handed back, and the walk if there was one.
type Called = (u8, State, Option<Walk>);

fn call(table: usize, state: State, filter: &[u8], bytes: &[u8], limit: u64) -> Result<Called, String> {
    match filter::read(filter) {
        Filter::Bad => Ok((1, state, None)),
        Filter::Retired => Ok((13, state, None)),
        Filter::Good(filter) => {
            let reader = Reader { filter: filter.as_ref(), reach: Reach::Declared };
            call_by(reader, table, state, bytes, limit)
        }
    }
}

/// The same by a reader.
pub fn call_by(reader: Reader, table: usize, state: State, bytes: &[u8], limit: u64) -> Result<Called, String> {
    if state.used > table as u64 {
        return Ok((5, state, None));
    }
    if u128::from(state.resume) + bytes.len() as u128 > LAST_POSITION {
        return Ok((6, state, None));
    }
    let walk = walk(bytes, state.resume, table - state.used as usize, limit, reader)?;
    let number = match walk.end {
        End::Waits(_) => 0,
        End::Full => 7,
        End::Paused => 8,
    };
    let after = State { resume: walk.resume, used: state.used + walk.entries.len() as u64 };
    Ok((number, after, Some(walk)))
}

/// Only with a limit does the answer tell how many entries were taken.
pub fn answer(table: usize, state: State, filter: &[u8], bytes: &[u8], limit: Option<u64>) -> Line {
    let (number, after, walk) = call(table, state, filter, bytes, limit.unwrap_or(NONE))?;
    let need = match walk.as_ref().map(|walk| walk.end) {
        Some(End::Waits(need)) => Some(need),
        _ => None,
    };
    let entries = walk.map_or(Vec::new(), |walk| walk.entries);
    let mut line = format!("{number} resume={} used={} need={}", after.resume, after.used, or_dash(need));
    if limit.is_some() {
        line.push_str(&format!(" taken={}", entries.len()));
    }
    for entry in entries {
        line.push_str(&format!(" ({} {} {} {})", entry.start, entry.skipped, entry.length, entry.kind));
    }
    Ok(line)
}

/// The listing program's output; `ends` stands between its lines.
pub fn listing(bytes: &[u8], ends: &str) -> Line {
    if bytes.len() > LISTED_BYTES {
        return Ok("refused: over 65536".to_string());
    }
    lines_of_walk(bytes, LISTED_ENTRIES, Reach::Declared, ends)
}

/// The same lines for a trace of any length, with a table that is never full.
pub fn whole_walk(bytes: &[u8], reach: Reach) -> Line {
    lines_of_walk(bytes, usize::MAX, reach, "\n")
}

fn lines_of_walk(bytes: &[u8], room: usize, reach: Reach, ends: &str) -> Line {
    let walk = walk(bytes, 0, room, NONE, Reader { filter: None, reach })?;
    let mut lines = vec!["start skipped length kind".to_string()];
    for entry in &walk.entries {
        lines.push(format!("{} {} {} {}", entry.start, entry.skipped, entry.length, entry.kind));
    }
    lines.push(match walk.end {
        End::Waits(need) => format!("waits {} {need}", walk.resume),
        _ => format!("full {}", walk.resume),
    });
    Ok(lines.join(ends))
}
