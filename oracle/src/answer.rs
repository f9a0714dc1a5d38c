//! From a request line to an answer line.

use crate::dlt::{MessageType, TypeInfo};
use crate::index::{self, State};
use crate::parse::{
    dlt_consume_msg, dlt_zero_terminated_string, forward_to_next_storage_header, parse_length, skip_storage_header,
    DltParseError,
};
use crate::request::{self, Request};
use crate::text::{ended, guarded, or_dash, refusal, text, used, Line};
use crate::{arguments, confined, message, retire};
use std::convert::TryFrom;
use std::io::{BufRead, Write};
use std::panic::{catch_unwind, AssertUnwindSafe};

/// Answers every line of the input.
pub fn answer_all(input: &mut dyn BufRead, output: &mut dyn Write) -> std::io::Result<()> {
    be_silent_in_panics();
    let mut line = Vec::new();
    while input.read_until(b'\n', &mut line)? > 0 {
        if line.last() == Some(&b'\n') {
            line.pop();
        }
        writeln!(output, "{}", answer(&line))?;
        line.clear();
    }
    output.flush()
}

/// A panic is an answer here, so it is not reported a second time.
pub fn be_silent_in_panics() {
    std::panic::set_hook(Box::new(|_| ()));
}

/// The answer to one line, given without its newline.
pub fn answer(line: &[u8]) -> String {
    let Some(request) = request::read(line) else {
        return "bad request".to_string();
    };
    match catch_unwind(AssertUnwindSafe(|| ask(&request))) {
        Ok(Ok(line)) | Ok(Err(line)) => line,
        Err(_) => "oracle: a panic outside the crate".to_string(),
    }
}

fn ask(request: &Request) -> Line {
    match request {
        Request::Message { storage, filter, bytes } => message::answer(*storage, filter, bytes, false),
        Request::Confined { storage, filter, bytes } => confined::answer(*storage, filter, bytes),
        Request::ZeroTerminated { size, bytes } => zero_terminated(*size, bytes, false),
        Request::Skip { bytes } => skip(bytes),
        Request::Consume { bytes } => consume(bytes),
        Request::Arguments { big, words, bytes } => arguments::answer(*big, words, bytes, false),
        Request::Forward { bytes } => forward(bytes),
        Request::Length { bytes } => length(bytes),
        Request::Index { table, resume, used, filter, bytes, limit } => {
            index::answer(*table, State { resume: *resume, used: *used }, filter, bytes, *limit)
        }
        Request::List { bytes } => index::listing(bytes, "|"),
        Request::MessageInfo { byte } => message_info(*byte),
        Request::TypeInfo { word } => type_info(*word),
        Request::Retire { filter } => retire::answer(filter),
        Request::Why { of } => ask_why(of),
    }
}

/// The old answer, and why each of its texts ended.
fn ask_why(of: &Request) -> Line {
    match of {
        Request::Message { storage, filter, bytes } => message::answer(*storage, filter, bytes, true),
        Request::ZeroTerminated { size, bytes } => zero_terminated(*size, bytes, true),
        Request::Arguments { big, words, bytes } => arguments::answer(*big, words, bytes, true),
        _ => Err("oracle: a request without texts".to_string()),
    }
}

fn zero_terminated(size: u64, bytes: &[u8], why: bool) -> Line {
    let Ok(size) = usize::try_from(size) else {
        return Err("oracle: this machine's sizes have fewer than 64 bits".to_string());
    };
    match guarded(|| dlt_zero_terminated_string(bytes, size))? {
        Err(error) => refusal(&error),
        Ok((rest, value)) => {
            let line = format!("0 used={} .{}", used(bytes, rest)?, text(bytes, 0, value.as_bytes())?);
            Ok(if why { format!("{line} end={}", ended(bytes, 0, size, value)?) } else { line })
        }
    }
}

fn skip(bytes: &[u8]) -> Line {
    match guarded(|| skip_storage_header(bytes))? {
        Err(error) => refusal(&error),
        Ok((rest, count)) => Ok(format!("0 used={} count={count}", used(bytes, rest)?)),
    }
}

fn consume(bytes: &[u8]) -> Line {
    match guarded(|| dlt_consume_msg(bytes))? {
        Err(error) => refusal(&error),
        Ok((rest, count)) => Ok(format!("0 used={} count={}", used(bytes, rest)?, or_dash(count))),
    }
}

fn forward(bytes: &[u8]) -> Line {
    match guarded(|| forward_to_next_storage_header(bytes))? {
        None => Ok("0 none".to_string()),
        Some((drop, rest)) if used(bytes, rest)? as u64 == drop => Ok(format!("0 drop={drop}")),
        Some((drop, _)) => Err(format!("oracle: the rest doesn't begin {drop} bytes on")),
    }
}

fn length(bytes: &[u8]) -> Line {
    match guarded(|| parse_length(bytes))?.map_err(DltParseError::from) {
        Err(error) => refusal(&error),
        Ok((rest, length)) => Ok(format!("0 used={} len={length}", used(bytes, rest)?)),
    }
}

fn message_info(byte: u8) -> Line {
    Ok(match guarded(|| MessageType::try_from(byte))? {
        Ok(kind) => format!("0 {}", message::message_type(&kind)),
        Err(_) => "3 3".to_string(),
    })
}

fn type_info(word: u32) -> Line {
    Ok(match guarded(|| TypeInfo::try_from(word))? {
        Ok(info) => format!("0 {}", arguments::type_info(&info)),
        Err(_) => "3 2".to_string(),
    })
}
