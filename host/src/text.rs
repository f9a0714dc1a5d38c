//! The wrapper's answers in the one text of all answers (docs/REQUESTS.md), as `replay` and the oracle print them.

use crate::*;
use std::fmt::Write;

fn refusal(refusal: Refusal) -> String {
    match refusal {
        Refusal::BadFilter => "1".to_string(),
        Refusal::RetiredTag => "13".to_string(),
        Refusal::Incomplete(need) => format!("2 {need}"),
        Refusal::Hickup(reason) => format!("3 {}", reason.number()),
        Refusal::Unrecoverable => "4".to_string(),
    }
}

fn run(bytes: &[u8], run: Run) -> String {
    let mut line = String::new();
    for byte in run.of(bytes) {
        write!(line, "{byte:02x}").unwrap();
    }
    write!(line, "@{}+{}", run.start, run.len).unwrap();
    line
}

fn shown(bytes: &[u8], text: Text) -> String {
    run(bytes, Run { start: text.start, len: text.len })
}

fn labelled(bytes: &[u8], text: Option<Text>) -> String {
    text.map_or("-".to_string(), |text| format!(".{}", shown(bytes, text)))
}

fn or_dash(number: Option<impl ToString>) -> String {
    number.map_or("-".to_string(), |number| number.to_string())
}

/// Why a text ended; `-` for no text.
fn letter(text: Option<Text>) -> &'static str {
    match text.map(|text| text.ended) {
        None => "-",
        Some(Ended::Zero) => "z",
        Some(Ended::Size) => "s",
        Some(Ended::Invalid) => "u",
    }
}

/// The answer to `msg`, or with `why` to `why msg`.
pub fn msg(storage: bool, filter: &[u8], bytes: &[u8], why: bool) -> String {
    match message(bytes, filter, storage) {
        Err(no) => refusal(no),
        Ok((Parsed::FilteredOut(length), used)) => format!("0 filtered used={used} plen={length}"),
        Ok((Parsed::Item(message), used)) if why => item(bytes, &message, used, true) + &ids_ended(&message),
        Ok((Parsed::Item(message), used)) => item(bytes, &message, used, false),
    }
}

/// Why each identifier of a message ended.
fn ids_ended(message: &Message) -> String {
    let extended = message.extended_header;
    let ids = [
        message.storage_header.map(|header| header.ecu_id),
        message.header.ecu_id,
        extended.map(|header| header.application_id),
        extended.map(|header| header.context_id),
    ];
    format!(" ends={}", ids.map(letter).join(","))
}

fn item(bytes: &[u8], message: &Message, used: usize, why: bool) -> String {
    let header = &message.header;
    let stored = message.storage_header.map_or("-".to_string(), |stored| {
        format!("{},{},.{},skip{}", stored.seconds, stored.microseconds, shown(bytes, stored.ecu_id), stored.skipped)
    });
    format!(
        "0 item used={used} sh={stored} ver={} end={} ctr={} plen={} ecu={} ses={} ts={} ext={} pay={}",
        header.version,
        if header.big_endian { "B" } else { "L" },
        header.message_counter,
        header.payload_length,
        labelled(bytes, header.ecu_id),
        or_dash(header.session_id),
        or_dash(header.timestamp),
        message.extended_header.map_or("-".to_string(), |header| extended(bytes, &header)),
        payload(bytes, message, used, why),
    )
}

fn extended(bytes: &[u8], header: &ExtendedHeader) -> String {
    let kind = match header.message_type {
        MessageType::Log(n) => format!("log:{n}"),
        MessageType::ApplicationTrace(n) => format!("app:{n}"),
        MessageType::NetworkTrace(n) => format!("net:{n}"),
        MessageType::Control(n) => format!("ctl:{n}"),
        MessageType::Unknown(kind, n) => format!("unk:{kind}:{n}"),
    };
    let (application, context) = (shown(bytes, header.application_id), shown(bytes, header.context_id));
    format!("v{},n{},{kind},.{application},.{context}", u8::from(header.verbose), header.argument_count)
}

fn payload(bytes: &[u8], message: &Message, end: usize, why: bool) -> String {
    match message.payload {
        Payload::NonVerbose { id, rest } => format!("N({id}){}", run(bytes, rest)),
        Payload::Control { id, rest } => format!("C({id}){}", run(bytes, rest)),
        Payload::Verbose(list) => {
            let all = arguments(bytes, list).map(|one| one.map_or_else(refusal, |one| argument(bytes, &one, why)));
            format!("V({}-{end}){}", list.at, all.collect::<String>())
        }
        Payload::NetworkTrace(trace) => {
            let all = raw_values(bytes, trace).map(|one| one.map_or_else(refusal, |value| format!("[{}]", run(bytes, value))));
            format!("T({}-{end}){}", trace.at, all.collect::<String>())
        }
    }
}

/// An argument, and with `why` behind it why each of its texts ended.
fn argument(bytes: &[u8], argument: &Argument, why: bool) -> String {
    let line = bare_argument(bytes, argument);
    if !why {
        return line;
    }
    let value = match argument.value {
        Value::String(text) => Some(text),
        _ => None,
    };
    format!("{line}{{{}}}", [argument.name, argument.unit, value].map(letter).join(","))
}

fn bare_argument(bytes: &[u8], argument: &Argument) -> String {
    let info = &argument.type_info;
    let kind = match info.kind {
        Kind::Bool => "Bool".to_string(),
        Kind::Signed(bits) => format!("S{bits}"),
        Kind::SignedFixedPoint(bits) => format!("SX{bits}"),
        Kind::Unsigned(bits) => format!("U{bits}"),
        Kind::UnsignedFixedPoint(bits) => format!("UX{bits}"),
        Kind::Float(bits) => format!("F{bits}"),
        Kind::String => "Str".to_string(),
        Kind::Raw => "Raw".to_string(),
    };
    let point = argument.fixed_point.map_or("-".to_string(), |point| match point.offset {
        Offset::I32(offset) => format!("{:08x},i32:{offset}", point.quantization),
        Offset::I64(offset) => format!("{:08x},i64:{offset}", point.quantization),
    });
    format!(
        "[{}-{} {kind},{},{},{} name={} unit={} fp={point} {}]",
        argument.start,
        argument.end,
        info.coding,
        u8::from(info.has_variable_info),
        u8::from(info.has_trace_info),
        labelled(bytes, argument.name),
        labelled(bytes, argument.unit),
        value(bytes, argument.value),
    )
}

fn value(bytes: &[u8], value: Value) -> String {
    match value {
        Value::Bool(n) => format!("b:{n}"),
        Value::U8(n) => format!("u8:{n}"),
        Value::U16(n) => format!("u16:{n}"),
        Value::U32(n) => format!("u32:{n}"),
        Value::U64(n) => format!("u64:{n}"),
        Value::U128(n) => format!("u128:{n:032x}"),
        Value::I8(n) => format!("i8:{n}"),
        Value::I16(n) => format!("i16:{n}"),
        Value::I32(n) => format!("i32:{n}"),
        Value::I64(n) => format!("i64:{n}"),
        Value::I128(n) => format!("i128:{n:032x}"),
        Value::F32(x) => format!("f32:{:08x}", x.to_bits()),
        Value::F64(x) => format!("f64:{:016x}", x.to_bits()),
        Value::String(text) => format!("s:{}", shown(bytes, text)),
        Value::Raw(raw) => format!("r:{}", run(bytes, raw)),
    }
}

/// The answer to `fwd`.
pub fn fwd(bytes: &[u8]) -> String {
    forward_to_next_storage_header(bytes, 0).map_or("0 none".to_string(), |place| format!("0 drop={place}"))
}

/// The answer to `consume`.
pub fn consume(bytes: &[u8]) -> String {
    match consume_msg(bytes) {
        Ok((count, used)) => format!("0 used={used} count={}", or_dash(count)),
        Err(no) => refusal(no),
    }
}

/// The answer to `args`, or with `why` to `why args`.
pub fn args(big: bool, words: &[u32], data: &[u8], why: bool) -> String {
    match construct_arguments(big, words, data) {
        Err(no) => refusal(no),
        Ok((count, used)) => {
            let all: Vec<String> = signals(big, words, data).map(|one| one.map_or_else(refusal, |one| argument(data, &one, why))).collect();
            if all.len() != count {
                return format!("{count} counted, {} handed out", all.len());
            }
            format!("0 used={used} {}", all.concat())
        }
    }
}

/// The answer to `index`, over a fresh table of `cap` entries. Only with a limit does it tell how many were taken.
pub fn index(cap: usize, at: usize, used: usize, filter: &[u8], bytes: &[u8], limit: Option<usize>) -> String {
    use crate::{End, IndexRefusal, Indexed, NO_LIMIT};
    let mut table = vec![crate::Entry::default(); cap];
    let state = crate::State { at, used };
    let dash = || "-".to_string();
    let (number, after, taken, need) = match crate::index(bytes, filter, state, &mut table, limit.unwrap_or(NO_LIMIT)) {
        Ok(Indexed { state, taken, end: End::Waits(need) }) => (0, state, taken, need.to_string()),
        Ok(Indexed { state, taken, end: End::Full }) => (7, state, taken, dash()),
        Ok(Indexed { state, taken, end: End::Paused }) => (8, state, taken, dash()),
        Err(IndexRefusal::BadFilter) => (1, state, 0, dash()),
        Err(IndexRefusal::RetiredTag) => (13, state, 0, dash()),
        Err(IndexRefusal::BadState) => (5, state, 0, dash()),
        Err(IndexRefusal::TooLong) => (6, state, 0, dash()),
    };
    let mut line = format!("{number} resume={} used={} need={need}", after.at, after.used);
    if limit.is_some() {
        line += &format!(" taken={taken}");
    }
    for entry in table.iter().take(after.used).skip(used) {
        line += &format!(" ({})", entry_text(entry));
    }
    line
}

/// An entry as the listing shows it.
pub fn entry_text(entry: &crate::Entry) -> String {
    let kind = match entry.kind() {
        crate::EntryKind::Item => "item",
        crate::EntryKind::Filtered => "filtered",
        crate::EntryKind::Hickup => "hickup",
        crate::EntryKind::Unrecoverable => "unrecoverable",
        crate::EntryKind::Overrun => "overrun",
    };
    format!("{} {} {} {kind}", entry.start, entry.skipped, entry.length)
}

/// The answer to a request line of one of these kinds; None for any other line.
pub fn answer(line: &str) -> Option<String> {
    let words: Vec<&str> = line.split(' ').collect();
    let (why, words) = match words[..] {
        ["why", ref words @ ..] => (true, words),
        ref words => (false, words),
    };
    match *words {
        ["msg", storage @ ("0" | "1"), filter, bytes] => Some(msg(storage == "1", &hex(filter)?, &hex(bytes)?, why)),
        ["args", order @ ("L" | "l" | "B" | "b"), words, data] => Some(args(order.eq_ignore_ascii_case("b"), &hex_words(words)?, &hex(data)?, why)),
        // the other requests aren't asked why
        _ if why => None,
        ["fwd", bytes] => Some(fwd(&hex(bytes)?)),
        ["consume", bytes] => Some(consume(&hex(bytes)?)),
        ["index", cap, at, used, filter, bytes, ref limit @ ..] if limit.len() <= 1 => {
            let number = |word: &str| word.parse::<usize>().ok();
            let limit = limit.first().map(|word| number(word).ok_or(())).transpose().ok()?;
            Some(index(number(cap).filter(|cap| *cap <= 4096)?, number(at)?, number(used)?, &hex(filter)?, &hex(bytes)?, limit))
        }
        _ => None,
    }
}

fn hex(word: &str) -> Option<Vec<u8>> {
    if word == "-" {
        return Some(Vec::new());
    }
    if word.is_empty() || word.len() % 2 == 1 || !word.bytes().all(|b| b.is_ascii_hexdigit()) {
        return None;
    }
    (0..word.len()).step_by(2).map(|i| u8::from_str_radix(&word[i..i + 2], 16).ok()).collect()
}

fn hex_words(word: &str) -> Option<Vec<u32>> {
    if word == "-" {
        return Some(Vec::new());
    }
    let good = |w: &&str| (1..=8).contains(&w.len()) && w.bytes().all(|b| b.is_ascii_hexdigit());
    word.split(',').map(|w| Some(w).filter(good).and_then(|w| u32::from_str_radix(w, 16).ok())).collect()
}
