//! Arguments: those of a message and those made by `construct_arguments`.
//!
//! The layout of an argument is counted here once more (derived from dlt_argument
//! in dlt-core's src/parse.rs, Apache-2.0) because the crate hands back no places.

use crate::dlt::{
    Argument, Endianness, FixedPoint, FixedPointValue, FloatWidth, StringCoding, TypeInfo, TypeInfoKind, TypeLength,
    Value,
};
use crate::parse::{construct_arguments, dlt_argument, DltParseError};
use crate::text::{disagree, ended, expect, guarded, refusal, text, used, Line};
use byteorder::{BigEndian, LittleEndian};
use std::convert::TryFrom;

/// An argument that begins and ends at two places.
type Ranged = ((usize, usize), Argument);

/// What `construct_arguments` answers.
type Signals<'a> = Result<(&'a [u8], Vec<Argument>), DltParseError>;

/// Where the parts of an argument stand, as far as it has them.
#[derive(Default)]
struct Places {
    name: usize,
    name_size: usize,
    unit: usize,
    unit_size: usize,
    fixed_point: usize,
    value: usize,
    end: usize,
}

/// A number of 16 bits, for sizes. Past the end it is 0, and the end won't fit.
fn size_at(all: &[u8], big: bool, at: usize) -> usize {
    match all.get(at..at + 2) {
        Some(&[a, b]) if big => usize::from(u16::from_be_bytes([a, b])),
        Some(&[a, b]) => usize::from(u16::from_le_bytes([a, b])),
        _ => 0,
    }
}

/// The bytes at a place, the most significant first.
fn number_at(all: &[u8], big: bool, at: usize, width: usize) -> Result<Vec<u8>, String> {
    let Some(bytes) = all.get(at..at + width) else {
        return disagree("a number");
    };
    let mut bytes = bytes.to_vec();
    if !big {
        bytes.reverse();
    }
    Ok(bytes)
}

fn bits32(all: &[u8], big: bool, at: usize) -> Result<u32, String> {
    Ok(number_at(all, big, at, 4)?.iter().fold(0, |n, &b| n << 8 | u32::from(b)))
}

fn bits64(all: &[u8], big: bool, at: usize) -> Result<u64, String> {
    Ok(number_at(all, big, at, 8)?.iter().fold(0, |n, &b| n << 8 | u64::from(b)))
}

/// Places in a message's argument that begins at `from`.
fn places_in_message(all: &[u8], big: bool, from: usize, info: &TypeInfo) -> Places {
    let at = from + 4;
    match info.kind {
        TypeInfoKind::Bool => after_name(all, big, at, info, 1),
        TypeInfoKind::StringType | TypeInfoKind::Raw => after_name(all, big, at + 2, info, size_at(all, big, at)),
        TypeInfoKind::Signed(width) | TypeInfoKind::Unsigned(width) => {
            after_both(all, big, at, info, 0, bytes_of(width))
        }
        TypeInfoKind::Float(width) => after_both(all, big, at, info, 0, bytes_of_float(width)),
        TypeInfoKind::SignedFixedPoint(width) | TypeInfoKind::UnsignedFixedPoint(width) => {
            after_both(all, big, at, info, 4 + bytes_of_float(width), bytes_of_float(width))
        }
    }
}

/// A name, if there is one, then a value of `width` bytes.
fn after_name(all: &[u8], big: bool, at: usize, info: &TypeInfo, width: usize) -> Places {
    let name = at + 2;
    let name_size = size_at(all, big, at);
    let value = if info.has_variable_info { name + name_size } else { at };
    Places { name, name_size, value, end: value + width, ..Places::default() }
}

/// Name and unit, if they are there, a fixed point of `scale` bytes, then a value of `width` bytes.
fn after_both(all: &[u8], big: bool, at: usize, info: &TypeInfo, scale: usize, width: usize) -> Places {
    let name = at + 4;
    let (name_size, unit_size) = (size_at(all, big, at), size_at(all, big, at + 2));
    let unit = name + name_size;
    let fixed_point = if info.has_variable_info { unit + unit_size } else { at };
    let value = fixed_point + scale;
    Places { name, name_size, unit, unit_size, fixed_point, value, end: value + width }
}

/// Places in a signal that begins at `from`: a size before strings and raw data, no names.
fn places_in_signal(all: &[u8], big: bool, from: usize, info: &TypeInfo) -> Places {
    let (value, width) = match info.kind {
        TypeInfoKind::StringType | TypeInfoKind::Raw => (from + 2, size_at(all, big, from)),
        TypeInfoKind::Bool => (from, 1),
        _ => (from, info.type_width() / 8),
    };
    Places { value, end: value + width, ..Places::default() }
}

fn bytes_of(width: TypeLength) -> usize {
    width as usize / 8
}

fn bytes_of_float(width: FloatWidth) -> usize {
    width as usize / 8
}

/// `KIND,CODING,VARINFO,TRACEINFO`
pub fn type_info(info: &TypeInfo) -> String {
    let coding = match info.coding {
        StringCoding::ASCII => 0,
        StringCoding::UTF8 => 1,
        StringCoding::Reserved(n) => n,
    };
    format!("{},{coding},{},{}", kind(&info.kind), u8::from(info.has_variable_info), u8::from(info.has_trace_info))
}

fn kind(kind: &TypeInfoKind) -> String {
    match *kind {
        TypeInfoKind::Bool => "Bool".to_string(),
        TypeInfoKind::Signed(width) => format!("S{}", width as usize),
        TypeInfoKind::SignedFixedPoint(width) => format!("SX{}", width as usize),
        TypeInfoKind::Unsigned(width) => format!("U{}", width as usize),
        TypeInfoKind::UnsignedFixedPoint(width) => format!("UX{}", width as usize),
        TypeInfoKind::Float(width) => format!("F{}", width as usize),
        TypeInfoKind::StringType => "Str".to_string(),
        TypeInfoKind::Raw => "Raw".to_string(),
    }
}

/// One argument of a message, that begins at `from` and ends at `to`.
fn argument(all: &[u8], big: bool, (from, to): (usize, usize), argument: &Argument) -> Line {
    let places = places_in_message(all, big, from, &argument.type_info);
    print(all, big, (from, to), argument, &places)
}

fn print(all: &[u8], big: bool, (from, to): (usize, usize), argument: &Argument, places: &Places) -> Line {
    expect(places.end == to, "an argument's end")?;
    let name = label(all, places.name, &argument.name)?;
    let unit = label(all, places.unit, &argument.unit)?;
    let fixed_point = match &argument.fixed_point {
        Some(point) => fixed_point(all, big, places.fixed_point, point)?,
        None => "-".to_string(),
    };
    let value = value(all, big, places.value, &argument.value)?;
    Ok(format!("[{from}-{to} {} name={name} unit={unit} fp={fixed_point} {value}]", type_info(&argument.type_info)))
}

/// `{NAME,UNIT,VALUE}`: why each text of a message's argument ended.
fn ends(all: &[u8], big: bool, from: usize, argument: &Argument) -> Line {
    let places = places_in_message(all, big, from, &argument.type_info);
    let name = label_ended(all, places.name, places.name_size, &argument.name)?;
    let unit = label_ended(all, places.unit, places.unit_size, &argument.unit)?;
    let value = match &argument.value {
        Value::StringVal(words) => ended(all, places.value, places.end - places.value, words)?,
        _ => '-',
    };
    Ok(format!("{{{name},{unit},{value}}}"))
}

/// Why a label of some size ended, or `-`.
pub fn label_ended(all: &[u8], at: usize, size: usize, label: &Option<String>) -> Result<char, String> {
    match label {
        Some(words) => ended(all, at, size, words),
        None => Ok('-'),
    }
}

/// The same of a signal: a string has all the bytes of its size, zero bytes too, and there are no names.
fn ends_of_signal(argument: &Argument, places: &Places) -> Line {
    expect(argument.name.is_none() && argument.unit.is_none(), "a signal's name")?;
    match &argument.value {
        Value::StringVal(words) => {
            expect(words.len() == places.end - places.value, "a signal string's size")?;
            Ok("{-,-,s}".to_string())
        }
        _ => Ok("{-,-,-}".to_string()),
    }
}

/// `.TEXT` or `-`.
pub fn label(all: &[u8], at: usize, label: &Option<String>) -> Line {
    match label {
        Some(words) => Ok(format!(".{}", text(all, at, words.as_bytes())?)),
        None => Ok("-".to_string()),
    }
}

/// A float's bits are taken from the bytes, since moving a float could change a
/// not-a-number; the crate's float must agree with them.
fn same_float32(bits: u32, value: f32) -> Result<(), String> {
    expect(value.to_bits() == bits || (value.is_nan() && f32::from_bits(bits).is_nan()), "a float")
}

fn same_float64(bits: u64, value: f64) -> Result<(), String> {
    expect(value.to_bits() == bits || (value.is_nan() && f64::from_bits(bits).is_nan()), "a float")
}

fn fixed_point(all: &[u8], big: bool, at: usize, point: &FixedPoint) -> Line {
    let bits = bits32(all, big, at)?;
    same_float32(bits, point.quantization)?;
    Ok(match point.offset {
        FixedPointValue::I32(offset) => format!("{bits:08x},i32:{offset}"),
        FixedPointValue::I64(offset) => format!("{bits:08x},i64:{offset}"),
    })
}

fn value(all: &[u8], big: bool, at: usize, value: &Value) -> Line {
    Ok(match value {
        Value::Bool(n) => format!("b:{n}"),
        Value::U8(n) => format!("u8:{n}"),
        Value::U16(n) => format!("u16:{n}"),
        Value::U32(n) => format!("u32:{n}"),
        Value::U64(n) => format!("u64:{n}"),
        Value::U128(n) => format!("u128:{n:032x}"),
        Value::I8(n) => format!("i8:{n}"),
        Value::I16(n) => format!("i16:{n}"),
        Value::I32(n) => format!("i32:{n}"),
        Value::I64(n) => format!("i64:{n}"),
        Value::I128(n) => format!("i128:{n:032x}"),
        Value::F32(n) => {
            let bits = bits32(all, big, at)?;
            same_float32(bits, *n)?;
            format!("f32:{bits:08x}")
        }
        Value::F64(n) => {
            let bits = bits64(all, big, at)?;
            same_float64(bits, *n)?;
            format!("f64:{bits:016x}")
        }
        Value::StringVal(words) => format!("s:{}", text(all, at, words.as_bytes())?),
        Value::Raw(bytes) => format!("r:{}", text(all, at, bytes)?),
    })
}

/// Range and value of each of `count` arguments from `at` on, by the crate's own reader.
fn read_each(all: &[u8], big: bool, at: usize, count: u8) -> Result<Vec<Ranged>, String> {
    let mut from = at;
    let mut each = Vec::new();
    for _ in 0..count {
        let part = &all[from..];
        let read = guarded(|| if big { dlt_argument::<BigEndian>(part) } else { dlt_argument::<LittleEndian>(part) })?;
        let Ok((rest, argument)) = read else {
            return disagree("an argument that the crate read");
        };
        let to = used(all, rest)?;
        each.push(((from, to), argument));
        from = to;
    }
    Ok(each)
}

/// `(FROM-TO)` and the arguments that the crate answered for a message, with `why` each one's ends behind it.
pub fn verbose(
    all: &[u8],
    big: bool,
    at: usize,
    count: u8,
    answered: &[Argument],
    why: bool,
) -> Result<(usize, String), String> {
    let each = read_each(all, big, at, count)?;
    expect(each.len() == answered.len(), "the number of arguments")?;
    let end = each.last().map_or(at, |&((_, to), _)| to);
    let mut line = format!("V({at}-{end})");
    for ((range, again), first) in each.iter().zip(answered) {
        let printed = argument(all, big, *range, first)?;
        expect(printed == argument(all, big, *range, again)?, "an argument")?;
        line.push_str(&printed);
        if why {
            line.push_str(&ends(all, big, range.0, first)?);
        }
    }
    Ok((end, line))
}

/// `(FROM-TO)` and the raw values that the crate answered for a network trace.
pub fn network_trace(
    all: &[u8],
    big: bool,
    at: usize,
    count: u8,
    answered: &[Vec<u8>],
) -> Result<(usize, String), String> {
    let each = read_each(all, big, at, count)?;
    let end = each.last().map_or(at, |&((_, to), _)| to);
    let mut line = format!("T({at}-{end})");
    let mut slices = answered.iter();
    for ((from, to), argument) in &each {
        if let Value::Raw(_) = argument.value {
            let Some(slice) = slices.next() else {
                return disagree("a raw value");
            };
            let places = places_in_message(all, big, *from, &argument.type_info);
            expect(places.end == *to && places.value + slice.len() == *to, "a raw value")?;
            line.push_str(&format!("[{}]", text(all, places.value, slice)?));
        }
    }
    expect(slices.next().is_none(), "a raw value")?;
    Ok((end, line))
}

fn signals<'a>(big: bool, infos: &[TypeInfo], data: &'a [u8]) -> Result<Signals<'a>, String> {
    let order = if big { Endianness::Big } else { Endianness::Little };
    guarded(|| construct_arguments(order, infos, data))
}

/// The answer to `args`. A word that doesn't decode counts only when it is reached,
/// so the crate is asked for all the words before it.
pub fn answer(big: bool, words: &[u32], data: &[u8], why: bool) -> Line {
    let infos: Vec<TypeInfo> = words.iter().map_while(|&word| TypeInfo::try_from(word).ok()).collect();
    match signals(big, &infos, data)? {
        Err(error) => refusal(&error),
        Ok(_) if infos.len() < words.len() => Ok("3 2".to_string()),
        Ok((rest, arguments)) => print_signals(big, data, used(data, rest)?, &arguments, why),
    }
}

fn print_signals(big: bool, data: &[u8], end: usize, arguments: &[Argument], why: bool) -> Line {
    let mut line = format!("used={end} ");
    let mut from = 0;
    for argument in arguments {
        let info = std::slice::from_ref(&argument.type_info);
        let Ok((rest, again)) = signals(big, info, &data[from..])? else {
            return disagree("a signal that the crate read");
        };
        let to = used(data, rest)?;
        let places = places_in_signal(data, big, from, &argument.type_info);
        let printed = print(data, big, (from, to), argument, &places)?;
        expect(printed == print(data, big, (from, to), &again[0], &places)?, "a signal")?;
        line.push_str(&printed);
        if why {
            line.push_str(&ends_of_signal(argument, &places)?);
        }
        from = to;
    }
    expect(from == end, "the end of the signals")?;
    Ok(format!("0 {line}"))
}
