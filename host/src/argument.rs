//! Arguments, handed out one a call.

use crate::{maybe_text, raw, refused, run, text_if, Cursor, RawCursor, Refusal, Run, Text};

/// An argument, and where it stands in the bytes.
#[derive(Clone, Copy, Debug, PartialEq)]
pub struct Argument {
    pub start: usize,
    pub end: usize,
    pub type_info: TypeInfo,
    pub name: Option<Text>,
    pub unit: Option<Text>,
    pub fixed_point: Option<FixedPoint>,
    pub value: Value,
}

/// A type info word.
#[derive(Clone, Copy, Debug, PartialEq, Eq)]
pub struct TypeInfo {
    pub kind: Kind,
    /// 0 ASCII, 1 UTF-8, else reserved.
    pub coding: u8,
    pub has_variable_info: bool,
    pub has_trace_info: bool,
}

/// The kind of an argument, with how many bits a number has.
#[derive(Clone, Copy, Debug, PartialEq, Eq)]
pub enum Kind {
    Bool,
    Signed(u8),
    SignedFixedPoint(u8),
    Unsigned(u8),
    UnsignedFixedPoint(u8),
    Float(u8),
    String,
    Raw,
}

/// A fixed point: the quantization to the bit, and the offset.
#[derive(Clone, Copy, Debug, PartialEq, Eq)]
pub struct FixedPoint {
    pub quantization: u32,
    pub offset: Offset,
}

/// An offset of the value's width.
#[derive(Clone, Copy, Debug, PartialEq, Eq)]
pub enum Offset {
    I32(i32),
    I64(i64),
}

/// A value. A float is kept to the bit, not-a-number included.
#[derive(Clone, Copy, Debug, PartialEq)]
pub enum Value {
    Bool(u8),
    U8(u8),
    U16(u16),
    U32(u32),
    U64(u64),
    U128(u128),
    I8(i8),
    I16(i16),
    I32(i32),
    I64(i64),
    I128(i128),
    F32(f32),
    F64(f64),
    String(Text),
    Raw(Run),
}

/// The arguments of a list, read from the bytes that its message was read from. It ends after a refusal.
///
/// ```
/// // document 01's P12: one bool
/// let bytes = [0x21, 0, 0, 14, 0x41, 1, 0x41, 0x50, 0x50, 0, 0x43, 0x54, 0x58, 0, 0x11, 0, 0, 0, 1];
/// let (parsed, used) = host::message(&bytes, &[], false).unwrap();
/// assert_eq!(used, 19);
/// let host::Parsed::Item(message) = parsed else { panic!() };
/// let host::Payload::Verbose(list) = message.payload else { panic!() };
/// let all: Vec<_> = host::arguments(&bytes, list).map(Result::unwrap).collect();
/// assert_eq!(all.len(), 1);
/// assert_eq!(all[0].value, host::Value::Bool(1));
/// ```
pub fn arguments(bytes: &[u8], list: Cursor) -> Arguments<'_> {
    Arguments { bytes, list, over: false }
}

/// See [`arguments`].
pub struct Arguments<'a> {
    bytes: &'a [u8],
    list: Cursor,
    over: bool,
}

impl Iterator for Arguments<'_> {
    type Item = Result<Argument, Refusal>;

    fn next(&mut self) -> Option<Self::Item> {
        if self.over {
            return None;
        }
        let mut out = [0; raw::ARGUMENT_SIZE];
        let answer = raw::argument(self.bytes, self.list.at, self.list.left, self.list.big_endian, &mut out);
        self.over = answer.number != raw::DONE || answer.value == 0;
        if let Err(refusal) = refused(answer) {
            return Some(Err(refusal));
        }
        self.list.at = out[raw::ARGUMENT_NEXT] as usize;
        self.list.left = out[raw::ARGUMENT_LEFT] as usize;
        (!self.over).then(|| Ok(argument(&out)))
    }
}

/// The raw values of a network trace, read from the bytes that its message was read from. Its other arguments are read and passed over: they are not kept,
/// and [`arguments`] does not take such a list. It ends after a refusal.
///
/// ```
/// // a bool, then three raw bytes
/// let bytes = [0x21, 0, 0, 14, 0x15, 2, 0, 0, 0, 0, 0, 0, 0, 0, 0x11, 0, 0, 0, 1, 0, 4, 0, 0, 3, 0, 7, 8, 9];
/// let (parsed, used) = host::message(&bytes, &[], false).unwrap();
/// assert_eq!(used, 28);
/// let host::Parsed::Item(message) = parsed else { panic!() };
/// let host::Payload::NetworkTrace(trace) = message.payload else { panic!() };
/// let all: Vec<_> = host::raw_values(&bytes, trace).map(|value| value.unwrap().of(&bytes)).collect();
/// assert_eq!(all, [[7, 8, 9]]);
/// ```
///
/// ```compile_fail
/// # let bytes = [0x21, 0, 0, 14, 0x15, 0, 0, 0, 0, 0, 0, 0, 0, 0];
/// # let (host::Parsed::Item(message), _) = host::message(&bytes, &[], false).unwrap() else { panic!() };
/// # let host::Payload::NetworkTrace(trace) = message.payload else { panic!() };
/// host::arguments(&bytes, trace);
/// ```
pub fn raw_values(bytes: &[u8], trace: RawCursor) -> RawValues<'_> {
    RawValues { bytes, trace, over: false }
}

/// See [`raw_values`].
pub struct RawValues<'a> {
    bytes: &'a [u8],
    trace: RawCursor,
    over: bool,
}

impl Iterator for RawValues<'_> {
    type Item = Result<Run, Refusal>;

    fn next(&mut self) -> Option<Self::Item> {
        if self.over {
            return None;
        }
        let mut out = [0; raw::RAW_SIZE];
        let answer = raw::raw_value(self.bytes, self.trace.at, self.trace.left, self.trace.big_endian, &mut out);
        self.over = answer.number != raw::DONE || answer.value == 0;
        if let Err(refusal) = refused(answer) {
            return Some(Err(refusal));
        }
        self.trace.at = out[raw::RAW_NEXT] as usize;
        self.trace.left = out[raw::RAW_LEFT] as usize;
        (!self.over).then(|| Ok(run(&out, raw::RAW_START)))
    }
}

/// The arguments of signal data, one for each type info word. It ends after a refusal.
///
/// ```
/// let all: Vec<_> = host::signals(false, &[0x42], &[0x34, 0x12, 0xFF]).map(Result::unwrap).collect();
/// assert_eq!(all[0].value, host::Value::U16(0x1234));
/// ```
pub fn signals<'a>(big_endian: bool, words: &'a [u32], data: &'a [u8]) -> Signals<'a> {
    Signals { words, data, at: 0, word: 0, big_endian, over: false }
}

/// See [`signals`].
pub struct Signals<'a> {
    words: &'a [u32],
    data: &'a [u8],
    at: usize,
    word: usize,
    big_endian: bool,
    over: bool,
}

impl Iterator for Signals<'_> {
    type Item = Result<Argument, Refusal>;

    fn next(&mut self) -> Option<Self::Item> {
        if self.over {
            return None;
        }
        let mut out = [0; raw::ARGUMENT_SIZE];
        let answer = raw::signal(self.words, self.data, self.at, self.word, self.big_endian, &mut out);
        self.over = answer.number != raw::DONE || answer.value == 0;
        if let Err(refusal) = refused(answer) {
            return Some(Err(refusal));
        }
        self.at = out[raw::ARGUMENT_NEXT] as usize;
        self.word = out[raw::ARGUMENT_LEFT] as usize;
        (!self.over).then(|| Ok(argument(&out)))
    }
}

fn argument(out: &[u64]) -> Argument {
    Argument {
        start: out[raw::ARGUMENT_START] as usize,
        end: out[raw::ARGUMENT_END] as usize,
        type_info: TypeInfo {
            kind: kind(out[raw::ARGUMENT_KIND], out[raw::ARGUMENT_BITS] as u8),
            coding: out[raw::ARGUMENT_CODING] as u8,
            has_variable_info: out[raw::ARGUMENT_VARIABLE_INFO] == 1,
            has_trace_info: out[raw::ARGUMENT_TRACE_INFO] == 1,
        },
        name: maybe_text(out, raw::ARGUMENT_NAME, raw::ARGUMENT_NAME_ENDED),
        unit: maybe_text(out, raw::ARGUMENT_UNIT, raw::ARGUMENT_UNIT_ENDED),
        fixed_point: (out[raw::ARGUMENT_POINT] == 1).then(|| fixed_point(out)),
        value: value(out),
    }
}

fn kind(number: u64, bits: u8) -> Kind {
    match number {
        0 => Kind::Bool,
        1 => Kind::Signed(bits),
        2 => Kind::SignedFixedPoint(bits),
        3 => Kind::Unsigned(bits),
        4 => Kind::UnsignedFixedPoint(bits),
        5 => Kind::Float(bits),
        6 => Kind::String,
        _ => Kind::Raw,
    }
}

fn fixed_point(out: &[u64]) -> FixedPoint {
    let offset = out[raw::ARGUMENT_OFFSET] as i64;
    FixedPoint {
        quantization: out[raw::ARGUMENT_QUANTIZATION] as u32,
        offset: if out[raw::ARGUMENT_OFFSET_BITS] == 32 { Offset::I32(offset as i32) } else { Offset::I64(offset) },
    }
}

fn value(out: &[u64]) -> Value {
    if let Some(text) = text_if(out[raw::ARGUMENT_VALUE] == 13, out, raw::ARGUMENT_FIRST, raw::ARGUMENT_VALUE_ENDED) {
        return Value::String(text);
    }
    let (first, second) = (out[raw::ARGUMENT_FIRST], out[raw::ARGUMENT_SECOND]);
    match out[raw::ARGUMENT_VALUE] {
        0 => Value::Bool(first as u8),
        1 => Value::U8(first as u8),
        2 => Value::U16(first as u16),
        3 => Value::U32(first as u32),
        4 => Value::U64(first),
        5 => Value::U128(u128::from(first) << 64 | u128::from(second)),
        6 => Value::I8(first as i8),
        7 => Value::I16(first as i16),
        8 => Value::I32(first as i32),
        9 => Value::I64(first as i64),
        10 => Value::I128((u128::from(first) << 64 | u128::from(second)) as i128),
        11 => Value::F32(f32::from_bits(first as u32)),
        12 => Value::F64(f64::from_bits(first)),
        _ => Value::Raw(run(out, raw::ARGUMENT_FIRST)),
    }
}
