//! Pieces of answer lines.
//!
//! Where the crate hands back an owned string, its place is found by counting the
//! bytes of the fields before it. What the crate answered must then stand at that
//! place; if it doesn't, the answer line begins with `oracle:` and says so.

use crate::parse::DltParseError;
use std::fmt::Write;
use std::panic::{catch_unwind, AssertUnwindSafe};

/// An answer line. Err is a line too: `panic`, or one that begins with `oracle:`.
pub type Line = Result<String, String>;

/// Calls the crate; a panic of the crate becomes the answer `panic`.
pub fn guarded<T>(call: impl FnOnce() -> T) -> Result<T, String> {
    catch_unwind(AssertUnwindSafe(call)).map_err(|_| "panic".to_string())
}

/// Says that the crate and our counting of places don't agree.
pub fn disagree<T>(what: &str) -> Result<T, String> {
    Err(format!("oracle: {what} is not where it was counted to be"))
}

pub fn expect(holds: bool, what: &str) -> Result<(), String> {
    if holds {
        Ok(())
    } else {
        disagree(what)
    }
}

/// How many bytes of `all` were used, given the rest that the crate handed back.
pub fn used(all: &[u8], rest: &[u8]) -> Result<usize, String> {
    let is_tail = rest.as_ptr_range().end == all.as_ptr_range().end;
    expect(is_tail && rest.len() <= all.len(), "the rest")?;
    Ok(all.len() - rest.len())
}

/// `HEX@PLACE+LENGTH` of a value that must stand at a place.
pub fn text(all: &[u8], at: usize, value: &[u8]) -> Line {
    expect(all.get(at..at + value.len()) == Some(value), "a text")?;
    let mut line = String::with_capacity(2 * value.len() + 12);
    push_hex(&mut line, value);
    let _ = write!(line, "@{at}+{}", value.len());
    Ok(line)
}

/// Why a text of some size ended, by Rust's own reading of UTF-8: `u` if its content isn't all UTF-8, `z` if the content
/// is shorter than the size, else `s`. What the crate answered must be the content, or in the first case less of it.
pub fn ended(all: &[u8], at: usize, size: usize, answered: &str) -> Result<char, String> {
    let Some(bytes) = all.get(at..at + size) else {
        return disagree("a text's size");
    };
    let content = bytes.split(|&byte| byte == 0).next().unwrap_or_default();
    let sound = std::str::from_utf8(content).is_ok();
    expect(content.starts_with(answered.as_bytes()), "a text's content")?;
    expect(sound == (answered.len() == content.len()), "a text's end")?;
    Ok(match sound {
        false => 'u',
        true if content.len() < size => 'z',
        true => 's',
    })
}

pub fn push_hex(line: &mut String, bytes: &[u8]) {
    const DIGITS: &[u8; 16] = b"0123456789abcdef";
    for b in bytes {
        line.push(DIGITS[usize::from(b / 16)] as char);
        line.push(DIGITS[usize::from(b % 16)] as char);
    }
}

/// `-` for an absent field.
pub fn or_dash<T: ToString>(field: Option<T>) -> String {
    field.map_or("-".to_string(), |value| value.to_string())
}

/// Document 01's number and values for an error of the crate.
pub fn refusal(error: &DltParseError) -> Line {
    match error {
        DltParseError::IncompleteParse { needed } => Ok(format!("2 {}", needed.map_or(0, |n| n.get()))),
        DltParseError::ParsingHickup(words) => match hickup_reason(words) {
            Some(reason) => Ok(format!("3 {reason}")),
            None => Err(format!("oracle: hickup without a reason: {words}")),
        },
        DltParseError::Unrecoverable(words) if words.contains("payload too short") => Ok("4".to_string()),
        DltParseError::Unrecoverable(words) => Err(format!("oracle: unrecoverable for another cause: {words}")),
    }
}

/// The reason's number, told by the crate's own words.
fn hickup_reason(words: &str) -> Option<u8> {
    const REASONS: [(&str, u8); 8] = [
        ("Header indecates wrong message length", 1),
        ("dlt_type_info failed to parse", 2),
        ("invalid message type", 3),
        ("Nom error: Tag", 4),
        ("did not match DLT pattern", 4),
        ("Data not long enough", 5),
        ("Could not build string", 6),
        ("Could not read fixed point", 7),
    ];
    REASONS.iter().find(|(cause, _)| words.contains(cause)).map(|&(_, number)| number)
}
