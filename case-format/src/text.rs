//! How the format writes texts and small values.

use std::fmt::Display;

use crate::words::Verdict;

/// A TEXT: in double quotes, with `\"`, `\\` and `\xHH` as its only escapes, hexadecimal digits in capitals.
///
/// ```
/// assert_eq!(case_format::text::quoted(b"a\"b\\\n\x7F"), r#""a\"b\\\x0A\x7F""#);
/// ```
pub fn quoted(text: &[u8]) -> String {
    let mut quoted = String::with_capacity(text.len() + 2);
    quoted.push('"');
    for &byte in text {
        match byte {
            b'"' | b'\\' => quoted.extend(['\\', char::from(byte)]),
            0x20..=0x7E => quoted.push(char::from(byte)),
            _ => quoted += &format!("\\x{byte:02X}"),
        }
    }
    quoted.push('"');
    quoted
}

/// The value, and `-` where there is none.
pub fn or_dash(value: Option<impl Display>) -> String {
    value.map_or_else(|| "-".to_string(), |value| value.to_string())
}

/// `On` or `Off`.
pub fn on_off(on: bool) -> &'static str {
    if on {
        "On"
    } else {
        "Off"
    }
}

/// `yes` or `no`.
pub fn yes_no(yes: bool) -> &'static str {
    if yes {
        "yes"
    } else {
        "no"
    }
}

/// `START-END`.
pub fn range((start, end): &(u64, u64)) -> String {
    format!("{start}-{end}")
}

/// A visit: index and verdict.
pub fn visit((index, verdict): &(u64, Verdict)) -> String {
    format!("{index}:{verdict}")
}

/// A data entry: id or `-`, and rule index.
pub fn data((id, index): &(Option<u64>, u64)) -> String {
    format!("{}@{index}", or_dash(*id))
}

/// A target: rule id and target.
pub fn target((id, target): &(Vec<u8>, Vec<u8>)) -> String {
    format!("{};{}", quoted(id), quoted(target))
}

/// A line of a word and the entries after it; the word alone where there are none.
pub(crate) fn list<T>(
    word: &str,
    entries: impl IntoIterator<Item = T>,
    print: impl Fn(T) -> String,
) -> String {
    let mut line = word.to_string();
    for entry in entries {
        line.push(' ');
        line += &print(entry);
    }
    line
}
