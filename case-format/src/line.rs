//! One line: words, numbers and texts with one blank between them.

/// Why a line can't be read.
pub type Reason = String;

/// What is left of a line. None at its end; otherwise another word must follow.
pub(crate) struct Line<'a> {
    rest: Option<&'a [u8]>,
}

impl<'a> Line<'a> {
    pub(crate) fn new(line: &'a [u8]) -> Self {
        Self { rest: Some(line) }
    }

    /// The next word.
    pub(crate) fn word(&mut self) -> Result<&'a str, Reason> {
        let rest = self.rest.take().ok_or("a word is missing at the end")?;
        let length = rest.iter().position(|&byte| byte == b' ');
        let word = &rest[..length.unwrap_or(rest.len())];
        self.rest = length.map(|length| &rest[length + 1..]);
        if word.is_empty() {
            return Err("one blank stands between two words, and none at the end".into());
        }
        std::str::from_utf8(word).map_err(|_| "a word is no plain text".into())
    }

    /// The next word, which must be one of a few.
    pub(crate) fn one_of<T>(
        &mut self,
        from_word: fn(&str) -> Option<T>,
        wanted: &str,
    ) -> Result<T, Reason> {
        from_word(self.word()?).ok_or_else(|| wanted.to_string())
    }

    /// The next word, a number of digits only.
    pub(crate) fn number(&mut self) -> Result<u64, Reason> {
        number(self.word()?)
    }

    /// The next word, a text in double quotes.
    pub(crate) fn text(&mut self) -> Result<Vec<u8>, Reason> {
        let rest = self.rest.take().ok_or("a text is missing at the end")?;
        let mut bytes = rest.strip_prefix(b"\"").ok_or("a text begins with \"")?;
        let mut text = Vec::new();
        while let (Some(byte), after) = text_byte(bytes)? {
            text.push(byte);
            bytes = after;
        }
        self.rest = match bytes {
            [_, b' ', rest @ ..] => Some(rest),
            [_] => None,
            _ => return Err("a blank or the line's end follows a text".into()),
        };
        Ok(text)
    }

    /// Nothing may be left.
    pub(crate) fn end(&self) -> Result<(), Reason> {
        match self.rest {
            None => Ok(()),
            Some(_) => Err("the line goes on where it should end".into()),
        }
    }
}

/// A number of digits only.
pub(crate) fn number(word: &str) -> Result<u64, Reason> {
    if !word.bytes().all(|byte| byte.is_ascii_digit()) {
        return Err(format!("{word} is no number"));
    }
    let above = |_| format!("{word} is above {}", u64::MAX);
    word.parse().map_err(above)
}

/// The next byte of a text, none at its closing quote, and what stands after it. The closing quote is left.
fn text_byte(bytes: &[u8]) -> Result<(Option<u8>, &[u8]), Reason> {
    match bytes {
        [b'"', ..] => Ok((None, bytes)),
        [b'\\', byte @ (b'"' | b'\\'), rest @ ..] => Ok((Some(*byte), rest)),
        [b'\\', b'x', high, low, rest @ ..] => Ok((Some(hex(*high)? * 16 + hex(*low)?), rest)),
        [b'\\', ..] => Err("a backslash begins \\\", \\\\ or \\xHH".into()),
        [byte, rest @ ..] => Ok((Some(*byte), rest)),
        [] => Err("a text ends with \"".into()),
    }
}

fn hex(digit: u8) -> Result<u8, Reason> {
    let value = char::from(digit).to_digit(16);
    let value = value.ok_or("\\x stands before two hexadecimal digits")?;
    Ok(value as u8)
}
