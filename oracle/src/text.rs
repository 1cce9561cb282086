//! Small pieces of the text lines: words, numbers, lists, hexadecimal bytes, cells of a table.
use std::str::{FromStr, Split};

/// What stands for an empty list, and where there is no number.
const NONE: &str = "-";

const DIGITS: &[u8; 16] = b"0123456789abcdef";

/// The words of a line, parted by one space.
pub(crate) struct Words<'a>(Split<'a, char>);

impl<'a> Words<'a> {
    pub fn new(line: &'a str) -> Self {
        Self(line.split(' '))
    }

    pub fn next(&mut self) -> Result<&'a str, String> {
        self.0.next().ok_or_else(|| "a word is missing".into())
    }

    pub fn end(mut self) -> Result<(), String> {
        match self.0.next() {
            None => Ok(()),
            Some(word) => Err(format!("a word too many: {word}")),
        }
    }
}

pub fn number<T: FromStr>(text: &str) -> Result<T, String> {
    text.parse().map_err(|_| format!("not a number: {text}"))
}

pub fn or_none(number: Option<usize>) -> String {
    number.map_or(NONE.into(), |number| number.to_string())
}

pub fn flag(text: &str) -> Result<bool, String> {
    match text {
        "0" => Ok(false),
        "1" => Ok(true),
        _ => Err(format!("neither 0 nor 1: {text}")),
    }
}

/// The members of a list that is parted by commas.
pub fn list(text: &str) -> impl Iterator<Item = &str> {
    text.split(',').filter(move |_| text != NONE)
}

/// The texts, parted by a separator.
pub fn joined(texts: impl Iterator<Item = String>, separator: &str) -> String {
    let texts: Vec<String> = texts.collect();
    if texts.is_empty() {
        return NONE.into();
    }
    texts.join(separator)
}

/// The cells of a line of a table in a paper, as `| 3 | words |`.
pub(crate) fn cells(line: &str) -> Option<impl Iterator<Item = &str>> {
    Some(line.strip_prefix('|')?.split('|').map(str::trim))
}

pub fn hex(bytes: &[u8]) -> String {
    if bytes.is_empty() {
        return NONE.into();
    }
    let digits = bytes.iter().flat_map(|byte| [byte >> 4, byte & 15]);
    digits
        .map(|digit| char::from(DIGITS[usize::from(digit)]))
        .collect()
}

pub fn unhex(text: &str) -> Result<Vec<u8>, String> {
    if text == NONE {
        return Ok(Vec::new());
    }
    if !text.len().is_multiple_of(2) {
        return Err("an odd number of hexadecimal digits".into());
    }
    text.as_bytes().chunks(2).map(byte).collect()
}

fn byte(pair: &[u8]) -> Result<u8, String> {
    Ok(digit(pair[0])? << 4 | digit(pair[1])?)
}

fn digit(text: u8) -> Result<u8, String> {
    match text {
        b'0'..=b'9' => Ok(text - b'0'),
        b'a'..=b'f' => Ok(text - b'a' + 10),
        _ => Err("not a lowercase hexadecimal digit".into()),
    }
}
