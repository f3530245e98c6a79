//! What plan text and steps text have in common: lines, the form of a number, a refused text.

/// A refused text: the refusal's number and the line that is told.
#[derive(Clone, Copy, Debug, PartialEq, Eq)]
pub struct Refused {
    pub number: u8,
    pub line: usize,
}

/// The lines that byte 10 ends, without that byte, and what stands behind the last byte 10.
pub fn split_lines(text: &[u8]) -> (Vec<&[u8]>, &[u8]) {
    let mut lines: Vec<&[u8]> = text.split(|&byte| byte == 10).collect();
    let rest = lines.pop().unwrap_or(&[]);
    (lines, rest)
}

/// The value behind `key=`, if the line begins so.
pub fn value_of<'a>(line: &'a [u8], key: &str) -> Option<&'a [u8]> {
    line.strip_prefix(key.as_bytes())?.strip_prefix(b"=")
}

/// The parts of a value between its commas; a value without a comma is one part.
pub fn parts(value: &[u8]) -> Vec<&[u8]> {
    value.split(|&byte| byte == b',').collect()
}

/// "Numbers have no plus, leading zero or -0": the number, or None when the form is wrong.
/// A number of any length has a form; one of more than 18 digits is told as the largest or the
/// smallest i64, which is out of every range of the document.
pub fn number(text: &[u8]) -> Option<i64> {
    let (negative, digits) = match text.strip_prefix(b"-") {
        Some(digits) => (true, digits),
        None => (false, text),
    };
    if digits.is_empty() || !digits.iter().all(u8::is_ascii_digit) {
        return None;
    }
    if digits[0] == b'0' && (digits.len() > 1 || negative) {
        return None;
    }
    let size = size_of_digits(digits);
    Some(if negative { -size } else { size })
}

fn size_of_digits(digits: &[u8]) -> i64 {
    if digits.len() > 18 {
        return i64::MAX;
    }
    digits
        .iter()
        .fold(0, |size, digit| size * 10 + i64::from(digit - b'0'))
}
