//! A text that is read once from its first byte to its last, and how a text is refused.

/// The number of a refusal and the line that it tells.
#[derive(Clone, Copy, Debug, PartialEq, Eq)]
pub struct Refused {
    pub number: u8,
    pub line: usize,
}

/// A malformed line: 11 in a plan, 15 in a steps text.
pub struct Malformed;

/// The bytes that are still to be read.
pub struct Reader<'a> {
    pub rest: &'a [u8],
}

/// A number that no range of document 01 reaches; longer ones are read as it.
const TOO_LARGE: i64 = 1 << 40;

impl Reader<'_> {
    #[inline]
    pub fn expect(&mut self, text: &[u8]) -> Result<(), Malformed> {
        self.rest = self.rest.strip_prefix(text).ok_or(Malformed)?;
        Ok(())
    }

    /// A number with no plus, leading zero or -0.
    #[inline]
    pub fn number(&mut self) -> Result<i64, Malformed> {
        let minus = self.expect(b"-").is_ok();
        let mut number = self.digit().ok_or(Malformed)?;
        if number == 0 {
            let more = self.digit().is_some();
            return if minus || more { Err(Malformed) } else { Ok(0) };
        }
        while let Some(digit) = self.digit() {
            number = (number * 10 + digit).min(TOO_LARGE);
        }
        Ok(if minus { -number } else { number })
    }

    #[inline]
    fn digit(&mut self) -> Option<i64> {
        let (&byte, rest) = self.rest.split_first()?;
        let digit = byte.wrapping_sub(b'0');
        if digit > 9 {
            return None;
        }
        self.rest = rest;
        Some(i64::from(digit))
    }

    /// The small letters that come next, as `word` makes a number of them.
    #[inline]
    pub fn word(&mut self) -> u64 {
        let mut word = 0;
        while let Some((&byte, rest)) = self.rest.split_first() {
            if !byte.is_ascii_lowercase() {
                break;
            }
            word = with_letter(word, byte);
            self.rest = rest;
        }
        word
    }
}

/// Up to eleven letters as a number that no other word has: no letter is 0 modulo 32, so from the last letter on each can be read again, and
/// that there are no more.
pub const fn word(letters: &[u8]) -> u64 {
    let mut word = 0;
    let mut k = 0;
    while k < letters.len() {
        word = with_letter(word, letters[k]);
        k += 1;
    }
    word
}

#[inline]
const fn with_letter(word: u64, letter: u8) -> u64 {
    (word << 5).wrapping_add(letter as u64)
}
