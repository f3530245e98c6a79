//! Reading a steps text into steps.

use super::step::Step;
use super::text::{Malformed, Reader, Refused};

const MOST_BYTES: usize = 61_440;
pub const MOST_STEPS: usize = 4096;

const MALFORMED: u8 = 15;
/// Of a steps text and of a row of steps.
pub const TOO_LONG: u8 = 32;

/// The steps go to the front of `steps`; answers how many there are.
#[inline(never)]
pub fn read(text: &[u8], steps: &mut [Step; MOST_STEPS]) -> Result<usize, Refused> {
    let too_long = Refused { number: TOO_LONG, line: 0 };
    if text.len() > MOST_BYTES {
        return Err(too_long);
    }
    let mut reader = Reader { rest: text };
    let mut count = 0;
    while !reader.rest.is_empty() {
        let step = read_step(&mut reader).map_err(|_| Refused { number: MALFORMED, line: count + 1 })?;
        if let Some(place) = steps.get_mut(count) {
            *place = step;
        }
        count += 1;
    }
    if count > MOST_STEPS {
        return Err(too_long);
    }
    Ok(count)
}

#[inline]
fn read_step(reader: &mut Reader) -> Result<Step, Malformed> {
    let step = if reader.expect(b"run=").is_ok() {
        Step::Run(process(reader)?)
    } else if reader.expect(b"arrive=").is_ok() {
        let to = process(reader)?;
        reader.expect(b",")?;
        Step::Arrive { to, from: process(reader)? }
    } else {
        reader.expect(b"timeout=")?;
        Step::Timeout(process(reader)?)
    };
    reader.expect(b"\n")?;
    Ok(step)
}

#[inline]
fn process(reader: &mut Reader) -> Result<u8, Malformed> {
    u8::try_from(reader.number()?).map_err(|_| Malformed)
}
