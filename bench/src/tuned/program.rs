//! What the program of document 01 prints for a plan text and a steps text.

use super::listing::{Writer, LONGEST};
use super::step::Step;
use super::steps::MOST_STEPS;
use super::text::Refused;
use super::{plan, steps, Node};

/// Answers the length of what is printed.
#[inline(never)]
pub fn simulate(plan_text: &[u8], steps_text: &[u8], out: &mut [u8; LONGEST]) -> usize {
    let mut writer = Writer { out, length: 0 };
    let mut node = Node::EMPTY;
    if let Err(refused) = plan::load(plan_text, &mut node) {
        writer.refusal(b"load=", refused);
        return writer.length;
    }
    let mut row = [Step::Run(0); MOST_STEPS];
    match steps::read(steps_text, &mut row) {
        Err(refused) => writer.refusal(b"steps=", refused),
        Ok(count) => {
            let (accepted, refusal) = node.play(&row[..count]);
            writer.number_line(b"accepted=", accepted as u32);
            writer.number_line(b"refused=", u32::from(refusal));
            writer.node(&node);
        }
    }
    writer.length
}

impl Writer<'_> {
    fn refusal(&mut self, key: &[u8], refused: Refused) {
        self.text(key);
        self.number(u32::from(refused.number));
        self.number_line(b",", refused.line as u32);
    }
}
