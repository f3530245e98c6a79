//! A safe wrapper of the proved library. The texts may be any bytes.

extern "C" {
    fn open_controller_simulate(
        plan: *const u8,
        plan_length: usize,
        steps: *const u8,
        steps_length: usize,
        out: *mut u8,
        out_length: usize,
    ) -> usize;

    fn open_controller_write_plan(
        behaviours_plan: *const u8,
        behaviours_plan_length: usize,
        starts_plan: *const u8,
        starts_plan_length: usize,
        out: *mut u8,
        out_length: usize,
    ) -> usize;

    fn open_controller_suggest(plan: *const u8, plan_length: usize, steps: *const u8, steps_length: usize) -> usize;

    fn open_controller_consulted(
        plan: *const u8,
        plan_length: usize,
        steps: *const u8,
        steps_length: usize,
        process: usize,
    ) -> usize;
}

/// What the calls that write answer for refusals 30 and 31.
const SHORT: usize = usize::MAX;
const UNSOUND: usize = usize::MAX - 1;

/// Enough for every answer.
pub const OUTPUT: usize = 45_056;

/// The buffer is shorter than what is to be written (refusal 30); it is unchanged.
#[derive(Debug, PartialEq, Eq, Clone, Copy)]
pub struct Short;

/// What the program prints for a plan text and a steps text, in the first bytes of `out`; answers its length.
pub fn simulate(plan: &[u8], steps: &[u8], out: &mut [u8]) -> Result<usize, Short> {
    // A slice's pointer is valid for its length and never null, and `out` is borrowed alone.
    let length = unsafe {
        open_controller_simulate(plan.as_ptr(), plan.len(), steps.as_ptr(), steps.len(), out.as_mut_ptr(), out.len())
    };
    if length == SHORT {
        return Err(Short);
    }
    Ok(length)
}

/// Enough for every plan that is written back.
pub const PLAN_OUTPUT: usize = 8192;

/// Why no plan was written; the buffer is unchanged.
#[derive(Debug, PartialEq, Eq, Clone, Copy)]
pub enum NotWritten {
    /// One of the two texts is refused.
    Refused,
    /// A start names a behaviour that the plan does not have, so no accepted text holds both (refusal 31).
    Unsound,
    /// The buffer is shorter than what is to be written (refusal 30).
    Short,
}

/// The behaviours of one plan text with the starts of another as plan text, in the first bytes of `out`; answers its length.
pub fn write_plan(behaviours_plan: &[u8], starts_plan: &[u8], out: &mut [u8]) -> Result<usize, NotWritten> {
    // A slice's pointer is valid for its length and never null, and `out` is borrowed alone.
    let length = unsafe {
        open_controller_write_plan(
            behaviours_plan.as_ptr(),
            behaviours_plan.len(),
            starts_plan.as_ptr(),
            starts_plan.len(),
            out.as_mut_ptr(),
            out.len(),
        )
    };
    match length {
        0 => Err(NotWritten::Refused),
        UNSOUND => Err(NotWritten::Unsound),
        SHORT => Err(NotWritten::Short),
        length => Ok(length),
    }
}

/// A step that the node would accept.
#[derive(Debug, PartialEq, Eq, Clone, Copy)]
pub enum Step {
    Run { owner: u8 },
    Arrive { owner: u8, from: u8 },
    Timeout { owner: u8 },
}

/// One of the two texts is refused, so there is no node to ask.
#[derive(Debug, PartialEq, Eq, Clone, Copy)]
pub struct Refused;

/// What `suggest` is answered where one of the texts is refused, and where no step would be accepted.
const REFUSED: usize = usize::MAX;
const NONE: usize = 0;

/// The kinds of a step in the number that `suggest` is answered.
const RUN: usize = 0;
const ARRIVE: usize = 1;
const TIMEOUT: usize = 2;

/// The first step that would be accepted once the steps text is played on the plan text, until a step is refused or to the end: lowest owner,
/// for one owner its run, then its timeout, then its arrivals by rising sender. None where every step would be refused.
pub fn suggest(plan: &[u8], steps: &[u8]) -> Result<Option<Step>, Refused> {
    // A slice's pointer is valid for its length and never null.
    let answer = unsafe { open_controller_suggest(plan.as_ptr(), plan.len(), steps.as_ptr(), steps.len()) };
    match answer {
        REFUSED => Err(Refused),
        NONE => Ok(None),
        step => Ok(Some(step_of(step))),
    }
}

/// The step that a number tells: kind * 65536 + owner * 256 + from, where a run and a timeout have no sender and from is 0.
fn step_of(number: usize) -> Step {
    let (owner, from) = ((number / 256 % 256) as u8, (number % 256) as u8);
    match (number / 65_536, from) {
        (RUN, 0) => Step::Run { owner },
        (ARRIVE, _) => Step::Arrive { owner, from },
        (TIMEOUT, 0) => Step::Timeout { owner },
        // The contract of open_controller_suggest, proved in crates/controller_c, has no other number.
        _ => unreachable!("open_controller_suggest answered {number}, which is no step"),
    }
}

/// What `consulted` is answered where one of the texts is refused or the process is not live at a recv.
const NOT_AT_RECV: usize = usize::MAX;

/// How many clauses a search of a process's mailbox consults once the steps text is played on the plan text, until a step is refused or to the
/// end. The search first notes which kinds of message its clauses can take; for a message of another kind it consults none, for each of the
/// others up to and with the one that fits its clauses in order up to the first that fits, or all. None where one of the texts is refused, no
/// process has that number, or it is not live at a recv.
pub fn consulted(plan: &[u8], steps: &[u8], process: usize) -> Option<usize> {
    // A slice's pointer is valid for its length and never null.
    let answer = unsafe { open_controller_consulted(plan.as_ptr(), plan.len(), steps.as_ptr(), steps.len(), process) };
    match answer {
        NOT_AT_RECV => None,
        clauses => Some(clauses),
    }
}

#[cfg(test)]
mod tests {
    use super::*;

    const PLAN: &[u8] = b"plan=1\nbehaviours=1\ncode=1\nop=stop,0\nstarts=1\nstart=1,1\n";

    #[test]
    fn a_refused_plan_is_told() {
        let mut out = [0; OUTPUT];
        let n = simulate(b"", b"", &mut out).unwrap();
        assert_eq!(&out[..n], b"load=11,1\n");
    }

    #[test]
    fn a_short_buffer_is_unchanged() {
        let mut out = [7; 20];
        assert_eq!(simulate(PLAN, b"run=1\nrun=1\n", &mut out), Err(Short));
        assert_eq!(out, [7; 20]);
    }

    #[test]
    fn the_listing_of_a_nearly_full_node_has_room() {
        let (plan, steps) = second::full(2, 0);
        let expected = second::simulate(&plan, &steps);
        assert!(expected.len() >= 30_000);
        let mut out = vec![0; OUTPUT];
        assert_eq!(simulate(&plan, &steps, &mut out), Ok(expected.len()));
        assert_eq!(out[..expected.len()], expected);
        let mut short = vec![7; expected.len() - 1];
        assert_eq!(simulate(&plan, &steps, &mut short), Err(Short));
        assert!(short.iter().all(|byte| *byte == 7));
    }

    #[test]
    fn a_gone_process_has_its_stage_only() {
        let mut out = [0; OUTPUT];
        let n = simulate(PLAN, b"run=1\nrun=1\nrun=1\n", &mut out).unwrap();
        assert_eq!(&out[..n], b"accepted=2\nrefused=22\nprocess=1\nstage=gone\n");
    }
    /// The sample of document 01.
    const SAMPLE: &[u8] = b"plan=1\nbehaviours=2\ncode=3\nop=set,0,p2\nop=set,1,i12\nop=send,0,1\n\
code=2\nop=recv,1\nop=clause,int,0,1,2\nstarts=2\nstart=1,1\nstart=2,2\n";

    /// The sample's behaviours with the starts of `PLAN`.
    const MIXED: &[u8] = b"plan=1\nbehaviours=2\ncode=3\nop=set,0,p2\nop=set,1,i12\nop=send,0,1\n\
code=2\nop=recv,1\nop=clause,int,0,1,2\nstarts=1\nstart=1,1\n";

    /// That nothing is written, however long the buffer is, and that the buffer is unchanged.
    fn is_not_written(behaviours_plan: &[u8], starts_plan: &[u8], why: NotWritten) {
        for room in [0, 1, MIXED.len(), PLAN_OUTPUT] {
            let mut out = vec![7; room];
            assert_eq!(write_plan(behaviours_plan, starts_plan, &mut out), Err(why));
            assert!(out.iter().all(|byte| *byte == 7));
        }
    }

    #[test]
    fn a_plan_is_written_back_to_its_bytes() {
        for text in [SAMPLE, PLAN, &second::longest()] {
            let mut out = vec![7; PLAN_OUTPUT];
            assert_eq!(write_plan(text, text, &mut out), Ok(text.len()));
            assert_eq!(&out[..text.len()], text);
            assert!(out[text.len()..].iter().all(|byte| *byte == 7));
        }
    }

    #[test]
    fn behaviours_and_starts_come_from_two_plans() {
        let mut out = vec![7; PLAN_OUTPUT];
        assert_eq!(write_plan(SAMPLE, PLAN, &mut out), Ok(MIXED.len()));
        assert_eq!(&out[..MIXED.len()], MIXED);
        assert!(out[MIXED.len()..].iter().all(|byte| *byte == 7));
    }

    #[test]
    fn a_start_above_the_behaviours_is_31_and_told_before_30() {
        is_not_written(PLAN, SAMPLE, NotWritten::Unsound);
    }

    #[test]
    fn a_buffer_as_long_as_the_plan_is_enough_and_one_byte_less_is_unchanged() {
        let mut exact = vec![7; MIXED.len()];
        assert_eq!(write_plan(SAMPLE, PLAN, &mut exact), Ok(MIXED.len()));
        assert_eq!(exact, MIXED);
        for room in [0, 1, MIXED.len() - 1] {
            let mut short = vec![7; room];
            assert_eq!(write_plan(SAMPLE, PLAN, &mut short), Err(NotWritten::Short));
            assert!(short.iter().all(|byte| *byte == 7));
        }
    }

    #[test]
    fn a_refused_text_gives_no_plan() {
        let too_long = [b'x'; 16_385];
        for refused in [b"", &SAMPLE[1..], &SAMPLE[..SAMPLE.len() - 1], &too_long[..]] {
            is_not_written(refused, SAMPLE, NotWritten::Refused);
            is_not_written(SAMPLE, refused, NotWritten::Refused);
            is_not_written(refused, refused, NotWritten::Refused);
        }
    }
}
