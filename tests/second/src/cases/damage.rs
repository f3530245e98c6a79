//! Damaged plans and steps texts. Where the refusal follows from the damage itself, it is told with
//! the text, so that the loader can be tested against it.

use super::plans::Draft;
use crate::node::{Clause, Op, Pattern};
use crate::plan::{self, operands_of, target_of, Operand};
use crate::random::Random;
use crate::step::Step;
use crate::steps::{self, step_text};
use crate::text::Refused;
use crate::writer;

/// A bad text and, if it is known without reading the text, how it is refused.
pub struct Damaged {
    pub text: Vec<u8>,
    pub expected: Option<Refused>,
}

impl Damaged {
    /// Lines, each ended by byte 10, refused at the line of this index.
    fn at(lines: &[Vec<u8>], number: u8, index: usize) -> Damaged {
        Damaged {
            text: ended(lines),
            expected: Some(Refused {
                number,
                line: index + 1,
            }),
        }
    }
}

/// The lines, each ended by byte 10.
fn ended(lines: &[Vec<u8>]) -> Vec<u8> {
    let mut text = Vec::new();
    for line in lines {
        text.extend_from_slice(line);
        text.push(10);
    }
    text
}

fn byte_lines(draft: &Draft) -> Vec<Vec<u8>> {
    draft.lines().into_iter().map(String::into_bytes).collect()
}

/// A plan with a mistake that gives 11, 12, 13 or 14.
pub fn bad_plan(random: &mut Random, draft: &Draft) -> Damaged {
    match random.weighted(&[36, 32, 8, 24]) {
        0 => bad_form(random, draft),
        1 => out_of_range(random, draft),
        2 => not_rising(random, draft),
        _ => bad_clauses(random, draft),
    }
}

/// An index of a line: the first, the last or one between.
fn some_index(random: &mut Random, count: usize) -> usize {
    match random.below(5) {
        0 => 0,
        1 => count - 1,
        _ => random.below(count),
    }
}

// Damage that gives 11.

fn bad_form(random: &mut Random, draft: &Draft) -> Damaged {
    match random.below(12) {
        0 => without_last_newline(random, draft),
        1 => cut_off(random, draft),
        2 => surplus_line(random, draft),
        3 => repeated_or_missing_op(random, draft),
        4 => bad_first_line(random, draft),
        5 => wrong_key(random, draft),
        6 => wrong_operand_count(random, draft),
        7 => stray_byte(random, draft),
        8 => unknown_word(random, draft),
        9 => bad_number_form(random, draft),
        _ => operand_of_bad_form(random, draft),
    }
}

/// "a last line without it is 11": the end of the text is inside a line.
fn without_last_newline(random: &mut Random, draft: &Draft) -> Damaged {
    let mut lines = byte_lines(draft);
    let index = if random.chance(50) {
        lines.len() - 1
    } else {
        some_index(random, lines.len())
    };
    lines.truncate(index + 1);
    let mut damaged = Damaged::at(&lines, plan::BAD_FORM, index);
    damaged.text.pop();
    let line_length = lines[index].len();
    if random.chance(40) {
        let lost = random.below(line_length);
        damaged.text.truncate(damaged.text.len() - lost);
    }
    damaged
}

/// The last lines are missing; no line at all may be left.
fn cut_off(random: &mut Random, draft: &Draft) -> Damaged {
    let mut lines = byte_lines(draft);
    lines.truncate(some_index(random, lines.len()));
    Damaged::at(&lines, plan::BAD_FORM, lines.len())
}

fn surplus_line(random: &mut Random, draft: &Draft) -> Damaged {
    let mut lines = byte_lines(draft);
    let index = lines.len();
    let surplus: &[&[u8]] = &[
        b"",
        b"start=16,1",
        b"op=stop,0",
        b"plan=1",
        b"\r",
        b"\0",
        b"starts=1",
    ];
    lines.push(random.pick(surplus).to_vec());
    let mut damaged = Damaged::at(&lines, plan::BAD_FORM, index);
    if random.chance(30) && !lines[index].is_empty() {
        damaged.text.pop();
    }
    damaged
}

/// One op line too many or too few: the line at which the key is not the expected one is bad.
fn repeated_or_missing_op(random: &mut Random, draft: &Draft) -> Damaged {
    let mut lines = byte_lines(draft);
    let behaviour = random.below(draft.behaviours.len());
    let length = draft.behaviours[behaviour].len();
    let first = draft.line_of(behaviour, 0) - 1;
    let index = first + random.below(length);
    if random.chance(50) {
        lines.insert(index, lines[index].clone());
        Damaged::at(&lines, plan::BAD_FORM, first + length)
    } else {
        lines.remove(index);
        Damaged::at(&lines, plan::BAD_FORM, first + length - 1)
    }
}

/// "A first line other than `plan=1` is 11."
fn bad_first_line(random: &mut Random, draft: &Draft) -> Damaged {
    let mut lines = byte_lines(draft);
    let bad: &[&[u8]] = &[
        b"plan=2",
        b"plan=0",
        b"plan=-1",
        b"plan=01",
        b"plan=+1",
        b"plan=1 ",
        b" plan=1",
        b"plan=",
        b"plan",
        b"Plan=1",
        b"plan=1,1",
        b"plan=11",
        b"\xef\xbb\xbfplan=1",
        b"plan=1\r",
        b"plan=99999999999999999999",
        b"",
    ];
    lines[0] = random.pick(bad).to_vec();
    Damaged::at(&lines, plan::BAD_FORM, 0)
}

fn wrong_key(random: &mut Random, draft: &Draft) -> Damaged {
    let mut lines = byte_lines(draft);
    let index = some_index(random, lines.len());
    let line = &lines[index];
    let sign = line
        .iter()
        .position(|&byte| byte == b'=')
        .expect("a line has a key");
    let (key, value) = (&line[..sign], &line[sign + 1..]);
    lines[index] = match random.below(7) {
        0 => [key, value].concat(),
        1 => [key, b"==", value].concat(),
        2 => [b" ", key, b"=", value].concat(),
        3 => [key, b" =", value].concat(),
        4 => [key.to_ascii_uppercase().as_slice(), b"=", value].concat(),
        5 => [b"key=", value].concat(),
        _ => [&key[..sign - 1], b"=", value].concat(),
    };
    Damaged::at(&lines, plan::BAD_FORM, index)
}

/// One operand too many or too few, also on lines of one number.
fn wrong_operand_count(random: &mut Random, draft: &Draft) -> Damaged {
    let mut lines = byte_lines(draft);
    let index = some_index(random, lines.len());
    let comma = lines[index].iter().rposition(|&byte| byte == b',');
    match comma {
        Some(comma) if random.chance(50) => lines[index].truncate(comma),
        _ => {
            let extra: &[&[u8]] = &[b",", b",0", b",i0", b",1,2"];
            lines[index].extend_from_slice(random.pick::<&[u8]>(extra));
        }
    }
    Damaged::at(&lines, plan::BAD_FORM, index)
}

/// A byte that belongs in no line, put into one.
fn stray_byte(random: &mut Random, draft: &Draft) -> Damaged {
    let mut lines = byte_lines(draft);
    let index = some_index(random, lines.len());
    let byte = match random.below(6) {
        0 => 0,
        1 => b'\r',
        2 => random.between(128, 255) as u8,
        3 => b' ',
        4 => b'\t',
        _ => b'_',
    };
    let length = lines[index].len();
    let place = match random.below(3) {
        0 => length,
        _ => random.below(length + 1),
    };
    lines[index].insert(place, byte);
    Damaged::at(&lines, plan::BAD_FORM, index)
}

/// Words that are no op.
const BAD_WORDS: [&[u8]; 15] = [
    b"op=",
    b"op=Set",
    b"op=sets",
    b"op=nop",
    b"op=recv ",
    b"op=par",
    b"op=Monitor",
    b"op=monitors",
    b"op=demonito",
    b"op=down",
    b"op=After",
    b"op=afters",
    b"op=afte",
    b"op=timeout",
    b"op=run",
];

/// What no k of a clause is.
const BAD_KINDS: [&[u8]; 18] = [
    b"Any",
    b"anything",
    b"integer",
    b"atoms",
    b"p",
    b"",
    b"none",
    b"i",
    b"in",
    b"7",
    b"notes",
    b"a",
    b"Down",
    b"downs",
    b"dow",
    b"d",
    b"monitor",
    b"after",
];

/// A word that is no op, or a clause's k that is none.
fn unknown_word(random: &mut Random, draft: &Draft) -> Damaged {
    let mut lines = byte_lines(draft);
    let (behaviour, place) = some_op(random, draft);
    let index = draft.line_of(behaviour, place) - 1;
    let fields = crate::text::parts(&lines[index]);
    let mut changed: Vec<Vec<u8>> = fields.iter().map(|field| field.to_vec()).collect();
    if fields[0] == b"op=clause" && random.chance(70) {
        changed[1] = random.pick(&BAD_KINDS).to_vec();
    } else {
        changed[0] = random.pick(&BAD_WORDS).to_vec();
    }
    lines[index] = changed.join(&b',');
    Damaged::at(&lines, plan::BAD_FORM, index)
}

fn some_op(random: &mut Random, draft: &Draft) -> (usize, usize) {
    let behaviour = some_index(random, draft.behaviours.len());
    let place = some_index(random, draft.behaviours[behaviour].len());
    (behaviour, place)
}

/// A number whose form is wrong.
fn bad_form_number(random: &mut Random) -> Vec<u8> {
    let bad: &[&[u8]] = &[
        b"", b"-", b"+1", b"01", b"00", b"-0", b"-01", b"--1", b"1.0", b"0x1", b"1a", b" 1", b"1 ",
        b"1\r", b"1\0", b"\xb2", b"p1x", b"1e1", b"-00", b"1-",
    ];
    random.pick(bad).to_vec()
}

/// A number of wrong form on any line but the first. The other number of a start line may be out
/// of range: 11 is told wherever on the line it stands.
fn bad_number_form(random: &mut Random, draft: &Draft) -> Damaged {
    let mut lines = byte_lines(draft);
    let index = 1 + some_index(random, lines.len() - 1);
    let number = bad_form_number(random);
    if lines[index].starts_with(b"start=") && random.chance(40) {
        lines[index] = if random.chance(50) {
            [b"start=17,", number.as_slice()].concat()
        } else {
            [b"start=", number.as_slice(), b",99"].concat()
        };
    } else {
        change_number(random, &mut lines[index], &number);
    }
    Damaged::at(&lines, plan::BAD_FORM, index)
}

/// The lines of a plan and one op line of them, taken apart.
struct OpLine {
    lines: Vec<Vec<u8>>,
    index: usize,
    /// The word and the operands.
    fields: Vec<Vec<u8>>,
    operands: &'static [Operand],
    /// N of the op's code, and the count of behaviours.
    length: i64,
    behaviours: i64,
}

impl OpLine {
    fn damaged(mut self, number: u8) -> Damaged {
        self.lines[self.index] = [b"op=", self.fields.join(&b',').as_slice()].concat();
        Damaged::at(&self.lines, number, self.index)
    }

    fn put_out_of_range(&mut self, random: &mut Random, operand: usize) {
        let kind = self.operands[operand];
        self.fields[operand + 1] = bad_operand(random, kind, self.length, self.behaviours);
    }
}

/// An op of each word; words whose operands are of a rarer kind stand here more than once.
const ANY_WORD: [&str; 31] = [
    "set,0,i1",
    "copy,0,1",
    "self,0",
    "add,0,1",
    "send,0,1",
    "exit,0,1",
    "link,0",
    "unlink,0",
    "monitor,0",
    "demonitor,0",
    "trap,1",
    "trap,0",
    "spawn,0,1,1",
    "spawn,0,1,1",
    "spawn,0,1,1",
    "spawn,0,1,1",
    "spawn,0,1,1",
    "recv,1",
    "recv,8",
    "clause,any,0,0,0",
    "clause,i1,0,0,0",
    "clause,down,0,0,0",
    "after,0",
    "after,0",
    "jump,0",
    "jump,0",
    "jump,0",
    "same,0,i1,0",
    "same,0,a1,0",
    "less,0,1,0",
    "stop,0",
];

/// Some op line of a plan; at times an op of any word, written in place of a plain op. That a recv,
/// a clause or an `after` does not belong there is not told, because the line itself is damaged.
fn some_op_line(random: &mut Random, draft: &Draft) -> OpLine {
    let lines = byte_lines(draft);
    let (behaviour, mut place) = some_op(random, draft);
    let code = &draft.behaviours[behaviour];
    let mut text = writer::op_text(code[place]);
    let places = plain_places(code);
    if !places.is_empty() && random.chance(60) {
        place = *random.pick(&places);
        text = random.pick(&ANY_WORD).to_string();
    }
    let fields: Vec<Vec<u8>> = text.split(',').map(|field| field.into()).collect();
    OpLine {
        lines,
        index: draft.line_of(behaviour, place) - 1,
        operands: operands_of(&fields[0]).expect("a known word"),
        fields,
        length: code.len() as i64,
        behaviours: draft.behaviours.len() as i64,
    }
}

/// An operand whose form is wrong. Another operand of the op, before it or behind it, may be out of
/// range.
fn operand_of_bad_form(random: &mut Random, draft: &Draft) -> Damaged {
    let mut line = some_op_line(random, draft);
    let count = line.operands.len();
    let chosen = random.below(count);
    if count > 1 && random.chance(60) {
        let other = (chosen + random.between(1, count - 1)) % count;
        line.put_out_of_range(random, other);
    }
    let mut text = bad_form_number(random);
    if let Operand::Value | Operand::Pattern = line.operands[chosen] {
        text.insert(0, *random.pick(b"iap"));
    }
    line.fields[chosen + 1] = text;
    line.damaged(plan::BAD_FORM)
}

/// Puts another number in place of one of a line's; the letter of a value stays.
fn change_number(random: &mut Random, line: &mut Vec<u8>, number: &[u8]) {
    let spans = number_spans(line);
    let &(start, end) = random.pick(&spans);
    line.splice(start..end, number.iter().copied());
}

/// Where the numbers of a line stand, with their minus.
fn number_spans(line: &[u8]) -> Vec<(usize, usize)> {
    let mut spans = Vec::new();
    let mut start = None;
    for (index, &byte) in line.iter().enumerate() {
        let inside = byte.is_ascii_digit() || byte == b'-';
        match (start, inside) {
            (None, true) => start = Some(index),
            (Some(first), false) => {
                spans.push((first, index));
                start = None;
            }
            _ => {}
        }
    }
    if let Some(first) = start {
        spans.push((first, line.len()));
    }
    spans
}

// Damage that gives 12.

fn out_of_range(random: &mut Random, draft: &Draft) -> Damaged {
    match random.below(10) {
        0 => count_out_of_range(random, draft),
        1..=2 => start_out_of_range(random, draft),
        _ => operand_out_of_range(random, draft),
    }
}

/// A number that no range of the document takes.
fn far_number(random: &mut Random) -> Vec<u8> {
    match random.below(6) {
        0 => b"-1".to_vec(),
        1 => b"4294967296".to_vec(),
        2 => b"18446744073709551616".to_vec(),
        3 => b"-9223372036854775808".to_vec(),
        4 => {
            let digit = random.between(1, 9) as u8 + b'0';
            vec![digit; random.between(20, 300)]
        }
        _ => {
            let mut number = vec![b'-'];
            number.extend(vec![b'9'; random.between(11, 60)]);
            number
        }
    }
}

fn near_or_far(random: &mut Random, near: &[i64]) -> Vec<u8> {
    if random.chance(75) {
        random.pick(near).to_string().into_bytes()
    } else {
        far_number(random)
    }
}

/// A bad number behind `behaviours=`, `code=` or `starts=`.
fn count_out_of_range(random: &mut Random, draft: &Draft) -> Damaged {
    let mut lines = byte_lines(draft);
    let starts = lines.len() - draft.starts.len() - 1;
    let code = draft.line_of(random.below(draft.behaviours.len()), 0) - 2;
    let (index, key, near): (usize, &[u8], &[i64]) = match random.below(3) {
        0 => (1, b"behaviours=", &[0, 9, 10, 256, 257]),
        1 => (code, b"code=", &[0, 33, 34, 256, 288]),
        _ => (starts, b"starts=", &[0, 17, 18, 256, 272]),
    };
    let number = near_or_far(random, near);
    lines[index] = [key, &number].concat();
    Damaged::at(&lines, plan::OUT_OF_RANGE, index)
}

/// A bad process or behaviour of a start line, which may fail to rise as well.
fn start_out_of_range(random: &mut Random, draft: &Draft) -> Damaged {
    let mut lines = byte_lines(draft);
    let first = lines.len() - draft.starts.len();
    let start = some_index(random, draft.starts.len());
    let (process, behaviour) = draft.starts[start];
    let count = draft.behaviours.len() as i64;
    let text = if random.chance(50) {
        let number = near_or_far(random, &[0, 17, 18, 256, 257]);
        [b"start=", number.as_slice(), b",1"].concat()
    } else {
        let number = near_or_far(random, &[0, count + 1, 256, 257]);
        let process = if random.chance(50) { process } else { 1 };
        [format!("start={process},").as_bytes(), &number].concat()
    };
    debug_assert!(i64::from(behaviour) <= count);
    lines[first + start] = text;
    Damaged::at(&lines, plan::OUT_OF_RANGE, first + start)
}

/// A bad operand of an op, by what the operand is.
fn operand_out_of_range(random: &mut Random, draft: &Draft) -> Damaged {
    let mut line = some_op_line(random, draft);
    let chosen = random.below(line.operands.len());
    line.put_out_of_range(random, chosen);
    line.damaged(plan::OUT_OF_RANGE)
}

fn bad_operand(random: &mut Random, operand: Operand, length: i64, count: i64) -> Vec<u8> {
    match operand {
        Operand::Register => near_or_far(random, &[4, 5, 256, 259]),
        Operand::Place => near_or_far(random, &[length + 1, length + 2, 256]),
        Operand::Behaviour => near_or_far(random, &[0, count + 1, 257]),
        Operand::Process => near_or_far(random, &[0, 17, 257]),
        Operand::Flag => near_or_far(random, &[2, 256, 257]),
        Operand::Count => near_or_far(random, &[0, 9, 257]),
        Operand::Value | Operand::Pattern => bad_value(random),
    }
}

fn bad_value(random: &mut Random) -> Vec<u8> {
    let (letter, near): (u8, &[i64]) = match random.below(3) {
        0 => (b'i', &[2_147_483_648, -2_147_483_649, 4_294_967_295]),
        1 => (b'a', &[256, -1, 257, 511]),
        _ => (b'p', &[0, 17, -1, 257]),
    };
    let mut number = near_or_far(random, near);
    if letter == b'i' && number == b"-1" {
        number = b"2147483648".to_vec();
    }
    number.insert(0, letter);
    number
}

// Damage that gives 13.

/// A start whose process is not above the one before.
fn not_rising(random: &mut Random, draft: &Draft) -> Damaged {
    let mut lines = byte_lines(draft);
    let starts = draft.starts.len();
    let first = lines.len() - starts;
    if starts < 2 {
        // A second start, equal to or below the first one.
        let (process, behaviour) = draft.starts[0];
        let lower = random.between(1, usize::from(process));
        lines[first - 1] = b"starts=2".to_vec();
        lines.push(format!("start={lower},{behaviour}").into_bytes());
        return Damaged::at(&lines, plan::NOT_RISING, first + 1);
    }
    let chosen = 1 + some_index(random, starts - 1);
    let (previous, _) = draft.starts[chosen - 1];
    let (_, behaviour) = draft.starts[chosen];
    let process = match random.below(3) {
        0 => usize::from(previous),
        _ => random.between(1, usize::from(previous)),
    };
    lines[first + chosen] = format!("start={process},{behaviour}").into_bytes();
    Damaged::at(&lines, plan::NOT_RISING, first + chosen)
}

// Damage that gives 14.

/// Misplaced clauses, afters or targets, in one behaviour or two. A 13 in a later line is told
/// instead, because 14 is looked for after the last line.
fn bad_clauses(random: &mut Random, draft: &Draft) -> Damaged {
    let mut draft = draft.clone();
    let mut lowest = None;
    let rounds = if random.chance(25) { 2 } else { 1 };
    for _ in 0..rounds {
        let behaviour = some_behaviour(random, &draft);
        let place = misplace(random, &mut draft.behaviours[behaviour]);
        let place = lowest_bad_place(&draft.behaviours[behaviour], place);
        let line = draft.line_of(behaviour, place);
        lowest = Some(lowest.map_or(line, |lowest: usize| lowest.min(line)));
    }
    let certain = rounds == 1;
    Damaged {
        text: draft.text(),
        expected: lowest.filter(|_| certain).map(|line| Refused {
            number: plan::BAD_CLAUSES,
            line,
        }),
    }
}

/// A behaviour, mostly one that has an `after`.
fn some_behaviour(random: &mut Random, draft: &Draft) -> usize {
    let has_after = |&behaviour: &usize| !afters_of(&draft.behaviours[behaviour]).is_empty();
    let behaviours: Vec<usize> = (0..draft.behaviours.len()).filter(has_after).collect();
    if behaviours.is_empty() || random.chance(30) {
        return some_index(random, draft.behaviours.len());
    }
    *random.pick(&behaviours)
}

/// A damage of one code. The answer is the place that is bad by it.
fn misplace(random: &mut Random, code: &mut Vec<Op>) -> usize {
    match random.below(10) {
        0 => recv_at_the_end(random, code),
        1 => larger_recv(random, code),
        2 => stray_clause(random, code),
        3..=5 => bad_target(random, code),
        6 => stray_after(random, code),
        7..=8 => second_after(random, code),
        _ => after_for_clause(random, code),
    }
}

/// The damaged place or, if a clause or an `after` stands there now, an earlier op that aims at it. A
/// second damage can name the place behind the code.
fn lowest_bad_place(code: &[Op], place: usize) -> usize {
    let aims_here = |op: &Op| target_of(*op) == Some(place);
    match code.iter().position(aims_here) {
        Some(earlier) if matches!(code.get(place), Some(Op::Clause(_) | Op::After(_))) => {
            place.min(earlier)
        }
        _ => place,
    }
}

/// The places of a code whose op is of this sort.
fn places_of(code: &[Op], wanted: fn(&Op) -> bool) -> Vec<usize> {
    (0..code.len())
        .filter(|&place| wanted(&code[place]))
        .collect()
}

/// The places of a code that are no recv, no clause and no `after`.
fn plain_places(code: &[Op]) -> Vec<usize> {
    places_of(code, |op| {
        !matches!(op, Op::Recv(_) | Op::Clause(_) | Op::After(_))
    })
}

fn clauses_of(code: &[Op]) -> Vec<usize> {
    places_of(code, |op| matches!(op, Op::Clause(_)))
}

fn afters_of(code: &[Op]) -> Vec<usize> {
    places_of(code, |op| matches!(op, Op::After(_)))
}

/// A place of one of the rows, each row that has one being as likely as the others.
fn some_place(random: &mut Random, mut rows: Vec<Vec<usize>>) -> Option<usize> {
    rows.retain(|places| !places.is_empty());
    if rows.is_empty() {
        return None;
    }
    let places = random.pick(&rows);
    Some(*random.pick(places))
}

fn some_clause(random: &mut Random, target: usize) -> Op {
    Op::Clause(Clause {
        pattern: *random.pick(&[Pattern::Any, Pattern::Int, Pattern::Note, Pattern::Down]),
        r: random.below(4),
        s: random.below(4),
        target,
    })
}

/// A recv, at the last place or some other plain one, whose n next ops are not all clauses.
/// The answer is its place.
fn recv_at_the_end(random: &mut Random, code: &mut Vec<Op>) -> usize {
    let places = plain_places(code);
    if places.is_empty() && code.len() == 32 {
        return stray_clause(random, code);
    }
    if places.is_empty() || code.len() < 32 && random.chance(40) {
        code.push(Op::Recv(random.between(1, 8)));
        return code.len() - 1;
    }
    let place = places[some_index(random, places.len())];
    code[place] = Op::Recv(random.between(1, 8));
    place
}

/// A recv that asks for more clauses than follow it. The answer is its place.
fn larger_recv(random: &mut Random, code: &mut Vec<Op>) -> usize {
    let place = code
        .iter()
        .position(|op| matches!(op, Op::Recv(count) if *count < 8));
    match place {
        Some(place) => {
            if let Op::Recv(count) = &mut code[place] {
                *count = random.between(*count + 1, 8);
            }
            place
        }
        None => recv_at_the_end(random, code),
    }
}

/// A clause that no recv counts. The answer is its place.
fn stray_clause(random: &mut Random, code: &mut Vec<Op>) -> usize {
    let place = code
        .iter()
        .position(|op| matches!(op, Op::Recv(count) if *count > 1));
    if let (Some(place), true) = (place, random.chance(40)) {
        if let Op::Recv(count) = &mut code[place] {
            *count -= 1;
            return place + *count + 1;
        }
    }
    if code.len() < 32 {
        let target = code.len() + 1;
        code.push(some_clause(random, target));
        return code.len() - 1;
    }
    // A full code: its op at place 0 becomes a clause. Its target is place N.
    code[0] = some_clause(random, code.len());
    0
}

/// An op, a clause or an `after` whose target is a clause or an `after`. The answer is its place.
fn bad_target(random: &mut Random, code: &mut Vec<Op>) -> usize {
    let (plain, clauses, afters) = (plain_places(code), clauses_of(code), afters_of(code));
    let aim = some_place(random, vec![clauses.clone(), afters.clone()]);
    let place = some_place(random, vec![plain, clauses, afters]);
    let (Some(aim), Some(place)) = (aim, place) else {
        return stray_clause(random, code);
    };
    match &mut code[place] {
        Op::Clause(clause) => clause.target = aim,
        Op::After(target) => *target = aim,
        op => {
            *op = match random.below(3) {
                0 => Op::Jump(aim),
                1 => Op::Same(0, crate::node::Value::Int(0), aim),
                _ => Op::Less(0, 1, aim),
            }
        }
    }
    place
}

/// An `after` whose op before is no clause. The answer is its place.
fn stray_after(random: &mut Random, code: &mut Vec<Op>) -> usize {
    let follows_clause = |place: usize| matches!(code[..place].last(), Some(Op::Clause(_)));
    let mut places = plain_places(code);
    places.retain(|&place| !follows_clause(place));
    let length = code.len();
    if length < 32 && !follows_clause(length) && (places.is_empty() || random.chance(30)) {
        code.push(Op::After(length + 1));
        return length;
    }
    // Place 0 has no op before, whatever stands there.
    let place = some_place(random, vec![places]).unwrap_or(0);
    code[place] = Op::After(length);
    place
}

/// An `after` behind an `after`, at which mostly no op aims. The answer is its place.
fn second_after(random: &mut Random, code: &mut Vec<Op>) -> usize {
    let length = code.len();
    let mut afters = afters_of(code);
    afters.retain(|&place| place + 1 < 32);
    let Some(first) = some_place(random, vec![afters]) else {
        return after_for_clause(random, code);
    };
    if first + 1 == length {
        code.push(Op::After(length + 1));
    } else {
        code[first + 1] = Op::After(length);
    }
    if random.chance(80) {
        for op in code.iter_mut() {
            aim_at_0_instead(op, first + 1);
        }
    }
    first + 1
}

/// A target at this place becomes 0, where no clause and no `after` of a good plan stands.
fn aim_at_0_instead(op: &mut Op, place: usize) {
    let target = match op {
        Op::Clause(clause) => &mut clause.target,
        Op::Jump(target) | Op::Same(_, _, target) | Op::Less(_, _, target) | Op::After(target) => {
            target
        }
        _ => return,
    };
    if *target == place {
        *target = 0;
    }
}

/// An `after` in the place of a clause, so that a recv is without its clauses. The answer is the place
/// of the recv.
fn after_for_clause(random: &mut Random, code: &mut Vec<Op>) -> usize {
    let Some(place) = some_place(random, vec![clauses_of(code)]) else {
        return stray_after(random, code);
    };
    code[place] = Op::After(code.len());
    let is_recv = |op: &Op| matches!(op, Op::Recv(_));
    code[..place].iter().rposition(is_recv).unwrap_or(place)
}

// Texts at a limit, steps texts and single bytes.

/// A plan text of 16,383 to 16,386 bytes, or much longer.
pub fn long_plan(random: &mut Random, draft: &Draft) -> Vec<u8> {
    let limit = plan::BYTE_LIMIT;
    let size = match random.below(8) {
        0 => limit - 1,
        1..=2 => limit,
        3..=5 => limit + 1,
        6 => limit + 2,
        _ => limit + random.between(3, 9_000),
    };
    let mut text = draft.text();
    match random.below(3) {
        // Surplus bytes behind a good plan.
        0 => text.resize(size, b'x'),
        1 => text.resize(size, 10),
        // A number so long that the text has this size, in a line that is otherwise good.
        _ => {
            let lines = byte_lines(draft);
            let last = lines.last().expect("a plan has lines");
            let keep = text.len() - 1;
            let comma = last.iter().rposition(|&byte| byte == b',').unwrap_or(0);
            text.truncate(keep - (last.len() - comma - 1));
            text.resize(size - 1, b'7');
            text.push(10);
        }
    }
    text
}

/// A steps text at one of its two limits: 61,440 bytes and 4,096 lines.
pub fn long_steps(random: &mut Random) -> Vec<u8> {
    let mut text = Vec::new();
    match random.below(8) {
        // 4,095 to 4,098 lines.
        0..=1 => repeat(&mut text, b"run=1\n", 4_096),
        2..=3 => {
            let lines = random.between(4_095, 4_098);
            repeat(&mut text, b"run=1\n", lines);
        }
        // Over 4,096 lines, one of them malformed: 15 is told.
        4 => {
            repeat(&mut text, b"run=1\n", random.between(4_096, 5_000));
            let bad: &[&[u8]] = &[b"run=\n", b"\n", b"run=1", b"run=256\n", b"timeout=256\n"];
            text.extend_from_slice(random.pick::<&[u8]>(bad));
        }
        // 61,440 bytes in 4,096 lines, and a little more.
        5..=6 => {
            for _ in 0..4_096 {
                let (to, from) = (random.between(100, 255), random.between(100, 255));
                text.extend_from_slice(format!("arrive={to},{from}\n").as_bytes());
            }
            let tail: &[&[u8]] = &[b"", b"", b"", b"r", b"\n", b"run=1\n", b"run=1"];
            text.extend_from_slice(random.pick::<&[u8]>(tail));
        }
        // Exactly 61,439 to 61,442 bytes, malformed or with too many lines.
        _ => {
            let size = random.between(61_439, 61_442);
            repeat(&mut text, b"run=1\n", 11_000);
            text.truncate(size);
            if random.chance(50) {
                let place = random.below(size);
                text[place] = b'x';
            }
        }
    }
    text
}

fn repeat(text: &mut Vec<u8>, line: &[u8], times: usize) {
    for _ in 0..times {
        text.extend_from_slice(line);
    }
}

/// Lines that are no step.
const BAD_STEP_LINES: [&[u8]; 66] = [
    b"",
    b"run",
    b"run=",
    b"run=1,2",
    b"run=p1",
    b"Run=1",
    b" run=1",
    b"run =1",
    b"run=1 ",
    b"run= 1",
    b"run=256",
    b"run=999",
    b"run=-1",
    b"run=-0",
    b"run=+1",
    b"run=01",
    b"run=00",
    b"run=1\r",
    b"run=1\0",
    b"run=\xb9",
    b"run==1",
    b"arrive",
    b"arrive=",
    b"arrive=1",
    b"arrive=1,",
    b"arrive=,1",
    b"arrive=,",
    b"arrive=1,2,3",
    b"arrive=1, 2",
    b"arrive=1;2",
    b"arrive=256,1",
    b"arrive=1,256",
    b"arrive=-1,1",
    b"arrive=1,-1",
    b"arrive=01,1",
    b"arrive=1,02",
    b"arrive=1,-0",
    b"arrive=i1,1",
    b"arrival=1,2",
    b"timeout",
    b"timeout=",
    b"timeout=1,1",
    b"timeout=1,",
    b"timeout=,1",
    b"timeout=p1",
    b"timeout=256",
    b"timeout=-1",
    b"timeout=-0",
    b"timeout=+1",
    b"timeout=01",
    b"timeout=1 ",
    b"timeout=1\r",
    b"Timeout=1",
    b"timeouts=1",
    b"timeout =1",
    b"time=1",
    b"timeout=18446744073709551617",
    b"after=1",
    b"stop=1",
    b"\r",
    b"\0",
    b"run=18446744073709551617",
    b"arrive=1,4294967297",
    b"run=1run=1",
    b"run=0x1",
    b"steps=1",
];

fn bad_step_line(random: &mut Random) -> Vec<u8> {
    if random.chance(5) {
        let mut line = random.pick(&["run=", "timeout="]).as_bytes().to_vec();
        line.extend(vec![b'1'; random.between(4, 500)]);
        return line;
    }
    random.pick(&BAD_STEP_LINES).to_vec()
}

/// A steps text with one or two malformed lines.
pub fn bad_steps(random: &mut Random, schedule: &[Step]) -> Damaged {
    let mut lines: Vec<Vec<u8>> = schedule
        .iter()
        .map(|&step| step_text(step).into_bytes())
        .collect();
    let index = match random.below(4) {
        0 => 0,
        1 => lines.len(),
        _ => random.below(lines.len() + 1),
    };
    if random.chance(20) {
        return steps_without_last_newline(random, lines);
    }
    lines.insert(index, bad_step_line(random));
    if random.chance(20) {
        let later = random.between(index + 1, lines.len());
        lines.insert(later, bad_step_line(random));
    }
    Damaged::at(&lines, steps::MALFORMED, index)
}

/// "a last line without it is 11, in steps 15"
fn steps_without_last_newline(random: &mut Random, mut lines: Vec<Vec<u8>>) -> Damaged {
    if lines.is_empty() {
        lines.push(b"run=1".to_vec());
    }
    let index = lines.len() - 1;
    let mut damaged = Damaged::at(&lines, steps::MALFORMED, index);
    damaged.text.pop();
    if random.chance(40) {
        let lost = random.below(lines[index].len());
        damaged.text.truncate(damaged.text.len() - lost);
    }
    damaged
}

/// Changes, adds, removes or swaps a few bytes.
pub fn change_bytes(random: &mut Random, text: &mut Vec<u8>) {
    const LIKELY: &[u8] = b"0123456789,=-+aipx\n\r\0 ";
    for _ in 0..random.between(1, 3) {
        let place = random.below(text.len() + 1);
        let byte = if random.chance(80) {
            *random.pick(LIKELY)
        } else {
            random.below(256) as u8
        };
        match random.below(4) {
            0 => text.insert(place, byte),
            _ if place == text.len() => text.push(byte),
            1 => {
                text.remove(place);
            }
            2 => text[place] = byte,
            _ => {
                let other = random.below(text.len());
                text.swap(place, other);
            }
        }
    }
}
