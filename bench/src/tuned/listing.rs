//! The listing of a node.

use super::sound::NOT_SOUND;
use super::value::Kind;
use super::{Node, Process, Row, Signal, SignalKind, Stage, Value, PROCESSES};

/// Enough for every listing.
pub const LONGEST: usize = open_controller::OUTPUT;

const SHORT: u8 = 30;

/// Writes the listing to the front of `out`; answers its length. A refusal leaves `out` unchanged.
#[inline(never)]
pub fn list(node: &Node, out: &mut [u8]) -> Result<usize, u8> {
    if !node.is_sound() {
        return Err(NOT_SOUND);
    }
    if out.len() >= LONGEST {
        return Ok(write(node, out));
    }
    let mut whole = [0; LONGEST];
    let length = write(node, &mut whole);
    let front = out.get_mut(..length).ok_or(SHORT)?;
    front.copy_from_slice(&whole[..length]);
    Ok(length)
}

fn write(node: &Node, out: &mut [u8]) -> usize {
    let mut writer = Writer { out, length: 0 };
    writer.node(node);
    writer.length
}

/// The two digits of each number below 100.
const PAIRS: [[u8; 2]; 100] = {
    let mut pairs = [[0; 2]; 100];
    let mut k = 0;
    while k < 100 {
        pairs[k] = [b'0' + k as u8 / 10, b'0' + k as u8 % 10];
        k += 1;
    }
    pairs
};

/// Writes behind the first `length` bytes, for which there must be room.
pub struct Writer<'a> {
    pub out: &'a mut [u8],
    pub length: usize,
}

impl Writer<'_> {
    pub fn node(&mut self, node: &Node) {
        for (i, process) in node.processes.iter().enumerate() {
            if process.stage != Stage::Unborn {
                self.process(i as u32 + 1, process);
            }
        }
        for (from, row) in node.flight.iter().enumerate() {
            if !row.is_empty() {
                self.row(from as u32 + 1, row);
            }
        }
    }

    #[inline]
    pub fn text(&mut self, text: &[u8]) {
        self.out[self.length..][..text.len()].copy_from_slice(text);
        self.length += text.len();
    }

    /// The digits are counted first, so that they are written where they stay, two at a time from the last on.
    #[inline]
    pub fn number(&mut self, number: u32) {
        let length = number.checked_ilog10().map_or(1, |log| log as usize + 1);
        let digits = &mut self.out[self.length..][..length];
        self.length += length;
        let mut rest = number as usize;
        let mut pairs = digits.rchunks_exact_mut(2);
        for pair in &mut pairs {
            pair.copy_from_slice(&PAIRS[rest % 100]);
            rest /= 100;
        }
        if let [digit] = pairs.into_remainder() {
            *digit = b'0' + rest as u8;
        }
    }

    #[inline]
    fn value(&mut self, value: Value) {
        match value.as_int() {
            Some(number) if number < 0 => self.text(b"i-"),
            Some(_) => self.text(b"i"),
            None if value.kind() == Some(Kind::Atom) => self.text(b"a"),
            None => self.text(b"p"),
        }
        self.number(value.as_int().map_or(value.number(), i32::unsigned_abs));
    }

    #[inline]
    pub fn number_line(&mut self, key: &[u8], number: u32) {
        self.text(key);
        self.number(number);
        self.text(b"\n");
    }

    #[inline]
    fn value_line(&mut self, key: &[u8], value: Value) {
        self.text(key);
        self.value(value);
        self.text(b"\n");
    }

    fn process(&mut self, number: u32, process: &Process) {
        self.number_line(b"process=", number);
        match process.stage {
            Stage::Unborn | Stage::Gone => self.text(b"stage=gone\n"),
            Stage::Closing => {
                self.value_line(b"stage=closing\nreason=", process.registers[0]);
                self.set(b"links=\n", process.links);
                self.set(b"watchers=\n", process.watchers);
            }
            Stage::Live => self.live(process),
        }
    }

    fn live(&mut self, process: &Process) {
        self.number_line(b"stage=live\nbehaviour=", u32::from(process.behaviour) + 1);
        self.number_line(b"place=", u32::from(process.place));
        let [r0, r1, r2, r3] = process.registers;
        self.value_line(b"r0=", r0);
        self.value_line(b"r1=", r1);
        self.value_line(b"r2=", r2);
        self.value_line(b"r3=", r3);
        self.text(if process.trap { b"trap=1\n" } else { b"trap=0\n" });
        self.set(b"links=\n", process.links);
        self.set(b"watches=\n", process.watches);
        self.set(b"watchers=\n", process.watchers);
        self.number_line(b"mail=", u32::from(process.count));
        for k in 0..process.count {
            let message = process.message(k);
            if let Some(sender) = message.sender() {
                self.text(if message.is_down() { b"down=p" } else { b"note=p" });
                self.number(u32::from(sender));
                self.value_line(b",", message.value());
            } else {
                self.value_line(b"message=", message.value());
            }
        }
    }

    /// The line of an empty set is given; the numbers go before its end.
    #[inline]
    fn set(&mut self, empty: &[u8], processes: u16) {
        self.text(empty);
        if processes != 0 {
            self.length -= 1;
            self.members(processes);
        }
    }

    fn members(&mut self, processes: u16) {
        let mut rest = processes;
        while rest != 0 {
            self.number(rest.trailing_zeros() + 1);
            rest &= rest - 1;
            if rest != 0 {
                self.text(b",");
            }
        }
        self.text(b"\n");
    }

    fn row(&mut self, from: u32, row: &Row) {
        for to in 0..PROCESSES {
            let count = row.counts[to];
            if count == 0 {
                continue;
            }
            self.text(b"flight=");
            self.number(from);
            self.text(b",");
            self.number(to as u32 + 1);
            self.number_line(b",", u32::from(count));
            for k in 0..count {
                self.signal(row.signal(to, k));
            }
        }
    }

    #[inline]
    fn signal(&mut self, signal: Signal) {
        match signal.kind() {
            SignalKind::Message => self.value_line(b"signal=msg,", signal.value()),
            SignalKind::Exit => self.exit(signal.value(), b",0\n"),
            SignalKind::LinkedExit => self.exit(signal.value(), b",1\n"),
            SignalKind::Link => self.text(b"signal=link\n"),
            SignalKind::Unlink => self.text(b"signal=unlink\n"),
            SignalKind::Monitor => self.text(b"signal=monitor\n"),
            SignalKind::Demonitor => self.text(b"signal=demonitor\n"),
            SignalKind::Down => self.value_line(b"signal=down,", signal.value()),
        }
    }

    #[inline]
    fn exit(&mut self, reason: Value, linked: &[u8]) {
        self.text(b"signal=exit,");
        self.value(reason);
        self.text(linked);
    }
}
