//! The test of soundness (refusal 31): what the types leave open is looked at.

use super::{Behaviour, Message, Node, Op, Places, Process, Row, SignalKind, Stage, Value, BEHAVIOURS, CLAUSES, MAILBOX, OPS, PAIR, PROCESSES};

pub const NOT_SOUND: u8 = 31;

impl Node {
    #[inline(never)]
    pub fn is_sound(&self) -> bool {
        let count = usize::from(self.behaviour_count);
        (1..=BEHAVIOURS).contains(&count)
            && self.behaviours[..count].iter().all(|behaviour| behaviour.is_sound(self.behaviour_count))
            && self.processes.iter().enumerate().all(|(i, process)| process.is_sound(i, &self.behaviours[..count]))
            && self.flight_is_sound()
    }

    fn flight_is_sound(&self) -> bool {
        self.flight.iter().enumerate().all(|(from, row)| row.is_empty() || row.is_sound(from))
    }
}

impl Row {
    fn is_sound(&self, from: usize) -> bool {
        for to in 0..PROCESSES {
            if usize::from(self.counts[to]) > PAIR || usize::from(self.firsts[to]) >= PAIR {
                return false;
            }
            let good = (0..self.counts[to]).map(|k| self.signal(to, k)).all(|signal| match signal.kind() {
                SignalKind::Link | SignalKind::Unlink | SignalKind::Monitor | SignalKind::Demonitor => from != to,
                SignalKind::Message | SignalKind::Exit | SignalKind::LinkedExit | SignalKind::Down => signal.value().is_sound(),
            });
            if !good {
                return false;
            }
        }
        true
    }
}

impl Behaviour {
    #[inline]
    fn is_sound(&self, behaviours: u8) -> bool {
        let count = self.count;
        if !(1..=OPS).contains(&usize::from(count)) || !matches!(self.ops[usize::from(count)], Op::End) {
            return false;
        }
        let mut places = Places::default();
        for (place, (op, pattern)) in self.ops.iter().zip(&self.patterns).take(usize::from(count)).enumerate() {
            let good = match *op {
                Op::Set(_, value) => value.is_sound(),
                Op::Spawn(_, behaviour, process) => (1..=behaviours).contains(&behaviour) && (1..=PROCESSES as u8).contains(&process),
                Op::Recv(count) if (1..=CLAUSES).contains(&count) => {
                    places.add_recv(place, count);
                    true
                }
                Op::Clause(_, _, target) if target <= count => {
                    places.add_clause(place, target);
                    pattern.is_sound()
                }
                Op::After(target) if target <= count => {
                    places.add_after(place, target);
                    true
                }
                Op::Jump(target) | Op::Less(_, _, target) if target <= count => {
                    places.add_target(target);
                    true
                }
                Op::Same(_, value, target) if target <= count => {
                    places.add_target(target);
                    value.is_sound()
                }
                Op::Recv(_) | Op::Clause(..) | Op::Jump(_) | Op::Less(..) | Op::Same(..) | Op::After(_) | Op::End => false,
                _ => true,
            };
            if !good {
                return false;
            }
        }
        places.are_good()
    }
}

impl Process {
    #[inline]
    fn is_sound(&self, i: usize, behaviours: &[Behaviour]) -> bool {
        let in_none = |sets: u16| sets >> i & 1 == 0;
        match self.stage {
            Stage::Unborn | Stage::Gone => true,
            Stage::Closing => in_none(self.links | self.watchers) && self.registers[0].is_sound(),
            Stage::Live => {
                in_none(self.links | self.watches | self.watchers)
                    && behaviours.get(usize::from(self.behaviour)).is_some_and(|behaviour| self.place_is_sound(behaviour))
                    && self.registers.into_iter().all(Value::is_sound)
                    && usize::from(self.count) <= MAILBOX
                    && usize::from(self.first) < MAILBOX
                    && (0..self.count).map(|k| self.message(k)).all(Message::is_sound)
            }
        }
    }

    #[inline]
    fn place_is_sound(&self, behaviour: &Behaviour) -> bool {
        self.place <= behaviour.count && !matches!(behaviour.ops[usize::from(self.place)], Op::Clause(..) | Op::After(_))
    }
}
