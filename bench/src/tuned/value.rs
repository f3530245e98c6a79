//! Values, messages and signals, each one word: the number in the low 32 bits, the kind of the value in the next eight, then the sender of a
//! note or a down, then what the word is. So they are moved and compared as words, and a pattern is a mask and what it has to leave.

const KIND: u32 = 32;
const SENDER: u32 = 40;
const SORT: u32 = 48;

const NUMBER_BITS: u64 = (1 << KIND) - 1;
const VALUE_BITS: u64 = (1 << SENDER) - 1;

/// What a message is that tells of another process; a value has 0.
const NOTE: u64 = 1 << SORT;
const DOWN: u64 = 2 << SORT;

#[derive(Clone, Copy, PartialEq, Eq)]
pub struct Value(u64);

#[derive(Clone, Copy, PartialEq, Eq)]
pub enum Kind {
    Int,
    Atom,
    Pid,
}

impl Value {
    pub const NORMAL: Value = Value::atom(0);
    pub const KILL: Value = Value::atom(1);
    pub const KILLED: Value = Value::atom(2);
    pub const BADARG: Value = Value::atom(3);
    pub const BADARITH: Value = Value::atom(4);
    pub const NOPROC: Value = Value::atom(5);

    const fn new(kind: Kind, number: u32) -> Value {
        Value((kind as u64) << KIND | number as u64)
    }

    pub const fn int(number: i32) -> Value {
        Value::new(Kind::Int, number as u32)
    }

    pub const fn atom(number: u8) -> Value {
        Value::new(Kind::Atom, number as u32)
    }

    pub const fn pid(number: u8) -> Value {
        Value::new(Kind::Pid, number as u32)
    }

    #[inline]
    pub fn number(self) -> u32 {
        self.0 as u32
    }

    /// None where the word is no value at all.
    #[inline]
    pub fn kind(self) -> Option<Kind> {
        match self.0 >> KIND {
            0 => Some(Kind::Int),
            1 => Some(Kind::Atom),
            2 => Some(Kind::Pid),
            _ => None,
        }
    }

    #[inline]
    pub fn as_int(self) -> Option<i32> {
        (self.0 >> KIND == Kind::Int as u64).then_some(self.0 as i32)
    }

    #[inline]
    pub fn as_pid(self) -> Option<u8> {
        (self.0 >> KIND == Kind::Pid as u64).then_some(self.0 as u8)
    }

    /// Whether the number is in the range of its kind.
    #[inline]
    pub fn is_sound(self) -> bool {
        let range = match self.kind() {
            Some(Kind::Int) => return true,
            Some(Kind::Atom) => 0..=255,
            Some(Kind::Pid) => 1..=16,
            None => return false,
        };
        range.contains(&self.number())
    }
}

/// A value, or a note or a down of a sender and a reason.
#[derive(Clone, Copy)]
pub struct Message(u64);

impl Message {
    #[inline]
    pub const fn of(value: Value) -> Message {
        Message(value.0)
    }

    #[inline]
    pub fn note(sender: u8, reason: Value) -> Message {
        Message(NOTE | u64::from(sender) << SENDER | reason.0)
    }

    #[inline]
    pub fn down(sender: u8, reason: Value) -> Message {
        Message(DOWN | u64::from(sender) << SENDER | reason.0)
    }

    /// The value, or the reason of a note or a down.
    #[inline]
    pub fn value(self) -> Value {
        Value(self.0 & VALUE_BITS)
    }

    /// The sender of a note or a down.
    #[inline]
    pub fn sender(self) -> Option<u8> {
        (self.0 >> SORT != 0).then_some((self.0 >> SENDER) as u8)
    }

    #[inline]
    pub fn is_down(self) -> bool {
        self.0 & DOWN != 0
    }

    #[inline]
    pub fn is_sound(self) -> bool {
        self.value().is_sound() && self.sender().is_none_or(|sender| (1..=16).contains(&sender))
    }
}

/// What a clause takes: a message fits if the mask leaves what is wanted.
#[derive(Clone, Copy)]
pub struct Pattern {
    mask: u64,
    wanted: u64,
}

impl Pattern {
    pub const ANY: Pattern = Pattern { mask: 0, wanted: 0 };
    pub const INT: Pattern = Pattern::kind(Kind::Int);
    pub const ATOM: Pattern = Pattern::kind(Kind::Atom);
    pub const PID: Pattern = Pattern::kind(Kind::Pid);
    pub const NOTE: Pattern = Pattern { mask: NOTE, wanted: NOTE };
    pub const DOWN: Pattern = Pattern { mask: DOWN, wanted: DOWN };

    const fn kind(kind: Kind) -> Pattern {
        Pattern { mask: !NUMBER_BITS, wanted: (kind as u64) << KIND }
    }

    pub const fn exact(value: Value) -> Pattern {
        Pattern { mask: !0, wanted: value.0 }
    }

    #[inline]
    pub fn fits(self, message: Message) -> bool {
        message.0 & self.mask == self.wanted
    }

    /// Any pattern by kind is sound; an exact one is if its value is.
    #[inline]
    pub fn is_sound(self) -> bool {
        self.mask != !0 || Value(self.wanted).is_sound()
    }
}

#[derive(Clone, Copy)]
pub struct Signal(u64);

#[derive(Clone, Copy, PartialEq, Eq)]
pub enum SignalKind {
    Message,
    Exit,
    /// An exit along a link.
    LinkedExit,
    Down,
    // From here on there is no value.
    Link,
    Unlink,
    Monitor,
    Demonitor,
}

impl Signal {
    pub const LINK: Signal = Signal((SignalKind::Link as u64) << SORT);
    pub const UNLINK: Signal = Signal((SignalKind::Unlink as u64) << SORT);
    pub const MONITOR: Signal = Signal((SignalKind::Monitor as u64) << SORT);
    pub const DEMONITOR: Signal = Signal((SignalKind::Demonitor as u64) << SORT);

    #[inline]
    pub fn message(value: Value) -> Signal {
        Signal(value.0)
    }

    #[inline]
    pub fn exit(reason: Value, kind: SignalKind) -> Signal {
        Signal((kind as u64) << SORT | reason.0)
    }

    #[inline]
    pub fn down(reason: Value) -> Signal {
        Signal((SignalKind::Down as u64) << SORT | reason.0)
    }

    #[inline]
    pub fn kind(self) -> SignalKind {
        match self.0 >> SORT {
            0 => SignalKind::Message,
            1 => SignalKind::Exit,
            2 => SignalKind::LinkedExit,
            3 => SignalKind::Down,
            4 => SignalKind::Link,
            5 => SignalKind::Unlink,
            6 => SignalKind::Monitor,
            _ => SignalKind::Demonitor,
        }
    }

    #[inline]
    pub fn value(self) -> Value {
        Value(self.0 & VALUE_BITS)
    }
}
