//! The listing of a node.

use crate::node::{Closing, Live, Message, Node, Signal, Stage, Value, PROCESSES};
use std::collections::BTreeSet;
use std::fmt::Write;

/// Adds a line, ended by byte 10, to a text.
macro_rules! line {
    ($out:expr, $($form:tt)*) => {
        writeln!($out, $($form)*).expect("writing to a String does not fail")
    };
}

/// The listing of a node as a text of its own.
pub fn text(node: &Node) -> String {
    let mut out = String::new();
    write(node, &mut out);
    out
}

/// "the listing: each process not unborn, rising, then pairs with signals, by from, then to"
pub fn write(node: &Node, out: &mut String) {
    for process in 1..=PROCESSES {
        write_process(process, node.stage(process), out);
    }
    for (from, to, signals) in node.flights() {
        write_flight(from, to, signals, out);
    }
}

/// "Closing has stage, reason, links; gone only stage."
fn write_process(process: u8, stage: &Stage, out: &mut String) {
    if *stage != Stage::Unborn {
        line!(out, "process={process}");
    }
    match stage {
        Stage::Unborn => {}
        Stage::Live(live) => write_live(live, out),
        Stage::Closing(closing) => write_closing(closing, out),
        Stage::Gone => line!(out, "stage=gone"),
    }
}

/// "`watches=` and `watchers=` after a live process's links"
fn write_live(live: &Live, out: &mut String) {
    line!(out, "stage=live");
    line!(out, "behaviour={}", live.behaviour);
    line!(out, "place={}", live.place);
    for (number, value) in live.registers.iter().enumerate() {
        line!(out, "r{number}={value}");
    }
    line!(out, "trap={}", u8::from(live.trap));
    write_set("links", &live.links, out);
    write_set("watches", &live.watches, out);
    write_set("watchers", &live.watchers, out);
    write_mailbox(&live.mailbox, out);
}

/// "`watchers=` after a closing one's"
fn write_closing(closing: &Closing, out: &mut String) {
    line!(out, "stage=closing");
    line!(out, "reason={}", closing.reason);
    write_set("links", &closing.links, out);
    write_set("watchers", &closing.watchers, out);
}

/// "links are rising numbers with commas"; so are the two sets of watching.
fn write_set(key: &str, processes: &BTreeSet<u8>, out: &mut String) {
    let numbers: Vec<String> = processes.iter().map(u8::to_string).collect();
    line!(out, "{key}={}", numbers.join(","));
}

/// "`mail=n` is followed by n lines `message=V` or `note=p,V`"; "`down=p,V` among messages"
fn write_mailbox(mailbox: &[Message], out: &mut String) {
    line!(out, "mail={}", mailbox.len());
    for message in mailbox {
        match message {
            Message::Value(value) => line!(out, "message={value}"),
            // The sender is written as a value, with its letter.
            Message::Note { sender, reason } => {
                line!(out, "note={},{reason}", Value::Pid(*sender));
            }
            Message::Down { sender, reason } => {
                line!(out, "down={},{reason}", Value::Pid(*sender));
            }
        }
    }
}

/// "A pair: `flight=from,to,n`, then `signal=msg,V`, `signal=exit,V,b`, `signal=link`,
/// `signal=unlink`."; "and `signal=monitor`, `signal=demonitor`, `signal=down,V`"
fn write_flight(from: u8, to: u8, signals: &[Signal], out: &mut String) {
    line!(out, "flight={from},{to},{}", signals.len());
    for signal in signals {
        match signal {
            Signal::Msg(value) => line!(out, "signal=msg,{value}"),
            Signal::Exit { reason, linked } => {
                line!(out, "signal=exit,{reason},{}", u8::from(*linked));
            }
            Signal::Link => line!(out, "signal=link"),
            Signal::Unlink => line!(out, "signal=unlink"),
            Signal::Monitor => line!(out, "signal=monitor"),
            Signal::Demonitor => line!(out, "signal=demonitor"),
            Signal::Down(reason) => line!(out, "signal=down,{reason}"),
        }
    }
}
