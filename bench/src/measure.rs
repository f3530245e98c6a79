//! Timing: the shortest of many runs, since whatever else the machine does only adds to a run. The calls are timed in turn,
//! again and again, so that a slow spell of the machine does not fall on one of them alone.

use std::time::{Duration, Instant};

/// How often the turn comes to each call, and how long it is timed then, without rounds and with them.
const TURNS: usize = 10;
const SPAN: Duration = Duration::from_millis(10);

/// So many rounds are timed at once that they take at least so long.
const RUN: Duration = Duration::from_millis(1);

/// A call that does its work the number of times that it is told.
pub type Call<'a> = Box<dyn FnMut(usize) + 'a>;

struct Timed<'a> {
    call: Call<'a>,
    rounds: usize,
    /// The shortest times with no round and with `rounds`.
    none: Duration,
    all: Duration,
}

impl<'a> Timed<'a> {
    fn new(mut call: Call<'a>) -> Timed<'a> {
        let none = time(&mut call, 0);
        let mut rounds = 1;
        while time(&mut call, rounds) < none + RUN {
            rounds *= 2;
        }
        Timed { call, rounds, none, all: Duration::MAX }
    }

    fn turn(&mut self) {
        self.none = self.none.min(shortest(&mut self.call, 0));
        self.all = self.all.min(shortest(&mut self.call, self.rounds));
    }

    fn round(&self) -> f64 {
        (self.all.as_nanos() as f64 - self.none.as_nanos() as f64) / self.rounds as f64
    }
}

fn time(call: &mut Call, rounds: usize) -> Duration {
    let start = Instant::now();
    call(rounds);
    start.elapsed()
}

/// The shortest time of a call within SPAN; it is timed once at least.
fn shortest(call: &mut Call, rounds: usize) -> Duration {
    let began = Instant::now();
    let mut shortest = time(call, rounds);
    while began.elapsed() < SPAN {
        shortest = shortest.min(time(call, rounds));
    }
    shortest
}

/// The nanoseconds of one round of each call, without what it does before its rounds.
pub fn rounds(calls: Vec<Call>) -> Vec<f64> {
    let mut timed: Vec<Timed> = calls.into_iter().map(Timed::new).collect();
    for _ in 0..TURNS {
        for call in &mut timed {
            call.turn();
        }
    }
    timed.iter().map(Timed::round).collect()
}
