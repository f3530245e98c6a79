//! The mixes of steps that are timed: each is a plan text and a steps text of a wanted count, all of whose steps are accepted.

/// A plan text and a steps text.
pub struct Case {
    pub plan: Vec<u8>,
    pub steps: Vec<u8>,
}

/// A mix by its name and what makes it.
pub struct Mix {
    pub name: &'static str,
    pub case: fn(usize) -> Case,
}

pub const MIXES: [Mix; 6] = [
    Mix { name: "ring", case: ring },
    Mix { name: "links", case: links },
    Mix { name: "watch", case: watch },
    Mix { name: "mail-last", case: mail_last },
    Mix { name: "mail-first", case: mail_first },
    Mix { name: "local", case: local },
];

/// A plan text from the ops of each behaviour and the behaviour of each started process, from process 1 on.
pub fn plan(behaviours: &[Vec<String>], starts: &[usize]) -> Vec<u8> {
    let mut text = format!("plan=1\nbehaviours={}\n", behaviours.len());
    for ops in behaviours {
        text += &format!("code={}\n", ops.len());
        for op in ops {
            text += &format!("op={op}\n");
        }
    }
    text += &format!("starts={}\n", starts.len());
    for (index, behaviour) in starts.iter().enumerate() {
        text += &format!("start={},{behaviour}\n", index + 1);
    }
    text.into_bytes()
}

pub fn ops(texts: &[&str]) -> Vec<String> {
    texts.iter().map(|text| text.to_string()).collect()
}

pub fn run(process: usize) -> String {
    format!("run={process}\n")
}

fn arrive(to: usize, from: usize) -> String {
    format!("arrive={to},{from}\n")
}

/// The first `count` of the steps as a text.
fn first(steps: impl Iterator<Item = String>, count: usize) -> Vec<u8> {
    steps.take(count).collect::<String>().into_bytes()
}

/// Eight processes in a ring, each with a behaviour of its own: each sends to the next, then receives and sends on.
pub fn ring(count: usize) -> Case {
    let next = |process: usize| process % 8 + 1;
    let behaviour = |process: usize| ops(&[&format!("set,1,p{}", next(process)), "set,0,i7", "send,1,0", "recv,1", "clause,int,0,0,2"]);
    let behaviours: Vec<_> = (1..=8).map(behaviour).collect();
    let starting = (1..=8).flat_map(|process| [run(process), run(process), run(process)]);
    let hops = (1..=8).cycle().flat_map(move |process| [arrive(next(process), process), run(next(process)), run(next(process))]);
    Case { plan: plan(&behaviours, &[1, 2, 3, 4, 5, 6, 7, 8]), steps: first(starting.chain(hops), count) }
}

/// How often the code of a linking process links, sends an exit signal and unlinks before it jumps back.
const GROUPS: usize = 9;

/// Four pairs: an odd process links to the next, sends it an exit signal and unlinks, and the next traps and receives the note. At
/// the end process 9 kills each odd process while it is linked, which then closes; process 10 fills up to the count.
pub fn links(count: usize) -> Case {
    let linking = |odd: usize| {
        let mut code = ops(&[&format!("set,1,p{}", odd + 1), "set,2,a9"]);
        for _ in 0..GROUPS {
            code.extend(ops(&["link,1", "exit,1,2", "unlink,1"]));
        }
        code.extend(ops(&["jump,2"]));
        code
    };
    let mut killing = ops(&["set,2,a1"]);
    for odd in [1, 3, 5, 7] {
        killing.extend([format!("set,1,p{odd}"), "exit,1,2".to_string()]);
    }
    let behaviours = [
        linking(1),
        linking(3),
        linking(5),
        linking(7),
        ops(&["trap,1", "recv,1", "clause,note,1,2,1"]),
        killing,
        ops(&["jump,0"]),
    ];
    let plan = plan(&behaviours, &[1, 5, 2, 5, 3, 5, 4, 5, 6, 7]);
    let mut steps = vec![run(9)];
    for odd in [1, 3, 5, 7] {
        steps.extend([run(odd), run(odd), run(odd + 1)]);
    }
    let closing: Vec<String> = [1, 3, 5, 7].into_iter().flat_map(killed).collect();
    let mut done = 0;
    while steps.len() + exchange(done).len() + closing.len() <= count {
        steps.extend(exchange(done));
        done += 1;
    }
    while steps.len() + closing.len() < count {
        steps.push(run(10));
    }
    steps.extend(closing);
    Case { plan, steps: first(steps.into_iter(), count) }
}

/// A pair links, sends and takes an exit signal, and unlinks; the pairs take turns, so this is the pair's exchange `done / 4`, behind
/// whose last the code jumps back.
fn exchange(done: usize) -> Vec<String> {
    let odd = done % 4 * 2 + 1;
    let mut steps = Vec::new();
    for _ in 0..3 {
        steps.extend([run(odd), arrive(odd + 1, odd)]);
    }
    steps.push(run(odd + 1));
    if (done / 4 + 1).is_multiple_of(GROUPS) {
        steps.push(run(odd));
    }
    steps
}

/// An odd process links, is killed, tells its link and goes; the link receives the note.
fn killed(odd: usize) -> Vec<String> {
    let even = odd + 1;
    vec![run(odd), arrive(even, odd), run(9), run(9), arrive(odd, 9), run(odd), run(odd), arrive(even, odd), run(even)]
}

/// Four pairs: an odd process watches the next and gives it up, then watches process 9, which is gone, and receives what it is told. At the
/// end each even process stops while it is watched, and tells so; process 10 fills up to the count.
pub fn watch(count: usize) -> Case {
    let watching = |odd: usize| {
        let next = format!("set,1,p{}", odd + 1);
        ops(&[&next, "set,2,p9", "monitor,1", "demonitor,1", "monitor,2", "recv,1", "clause,down,0,3,2"])
    };
    let behaviours = [watching(1), watching(3), watching(5), watching(7), ops(&["stop,0"]), ops(&["jump,0"])];
    let plan = plan(&behaviours, &[1, 5, 2, 5, 3, 5, 4, 5, 5, 6]);
    let mut steps = vec![run(9), run(9)];
    for odd in [1, 3, 5, 7] {
        steps.extend([run(odd), run(odd)]);
    }
    let closing: Vec<String> = [1, 3, 5, 7].into_iter().flat_map(stopped).collect();
    for odd in [1, 3, 5, 7].into_iter().cycle() {
        let watches = watches(odd);
        if steps.len() + watches.len() + closing.len() > count {
            break;
        }
        steps.extend(watches);
    }
    while steps.len() + closing.len() < count {
        steps.push(run(10));
    }
    steps.extend(closing);
    Case { plan, steps: first(steps.into_iter(), count) }
}

/// A pair: one process watches the other and gives it up, then watches process 9, and receives that there is none.
fn watches(odd: usize) -> Vec<String> {
    let even = odd + 1;
    vec![run(odd), arrive(even, odd), run(odd), arrive(even, odd), run(odd), arrive(9, odd), arrive(odd, 9), run(odd)]
}

/// An even process stops while it is watched, tells its watcher and goes.
fn stopped(odd: usize) -> Vec<String> {
    let even = odd + 1;
    vec![run(odd), arrive(even, odd), run(even), run(even), run(even), arrive(odd, even)]
}

/// Fifteen messages that no clause takes, then one at a time that only the last of eight clauses takes.
fn mail_last(count: usize) -> Case {
    mail(count, "a50", ["i1", "i2", "i3", "i4", "i5", "i6", "i7", "int"])
}

/// The mailbox as full as in `mail_last`, but the first clause takes the first message.
fn mail_first(count: usize) -> Case {
    mail(count, "i100", ["int", "i1", "i2", "i3", "i4", "i5", "i6", "i7"])
}

/// How often the sender's code sends before it jumps back.
const SENDS: usize = 13;

/// Process 1 sends `waiting` fifteen times to process 2; then i100 is sent, arrives and is received, again and again.
fn mail(count: usize, waiting: &str, clauses: [&str; 8]) -> Case {
    let mut sending = ops(&["set,1,p2", &format!("set,2,{waiting}")]);
    sending.extend(vec!["send,1,2".to_string(); 15]);
    sending.push("set,3,i100".to_string());
    sending.extend(vec!["send,1,3".to_string(); SENDS]);
    sending.push("jump,18".to_string());
    let mut receiving = ops(&["recv,8"]);
    receiving.extend(clauses.iter().map(|kind| format!("clause,{kind},0,0,0")));
    let filling = [run(1), run(1)].into_iter().chain((0..15).flat_map(|_| [run(1), arrive(2, 1)])).chain([run(1)]);
    let exchange = |done: usize| {
        let mut steps = vec![run(1), arrive(2, 1), run(2)];
        if (done + 1).is_multiple_of(SENDS) {
            steps.push(run(1));
        }
        steps
    };
    Case { plan: plan(&[sending, receiving], &[1, 2]), steps: first(filling.chain((0..).flat_map(exchange)), count) }
}

/// Eight processes that take turns at one loop of ops that send nothing.
fn local(count: usize) -> Case {
    let code = ops(&[
        "set,3,i1000000",
        "set,1,i1",
        "add,0,1",
        "copy,2,0",
        "self,2",
        "same,0,i-1,0",
        "less,0,3,7",
        "jump,1",
    ]);
    Case { plan: plan(&[code], &[1; 8]), steps: first((1..=8).cycle().map(run), count) }
}
