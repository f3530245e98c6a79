//! Short ways to write plans and steps texts in tests.

/// The plan text of these behaviours and starts; an op is written without `op=`.
pub fn plan(behaviours: &[&[&str]], starts: &[(u8, u8)]) -> String {
    let mut text = format!("plan=1\nbehaviours={}\n", behaviours.len());
    for code in behaviours {
        text += &format!("code={}\n", code.len());
        for op in *code {
            text += &format!("op={op}\n");
        }
    }
    text += &format!("starts={}\n", starts.len());
    for (process, behaviour) in starts {
        text += &format!("start={process},{behaviour}\n");
    }
    text
}

/// The steps text of steps that are written with blanks between them.
pub fn steps(words: &str) -> String {
    words
        .split_whitespace()
        .map(|step| format!("{step}\n"))
        .collect()
}

/// What the program prints.
pub fn run(plan: &str, words: &str) -> String {
    let out = second::simulate(plan.as_bytes(), steps(words).as_bytes());
    String::from_utf8(out).expect("the program prints ASCII")
}

/// The lines of one process in a printed listing, from `stage=` on, with blanks between them.
pub fn process(out: &str, number: u8) -> String {
    let head = format!("process={number}");
    let lines = out.lines().skip_while(|line| *line != head).skip(1);
    let own =
        lines.take_while(|line| !line.starts_with("process=") && !line.starts_with("flight="));
    own.collect::<Vec<&str>>().join(" ")
}

/// The lines of the pairs with signals, with blanks between them.
pub fn flights(out: &str) -> String {
    let lines = out.lines().skip_while(|line| !line.starts_with("flight="));
    lines.collect::<Vec<&str>>().join(" ")
}

/// The first two printed lines, with a blank between them.
pub fn answer(out: &str) -> String {
    out.lines().take(2).collect::<Vec<&str>>().join(" ")
}
