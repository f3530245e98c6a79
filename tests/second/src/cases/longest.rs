//! The longest plan text that is accepted.

/// Eight behaviours of 32 ops and 16 starts. No line of an op is longer than that of a clause with the
/// longest value and a place of two digits, 30 bytes, and at most eight clauses follow a recv: three
/// times recv,8 and, at the five places that are left, recv,4. These five have 130 bytes, as five of
/// the next longest op would have, `same,3,i-2147483648,32`.
pub fn longest() -> Vec<u8> {
    let clause = "op=clause,i-2147483648,3,3,32\n";
    let eight = format!("op=recv,8\n{}", clause.repeat(8));
    let four = format!("op=recv,4\n{}", clause.repeat(4));
    let code = format!("code=32\n{}{four}", eight.repeat(3));
    let mut text = format!("plan=1\nbehaviours=8\n{}starts=16\n", code.repeat(8));
    for process in 1..=16 {
        text += &format!("start={process},8\n");
    }
    text.into_bytes()
}
