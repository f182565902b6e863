//! Calls of the library for tests/outside/response-times: each line of standard input has the words of a table, and one line answers it,
//! `ok` and 32 figures or `refused NUMBER POSITION`.
use std::io::{self, BufRead, Write};

fn main() -> io::Result<()> {
    let mut out = io::stdout().lock();
    for line in io::stdin().lock().lines() {
        let words: Vec<u32> = line?.split_whitespace().map(|word| word.parse().expect("a number")).collect();
        match sivorandra::response_times(&words) {
            Ok(figures) => writeln!(out, "ok {}", figures.map(|figure| figure.to_string()).join(" "))?,
            Err(refusal) => writeln!(out, "refused {} {}", refusal.number(), refusal.position())?,
        }
        out.flush()?;
    }
    Ok(())
}
