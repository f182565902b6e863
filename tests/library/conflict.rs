//! Calls of the library for tests/outside/conflict: each line of standard input has the words of a table, and one line answers it,
//! `kept SET` or `refused NUMBER POSITION`.
use std::io::{self, BufRead, Write};

fn main() -> io::Result<()> {
    let mut out = io::stdout().lock();
    for line in io::stdin().lock().lines() {
        let words: Vec<u32> = line?.split_whitespace().map(|word| word.parse().expect("a number")).collect();
        match sivorandra::conflict(&words) {
            Ok(kept) => writeln!(out, "kept {kept}")?,
            Err(refusal) => writeln!(out, "refused {} {}", refusal.number(), refusal.position())?,
        }
        out.flush()?;
    }
    Ok(())
}
