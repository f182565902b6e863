//! Calls of the library for tests/outside/judges: each line of standard input is a call, and one line answers it.
//! `judge WORD..` asks the fastest way, `ticks WORD..` the tick judge, `events WORD..` the event judge; the answer is the program's verdict line.
use sivorandra::{judge, judge_events, judge_ticks, Refusal, Verdict};
use std::io::{self, BufRead, Write};

fn line_of(verdict: Result<Verdict, Refusal>) -> String {
    match verdict {
        Ok(verdict) => verdict.to_string(),
        Err(refusal) => format!("refused {} {}", refusal.number(), refusal.position()),
    }
}

fn main() -> io::Result<()> {
    let mut out = io::stdout().lock();
    for line in io::stdin().lock().lines() {
        let line = line?;
        let mut given = line.split_whitespace();
        let call = match given.next() {
            Some("ticks") => judge_ticks,
            Some("events") => judge_events,
            _ => judge,
        };
        let words: Vec<u32> = given.map(|word| word.parse().expect("a number")).collect();
        writeln!(out, "{}", line_of(call(&words)))?;
        out.flush()?;
    }
    Ok(())
}
