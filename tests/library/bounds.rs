//! Calls of the library for tests/outside/bounds: each line of standard input is a call, and one line answers it.
//! `bounds WORD..` asks for the interference test, and the answer is `ok` and 32 bounds, `none` or `refused NUMBER POSITION`; `judge WORD..` asks the chooser for the verdict and
//! `ticks WORD..` the tick judge, and the answer is the program's verdict line; `longest WORD..` for the response times, `ok` and 32 figures.
use sivorandra::{bounds, judge, judge_ticks, response_times, Refusal, MOST_TASKS};
use std::io::{self, BufRead, Write};

fn turned_down(refusal: Refusal) -> String {
    format!("refused {} {}", refusal.number(), refusal.position())
}

fn listed(figures: [u32; MOST_TASKS]) -> String {
    format!("ok {}", figures.map(|figure| figure.to_string()).join(" "))
}

fn main() -> io::Result<()> {
    let mut out = io::stdout().lock();
    for line in io::stdin().lock().lines() {
        let line = line?;
        let mut given = line.split_whitespace();
        let call = given.next();
        let words: Vec<u32> = given.map(|word| word.parse().expect("a number")).collect();
        let answer = match call {
            Some("bounds") => bounds(&words).map(|found| found.map_or("none".to_string(), listed)),
            Some("longest") => response_times(&words).map(listed),
            Some("ticks") => judge_ticks(&words).map(|verdict| verdict.to_string()),
            _ => judge(&words).map(|verdict| verdict.to_string()),
        };
        writeln!(out, "{}", answer.unwrap_or_else(turned_down))?;
        out.flush()?;
    }
    Ok(())
}
