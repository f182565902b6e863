//! Calls of the library for tests/outside/slack: each line of standard input is a call, and one line answers it.
//! `slack WORD..` asks for the slack, and the answer is `ok` and 32 figures or `refused NUMBER POSITION`; `judge WORD..` for the verdict, and the answer is the program's verdict line.
use sivorandra::{judge, slack, Refusal};
use std::io::{self, BufRead, Write};

fn turned_down(refusal: Refusal) -> String {
    format!("refused {} {}", refusal.number(), refusal.position())
}

fn main() -> io::Result<()> {
    let mut out = io::stdout().lock();
    for line in io::stdin().lock().lines() {
        let line = line?;
        let mut given = line.split_whitespace();
        let asks_slack = given.next() == Some("slack");
        let words: Vec<u32> = given.map(|word| word.parse().expect("a number")).collect();
        let answer = if asks_slack {
            slack(&words).map(|figures| format!("ok {}", figures.map(|figure| figure.to_string()).join(" ")))
        } else {
            judge(&words).map(|verdict| verdict.to_string())
        };
        writeln!(out, "{}", answer.unwrap_or_else(turned_down))?;
        out.flush()?;
    }
    Ok(())
}
