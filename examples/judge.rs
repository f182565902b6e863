//! Judges a table from Rust: judge FILE prints the verdict, why where it misses, and the first rows.
//! The status is 0 where the table is accepted, 1 where it misses, 2 where it is refused.
//! `cargo run --manifest-path bindings/rust/Cargo.toml --example judge -- tables/a.txt`
use sivorandra::{judge, plan, sentence, Refusal, Verdict, MOST_CORES, TABLE_WORDS};
use std::env;
use std::fs;
use std::process::exit;

/// At most so many rows are printed.
const ROWS: u32 = 10;

/// The numbers of a text, one a line; none, which is no table, where a line has something else.
fn words_in(text: &str) -> Vec<u32> {
    let words: Option<Vec<u32>> = text.lines().map(|line| line.parse().ok()).collect();
    words.filter(|words| words.len() <= TABLE_WORDS).unwrap_or_default()
}

/// Prints the answers; whether the table is accepted.
fn show(words: &[u32]) -> Result<bool, Refusal> {
    let verdict = judge(words)?;
    println!("{verdict}");
    let (accepted, ticks) = match verdict {
        Verdict::Firm { start, period } | Verdict::Full { start, period } => (true, start + period),
        Verdict::Miss { tick, .. } => (false, tick),
    };
    if !accepted {
        println!("{}", sentence(words)?);
    }

    let (cores, shown) = (words[1] as usize, ticks.min(ROWS));
    let mut rows = [0; ROWS as usize * MOST_CORES];
    plan(words, 0, shown, &mut rows)?;
    for (tick, row) in rows.chunks(cores).take(shown as usize).enumerate() {
        let bytes: Vec<String> = row.iter().map(u8::to_string).collect();
        println!("{tick} {}", bytes.join(" "));
    }
    Ok(accepted)
}

fn main() {
    let names: Vec<String> = env::args().skip(1).collect();
    let [name] = &names[..] else {
        eprintln!("usage: judge FILE");
        exit(3);
    };
    let Ok(text) = fs::read_to_string(name) else {
        eprintln!("judge: {name} cannot be read");
        exit(3);
    };
    match show(&words_in(&text)) {
        Ok(accepted) => exit(!accepted as i32),
        Err(refusal) => {
            println!("refused {} {}: {refusal}", refusal.number(), refusal.position());
            exit(2);
        }
    }
}
