//! Calls of the library for tests/outside/sentence: each line of standard input is a call, and one line answers it.
//! `sentence LEN WORD..` is answered by `length N SENTENCE` or `refused NUMBER POSITION`; `facts HEX` by the numbers of the facts, as in the sentence's order,
//! or `no sentence`. The buffer lies between guards: if a byte past the sentence, or any in a refusal, has changed, the answer is `touched`.
use sivorandra::{facts_of, sentence_in};
use std::io::{self, BufRead, Write};

const GUARD: usize = 16;

fn sentence(len: usize, words: &[u32]) -> String {
    let before: Vec<u8> = (0..len + 2 * GUARD).map(|i| 0xa5 ^ i as u8).collect();
    let mut buffer = before.clone();
    let answer = sentence_in(words, &mut buffer[GUARD..GUARD + len]);
    let end = GUARD + answer.unwrap_or(0);
    if end > GUARD + len || buffer[..GUARD] != before[..GUARD] || buffer[end..] != before[end..] {
        return "touched".into();
    }
    match answer {
        Ok(length) => format!("length {length} {}", String::from_utf8_lossy(&buffer[GUARD..end])),
        Err(refusal) => format!("refused {} {}", refusal.number(), refusal.position()),
    }
}

fn facts(bytes: &[u8]) -> String {
    let Some(facts) = facts_of(bytes) else { return "no sentence".into() };
    let mut numbers = vec![u64::from(facts.position), facts.tick, facts.had, facts.length];
    for (place, &count) in facts.ran.iter().enumerate().filter(|&(_, &count)| count > 0) {
        numbers.extend([place as u64 + 1, count]);
    }
    numbers.iter().map(u64::to_string).collect::<Vec<_>>().join(" ")
}

fn main() -> io::Result<()> {
    let mut out = io::stdout().lock();
    for line in io::stdin().lock().lines() {
        let line = line?;
        let (call, rest) = line.split_once(' ').expect("a call and what it is given");
        let answer = match call {
            "sentence" => {
                let mut numbers = rest.split_whitespace().map(|word| word.parse().expect("a number"));
                let len = numbers.next().expect("a length");
                let words: Vec<u32> = numbers.collect();
                sentence(len as usize, &words)
            }
            _ => facts(&(0..rest.len() / 2).map(|i| u8::from_str_radix(&rest[2 * i..2 * i + 2], 16).expect("two digits")).collect::<Vec<_>>()),
        };
        writeln!(out, "{answer}")?;
        out.flush()?;
    }
    Ok(())
}
