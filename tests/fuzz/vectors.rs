//! The examples through replay, the plan vectors, and those of runs built by hand and started: INDEX has lines 'NAME plan A B LEN', 'NAME run', 'NAME phases' and 'NAME book';
//! NAME.in is the table's text, or the run's or the table's and then operations, NAME.out the expected output.
use crate::simulator;
use crate::calls::{self, reported, same, Guarded, Checked};
use crate::rng::Rng;
use sivorandra::{Entry, Refusal, Run, ROW_BYTES};
use std::fs;

/// A refusal as it is printed.
fn refused(refusal: Refusal) -> String {
    format!("refused {} {}\n", refusal.number(), refusal.position())
}

/// What the library's plan gives, printed a row a line.
fn printed(text: &[u8], a: u32, b: u32, len: usize) -> Checked<String> {
    let mut lent = Guarded::bytes(&mut Rng::new(1), len);
    match simulator::numbers(text).and_then(|words| sivorandra::plan(&words, a, b, lent.lent()).map(|()| words[1] as usize)) {
        Ok(cores) => {
            let rows = lent.lent()[..(b - a) as usize * cores].to_vec();
            lent.holds("the rows", &rows)?;
            Ok(rows.chunks(cores).map(|row| row.iter().map(u8::to_string).collect::<Vec<_>>().join(" ") + "\n").collect())
        }
        Err(refusal) => {
            lent.as_found("the rows")?;
            Ok(refused(refusal))
        }
    }
}

fn one(name: &str, a: &str, b: &str, len: &str) -> Checked<()> {
    let read = |end| fs::read(format!("tests/vectors/{name}.{end}")).map_err(|why| why.to_string());
    let (text, expected) = (read("in")?, read("out")?);
    let parse = |word: &str| word.parse::<u32>().map_err(|why| why.to_string());
    let got = printed(&text, parse(a)?, parse(b)?, parse(len)? as usize)?;
    same(&format!("for {:?}", String::from_utf8_lossy(&text)), String::from_utf8_lossy(&expected), got.into())
}

/// The library's answers to operations on a run: `r [EMPTIES]` a row, `s [EMPTIES]` its sets, `a REPORTS [EMPTIES]` an advance, `w POSITION` a withdrawal,
/// `W SET` several together, `p` the run as text.
fn operated(mut run: Run, operations: Vec<String>) -> Checked<String> {
    let mut out = String::new();
    for operation in operations {
        let mut words = operation.split(' ');
        let kind = words.next();
        let sets: Vec<u32> = words.map(str::parse).collect::<Result<_, _>>().map_err(|_| format!("no operation: {operation}"))?;
        let empties = |at: usize| sets.get(at).copied().unwrap_or(0);
        out += &match kind {
            Some("p") => simulator::text_of(run.words()),
            Some("r") => run.row(empties(0)).map_or_else(refused, |row| {
                let cores = run.words()[1] as usize;
                format!("row {}\n", row[..cores].iter().map(u8::to_string).collect::<Vec<_>>().join(" "))
            }),
            Some("s") => run.sets(empties(0)).map_or_else(refused, |sets| format!("sets {}\n", sets.map(|set| set.to_string()).join(" "))),
            Some("a") if !sets.is_empty() => run.advance(sets[0], empties(1)).map_or_else(refused, |()| "taken\n".into()),
            Some("w") if sets.len() == 1 => run.withdraw(sets[0]).map_or_else(refused, |()| "taken\n".into()),
            Some("W") if sets.len() == 1 => run.withdraw_all(sets[0]).map_or_else(refused, |()| "taken\n".into()),
            _ => return Err(format!("no operation: {operation}")),
        };
    }
    Ok(out)
}

/// .. on one built by hand.
fn built(text: &[u8]) -> Checked<String> {
    let (words, operations) = simulator::built_from(text, &calls::NO_RUN);
    operated(Run::from_words(words), operations)
}

/// .. on one that is started, after start's answer; on the run of all zeros if it is refused.
fn started(text: &[u8]) -> Checked<String> {
    let (before, operations) = simulator::split(text);
    match simulator::numbers(&before).and_then(|words| Run::start(&words)) {
        Ok(run) => Ok("ok\n".to_string() + &operated(run, operations)?),
        Err(refusal) => Ok(refused(refusal) + &operated(Run::from_words(calls::NO_RUN), operations)?),
    }
}

fn one_run(name: &str, answers: fn(&[u8]) -> Checked<String>) -> Checked<()> {
    let read = |end| fs::read(format!("tests/vectors/{name}.{end}")).map_err(|why| why.to_string());
    let (text, expected) = (read("in")?, read("out")?);
    same(&format!("for {:?}", String::from_utf8_lossy(&text)), String::from_utf8_lossy(&expected), answers(&text)?.into())
}

/// Example B with its report, that the job of position 1 ends after tick 0 (figure 2, right side), and with an empty job there; B3 with the same; and figure 3 of Goossens and Berten,
/// limited slack reclaiming, with its report (right side), with an empty job there, with a borrower reported and with the holder, which is refused, through replay.
fn examples() -> Vec<(String, Checked<()>)> {
    let row_of = |positions: &[u8]| {
        let mut bytes = [0; ROW_BYTES];
        bytes[..positions.len()].copy_from_slice(positions);
        Ok(bytes)
    };
    let (row, three) = (|positions: [u8; 2]| row_of(&positions), |positions: [u8; 3]| row_of(&positions));
    let late = Err(Refusal::Late { position: 3 });
    let empty = Entry::Advance { reports: 0, empties: 1 };
    let cases = [
        ("b-full-not-firm", vec![], row([1, 3])),
        ("b-full-not-firm", vec![reported(1)], row([2, 2])),
        ("b-full-not-firm", vec![reported(1), reported(0)], late),
        ("b-full-not-firm", vec![empty], row([3, 0])),
        ("b-full-not-firm", vec![empty, reported(0)], late),
        ("b3-idling-is-firm", vec![reported(1)], row([1, 3])),
        ("b3-idling-is-firm", vec![reported(1), reported(0)], row([1, 0])),
        ("b3-idling-is-firm", vec![reported(1), reported(0), reported(0)], row([2, 2])),
        ("b3-idling-is-firm", vec![empty], row([1, 3])),
        ("b3-idling-is-firm", vec![empty, reported(0), reported(0)], row([2, 2])),
        ("lending-figure-3", vec![], three([1, 1, 3])),
        ("lending-figure-3", vec![reported(1)], three([4, 6, 3])),
        ("lending-figure-3", vec![reported(1), reported(0)], three([5, 5, 4])),
        ("lending-figure-3", vec![reported(1), reported(0), reported(0)], three([2, 2, 2])),
        ("lending-figure-3", vec![reported(1), reported(0), reported(0), reported(0)], three([4, 5, 5])),
        ("lending-figure-3", vec![reported(1), reported(0), reported(0), reported(0), reported(0)], three([5, 5, 6])),
        ("lending-figure-3", vec![reported(1), reported(8)], three([5, 5, 4])),
        ("lending-figure-3", vec![empty], three([4, 1, 3])),
    ];
    let one = |table: &str, list: &[Entry], last: Result<[u8; ROW_BYTES], Refusal>| {
        let text = fs::read(format!("tables/{table}.txt")).map_err(|why| why.to_string())?;
        let words = simulator::numbers(&text).map_err(|why| format!("{why:?}"))?;
        calls::replay(&mut Rng::new(1), &words, list, &Ok((vec![0; list.len()], last)))
    };
    cases.into_iter().map(|(table, list, last)| (format!("{table} replayed with {list:?}"), one(table, &list, last))).collect()
}

/// Each example and vector by name, and whether the library gives its output.
pub fn all() -> Vec<(String, Checked<()>)> {
    let index = fs::read_to_string("tests/vectors/INDEX").unwrap_or_default();
    let plans = index.lines().filter_map(|line| match line.split(' ').collect::<Vec<_>>()[..] {
        [name, "plan", a, b, len] => Some((format!("vector {name}"), one(name, a, b, len))),
        [name, "run"] => Some((format!("vector {name}, a run"), one_run(name, built))),
        [name, "phases" | "book"] => Some((format!("vector {name}, a run that is started"), one_run(name, started))),
        _ => None,
    });
    plans.chain(examples()).collect()
}
