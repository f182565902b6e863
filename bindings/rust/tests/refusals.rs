//! Every number there can be, both ways; what is displayed; a refusal as an error; the counts of a run and the positions of a conflict.
use sivorandra::{conflict, judge, version, Refusal, Run, MOST_TASKS, VERSION};
use std::error::Error;

/// The last number that has a name of its own.
const LAST: u32 = 26;

/// Those that come with a position, and those that come with a tick.
const POSITIONS: [u32; 3] = [7, 8, 15];
const TICKS: [u32; 3] = [24, 25, 26];

/// The numbers that have a name of their own.
fn names() -> impl Iterator<Item = u32> {
    1..=LAST
}

#[test]
fn number_and_position_come_back() {
    for number in (0..600).chain([u32::MAX - 1, u32::MAX]) {
        for position in [0, 1, 2, 32, 33, 255, 256, u32::MAX] {
            let refusal = Refusal::new(number, position);
            let beside = if TICKS.contains(&number) { (0, position) } else { (position, 0) };
            assert_eq!((refusal.number(), (refusal.position(), refusal.tick())), (number, beside));
            let named = names().any(|name| name == number) && (position == 0 || POSITIONS.contains(&number) || TICKS.contains(&number));
            assert_eq!(!matches!(refusal, Refusal::Other { .. }), named, "{refusal:?}");
        }
    }
}

#[test]
fn each_says_its_meaning_and_number() {
    let said: Vec<String> = names().map(|number| Refusal::new(number, 0).to_string()).collect();
    for (number, text) in names().zip(&said) {
        assert!(text.ends_with(&format!(" (number {number})")), "{text}");
        assert_eq!(said.iter().filter(|other| other.starts_with(text.split(" (number").next().unwrap())).count(), 1, "{text}");
    }
    assert!(Refusal::new(15, 3).to_string().contains("position 3"));
    assert!(TICKS.iter().all(|&number| Refusal::new(number, 9).to_string().contains("tick 9")));
    assert_eq!(Refusal::new(77, 5).to_string(), "turned down at position 5 (number 77)");
}

#[test]
fn a_refusal_is_an_error() {
    fn asked() -> Result<(), Box<dyn Error>> {
        judge(&[])?;
        Ok(())
    }
    assert_eq!(asked().unwrap_err().downcast_ref(), Some(&Refusal::NotATable));
}

/// A table of as many tasks as there may be, each on a core of its own.
fn most_tasks() -> Vec<u32> {
    let mut table = vec![1, 64, 3, 2, 0];
    for next in 2..MOST_TASKS as u32 + 2 {
        table.extend([if next > MOST_TASKS as u32 { 0 } else { next }, 0, 1, 1, 9, 9, 1]);
    }
    table
}

#[test]
fn a_run_has_its_counts() {
    let run = Run::start(&most_tasks()).unwrap();
    assert_eq!((run.cores(), run.tasks()), (64, MOST_TASKS));
}

#[test]
fn a_conflict_has_its_positions() {
    for place in [0, 1, MOST_TASKS - 1] {
        let mut table = most_tasks();
        assert_eq!(conflict(&table), Err(Refusal::NoMiss));
        table[5 + 7 * place + 3] = 10; // C above D
        assert_eq!(conflict(&table), Ok(1 << place));
    }
}

#[test]
fn one_version() {
    let part = |text: &str| text.parse::<u32>().unwrap();
    let cargo = part(env!("CARGO_PKG_VERSION_MAJOR")) * 10000 + part(env!("CARGO_PKG_VERSION_MINOR")) * 100 + part(env!("CARGO_PKG_VERSION_PATCH"));
    assert_eq!((version(), VERSION), (cargo, cargo));
}
