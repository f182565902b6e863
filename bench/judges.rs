//! Times the library's two judges and the baseline (bench/baseline.rs) in one process and by turns, on tables that are not refused: `judges RUNS TABLE..`.
//! For each table a line: its name, the ticks up to the horizon or the miss, the events among them, and in nanoseconds of processor time, best of RUNS,
//! the faster of the two judges, the tick judge, which does not run again once it has taken some seconds, the event-driven baseline, and the response times.
#[path = "baseline.rs"]
#[allow(dead_code)]
mod baseline;

use baseline::Table;

/// Nanoseconds after which the tick judge does not run again.
const ENOUGH: u64 = 4_000_000_000;
const THREAD_TIME: i32 = 3;

extern "C" {
    fn sivorandra_judge(words: *const u32, words_len: usize, answer: *mut u32, answer_len: usize) -> u32;
    fn sivorandra_judge_ticks(words: *const u32, words_len: usize, answer: *mut u32, answer_len: usize) -> u32;
    fn sivorandra_response_times(words: *const u32, words_len: usize, figures: *mut u32, figures_len: usize, answer: *mut u32, answer_len: usize) -> u32;
    fn clock_gettime(clock: i32, time: *mut [i64; 2]) -> i32;
}

fn now() -> u64 {
    let mut time = [0; 2];
    assert_eq!(unsafe { clock_gettime(THREAD_TIME, &mut time) }, 0, "the processor time can be read");
    time[0] as u64 * 1_000_000_000 + time[1] as u64
}

type Judge = unsafe extern "C" fn(*const u32, usize, *mut u32, usize) -> u32;

fn library(judge: Judge, words: &[u32]) -> String {
    let mut answer = [0; 3];
    assert_eq!(unsafe { judge(words.as_ptr(), words.len(), answer.as_mut_ptr(), answer.len()) }, 0, "the call is answered");
    format!("{} {} {}", ["firm", "full", "miss", "refused"][answer[0] as usize], answer[1], answer[2])
}

/// The response times, and their verdict: 13 for a miss.
fn response_times(words: &[u32], verdict: &str) -> String {
    let (mut figures, mut answer) = ([0; 32], [0; 3]);
    let value = unsafe { sivorandra_response_times(words.as_ptr(), words.len(), figures.as_mut_ptr(), figures.len(), answer.as_mut_ptr(), answer.len()) };
    assert_eq!((value, answer), (0, if verdict.starts_with("miss") { [3, 13, 0] } else { [0; 3] }), "the call is answered as the verdict says");
    verdict.into()
}

/// The number of ticks in 1..=`end` that are events: a job is released, is due, ended or not, or ends.
fn events(table: &Table, end: u32) -> u64 {
    let count = table.tasks.len();
    let mut width = [0; 32];
    table.tasks.iter().enumerate().for_each(|(place, task)| width[place] = task.second);
    let (mut left, mut due, mut next) = ([0u32; 32], [u32::MAX; 32], [u32::MAX; 32]);
    table.tasks.iter().enumerate().for_each(|(place, task)| next[place] = task.offset);
    let (mut tick, mut claiming, mut found) = (0, 0u32, 0);
    while tick < end {
        for place in 0..count {
            if due[place] == tick {
                due[place] = u32::MAX;
            }
            if next[place] == tick {
                let task = &table.tasks[place];
                (left[place], due[place], next[place]) = (task.length, tick + task.deadline, tick + task.period);
                claiming |= 1 << place;
                width[place] ^= task.width ^ task.second;
            }
        }
        let granted = baseline::choose(table, &width, claiming);
        let runs = |place: &usize| granted >> place & 1 != 0;
        let next_event = (0..count).map(|place| due[place].min(next[place])).min().unwrap_or(end);
        let ticks = (0..count).filter(runs).map(|place| left[place]).min().unwrap_or(u32::MAX).min(next_event - tick);
        for place in (0..count).filter(runs) {
            left[place] -= ticks;
            if left[place] == 0 {
                claiming &= !(1 << place);
            }
        }
        tick += ticks;
        found += 1;
    }
    found
}

fn main() {
    let given: Vec<String> = std::env::args().skip(1).collect();
    let runs: u32 = given[0].parse().expect("a number of runs");
    for path in &given[1..] {
        let text = std::fs::read(path).expect("the table can be read");
        let words = baseline::numbers(&text).expect("a table's text");
        let table = baseline::load(&text).unwrap_or_else(|refusal| panic!("{path} is refused: {refusal:?}"));
        let expected = baseline::verdict(&table, true);
        let judges: [(bool, &dyn Fn() -> String); 4] = [
            (false, &|| library(sivorandra_judge, &words)),
            (true, &|| library(sivorandra_judge_ticks, &words)),
            (false, &|| baseline::verdict(&table, true)),
            (false, &|| response_times(&words, &expected)),
        ];
        let (mut least, mut spent) = ([u64::MAX; 4], [0; 4]);
        for _ in 0..runs {
            for (at, (by_ticks, judge)) in judges.iter().enumerate() {
                if *by_ticks && spent[at] > ENOUGH {
                    continue;
                }
                let begun = now();
                let said = judge();
                let took = now() - begun;
                assert_eq!(said, expected, "the verdicts on {path} differ");
                least[at] = least[at].min(took);
                spent[at] += took;
            }
        }
        let end = match expected.split_once(' ').expect("a verdict") {
            ("miss", rest) => rest.split(' ').next().and_then(|tick| tick.parse().ok()).expect("a tick"),
            _ => (table.s + table.p) as u32,
        };
        println!("{path} {end} {} {} {} {} {}", events(&table, end), least[0], least[1], least[2], least[3]);
    }
}
