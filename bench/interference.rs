//! Times the interference test of the library and its verdict in one process and by turns, on tables that are not refused: `interference RUNS < tables`, a line of words for each.
//! For each table a line: 1 if it passes the test, else 0; the verdict's case; and in nanoseconds of processor time, best of RUNS, the test and the verdict. A verdict that takes
//! some seconds runs once.
extern "C" {
    fn sivorandra_judge(words: *const u32, words_len: usize, answer: *mut u32, answer_len: usize) -> u32;
    fn sivorandra_bounds(words: *const u32, words_len: usize, figures: *mut u32, figures_len: usize, answer: *mut u32, answer_len: usize) -> u32;
    fn clock_gettime(clock: i32, time: *mut [i64; 2]) -> i32;
}

/// Nanoseconds after which the judge does not run again.
const ENOUGH: u64 = 500_000_000;
const THREAD_TIME: i32 = 3;

fn now() -> u64 {
    let mut time = [0; 2];
    assert_eq!(unsafe { clock_gettime(THREAD_TIME, &mut time) }, 0, "the processor time can be read");
    time[0] as u64 * 1_000_000_000 + time[1] as u64
}

fn main() {
    let runs: u32 = std::env::args().nth(1).expect("how many runs").parse().expect("a number");
    for line in std::io::stdin().lines() {
        let words: Vec<u32> = line.expect("a line").split_whitespace().map(|word| word.parse().expect("a word")).collect();
        let (mut figures, mut tested, mut answer) = ([0; 32], [0; 3], [0; 3]);
        let (mut test, mut verdict) = (u64::MAX, u64::MAX);
        for _ in 0..runs {
            let begun = now();
            assert_eq!(unsafe { sivorandra_bounds(words.as_ptr(), words.len(), figures.as_mut_ptr(), figures.len(), tested.as_mut_ptr(), tested.len()) }, 0, "the call is answered");
            test = test.min(now() - begun);
            if verdict == u64::MAX || verdict < ENOUGH {
                let begun = now();
                assert_eq!(unsafe { sivorandra_judge(words.as_ptr(), words.len(), answer.as_mut_ptr(), answer.len()) }, 0, "the call is answered");
                verdict = verdict.min(now() - begun);
            }
        }
        assert_eq!(tested[0], 0, "the table is not refused: {words:?}");
        println!("{} {} {test} {verdict}", tested[1], answer[0]);
    }
}
