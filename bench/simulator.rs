// gangsim: a reference simulator for rigid gang tasks under fixed task priority.
//
// Written from the scope paper "Cores and ticks" and from Goossens and Berten alone, as the "simulator by another hand".  It is job based: it
// keeps a ledger of jobs - release, ticks had, ticks claimed, ended or not - exactly the
// columns of the paper's "book of a run", and nothing else.  There are no phases here.
//
//   gangsim judge            table on standard input; verdict line, then the rows
//   gangsim verdict          the same, verdict line only
//   gangsim plan A B LEN     rows A up to but not including B into LEN bytes
//   gangsim book             table, a line "--", then one operation a line:
//                              a BITS   an advance with that (decimal) report set
//                              r        a row asked
//
// Build: rustc -O gangsim.rs
//
// How the file is laid out
//   1. the limits of the paper
//   2. reading numbers from text
//   3. the table: checks 1 to 9, S, P and horizon
//   4. the ledger: jobs, claims, grants, what a tick does to them
//   5. judge, plan and book on top of the ledger
//   6. printing

use std::io::{self, BufWriter, Read, Write};

// ---------------------------------------------------------------------------------------
// 1. Limits
// ---------------------------------------------------------------------------------------

const HEAD_WORDS: usize = 3; // head, core count, rule
const RECORD_WORDS: usize = 6; // next, O, v, C, D, T
const MOST_RECORDS: usize = 32;
const MOST_WORDS: usize = HEAD_WORDS + MOST_RECORDS * RECORD_WORDS; // 195
const MOST_CORES: u32 = 64;
const MOST_TICKS: u32 = 1_000_000; // for O, C and T
const MOST_HORIZON: u64 = 10_000_000;

/// What is turned down: the paper's number, and a position (0 where none is given).
#[derive(Clone, Copy, PartialEq, Eq, Debug)]
struct Refusal {
    number: u32,
    position: usize,
}

fn refuse<T>(number: u32) -> Result<T, Refusal> {
    Err(Refusal { number, position: 0 })
}

fn refuse_at<T>(number: u32, position: usize) -> Result<T, Refusal> {
    Err(Refusal { number, position })
}

// ---------------------------------------------------------------------------------------
// 2. Numbers from text
// ---------------------------------------------------------------------------------------

/// One decimal number a line.  Anything the format does not allow is refusal 1:
/// a character that is no digit, an empty line, more than ten digits, a number above
/// 4,294,967,295, more than 195 numbers.  Only the last line may lack its newline.
fn read_numbers(text: &[u8]) -> Result<Vec<u32>, Refusal> {
    let mut numbers = Vec::new();
    if text.is_empty() {
        return Ok(numbers); // no line at all: no number; check 1 turns the table down
    }
    // A newline ends a line.  If the text ends with one, no further line begins there.
    let body = text.strip_suffix(b"\n").unwrap_or(text);
    for line in body.split(|&byte| byte == b'\n') {
        let ten_digits = (1..=10).contains(&line.len()) && line.iter().all(u8::is_ascii_digit);
        if !ten_digits {
            return refuse(1);
        }
        let value = line.iter().fold(0u64, |n, &digit| n * 10 + u64::from(digit - b'0'));
        if value > u64::from(u32::MAX) || numbers.len() == MOST_WORDS {
            return refuse(1);
        }
        numbers.push(value as u32);
    }
    Ok(numbers)
}

// ---------------------------------------------------------------------------------------
// 3. The table
// ---------------------------------------------------------------------------------------

#[derive(Clone, Copy, PartialEq, Eq, Debug)]
enum Rule {
    Greedy,
    Limited,
    Idling,
}

#[derive(Clone, Copy, Debug)]
struct Task {
    offset: u64,   // O
    width: u32,    // v, the gang width
    length: u32,   // C
    deadline: u64, // D, relative
    period: u64,   // T
}

/// A table that has passed checks 1 to 9.  tasks[0] is position 1.
struct Table {
    cores: u32,
    rule: Rule,
    tasks: Vec<Task>,
    last_s: u64,      // S of the last position
    hyperperiod: u64, // P
}

impl Table {
    fn horizon(&self) -> u64 {
        self.last_s + self.hyperperiod
    }

    /// Rules 2 and 3 always; rule 1 where widths never fall along the chain.
    fn is_firm(&self) -> bool {
        self.rule != Rule::Greedy || self.tasks.windows(2).all(|w| w[0].width <= w[1].width)
    }

    /// Checks 1 to 9, in the order of the paper.
    fn check(words: &[u32]) -> Result<Table, Refusal> {
        // 1: the length of the slice
        if words.len() < HEAD_WORDS || (words.len() - HEAD_WORDS) % RECORD_WORDS != 0 {
            return refuse(1);
        }
        let records: Vec<&[u32]> = words[HEAD_WORDS..].chunks(RECORD_WORDS).collect();
        if records.len() > MOST_RECORDS {
            return refuse(1);
        }
        // 2: the core count
        let cores = words[1];
        if cores < 1 || cores > MOST_CORES {
            return refuse(2);
        }
        // 3: the rule
        let rule = match words[2] {
            1 => Rule::Greedy,
            2 => Rule::Limited,
            3 => Rule::Idling,
            _ => return refuse(3),
        };
        // 4: the head
        if words[0] == 0 {
            return refuse(4);
        }
        // 5 and 6: walk the chain, whichever is met first
        let mut met = vec![false; records.len() + 1];
        let mut chain: Vec<&[u32]> = Vec::new();
        let mut number = words[0] as usize;
        while number != 0 {
            if number > records.len() {
                return refuse(5);
            }
            if met[number] {
                return refuse(6);
            }
            met[number] = true;
            chain.push(records[number - 1]);
            number = records[number - 1][0] as usize;
        }
        // 7 and 8: by position, within a task the width first
        let mut tasks = Vec::new();
        for (place, record) in chain.iter().enumerate() {
            let (offset, width, length) = (record[1], record[2], record[3]);
            let (deadline, period) = (record[4], record[5]);
            if width < 1 || width > cores {
                return refuse_at(7, place + 1);
            }
            let in_limits = offset <= MOST_TICKS
                && (1..=MOST_TICKS).contains(&length)
                && (1..=MOST_TICKS).contains(&period)
                && (1..=period).contains(&deadline);
            if !in_limits {
                return refuse_at(8, place + 1);
            }
            tasks.push(Task {
                offset: u64::from(offset),
                width,
                length,
                deadline: u64::from(deadline),
                period: u64::from(period),
            });
        }
        // 9: the horizon.  The least common multiple may be astronomically large, but
        // once it is past the limit no further period can bring it back, so stop there.
        let last_s = last_s(&tasks);
        let mut hyperperiod: u64 = 1;
        for task in &tasks {
            hyperperiod = lcm(hyperperiod, task.period);
            if hyperperiod > MOST_HORIZON {
                return refuse(9);
            }
        }
        if last_s + hyperperiod > MOST_HORIZON {
            return refuse(9);
        }
        Ok(Table { cores, rule, tasks, last_s, hyperperiod })
    }
}

/// S along the chain (001, theorem 25): the first position's O; then for each later
/// position its first release not before the S of the position above it.
fn last_s(tasks: &[Task]) -> u64 {
    let mut s = tasks[0].offset;
    for task in &tasks[1..] {
        s = if s <= task.offset {
            task.offset
        } else {
            task.offset + (s - task.offset).div_ceil(task.period) * task.period
        };
    }
    s
}

fn gcd(a: u64, b: u64) -> u64 {
    if b == 0 {
        a
    } else {
        gcd(b, a % b)
    }
}

/// Both are at most 10,000,000 here, so the product fits easily.
fn lcm(a: u64, b: u64) -> u64 {
    a / gcd(a, b) * b
}

// ---------------------------------------------------------------------------------------
// 4. The ledger of jobs
// ---------------------------------------------------------------------------------------

/// A job's line in the ledger.
#[derive(Clone, Copy, Debug)]
struct Job {
    release: u64,
    had: u32,     // ticks had
    claimed: u32, // ticks claimed (differs from had only after an early end, rule 3)
    ended: bool,
}

/// A set of positions: bit 0 is position 1.
type Positions = u32;

/// The ledger at a tick.  D is at most T, so of each task only the job released last can
/// still matter; the earlier ones have ended, or the ledger would have come to a stop at
/// their deadline.
struct Ledger<'a> {
    table: &'a Table,
    tick: u64,
    /// The job released last of each task; none before the first release.
    job: Vec<Option<Job>>,
    next_release: Vec<u64>,
    /// Whose job claims cores in this tick.
    claiming: Positions,
    /// The next tick at which any job is released or any deadline falls.  Between two
    /// such ticks nobody's deadline and nobody's release has to be looked at.
    next_bell: u64,
}

impl<'a> Ledger<'a> {
    fn new(table: &'a Table) -> Ledger<'a> {
        Ledger {
            table,
            tick: 0,
            job: vec![None; table.tasks.len()],
            next_release: table.tasks.iter().map(|task| task.offset).collect(),
            claiming: 0,
            next_bell: 0,
        }
    }

    /// The start of a tick.  First the deadlines that fall on it: a job that has not
    /// ended is a miss, and the lowest position is answered.  Only then the releases, so
    /// that with D = T a new job never covers up the old one's miss.  Opening the same
    /// tick twice changes nothing.
    fn open_tick(&mut self) -> Result<(), usize> {
        if self.tick < self.next_bell {
            return Ok(());
        }
        for (place, task) in self.table.tasks.iter().enumerate() {
            if let Some(job) = self.job[place] {
                if job.release + task.deadline <= self.tick {
                    if !job.ended {
                        return Err(place + 1);
                    }
                    self.claiming &= !(1 << place); // no claim past the deadline
                }
            }
        }
        self.next_bell = u64::MAX;
        for (place, task) in self.table.tasks.iter().enumerate() {
            if self.next_release[place] == self.tick {
                self.job[place] =
                    Some(Job { release: self.tick, had: 0, claimed: 0, ended: false });
                self.claiming |= 1 << place;
                self.next_release[place] += task.period;
            }
            self.next_bell = self.next_bell.min(self.next_release[place]);
            if let Some(job) = self.job[place] {
                let deadline = job.release + task.deadline;
                if deadline > self.tick {
                    self.next_bell = self.next_bell.min(deadline);
                }
            }
        }
        Ok(())
    }

    /// Who is granted cores in the opened tick: claims in priority order against the
    /// cores still free.  A claim that doesn't fit is passed over, but under the limited
    /// rule it ends the choosing.
    fn grants(&self) -> Positions {
        let mut free = self.table.cores;
        let mut granted: Positions = 0;
        let mut waiting = self.claiming;
        while waiting != 0 && free > 0 {
            let place = waiting.trailing_zeros() as usize;
            waiting &= waiting - 1;
            let width = self.table.tasks[place].width;
            if width <= free {
                free -= width;
                granted |= 1 << place;
            } else if self.table.rule == Rule::Limited {
                break;
            }
        }
        granted
    }

    /// The row that the grants make: each granted task in priority order takes the
    /// lowest-numbered cores that are still free.  `row` has one byte a core.
    fn paint(&self, granted: Positions, row: &mut [u8]) {
        row.fill(0);
        let mut core = 0;
        for (place, task) in self.table.tasks.iter().enumerate() {
            if granted & (1 << place) != 0 {
                // Cores are handed out from the lowest up and none comes back within a
                // tick, so the free ones are exactly those from `core` on.
                let end = core + task.width as usize;
                row[core..end].fill(place as u8 + 1);
                core = end;
            }
        }
    }

    /// Is the job of this place one that still works (released, claiming, not ended)?
    fn works(&self, place: usize) -> bool {
        self.claiming & (1 << place) != 0 && self.job[place].is_some_and(|job| !job.ended)
    }

    /// The end of the opened tick: each granted job has claimed one tick more and, if it
    /// had not ended, has had one more; it ends if reported or at C ticks.
    fn close_tick(&mut self, granted: Positions, reported: Positions) {
        let mut rest = granted;
        while rest != 0 {
            let place = rest.trailing_zeros() as usize;
            rest &= rest - 1;
            let length = self.table.tasks[place].length;
            let job = self.job[place].as_mut().expect("a granted task has a job");
            job.claimed += 1;
            if !job.ended {
                job.had += 1;
                job.ended = job.had == length || reported & (1 << place) != 0;
            }
            let goes_on = !job.ended || (self.table.rule == Rule::Idling && job.claimed < length);
            if !goes_on {
                self.claiming &= !(1 << place);
            }
        }
        self.tick += 1;
    }
}

// ---------------------------------------------------------------------------------------
// 5. Judge, plan, book
// ---------------------------------------------------------------------------------------

#[derive(Clone, Copy, PartialEq, Eq, Debug)]
enum Verdict {
    Firm { s: u64, p: u64 },
    Full { s: u64, p: u64 },
    Miss { tick: u64, position: usize },
}

/// The first miss of the full-length run among the deadlines up to and including `last`.
fn first_miss(table: &Table, last: u64) -> Option<(u64, usize)> {
    let mut ledger = Ledger::new(table);
    loop {
        if let Err(position) = ledger.open_tick() {
            return Some((ledger.tick, position));
        }
        if ledger.tick == last {
            return None;
        }
        let granted = ledger.grants();
        ledger.close_tick(granted, 0);
    }
}

fn judge(table: &Table) -> Verdict {
    let (s, p) = (table.last_s, table.hyperperiod);
    match first_miss(table, table.horizon()) {
        Some((tick, position)) => Verdict::Miss { tick, position },
        None if table.is_firm() => Verdict::Firm { s, p },
        None => Verdict::Full { s, p },
    }
}

/// Rows `from` up to but not including `to` of the full-length run, in order.  The caller
/// has made sure that no miss comes before `to`.
fn each_row(
    table: &Table,
    from: u64,
    to: u64,
    mut take: impl FnMut(u64, &[u8]) -> io::Result<()>,
) -> io::Result<()> {
    let mut ledger = Ledger::new(table);
    let mut row = vec![0u8; table.cores as usize];
    while ledger.tick < to {
        ledger.open_tick().expect("no miss before the last row");
        let granted = ledger.grants();
        if ledger.tick >= from {
            ledger.paint(granted, &mut row);
            take(ledger.tick, &row)?;
        }
        ledger.close_tick(granted, 0);
    }
    Ok(())
}

/// Checks 10 to 12 of a plan.
fn check_plan(table: &Table, a: u64, b: u64, bytes: u64) -> Result<(), Refusal> {
    if a > b || b > table.horizon() {
        return refuse(10);
    }
    if bytes < (b - a) * u64::from(table.cores) {
        return refuse(11);
    }
    if b > 0 && first_miss(table, b - 1).is_some() {
        return refuse(12); // the first miss is at a tick below b
    }
    Ok(())
}

/// The book of a run: what start, row and advance have to answer.
struct Book<'a> {
    ledger: Ledger<'a>,
}

impl<'a> Book<'a> {
    /// Check 13: a table that misses starts no run.
    fn start(table: &'a Table) -> Result<Book<'a>, Refusal> {
        if let Verdict::Miss { .. } = judge(table) {
            return refuse(13);
        }
        Ok(Book { ledger: Ledger::new(table) })
    }

    /// The grants of the present tick, or 15 where a deadline has been missed.
    fn grants(&mut self) -> Result<Positions, Refusal> {
        match self.ledger.open_tick() {
            Ok(()) => Ok(self.ledger.grants()),
            Err(position) => refuse_at(15, position),
        }
    }

    fn row(&mut self) -> Result<Vec<u8>, Refusal> {
        let granted = self.grants()?;
        let mut row = vec![0u8; self.ledger.table.cores as usize];
        self.ledger.paint(granted, &mut row);
        Ok(row)
    }

    fn advance(&mut self, bits: u64) -> Result<(), Refusal> {
        let granted = self.grants()?;
        // 16: a bit for anything but a position in the row whose job has not ended
        let mut may_report: u64 = 0;
        for place in 0..self.ledger.table.tasks.len() {
            if granted & (1 << place) != 0 && self.ledger.works(place) {
                may_report |= 1 << place;
            }
        }
        if bits & !may_report != 0 {
            return refuse(16);
        }
        self.ledger.close_tick(granted, bits as Positions);
        Ok(())
    }
}

// ---------------------------------------------------------------------------------------
// 6. Printing, and the four subcommands
// ---------------------------------------------------------------------------------------

fn print_refusal(out: &mut impl Write, refusal: Refusal) -> io::Result<()> {
    writeln!(out, "refused {} {}", refusal.number, refusal.position)
}

fn print_verdict(out: &mut impl Write, verdict: Verdict) -> io::Result<()> {
    match verdict {
        Verdict::Firm { s, p } => writeln!(out, "firm {s} {p}"),
        Verdict::Full { s, p } => writeln!(out, "full {s} {p}"),
        Verdict::Miss { tick, position } => writeln!(out, "miss {tick} {position}"),
    }
}

/// The cores of a row, each after a blank.  Ten million rows may be printed, so the
/// decimal text of the positions 0 to 32 is spelt by hand.
fn spell_row(line: &mut Vec<u8>, row: &[u8]) {
    for &position in row {
        line.push(b' ');
        if position >= 10 {
            line.push(b'0' + position / 10);
        }
        line.push(b'0' + position % 10);
    }
}

fn table_from_text(text: &[u8]) -> Result<Table, Refusal> {
    Table::check(&read_numbers(text)?)
}

fn command_judge(text: &[u8], with_rows: bool, out: &mut impl Write) -> io::Result<()> {
    let table = match table_from_text(text) {
        Ok(table) => table,
        Err(refusal) => return print_refusal(out, refusal),
    };
    let verdict = judge(&table);
    print_verdict(out, verdict)?;
    if !with_rows {
        return Ok(());
    }
    let rows_end = match verdict {
        Verdict::Miss { tick, .. } => tick,
        _ => table.horizon(),
    };
    let mut line = Vec::new();
    each_row(&table, 0, rows_end, |tick, row| {
        line.clear();
        write!(line, "{tick}")?;
        spell_row(&mut line, row);
        line.push(b'\n');
        out.write_all(&line)
    })
}

fn command_plan(text: &[u8], a: u64, b: u64, bytes: u64, out: &mut impl Write) -> io::Result<()> {
    let checked = table_from_text(text).and_then(|table| {
        check_plan(&table, a, b, bytes)?;
        Ok(table)
    });
    let table = match checked {
        Ok(table) => table,
        Err(refusal) => return print_refusal(out, refusal),
    };
    let mut line = Vec::new();
    each_row(&table, a, b, |_, row| {
        line.clear();
        spell_row(&mut line, row);
        line.push(b'\n');
        out.write_all(&line[1..])
    })
}

fn command_book(text: &[u8], out: &mut impl Write) -> io::Result<()> {
    // The table stands before the line "--", the operations after it.
    let (mut before, mut after): (Vec<u8>, Vec<u8>) = (Vec::new(), Vec::new());
    let mut past_table = false;
    for line in text.split_inclusive(|&byte| byte == b'\n') {
        if !past_table && line.strip_suffix(b"\n").unwrap_or(line) == b"--" {
            past_table = true;
        } else if past_table {
            after.extend_from_slice(line);
        } else {
            before.extend_from_slice(line);
        }
    }
    let operations = String::from_utf8_lossy(&after).into_owned();

    let table = table_from_text(&before);
    let mut book = match table.as_ref().map_err(|refusal| *refusal).and_then(Book::start) {
        Ok(book) => {
            writeln!(out, "ok")?;
            Some(book)
        }
        Err(refusal) => {
            print_refusal(out, refusal)?;
            None // a refused start hands out a run of zeros, which 14 turns down
        }
    };
    for operation in operations.lines() {
        let bits = match operation.strip_prefix("a ") {
            Some(bits) => Some(bits.parse::<u64>().unwrap_or_else(|_| usage())),
            None if operation == "r" => None,
            None => usage(),
        };
        let Some(book) = book.as_mut() else {
            print_refusal(out, Refusal { number: 14, position: 0 })?;
            continue;
        };
        match bits {
            Some(bits) => match book.advance(bits) {
                Ok(()) => writeln!(out, "taken")?,
                Err(refusal) => print_refusal(out, refusal)?,
            },
            None => match book.row() {
                Ok(row) => {
                    let mut line = b"row".to_vec();
                    spell_row(&mut line, &row);
                    line.push(b'\n');
                    out.write_all(&line)?;
                }
                Err(refusal) => print_refusal(out, refusal)?,
            },
        }
    }
    Ok(())
}

fn usage() -> ! {
    eprintln!("usage: gangsim judge | verdict | plan A B LEN | book   (table on standard input)");
    std::process::exit(2)
}

fn main() {
    let words: Vec<String> = std::env::args().skip(1).collect();
    let words: Vec<&str> = words.iter().map(String::as_str).collect();
    let mut text = Vec::new();
    io::stdin().lock().read_to_end(&mut text).expect("standard input can be read");
    let mut out = BufWriter::with_capacity(1 << 16, io::stdout().lock());
    let number = |word: &str| word.parse::<u64>().unwrap_or_else(|_| usage());
    let printed = match words[..] {
        ["judge"] => command_judge(&text, true, &mut out),
        ["verdict"] => command_judge(&text, false, &mut out),
        ["plan", a, b, bytes] => command_plan(&text, number(a), number(b), number(bytes), &mut out),
        ["book"] => command_book(&text, &mut out),
        _ => usage(),
    };
    if printed.and_then(|()| out.flush()).is_err() {
        std::process::exit(1) // nobody reads any more
    }
}
