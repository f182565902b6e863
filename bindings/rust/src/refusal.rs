//! The numbers with which a call is refused.
use core::error::Error;
use core::fmt;

/// Why a call is refused: one variant for each number of the scope, with the position that is at fault, or the tick, where the number has one.
///
/// ```
/// use sivorandra::{judge, Refusal};
///
/// // one task of width 2 on one core
/// let refusal = judge(&[1, 1, 1, 0, 0, 0, 0, 2, 1, 5, 5, 2]).unwrap_err();
/// assert_eq!(refusal, Refusal::BadWidth { position: 1 });
/// assert_eq!((refusal.number(), refusal.position()), (7, 1));
/// assert_eq!(refusal.to_string(), "a width of position 1 is 0 or above the number of unfenced cores (number 7)");
/// ```
#[derive(Clone, Copy, Debug, PartialEq, Eq, Hash)]
#[non_exhaustive]
pub enum Refusal {
    /// 1: fewer than 5 words, the rest no whole records of seven, or more than 32 records.
    NotATable,
    /// 2: the core count is not 1 to 64.
    BadCores,
    /// 3: the rule is not 1 to 4.
    BadRule,
    /// 4: the head is zero.
    NoHead,
    /// 5: the chain leads to a number past the last record.
    NoRecord,
    /// 6: the chain leads to a record for the second time.
    RecordAgain,
    /// 7: a width of this position is 0 or above the number of unfenced cores.
    BadWidth {
        /// The position, from 1.
        position: u32,
    },
    /// 8: O, C, T or D of this position is outside its limits.
    BadTime {
        /// The position, from 1.
        position: u32,
    },
    /// 9: the horizon, S + P, is above 1,000,000,000.
    LongHorizon,
    /// 10, of a plan: a is above b, or b is above the horizon; of a row taken: it is past the horizon.
    BadRange,
    /// 11, of a plan: the buffer has fewer bytes than the rows take; of a row taken: its length is not the core count.
    ShortRows,
    /// 12, of a plan: b is above the tick of the first miss.
    PastMiss,
    /// 13, of a start, a replay or the response times: the verdict is a miss.
    TableMisses,
    /// 14, of a row, an advance or a withdrawal: the words are no run; of a row taken: they are no supplied plan's.
    NotARun,
    /// 15, of a row or an advance: this position, the lowest that is late, has not ended its job at its deadline.
    Late {
        /// The position, from 1.
        position: u32,
    },
    /// 16, of an advance: a report for a position past the count, or for a task that is not working or has no cores, its own or lent, in this tick.
    BadReport,
    /// 17, of a sentence or a conflict: the table has no miss.
    NoMiss,
    /// 18, of a sentence: the buffer is shorter than the sentence.
    ShortBuffer,
    /// 19: the fence contains a core past the count, or all cores.
    BadFence,
    /// 20, of a row or an advance: an empty job for a position past the count, or for a task whose job is not released in this tick.
    BadEmpty,
    /// 21, of a withdrawal: the rule is greedy and a width of some task is above one of the next, so that others could be late without a task.
    NotFirm,
    /// 22, of a withdrawal: a position is 0 or past the count.
    NoPosition,
    /// 23, of the slack: the table is not accepted under rule 2, nor under rule 1 with no width of a task above one of the next.
    SlackNotGiven,
    /// 24, of a row taken: a byte that is neither 0 nor a position, a fenced core without 255, a task with another width than its job's, or one with no work owed.
    BadRow {
        /// The tick of the row.
        tick: u32,
    },
    /// 25, of a row taken: some job is not done at its deadline.
    DeadlineMissed {
        /// The tick of the deadline.
        tick: u32,
    },
    /// 26, of the last row taken: some task's phase is not the one noted at the last S, parity aside.
    PhasesDiffer {
        /// The horizon.
        tick: u32,
    },
    /// A number that these bindings do not know, from a library that is newer.
    Other {
        /// The number.
        number: u32,
        /// The position, or 0.
        position: u32,
    },
}

impl Refusal {
    /// The refusal of a number and a position, which is 0 where there is none; with 24 to 26 it is a tick instead.
    ///
    /// ```
    /// use sivorandra::Refusal;
    ///
    /// assert_eq!(Refusal::new(15, 3), Refusal::Late { position: 3 });
    /// assert_eq!(Refusal::new(9, 0), Refusal::LongHorizon);
    /// assert_eq!(Refusal::new(24, 7), Refusal::BadRow { tick: 7 });
    /// assert_eq!(Refusal::new(1000, 0), Refusal::Other { number: 1000, position: 0 });
    /// ```
    pub const fn new(number: u32, position: u32) -> Refusal {
        match (number, position) {
            (1, 0) => Refusal::NotATable,
            (2, 0) => Refusal::BadCores,
            (3, 0) => Refusal::BadRule,
            (4, 0) => Refusal::NoHead,
            (5, 0) => Refusal::NoRecord,
            (6, 0) => Refusal::RecordAgain,
            (7, position) => Refusal::BadWidth { position },
            (8, position) => Refusal::BadTime { position },
            (9, 0) => Refusal::LongHorizon,
            (10, 0) => Refusal::BadRange,
            (11, 0) => Refusal::ShortRows,
            (12, 0) => Refusal::PastMiss,
            (13, 0) => Refusal::TableMisses,
            (14, 0) => Refusal::NotARun,
            (15, position) => Refusal::Late { position },
            (16, 0) => Refusal::BadReport,
            (17, 0) => Refusal::NoMiss,
            (18, 0) => Refusal::ShortBuffer,
            (19, 0) => Refusal::BadFence,
            (20, 0) => Refusal::BadEmpty,
            (21, 0) => Refusal::NotFirm,
            (22, 0) => Refusal::NoPosition,
            (23, 0) => Refusal::SlackNotGiven,
            (24, tick) => Refusal::BadRow { tick },
            (25, tick) => Refusal::DeadlineMissed { tick },
            (26, tick) => Refusal::PhasesDiffer { tick },
            (number, position) => Refusal::Other { number, position },
        }
    }

    /// The number, as the program prints it.
    ///
    /// ```
    /// assert_eq!(sivorandra::Refusal::Late { position: 3 }.number(), 15);
    /// ```
    pub const fn number(self) -> u32 {
        match self {
            Refusal::NotATable => 1,
            Refusal::BadCores => 2,
            Refusal::BadRule => 3,
            Refusal::NoHead => 4,
            Refusal::NoRecord => 5,
            Refusal::RecordAgain => 6,
            Refusal::BadWidth { .. } => 7,
            Refusal::BadTime { .. } => 8,
            Refusal::LongHorizon => 9,
            Refusal::BadRange => 10,
            Refusal::ShortRows => 11,
            Refusal::PastMiss => 12,
            Refusal::TableMisses => 13,
            Refusal::NotARun => 14,
            Refusal::Late { .. } => 15,
            Refusal::BadReport => 16,
            Refusal::NoMiss => 17,
            Refusal::ShortBuffer => 18,
            Refusal::BadFence => 19,
            Refusal::BadEmpty => 20,
            Refusal::NotFirm => 21,
            Refusal::NoPosition => 22,
            Refusal::SlackNotGiven => 23,
            Refusal::BadRow { .. } => 24,
            Refusal::DeadlineMissed { .. } => 25,
            Refusal::PhasesDiffer { .. } => 26,
            Refusal::Other { number, .. } => number,
        }
    }

    /// The position at fault, from 1, or 0 where the number has none.
    ///
    /// ```
    /// use sivorandra::Refusal;
    ///
    /// assert_eq!(Refusal::Late { position: 3 }.position(), 3);
    /// assert_eq!(Refusal::NoMiss.position(), 0);
    /// ```
    pub const fn position(self) -> u32 {
        match self {
            Refusal::BadWidth { position } | Refusal::BadTime { position } | Refusal::Late { position } | Refusal::Other { position, .. } => position,
            _ => 0,
        }
    }

    /// The tick with 24 to 26, or 0 where the number has none.
    ///
    /// ```
    /// use sivorandra::Refusal;
    ///
    /// assert_eq!(Refusal::DeadlineMissed { tick: 5 }.tick(), 5);
    /// assert_eq!(Refusal::Late { position: 3 }.tick(), 0);
    /// ```
    pub const fn tick(self) -> u32 {
        match self {
            Refusal::BadRow { tick } | Refusal::DeadlineMissed { tick } | Refusal::PhasesDiffer { tick } => tick,
            _ => 0,
        }
    }
}

impl fmt::Display for Refusal {
    /// What the number means, and the number.
    fn fmt(&self, out: &mut fmt::Formatter<'_>) -> fmt::Result {
        match *self {
            Refusal::NotATable => write!(out, "fewer than 5 words, the rest no whole records of seven, or more than 32 records"),
            Refusal::BadCores => write!(out, "the core count is not 1 to 64"),
            Refusal::BadRule => write!(out, "the rule is not 1 to 4"),
            Refusal::NoHead => write!(out, "the head is zero"),
            Refusal::NoRecord => write!(out, "along the chain a number past the last record is met"),
            Refusal::RecordAgain => write!(out, "along the chain a record is met again"),
            Refusal::BadWidth { position } => write!(out, "a width of position {position} is 0 or above the number of unfenced cores"),
            Refusal::BadTime { position } => write!(out, "O, C, T or D of position {position} is outside its limits"),
            Refusal::LongHorizon => write!(out, "the horizon is above 1,000,000,000"),
            Refusal::BadRange => write!(out, "a is above b, or b is above the horizon, or a row past it"),
            Refusal::ShortRows => write!(out, "the buffer has fewer bytes than the rows take, or a row not one for each core"),
            Refusal::PastMiss => write!(out, "b is above the tick of the first miss"),
            Refusal::TableMisses => write!(out, "the table misses a deadline, and is not started"),
            Refusal::NotARun => write!(out, "this is no run"),
            Refusal::Late { position } => write!(out, "position {position} has not ended its job at its deadline"),
            Refusal::BadReport => write!(out, "a report for a position past the count, or for a task that is not working or has no cores, its own or lent, in this tick"),
            Refusal::NoMiss => write!(out, "the table has no miss"),
            Refusal::ShortBuffer => write!(out, "the buffer is shorter than the sentence"),
            Refusal::BadFence => write!(out, "the fence names a core past the count, or all cores"),
            Refusal::BadEmpty => write!(out, "an empty job for a position past the count, or for a task whose job is not released in this tick"),
            Refusal::NotFirm => write!(out, "the rule is greedy and a width of some task is above one of the next, so that others could be late without a task"),
            Refusal::NoPosition => write!(out, "a position is 0 or past the count"),
            Refusal::SlackNotGiven => write!(out, "the table is not accepted under rule 2, nor under rule 1 with no width of a task above one of the next"),
            Refusal::BadRow { tick } => write!(out, "the row of tick {tick} has a byte that it may not have, a task with another width than its job's, or one with no work owed"),
            Refusal::DeadlineMissed { tick } => write!(out, "some job is not done at its deadline at tick {tick}"),
            Refusal::PhasesDiffer { tick } => write!(out, "at tick {tick}, the horizon, some task is not in the phase that it had at the last S"),
            Refusal::Other { position: 0, .. } => write!(out, "turned down"),
            Refusal::Other { position, .. } => write!(out, "turned down at position {position}"),
        }?;
        write!(out, " (number {})", self.number())
    }
}

impl Error for Refusal {}
