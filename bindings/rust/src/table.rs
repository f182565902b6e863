//! Records linked into the words of a table.
use crate::{Refusal, MOST_TASKS, TABLE_HEAD_WORDS, TABLE_RECORD_WORDS, TABLE_WORDS};

/// A task of a table.
///
/// ```
/// use sivorandra::Record;
///
/// let record = Record { offset: 0, width: 2, length: 3, deadline: 5, period: 5, even_width: 2 };
/// assert_eq!(record, Record::from([0, 2, 3, 5, 5, 2]));
/// ```
#[derive(Clone, Copy, Debug, PartialEq, Eq, Hash)]
pub struct Record {
    /// O, the tick of its first release.
    pub offset: u32,
    /// v, the cores that its odd jobs take: the first, the third and so on.
    pub width: u32,
    /// C, the ticks that a job takes at full length.
    pub length: u32,
    /// D, the ticks from a release to its deadline.
    pub deadline: u32,
    /// T, the ticks from one release to the next.
    pub period: u32,
    /// w, the cores that its even jobs take.
    pub even_width: u32,
}

impl From<[u32; 6]> for Record {
    /// O, v, C, D, T and w.
    fn from([offset, width, length, deadline, period, even_width]: [u32; 6]) -> Record {
        Record { offset, width, length, deadline, period, even_width }
    }
}

/// The words of a table, by value.
///
/// ```
/// use sivorandra::{link, Record, LIMITED};
///
/// let table = link(1, LIMITED, 0, &[Record::from([0, 1, 1, 4, 4, 1])], &[0])?;
/// assert_eq!(table.words(), [1, 1, LIMITED, 0, 0, 0, 0, 1, 1, 4, 4, 1]);
/// # Ok::<(), sivorandra::Refusal>(())
/// ```
#[derive(Clone, Debug, PartialEq, Eq)]
pub struct Table {
    words: [u32; TABLE_WORDS],
    size: usize,
}

impl Table {
    /// The words, for every function that takes those of a table.
    ///
    /// ```
    /// use sivorandra::{judge, link, Record, Verdict, LIMITED};
    ///
    /// let table = link(1, LIMITED, 0, &[Record::from([0, 1, 1, 4, 4, 1])], &[0])?;
    /// assert_eq!(judge(table.words())?, Verdict::Firm { start: 0, period: 4 });
    /// # Ok::<(), sivorandra::Refusal>(())
    /// ```
    pub fn words(&self) -> &[u32] {
        &self.words[..self.size]
    }
}

/// The table of these records, linked in this order: `order[0]` is the index of the record at position 1, the highest priority. Bit c of `fence` is a core that no task may use.
/// `NotATable` where there are more than 32 records, or where `order` does not have the index of each record once.
///
/// ```
/// use sivorandra::{link, response_times, Record, Refusal, LIMITED};
///
/// let records = [[0, 1, 3, 8, 8, 1], [0, 1, 1, 4, 4, 1]].map(Record::from);
/// let table = link(1, LIMITED, 0, &records, &[1, 0])?; // the shorter one first
/// assert_eq!(response_times(table.words())?[..2], [1, 4]);
/// assert_eq!(link(1, LIMITED, 0, &records, &[1, 1]), Err(Refusal::NotATable));
/// # Ok::<(), Refusal>(())
/// ```
pub fn link(cores: u32, rule: u32, fence: u64, records: &[Record], order: &[usize]) -> Result<Table, Refusal> {
    let each_once = order.len() == records.len() && (0..records.len()).all(|at| order.contains(&at));
    if records.len() > MOST_TASKS || !each_once {
        return Err(Refusal::NotATable);
    }
    let number = |place: usize| order.get(place).map_or(0, |&at| at as u32 + 1);
    let mut words = [0; TABLE_WORDS];
    words[..TABLE_HEAD_WORDS].copy_from_slice(&[number(0), cores, rule, fence as u32, (fence >> 32) as u32]);
    for (place, &at) in order.iter().enumerate() {
        let Record { offset, width, length, deadline, period, even_width } = records[at];
        let from = TABLE_HEAD_WORDS + TABLE_RECORD_WORDS * at;
        words[from..from + TABLE_RECORD_WORDS].copy_from_slice(&[number(place + 1), offset, width, length, deadline, period, even_width]);
    }
    Ok(Table { words, size: TABLE_HEAD_WORDS + TABLE_RECORD_WORDS * records.len() })
}
