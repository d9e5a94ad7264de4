//! What streams were answered, counted.

use std::collections::BTreeMap;
use std::fmt;

use reference::runner::{call_of, Answered, Call, MOST_BYTES, RECORD_LENGTH};

use super::{Shape, Stream};

/// The numbers that a stream can be answered. No list of calls from a fresh
/// register meets 1, and only lines of batches meet 14.
const NUMBERS: [u8; 14] = [0, 2, 3, 4, 5, 6, 7, 8, 9, 10, 11, 12, 13, 15];

/// The columns of the table: letters, and records that are no call.
const COLUMNS: [&str; 6] = ["P", "G", "R", "C", "Y", "no call"];

/// Counts of lines, by number and column, and of streams.
#[derive(Debug, Default)]
pub struct Tally {
    lines: BTreeMap<u8, [usize; COLUMNS.len()]>,
    shapes: BTreeMap<Shape, usize>,
    records: usize,
    bytes: usize,
    cut_requests: usize,
    with_bytes_behind: usize,
    with_short_record: usize,
    without_bytes: usize,
}

impl Tally {
    pub fn add(&mut self, stream: &Stream, answers: &[Answered]) {
        let length = stream.bytes.len();
        *self.shapes.entry(stream.shape).or_default() += 1;
        self.records += answers.len();
        self.bytes += length;
        self.with_bytes_behind += usize::from(length > MOST_BYTES);
        let is_short = length < MOST_BYTES && !length.is_multiple_of(RECORD_LENGTH);
        self.with_short_record += usize::from(is_short);
        self.without_bytes += usize::from(length == 0);
        for (record, answer) in stream.bytes.chunks(RECORD_LENGTH).zip(answers) {
            self.add_line(record, *answer);
        }
    }

    fn add_line(&mut self, record: &[u8], (number, amount): Answered) {
        let column = match call_of(record) {
            Some(Call::Open(_)) => 0,
            Some(Call::Place { .. }) => 1,
            Some(Call::Request(request)) => {
                let is_cut = number == 0 && u64::from(amount) < request.amount;
                self.cut_requests += usize::from(is_cut);
                2
            }
            Some(Call::Cession(_)) => 3,
            Some(Call::Turn { .. }) => 4,
            None => 5,
        };
        self.lines.entry(number).or_default()[column] += 1;
    }

    /// The numbers that no line had.
    pub fn missing(&self) -> Vec<u8> {
        let is_missing = |number: &u8| !self.lines.contains_key(number);
        NUMBERS.into_iter().filter(is_missing).collect()
    }
}

impl fmt::Display for Tally {
    fn fmt(&self, f: &mut fmt::Formatter<'_>) -> fmt::Result {
        write!(f, "number")?;
        for column in COLUMNS {
            write!(f, "{column:>9}")?;
        }
        writeln!(f, "      all")?;
        for (number, counts) in &self.lines {
            write!(f, "{number:>6}")?;
            for count in counts {
                write!(f, "{count:>9}")?;
            }
            writeln!(f, "{:>9}", counts.iter().sum::<usize>())?;
        }
        let streams: usize = self.shapes.values().sum();
        let shapes = self.shapes.iter();
        let shapes: Vec<String> = shapes.map(|(s, count)| format!("{s:?} {count}")).collect();
        writeln!(f, "streams {streams}: {}", shapes.join(", "))?;
        writeln!(f, "records {}, bytes {}", self.records, self.bytes)?;
        writeln!(f, "requests cut {}", self.cut_requests)?;
        writeln!(
            f,
            "streams with bytes behind the 2,000th record {}, with a short last record {}, with no bytes {}",
            self.with_bytes_behind, self.with_short_record, self.without_bytes
        )
    }
}
