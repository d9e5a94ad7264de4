//! Random streams of records for the program `runner`, and the table of what they
//! were answered.
//!
//! A stream comes from a seed of its own and is the same at every run. Most are
//! calls, which know the register that they meet: arrivals lie around deadlines
//! and the year's ends, amounts around what is free, held or covered. Others fill
//! the ledger, go through the years to the last, or are noise.

mod calls;
mod ledgers;
mod noise;
mod pieces;
mod tally;

pub use pieces::Pieces;
pub use tally::Tally;

use reference::runner::{MOST_RECORDS, RECORD_LENGTH};

use crate::numbers::Generator;

/// What a stream is made of.
#[derive(Debug, Clone, Copy, PartialEq, Eq, PartialOrd, Ord)]
pub enum Shape {
    /// Calls in several thermal years.
    Calls,
    /// As many calls as are looked at, and mostly bytes behind them.
    Long,
    /// Cessions there and back, until no ledger line is left.
    FullLedger,
    /// Year after year to the last one.
    Years,
    /// Calls, some bytes of which are overwritten.
    Damaged,
    /// Known letters with random bytes behind each.
    Letters,
    /// Random bytes.
    Garbage,
    /// No bytes, or less than two records.
    Few,
}

impl Shape {
    fn pick(numbers: &mut Generator) -> Shape {
        match numbers.below::<u8>(100) {
            0..=3 => Shape::FullLedger,
            4..=6 => Shape::Long,
            7..=10 => Shape::Years,
            11..=18 => Shape::Damaged,
            19..=24 => Shape::Letters,
            25..=30 => Shape::Garbage,
            31..=34 => Shape::Few,
            _ => Shape::Calls,
        }
    }

    fn bytes(self, numbers: &mut Generator) -> Vec<u8> {
        match self {
            Shape::Calls => calls::some(numbers),
            Shape::Long => calls::many(numbers, MOST_RECORDS),
            Shape::FullLedger => ledgers::full(numbers),
            Shape::Years => calls::of_all_years(numbers),
            Shape::Damaged => noise::damaged(numbers),
            Shape::Letters => noise::letters(numbers),
            Shape::Garbage => noise::garbage(numbers),
            Shape::Few => noise::few(numbers),
        }
    }
}

/// The bytes of a stream, and how they are handed over.
#[derive(Debug)]
pub struct Stream {
    pub shape: Shape,
    pub bytes: Vec<u8>,
    pub pieces: Pieces,
}

impl Stream {
    /// The stream of a seed. The last record of some is cut short.
    pub fn from_seed(seed: u64) -> Stream {
        let mut numbers = Generator(seed);
        let shape = Shape::pick(&mut numbers);
        let mut bytes = shape.bytes(&mut numbers);
        if numbers.in_hundred(25) {
            let cut = 1 + numbers.below::<usize>(RECORD_LENGTH as u64 - 1);
            bytes.truncate(bytes.len().saturating_sub(cut));
        }
        let pieces = Pieces::pick(&mut numbers, bytes.len());
        Stream {
            shape,
            bytes,
            pieces,
        }
    }
}
