//! What the sequences are made of that both registers run.

use std::panic::{self, AssertUnwindSafe};

use reference::calendar::THERMAL_YEARS;
use reference::register::{Opening, LEDGER_LINES};

use super::{Sequence, MOST_AMOUNT, MOST_GUARANTEE};
use crate::calls::{Batch, Call, Step};
use crate::numbers::Generator;

/// What a sequence is made of.
#[derive(Debug, Clone, Copy, PartialEq, Eq)]
pub enum Shape {
    /// Calls in several thermal years.
    Calls,
    /// Calls, mostly batches, and more users on file.
    Batches,
    /// Calls, and numbers that are altered between them.
    Damages,
    /// A year in which the ledger is filled, and calls that find it full or nearly
    /// so.
    FullLedger,
    /// Year after year to the last one.
    Years,
}

/// The shapes of sequences one after another.
const SHAPES: [Shape; 10] = [
    Shape::Calls,
    Shape::Damages,
    Shape::Batches,
    Shape::Damages,
    Shape::FullLedger,
    Shape::Damages,
    Shape::Calls,
    Shape::Batches,
    Shape::Damages,
    Shape::Years,
];

/// The steps of a seed, whose shape goes with it.
pub fn steps(seed: u64) -> Vec<Step> {
    let shape = SHAPES[(seed % SHAPES.len() as u64) as usize];
    of_shape(seed, shape)
}

/// The steps of a seed, of calls alone: nothing is altered between them.
pub fn calls(seed: u64) -> Vec<Step> {
    let shapes = SHAPES.iter().filter(|&&shape| shape != Shape::Damages);
    let shapes: Vec<Shape> = shapes.copied().collect();
    of_shape(seed, shapes[(seed % shapes.len() as u64) as usize])
}

/// The steps of a shape. A call that the everyday register does not survive is the
/// last of them: whoever runs them meets it again.
fn of_shape(seed: u64, shape: Shape) -> Vec<Step> {
    let mut sequence = Sequence::new(Generator(seed));
    let made = panic::catch_unwind(AssertUnwindSafe(|| sequence.make(shape)));
    match made {
        Err(cause) if !sequence.is_in_call => panic::resume_unwind(cause),
        _ => sequence.steps,
    }
}

/// A register with a full ledger, or nearly so, and no call after it.
pub fn full_ledger(seed: u64) -> Vec<Step> {
    let mut sequence = Sequence::new(Generator(seed));
    sequence.start(Shape::FullLedger);
    sequence.steps
}

impl Sequence {
    fn make(&mut self, shape: Shape) {
        self.start(shape);
        let turns = 60 + self.numbers.below::<u32>(60);
        let mut made = 0;
        let last_year = *THERMAL_YEARS.end();
        while made < turns || shape == Shape::Years && self.books.register.year < last_year {
            match shape {
                Shape::Damages => self.damage_or_call(),
                _ => self.call_of(shape),
            }
            made += 1;
        }
    }

    /// A fresh register, sometimes after one that is refused, with points open and
    /// users on file.
    fn start(&mut self, shape: Shape) {
        if self.numbers.in_hundred(15) {
            let year = self.numbers.pick(&[0, 1999, 2099, u16::MAX]);
            self.call(Call::Fresh { year });
            self.request_or_cession();
        }
        let some = 2000 + self.numbers.below::<u16>(99);
        let year = match shape {
            Shape::Years => 2000 + self.numbers.below::<u16>(70),
            _ => self.numbers.pick(&[some, some, some, some, 2000, 2098]),
        };
        self.call(Call::Fresh { year });
        self.furnish();
        match shape {
            Shape::FullLedger => self.fill(),
            Shape::Batches => self.furnish_for_batches(),
            _ if self.numbers.in_hundred(30) => self.place_more(),
            _ => {}
        }
    }

    /// More points, and a part of all users on file.
    fn furnish_for_batches(&mut self) {
        for _ in 0..3 {
            let opening = self.good_opening();
            self.call(Call::Open(opening));
        }
        for user in (0..64)
            .filter(|_| self.numbers.in_hundred(25))
            .collect::<Vec<u8>>()
        {
            let guarantee = self.good_guarantee();
            self.place(user, guarantee);
        }
    }

    /// Fills the ledger by batches at a point without a rate, so that no guarantee
    /// is used up, until as few lines as wanted are left over.
    fn fill(&mut self) {
        let left_over = self.numbers.pick(&[0, 1, 2, 3, 5, 63, 64, 65]);
        let points = (0..).zip(&self.books.register.points);
        let mut closed = points.filter(|(_, point)| !point.is_open());
        let (point, _) = closed.next().expect("few points are open");
        let total = MOST_AMOUNT - self.numbers.below::<u64>(9_000_000);
        self.call(Call::Open(Opening {
            point,
            kind: 2,
            total,
            rate: 0,
        }));
        for user in 0..64 {
            self.place(user, MOST_GUARANTEE);
        }
        loop {
            let used = usize::from(self.books.register.lines) + left_over;
            let lines = LEDGER_LINES.saturating_sub(used).min(64);
            if lines == 0 {
                return;
            }
            let users = (0..64).take(lines).collect();
            let asked = (0..lines).map(|_| 1 + self.numbers.below::<u64>(9));
            let batch = Batch::new(point, users, asked.collect());
            self.call(Call::Batch(batch));
        }
    }

    /// A call, sometimes between two guarantees that are placed for it.
    fn call_of(&mut self, shape: Shape) {
        let (turns, batches) = match shape {
            Shape::Years => (25, 10),
            Shape::FullLedger => (2, 20),
            Shape::Batches => (4, 60),
            _ => (4, 10),
        };
        let is_turn = self.numbers.in_hundred(turns);
        let is_batch = self.numbers.in_hundred(batches);
        match self.numbers.below::<u8>(100) {
            _ if is_turn => self.turn(),
            _ if is_batch => self.batch(),
            0..=5 => self.opening(),
            6..=12 => self.guarantee(),
            13..=21 => self.report(),
            22..=23 => drop(self.call(Call::InOrder)),
            24..=35 => self.short_day(),
            36..=38 => self.turn(),
            39..=42 => self.any_field(),
            43..=46 => self.request_of_no_kind(),
            47..=66 => self.cession(),
            _ => self.request(),
        }
    }

    /// A damage and some calls on it, a repair, or a call.
    fn damage_or_call(&mut self) {
        let is_in_order = self.books.is_in_order();
        if !is_in_order && self.numbers.in_hundred(55) {
            return self.make_good();
        }
        match self.numbers.below::<u8>(100) {
            0..=34 => {
                self.damage();
                for _ in 0..self.numbers.below::<u8>(3) {
                    self.call_of(Shape::Damages);
                }
            }
            35..=41 if is_in_order => self.cession_of_commitment(),
            42..=44 if is_in_order && self.books.register.lines > 0 => self.fill_ledger(),
            42..=44 => self.renew(),
            _ => self.call_of(Shape::Damages),
        }
    }

    /// Puts back what the damaged fields held. If a call came between, the register
    /// can still not be in order; then it is made anew.
    fn make_good(&mut self) {
        self.repair();
        if !self.books.is_in_order() {
            self.renew();
            self.furnish();
        }
    }

    fn renew(&mut self) {
        let some = 2000 + self.numbers.below::<u16>(99);
        let other = self.numbers.pick(&[0, 1999, 2099, 2100, u16::MAX]);
        let year = self.numbers.pick(&[some, some, other]);
        self.call(Call::Fresh { year });
    }
}
