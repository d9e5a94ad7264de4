//! What calls were answered, counted, so that tests which reach too little are found.

use std::collections::{BTreeMap, BTreeSet};
use std::fmt;

use reference::calendar::THERMAL_YEARS;
use reference::request::Product;

use crate::books::Everyday;
use crate::calls::{Answer, Batch, Call};

/// Every number that a call can be answered, and a line of a batch.
const NUMBERS: &[(&str, &[u8])] = &[
    ("fresh", &[0, 2]),
    ("open", &[0, 1, 2, 4]),
    ("guarantee", &[0, 1, 2, 6]),
    ("request", &[0, 1, 2, 3, 5, 7, 8, 9, 11, 12, 13]),
    ("request of no kind", &[1, 2]),
    ("batch", &[0, 1, 2, 3, 13]),
    ("line", &[0, 2, 5, 11, 12, 14]),
    ("cession", &[0, 1, 2, 3, 5, 8, 9, 10, 11, 13]),
    ("turn", &[0, 1, 2, 15]),
    ("report", &[0, 1, 2, 3, 8]),
    ("in-order", &[0, 1]),
    ("short-day", &[0, 10]),
];

/// Cases that have to be met too: each number of a request that depends on its
/// product, grants in full and cut, and what batches come to.
const CASES: &[(&str, &[u8])] = &[
    ("annual", &[0, 8, 9, 11, 12, 13]),
    ("month", &[0, 7, 8, 9, 11, 12, 13]),
    ("day", &[0, 7, 8, 9, 11, 12, 13]),
    ("annual, cut", &[0]),
    ("month, cut", &[0]),
    ("day, cut", &[0]),
    ("cession after question 10", &[1]),
    ("batch in full", &[0]),
    ("batch cut", &[0]),
    ("batch cut to nothing", &[0]),
    ("batch of refused lines", &[0]),
    ("batch of 64", &[0]),
];

/// Counts of what happened, by call and number, and the years in which something
/// was granted, shared out or ceded.
#[derive(Debug, Default)]
pub struct Tally {
    counts: BTreeMap<(&'static str, u8), usize>,
    years: BTreeSet<u16>,
}

impl Tally {
    /// Counts a call; the books are those after it.
    pub fn add(&mut self, call: &Call, answer: &Answer, books: &mut Everyday) {
        self.count(call.name(), answer.number);
        match call {
            Call::Request(request) => {
                let (name, cut) = match request.product {
                    Product::Annual => ("annual", "annual, cut"),
                    Product::Month(_) => ("month", "month, cut"),
                    Product::Day(_) => ("day", "day, cut"),
                };
                self.count(name, answer.number);
                if answer.number == 0 && u64::from(answer.amount) < request.amount {
                    self.count(cut, 0);
                }
            }
            Call::Batch(batch) if answer.number == 0 => self.add_batch(batch, answer),
            Call::Cession(_) if answer.number == 1 && books.is_in_order() => {
                self.count("cession after question 10", 1);
            }
            _ => {}
        }
        let has_shares = answer.lines.iter().any(|&(share, _)| share > 0);
        if call.is_changing() && (answer.amount > 0 || has_shares) {
            self.years.insert(books.register.year);
        }
    }

    fn add_batch(&mut self, batch: &Batch, answer: &Answer) {
        for &(_, number) in &answer.lines {
            self.count("line", number);
        }
        let mut shared = answer.lines.iter().zip(&batch.asked);
        let is_cut = shared.any(|(&(share, number), &asked)| {
            number == 12 || number == 0 && u64::from(share) < asked
        });
        let has_shares = answer.lines.iter().any(|&(share, _)| share > 0);
        let name = match (is_cut, has_shares) {
            (true, true) => "batch cut",
            (true, false) => "batch cut to nothing",
            (false, true) => "batch in full",
            (false, false) => "batch of refused lines",
        };
        self.count(name, 0);
        if batch.users.len() == 64 {
            self.count("batch of 64", 0);
        }
    }

    fn count(&mut self, name: &'static str, number: u8) {
        *self.counts.entry((name, number)).or_default() += 1;
    }

    /// Asks that each number that a call can be answered was found so often, and no
    /// other; of those that are wanted.
    pub fn expect(&self, least: usize, is_wanted: impl Fn(&str, u8) -> bool) {
        for (name, numbers) in NUMBERS.iter().chain(CASES) {
            for &number in numbers.iter().filter(|&&number| is_wanted(name, number)) {
                let found = self.counts.get(&(name, number)).copied().unwrap_or(0);
                assert!(found >= least, "{name} {number}: {found} times\n{self}");
            }
        }
        let known = |name: &str| NUMBERS.iter().find(|(known, _)| *known == name);
        for (name, number) in self.counts.keys() {
            let is_known = known(name).is_none_or(|(_, numbers)| numbers.contains(number));
            assert!(is_known, "{name} {number}\n{self}");
        }
    }

    /// Asks that something was conferred or ceded in every thermal year.
    pub fn expect_years(&self) {
        let is_missing = |year: &u16| !self.years.contains(year);
        let missing: Vec<u16> = THERMAL_YEARS.filter(is_missing).collect();
        assert!(missing.is_empty(), "nothing in {missing:?}");
    }
}

impl fmt::Display for Tally {
    fn fmt(&self, f: &mut fmt::Formatter<'_>) -> fmt::Result {
        for ((name, number), count) in &self.counts {
            writeln!(f, "{name} {number}: {count}")?;
        }
        Ok(())
    }
}
