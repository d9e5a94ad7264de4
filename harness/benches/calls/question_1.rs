//! Question 1 alone: is the register in order?

use std::hint::black_box;

use harness::books::Everyday;
use harness::calls::Call;
use harness::cases::Case;
use reference::register::{DAY, MONTH};

use crate::registers::{close, drawn, full, Line, KINDS, YEAR};
use crate::row::{agreed, Row};
use crate::table::{Rival, Table, EVERYDAY};
use crate::timing::timed;
use crate::tuned;

/// The proved register takes at most 1.4 times as long as the tuned version.
const TUNED: Rival = ("tuned", Some(1.0 / 1.4));

/// Times the versions; how many goals are missed.
pub fn compare() -> usize {
    let mut table = Table::new(
        "Question 1 alone: is the register in order? Goals: no slower than everyday Rust, at most 1.4\n\
         times the time of tuned Rust (a ratio of 0.71).",
        &[EVERYDAY, TUNED],
    );
    let rows = [
        ("no line", 0, &[DAY][..]),
        ("lines of mixed kinds", 1000, &KINDS),
        ("lines of mixed kinds", 2000, &KINDS),
        ("month lines", 2000, &[MONTH]),
    ];
    for (name, lines, kinds) in rows {
        let books = full(YEAR, &drawn(YEAR, lines, kinds, |_| true));
        let row = Row::new(name, books, "in-order -> 0");
        assert!(is_in_order(&row.books), "{name}");
        let mut versions = row.versions();
        let ask = || tuned::in_order(black_box(&row.books));
        versions.push(Box::new(move || timed(ask)));
        table.row(&row, versions);
    }
    table.missed
}

/// Numbers that break a rule each, in a register of 2022, which has 365 days.
const DAMAGES: &str = "table-length 11711, table-length 11713, ledger-length 10239, year 1999, \
    year 2099, lines 2049, kind 3 3, total 3 10000000, rate 3 1000000, rate 31 1, on-file 63 2, \
    guarantee 9 1000000000000001, commitment 9 1000000000000001, guarantee 63 1, \
    free 0 0 10000000, free 12 364 10000000, free 12 365 1, free 31 100 1, line 1000 user 64, \
    line 1000 user 63, line 1000 point 32, line 1000 point 31, line 1000 kind 0, line 1000 kind 4, \
    line 1000 first 8308, line 1000 first 8310, line 1000 first 8674, line 1000 amount 0, \
    line 1000 amount 10000000, line 1999 amount -10000000, line 1999 amount -2147483648";

/// That the tuned version answers as the registers do where a rule is broken. The
/// last point is closed, the last user not on file, and line 1,000 a month line.
pub fn check() {
    let is_kept = |line: &Line| line[0] != 63 && line[1] != 31;
    for (year, damages) in [(2022, DAMAGES), (2023, "free 12 365 10000000")] {
        let mut lines = drawn(year, 2000, &KINDS, is_kept);
        lines[1000] = drawn(year, 1, &[MONTH], is_kept)[0];
        let mut whole = full(year, &lines);
        close(&mut whole, 31);
        whole.register.accounts[63] = Default::default();
        assert!(is_in_order(&whole), "{year}");
        let Ok(Case::Damaged(changes)) = format!("damaged {damages}").parse() else {
            panic!("the damages can't be read");
        };
        for (field, value) in changes {
            let mut books = whole.clone();
            books.set(field, value);
            assert!(!is_in_order(&books), "{field} {value}");
        }
    }
}

/// What all three versions answer.
fn is_in_order(books: &Everyday) -> bool {
    let (number, _) = agreed(books, &Call::InOrder);
    assert_eq!(tuned::in_order(books), number == 0, "tuned");
    number == 0
}
