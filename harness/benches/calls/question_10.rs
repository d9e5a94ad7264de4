//! Question 10 alone: does the giver hold the amount on every day of the span?
//! Else the first gas-day with too little.

use std::hint::black_box;

use harness::books::Everyday;
use harness::calls::Call;
use reference::register::{ANNUAL, LEDGER_LINES, MONTH};

use crate::registers::{calendar, full, givers_line, one_line, Line, YEAR};
use crate::row::{agreed, Row};
use crate::table::{Table, EVERYDAY};
use crate::timing::timed;

/// Times both registers. The everyday one is asked directly: the call as a value
/// puts question 10 to a copy of the ledger, in which every line is in the year.
pub fn compare() {
    let mut table = Table::new(
        "Question 10 alone: does the giver hold the amount on every day of the span? No goal of its own:\n\
         it is a part of the cession.",
        &[(EVERYDAY.0, None)],
    );
    for row in rows() {
        let Call::ShortDay(holding) = row.call else {
            panic!("{}: another call", row.name);
        };
        let mut versions = row.versions();
        let (register, ledger) = (&row.books.register, &row.books.lists.ledger);
        let ask = || register.first_short_day(black_box(ledger), black_box(holding));
        let (_, day) = agreed(&row.books, &row.call);
        assert_eq!(ask().map_or(0, u32::from), day, "{}", row.name);
        versions[1] = Box::new(move || timed(ask));
        table.row(&row, versions);
    }
}

/// From 1 November on where one line is the giver's, else for the whole year.
fn rows() -> [Row; 6] {
    let one = "one line the giver's; held for 335 days";
    let held = |first, amount| format!("short-day 5 7 {first} 9039 {amount} -> 0 0");
    let annual = "annual lines, all the giver's; held for 366 days";
    let month = "month lines, all the giver's; held for 366 days";
    let annual_short = "annual lines, all the giver's; short on the first";
    let month_short = "month lines, all the giver's; short on the first";
    let short = "short-day 5 7 8674 9039 3000000 -> 10 8674";
    [
        Row::new(one, one_line(1000), &held(8705, 1_000_000)),
        Row::new(one, one_line(2000), &held(8705, 1_000_000)),
        Row::new(annual, all_lines(ANNUAL), &held(8674, 1_000_000)),
        Row::new(month, all_lines(MONTH), &held(8674, 10_000)),
        Row::new(annual_short, all_lines(ANNUAL), short),
        Row::new(month_short, all_lines(MONTH), short),
    ]
}

/// As many lines of a kind as a ledger has, all the giver's and of 1,000 each:
/// annual lines from 1 October, month lines of each month in turn.
fn all_lines(kind: u32) -> Everyday {
    let year = calendar(YEAR);
    let months = if kind == MONTH { 12 } else { 1 };
    let firsts = year.month_firsts()[..months].iter().cycle();
    let lines = firsts.map(|&first| givers_line(kind, first, 1000));
    full(YEAR, &lines.take(LEDGER_LINES).collect::<Vec<Line>>())
}
