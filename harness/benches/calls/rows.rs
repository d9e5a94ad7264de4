//! The calls that are timed: in a register in order of a leap year with all
//! points open and all users on file.

use harness::books::Everyday;
use reference::register::{ANNUAL, DAY, MONTH, USERS};

use crate::registers::*;
use crate::row::Row;
use crate::table::{Table, EVERYDAY};

/// Times each call on both registers; how many goals are missed.
pub fn compare() -> usize {
    let mut table = Table::new(
        "Calls in a register of 366 gas-days with 32 open points and 64 users on file; an opening, which\n\
         needs a closed point, is that of the last. All are accepted but for a cession where nobody holds\n\
         anything. A batch of 64 has room up to 1,984 lines. Goal: no slower than everyday Rust.",
        &[EVERYDAY],
    );
    for row in rows() {
        table.row(&row, row.versions());
    }
    table.missed
}

/// Requests are in time, having arrived in the September before the year. What is
/// ceded are the 335 days from 1 November on.
fn rows() -> Vec<Row> {
    let mut rows = Vec::new();
    let mut add = |name, case: &str, books: fn(usize) -> Everyday, sizes: &[usize]| {
        for &lines in sizes {
            rows.push(Row::new(name, books(lines), case));
        }
    };
    let sizes = &[0, 1000, 2000];
    add("fresh", "fresh 2023 -> 0", any, &[2000]);
    let open = "open 7 2 1000000 100 -> 0";
    add("open point, the last of 32", open, closed, sizes);
    let place = "guarantee 6 999999999999999 -> 0";
    add("place guarantee", place, any, sizes);
    let request = |product: &str| format!("request 6 7 {product} 8654 1000 -> 0 1000");
    add("request, annual, 366 days", &request("annual"), any, sizes);
    add("request, a month", &request("month 4"), any, sizes);
    add("request, a gas-day", &request("day 8774"), any, sizes);
    add("batch of 64 lines", &batch(), any, &[0, 1000, 1984]);
    let refused = "cession 5 6 7 8682 1000 -> 10 0";
    add("cession, refused with 10", refused, any, &[0]);
    let cede = "cession 5 6 7 8682 1000 -> 0 1000";
    let used = &[1000, 2000];
    add("cession, one line the giver's", cede, one_line, used);
    add("cession, all lines the giver's", cede, all_lines, used);
    add("turn year", "turn 2024 -> 0", any, sizes);
    add("report", "report 7 8874 -> 0 9416199", any, sizes);
    rows
}

/// All users, who ask for more than is free.
fn batch() -> String {
    let lines = (0..USERS).map(|user| format!("{user}:{} ", 200_000 + 1000 * user));
    format!("batch 7 {} -> 0", lines.collect::<String>())
}

/// Lines of any users and points.
fn any(lines: usize) -> Everyday {
    full(YEAR, &of_others(lines))
}

/// The point is closed, so that it can be opened.
fn closed(lines: usize) -> Everyday {
    let elsewhere = |line: &Line| line[1] != POINT as u32;
    let mut books = full(YEAR, &drawn(YEAR, lines, &KINDS, elsewhere));
    close(&mut books, POINT);
    books
}

/// Annual lines, lines of each month and of many gas-days in turn.
fn all_lines(lines: usize) -> Everyday {
    let line = |i: usize| match i % 3 {
        0 => givers_line(ANNUAL, OCTOBER, 1000),
        1 => givers_line(MONTH, calendar(YEAR).month_firsts()[i / 3 % 12], 1000),
        _ => givers_line(DAY, OCTOBER + i as u32 % 366, 1000),
    };
    full(YEAR, &(0..lines).map(line).collect::<Vec<Line>>())
}
