//! Question 1 in Rust with its loops tuned: the amounts of a row are compared
//! with no early exit, so that the loop is vectorised, and the months' firsts are
//! marked in a table.

use harness::books::Everyday;
use reference::calendar::ThermalYear;
use reference::register::*;

pub fn in_order(books: &Everyday) -> bool {
    let (r, lists) = (&books.register, &books.lists);
    let (free, ledger) = (
        &lists.free[..lists.free_lent],
        &lists.ledger[..lists.ledger_lent],
    );
    let used = usize::from(r.lines);
    let fits = free.len() == TABLE_LENGTH && ledger.len() == LEDGER_LENGTH && used <= LEDGER_LINES;
    let Some(year) = ThermalYear::new(r.year).filter(|_| fits) else {
        return false;
    };
    let (begin, days) = (*year.days().start(), year.day_count());
    let mut marks = [false; DAYS_IN_ROW];
    for first in year.month_firsts() {
        marks[(first - begin) as usize] = true;
    }
    let mut rows = r.points.iter().zip(free.chunks_exact(DAYS_IN_ROW));
    let mut lines = ledger[..NUMBERS_IN_LINE * used].chunks_exact(NUMBERS_IN_LINE);
    all(&r.points, point_in_order)
        && all(&r.accounts, account_in_order)
        && rows.all(|(point, row)| row_in_order(point, row, days))
        && lines.all(|line| line_in_order(r, begin, &marks[..days], line))
}

/// Every element passes; all are tested.
fn all<T>(list: &[T], test: impl Fn(&T) -> bool) -> bool {
    list.iter().fold(true, |ok, element| ok & test(element))
}

fn point_in_order(p: &Point) -> bool {
    (p.kind == 0) & (p.total == 0) & (p.rate == 0)
        | (p.kind.wrapping_sub(1) < 2)
            & (p.total.wrapping_sub(1) < *AMOUNTS.end())
            & (p.rate <= *RATES.end())
}

fn account_in_order(a: &Account) -> bool {
    (a.on_file == 0) & (a.guarantee == 0) & (a.commitment == 0)
        | (a.on_file == 1) & (a.guarantee <= *GUARANTEES.end()) & (a.commitment <= a.guarantee)
}

fn row_in_order(point: &Point, row: &[u32], days: usize) -> bool {
    let (year, after) = row.split_at(days);
    all(year, |&amount| amount <= point.total) & all(after, |&amount| amount == 0)
}

fn line_in_order(r: &Register, begin: u32, marks: &[bool], line: &[u32]) -> bool {
    let &[user, point, kind, first, amount] = line else {
        return false;
    };
    let (Some(account), Some(point), Some(&opens)) = (
        r.accounts.get(user as usize),
        r.points.get(point as usize),
        marks.get(first.wrapping_sub(begin) as usize),
    ) else {
        return false;
    };
    (account.on_file == 1)
        & (point.kind > 0)
        & (kind.wrapping_sub(1) < 3)
        & ((kind != MONTH) | opens)
        & (amount.cast_signed().unsigned_abs().wrapping_sub(1) < *AMOUNTS.end())
}
