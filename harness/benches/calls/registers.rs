//! Registers in order with every point open and every user on file, and ledger
//! lines for them. They are the same at every run.

use std::iter;

use harness::books::Everyday;
use harness::numbers::Generator;
use reference::calendar::ThermalYear;
use reference::register::{
    AMOUNTS, ANNUAL, DAY, DAYS_IN_ROW, GUARANTEES, MONTH, NUMBERS_IN_LINE, POINTS, RATES, USERS,
};

/// A year of 366 gas-days, from 1 October 2023.
pub const YEAR: u16 = 2023;
pub const OCTOBER: u32 = 8_674;

/// Where the calls are made, and by whom capacity is ceded.
pub const POINT: usize = 7;
const GIVER: u32 = 5;

pub const KINDS: [u32; 3] = [ANNUAL, MONTH, DAY];

/// The numbers of a ledger line: user, point, kind, first day and amount.
pub type Line = [u32; NUMBERS_IN_LINE];

pub fn calendar(year: u16) -> ThermalYear {
    ThermalYear::new(year).expect("a year within limits")
}

/// A line of the giver's at the point.
pub fn givers_line(kind: u32, first: u32, amount: u32) -> Line {
    [GIVER, POINT as u32, kind, first, amount]
}

/// Lines of any users and points, none of them the giver's.
pub fn of_others(lines: usize) -> Vec<Line> {
    let is_others = |line: &Line| line[..2] != [GIVER, POINT as u32];
    drawn(YEAR, lines, &KINDS, is_others)
}

/// A register with so many lines, of which the one in the middle is the giver's.
pub fn one_line(lines: usize) -> Everyday {
    let mut drawn = of_others(lines - 1);
    drawn.insert(lines / 2, givers_line(ANNUAL, OCTOBER, 1_000_000));
    full(YEAR, &drawn)
}

/// So many lines that question 1 lets pass, each of one of the kinds.
pub fn drawn(year: u16, lines: usize, kinds: &[u32], is_wanted: fn(&Line) -> bool) -> Vec<Line> {
    let (year, mut generator) = (calendar(year), Generator(1));
    iter::repeat_with(|| drawn_line(&mut generator, &year, kinds))
        .filter(is_wanted)
        .take(lines)
        .collect()
}

fn drawn_line(generator: &mut Generator, year: &ThermalYear, kinds: &[u32]) -> Line {
    let kind = generator.pick(kinds);
    let first = match kind {
        DAY => year.days().start() + generator.below::<u32>(year.day_count() as u64),
        _ => generator.pick(year.month_firsts()),
    };
    let sign = generator.pick(&[-1, 1, 1, 1, 1, 1, 1, 1]);
    let amount = sign * (1 + generator.below::<i32>(u64::from(*AMOUNTS.end())));
    let user = generator.below(USERS as u64);
    let point = generator.below(POINTS as u64);
    [user, point, kind, first, amount.cast_unsigned()]
}

/// A register of a year with these lines, guarantees that cover every charge and,
/// at the point of the calls, capacity left on each day.
pub fn full(year: u16, lines: &[Line]) -> Everyday {
    let mut generator = Generator(1);
    let mut books = Everyday::default();
    let (register, lists) = (&mut books.register, &mut books.lists);
    let (days, total) = (calendar(year).day_count(), *AMOUNTS.end());
    let rows = lists.free.chunks_exact_mut(DAYS_IN_ROW);
    for (point, row) in register.points.iter_mut().zip(rows) {
        point.kind = 1 + generator.below::<u8>(2);
        point.total = 1 + generator.below::<u32>(u64::from(total));
        point.rate = generator.below(u64::from(*RATES.end()) + 1);
        row[..days].fill_with(|| generator.below(u64::from(point.total) + 1));
        row[days..].fill(0);
    }
    let point = &mut register.points[POINT];
    (point.kind, point.total, point.rate) = (2, total, 100);
    let row = &mut lists.free[DAYS_IN_ROW * POINT..][..days];
    for (amount, k) in row.iter_mut().zip(0..) {
        *amount = total - 7_919 * k % 1_000_000;
    }
    for account in &mut register.accounts {
        (account.on_file, account.guarantee) = (1, *GUARANTEES.end());
        account.commitment = account.guarantee / 2;
    }
    lists.ledger.fill(0);
    lists.ledger[..NUMBERS_IN_LINE * lines.len()].copy_from_slice(lines.as_flattened());
    (register.year, register.lines) = (year, lines.len() as u16);
    books
}

/// Closes a point, of which there is no line.
pub fn close(books: &mut Everyday, point: usize) {
    books.register.points[point] = Default::default();
    books.lists.free[DAYS_IN_ROW * point..][..DAYS_IN_ROW].fill(0);
}
