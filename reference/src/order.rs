//! Question 1: is the register in order?

use crate::calendar::ThermalYear;
use crate::register::{
    used_lines, Account, Lent, Line, Point, Refusal, Register, AMOUNTS, ANNUAL, DAY, DAYS_IN_ROW,
    GUARANTEES, KINDS, LEDGER_LENGTH, LEDGER_LINES, MONTH, RATES, TABLE_LENGTH,
};

impl Register {
    /// Question 1.
    pub fn is_in_order(&self, lent: &Lent) -> bool {
        self.year_in_order(lent).is_ok()
    }

    /// Question 1 as every call puts it: the thermal year of a register in order.
    pub(crate) fn year_in_order(&self, lent: &Lent) -> Result<ThermalYear, Refusal> {
        ThermalYear::new(self.year)
            .filter(|year| self.is_in_order_within(year, lent))
            .ok_or(Refusal::NotInOrder)
    }

    fn is_in_order_within(&self, year: &ThermalYear, lent: &Lent) -> bool {
        let days = year.day_count();
        lent.free.len() == TABLE_LENGTH
            && lent.ledger.len() == LEDGER_LENGTH
            && usize::from(self.lines) <= LEDGER_LINES
            && self.points.iter().all(is_point_in_order)
            && self.accounts.iter().all(is_account_in_order)
            && self
                .points
                .iter()
                .zip(lent.free.chunks_exact(DAYS_IN_ROW))
                .all(|(point, row)| is_row_in_order(point, row, days))
            && used_lines(lent.ledger, self.lines).all(|line| self.is_line_in_order(year, &line))
    }

    /// A line has a user on file, an open point, a kind, a first day in the year
    /// (a month's first for a month line) and an amount other than 0 within the
    /// limits.
    fn is_line_in_order(&self, year: &ThermalYear, line: &Line) -> bool {
        let is_first_in_order = match line.kind {
            ANNUAL | DAY => year.days().contains(&line.first),
            MONTH => year.month_firsts().contains(&line.first),
            _ => false,
        };
        let account = self.accounts.get(line.user as usize);
        let point = self.points.get(line.point as usize);
        is_first_in_order
            && account.is_some_and(Account::is_on_file)
            && point.is_some_and(Point::is_open)
            && AMOUNTS.contains(&line.amount.unsigned_abs())
    }
}

fn is_point_in_order(point: &Point) -> bool {
    match point.is_open() {
        true => {
            KINDS.contains(&point.kind)
                && AMOUNTS.contains(&point.total)
                && RATES.contains(&point.rate)
        }
        false => point.total == 0 && point.rate == 0,
    }
}

fn is_account_in_order(account: &Account) -> bool {
    match account.on_file {
        0 => account.guarantee == 0 && account.commitment == 0,
        1 => GUARANTEES.contains(&account.guarantee) && account.commitment <= account.guarantee,
        _ => false,
    }
}

/// Each free amount is at most its total; entries of closed points, whose total
/// is 0, and those after the year's last day are 0.
fn is_row_in_order(point: &Point, row: &[u32], days: usize) -> bool {
    let (year, after) = row.split_at(days);
    year.iter().all(|&amount| amount <= point.total) && after.iter().all(|&amount| amount == 0)
}
