//! The request, which grants capacity.
//!
//! The rules are those of document 01: "The changing calls", and the questions
//! 1, 2, 3, 5, 7, 8, 9, 11, 12 and 13 of "Questions put to a call". What that
//! paper leaves open:
//!
//! - a gas-day outside the calendar is outside the year, and an arrival there is
//!   outside its window, so that both are refused by question 8;
//! - the one line of a request is written after the last one used.

use std::ops::RangeInclusive;

use crate::calendar::{Span, ThermalYear};
use crate::register::{
    amount_within_limits, day_count, ensure, Lent, Line, Point, Refusal, Register, ANNUAL, DAY,
    DIRECT, MONTH,
};

/// The working day by which annual and monthly requests arrive. Document 01,
/// question 9: the 11th.
pub const REQUEST_DEADLINE: usize = 11;

/// The months of a thermal year.
const MONTHS: RangeInclusive<u8> = 1..=12;

/// What a request is for.
#[derive(Debug, Clone, Copy, PartialEq, Eq)]
pub enum Product {
    /// The rest of the year, from the first of the month after arrival.
    Annual,
    /// A month of the year, 1 for October to 12 for September.
    Month(u8),
    /// A gas-day.
    Day(u16),
}

/// A request, its arrival being a gas-day.
#[derive(Debug, Clone, Copy, PartialEq, Eq)]
pub struct Request {
    pub user: u8,
    pub point: u8,
    pub product: Product,
    pub arrival: u16,
    pub amount: u64,
}

impl Request {
    /// The gas-days that are asked for, as question 8 has it; `None` if the
    /// arrival or the span does not lie where it must, or if no day is left.
    pub fn span(&self, year: &ThermalYear) -> Option<Span> {
        let arrival = u32::from(self.arrival);
        if !year.arrivals().contains(&arrival) {
            return None;
        }
        match self.product {
            Product::Annual => year.rest_after(arrival),
            Product::Month(month) => year.month(month),
            Product::Day(day) => {
                let day = u32::from(day);
                year.days().contains(&day).then_some(day..=day)
            }
        }
    }

    /// The last day on which the request is in time; `None` where there is none.
    /// Document 01, question 9: the 11th working day of the arrival month, that
    /// of the month before the one asked for, the day before the gas-day.
    pub fn deadline(&self, year: &ThermalYear) -> Option<u32> {
        let month = match self.product {
            Product::Annual => year.arrival_month(self.arrival.into())?,
            Product::Month(month) => month.checked_sub(1)?,
            Product::Day(day) => return u32::from(day).checked_sub(1),
        };
        year.working_day(month, REQUEST_DEADLINE)
    }

    /// The line that a grant writes.
    fn line(&self, span: &Span, granted: u32) -> Line {
        Line {
            user: self.user.into(),
            point: self.point.into(),
            kind: match self.product {
                Product::Annual => ANNUAL,
                Product::Month(_) => MONTH,
                Product::Day(_) => DAY,
            },
            first: *span.start(),
            amount: granted.cast_signed(),
        }
    }
}

impl Register {
    /// Grants the asked amount, or the smallest free amount of the span if that
    /// is less; the amount granted is given. It is taken from each day of the
    /// span, its charge joins the commitment, and one line is written.
    pub fn request(&mut self, lent: &mut Lent, request: Request) -> Result<u32, Refusal> {
        let year = self.year_in_order(lent)?;
        let (asked, point) = self.admit_request(&request)?;
        let span = request.span(&year).ok_or(Refusal::OutsideYear)?;
        let deadline = request.deadline(&year);
        let is_in_time = deadline.is_some_and(|last| u32::from(request.arrival) <= last);
        ensure(is_in_time, Refusal::Late)?;

        let days = day_count(&span);
        let has_line_left = self.has_lines_left(1);
        let account = &mut self.accounts[usize::from(request.user)];
        ensure(
            account.covers(point.charge(asked, days)),
            Refusal::NotCovered,
        )?;
        let amounts = lent.amounts(&year, request.point, &span);
        let least = amounts.iter().copied().min().unwrap_or(0);
        ensure(least > 0, Refusal::NothingFree)?;
        ensure(has_line_left, Refusal::LedgerFull)?;

        let granted = asked.min(least);
        for amount in amounts {
            *amount -= granted;
        }
        account.commitment += point.charge(granted, days);
        self.write_line(lent.ledger, request.line(&span, granted));
        Ok(granted)
    }

    /// Questions 2, 3, 5 and 7: the amount that is asked for, and the point.
    fn admit_request(&self, request: &Request) -> Result<(u32, Point), Refusal> {
        let asked = amount_within_limits(request.amount)?;
        let point = self.points.get(usize::from(request.point));
        let point = point.ok_or(Refusal::OutOfLimits)?;
        let account = self.accounts.get(usize::from(request.user));
        let account = account.ok_or(Refusal::OutOfLimits)?;
        if let Product::Month(month) = request.product {
            ensure(MONTHS.contains(&month), Refusal::OutOfLimits)?;
        }
        ensure(point.is_open(), Refusal::PointClosed)?;
        ensure(account.is_on_file(), Refusal::NotOnFile)?;
        let is_offered = point.kind != DIRECT || request.product == Product::Annual;
        ensure(is_offered, Refusal::NotOffered)?;
        Ok((asked, *point))
    }
}
