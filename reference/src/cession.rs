//! The cession, by which one user gives capacity to another.
//!
//! The rules are those of document 01: "The changing calls", and the questions
//! 1, 2, 3, 5, 8, 9, 10, 1 once more, 11 and 13 of "Questions put to a call".
//! Question 10 can also be put by itself, with its day for an answer. What that
//! paper leaves open:
//!
//! - an arrival outside the calendar is refused by question 8;
//! - the two lines of a cession are written after the last one used.

use std::ops::Range;

use crate::calendar::{Span, ThermalYear};
use crate::register::{
    amount_within_limits, day_count, ensure, used_lines, Lent, Line, Refusal, Register, ANNUAL,
    MONTH,
};

/// The working day of its own month by which a cession arrives. Document 01,
/// question 9: the 16th.
pub const CESSION_DEADLINE: usize = 16;

/// The lines that a cession writes: minus for the giver, then plus for the
/// receiver.
const LINES_OF_CESSION: usize = 2;

/// A cession, its arrival being a gas-day.
#[derive(Debug, Clone, Copy, PartialEq, Eq)]
pub struct Cession {
    pub giver: u8,
    pub receiver: u8,
    pub point: u8,
    pub arrival: u16,
    pub amount: u64,
}

/// An amount that a user is to hold at a point, on each day from `first` to
/// `last`. There is nothing to hold where the first is after the last.
#[derive(Debug, Clone, Copy, PartialEq, Eq)]
pub struct Holding {
    pub user: u8,
    pub point: u8,
    pub first: u16,
    pub last: u16,
    pub amount: u32,
}

impl Line {
    /// Its last day. Document 01: annual lines end with the year, month lines
    /// with the month, day lines on that day.
    fn last(&self, year: &ThermalYear) -> u32 {
        match self.kind {
            ANNUAL => *year.days().end(),
            MONTH => {
                let later = year
                    .month_firsts()
                    .iter()
                    .find(|&&first| first > self.first);
                later.map_or(*year.days().end(), |next| next - 1)
            }
            _ => self.first,
        }
    }
}

/// What a ledger line gives or takes, and the days on which it does. A range
/// without its end is looked up faster than a [`Span`].
struct Part {
    days: Range<u32>,
    amount: i32,
}

/// What a user holds at a point, by his ledger lines there.
pub struct Held(Vec<Part>);

impl Held {
    /// What a user holds at a point on a gas-day: the sum of his lines there.
    pub fn on(&self, day: u32) -> i64 {
        let parts = self.0.iter().filter(|part| part.days.contains(&day));
        parts.map(|part| i64::from(part.amount)).sum()
    }
}

impl Register {
    /// Cedes an amount for the rest of the year; the amount is given. Its charge
    /// moves from the giver's commitment to the receiver's, and two lines are
    /// written. The free amounts stay as they are.
    pub fn cede(&mut self, lent: &mut Lent, cession: Cession) -> Result<u32, Refusal> {
        let year = self.year_in_order(lent)?;
        let amount = self.admit_cession(&cession)?;
        let arrival = u32::from(cession.arrival);
        let span = year.rest_after(arrival).ok_or(Refusal::OutsideYear)?;
        let month = year.arrival_month(arrival);
        let deadline = month.and_then(|month| year.working_day(month, CESSION_DEADLINE));
        ensure(deadline.is_some_and(|last| arrival <= last), Refusal::Late)?;

        let held = self.held(&year, lent.ledger, cession.giver, cession.point);
        let is_held = span.clone().all(|day| held.on(day) >= amount.into());
        ensure(is_held, Refusal::NotHeld)?;
        self.move_charge(&cession, amount, &span)?;
        let signed = amount.cast_signed();
        for (user, amount) in [(cession.giver, -signed), (cession.receiver, signed)] {
            let line = Line {
                user: user.into(),
                point: cession.point.into(),
                kind: ANNUAL,
                first: *span.start(),
                amount,
            };
            self.write_line(lent.ledger, line);
        }
        Ok(amount)
    }

    /// Questions 2, 3 and 5: the amount that is ceded.
    fn admit_cession(&self, cession: &Cession) -> Result<u32, Refusal> {
        let amount = amount_within_limits(cession.amount)?;
        ensure(cession.giver != cession.receiver, Refusal::OutOfLimits)?;
        let account = |user: u8| self.accounts.get(usize::from(user));
        let point = self.points.get(usize::from(cession.point));
        let users = account(cession.giver).zip(account(cession.receiver));
        let (point, (giver, receiver)) = point.zip(users).ok_or(Refusal::OutOfLimits)?;
        ensure(point.is_open(), Refusal::PointClosed)?;
        let are_on_file = giver.is_on_file() && receiver.is_on_file();
        ensure(are_on_file, Refusal::NotOnFile)?;
        Ok(amount)
    }

    /// Questions 1 again, 11 and 13; where all are answered yes the charge moves.
    fn move_charge(&mut self, cession: &Cession, amount: u32, span: &Span) -> Result<(), Refusal> {
        let charge = self.points[usize::from(cession.point)].charge(amount, day_count(span));
        let [giver, receiver] = [cession.giver, cession.receiver].map(usize::from);
        let lowered = self.accounts[giver].commitment.checked_sub(charge);
        let lowered = lowered.ok_or(Refusal::NotInOrder)?;
        ensure(self.accounts[receiver].covers(charge), Refusal::NotCovered)?;
        ensure(self.has_lines_left(LINES_OF_CESSION), Refusal::LedgerFull)?;
        self.accounts[giver].commitment = lowered;
        self.accounts[receiver].commitment += charge;
        Ok(())
    }

    /// What a user holds at a point. His lines there are picked out first, so
    /// that a day is looked up in these only.
    pub fn held(&self, year: &ThermalYear, ledger: &[u32], user: u8, point: u8) -> Held {
        let lines = used_lines(ledger, self.lines)
            .filter(|line| line.user == u32::from(user) && line.point == u32::from(point));
        let part = |line: Line| Part {
            days: line.first..line.last(year).saturating_add(1),
            amount: line.amount,
        };
        // With room for every line it is not moved while it grows.
        let mut parts = Vec::with_capacity(self.lines.into());
        parts.extend(lines.map(part));
        Held(parts)
    }

    /// The first day of a span on which a user holds less than an amount. The
    /// register is in order.
    pub fn first_short_day(&self, ledger: &[u32], holding: Holding) -> Option<u16> {
        let year = ThermalYear::new(self.year)?;
        let held = self.held(&year, ledger, holding.user, holding.point);
        (holding.first..=holding.last).find(|&day| held.on(day.into()) < holding.amount.into())
    }
}
