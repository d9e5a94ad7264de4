//! The register with its two lists, and the calls on it.

use std::fmt;

use crate::refusal::{verdict, Refusal};
use crate::sys;
use crate::values::{Account, BatchLine, Cession, Line, Point, PointKind, Request};

/// A capacity register: one thermal year, 32 points, 64 users, the free amounts
/// and the ledger. Two are equal if every number of them is.
#[derive(Clone, PartialEq, Eq)]
pub struct Register {
    register: sys::Register,
    free: Box<[u32]>,
    ledger: Box<[u32]>,
}

impl Register {
    /// A register of a thermal year, 2000 to 2098, with no point open, no user on
    /// file and an empty ledger. Refused with 2.
    pub fn fresh(year: u16) -> Result<Register, Refusal> {
        let mut free = vec![0; sys::TABLE].into_boxed_slice();
        let mut ledger = vec![0; sys::LEDGER].into_boxed_slice();
        let answer = sys::fresh(year, &mut free, &mut ledger);
        verdict(answer.number)?;
        Ok(Register {
            register: answer.register,
            free,
            ledger,
        })
    }

    /// Opens a point, 0 to 31: every gas-day of the year is free to the total,
    /// which is 1 to 9,999,999. The rate is 0 to 999,999. Refused with 2 or 4.
    pub fn open_point(
        &mut self,
        point: u8,
        kind: PointKind,
        total: u64,
        rate: u32,
    ) -> Result<(), Refusal> {
        let opening = sys::Opening {
            point,
            kind: kind.number(),
            total,
            rate,
        };
        let answer = sys::open_point(&self.register, &mut self.free, &self.ledger, opening);
        self.settle(answer).map(drop)
    }

    /// Puts a user, 0 to 63, on file, or replaces his guarantee, which is at most
    /// 10^15. Refused with 2 or 6.
    pub fn place_guarantee(&mut self, user: u8, guarantee: u64) -> Result<(), Refusal> {
        let answer =
            sys::place_guarantee(&self.register, &self.free, &self.ledger, user, guarantee);
        self.settle(answer).map(drop)
    }

    /// Requests an amount, 1 to 9,999,999. Granted is that amount, or the smallest
    /// free amount of the span if that is less. Refused with 2, 3, 5, 7, 8, 9, 11,
    /// 12 or 13.
    pub fn request(&mut self, request: Request) -> Result<u32, Refusal> {
        let answer = sys::request(
            &self.register,
            &mut self.free,
            &mut self.ledger,
            request.fields(),
        );
        self.settle(answer)
    }

    /// Confers a batch of 1 to 64 lines at a point, for the whole year, pro quota.
    /// Each line has a share, or its own refusal: 2, 14, 5, 11 or 12. The batch as
    /// a whole is refused with 2, 3 or 13.
    pub fn confer_batch(
        &mut self,
        point: u8,
        lines: &[BatchLine],
    ) -> Result<Vec<Result<u32, Refusal>>, Refusal> {
        let users: Vec<u8> = lines.iter().map(|line| line.user).collect();
        let asked: Vec<u64> = lines.iter().map(|line| line.asked).collect();
        let mut shares = vec![0; lines.len()];
        let mut numbers = vec![0; lines.len()];
        let batch = sys::Batch {
            point,
            users: &users,
            asked: &asked,
            shares: &mut shares,
            numbers: &mut numbers,
        };
        let answer = sys::batch(&self.register, &mut self.free, &mut self.ledger, batch);
        self.settle(answer)?;
        let lines = shares.into_iter().zip(numbers);
        Ok(lines
            .map(|(share, number)| verdict(number).map(|()| share))
            .collect())
    }

    /// Cedes an amount, 1 to 9,999,999, from the first of the month after arrival
    /// to the year's end, and answers it. Refused with 2, 3, 5, 8, 9, 10, 11 or 13.
    pub fn cede(&mut self, cession: Cession) -> Result<u32, Refusal> {
        let answer = sys::cession(
            &self.register,
            &mut self.free,
            &mut self.ledger,
            cession.fields(),
        );
        self.settle(answer)
    }

    /// Turns to a later thermal year: totals are free again, the ledger is empty,
    /// commitments are 0; points, rates and guarantees remain. Refused with 2 or
    /// 15.
    pub fn turn_year(&mut self, year: u16) -> Result<(), Refusal> {
        let answer = sys::turn_year(&self.register, &mut self.free, &mut self.ledger, year);
        self.settle(answer).map(drop)
    }

    /// The free amount of a point and gas-day. Refused with 2, 3 or 8.
    pub fn report(&self, point: u8, day: u16) -> Result<u32, Refusal> {
        let report = sys::report(&self.register, &self.free, &self.ledger, point, day);
        verdict(report.number).map(|()| report.amount)
    }

    /// The thermal year, named by the calendar year of its October.
    pub fn year(&self) -> u16 {
        self.register.year
    }

    /// A point, or `None` if it is closed or there is no such point.
    pub fn point(&self, point: u8) -> Option<Point> {
        let point = self.register.points.get(usize::from(point))?;
        Point::read(point)
    }

    /// The account of a user, or `None` if he is not on file or there is no such
    /// user.
    pub fn account(&self, user: u8) -> Option<Account> {
        let account = self.register.accounts.get(usize::from(user))?;
        Account::read(account)
    }

    /// The free amounts of an open point, one for each gas-day of the year from 1
    /// October: 365, or 366 where 29 February lies in the year. `None` as for
    /// [`Register::point`].
    pub fn free_amounts(&self, point: u8) -> Option<&[u32]> {
        self.point(point)?;
        let row = &self.free[usize::from(point) * sys::ROW..];
        Some(&row[..days_of(self.register.year)])
    }

    /// The lines of the ledger, the earliest first.
    pub fn ledger(&self) -> impl ExactSizeIterator<Item = Line> + '_ {
        self.ledger
            .chunks_exact(sys::LINE)
            .take(usize::from(self.register.lines))
            .map(Line::read)
    }

    /// The register, the table of free amounts and the ledger, to be read where
    /// they lie.
    pub fn as_parts(&self) -> (&sys::Register, &[u32], &[u32]) {
        (&self.register, &self.free, &self.ledger)
    }

    /// Takes over the register of an answer. After a refusal that is the one that
    /// went in, so there is no case to tell apart.
    fn settle(&mut self, answer: sys::Answer) -> Result<u32, Refusal> {
        self.register = answer.register;
        verdict(answer.number).map(|()| answer.amount)
    }
}

/// Shows the year and how full the ledger is: every number would be thousands of
/// lines.
impl fmt::Debug for Register {
    fn fmt(&self, f: &mut fmt::Formatter<'_>) -> fmt::Result {
        f.debug_struct("Register")
            .field("year", &self.register.year)
            .field("lines", &self.register.lines)
            .finish_non_exhaustive()
    }
}

/// The gas-days of a thermal year, whose February is that of the next calendar
/// year. Every fourth year of the calendar is leap.
fn days_of(year: u16) -> usize {
    if year % 4 == 3 {
        366
    } else {
        365
    }
}
