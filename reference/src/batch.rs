//! The batch at the year's start, which shares the capacity of a point out.
//!
//! The rules are those of document 01: "The changing calls", and of "Questions
//! put to a call" 1, 2, 3 and 13 for a batch as a whole, then 2, 14, 5, 11 and 12
//! for each of its lines. What that paper leaves open:
//!
//! - a line that names the user of an earlier one is refused by question 14, also
//!   where the earlier line is refused;
//! - a batch none of whose lines passes is answered 0 and books nothing, and where
//!   nothing is free each line that passes is refused by question 12;
//! - a refused batch leaves the lists for shares and numbers as they were;
//! - the lines of its shares are written after the last one used.

use std::mem;
use std::ops::RangeInclusive;

use crate::calendar::ThermalYear;
use crate::register::{
    amount_within_limits, ensure, Lent, Line, Point, Refusal, Register, ANNUAL, USERS,
};

/// How many lines a batch has. Document 01: 1 to 64.
pub const BATCH_LINES: RangeInclusive<usize> = 1..=64;

/// A batch at a point: line `i` is of user `i` and asks for amount `i`. Its share
/// and its number go to place `i` of the other two lists.
#[derive(Debug)]
pub struct Batch<'a> {
    pub point: u8,
    pub users: &'a [u8],
    pub asked: &'a [u64],
    pub shares: &'a mut [u32],
    pub numbers: &'a mut [u8],
}

impl Batch<'_> {
    /// Writes the shares of the lines that have passed so far, of the smallest free
    /// amount and the sum of what they ask for. Question 12 asks that none is 0.
    fn share_out(&mut self, least: u32, sum: u64) {
        let lines = self.asked.iter().zip(&mut *self.numbers);
        for ((&asked, number), share) in lines.zip(&mut *self.shares) {
            *share = match *number {
                0 => pro_quota(asked, least, sum),
                _ => 0,
            };
            if *number == 0 && *share == 0 {
                *number = Refusal::NothingFree.number();
            }
        }
    }
}

/// Document 01: if S is at most F each gets what it asked, else asked × F / S rounded
/// down.
fn pro_quota(asked: u64, least: u32, sum: u64) -> u32 {
    let least = u64::from(least);
    let share = if sum <= least {
        asked
    } else {
        asked * least / sum
    };
    u32::try_from(share).expect("no more than what was asked")
}

impl Register {
    /// Shares out the smallest free amount of the year. All shares together are
    /// taken from each day, the charge of each joins its user's commitment, and
    /// each has a line, annual from 1 October.
    pub fn confer(&mut self, lent: &mut Lent, mut batch: Batch) -> Result<(), Refusal> {
        let year = self.year_in_order(lent)?;
        let point = self.admit_batch(&batch)?;
        let amounts = lent.amounts(&year, batch.point, &year.days());
        let least = amounts.iter().copied().min().unwrap_or(0);
        let sum = self.ask_lines(&point, year.day_count(), &mut batch);
        batch.share_out(least, sum);

        let taken: u32 = batch.shares.iter().sum();
        for amount in amounts {
            *amount -= taken;
        }
        self.book_shares(lent.ledger, &batch, &point, &year);
        Ok(())
    }

    /// The questions on the batch as a whole: the point.
    fn admit_batch(&self, batch: &Batch) -> Result<Point, Refusal> {
        let lines = batch.users.len();
        let others = [batch.asked.len(), batch.shares.len(), batch.numbers.len()];
        let point = self.points.get(usize::from(batch.point));
        let point = point.ok_or(Refusal::OutOfLimits)?;
        let fits = BATCH_LINES.contains(&lines) && others == [lines; 3];
        ensure(fits, Refusal::OutOfLimits)?;
        ensure(point.is_open(), Refusal::PointClosed)?;
        ensure(self.has_lines_left(lines), Refusal::LedgerFull)?;
        Ok(*point)
    }

    /// Puts questions 2, 14, 5 and 11 to each line, and writes its number: the sum of
    /// the asked amounts of the lines that pass.
    fn ask_lines(&self, point: &Point, days: usize, batch: &mut Batch) -> u64 {
        let mut is_named = [false; USERS];
        let mut ask = |user: usize, asked: u64| {
            let account = self.accounts.get(user).ok_or(Refusal::OutOfLimits)?;
            let was_named = mem::replace(&mut is_named[user], true);
            let amount = amount_within_limits(asked)?;
            ensure(!was_named, Refusal::UserRepeated)?;
            ensure(account.is_on_file(), Refusal::NotOnFile)?;
            let is_covered = account.covers(point.charge(amount, days));
            ensure(is_covered, Refusal::NotCovered)?;
            Ok(asked)
        };
        let mut sum = 0;
        let lines = batch.users.iter().zip(batch.asked);
        for ((&user, &asked), number) in lines.zip(&mut *batch.numbers) {
            let passed = ask(user.into(), asked);
            *number = passed.map_or_else(Refusal::number, |_| 0);
            sum += passed.unwrap_or(0);
        }
        sum
    }

    /// Charges the shares above 0 and writes their lines.
    fn book_shares(
        &mut self,
        ledger: &mut [u32],
        batch: &Batch,
        point: &Point,
        year: &ThermalYear,
    ) {
        let booked = batch.users.iter().zip(&*batch.shares);
        for (&user, &share) in booked.filter(|(_, &share)| share > 0) {
            let account = &mut self.accounts[usize::from(user)];
            account.commitment += point.charge(share, year.day_count());
            let line = Line {
                user: user.into(),
                point: batch.point.into(),
                kind: ANNUAL,
                first: *year.days().start(),
                amount: share.cast_signed(),
            };
            self.write_line(ledger, line);
        }
    }
}
