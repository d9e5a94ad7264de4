//! The register, and the calls that confer no capacity: the fresh register, open
//! point, place guarantee, turn the year and the report. Question 1 is in
//! [`crate::order`], the other calls have a module each.
//!
//! The rules are those of document 01, sections "The register", "The changing
//! calls", "Questions put to a call" and "Report and runner". What that paper
//! leaves open:
//!
//! - a closed point has kind, total and rate 0, else the register is not in
//!   order;
//! - the mark of a user on file is 0 or 1;
//! - ledger lines past the count are not looked at;
//! - a ledger of another length than 10,240 numbers is "not in order", and for
//!   a fresh register "out of limits";
//! - a refused fresh register is a blank one of year 0.

use std::ops::RangeInclusive;

use crate::calendar::{Span, ThermalYear};

/// How many points a register has.
pub const POINTS: usize = 32;

/// How many users a register has.
pub const USERS: usize = 64;

/// The free amounts of one point: one for each day of a leap thermal year.
pub const DAYS_IN_ROW: usize = 366;

/// The length of the table of free amounts. Document 01: 11,712.
pub const TABLE_LENGTH: usize = POINTS * DAYS_IN_ROW;

/// How many lines a ledger has at most.
pub const LEDGER_LINES: usize = 2_048;

/// The numbers of one line: user, point, kind, first day and amount.
pub const NUMBERS_IN_LINE: usize = 5;

/// The length of the ledger as a list of numbers.
pub const LEDGER_LENGTH: usize = LEDGER_LINES * NUMBERS_IN_LINE;

/// Totals of an open point, and amounts but for their sign.
pub const AMOUNTS: RangeInclusive<u32> = 1..=9_999_999;

/// Rates of an open point.
pub const RATES: RangeInclusive<u32> = 0..=999_999;

/// Guarantees of a user on file. Document 01: 0 to 10^15.
pub const GUARANTEES: RangeInclusive<u64> = 0..=1_000_000_000_000_000;

/// Kinds of an open point: 1 direct, 2 thermoelectric.
pub const KINDS: RangeInclusive<u8> = 1..=2;

/// The kind of a direct point.
pub const DIRECT: u8 = 1;

/// A delivery point. One of kind 0 is closed.
#[derive(Debug, Clone, Copy, PartialEq, Eq, Default)]
pub struct Point {
    pub kind: u8,
    pub total: u32,
    pub rate: u32,
}

impl Point {
    pub fn is_open(&self) -> bool {
        self.kind != 0
    }

    /// The charge of an amount for so many days. It is below 2^52: an amount has
    /// at most seven digits, a rate six, a span 366 days.
    pub fn charge(&self, amount: u32, days: usize) -> u64 {
        u64::from(amount) * days as u64 * u64::from(self.rate)
    }
}

/// A point that is to be opened.
#[derive(Debug, Clone, Copy, PartialEq, Eq)]
pub struct Opening {
    pub point: u8,
    pub kind: u8,
    pub total: u64,
    pub rate: u32,
}

/// The account of a user, on file where `on_file` is 1.
#[derive(Debug, Clone, Copy, PartialEq, Eq, Default)]
pub struct Account {
    pub on_file: u8,
    pub guarantee: u64,
    pub commitment: u64,
}

impl Account {
    pub fn is_on_file(&self) -> bool {
        self.on_file == 1
    }

    /// Question 11.
    pub(crate) fn covers(&self, charge: u64) -> bool {
        self.commitment + charge <= self.guarantee
    }
}

/// Kinds of ledger lines.
pub const ANNUAL: u32 = 1;
pub const MONTH: u32 = 2;
pub const DAY: u32 = 3;

/// A ledger line as it is read and written.
#[derive(Debug, Clone, Copy, PartialEq, Eq)]
pub struct Line {
    pub user: u32,
    pub point: u32,
    pub kind: u32,
    pub first: u32,
    pub amount: i32,
}

impl Line {
    /// The line that five numbers hold. The amount is the number whose 32 bits,
    /// read as signed, the fifth one has.
    pub(crate) fn read(&[user, point, kind, first, amount]: &[u32; NUMBERS_IN_LINE]) -> Line {
        Line {
            user,
            point,
            kind,
            first,
            amount: amount.cast_signed(),
        }
    }

    /// The five numbers that hold the line.
    fn numbers(&self) -> [u32; NUMBERS_IN_LINE] {
        let amount = self.amount.cast_unsigned();
        [self.user, self.point, self.kind, self.first, amount]
    }
}

/// The lines of a ledger that are used.
pub(crate) fn used_lines(ledger: &[u32], lines: u16) -> impl Iterator<Item = Line> + '_ {
    let (all, _) = ledger.as_chunks();
    let used = all.len().min(lines.into());
    all[..used].iter().map(Line::read)
}

/// Why a call is refused: the question of document 01 that is answered no.
#[derive(Debug, Clone, Copy, PartialEq, Eq)]
pub enum Refusal {
    NotInOrder = 1,
    OutOfLimits = 2,
    PointClosed = 3,
    PointOpen = 4,
    NotOnFile = 5,
    BelowCommitment = 6,
    NotOffered = 7,
    OutsideYear = 8,
    Late = 9,
    NotHeld = 10,
    NotCovered = 11,
    NothingFree = 12,
    LedgerFull = 13,
    UserRepeated = 14,
    YearNotLater = 15,
}

impl Refusal {
    /// The number of the question.
    pub fn number(self) -> u8 {
        self as u8
    }
}

/// Refuses where a question is answered no.
pub(crate) fn ensure(answer: bool, refusal: Refusal) -> Result<(), Refusal> {
    if answer {
        Ok(())
    } else {
        Err(refusal)
    }
}

/// An amount or a total of a call, if it is within limits.
pub(crate) fn amount_within_limits(amount: u64) -> Result<u32, Refusal> {
    let narrow = u32::try_from(amount).ok();
    narrow
        .filter(|amount| AMOUNTS.contains(amount))
        .ok_or(Refusal::OutOfLimits)
}

/// The two lists that a host lends to a call.
#[derive(Debug)]
pub struct Lent<'a> {
    /// The free amounts, 366 for each point in turn.
    pub free: &'a mut [u32],
    /// The ledger, five numbers for each line in turn.
    pub ledger: &'a mut [u32],
}

impl Lent<'_> {
    /// The free amounts of a point.
    pub(crate) fn row(&mut self, point: u8) -> &mut [u32] {
        &mut self.free[DAYS_IN_ROW * usize::from(point)..][..DAYS_IN_ROW]
    }

    /// The free amounts of a point on the days of a span of the year.
    pub(crate) fn amounts(&mut self, year: &ThermalYear, point: u8, span: &Span) -> &mut [u32] {
        let from = (span.start() - year.days().start()) as usize;
        &mut self.row(point)[from..][..day_count(span)]
    }
}

/// The register of one thermal year, but for the lists that are lent.
#[derive(Debug, Clone, PartialEq, Eq)]
pub struct Register {
    pub year: u16,
    pub points: [Point; POINTS],
    pub accounts: [Account; USERS],
    /// How many lines of the ledger are used.
    pub lines: u16,
}

impl Register {
    /// A register with no point open, no user on file and no line.
    pub fn blank(year: u16) -> Register {
        Register {
            year,
            points: [Point::default(); POINTS],
            accounts: [Account::default(); USERS],
            lines: 0,
        }
    }

    /// Makes this a fresh register of a year. If it is refused the lists are
    /// left, and the register is of year 0, which no call takes.
    pub fn renew(&mut self, lent: &mut Lent, year: u16) -> Result<(), Refusal> {
        let fits = ThermalYear::new(year).is_some()
            && lent.free.len() == TABLE_LENGTH
            && lent.ledger.len() == LEDGER_LENGTH;
        if !fits {
            *self = Register::blank(0);
            return Err(Refusal::OutOfLimits);
        }
        *self = Register::blank(year);
        lent.free.fill(0);
        lent.ledger.fill(0);
        Ok(())
    }

    /// Opens a point: every gas-day of the year is free to the total. Questions
    /// 1, 2 and 4.
    pub fn open_point(&mut self, lent: &mut Lent, opening: Opening) -> Result<(), Refusal> {
        let year = self.year_in_order(lent)?;
        let Opening { point, kind, .. } = opening;
        let place = self.points.get_mut(usize::from(point));
        let place = place.ok_or(Refusal::OutOfLimits)?;
        let (total, rate) = (amount_within_limits(opening.total)?, opening.rate);
        let fits = KINDS.contains(&kind) && RATES.contains(&rate);
        ensure(fits, Refusal::OutOfLimits)?;
        ensure(!place.is_open(), Refusal::PointOpen)?;
        *place = Point { kind, total, rate };
        free_to_total(lent.row(point), total, year.day_count());
        Ok(())
    }

    /// Puts a user on file, or replaces the amount. Questions 1, 2 and 6.
    pub fn place_guarantee(
        &mut self,
        lent: &Lent,
        user: u8,
        guarantee: u64,
    ) -> Result<(), Refusal> {
        self.year_in_order(lent)?;
        let account = self.accounts.get_mut(usize::from(user));
        let account = account.ok_or(Refusal::OutOfLimits)?;
        ensure(GUARANTEES.contains(&guarantee), Refusal::OutOfLimits)?;
        ensure(account.commitment <= guarantee, Refusal::BelowCommitment)?;
        account.on_file = 1;
        account.guarantee = guarantee;
        Ok(())
    }

    /// Turns the register to a later year: totals are free again, the ledger is
    /// empty, commitments are 0. Questions 1, 2 and 15.
    pub fn turn_year(&mut self, lent: &mut Lent, year: u16) -> Result<(), Refusal> {
        self.year_in_order(lent)?;
        let days = ThermalYear::new(year).ok_or(Refusal::OutOfLimits)?;
        ensure(year > self.year, Refusal::YearNotLater)?;
        self.year = year;
        self.lines = 0;
        for account in &mut self.accounts {
            account.commitment = 0;
        }
        for (point, row) in self
            .points
            .iter()
            .zip(lent.free.chunks_exact_mut(DAYS_IN_ROW))
        {
            free_to_total(row, point.total, days.day_count());
        }
        lent.ledger.fill(0);
        Ok(())
    }

    /// The free amount of a point and gas-day. Questions 1, 2, 3 and 8.
    pub fn report(&self, lent: &Lent, point: u8, day: u16) -> Result<u32, Refusal> {
        let year = self.year_in_order(lent)?;
        let place = self.points.get(usize::from(point));
        let place = place.ok_or(Refusal::OutOfLimits)?;
        ensure(place.is_open(), Refusal::PointClosed)?;
        let day = u32::from(day);
        ensure(year.days().contains(&day), Refusal::OutsideYear)?;
        let nth = (day - year.days().start()) as usize;
        Ok(lent.free[DAYS_IN_ROW * usize::from(point) + nth])
    }

    /// Writes a line after the last one used. There is room for it.
    pub(crate) fn write_line(&mut self, ledger: &mut [u32], line: Line) {
        let place = NUMBERS_IN_LINE * usize::from(self.lines);
        ledger[place..][..NUMBERS_IN_LINE].copy_from_slice(&line.numbers());
        self.lines += 1;
    }

    /// Question 13.
    pub(crate) fn has_lines_left(&self, wanted: usize) -> bool {
        usize::from(self.lines) + wanted <= LEDGER_LINES
    }
}

/// How many days a span has.
pub(crate) fn day_count(span: &Span) -> usize {
    (span.end() - span.start()) as usize + 1
}

/// Every gas-day of the year is free to the total, and none after it.
fn free_to_total(row: &mut [u32], total: u32, days: usize) {
    let (within, after) = row.split_at_mut(days);
    within.fill(total);
    after.fill(0);
}
