//! The reckoning of demand 3: sums over the calls' fields and answers, nothing from the register.

use reference::calendar::{Span, ThermalYear};
use std::ops::RangeInclusive;
use ylgrandi::Refusal::{self, NotInOrder, NothingFree};
use ylgrandi::{BatchLine, Cession, Point, Product, Register, Request};

pub const POINTS: u8 = 32;
pub const USERS: u8 = 64;
const DAYS: usize = 366;

#[derive(Debug)]
pub enum Call {
    Open { point: u8, opened: Point },
    Guarantee { user: u8, amount: u64 },
    Request(Request),
    Batch { point: u8, lines: Vec<BatchLine> },
    Cession(Cession),
    Turn { year: u16 },
    Report { point: u8, day: u16 },
}

/// What an accepted call gives: an amount, for a batch a share for each line, or nothing.
pub type Answer = Result<Vec<Share>, Refusal>;
pub type Share = Result<u32, Refusal>;

impl Call {
    pub fn put_to(&self, register: &mut Register) -> Answer {
        let none = |()| Vec::new();
        let one = |amount| vec![Ok(amount)];
        match *self {
            Call::Open { point, opened: at } => register
                .open_point(point, at.kind, u64::from(at.total), at.rate)
                .map(none),
            Call::Guarantee { user, amount } => register.place_guarantee(user, amount).map(none),
            Call::Request(request) => register.request(request).map(one),
            Call::Batch { point, ref lines } => register.confer_batch(point, lines),
            Call::Cession(cession) => register.cede(cession).map(one),
            Call::Turn { year } => register.turn_year(year).map(none),
            Call::Report { point, day } => register.report(point, day).map(one),
        }
    }
}

pub struct Reckoning {
    pub year: u16,
    pub thermal: ThermalYear,
    points: [Option<Point>; POINTS as usize],
    /// Guarantees, and commitments: what was granted and taken over less what was ceded.
    users: [Option<(u64, u64)>; USERS as usize],
    /// By user, point and gas-day what the user holds, and after the last user what was granted.
    held: Vec<u32>,
    /// The ledger's lines: one for a grant, two for a cession.
    pub lines: usize,
    /// The point and the days of the last grant or cession.
    pub touched: (u8, Span),
}

impl Reckoning {
    /// That of an empty list of calls; `None` if the year is out of limits.
    pub fn fresh(year: u16) -> Option<Reckoning> {
        let thermal = ThermalYear::new(year)?;
        Some(Reckoning {
            year,
            touched: (0, thermal.days()),
            thermal,
            points: [None; POINTS as usize],
            users: [None; USERS as usize],
            held: vec![0; usize::from(USERS + 1) * usize::from(POINTS) * DAYS],
            lines: 0,
        })
    }

    /// Books a call that was answered so, and gives the answer that was due; `None` where it was to
    /// be of another sort. Which refusal is due the sums don't say, so one is taken as given: but
    /// never 1, and 12 only where nothing is free.
    pub fn book(&mut self, call: &Call, given: &Answer) -> Option<Answer> {
        match (call, given) {
            (Call::Request(request), Ok(_) | Err(NothingFree)) => return self.request(request),
            (_, Err(NotInOrder | NothingFree)) => return None,
            (&Call::Report { point, day }, _) => {
                let free = self.smallest_free(point, &(day.into()..=day.into()));
                let free = free.map(|free| Ok(vec![Ok(free)]));
                return free.or(given.is_err().then(|| given.clone()));
            }
            (_, Err(_)) => {}
            (Call::Batch { point, lines }, Ok(shares)) => return self.batch(*point, lines, shares),
            (Call::Cession(cession), Ok(_)) => return self.cession(cession),
            (&Call::Turn { year }, Ok(_)) => {
                let (points, users) = (self.points, self.users);
                *self = Reckoning::fresh(year)?;
                self.points = points;
                self.users = users.map(|account| account.map(|(guarantee, _)| (guarantee, 0)));
            }
            (&Call::Open { point, opened }, Ok(_)) => {
                *self.points.get_mut(usize::from(point))? = Some(opened);
            }
            (&Call::Guarantee { user, amount }, Ok(_)) => {
                let account = self.users.get_mut(usize::from(user))?;
                account.get_or_insert((0, 0)).0 = amount;
            }
        }
        Some(given.clone())
    }

    /// The asked amount, which is from 1 on, or the smallest free amount of the span if less.
    fn request(&mut self, request: &Request) -> Option<Answer> {
        let span = self.span(request.product, request.arrival)?;
        let free = self.smallest_free(request.point, &span)?;
        let amount = u64::from(free).min(request.amount.max(1));
        let granted = self.line(request.user, request.point, &span, amount.into())?;
        Some(granted.map(|amount| vec![Ok(amount)]))
    }

    /// Pro quota over the lines that passed, which are those with a share or 12.
    fn batch(&mut self, point: u8, lines: &[BatchLine], given: &[Share]) -> Option<Answer> {
        let year = self.thermal.days();
        let free = i128::from(self.smallest_free(point, &year)?);
        let passed = |share: &Share| matches!(share, Ok(_) | Err(NothingFree));
        let passing = lines.iter().zip(given).filter(|(_, share)| passed(share));
        let sum: i128 = passing.map(|(line, _)| i128::from(line.asked)).sum();
        let mut due = given.to_vec();
        for (line, share) in lines.iter().zip(&mut due) {
            if passed(share) {
                let amount = i128::from(line.asked) * free.min(sum) / sum.max(1);
                *share = self.line(line.user, point, &year, amount)?;
            }
        }
        (!due.contains(&Err(NotInOrder))).then_some(Ok(due))
    }

    /// The asked amount, which the giver holds on every day.
    fn cession(&mut self, cession: &Cession) -> Option<Answer> {
        let (point, amount) = (cession.point, i128::from(cession.amount));
        let span = self.span(Product::Annual, cession.arrival)?;
        self.line(cession.giver, point, &span, -amount)?.ok()?;
        let taken_over = self.line(cession.receiver, point, &span, amount)?;
        Some(Ok(vec![taken_over]))
    }

    /// Books a ledger line: an amount granted or taken over, or one ceded, which is below 0. For an
    /// amount of 0 there is no line but the answer 12.
    fn line(&mut self, user: u8, point: u8, span: &Span, amount: i128) -> Option<Share> {
        if amount == 0 {
            return Some(Err(NothingFree));
        }
        let (amount, charge) = (i32::try_from(amount).ok()?, self.charge(point, span)?);
        let (_, commitment) = self.users.get_mut(usize::from(user))?.as_mut()?;
        *commitment = commitment.checked_add_signed(charge * i64::from(amount))?;
        for user in [user, USERS] {
            let places = self.places(user, point, span)?;
            for held in &mut self.held[places] {
                *held = held.checked_add_signed(amount)?;
            }
        }
        self.lines += 1;
        self.touched = (point, span.clone());
        Some(Ok(amount.unsigned_abs()))
    }

    /// The guarantee and the commitment of a user on file.
    pub fn user(&self, user: u8) -> Option<(u64, u64)> {
        *self.users.get(usize::from(user))?
    }

    pub fn point(&self, point: u8) -> Option<Point> {
        *self.points.get(usize::from(point))?
    }

    /// The charge of 1 Sm3 a day over a span.
    pub fn charge(&self, point: u8, span: &Span) -> Option<i64> {
        let days = i64::from(span.end() - span.start()) + 1;
        Some(days * i64::from(self.point(point)?.rate))
    }

    /// The span of a request, if there is one.
    pub fn span(&self, product: Product, arrival: u16) -> Option<Span> {
        match product {
            Product::Annual => self.thermal.rest_after(u32::from(arrival)),
            Product::Month(month) => self.thermal.month(month),
            Product::Day(day) => Some(u32::from(day)..=u32::from(day)),
        }
    }

    /// The smallest free amount of a span of the year at an open point.
    pub fn smallest_free(&self, point: u8, span: &Span) -> Option<u32> {
        let total = self.point(point)?.total;
        let granted = &self.held[self.places(USERS, point, span)?];
        total.checked_sub(*granted.iter().max()?)
    }

    /// The least that a user holds on a day of a span of the year.
    pub fn least_held(&self, user: u8, point: u8, span: &Span) -> Option<u32> {
        let held = self.held.get(self.places(user, point, span)?)?;
        held.iter().min().copied()
    }

    /// Where the sums of a span of the year are.
    fn places(&self, user: u8, point: u8, span: &Span) -> Option<RangeInclusive<usize>> {
        let year = self.thermal.days();
        let row = usize::from(user) * usize::from(POINTS) + usize::from(point);
        let place = |day| row * DAYS + (day - year.start()) as usize;
        let within = year.contains(span.start()) && year.contains(span.end());
        within.then(|| place(span.start())..=place(span.end()))
    }
}
