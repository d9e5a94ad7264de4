//! Random sequences of steps, the same at every run.
//!
//! A sequence knows the register that its next call meets: arrivals lie around
//! deadlines and the year's ends, amounts around what is free, held or covered.
//! Most fields are good, the others are spoilt one or two at a time. This file has
//! the calls that confer nothing; [`shapes`] has what sequences are made of.

mod batches;
mod cessions;
pub mod damages;
mod holdings;
mod requests;
pub mod shapes;

use reference::calendar::{Span, ThermalYear};
use reference::cession::Cession;
use reference::register::{Opening, DAYS_IN_ROW};
use reference::request::Request;

use crate::books::Everyday;
use crate::calls::{Answer, Call, Field, Step};
use crate::numbers::Generator;

/// The largest amount and total.
pub const MOST_AMOUNT: u64 = 9_999_999;

/// The largest guarantee.
pub const MOST_GUARANTEE: u64 = 1_000_000_000_000_000;

/// A sequence that is being made, and what it has come to.
#[derive(Debug)]
pub struct Sequence {
    pub numbers: Generator,
    pub books: Everyday,
    pub steps: Vec<Step>,
    /// A month of the year, 1 for October, that is asked for more than others.
    busy_month: u8,
    /// What damaged fields held before, the last damage last.
    repairs: Vec<(Field, u64)>,
    is_in_call: bool,
}

impl Sequence {
    /// One without steps, of a host without a register.
    pub fn new(numbers: Generator) -> Sequence {
        Sequence {
            numbers,
            books: Everyday::default(),
            steps: Vec::new(),
            busy_month: 1,
            repairs: Vec::new(),
            is_in_call: false,
        }
    }

    /// Adds a call, and makes it.
    pub fn call(&mut self, call: Call) -> Answer {
        self.steps.push(Step::Call(call.clone()));
        self.is_in_call = true;
        let answer = self.books.run(&call);
        self.is_in_call = false;
        answer
    }

    pub fn place(&mut self, user: u8, guarantee: u64) {
        self.call(Call::Place { user, guarantee });
    }

    /// Opens points and puts users on file.
    pub fn furnish(&mut self) {
        self.busy_month = 1 + self.numbers.below::<u8>(12);
        for _ in 0..2 + self.numbers.below::<u8>(3) {
            let opening = self.good_opening();
            self.call(Call::Open(opening));
        }
        let users = [&[0, 5][..], &[20, 63], &[0, 5, 20, 63]];
        for choices in &users[..2 + self.numbers.below::<usize>(2)] {
            let user = self.numbers.pick(choices);
            let guarantee = self.good_guarantee();
            self.place(user, guarantee);
        }
    }

    /// Puts more users on file, so that cessions have more receivers.
    pub fn place_more(&mut self) {
        let first = self.numbers.pick(&[1, 21, 40, 50]);
        let end = first + self.numbers.pick(&[3, 5, 8, 11]);
        for user in first..end {
            let guarantee = self.good_guarantee();
            self.place(user, guarantee);
        }
    }

    /// A request or a cession, a cession seldom while nobody holds anything.
    pub fn request_or_cession(&mut self) {
        let chances = if self.holdings().is_empty() { 7 } else { 40 };
        match self.numbers.in_hundred(chances) {
            true => self.cession(),
            false => self.request(),
        }
    }

    /// An opening within limits. Most totals are small, so that they are soon used
    /// up.
    fn good_opening(&mut self) -> Opening {
        let numbers = &mut self.numbers;
        let small = 1 + numbers.below::<u64>(30);
        let medium = 1 + numbers.below::<u64>(1_000);
        let any = 1 + numbers.below::<u64>(MOST_AMOUNT);
        let total = numbers.pick(&[small, small, small, medium, medium, any, 1, MOST_AMOUNT]);
        let (low, high) = (numbers.below(100), numbers.below(1_000_000));
        let rate = numbers.pick(&[low, low, high, 1, 0, 999_999]);
        let kind = numbers.pick(&[1, 2, 2, 2]);
        Opening {
            point: numbers.below(32),
            kind,
            total,
            rate,
        }
    }

    pub fn opening(&mut self) {
        let mut opening = self.good_opening();
        let known = self.open_point();
        let numbers = &mut self.numbers;
        match numbers.below::<u8>(12) {
            0 => opening.point = numbers.pick(&[32, 33, 64, 255]),
            1 => opening.kind = numbers.pick(&[0, 3, 4, 255]),
            2 => opening.total = numbers.pick(&[0, MOST_AMOUNT + 1, 1 << 32, 1 << 40, u64::MAX]),
            3 => opening.rate = numbers.pick(&[1_000_000, u32::MAX]),
            4 | 5 => opening.point = known,
            _ => {}
        }
        self.call(Call::Open(opening));
    }

    /// A guarantee within limits, from ample to tight.
    fn good_guarantee(&mut self) -> u64 {
        let numbers = &mut self.numbers;
        let any = numbers.below(MOST_GUARANTEE + 1);
        let little = numbers.below(1_000_000);
        let tight = numbers.below(10_000);
        numbers.pick(&[any, any, any, any, MOST_GUARANTEE, little, tight])
    }

    pub fn guarantee(&mut self) {
        let known = self.user_on_file();
        let user = self.numbers.pick(&[0, 5, 20, 63, known, known, known]);
        let committed = self.books.register.accounts[usize::from(user)].commitment;
        let good = self.good_guarantee();
        let numbers = &mut self.numbers;
        let (user, guarantee) = match numbers.below::<u8>(11) {
            0 => (numbers.pick(&[64, 65, 128, 255]), good),
            1 => (user, numbers.pick(&[MOST_GUARANTEE + 1, u64::MAX])),
            2 => (user, numbers.pick(&[0, MOST_GUARANTEE])),
            3 => (user, committed),
            4 | 5 => (user, committed.saturating_sub(1)),
            _ => (user, good),
        };
        self.place(user, guarantee);
    }

    pub fn turn(&mut self) {
        let year = self.books.register.year;
        let later = year.saturating_add(1 + self.numbers.below::<u16>(4));
        let before = year.saturating_sub(1);
        let years = [later, later, later, year, before, 1999, 2099];
        let year = self.numbers.pick(&years);
        self.call(Call::Turn { year });
    }

    /// Mostly of an open point, with the first day of some line or the day before it.
    fn report(&mut self) {
        let (first, last) = self.days_of_year();
        let (_, granted_at, granted_from) = self.some_line();
        let (day, point) = (self.day(), self.open_point());
        let numbers = &mut self.numbers;
        let outside = [first - 1, last + 1, 0, 36_524, 36_525, u16::MAX];
        let (point, day) = match numbers.below::<u8>(14) {
            0 => (numbers.pick(&[32, 40, 255]), day),
            1 => (numbers.below(32), day),
            2 => (numbers.below(32), numbers.pick(&outside)),
            3 => (point, numbers.pick(&outside)),
            4..=7 => (point, day),
            8 | 9 => (granted_at, granted_from.saturating_sub(1)),
            _ => (granted_at, granted_from),
        };
        self.call(Call::Report { point, day });
    }

    /// A call one field of which is any number that its width holds.
    fn any_field(&mut self) {
        let any = self.numbers.any() >> self.numbers.below::<u32>(64);
        let (opening, user, point) = (self.good_opening(), self.user_on_file(), self.open_point());
        let (request, cession) = (self.good_request(), self.good_cession());
        let (kind, rate, day) = (any as u8, any as u32, any as u16);
        let calls = [
            Call::Open(Opening { kind, ..opening }),
            Call::Open(Opening { rate, ..opening }),
            Call::Open(Opening {
                total: any,
                ..opening
            }),
            Call::Place {
                user,
                guarantee: any,
            },
            Call::Request(Request {
                amount: any,
                ..request
            }),
            Call::Request(Request {
                arrival: day,
                ..request
            }),
            Call::Cession(Cession {
                amount: any,
                ..cession
            }),
            Call::Cession(Cession {
                arrival: day,
                ..cession
            }),
            Call::Turn { year: day },
            Call::Report { point, day },
        ];
        let call = &calls[self.numbers.below::<usize>(calls.len() as u64)];
        self.call(call.clone());
    }

    /// A point, open if one is.
    fn open_point(&mut self) -> u8 {
        let points = (0..).zip(&self.books.register.points);
        let open: Vec<u8> = points
            .filter(|(_, point)| point.is_open())
            .map(|(index, _)| index)
            .collect();
        self.one_of(&open, 32)
    }

    /// A user, on file if one is.
    fn user_on_file(&mut self) -> u8 {
        let accounts = (0..).zip(&self.books.register.accounts);
        let on_file: Vec<u8> = accounts
            .filter(|(_, account)| account.is_on_file())
            .map(|(index, _)| index)
            .collect();
        self.one_of(&on_file, 64)
    }

    /// One of those that there are; if there are none, any.
    fn one_of(&mut self, known: &[u8], count: u64) -> u8 {
        match known {
            [] => self.numbers.below(count),
            _ => self.numbers.pick(known),
        }
    }

    /// User, point and first day of a line, or of none that there is. The lines of
    /// a damaged register are cut to what fits.
    fn some_line(&mut self) -> (u8, u8, u16) {
        let (first, _) = self.days_of_year();
        let lines = self.books.lists.lines(self.books.register.lines).count();
        if lines == 0 {
            return (self.user_on_file(), self.open_point(), first);
        }
        let some = self.numbers.below::<usize>(lines as u64);
        let place = self.numbers.pick(&[some, some, lines - 1]);
        let line = self.books.lists.lines(self.books.register.lines).nth(place);
        let line = line.expect("a line that there is");
        (line[0] as u8 % 64, line[1] as u8 % 32, line[3] as u16)
    }

    /// The register's thermal year, or another if it has none.
    fn thermal(&self) -> ThermalYear {
        let year = ThermalYear::new(self.books.register.year);
        year.or(ThermalYear::new(2023)).expect("a thermal year")
    }

    /// The first and the last gas-day of the year.
    fn days_of_year(&self) -> (u16, u16) {
        narrow(&self.thermal().days())
    }

    /// A gas-day of the year, often one at its ends.
    fn day(&mut self) -> u16 {
        let (first, last) = self.days_of_year();
        let some = self.numbers.day(first, last);
        self.numbers.pick(&[first, last, some, some, some, some])
    }

    /// The smallest free amount of a span at a point.
    fn least_free(&self, point: u8, span: &Span) -> u64 {
        let (first, _) = self.days_of_year();
        let row = usize::from(point % 32) * DAYS_IN_ROW;
        let from = row + (*span.start() as usize).saturating_sub(first.into());
        let days = span.clone().count();
        let amounts = self.books.lists.free.iter().skip(from).take(days);
        amounts.min().copied().map_or(0, u64::from)
    }

    /// What a guarantee has to be, at least, for a user to be charged for an amount
    /// at a point; `None` where there is no such user or point.
    fn just_enough(&self, user: u8, point: u8, amount: u64, span: &Span) -> Option<u64> {
        let point = self.books.register.points.get(usize::from(point))?;
        let account = self.books.register.accounts.get(usize::from(user))?;
        let amount = u32::try_from(amount).ok()?;
        let of_a_day = u128::from(amount) * u128::from(point.rate);
        let charge = of_a_day * span.clone().count() as u128;
        u64::try_from(charge + u128::from(account.commitment)).ok()
    }

    /// Makes a call that charges a user, sometimes after a guarantee that is just
    /// enough or one too little. The usual one is placed after it.
    fn call_with_guarantee(&mut self, call: Call, user: u8, enough: Option<u64>) {
        let just = enough.map(|enough| self.numbers.pick(&[enough, enough.saturating_sub(1)]));
        let just = just.filter(|&guarantee| guarantee <= MOST_GUARANTEE);
        match just.filter(|_| self.numbers.in_hundred(10)) {
            Some(guarantee) => {
                let usual = self.books.register.accounts[usize::from(user)].guarantee;
                self.place(user, guarantee);
                self.call(call);
                self.place(user, usual);
            }
            None => {
                self.call(call);
            }
        }
    }

    /// An amount outside the limits, sometimes one of more than 32 bits.
    fn bad_amount(&mut self) -> u64 {
        let wide = [1 << 32, (1 << 32) + 1, 1 << 40, u64::MAX];
        let wide = self.numbers.pick(&wide);
        self.numbers.pick(&[0, MOST_AMOUNT + 1, wide])
    }
}

/// Two days of the calendar, as wide as a call has them.
pub fn narrow(days: &Span) -> (u16, u16) {
    let narrow = |day: u32| u16::try_from(day).expect("a day of the calendar");
    (narrow(*days.start()), narrow(*days.end()))
}
