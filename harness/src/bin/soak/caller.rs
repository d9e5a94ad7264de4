//! Random calls such as a carrier's users would make, with a part refused for each reason. Many are
//! at an edge found in the reckoning: a deadline, what is free, held, or covered by a guarantee.

use crate::reckoning::{Call, Reckoning, POINTS, USERS};
use harness::numbers::Generator;
use reference::calendar::{Span, THERMAL_YEARS};
use ylgrandi::PointKind::{Direct, Thermoelectric};
use ylgrandi::{BatchLine, Cession, Point, Product, Request};

const MOST_AMOUNT: u64 = 9_999_999;
const MOST_GUARANTEE: u64 = 1_000_000_000_000_000;

/// One field in so many is drawn about or outside its limits.
const ODDS: u64 = 60;

/// A year is of one sort, drawn while its ledger is empty: much stays free; points fill up and
/// grants are cut; small requests fill the ledger; or batches do, which are then many and long.
const PORTIONS: [u64; 4] = [500, 40, 5_000, 20_000];

pub struct Caller {
    numbers: Generator,
    /// A request asks for at most this part, one in so many, of a point's total. The larger the
    /// part, the more often a request or a batch asks for about all that is free.
    portion: u64,
}

impl Caller {
    pub fn new(seed: u64) -> Caller {
        let (numbers, portion) = (Generator(seed), PORTIONS[0]);
        Caller { numbers, portion }
    }

    /// The next call. Points are opened and users put on file over all years of a round, so that
    /// years have closed points as well as open ones.
    pub fn call(&mut self, known: &Reckoning) -> Call {
        if known.lines == 0 {
            self.portion = self.numbers.pick(&PORTIONS);
        }
        let passed = u64::from(known.year - THERMAL_YEARS.start());
        let points = (0..POINTS).take_while(|&point| known.point(point).is_some());
        let users = (0..USERS).take_while(|&user| known.user(user).is_some());
        let (points, users) = (points.count() as u64, users.count() as u64);
        if points < 6 || (points < 6 + passed * 26 / 98 && self.one_in(6)) {
            return self.opening(points as u8);
        }
        if users < 8 || (users < 8 + passed * 56 / 98 && self.one_in(6)) {
            return self.guarantee(known, users as u8);
        }
        let (point, user) = (self.one_of(points), self.one_of(users));
        let lines = if self.portion == 20_000 { 64 } else { 12 };
        let years = [0, 1999, 2000, known.year - 1, known.year, 2099];
        let year = self.numbers.pick(&years);
        match self.numbers.below(100) {
            _ if self.numbers.in_hundred(lines * 2 / 3) => self.batch(known, point, users, lines),
            0 => self.opening(point),
            1 => Call::Turn { year },
            2..12 => self.guarantee(known, user),
            12..20 => self.report(known),
            20..40 => self.cession(known, point, user),
            _ => self.request(known, point, user),
        }
    }

    fn opening(&mut self, point: u8) -> Call {
        let kind = self.numbers.pick(&[Direct, Thermoelectric]);
        let total = self.between(1, MOST_AMOUNT);
        let total = self.edge(20, total, &[0, 1, MOST_AMOUNT, MOST_AMOUNT + 1]) as u32;
        let rate = self.numbers.below::<u32>(1_000_000) >> self.numbers.below::<u32>(20);
        let rate = self.edge(20, rate, &[999_999, 1_000_000]);
        let opened = Point { kind, total, rate };
        Call::Open { point, opened }
    }

    fn guarantee(&mut self, known: &Reckoning, user: u8) -> Call {
        let commitment = known.user(user).map_or(0, |(_, commitment)| commitment);
        let edges = [commitment, commitment.saturating_sub(1), MOST_GUARANTEE + 1];
        let amount = self.between(MOST_GUARANTEE / 20, MOST_GUARANTEE);
        let amount = self.edge(4, amount, &edges);
        Call::Guarantee { user, amount }
    }

    /// A report about the days that were touched last, there or at any point.
    pub fn report(&mut self, known: &Reckoning) -> Call {
        let (first, last) = ends(&known.touched.1);
        let any = self.one_of(u64::from(POINTS));
        let point = self.edge(2, any, &[known.touched.0]);
        let day = self.numbers.day(first, last);
        let day = self.edge(2, day, &[first - 1, first, last, last + 1]);
        Call::Report { point, day }
    }

    /// Direct points take annual requests only; now and then another is tried.
    fn request(&mut self, known: &Reckoning, point: u8, user: u8) -> Call {
        let direct = known.point(point).is_some_and(|point| point.kind == Direct);
        let (first, last) = ends(&known.thermal.days());
        let (month, day) = (self.between(1, 12) as u8, self.numbers.day(first, last));
        let product = match self.numbers.below(if direct { 30 } else { 3 }) {
            0 => Product::Month(self.edge(ODDS, month, &[0, 13])),
            1 => Product::Day(self.edge(ODDS, day, &[first - 1, first, last, last + 1])),
            _ => Product::Annual,
        };
        let arrival = self.arrival(known, product, 11);
        let span = known.span(product, arrival);
        let span = span.unwrap_or(known.thermal.days());
        let free = known.smallest_free(point, &span).map_or(0, u64::from);
        let total = known.point(point).map_or(0, |point| point.total);
        let amount = self.between(1, u64::from(total) / self.portion);
        let large = [free, free + 1, free.saturating_sub(1), 2 * free];
        let amount = self.edge(self.portion / 4, amount, &large);
        let amount = self.amount(known, user, point, &span, amount);
        Call::Request(Request {
            user,
            point,
            product,
            arrival,
            amount,
        })
    }

    /// An arrival up to a deadline, often on that day or the day after. For annual and monthly
    /// requests and for cessions it is the n-th working day of a month.
    fn arrival(&mut self, known: &Reckoning, product: Product, nth: usize) -> u16 {
        let (first, last) = ends(&known.thermal.arrivals());
        let any_month = self.numbers.below(13);
        let working_day = |month| known.thermal.working_day(month, nth);
        let deadline = match product {
            Product::Annual => working_day(any_month),
            Product::Month(month) => working_day(month.saturating_sub(1)),
            Product::Day(day) => Some(u32::from(day - 1)),
        };
        let deadline = deadline.expect("each month has 18 working days") as u16;
        let early = self.numbers.day(deadline - 13, deadline);
        let arrival = self.edge(6, early, &[deadline, deadline + 1]);
        self.edge(ODDS, arrival, &[first - 1, first, last, last + 1])
    }

    /// The amount, now and then about the limits, or about what the user's guarantee still covers.
    fn amount(&mut self, known: &Reckoning, user: u8, point: u8, span: &Span, usual: u64) -> u64 {
        let (guarantee, commitment) = known.user(user).unwrap_or_default();
        let charge = known.charge(point, span).unwrap_or(0).unsigned_abs();
        let covered = (guarantee - commitment) / charge.max(1);
        let amount = self.edge(self.portion / 2, usual, &[covered, covered + 1]);
        self.edge(ODDS, amount, &[0, MOST_AMOUNT + 1, u64::MAX])
    }

    /// A batch whose lines ask together for a part of what is free, or for all, or for more.
    fn batch(&mut self, known: &Reckoning, point: u8, users: u64, most: u64) -> Call {
        let year = known.thermal.days();
        let free = known.smallest_free(point, &year).map_or(0, u64::from);
        let part = free / self.between(2, 4 * most);
        let mut left = self.edge(3 + self.portion / 40, part, &[free, free + 1, 3 * free]);
        let count = self.between(1, most.min(users));
        let count = self.edge(ODDS, count, &[0, 64, 65]);
        let (first, mut lines) = (self.numbers.below::<u64>(users), Vec::new());
        for rest in (1..=count).rev() {
            let (any, part) = (self.one_of(users), self.between(1, 2 * left / rest));
            let user = self.edge(ODDS, ((first + rest) % users) as u8, &[any]);
            let asked = if rest == 1 { left } else { part };
            left = left.saturating_sub(asked);
            let asked = self.amount(known, user, point, &year, asked);
            lines.push(BatchLine { user, asked });
        }
        Call::Batch { point, lines }
    }

    /// A cession of about what the giver holds over the span, or less.
    fn cession(&mut self, known: &Reckoning, point: u8, receiver: u8) -> Call {
        let year = known.thermal.days();
        let last = *year.end()..=*year.end();
        let holds = |user: &u8| known.least_held(*user, point, &last) > Some(0);
        let giver = self.numbers.below(u64::from(USERS));
        let giver = (giver..USERS).chain(0..giver).find(holds).unwrap_or(giver);
        let arrival = self.arrival(known, Product::Annual, 16);
        let span = known.span(Product::Annual, arrival).unwrap_or(year);
        let held = known.least_held(giver, point, &span).map_or(0, u64::from);
        let amount = self.between(1, held / 4);
        let amount = self.edge(8, amount, &[held, held + 1]);
        let amount = self.amount(known, receiver, point, &span, amount);
        Call::Cession(Cession {
            giver,
            receiver,
            point,
            arrival,
            amount,
        })
    }

    /// A point or user of so many, now and then another.
    fn one_of(&mut self, count: u64) -> u8 {
        let (one, any) = (self.numbers.below(count), self.numbers.below(80));
        self.edge(ODDS, one, &[any])
    }

    /// Once in so many times one of the edges, else what is usual.
    fn edge<T: Copy>(&mut self, times: u64, usual: T, edges: &[T]) -> T {
        match self.one_in(times) {
            true => self.numbers.pick(edges),
            false => usual,
        }
    }

    /// A number from `first` to `last`, or `first` where `last` is less.
    pub fn between(&mut self, first: u64, last: u64) -> u64 {
        first + self.numbers.below::<u64>(last.saturating_sub(first) + 1)
    }

    pub fn one_in(&mut self, times: u64) -> bool {
        self.numbers.below::<u64>(times) == 0
    }
}

/// The first and the last gas-day of a span, as calls name them.
pub fn ends(span: &Span) -> (u16, u16) {
    (*span.start() as u16, *span.end() as u16)
}
