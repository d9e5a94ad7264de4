//! Requests: most are in time and within limits, the others are spoilt.

use reference::calendar::{nth_working_day, Date, Span, LAST_DAY};
use reference::register::DIRECT;
use reference::request::{Product, Request, REQUEST_DEADLINE};

use super::{narrow, Sequence, MOST_AMOUNT};
use crate::calls::Call;

impl Sequence {
    /// A request, sometimes after a guarantee that just covers it or is one too
    /// little.
    pub fn request(&mut self) {
        let mut request = self.good_request();
        for _ in 0..self.numbers.pick(&[0, 0, 0, 0, 0, 1, 1, 2]) {
            request = self.spoilt(request);
        }
        let span = self.span_of(&request);
        let enough = span
            .and_then(|span| self.just_enough(request.user, request.point, request.amount, &span));
        self.call_with_guarantee(Call::Request(request), request.user, enough);
    }

    /// A request of a kind that is none.
    pub(super) fn request_of_no_kind(&mut self) {
        let any: u8 = 4 + self.numbers.below::<u8>(252);
        let kind = self.numbers.pick(&[0, 4, 5, 128, 255, any]);
        let product = Product::Annual;
        let good = self.good_request();
        self.call(Call::OfNoKind(kind, Request { product, ..good }));
    }

    fn span_of(&self, request: &Request) -> Option<Span> {
        request.span(&self.thermal())
    }

    /// A request of a user on file at an open point, for what it offers, within
    /// the limits and in time, if there is such a user and point.
    pub(super) fn good_request(&mut self) -> Request {
        let user = self.user_on_file();
        let point = self.open_point();
        let is_direct = self.books.register.points[usize::from(point)].kind == DIRECT;
        let product = match self.numbers.below::<u8>(8) {
            _ if is_direct => Product::Annual,
            0 | 1 => Product::Annual,
            2..=4 => Product::Month(self.month()),
            _ => Product::Day(self.busy_day()),
        };
        let (earliest, latest) = self.arrivals(product);
        let some = self.numbers.day(earliest, latest);
        let arrival = self.numbers.pick(&[earliest, latest, latest, some, some]);
        let request = Request {
            user,
            point,
            product,
            arrival,
            amount: 1,
        };
        Request {
            amount: self.good_amount(&request),
            ..request
        }
    }

    fn month(&mut self) -> u8 {
        let some = 1 + self.numbers.below::<u8>(12);
        self.numbers.pick(&[self.busy_month, some])
    }

    /// A day of the year, often one of the busy month and one at its ends.
    fn busy_day(&mut self) -> u16 {
        let some = self.day();
        let month = self.thermal().month(self.busy_month);
        let (first, last) = narrow(&month.expect("a month"));
        let busy = self.numbers.day(first, last);
        self.numbers.pick(&[first, last, busy, busy, some])
    }

    /// An amount from one to a little more than there can be, often what is free
    /// or one more.
    fn good_amount(&mut self, request: &Request) -> u64 {
        let total = u64::from(self.books.register.points[usize::from(request.point)].total);
        let part = 1 + self.numbers.below::<u64>(total / 3 + 1);
        let some = 1 + self.numbers.below::<u64>(total.max(1));
        let span = self.span_of(request);
        let free = span.map_or(0, |span| self.least_free(request.point, &span));
        let choices = [1, part, part, part, some, total, total + 1, free, free + 1];
        self.numbers.pick(&choices).clamp(1, MOST_AMOUNT)
    }

    /// 1 September before the year.
    pub(super) fn first_arrival(&self) -> u16 {
        narrow(&self.thermal().arrivals()).0
    }

    /// Arrivals in time, from the first to the last: for an annual request those
    /// of one month, which is any but the year's September.
    fn arrivals(&mut self, product: Product) -> (u16, u16) {
        let first = self.first_arrival();
        match product {
            Product::Annual => {
                let some = self.numbers.below::<u8>(12);
                let month = self.numbers.pick(&[some, some, self.busy_month - 1]);
                self.arrivals_in(month, REQUEST_DEADLINE)
            }
            Product::Month(month) => (first, self.arrivals_in(month - 1, REQUEST_DEADLINE).1),
            Product::Day(day) => (first, day - 1),
        }
    }

    /// The days of a month up to its deadline, a working day. Month 0 is the
    /// September before the year, 1 October.
    pub fn arrivals_in(&self, month: u8, deadline: usize) -> (u16, u16) {
        let year = self.thermal();
        let first = year.month(month).unwrap_or(year.arrivals());
        let last = year.working_day(month, deadline).expect("a month");
        narrow(&(*first.start()..=last))
    }

    /// The request with a field that is wrong, or that another field makes so.
    fn spoilt(&mut self, good: Request) -> Request {
        let (first, last) = self.days_of_year();
        let first_arrival = self.first_arrival();
        let numbers = &mut self.numbers;
        let mut request = good;
        match numbers.below::<u8>(15) {
            0 => request.user = numbers.pick(&[64, 65, 128, 255]),
            1 => request.point = numbers.pick(&[32, 33, 64, 255]),
            2 => request.amount = self.bad_amount(),
            3 => request.product = Product::Month(numbers.pick(&[0, 13, 14, 255])),
            4 => request.point = numbers.below(32),
            5 => request.user = numbers.below(64),
            6 | 7 => request = self.at_direct_point(good),
            8 | 9 => {
                let days = [first_arrival - 1, last + 1, 0, 36_524, 36_525, u16::MAX];
                request.arrival = numbers.pick(&days);
            }
            10 => {
                let days = [first - 1, last + 1, 0, 36_525, u16::MAX];
                request.product = Product::Day(numbers.pick(&days));
            }
            11 => {
                request.product = Product::Annual;
                request.arrival = last - numbers.below::<u16>(30);
            }
            _ => request.arrival = self.late_arrival(good),
        }
        request
    }

    /// The request at a direct point, if there is one, for a month or a day.
    fn at_direct_point(&mut self, good: Request) -> Request {
        let points = (0..).zip(&self.books.register.points);
        let direct: Vec<u8> = points
            .filter(|(_, point)| point.kind == DIRECT)
            .map(|(index, _)| index)
            .collect();
        let point = match direct[..] {
            [] => good.point,
            _ => self.numbers.pick(&direct),
        };
        let (month, day) = (Product::Month(self.month()), Product::Day(self.day()));
        let product = self.numbers.pick(&[month, day]);
        let (_, arrival) = self.arrivals(product);
        Request {
            point,
            product,
            arrival,
            ..good
        }
    }

    /// An arrival after the last one in time, mostly by a day; if none is in
    /// time, an arrival after that of the request.
    fn late_arrival(&mut self, request: Request) -> u16 {
        let latest = match request.product {
            Product::Annual => return self.after_deadline(request.arrival, REQUEST_DEADLINE),
            Product::Month(1..=12) => request.deadline(&self.thermal()),
            Product::Month(_) => None,
            Product::Day(day) => Some(u32::from(day).saturating_sub(1)),
        };
        let latest = latest.filter(|&day| day <= LAST_DAY);
        self.after(latest.map_or(request.arrival, |day| day as u16))
    }

    /// A day after the deadline, a working day, of the month of an arrival,
    /// mostly by a day.
    pub(super) fn after_deadline(&mut self, arrival: u16, deadline: usize) -> u16 {
        let date = Date::from_day_number(arrival.into());
        let latest = date.and_then(|date| nth_working_day(date.year(), date.month(), deadline));
        self.after(latest.map_or(arrival, |date| date.day_number() as u16))
    }

    /// A day after another, mostly the next.
    fn after(&mut self, latest: u16) -> u16 {
        let some = 1 + self.numbers.below::<u16>(12);
        latest.saturating_add(self.numbers.pick(&[1, 1, some]))
    }
}
