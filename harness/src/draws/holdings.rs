//! Question 10 by itself: about what users hold by some line, or nearly so.

use reference::cession::Holding;

use super::Sequence;
use crate::calls::Call;

impl Sequence {
    /// What is held on the first day of a span or on another, or one less or more,
    /// sometimes nothing; and any amount. Some spans end with the first day that is
    /// short, or just before it.
    pub(super) fn short_day(&mut self) {
        let (user, point, first, last) = self.some_span();
        let later = self.numbers.day(first.min(last), last.max(first));
        let day = self.numbers.pick(&[first, first, later]);
        let (register, ledger) = (&self.books.register, &self.books.lists.ledger);
        let held = register.held(&self.thermal(), ledger, user, point);
        let held = held.on(day.into());
        let numbers = &mut self.numbers;
        let amount = numbers.pick(&[held, held, held, held + 1, held - 1, 1]);
        let any = numbers.pick(&[0, 10_000_000, u32::MAX]);
        let mut holding = Holding {
            user,
            point,
            first,
            last,
            amount: u32::try_from(amount).unwrap_or(any),
        };
        let ends_short = self.numbers.in_hundred(30);
        let answer = self.call(Call::ShortDay(holding));
        if ends_short && answer.amount > first.into() {
            let short = answer.amount as u16;
            holding.last = self.numbers.pick(&[short, short - 1]);
            self.call(Call::ShortDay(holding));
        }
    }

    /// User and point of some line, or others, and a span that begins with the line,
    /// near it or on any day; sometimes no day at all.
    fn some_span(&mut self) -> (u8, u8, u16, u16) {
        let (from, to) = self.days_of_year();
        let (user, point, begin) = self.some_line();
        let any = self.numbers.day(from, to);
        let numbers = &mut self.numbers;
        let (before, after) = (begin.saturating_sub(1), begin.saturating_add(1));
        let near = [begin, begin, begin, begin, before, after];
        let near = numbers.pick(&near);
        let first = numbers.pick(&[near, near, near, near, from, any, from - 1]);
        let later = numbers.day(first, (to + 1).max(first));
        let lasts = [to, to, to, to + 1, later, later, later, first];
        let last = match numbers.below::<u8>(20) {
            0 => first.saturating_sub(1),
            1 => numbers.pick(&[0, u16::MAX]),
            _ => numbers.pick(&lasts),
        };
        match numbers.below::<u8>(20) {
            0 => (numbers.below(256), point, first, last),
            1 => (user, numbers.below(256), first, last),
            _ => (user, point, first, last),
        }
    }
}
