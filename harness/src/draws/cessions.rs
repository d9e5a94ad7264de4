//! Cessions: most are of what the giver holds, in time and within limits, the
//! others are spoilt.

use std::collections::BTreeSet;

use reference::calendar::Span;
use reference::cession::{Cession, CESSION_DEADLINE};
use reference::register::ANNUAL;

use super::{Sequence, MOST_AMOUNT};
use crate::calls::{Call, Field};

impl Sequence {
    /// A cession, sometimes after a guarantee of the receiver that just covers it
    /// or is one too little.
    pub fn cession(&mut self) {
        let mut cession = self.good_cession();
        for _ in 0..self.numbers.pick(&[0, 0, 0, 0, 0, 1, 1, 2]) {
            cession = self.spoilt_cession(cession);
        }
        let receiver = cession.receiver;
        let enough = self
            .ceded_days(&cession)
            .and_then(|span| self.just_enough(receiver, cession.point, cession.amount, &span));
        self.call_with_guarantee(Call::Cession(cession), receiver, enough);
    }

    /// A good cession, once the giver's commitment is written to be just its charge
    /// or one less.
    pub(super) fn cession_of_commitment(&mut self) {
        let cession = self.good_cession();
        let giver = cession.giver;
        let account = self.books.register.accounts[usize::from(giver % 64)];
        let enough = self
            .ceded_days(&cession)
            .and_then(|span| self.just_enough(giver, cession.point, cession.amount, &span));
        let charge = enough.map(|enough| enough - account.commitment);
        if let Some(charge) = charge.filter(|&charge| charge <= account.guarantee) {
            let commitment = self.numbers.pick(&[charge, charge.saturating_sub(1)]);
            self.set(Field::Commitment(giver), commitment);
        }
        self.call(Call::Cession(cession));
    }

    fn ceded_days(&self, cession: &Cession) -> Option<Span> {
        self.thermal().rest_after(cession.arrival.into())
    }

    /// A cession of what some annual line gives to its user, if there is one, to
    /// another user.
    pub(super) fn good_cession(&mut self) -> Cession {
        let (giver, point, first) = match self.holdings()[..] {
            [] => (self.user_on_file(), self.open_point(), 0),
            ref held => self.numbers.pick(held),
        };
        let month = self.month_before(first);
        let (earliest, latest) = self.arrivals_in(month, CESSION_DEADLINE);
        let some = self.numbers.day(earliest, latest);
        let arrival = self.numbers.pick(&[earliest, latest, latest, some, some]);
        let cession = Cession {
            giver,
            receiver: self.receiver_from(giver),
            point,
            arrival,
            amount: 1,
        };
        let held = self.least_held(&cession);
        let part = 1 + self.numbers.below::<u64>(held / 3 + 1);
        let amounts = [1, part, part, part, part, held, held, held + 1];
        Cession {
            amount: self.numbers.pick(&amounts).clamp(1, MOST_AMOUNT),
            ..cession
        }
    }

    /// Users and points where they hold something on the year's last day, and the
    /// first day of each of their annual lines there.
    pub(super) fn holdings(&self) -> Vec<(u8, u8, u32)> {
        let (year, lists) = (self.thermal(), &self.books.lists);
        let register = &self.books.register;
        let annual = lists.lines(register.lines).filter(|line| line[2] == ANNUAL);
        let lines: BTreeSet<(u8, u8, u32)> = annual
            .filter_map(|line| Some((line[0].try_into().ok()?, line[1].try_into().ok()?, line[3])))
            .collect();
        let pairs: BTreeSet<(u8, u8)> = lines.iter().map(|line| (line.0, line.1)).collect();
        let holders: BTreeSet<(u8, u8)> = pairs
            .into_iter()
            .filter(|&(user, point)| {
                let held = register.held(&year, &lists.ledger, user, point);
                held.on(*year.days().end()) > 0
            })
            .collect();
        lines
            .into_iter()
            .filter(|line| holders.contains(&(line.0, line.1)))
            .collect()
    }

    /// A month, the next one of which begins no earlier than a day: 0 for the
    /// September before the year, 1 for October to 11 for August.
    fn month_before(&mut self, day: u32) -> u8 {
        let firsts = (0..).zip(self.thermal().month_firsts().to_vec());
        let months: Vec<u8> = firsts
            .filter(|&(_, first)| first >= day)
            .map(|(month, _)| month)
            .collect();
        let first = months.first().copied().unwrap_or(11);
        let some = match months[..] {
            [] => 11,
            _ => self.numbers.pick(&months),
        };
        self.numbers.pick(&[first, some, some])
    }

    /// A user other than the giver, on file if one is.
    fn receiver_from(&mut self, giver: u8) -> u8 {
        let accounts = (0..).zip(&self.books.register.accounts);
        let others: Vec<u8> = accounts
            .filter(|&(user, account)| account.is_on_file() && user != giver)
            .map(|(user, _)| user)
            .collect();
        match others[..] {
            [] => (giver + 1) % 64,
            _ => self.numbers.pick(&others),
        }
    }

    /// The least that the giver holds on a day of the span.
    fn least_held(&self, cession: &Cession) -> u64 {
        let year = self.thermal();
        let ledger = &self.books.lists.ledger;
        let held = self
            .books
            .register
            .held(&year, ledger, cession.giver, cession.point);
        let days = self.ceded_days(cession).into_iter().flatten();
        let least = days.map(|day| held.on(day)).min();
        least.map_or(0, |least| least.max(0).unsigned_abs())
    }

    /// The cession with a field that is wrong, or that another field makes so.
    fn spoilt_cession(&mut self, good: Cession) -> Cession {
        let (_, last) = self.days_of_year();
        let first_arrival = self.first_arrival();
        let held = self.least_held(&good);
        let numbers = &mut self.numbers;
        let mut cession = good;
        match numbers.below::<u8>(17) {
            0 => cession.giver = numbers.pick(&[64, 65, 128, 255]),
            1 => cession.receiver = numbers.pick(&[64, 128, 255, good.giver]),
            2 => cession.point = numbers.pick(&[32, 33, 64, 255]),
            3 => cession.amount = self.bad_amount(),
            4 | 5 => cession.point = numbers.below(32),
            6 => cession.giver = numbers.below(64),
            7 => cession.receiver = numbers.below(64),
            8 => {
                let days = [first_arrival - 1, last + 1, 0, 36_524, 36_525, u16::MAX];
                cession.arrival = numbers.pick(&days);
            }
            9 | 10 => cession.arrival = last - numbers.below::<u16>(30),
            11 => (cession.giver, cession.receiver) = (good.receiver, good.giver),
            12 => {
                let latest = good.arrival.max(first_arrival);
                cession.arrival = numbers.day(first_arrival, latest);
            }
            13 => cession.amount = (held + 1).clamp(1, MOST_AMOUNT),
            _ => cession.arrival = self.after_deadline(good.arrival, CESSION_DEADLINE),
        }
        cession
    }
}
