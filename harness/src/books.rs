//! The memory of a host, and the calls on it: those of the everyday register, and
//! those of the proved one through [`ylgrandi::sys`].

use reference::batch;
use reference::calendar::ThermalYear;
use reference::cession::Cession;
use reference::register::{
    self, Lent, Opening, Refusal, Register, LEDGER_LENGTH, LEDGER_LINES, NUMBERS_IN_LINE,
    TABLE_LENGTH,
};
use reference::request::{Product, Request};
use ylgrandi::sys;

use crate::calls::{Answer, Batch, Call, Field};

/// The numbers behind what is lent of each list: no call may touch them.
pub const SPARE: usize = 8;

/// The most lines that a list of a batch has: more than 256, so that a length of
/// which only the lowest byte is looked at is found.
pub const BATCH_SPACE: usize = 256 + 64;

/// What every number of the lists is before the first step.
const UNUSED: u8 = 7;

/// The lists of a host, each longer than what is lent of it.
#[derive(Debug, Clone, PartialEq, Eq)]
pub struct Lists {
    pub free: Vec<u32>,
    pub ledger: Vec<u32>,
    pub shares: Vec<u32>,
    pub numbers: Vec<u8>,
    /// How much of the table and of the ledger is lent.
    pub free_lent: usize,
    pub ledger_lent: usize,
}

impl Default for Lists {
    fn default() -> Lists {
        Lists {
            free: vec![UNUSED.into(); TABLE_LENGTH + SPARE],
            ledger: vec![UNUSED.into(); LEDGER_LENGTH + SPARE],
            shares: vec![UNUSED.into(); BATCH_SPACE + SPARE],
            numbers: vec![UNUSED; BATCH_SPACE + SPARE],
            free_lent: TABLE_LENGTH,
            ledger_lent: LEDGER_LENGTH,
        }
    }
}

impl Lists {
    /// The numbers of each line, of so many.
    pub fn lines(&self, count: u16) -> impl Iterator<Item = &[u32]> {
        self.ledger.chunks_exact(NUMBERS_IN_LINE).take(count.into())
    }

    /// The answer to an accepted batch has the lines that were written.
    fn answered(&self, answer: Answer, call: &Call) -> Answer {
        let Call::Batch(batch) = call else {
            return answer;
        };
        let lines = self
            .shares
            .iter()
            .copied()
            .zip(self.numbers.iter().copied());
        let written = if answer.number == 0 {
            batch.users.len()
        } else {
            0
        };
        Answer {
            lines: lines.take(written).collect(),
            ..answer
        }
    }

    /// What the places for shares and numbers hold before a batch must not matter,
    /// and what it does not write is seen: they hold another number for each batch.
    fn prepare(&mut self, call: &Call) {
        if let Call::Batch(batch) = call {
            let asked = batch.asked.iter().map(|&asked| asked as u8);
            let other = asked.fold(UNUSED, u8::wrapping_add);
            self.shares.fill(other.into());
            self.numbers.fill(other);
        }
    }
}

/// A register in its own form, and the lists that are lent with it.
#[derive(Debug, Clone, PartialEq, Eq)]
pub struct Books<R> {
    pub register: R,
    pub lists: Lists,
}

impl<R> Books<R> {
    /// The same with the register in another form.
    pub fn with<S>(&self, form: impl Fn(&R) -> S) -> Books<S> {
        Books {
            register: form(&self.register),
            lists: self.lists.clone(),
        }
    }
}

/// The books of the everyday register, in whose form they are drawn and damaged.
pub type Everyday = Books<Register>;

/// The books of the proved register.
pub type Proved = Books<sys::Register>;

impl Default for Everyday {
    fn default() -> Everyday {
        Books {
            register: Register::blank(0),
            lists: Lists::default(),
        }
    }
}

impl Everyday {
    pub fn run(&mut self, call: &Call) -> Answer {
        self.lists.prepare(call);
        let answer = self.call(call);
        self.lists.answered(answer, call)
    }

    /// The call without the lines of a batch's answer, as it is timed.
    pub fn call(&mut self, call: &Call) -> Answer {
        let lists = &mut self.lists;
        let lent = &mut Lent {
            free: &mut lists.free[..lists.free_lent],
            ledger: &mut lists.ledger[..lists.ledger_lent],
        };
        let register = &mut self.register;
        let given = match *call {
            Call::Fresh { year } => register.renew(lent, year).map(|()| 0),
            Call::Open(opening) => register.open_point(lent, opening).map(|()| 0),
            Call::Place { user, guarantee } => {
                register.place_guarantee(lent, user, guarantee).map(|()| 0)
            }
            Call::Request(request) => register.request(lent, request),
            Call::OfNoKind(..) => Err(no_kind(register, lent)),
            Call::Batch(ref batch) => {
                let batch = batch::Batch {
                    point: batch.point,
                    users: &batch.users,
                    asked: &batch.asked,
                    shares: &mut lists.shares[..batch.shares],
                    numbers: &mut lists.numbers[..batch.numbers],
                };
                register.confer(lent, batch).map(|()| 0)
            }
            Call::Cession(cession) => register.cede(lent, cession),
            Call::Turn { year } => register.turn_year(lent, year).map(|()| 0),
            Call::Report { point, day } => register.report(lent, point, day),
            Call::InOrder => return of_question_1(register.is_in_order(lent)),
            Call::ShortDay(holding) => {
                let (register, ledger) = self.of_year();
                return of_question_10(register.first_short_day(&ledger, holding));
            }
        };
        match given {
            Ok(amount) => Answer::new(0, amount),
            Err(refusal) => Answer::new(refusal.number(), 0),
        }
    }

    pub fn is_in_order(&mut self) -> bool {
        self.call(&Call::InOrder).number == 0
    }

    /// The register with those of its lines that begin in the year. Question 10
    /// can be put to any register, but [`ylgrandi::sys`] has a line count only
    /// where it begins in the year, while the everyday register is asked where
    /// it is in order, and there every line does.
    fn of_year(&self) -> (Register, Vec<u32>) {
        let days = ThermalYear::new(self.register.year).map(|year| year.days());
        let lent = &self.lists.ledger[..self.lists.ledger_lent];
        let used = usize::from(self.register.lines).min(LEDGER_LINES);
        let lines = lent.chunks_exact(NUMBERS_IN_LINE).take(used);
        let is_in_year = |first| days.as_ref().is_some_and(|days| days.contains(&first));
        let ledger: Vec<&[u32]> = lines.filter(|line| is_in_year(line[3])).collect();
        let register = Register {
            lines: ledger.len() as u16,
            ..self.register.clone()
        };
        (register, ledger.concat())
    }

    /// Whether it is said what users hold: in a thermal year, by lines that have a
    /// kind, a month line with a month's first.
    pub fn has_known_holdings(&self) -> bool {
        let Some(year) = ThermalYear::new(self.register.year) else {
            return false;
        };
        let (_, ledger) = self.of_year();
        ledger
            .chunks_exact(NUMBERS_IN_LINE)
            .all(|line| match line[2] {
                register::ANNUAL | register::DAY => true,
                register::MONTH => year.month_firsts().contains(&line[3]),
                _ => false,
            })
    }

    /// What a field holds.
    pub fn get(&self, field: Field) -> u64 {
        let point = |index: u8| self.register.points[usize::from(index)];
        let account = |index: u8| self.register.accounts[usize::from(index)];
        match field {
            Field::Year => self.register.year.into(),
            Field::Lines => self.register.lines.into(),
            Field::Kind(index) => point(index).kind.into(),
            Field::Total(index) => point(index).total.into(),
            Field::Rate(index) => point(index).rate.into(),
            Field::OnFile(index) => account(index).on_file.into(),
            Field::Guarantee(index) => account(index).guarantee,
            Field::Commitment(index) => account(index).commitment,
            Field::Free(place) => self.lists.free[usize::from(place)].into(),
            Field::Ledger(place) => self.lists.ledger[usize::from(place)].into(),
            Field::TableLength => self.lists.free_lent as u64,
            Field::LedgerLength => self.lists.ledger_lent as u64,
        }
    }

    /// Writes a field, whose width the number has.
    pub fn set(&mut self, field: Field, value: u64) {
        fn fitting<T: TryFrom<u64>>(value: u64) -> T {
            let fitting = T::try_from(value);
            fitting.ok().expect("the number fits into the field")
        }
        let Register {
            points, accounts, ..
        } = &mut self.register;
        match field {
            Field::Year => self.register.year = fitting(value),
            Field::Lines => self.register.lines = fitting(value),
            Field::Kind(index) => points[usize::from(index)].kind = fitting(value),
            Field::Total(index) => points[usize::from(index)].total = fitting(value),
            Field::Rate(index) => points[usize::from(index)].rate = fitting(value),
            Field::OnFile(index) => accounts[usize::from(index)].on_file = fitting(value),
            Field::Guarantee(index) => accounts[usize::from(index)].guarantee = value,
            Field::Commitment(index) => accounts[usize::from(index)].commitment = value,
            Field::Free(place) => self.lists.free[usize::from(place)] = fitting(value),
            Field::Ledger(place) => self.lists.ledger[usize::from(place)] = fitting(value),
            Field::TableLength => self.lists.free_lent = fitting(value),
            Field::LedgerLength => self.lists.ledger_lent = fitting(value),
        }
    }

    /// The first line of the ledger is copied, so that there are so many of it.
    pub fn repeat(&mut self, lines: u16) {
        let (line, others) = self.lists.ledger.split_at_mut(NUMBERS_IN_LINE);
        let others = others.chunks_exact_mut(NUMBERS_IN_LINE);
        for other in others.take(usize::from(lines).saturating_sub(1)) {
            other.copy_from_slice(line);
        }
    }
}

/// A kind that is none is out of limits (question 2), and question 1 comes first.
/// A request of the everyday register always has a kind.
fn no_kind(register: &Register, lent: &Lent) -> Refusal {
    match register.is_in_order(lent) {
        true => Refusal::OutOfLimits,
        false => Refusal::NotInOrder,
    }
}

fn of_question_1(is_in_order: bool) -> Answer {
    Answer::new(u8::from(!is_in_order), 0)
}

fn of_question_10(short: Option<u16>) -> Answer {
    short.map_or(Answer::new(0, 0), |day| {
        Answer::new(Refusal::NotHeld.number(), day.into())
    })
}

impl Proved {
    pub fn run(&mut self, call: &Call) -> Answer {
        self.lists.prepare(call);
        let answer = self.call(call);
        self.lists.answered(answer, call)
    }

    /// The call without the lines of a batch's answer, as it is timed: a host
    /// keeps the register that comes back, so putting it in its place is part of
    /// a call.
    pub fn call(&mut self, call: &Call) -> Answer {
        let r = &self.register;
        let lists = &mut self.lists;
        let free = &mut lists.free[..lists.free_lent];
        let ledger = &mut lists.ledger[..lists.ledger_lent];
        let answer = match *call {
            Call::Fresh { year } => sys::fresh(year, free, ledger),
            Call::Open(opening) => sys::open_point(r, free, ledger, opening_fields(opening)),
            Call::Place { user, guarantee } => {
                sys::place_guarantee(r, free, ledger, user, guarantee)
            }
            Call::Request(request) => sys::request(r, free, ledger, request_fields(request)),
            Call::OfNoKind(kind, request) => {
                // Month and day are such as might be granted if the kind were taken for theirs.
                let (month, day) = (12, request.arrival.saturating_add(1));
                let fields = sys::Request {
                    kind,
                    month,
                    day,
                    ..request_fields(request)
                };
                sys::request(r, free, ledger, fields)
            }
            Call::Batch(ref batch) => {
                let (shares, numbers) = (&mut lists.shares, &mut lists.numbers);
                sys::batch(r, free, ledger, batch_fields(batch, shares, numbers))
            }
            Call::Cession(cession) => sys::cession(r, free, ledger, cession_fields(cession)),
            Call::Turn { year } => sys::turn_year(r, free, ledger, year),
            Call::Report { .. } | Call::InOrder | Call::ShortDay(_) => return self.ask(call),
        };
        self.register = answer.register;
        Answer::new(answer.number, answer.amount)
    }

    /// The calls that give no register back.
    fn ask(&self, call: &Call) -> Answer {
        let r = &self.register;
        let free = &self.lists.free[..self.lists.free_lent];
        let ledger = &self.lists.ledger[..self.lists.ledger_lent];
        match *call {
            Call::Report { point, day } => {
                let sys::Report { number, amount } = sys::report(r, free, ledger, point, day);
                Answer::new(number, amount)
            }
            Call::ShortDay(h) => {
                let holding = sys::Holding {
                    user: h.user,
                    point: h.point,
                    first: h.first,
                    last: h.last,
                    amount: h.amount,
                };
                of_question_10(sys::first_short_day(r.year, r.lines, ledger, holding))
            }
            _ => of_question_1(sys::in_order(r, free, ledger)),
        }
    }
}

fn opening_fields(opening: Opening) -> sys::Opening {
    sys::Opening {
        point: opening.point,
        kind: opening.kind,
        total: opening.total,
        rate: opening.rate,
    }
}

fn cession_fields(cession: Cession) -> sys::Cession {
    sys::Cession {
        giver: cession.giver,
        receiver: cession.receiver,
        point: cession.point,
        arrival: cession.arrival,
        amount: cession.amount,
    }
}

/// Month and day that a request does not use are out of limits, so that a call
/// which reads them is found.
fn request_fields(request: Request) -> sys::Request {
    let (kind, month, day) = match request.product {
        Product::Annual => (1, u8::MAX, u16::MAX),
        Product::Month(month) => (2, month, u16::MAX),
        Product::Day(day) => (3, u8::MAX, day),
    };
    sys::Request {
        user: request.user,
        point: request.point,
        kind,
        month,
        day,
        arrival: request.arrival,
        amount: request.amount,
    }
}

fn batch_fields<'a>(
    batch: &'a Batch,
    shares: &'a mut [u32],
    numbers: &'a mut [u8],
) -> sys::Batch<'a> {
    sys::Batch {
        point: batch.point,
        users: &batch.users,
        asked: &batch.asked,
        shares: &mut shares[..batch.shares],
        numbers: &mut numbers[..batch.numbers],
    }
}

/// The everyday register as the proved one has it.
pub fn proved_register(register: &Register) -> sys::Register {
    sys::Register {
        year: register.year,
        points: register.points.map(|point| sys::Point {
            kind: point.kind,
            total: point.total,
            rate: point.rate,
        }),
        accounts: register.accounts.map(|account| sys::Account {
            on_file: account.on_file,
            guarantee: account.guarantee,
            commitment: account.commitment,
        }),
        lines: register.lines,
    }
}
