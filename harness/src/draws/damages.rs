//! Numbers that a faulty host could write: every field can become another, mostly
//! one near its limits or near what it was.

use reference::register::{
    DAYS_IN_ROW, LEDGER_LENGTH, LEDGER_LINES, NUMBERS_IN_LINE, POINTS, TABLE_LENGTH, USERS,
};

use super::{narrow, Sequence, MOST_AMOUNT, MOST_GUARANTEE};
use crate::books::SPARE;
use crate::calls::{Call, Field, Step};

/// The largest number that a field can hold, or be lent.
pub fn most_of(field: Field) -> u64 {
    match field {
        Field::Year | Field::Lines => u16::MAX.into(),
        Field::Kind(_) | Field::OnFile(_) => u8::MAX.into(),
        Field::Guarantee(_) | Field::Commitment(_) => u64::MAX,
        Field::Total(_) | Field::Rate(_) | Field::Free(_) | Field::Ledger(_) => u32::MAX.into(),
        Field::TableLength => (TABLE_LENGTH + SPARE) as u64,
        Field::LedgerLength => (LEDGER_LENGTH + SPARE) as u64,
    }
}

/// Every field, those of the spare numbers behind both lists included.
pub fn fields() -> Vec<Field> {
    let places = |length: usize| 0..(length + SPARE) as u16;
    let points = (0..POINTS as u8)
        .flat_map(|point| [Field::Kind(point), Field::Total(point), Field::Rate(point)]);
    let accounts = (0..USERS as u8).flat_map(|user| {
        [
            Field::OnFile(user),
            Field::Guarantee(user),
            Field::Commitment(user),
        ]
    });
    let lengths = [Field::TableLength, Field::LedgerLength];
    [Field::Year, Field::Lines]
        .into_iter()
        .chain(lengths)
        .chain(points)
        .chain(accounts)
        .chain(places(TABLE_LENGTH).map(Field::Free))
        .chain(places(LEDGER_LENGTH).map(Field::Ledger))
        .collect()
}

impl Sequence {
    /// Writes a number, and adds that.
    pub(super) fn set(&mut self, field: Field, value: u64) {
        self.books.set(field, value);
        self.steps.push(Step::Set(field, value));
    }

    /// Alters a number and puts question 1; what the number was is kept, to be put
    /// back.
    pub(super) fn damage(&mut self) {
        let (field, value) = self.other_number();
        self.repairs.push((field, self.books.get(field)));
        self.set(field, value);
        self.call(Call::InOrder);
    }

    /// Puts back what the damaged fields held.
    pub(super) fn repair(&mut self) {
        while let Some((field, value)) = self.repairs.pop() {
            self.set(field, value);
        }
        self.call(Call::InOrder);
    }

    /// Copies the first line, so that two lines are left, or one or none. A call
    /// that needs a line follows.
    pub(super) fn fill_ledger(&mut self) {
        let lines = LEDGER_LINES as u16 - self.numbers.below::<u16>(3);
        self.books.repeat(lines);
        self.steps.push(Step::Repeat(lines));
        self.set(Field::Lines, lines.into());
        self.request_or_cession();
    }

    /// A field and another number for it: a limit of it or the next number, one
    /// more or less than it was, or any.
    fn other_number(&mut self) -> (Field, u64) {
        let field = self.some_field();
        let value = self.books.get(field);
        let most = most_of(field);
        let limits = self.limits_of(field);
        let limit = self.numbers.pick(&limits);
        let near = [value.saturating_add(1), value.saturating_sub(1)];
        let near = self.numbers.pick(&near);
        let any = self.numbers.any() >> self.numbers.below::<u32>(64);
        let extreme = self.numbers.pick(&[0, most]);
        let choices = [limit, limit, limit, near, near, any, extreme];
        let other = self.numbers.pick(&choices);
        (field, other.min(most))
    }

    fn some_field(&mut self) -> Field {
        let (known, any) = (self.open_point(), self.numbers.below(32));
        let point = self.numbers.pick(&[known, known, any]);
        let (known, any) = (self.user_on_file(), self.numbers.below(64));
        let user = self.numbers.pick(&[known, known, any]);
        match self.numbers.below::<u8>(19) {
            0 => Field::Year,
            1 => Field::Lines,
            2 => Field::Kind(point),
            3 => Field::Total(point),
            4 => Field::Rate(point),
            5 => Field::OnFile(user),
            6 => Field::Guarantee(user),
            7 | 8 => Field::Commitment(user),
            9..=11 => Field::Free(self.place_in_table(point)),
            12 => Field::TableLength,
            13 => Field::LedgerLength,
            _ => Field::Ledger(self.place_in_ledger()),
        }
    }

    /// A place of a point's row, often at its ends, or any, or one that is spare.
    fn place_in_table(&mut self, point: u8) -> u16 {
        let (first, last) = self.days_of_year();
        let row = u16::from(point) * DAYS_IN_ROW as u16;
        let some = row + self.numbers.below::<u16>(DAYS_IN_ROW as u64);
        let any = self.numbers.below((TABLE_LENGTH + SPARE) as u64);
        let ends = [row, row + last - first, row + DAYS_IN_ROW as u16 - 1];
        let end = self.numbers.pick(&ends);
        self.numbers.pick(&[end, end, some, any])
    }

    /// A place of a used line, often of the last one, of the next line or any.
    fn place_in_ledger(&mut self) -> u16 {
        let lines = self.books.register.lines.min(LEDGER_LINES as u16 - 1);
        let some = self.numbers.below(u64::from(lines) + 1);
        let any = self.numbers.below(LEDGER_LINES as u64);
        let last = lines.saturating_sub(1);
        let line = self
            .numbers
            .pick(&[some, some, some, last, last, lines, any]);
        line * NUMBERS_IN_LINE as u16 + self.numbers.below::<u16>(NUMBERS_IN_LINE as u64)
    }

    /// The limits of a field, and the numbers beside them.
    fn limits_of(&mut self, field: Field) -> Vec<u64> {
        match field {
            Field::Year => vec![1999, 2000, 2098, 2099],
            Field::Lines => vec![2_047, 2_048, 2_049],
            Field::Kind(_) => vec![0, 1, 2, 3],
            Field::Total(_) => vec![0, 1, MOST_AMOUNT, MOST_AMOUNT + 1],
            Field::Rate(_) => vec![0, 999_999, 1_000_000],
            Field::OnFile(_) => vec![0, 1, 2],
            Field::Guarantee(user) => {
                let committed = self.books.get(Field::Commitment(user));
                let below = committed.saturating_sub(1);
                vec![committed, below, MOST_GUARANTEE, MOST_GUARANTEE + 1]
            }
            Field::Commitment(user) => {
                let guarantee = self.books.get(Field::Guarantee(user));
                vec![guarantee, guarantee.saturating_add(1)]
            }
            Field::Free(place) => {
                let point = usize::from(place) / DAYS_IN_ROW % POINTS;
                let total = u64::from(self.books.register.points[point].total);
                vec![0, 1, total, total + 1]
            }
            Field::Ledger(place) => self.limits_in_line(usize::from(place) % NUMBERS_IN_LINE),
            Field::TableLength => lengths_near(TABLE_LENGTH, DAYS_IN_ROW),
            Field::LedgerLength => lengths_near(LEDGER_LENGTH, NUMBERS_IN_LINE),
        }
    }

    /// The limits of a number of a ledger line: user, point, kind, first day or
    /// amount.
    fn limits_in_line(&mut self, position: usize) -> Vec<u64> {
        let (first, last) = self.days_of_year();
        let month = self.thermal().month(self.busy_month).expect("a month");
        let (of_month, to_month) = narrow(&month);
        let days = [first - 1, first, of_month, of_month + 1, to_month, last];
        let most = MOST_AMOUNT as i32;
        let amounts = [0, 1, most, most + 1, -most, -most - 1, i32::MIN];
        match position {
            0 => vec![0, 5, 63, 64, 255, 256],
            1 => vec![0, 31, 32, 255, 256],
            2 => vec![0, 1, 2, 3, 4],
            3 => days.into_iter().chain([last + 1]).map(u64::from).collect(),
            _ => amounts.map(|a| u64::from(a.cast_unsigned())).to_vec(),
        }
    }
}

/// A length, those beside it and some that are far from it.
fn lengths_near(length: usize, part: usize) -> Vec<u64> {
    [0, part, length - part, length - 1, length, length + 1]
        .map(|length| length as u64)
        .to_vec()
}
