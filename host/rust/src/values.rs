//! What goes into the calls and what a register shows of itself.

use crate::sys;

/// The kind of a delivery point. Direct points take annual requests only.
#[derive(Debug, Clone, Copy, PartialEq, Eq, Hash)]
pub enum PointKind {
    Direct,
    Thermoelectric,
}

impl PointKind {
    pub(crate) fn number(self) -> u8 {
        match self {
            PointKind::Direct => 1,
            PointKind::Thermoelectric => 2,
        }
    }
}

/// What a request is for.
#[derive(Debug, Clone, Copy, PartialEq, Eq, Hash)]
pub enum Product {
    /// The rest of the year, from the first of the month after arrival.
    Annual,
    /// A month of the thermal year, 1 for October to 12 for September.
    Month(u8),
    /// A gas-day.
    Day(u16),
}

/// A request for capacity at a point. `arrival` is the gas-day on which it came
/// in.
#[derive(Debug, Clone, Copy, PartialEq, Eq, Hash)]
pub struct Request {
    pub user: u8,
    pub point: u8,
    pub product: Product,
    pub arrival: u16,
    pub amount: u64,
}

impl Request {
    /// The request as a kind beside a month and a gas-day, of which the register
    /// reads the one that the kind has.
    pub(crate) fn fields(self) -> sys::Request {
        let (kind, month, day) = match self.product {
            Product::Annual => (1, 0, 0),
            Product::Month(month) => (2, month, 0),
            Product::Day(day) => (3, 0, day),
        };
        sys::Request {
            user: self.user,
            point: self.point,
            kind,
            month,
            day,
            arrival: self.arrival,
            amount: self.amount,
        }
    }
}

/// A cession of capacity at a point from one user to another, to the year's end.
/// `arrival` is the gas-day on which it came in.
#[derive(Debug, Clone, Copy, PartialEq, Eq, Hash)]
pub struct Cession {
    pub giver: u8,
    pub receiver: u8,
    pub point: u8,
    pub arrival: u16,
    pub amount: u64,
}

impl Cession {
    pub(crate) fn fields(self) -> sys::Cession {
        sys::Cession {
            giver: self.giver,
            receiver: self.receiver,
            point: self.point,
            arrival: self.arrival,
            amount: self.amount,
        }
    }
}

/// A line of a batch: a user and what he asks for, for the whole year.
#[derive(Debug, Clone, Copy, PartialEq, Eq, Hash)]
pub struct BatchLine {
    pub user: u8,
    pub asked: u64,
}

/// An open point: its total in Sm3 a day, and its rate for each Sm3/day and
/// gas-day.
#[derive(Debug, Clone, Copy, PartialEq, Eq, Hash)]
pub struct Point {
    pub kind: PointKind,
    pub total: u32,
    pub rate: u32,
}

impl Point {
    /// `None` if the point is closed.
    pub(crate) fn read(point: &sys::Point) -> Option<Point> {
        let kind = match point.kind {
            1 => PointKind::Direct,
            2 => PointKind::Thermoelectric,
            _ => return None,
        };
        Some(Point {
            kind,
            total: point.total,
            rate: point.rate,
        })
    }
}

/// The account of a user on file: his guarantee, and the charges that he is
/// committed to. The commitment is never above the guarantee.
#[derive(Debug, Clone, Copy, PartialEq, Eq, Hash)]
pub struct Account {
    pub guarantee: u64,
    pub commitment: u64,
}

impl Account {
    /// `None` if the user is not on file.
    pub(crate) fn read(account: &sys::Account) -> Option<Account> {
        (account.on_file == 1).then_some(Account {
            guarantee: account.guarantee,
            commitment: account.commitment,
        })
    }
}

/// The kind of a ledger line, which says where the line ends.
#[derive(Debug, Clone, Copy, PartialEq, Eq, Hash)]
pub enum LineKind {
    /// Ends with the thermal year.
    Annual,
    /// Ends with the month that it begins.
    Month,
    /// Is of one gas-day.
    Day,
}

/// A line of the ledger. What a user has ceded is below 0.
#[derive(Debug, Clone, Copy, PartialEq, Eq, Hash)]
pub struct Line {
    pub user: u8,
    pub point: u8,
    pub kind: LineKind,
    pub first: u16,
    pub amount: i32,
}

impl Line {
    /// The line that five numbers of a ledger in order stand for.
    pub(crate) fn read(numbers: &[u32]) -> Line {
        Line {
            user: narrow(numbers[0]),
            point: narrow(numbers[1]),
            kind: match numbers[2] {
                1 => LineKind::Annual,
                2 => LineKind::Month,
                _ => LineKind::Day,
            },
            first: narrow(numbers[3]),
            amount: numbers[4].cast_signed(),
        }
    }
}

/// A number that question 1 keeps within limits which the narrower type holds.
fn narrow<T: TryFrom<u32>>(number: u32) -> T {
    T::try_from(number)
        .ok()
        .expect("each line of a register in order is within limits")
}
