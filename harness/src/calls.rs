//! The calls as values, and what a faulty host could do between them.

use std::fmt;

use reference::cession::{Cession, Holding};
use reference::register::{Opening, DAYS_IN_ROW, NUMBERS_IN_LINE};
use reference::request::{Product, Request};

/// A call with fields of any value.
#[derive(Debug, Clone, PartialEq, Eq)]
pub enum Call {
    Fresh {
        year: u16,
    },
    Open(Opening),
    Place {
        user: u8,
        guarantee: u64,
    },
    Request(Request),
    /// A request whose kind is none, which a host can pass as a number. It is
    /// annual otherwise.
    OfNoKind(u8, Request),
    Batch(Batch),
    Cession(Cession),
    Turn {
        year: u16,
    },
    Report {
        point: u8,
        day: u16,
    },
    /// Question 1 alone.
    InOrder,
    /// Question 10 alone: the first gas-day with too little.
    ShortDay(Holding),
}

impl Call {
    pub fn name(&self) -> &'static str {
        match self {
            Call::Fresh { .. } => "fresh",
            Call::Open(_) => "open",
            Call::Place { .. } => "guarantee",
            Call::Request(_) => "request",
            Call::OfNoKind(..) => "request of no kind",
            Call::Batch(_) => "batch",
            Call::Cession(_) => "cession",
            Call::Turn { .. } => "turn",
            Call::Report { .. } => "report",
            Call::InOrder => "in-order",
            Call::ShortDay(_) => "short-day",
        }
    }

    /// Whether an accepted one may alter something.
    pub fn is_changing(&self) -> bool {
        !matches!(
            self,
            Call::Report { .. } | Call::InOrder | Call::ShortDay(_)
        )
    }
}

/// A batch, and how many places it is lent for its shares and for its numbers.
#[derive(Debug, Clone, PartialEq, Eq)]
pub struct Batch {
    pub point: u8,
    pub users: Vec<u8>,
    pub asked: Vec<u64>,
    pub shares: usize,
    pub numbers: usize,
}

impl Batch {
    /// With lists as long as the batch.
    pub fn new(point: u8, users: Vec<u8>, asked: Vec<u64>) -> Batch {
        let lines = users.len();
        Batch {
            point,
            users,
            asked,
            shares: lines,
            numbers: lines,
        }
    }
}

/// A number that a host can write.
#[derive(Debug, Clone, Copy, PartialEq, Eq)]
pub enum Field {
    Year,
    Lines,
    Kind(u8),
    Total(u8),
    Rate(u8),
    OnFile(u8),
    Guarantee(u8),
    Commitment(u8),
    /// A place of the table of free amounts.
    Free(u16),
    /// A place of the ledger.
    Ledger(u16),
    /// How much of the table is lent to later calls.
    TableLength,
    /// How much of the ledger is lent to later calls.
    LedgerLength,
}

/// The names of a line's numbers, in their order.
pub const LINE_PARTS: [&str; NUMBERS_IN_LINE] = ["user", "point", "kind", "first", "amount"];

impl Field {
    /// Whether it is the amount of a line, whose 32 bits are a signed number's.
    pub fn is_signed(self) -> bool {
        let amount = NUMBERS_IN_LINE as u16 - 1;
        matches!(self, Field::Ledger(place) if place % NUMBERS_IN_LINE as u16 == amount)
    }
}

/// A call, or a number that is written between two calls.
#[derive(Debug, Clone, PartialEq, Eq)]
pub enum Step {
    Call(Call),
    Set(Field, u64),
    /// The first line of the ledger is copied, so that there are so many of it.
    Repeat(u16),
}

/// What a call answers. Question 1 answers 0 or 1; question 10 answers 0, or 10
/// and the first day with too little. An accepted batch has a share and a number
/// for each of its lines.
#[derive(Debug, Clone, PartialEq, Eq, Default)]
pub struct Answer {
    pub number: u8,
    pub amount: u32,
    pub lines: Vec<(u32, u8)>,
}

impl Answer {
    pub fn new(number: u8, amount: u32) -> Answer {
        Answer {
            number,
            amount,
            lines: Vec::new(),
        }
    }
}

impl fmt::Display for Step {
    fn fmt(&self, f: &mut fmt::Formatter<'_>) -> fmt::Result {
        match self {
            Step::Call(call) => call.fmt(f),
            Step::Set(field, value) if field.is_signed() => {
                write!(f, "set {field} {}", (*value as u32).cast_signed())
            }
            Step::Set(field, value) => write!(f, "set {field} {value}"),
            Step::Repeat(lines) => write!(f, "repeat {lines}"),
        }
    }
}

impl fmt::Display for Field {
    fn fmt(&self, f: &mut fmt::Formatter<'_>) -> fmt::Result {
        match *self {
            Field::Year => write!(f, "year"),
            Field::Lines => write!(f, "lines"),
            Field::Kind(point) => write!(f, "kind {point}"),
            Field::Total(point) => write!(f, "total {point}"),
            Field::Rate(point) => write!(f, "rate {point}"),
            Field::OnFile(user) => write!(f, "on-file {user}"),
            Field::Guarantee(user) => write!(f, "guarantee {user}"),
            Field::Commitment(user) => write!(f, "commitment {user}"),
            Field::Free(place) => {
                let row = DAYS_IN_ROW as u16;
                write!(f, "free {} {}", place / row, place % row)
            }
            Field::Ledger(place) => {
                let (line, part) = (
                    usize::from(place) / NUMBERS_IN_LINE,
                    usize::from(place) % NUMBERS_IN_LINE,
                );
                write!(f, "line {line} {}", LINE_PARTS[part])
            }
            Field::TableLength => write!(f, "table-length"),
            Field::LedgerLength => write!(f, "ledger-length"),
        }
    }
}

impl fmt::Display for Call {
    fn fmt(&self, f: &mut fmt::Formatter<'_>) -> fmt::Result {
        match self {
            Call::Fresh { year } => write!(f, "fresh {year}"),
            Call::Open(o) => write!(f, "open {} {} {} {}", o.point, o.kind, o.total, o.rate),
            Call::Place { user, guarantee } => write!(f, "guarantee {user} {guarantee}"),
            Call::Request(request) => {
                let product = match request.product {
                    Product::Annual => "annual".to_string(),
                    Product::Month(month) => format!("month {month}"),
                    Product::Day(day) => format!("day {day}"),
                };
                write_request(f, request, &product)
            }
            Call::OfNoKind(kind, request) => write_request(f, request, &format!("kind {kind}")),
            Call::Batch(batch) => write_batch(f, batch),
            Call::Cession(c) => write!(
                f,
                "cession {} {} {} {} {}",
                c.giver, c.receiver, c.point, c.arrival, c.amount
            ),
            Call::Turn { year } => write!(f, "turn {year}"),
            Call::Report { point, day } => write!(f, "report {point} {day}"),
            Call::InOrder => write!(f, "in-order"),
            Call::ShortDay(h) => write!(
                f,
                "short-day {} {} {} {} {}",
                h.user, h.point, h.first, h.last, h.amount
            ),
        }
    }
}

fn write_request(f: &mut fmt::Formatter<'_>, request: &Request, product: &str) -> fmt::Result {
    let Request {
        user,
        point,
        arrival,
        amount,
        ..
    } = request;
    write!(f, "request {user} {point} {product} {arrival} {amount}")
}

/// `-` stands where a list has ended.
fn write_batch(f: &mut fmt::Formatter<'_>, batch: &Batch) -> fmt::Result {
    write!(f, "batch {}", batch.point)?;
    let word = |number: Option<String>| number.unwrap_or("-".to_string());
    for line in 0..batch.users.len().max(batch.asked.len()) {
        let user = word(batch.users.get(line).map(u8::to_string));
        let asked = word(batch.asked.get(line).map(u64::to_string));
        write!(f, " {user}:{asked}")?;
    }
    if batch.shares != batch.users.len() {
        write!(f, " shares {}", batch.shares)?;
    }
    if batch.numbers != batch.users.len() {
        write!(f, " numbers {}", batch.numbers)?;
    }
    Ok(())
}
