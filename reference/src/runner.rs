//! What the program `runner` prints for its input.
//!
//! The rules are those of document 01, section "Report and runner": records of
//! 24 bytes, a line for each, a fresh register of 2000 before the first. What
//! that paper leaves open:
//!
//! - a line ends with a newline, the last one too;
//! - the kind of a point is a field as others are, so that question 2 is put to
//!   it after question 1; only an R of another kind is no call.

use crate::cession::Cession;
use crate::register::{Lent, Opening, Refusal, Register, LEDGER_LENGTH, TABLE_LENGTH};
use crate::request::{Product, Request};

/// The length of a record.
pub const RECORD_LENGTH: usize = 24;

/// How many records are looked at.
pub const MOST_RECORDS: usize = 2_000;

/// How many bytes are read.
pub const MOST_BYTES: usize = RECORD_LENGTH * MOST_RECORDS;

/// The year of the fresh register.
pub const FIRST_YEAR: u16 = 2000;

/// The number of what is no call.
const NO_CALL: u8 = 2;

/// A whole record.
pub type Record = [u8; RECORD_LENGTH];

/// The number of a record's answer and the amount granted or ceded.
pub type Answered = (u8, u32);

/// What is printed for an input.
pub fn run(input: &[u8]) -> Vec<u8> {
    lines(&answers(input)).into_bytes()
}

/// The lines of some answers, with their positions from 1.
pub fn lines(answers: &[Answered]) -> String {
    (1..)
        .zip(answers)
        .map(|(position, (number, amount)): (u32, _)| format!("{position} {number} {amount}\n"))
        .collect()
}

/// The answers of the records that are looked at, in their order.
pub fn answers(input: &[u8]) -> Vec<Answered> {
    let mut host = Host::new();
    let records = input.chunks(RECORD_LENGTH).take(MOST_RECORDS);
    records.map(|record| host.answer(record)).collect()
}

/// The register with its lists.
struct Host {
    register: Register,
    free: Vec<u32>,
    ledger: Vec<u32>,
}

impl Host {
    /// With the register that the first record meets.
    fn new() -> Host {
        Host {
            register: Register::blank(FIRST_YEAR),
            free: vec![0; TABLE_LENGTH],
            ledger: vec![0; LEDGER_LENGTH],
        }
    }

    fn answer(&mut self, record: &[u8]) -> Answered {
        match call_of(record).map(|call| self.make(call)) {
            Some(Ok(amount)) => (0, amount),
            Some(Err(refusal)) => (refusal.number(), 0),
            None => (NO_CALL, 0),
        }
    }

    /// Makes a call: the amount granted or ceded.
    fn make(&mut self, call: Call) -> Result<u32, Refusal> {
        let register = &mut self.register;
        let lent = &mut Lent {
            free: &mut self.free,
            ledger: &mut self.ledger,
        };
        match call {
            Call::Open(opening) => register.open_point(lent, opening)?,
            Call::Place { user, guarantee } => register.place_guarantee(lent, user, guarantee)?,
            Call::Request(request) => return register.request(lent, request),
            Call::Cession(cession) => return register.cede(lent, cession),
            Call::Turn { year } => register.turn_year(lent, year)?,
        }
        Ok(0)
    }
}

/// A call that a record can hold.
#[derive(Debug, Clone, Copy, PartialEq, Eq)]
pub enum Call {
    Open(Opening),
    Place { user: u8, guarantee: u64 },
    Request(Request),
    Cession(Cession),
    Turn { year: u16 },
}

/// The call that a record makes; `None` if its letter is unknown, if it is an R
/// of another kind, or if it is short.
pub fn call_of(record: &[u8]) -> Option<Call> {
    let record: &Record = record.try_into().ok()?;
    let fields = Fields::read(record);
    Some(match record[0] {
        b'P' => Call::Open(Opening {
            point: fields.point,
            kind: fields.kind,
            total: fields.amount,
            rate: fields.rate,
        }),
        b'G' => Call::Place {
            user: fields.user,
            guarantee: fields.amount,
        },
        b'R' => Call::Request(fields.request()?),
        b'C' => Call::Cession(Cession {
            giver: fields.user,
            receiver: fields.receiver,
            point: fields.point,
            arrival: fields.arrival,
            amount: fields.amount,
        }),
        b'Y' => Call::Turn { year: fields.year },
        _ => return None,
    })
}

/// All fields of a record, whether its letter uses them or not.
struct Fields {
    kind: u8,
    point: u8,
    user: u8,
    receiver: u8,
    month: u8,
    day: u16,
    arrival: u16,
    year: u16,
    rate: u32,
    amount: u64,
}

impl Fields {
    fn read(record: &Record) -> Fields {
        let two = |low: usize| u16::from(record[low]) + 256 * u16::from(record[low + 1]);
        let four = |low: usize| u32::from(two(low)) + 65_536 * u32::from(two(low + 2));
        Fields {
            kind: record[1],
            point: record[2],
            user: record[3],
            receiver: record[4],
            month: record[5],
            day: two(6),
            arrival: two(8),
            year: two(10),
            rate: four(12),
            amount: u64::from(four(16)) + (u64::from(four(20)) << 32),
        }
    }

    fn request(&self) -> Option<Request> {
        let product = match self.kind {
            1 => Product::Annual,
            2 => Product::Month(self.month),
            3 => Product::Day(self.day),
            _ => return None,
        };
        Some(Request {
            user: self.user,
            point: self.point,
            product,
            arrival: self.arrival,
            amount: self.amount,
        })
    }
}

/// The record of a call, with the bytes of `unused` where its letter uses none.
pub fn record_of(call: &Call, unused: Record) -> Record {
    let mut record = unused;
    match *call {
        Call::Open(opening) => {
            put(&mut record, 0, &[b'P', opening.kind, opening.point]);
            put(&mut record, 12, &opening.rate.to_le_bytes());
            put(&mut record, 16, &opening.total.to_le_bytes());
        }
        Call::Place { user, guarantee } => {
            put(&mut record, 0, b"G");
            put(&mut record, 3, &[user]);
            put(&mut record, 16, &guarantee.to_le_bytes());
        }
        Call::Request(request) => put_request(&mut record, request),
        Call::Cession(cession) => {
            put(&mut record, 0, b"C");
            put(
                &mut record,
                2,
                &[cession.point, cession.giver, cession.receiver],
            );
            put(&mut record, 8, &cession.arrival.to_le_bytes());
            put(&mut record, 16, &cession.amount.to_le_bytes());
        }
        Call::Turn { year } => {
            put(&mut record, 0, b"Y");
            put(&mut record, 10, &year.to_le_bytes());
        }
    }
    record
}

fn put_request(record: &mut Record, request: Request) {
    let kind = match request.product {
        Product::Annual => 1,
        Product::Month(month) => {
            put(record, 5, &[month]);
            2
        }
        Product::Day(day) => {
            put(record, 6, &day.to_le_bytes());
            3
        }
    };
    put(record, 0, &[b'R', kind, request.point, request.user]);
    put(record, 8, &request.arrival.to_le_bytes());
    put(record, 16, &request.amount.to_le_bytes());
}

fn put(record: &mut Record, first: usize, bytes: &[u8]) {
    record[first..first + bytes.len()].copy_from_slice(bytes);
}
