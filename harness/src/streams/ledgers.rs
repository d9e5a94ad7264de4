//! Streams that fill the ledger.
//!
//! It has more lines than there are records, so that a stream of requests can't.
//! A cession writes two lines: what some users hold goes round among them.

use reference::calendar::THERMAL_YEARS;
use reference::cession::{Cession, CESSION_DEADLINE};
use reference::register::{Opening, LEDGER_LINES};
use reference::request::{Product, Request, REQUEST_DEADLINE};
use reference::runner::MOST_RECORDS;

use super::calls;
use crate::calls::Call;
use crate::draws::{Sequence, MOST_GUARANTEE};
use crate::numbers::Generator;

/// Users among whom capacity goes round at a point.
struct Ring {
    users: Vec<u8>,
    point: u8,
    /// What the first of them holds before a round and after it.
    held: u64,
    /// In which cessions arrive, 1 for October. The year is nearly over: only its
    /// last gas-days have to be looked at in so many lines.
    month: u8,
}

/// A year in which the ledger is filled, calls that find it full or nearly so,
/// and mostly later years.
pub(super) fn full(numbers: &mut Generator) -> Vec<u8> {
    let mut sequence = calls::fresh(numbers);
    let year = numbers.pick(&THERMAL_YEARS.collect::<Vec<u16>>());
    sequence.call(Call::Turn { year });
    let ring = start(&mut sequence);
    fill(&mut sequence, &ring);
    for _ in 0..10 + numbers.below::<u8>(20) {
        call_at_full_ledger(&mut sequence, &ring);
    }
    let later = numbers.pick(&[0, 50, 200]);
    sequence.turn();
    for _ in 0..later {
        calls::call(&mut sequence);
    }
    assert!(sequence.steps.len() < MOST_RECORDS);
    calls::bytes_of(numbers, &sequence.steps)
}

/// Opens a point, puts the ring's users on file and has the first of them ask
/// for some capacity, in as many requests as there may be lines left over.
fn start(sequence: &mut Sequence) -> Ring {
    let numbers = &mut sequence.numbers;
    let (point, kind) = (numbers.below(32), numbers.pick(&[1, 2]));
    let total = 100 + numbers.below::<u64>(10_000);
    let rate = numbers.below(1_000);
    let first = numbers.below::<u8>(60);
    let users: Vec<u8> = (first..first + numbers.pick(&[2, 3, 4])).collect();
    let (requests, month) = (numbers.pick(&[1, 2, 3]), numbers.pick(&[10, 11]));
    sequence.call(Call::Open(Opening {
        point,
        kind,
        total,
        rate,
    }));
    for &user in &users {
        sequence.place(user, MOST_GUARANTEE);
    }
    let held = (0..requests).map(|_| request_for_year(sequence, users[0], point));
    Ring {
        held: held.sum(),
        users,
        point,
        month,
    }
}

/// Adds a request for the whole year, of a small part of what can be conferred.
/// What is asked is given.
fn request_for_year(sequence: &mut Sequence, user: u8, point: u8) -> u64 {
    let (earliest, latest) = sequence.arrivals_in(0, REQUEST_DEADLINE);
    let arrival = sequence.numbers.day(earliest, latest);
    let amount = 1 + sequence.numbers.below::<u64>(20);
    sequence.call(Call::Request(Request {
        user,
        point,
        product: Product::Annual,
        arrival,
        amount,
    }));
    amount
}

/// Adds rounds of cessions until a round finds no line.
fn fill(sequence: &mut Sequence, ring: &Ring) {
    while usize::from(sequence.books.register.lines) + 1 < LEDGER_LINES {
        add_round(sequence, ring);
    }
}

/// Adds a round: an amount goes from each user to the next, and back to the
/// first.
fn add_round(sequence: &mut Sequence, ring: &Ring) {
    let (earliest, latest) = sequence.arrivals_in(ring.month, CESSION_DEADLINE);
    let amount = 1 + sequence.numbers.below::<u64>(ring.held);
    let receivers = ring.users.iter().cycle().skip(1);
    for (&giver, &receiver) in ring.users.iter().zip(receivers) {
        let arrival = sequence.numbers.day(earliest, latest);
        sequence.call(Call::Cession(Cession {
            giver,
            receiver,
            point: ring.point,
            arrival,
            amount,
        }));
    }
}

/// Adds a call that asks for a line, or any other.
fn call_at_full_ledger(sequence: &mut Sequence, ring: &Ring) {
    match sequence.numbers.below::<u8>(6) {
        0 => {
            request_for_year(sequence, ring.users[1], ring.point);
        }
        1 => add_round(sequence, ring),
        _ => sequence.request_or_cession(),
    }
}
