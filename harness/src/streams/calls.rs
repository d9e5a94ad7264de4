//! Streams of calls, drawn as those of all sequences are.

use reference::calendar::THERMAL_YEARS;
use reference::runner::{self, record_of, Record, FIRST_YEAR};

use crate::calls::{Call, Step};
use crate::draws::Sequence;
use crate::numbers::Generator;

/// Letters that name no call: some come close to one.
const UNKNOWN_LETTERS: [u8; 12] = *b"pgrcyBQFXZ\x00\xff";

/// Kinds that no request has.
const UNKNOWN_KINDS: [u8; 5] = [0, 4, 5, 128, 255];

/// Some calls.
pub(super) fn some(numbers: &mut Generator) -> Vec<u8> {
    let few = 10 + numbers.below::<usize>(60);
    let more = 70 + numbers.below::<usize>(250);
    let least = numbers.pick(&[few, more]);
    many(numbers, least)
}

/// So many calls, or a few more.
pub(super) fn many(numbers: &mut Generator, least: usize) -> Vec<u8> {
    let mut sequence = start(numbers);
    while sequence.steps.len() < least {
        call(&mut sequence);
    }
    bytes_of(numbers, &sequence.steps)
}

/// A few calls in each year to the last, and what comes after it.
pub(super) fn of_all_years(numbers: &mut Generator) -> Vec<u8> {
    let mut sequence = start(numbers);
    let last = *THERMAL_YEARS.end();
    let first = sequence.books.register.year + 1;
    for year in (first..=last).chain([last + 1, last]) {
        sequence.call(Call::Turn { year });
        for _ in 0..sequence.numbers.below::<u8>(8) {
            call_within_year(&mut sequence);
        }
    }
    bytes_of(numbers, &sequence.steps)
}

/// Points opened and guarantees placed in the first year or in a later one;
/// sometimes a request or a cession meets the fresh register.
fn start(numbers: &mut Generator) -> Sequence {
    let mut sequence = fresh(numbers);
    if numbers.in_hundred(15) {
        sequence.request_or_cession();
    }
    let some = numbers.pick(&THERMAL_YEARS.collect::<Vec<u16>>());
    let year = numbers.pick(&[some, some, some, some, 2000, 2098]);
    sequence.call(Call::Turn { year });
    sequence.furnish();
    if numbers.in_hundred(30) {
        sequence.place_more();
    }
    sequence
}

/// A sequence of numbers of its own, with the register that the first record meets.
pub(super) fn fresh(numbers: &mut Generator) -> Sequence {
    let mut sequence = Sequence::new(Generator(numbers.any()));
    sequence.books.run(&Call::Fresh { year: FIRST_YEAR });
    sequence
}

/// Adds a call, sometimes one that turns the year.
pub(super) fn call(sequence: &mut Sequence) {
    match sequence.numbers.in_hundred(5) {
        true => sequence.turn(),
        false => call_within_year(sequence),
    }
}

fn call_within_year(sequence: &mut Sequence) {
    match sequence.numbers.below::<u8>(100) {
        0..=4 => sequence.opening(),
        5..=13 => sequence.guarantee(),
        _ => sequence.request_or_cession(),
    }
}

/// The records of some calls, one after another, with a few between them that
/// are no calls. Bytes that a letter doesn't use are mostly random.
pub(super) fn bytes_of(numbers: &mut Generator, steps: &[Step]) -> Vec<u8> {
    let has_noise = numbers.in_hundred(80);
    let mut bytes = Vec::new();
    for step in steps {
        let unused = match has_noise {
            true => std::array::from_fn(|_| numbers.below(256)),
            false => Record::default(),
        };
        let record = record_of(&recorded(step), unused);
        if numbers.in_hundred(2) {
            bytes.extend(no_call(numbers, record));
        }
        bytes.extend(record);
    }
    bytes
}

/// The call of a step, as a record holds it.
fn recorded(step: &Step) -> runner::Call {
    let Step::Call(call) = step else {
        panic!("{step} is no call");
    };
    match *call {
        Call::Open(opening) => runner::Call::Open(opening),
        Call::Place { user, guarantee } => runner::Call::Place { user, guarantee },
        Call::Request(request) => runner::Call::Request(request),
        Call::Cession(cession) => runner::Call::Cession(cession),
        Call::Turn { year } => runner::Call::Turn { year },
        _ => panic!("no record holds {call}"),
    }
}

/// The record with another letter, or that of a request with another kind.
fn no_call(numbers: &mut Generator, record: Record) -> Record {
    let mut record = record;
    match record[0] {
        b'R' if numbers.in_hundred(60) => record[1] = numbers.pick(&UNKNOWN_KINDS),
        _ => record[0] = numbers.pick(&UNKNOWN_LETTERS),
    }
    record
}
