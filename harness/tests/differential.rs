//! Every call of the proved register against the everyday one: the answers, and every
//! number of the register and of all lists afterwards, those behind what was lent
//! included.
//!
//! `YLGRANDI_SEQUENCES` says how many random sequences are run; they are the same at
//! every run. One that fails is cut down and told as lines of a case.

use std::env;
use std::panic;

use harness::calls::{Answer, Batch, Call, Field, Step};
use harness::cases::{self, Case};
use harness::draws::damages::{fields, most_of};
use harness::draws::{narrow, shapes, MOST_AMOUNT};
use harness::shrink::{expect_all, shortest};
use harness::sides::Sides;
use harness::tally::Tally;
use reference::calendar::{Date, ThermalYear, THERMAL_YEARS};
use reference::cession::{Cession, Holding};
use reference::register::{Opening, LEDGER_LENGTH, LEDGER_LINES, NUMBERS_IN_LINE, TABLE_LENGTH};
use reference::request::{Product, Request};

/// How many sequences are run: enough that each answer is frequent.
const SEQUENCES: u64 = 1_500;

/// How often each answer is found in so many sequences, at least.
const LEAST: usize = 400;

fn sequences() -> u64 {
    let wanted = env::var("YLGRANDI_SEQUENCES").ok();
    wanted.map_or(SEQUENCES, |count| count.parse().expect("a number"))
}

/// Runs steps from a host without a register.
fn run_all(steps: &[Step], tally: &mut Tally) -> Result<(), String> {
    let mut sides = Sides::default();
    for step in steps {
        if let (Step::Call(call), Some(answer)) = (step, sides.run(step)?) {
            tally.add(call, &answer, &mut sides.everyday);
        }
    }
    Ok(())
}

#[test]
fn random_sequences_are_answered_alike() {
    let mut tally = Tally::default();
    for seed in 0..sequences() {
        let steps = shapes::steps(seed);
        let run = |steps: &[Step]| run_all(steps, &mut tally);
        expect_all(&format!("seed {seed}"), &steps, run);
    }
    let is_whole = sequences() >= SEQUENCES;
    tally.expect(LEAST, |_, _| is_whole);
    if is_whole {
        tally.expect_years();
    }
}

/// Both sides after some steps.
fn after(steps: impl IntoIterator<Item = Step>) -> Sides {
    let mut sides = Sides::default();
    for step in steps {
        run(&mut sides, &step);
    }
    sides
}

fn run(sides: &mut Sides, step: &Step) -> Option<Answer> {
    let ran = sides.run(step);
    ran.unwrap_or_else(|difference| panic!("{step}: {difference}"))
}

/// The number of a call's answer.
fn ask(sides: &mut Sides, call: Call) -> u8 {
    run(sides, &Step::Call(call)).map_or(0, |answer| answer.number)
}

/// Question 1 with each number of the register and of both lists altered, one at a
/// time, in a year with a ledger that is nearly full.
#[test]
fn every_single_number_is_asked_for_alike() {
    let mut sides = after(shapes::full_ledger(0));
    let mut found = [0, 0];
    for field in fields() {
        let usual = sides.everyday.get(field);
        let most = most_of(field);
        for value in [usual.saturating_add(1).min(most), most] {
            run(&mut sides, &Step::Set(field, value));
            found[usize::from(ask(&mut sides, Call::InOrder))] += 1;
        }
        run(&mut sides, &Step::Set(field, usual));
    }
    assert_eq!(ask(&mut sides, Call::InOrder), 0);
    assert!(found[0] > 5_000 && found[1] > 20_000, "{found:?}");
}

/// A fresh register of a year, with point 0 open and users 0 and 1 on file. They can
/// pay for nothing.
fn year_without_guarantees(year: u16) -> Sides {
    let calls = [
        Call::Fresh { year },
        Call::Open(Opening {
            point: 0,
            kind: 2,
            total: MOST_AMOUNT,
            rate: 1,
        }),
        Call::Place {
            user: 0,
            guarantee: 0,
        },
        Call::Place {
            user: 1,
            guarantee: 0,
        },
    ];
    after(calls.map(Step::Call))
}

fn thermal(year: u16) -> ThermalYear {
    ThermalYear::new(year).expect("a thermal year")
}

/// Reports of each gas-day of each year, and of those beside it, with another amount
/// free on each.
#[test]
fn every_gas_day_is_reported_alike() {
    for year in THERMAL_YEARS {
        let mut sides = year_without_guarantees(year);
        let (first, last) = narrow(&thermal(year).days());
        for (place, day) in (0..).zip(first..=last) {
            sides.proved.lists.free[place] = day.into();
            sides.everyday.lists.free[place] = day.into();
        }
        for day in first - 1..=last + 1 {
            let report = Step::Call(Call::Report { point: 0, day });
            let expected = match (first..=last).contains(&day) {
                true => Answer::new(0, day.into()),
                false => Answer::new(8, 0),
            };
            assert_eq!(run(&mut sides, &report), Some(expected), "{day}");
        }
    }
}

fn request(product: Product, arrival: u16) -> Request {
    Request {
        user: 0,
        point: 0,
        product,
        arrival,
        amount: 1,
    }
}

fn cession(arrival: u16) -> Cession {
    Cession {
        giver: 0,
        receiver: 1,
        point: 0,
        arrival,
        amount: 1,
    }
}

/// Calls that arrive on a gas-day: an annual request, for a month and for a gas-day,
/// and a cession. In a register where nobody holds anything or has a guarantee a
/// request is late, or not covered; a cession is late, or not held.
fn calls_arriving(arrival: u16, month: u8, day: u16) -> [Call; 4] {
    [
        Call::Request(request(Product::Annual, arrival)),
        Call::Request(request(Product::Month(month), arrival)),
        Call::Request(request(Product::Day(day), arrival)),
        Call::Cession(cession(arrival)),
    ]
}

/// Annual requests, requests for the next month, for the year's last day and cessions
/// in the second half of each month of each year, where all deadlines are.
#[test]
fn the_deadlines_of_every_month_are_alike() {
    let mut found = [[0; 16]; 4];
    for year in THERMAL_YEARS {
        let mut sides = year_without_guarantees(year);
        let (first, last) = narrow(&thermal(year).arrivals());
        for arrival in first..=last {
            let date = Date::from_day_number(arrival.into()).expect("a date");
            let next_month = (date.month() + 3) % 12 + 1;
            if date.day() >= 14 {
                for (call, found) in calls_arriving(arrival, next_month, last)
                    .into_iter()
                    .zip(&mut found)
                {
                    found[usize::from(ask(&mut sides, call))] += 1;
                }
            }
        }
    }
    let wanted: [&[usize]; 4] = [&[8, 9, 11], &[9, 11], &[11], &[8, 9, 10]];
    for (found, wanted) in found.iter().zip(wanted) {
        assert!(
            wanted.iter().all(|&number| found[number] > 1_000),
            "{found:?}"
        );
    }
}

/// Every month against each arrival around a year, gas-days at its ends and in it,
/// and arrivals far from it.
#[test]
fn arrivals_around_a_year_are_alike() {
    let mut sides = year_without_guarantees(2023);
    let days = [8_673, 8_674, 8_689, 8_825, 9_038, 9_039, 9_040];
    let far = (0..=u16::MAX)
        .step_by(331)
        .chain([36_524, 36_525, u16::MAX]);
    for arrival in (8_600..9_100).chain(far) {
        for (month, day) in (0..=13).zip(days.into_iter().cycle()) {
            for call in calls_arriving(arrival, month, day) {
                ask(&mut sides, call);
            }
        }
    }
}

/// Calls that have a byte as point, user, kind or month.
fn calls_with(byte: u8) -> Vec<Call> {
    let (good, given) = (request(Product::Annual, 8_689), cession(8_689));
    let of_no_kind = (!(1..=3).contains(&byte)).then_some(Call::OfNoKind(byte, good));
    let calls = [
        Call::Request(Request { user: byte, ..good }),
        Call::Request(Request {
            point: byte,
            ..good
        }),
        Call::Request(request(Product::Month(byte), 8_658)),
        Call::Cession(Cession {
            giver: byte,
            ..given
        }),
        Call::Cession(Cession {
            receiver: byte,
            ..given
        }),
        Call::Cession(Cession {
            point: byte,
            ..given
        }),
        Call::Cession(Cession {
            giver: byte,
            receiver: byte,
            ..given
        }),
        Call::Batch(Batch::new(byte, vec![0], vec![1])),
        Call::Batch(Batch::new(0, vec![byte], vec![1])),
        Call::Report {
            point: byte,
            day: 8_689,
        },
    ];
    calls.into_iter().chain(of_no_kind).collect()
}

/// Each byte as such a field, in a register in order and in one with too many lines.
#[test]
fn every_byte_of_a_field_is_taken_alike() {
    let mut sides = year_without_guarantees(2023);
    let too_many = LEDGER_LINES as u64 + 1;
    for byte in 0..=u8::MAX {
        for (lines, numbers) in [(too_many, 1..=1), (0, 0..=11)] {
            run(&mut sides, &Step::Set(Field::Lines, lines));
            for call in calls_with(byte) {
                let number = ask(&mut sides, call.clone());
                assert!(numbers.contains(&number), "{call}: {number}");
            }
        }
    }
}

/// A user holds 100 for the year, and 1 less on one day: on each, in turn.
#[test]
fn each_short_day_is_named() {
    let mut sides = year_without_guarantees(2023);
    let lines = [[0, 0, 1, 8_674, 100], [0, 0, 3, 8_674, u64::from(u32::MAX)]];
    for (place, number) in (0..).zip(lines.concat()) {
        run(&mut sides, &Step::Set(Field::Ledger(place), number));
    }
    run(&mut sides, &Step::Set(Field::Lines, 2));
    let first_day = Field::Ledger(NUMBERS_IN_LINE as u16 + 3);
    for day in 8_674..=9_039 {
        run(&mut sides, &Step::Set(first_day, day.into()));
        for (first, last, amount) in [(8_674, 9_039, 100), (day, day, 100), (8_674, day, 99)] {
            let holding = Holding {
                user: 0,
                point: 0,
                first,
                last,
                amount,
            };
            let expected = match amount {
                100 => Answer::new(10, day.into()),
                _ => Answer::new(0, 0),
            };
            let answer = run(&mut sides, &Step::Call(Call::ShortDay(holding)));
            assert_eq!(answer, Some(expected), "{day}");
        }
        let amount = 100;
        ask(
            &mut sides,
            Call::Cession(Cession {
                amount,
                ..cession(8_689)
            }),
        );
    }
}

/// So many numbers more, and 16 bits of a length look right.
const MORE: usize = 1 << 16;

/// Calls that make a register, and batches of one line and of too many.
fn calls_of_long_lists() -> [Call; 7] {
    let batch = |lines: usize| Call::Batch(Batch::new(0, vec![5; lines], vec![1; lines]));
    [
        Call::Fresh { year: 2023 },
        Call::Open(Opening {
            point: 0,
            kind: 2,
            total: 100,
            rate: 1,
        }),
        Call::Place {
            user: 5,
            guarantee: 1_000_000,
        },
        batch(1),
        batch(MORE + 1),
        batch(MORE + 64),
        Call::InOrder,
    ]
}

#[test]
fn lengths_are_seen_whole() {
    let mut sides = Sides::default();
    for lists in [&mut sides.proved.lists, &mut sides.everyday.lists] {
        lists.free.resize(TABLE_LENGTH + MORE, 3);
        lists.ledger.resize(LEDGER_LENGTH + MORE, 3);
        lists.shares.resize(64 + MORE, 3);
        lists.numbers.resize(64 + MORE, 3);
    }
    let refused = [2, 1, 1, 1, 1, 1, 1];
    for (table, ledger, expected) in [
        (0, 0, [0, 0, 0, 0, 2, 2, 0]),
        (MORE, 0, refused),
        (0, MORE, refused),
    ] {
        let table = (TABLE_LENGTH + table) as u64;
        let ledger = (LEDGER_LENGTH + ledger) as u64;
        run(&mut sides, &Step::Set(Field::TableLength, table));
        run(&mut sides, &Step::Set(Field::LedgerLength, ledger));
        let numbers = calls_of_long_lists().map(|call| ask(&mut sides, call));
        assert_eq!(numbers, expected, "{table} {ledger}");
    }
}

/// A list that fails by two of its steps, an opening and a later batch.
fn fails(steps: &[Step]) -> bool {
    let is_opening = |step: &Step| matches!(step, Step::Call(Call::Open(_)));
    let is_batch = |step: &Step| matches!(step, Step::Call(Call::Batch(_)));
    let opened = steps.iter().position(is_opening);
    let conferred = steps.iter().rposition(is_batch);
    opened
        .zip(conferred)
        .is_some_and(|(first, last)| first < last)
}

/// Of a long list these two are left, and told as lines of a case.
#[test]
fn a_failing_list_is_cut_down_and_told() {
    let steps = shapes::steps(2);
    let short = shortest(&steps, fails);
    assert!(steps.len() > 60 && short.len() == 2 && fails(&short));
    let run = |steps: &[Step]| match fails(steps) {
        true => Err("it fails".to_string()),
        false => Ok(()),
    };
    let told = panic::catch_unwind(|| expect_all("a list", &steps, run)).expect_err("it fails");
    let told = told.downcast_ref::<String>().expect("a text");
    let (head, lines) = told.split_once("steps:\n").expect("a head");
    assert_eq!(head, "a list: it fails\ncut down to 2 ");
    assert_eq!(calls_in(lines), short);
}

/// The calls that lines of a case say.
fn calls_in(lines: &str) -> Vec<Step> {
    let cases = cases::read(lines).expect("cases").into_iter();
    let step = |(_, case)| match case {
        Case::Call(call, _) => Step::Call(call),
        Case::Write(step) => step,
        _ => panic!("{case:?}"),
    };
    cases.map(step).collect()
}

/// Every step that is drawn can be told and read again.
#[test]
fn drawn_steps_are_told_and_read_again() {
    for seed in 0..40 {
        let steps = shapes::steps(seed);
        let answer = Answer::default();
        let lines: Vec<String> = steps
            .iter()
            .map(|step| cases::line(step, Some(&answer)))
            .collect();
        assert_eq!(calls_in(&lines.join("\n")), steps, "seed {seed}");
    }
}
