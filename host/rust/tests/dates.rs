//! A date lent by a host, moved on by one gas-day.

use ylgrandi::{next_day, Date, Refusal};

fn date((year, month, day): (u16, u8, u8)) -> Date {
    Date { year, month, day }
}

/// Whether a date is one of the calendar, where every fourth year is leap.
fn exists(date: Date) -> bool {
    let days = match date.month {
        4 | 6 | 9 | 11 => 30,
        2 => 28 + u8::from(date.year.is_multiple_of(4)),
        1..=12 => 31,
        _ => 0,
    };
    (2000..=2099).contains(&date.year) && (1..=days).contains(&date.day)
}

/// Every month and day that 8 bits hold, in the years of the calendar and around it. Each date that
/// exists is moved on to the next one that does, but for the last; all else is left.
#[test]
fn every_date_moves_on_to_the_next() {
    let years = (1999..=2100).chain([0, 1, 2104, u16::MAX]);
    let months = years.flat_map(|year| (0..=u8::MAX).map(move |month| (year, month)));
    let lent = months.flat_map(|(year, month)| (0..=u8::MAX).map(move |day| (year, month, day)));
    let (mut next, last) = (date((2000, 1, 1)), date((2099, 12, 31)));
    let mut moves = 0;
    for lent in lent.map(date) {
        let mut moved = lent;
        let answer = next_day(&mut moved);
        if exists(lent) && lent != last {
            assert_eq!((answer, lent), (Ok(()), next));
            next = moved;
            moves += 1;
        } else {
            assert_eq!((answer, moved), (Err(Refusal::OutOfLimits), lent));
        }
    }
    assert_eq!((moves, next), (36_524, last));
}

#[test]
fn ends_of_months_and_years() {
    for ends in [
        [(2023, 2, 28), (2023, 3, 1)],
        [(2024, 2, 28), (2024, 2, 29)],
        [(2024, 2, 29), (2024, 3, 1)],
        [(2000, 2, 28), (2000, 2, 29)],
        [(2023, 9, 30), (2023, 10, 1)],
        [(2023, 12, 31), (2024, 1, 1)],
    ] {
        let [mut moved, next] = ends.map(date);
        assert_eq!((next_day(&mut moved), moved), (Ok(()), next));
    }
}
