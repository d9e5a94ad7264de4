//! The calendar against published dates and the cases of document 01.

use std::collections::BTreeSet;

use reference::calendar::*;

/// Published dates of Easter Sunday, 2000 to 2099, one a line.
const PUBLISHED_EASTER: &str = include_str!("../published/easter.txt");

fn date(year: u16, month: u8, day: u8) -> Date {
    Date::new(year, month, day).expect("a date of the calendar")
}

fn all_months() -> impl Iterator<Item = (u16, u8)> {
    YEARS.flat_map(|year| (1..=12).map(move |month| (year, month)))
}

/// All dates of the calendar, found by trying every year, month and day in turn.
fn all_dates() -> impl Iterator<Item = Date> {
    all_months()
        .flat_map(|(year, month)| (1..=31).filter_map(move |day| Date::new(year, month, day)))
}

#[test]
fn easter_is_as_published() {
    let published: Vec<&str> = PUBLISHED_EASTER.lines().collect();
    assert_eq!(published.len(), 100);
    let differing: Vec<String> = YEARS
        .zip(published)
        .map(|(year, line)| (easter(year).unwrap().to_string(), line))
        .filter(|(computed, line)| computed != line)
        .map(|(computed, line)| format!("published {line}, computed {computed}"))
        .collect();
    assert!(differing.is_empty(), "{differing:#?}");
}

#[test]
fn easter_of_the_proved_cases() {
    assert_eq!(easter(2024), Some(date(2024, 3, 31)));
    assert_eq!(easter(2049), Some(date(2049, 4, 18)));
    assert_eq!(easter(2076), Some(date(2076, 4, 19)));
}

#[test]
fn easter_is_a_sunday_from_22_march_to_25_april() {
    for sunday in YEARS.map(|year| easter(year).unwrap()) {
        assert_eq!(sunday.weekday(), Weekday::Sunday, "{sunday}");
        assert!(sunday >= date(sunday.year(), 3, 22), "{sunday}");
        assert!(sunday <= date(sunday.year(), 4, 25), "{sunday}");
    }
}

#[test]
fn known_weekdays() {
    assert_eq!(date(2000, 1, 1).weekday(), Weekday::Saturday);
    assert_eq!(date(2000, 2, 29).weekday(), Weekday::Tuesday);
    assert_eq!(date(2001, 9, 11).weekday(), Weekday::Tuesday);
    assert_eq!(date(2023, 10, 1).weekday(), Weekday::Sunday);
    assert_eq!(date(2024, 2, 29).weekday(), Weekday::Thursday);
    assert_eq!(date(2099, 12, 31).weekday(), Weekday::Thursday);
}

#[test]
fn weekdays_follow_each_other() {
    use Weekday::*;
    let week = [
        Saturday, Sunday, Monday, Tuesday, Wednesday, Thursday, Friday,
    ];
    for (date, weekday) in all_dates().zip(week.into_iter().cycle()) {
        assert_eq!(date.weekday(), weekday, "{date}");
    }
}

#[test]
fn day_numbers_count_the_dates_and_lead_back() {
    let dates: Vec<Date> = all_dates().collect();
    assert_eq!(dates.len(), 36_525);
    for (number, &date) in (0..).zip(&dates) {
        assert_eq!(date.day_number(), number, "{date}");
        assert_eq!(Date::from_day_number(number), Some(date));
    }
    assert!(dates.windows(2).all(|pair| pair[0] < pair[1]));
}

#[test]
fn known_day_numbers() {
    assert_eq!(date(2000, 1, 1).day_number(), 0);
    assert_eq!(date(2023, 10, 1).day_number(), 8_674);
    assert_eq!(date(2099, 12, 31).day_number(), LAST_DAY);
}

#[test]
fn every_fourth_year_is_leap() {
    for year in YEARS {
        assert_eq!(is_leap_year(year), (year - 2000) % 4 == 0, "{year}");
        assert_eq!(Date::new(year, 2, 29).is_some(), is_leap_year(year));
    }
    assert!(!is_leap_year(1900));
    assert!(!is_leap_year(2100));
    assert!(is_leap_year(2400));
}

#[test]
fn months_have_their_usual_lengths() {
    let lengths = [31, 28, 31, 30, 31, 30, 31, 31, 30, 31, 30, 31];
    for (month, length) in (1..).zip(lengths) {
        assert!(Date::new(2023, month, length).is_some(), "month {month}");
        assert!(Date::new(2023, month, length + 1).is_none());
    }
}

#[test]
fn dates_are_shown_and_ordered() {
    assert_eq!(date(2007, 4, 8).to_string(), "2007-04-08");
    assert!(date(2007, 12, 31) < date(2008, 1, 1));
    assert!(date(2007, 4, 30) < date(2007, 5, 1));
}

#[test]
fn holidays_are_no_working_days() {
    // Each of these falls on Monday to Friday.
    let holidays = [
        date(2024, 1, 1),
        date(2023, 1, 6),
        date(2024, 4, 1), // Easter Monday
        date(2024, 4, 25),
        date(2024, 5, 1),
        date(2023, 6, 2),
        date(2024, 8, 15),
        date(2024, 11, 1),
        date(2023, 12, 8),
        date(2023, 12, 25),
        date(2023, 12, 26),
    ];
    for holiday in holidays {
        assert!(!is_working_day(holiday), "{holiday}");
    }
}

/// Dates of the year that are a working day in no year.
#[test]
fn no_other_date_is_a_fixed_holiday() {
    let date_of_year = |date: Date| (date.month(), date.day());
    let working = all_dates().filter(|&date| is_working_day(date));
    let working: BTreeSet<(u8, u8)> = working.map(date_of_year).collect();
    let never: BTreeSet<(u8, u8)> = all_dates()
        .map(date_of_year)
        .filter(|date| !working.contains(date))
        .collect();
    let winter = [(1, 1), (1, 6), (11, 1), (12, 8), (12, 25), (12, 26)];
    let summer = [(4, 25), (5, 1), (6, 2), (8, 15)];
    assert!(never
        .into_iter()
        .eq(BTreeSet::from_iter(winter.into_iter().chain(summer))));
}

#[test]
fn other_days_from_monday_to_friday_are_working_days() {
    // Good Friday, the Tuesday after Easter and 31 December are no holidays.
    assert!(is_working_day(date(2024, 3, 29)));
    assert!(is_working_day(date(2024, 4, 2)));
    assert!(is_working_day(date(2024, 12, 31)));
    assert!(!is_working_day(date(2024, 3, 30)));
    assert!(!is_working_day(date(2024, 3, 31)));
}

#[test]
fn working_days_of_the_proved_cases() {
    assert_eq!(nth_working_day(2023, 10, 11), Some(date(2023, 10, 16)));
    assert_eq!(nth_working_day(2024, 4, 11), Some(date(2024, 4, 16)));
    assert_eq!(working_days(2023, 12).unwrap().count(), 18);
    assert_eq!(nth_working_day(2023, 12, 16), Some(date(2023, 12, 27)));
}

#[test]
fn working_days_of_december_2023_one_by_one() {
    let days: Vec<u8> = working_days(2023, 12).unwrap().map(Date::day).collect();
    let expected = [
        1, 4, 5, 6, 7, 11, 12, 13, 14, 15, 18, 19, 20, 21, 22, 27, 28, 29,
    ];
    assert_eq!(days, expected);
}

#[test]
fn every_month_has_at_least_18_working_days() {
    for (year, month) in all_months() {
        let days: Vec<Date> = working_days(year, month).unwrap().collect();
        assert!((18..=23).contains(&days.len()), "{year}-{month}: {days:?}");
        let asked = all_dates().filter(|date| (date.year(), date.month()) == (year, month));
        assert!(asked.filter(|&date| is_working_day(date)).eq(days));
    }
}

#[test]
fn nth_working_day_counts_from_one_and_ends_with_the_month() {
    assert_eq!(nth_working_day(2023, 12, 0), None);
    assert_eq!(nth_working_day(2023, 12, 1), Some(date(2023, 12, 1)));
    assert_eq!(nth_working_day(2023, 12, 18), Some(date(2023, 12, 29)));
    assert_eq!(nth_working_day(2023, 12, 19), None);
}

#[test]
fn first_of_next_month_follows_the_months_last_day() {
    for today in all_dates() {
        let next = today.first_of_next_month();
        match Date::from_day_number(today.day_number() + 1) {
            Some(tomorrow) if tomorrow.month() == today.month() => {
                assert_eq!(next, tomorrow.first_of_next_month(), "{today}");
            }
            tomorrow => assert_eq!(next, tomorrow, "{today}"),
        }
    }
}

fn thermal(year: u16) -> ThermalYear {
    ThermalYear::new(year).expect("a thermal year")
}

#[test]
fn thermal_years_follow_each_other() {
    assert_eq!(thermal(2000).days(), 274..=638);
    assert_eq!(thermal(2023).days(), 8_674..=9_039);
    for year in THERMAL_YEARS {
        let days = thermal(year).days();
        let length = if is_leap_year(year + 1) { 366 } else { 365 };
        assert_eq!(thermal(year).day_count(), length, "{year}");
        assert_eq!(days.clone().count(), length, "{year}");
        if let Some(next) = ThermalYear::new(year + 1) {
            assert_eq!(*next.days().start(), days.end() + 1, "{year}");
        }
    }
}

#[test]
fn months_fill_the_thermal_year() {
    for year in THERMAL_YEARS.map(thermal) {
        let months: Vec<Span> = (1..=12).map(|month| year.month(month).unwrap()).collect();
        let firsts: Vec<u32> = months.iter().map(|month| *month.start()).collect();
        assert_eq!(firsts, year.month_firsts());
        assert!(months
            .iter()
            .all(|month| (28..=31).contains(&month.clone().count())));
        assert!(months.into_iter().flatten().eq(year.days()));
    }
}

#[test]
fn months_begin_with_october() {
    let first_day = |month| Date::from_day_number(*thermal(2023).month(month).unwrap().start());
    assert_eq!(first_day(1), Some(date(2023, 10, 1)));
    assert_eq!(first_day(3), Some(date(2023, 12, 1)));
    assert_eq!(first_day(4), Some(date(2024, 1, 1)));
    assert_eq!(first_day(12), Some(date(2024, 9, 1)));
}

/// Each gas-day around a year: whether a call may arrive, in which month, and what is
/// left of the year then.
#[test]
fn arrivals_lie_from_the_september_before_the_year_to_its_end() {
    for year in THERMAL_YEARS {
        let last = *thermal(year).days().end();
        let first = date(year, 9, 1).day_number();
        assert_eq!(thermal(year).arrivals(), first..=last);
        for day in first - 31..=last + 31 {
            let date = Date::from_day_number(day).unwrap();
            let month = (first..=last).contains(&day).then(|| match date.month() {
                9 if date.year() == year => 0,
                month => (month + 2) % 12 + 1,
            });
            assert_eq!(thermal(year).arrival_month(day), month, "{date}");
            let next = date.first_of_next_month().map_or(0, Date::day_number);
            let rest = (month.is_some() && next <= last).then_some(next..=last);
            assert_eq!(thermal(year).rest_after(day), rest, "{date}");
        }
    }
}

#[test]
fn deadlines_are_working_days_of_their_month() {
    let on = |year, month, day| Some(date(year, month, day).day_number());
    assert_eq!(thermal(2023).working_day(0, 11), on(2023, 9, 15));
    assert_eq!(thermal(2023).working_day(1, 11), on(2023, 10, 16));
    assert_eq!(thermal(2023).working_day(3, 16), on(2023, 12, 27));
    assert_eq!(thermal(2023).working_day(7, 11), on(2024, 4, 16));
    assert_eq!(thermal(2023).working_day(12, 11), on(2024, 9, 16));
    for month in [13, 14, u8::MAX] {
        assert_eq!(thermal(2023).working_day(month, 11), None);
    }
}

#[test]
fn outside_dates_are_none() {
    assert_eq!(Date::new(1999, 12, 31), None);
    assert_eq!(Date::new(2100, 1, 1), None);
    assert_eq!(Date::new(0, 1, 1), None);
    assert_eq!(Date::new(u16::MAX, 12, 31), None);
    assert_eq!(Date::new(2023, 0, 1), None);
    assert_eq!(Date::new(2023, 13, 1), None);
    assert_eq!(Date::new(2023, 1, 0), None);
    assert_eq!(Date::new(2023, 2, 29), None);
    assert_eq!(Date::new(2023, 4, 31), None);
    assert_eq!(Date::new(2023, 12, u8::MAX), None);
    assert_eq!(Date::from_day_number(LAST_DAY + 1), None);
    assert_eq!(Date::from_day_number(u32::MAX), None);
    assert_eq!(date(2099, 12, 1).first_of_next_month(), None);
}

#[test]
fn outside_years_and_months_are_none() {
    for year in [0, 1999, 2100, u16::MAX] {
        assert_eq!(easter(year), None);
        assert!(working_days(year, 1).is_none());
        assert_eq!(nth_working_day(year, 1, 1), None);
    }
    for month in [0, 13, u8::MAX] {
        assert!(working_days(2023, month).is_none());
        assert_eq!(nth_working_day(2023, month, 1), None);
        assert_eq!(thermal(2023).month(month), None);
    }
    for year in [0, 1999, 2099, u16::MAX] {
        assert_eq!(ThermalYear::new(year), None);
    }
}
