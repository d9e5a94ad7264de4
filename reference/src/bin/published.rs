//! Prints what the reference calendar gives, for comparison with the proved one:
//!
//! - `Easter YYYY-MM-DD` for each year;
//! - for each month, `YYYY-MM`, the number of its working days and the day of
//!   the month of its 10th, 11th, 14th and 16th working day;
//! - `thermal`, the year, the numbers of its first and last day, and those of
//!   each of its months, for each thermal year;
//! - `days`, a month, how many of its days there are, are working days, are in
//!   time by the 11th working day of the month, are late by it, are in time for
//!   the month after it, and have a day after them; and the number of the first
//!   of the next month, 0 where there is none.

use std::io::{self, BufWriter, Write};

use reference::calendar::{
    easter, is_working_day, nth_working_day, working_days, Date, ThermalYear, THERMAL_YEARS, YEARS,
};
use reference::request::REQUEST_DEADLINE;

/// The working days whose dates are printed, counted from 1.
const PRINTED_WORKING_DAYS: [usize; 4] = [10, 11, 14, 16];

fn main() -> io::Result<()> {
    let mut out = BufWriter::new(io::stdout().lock());
    write_all_lines(&mut out)?;
    out.flush()
}

fn write_all_lines(out: &mut impl Write) -> io::Result<()> {
    let easters = YEARS.map(easter_line);
    let months = YEARS.flat_map(|year| (1..=12).map(move |month| month_line(year, month)));
    let thermal_years = THERMAL_YEARS.map(thermal_line);
    let days = YEARS.flat_map(|year| (1..=12).map(move |month| days_line(year, month)));
    for line in easters.chain(months).chain(thermal_years).chain(days) {
        let line = line.ok_or_else(|| io::Error::other("a date is missing from the calendar"))?;
        writeln!(out, "{line}")?;
    }
    Ok(())
}

fn easter_line(year: u16) -> Option<String> {
    Some(format!("Easter {}", easter(year)?))
}

fn month_line(year: u16, month: u8) -> Option<String> {
    let days: Vec<Date> = working_days(year, month)?.collect();
    let mut line = format!("{year:04}-{month:02} {}", days.len());
    for n in PRINTED_WORKING_DAYS {
        line += &format!(" {}", days.get(n - 1)?.day());
    }
    Some(line)
}

fn thermal_line(year: u16) -> Option<String> {
    let thermal = ThermalYear::new(year)?;
    let (first, last) = thermal.days().into_inner();
    let mut line = format!("thermal {year} {first} {last}");
    for month in 1..=12 {
        let (first, last) = thermal.month(month)?.into_inner();
        line += &format!(" {first} {last}");
    }
    Some(line)
}

fn days_line(year: u16, month: u8) -> Option<String> {
    let dates: Vec<Date> = (1..=31)
        .filter_map(|day| Date::new(year, month, day))
        .collect();
    let next_first = dates.last()?.first_of_next_month();
    let next_deadline = next_first.and_then(deadline_for);
    let count = |test: &dyn Fn(Date) -> bool| dates.iter().filter(|&&date| test(date)).count();

    let working = count(&is_working_day);
    let in_time = count(&|date| deadline_in(date).is_some_and(|last| date <= last));
    let in_time_for_next = count(&|date| next_deadline.is_some_and(|last| date <= last));
    let followed = count(&|date| Date::from_day_number(date.day_number() + 1).is_some());
    let exist = dates.len();
    let late = exist - in_time;
    let next_first = next_first.map_or(0, Date::day_number);
    Some(format!(
        "days {year:04}-{month:02} {exist} {working} {in_time} {late} {in_time_for_next} {followed} {next_first}"
    ))
}

/// The deadline of annual requests that arrive in the month of a date.
fn deadline_in(date: Date) -> Option<Date> {
    nth_working_day(date.year(), date.month(), REQUEST_DEADLINE)
}

/// The deadline of requests for the month of a thermal year that begins on a
/// date; `None` if none does.
fn deadline_for(first: Date) -> Option<Date> {
    let years = THERMAL_YEARS.filter(|year| year.abs_diff(first.year()) <= 1);
    let years: Vec<ThermalYear> = years.filter_map(ThermalYear::new).collect();
    let months = years
        .iter()
        .flat_map(|year| (1..=12).map(move |month| (year, month)));
    let begins = |(year, month): &(&ThermalYear, u8)| {
        year.month(*month)
            .is_some_and(|span| *span.start() == first.day_number())
    };
    let (year, month) = months.into_iter().find(begins)?;
    Date::from_day_number(year.working_day(month - 1, REQUEST_DEADLINE)?)
}
