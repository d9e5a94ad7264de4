//! The calendar: gas-days, working days and thermal years.
//!
//! The rules are those of document 01, section "Gas-days and working days".
//! How they are computed is chosen to differ from that paper's own formulas where
//! it gives any, so that agreement between two implementations means something.

use std::array;
use std::fmt;
use std::ops::RangeInclusive;

/// Gas-days, from the first to the last.
pub type Span = RangeInclusive<u32>;

/// The years of the calendar. Document 01: it begins with 1 January 2000 and
/// ends with 31 December 2099.
pub const YEARS: RangeInclusive<u16> = 2000..=2099;

/// The thermal years that lie wholly in the calendar. Document 01: 2000 to 2098.
pub const THERMAL_YEARS: RangeInclusive<u16> = 2000..=2098;

/// The number of the last day, 31 December 2099. Document 01: 36,524.
pub const LAST_DAY: u32 = 36_524;

/// Days from 1 March of the year 0 to 1 January 2000, which is day 0.
const DAYS_BEFORE_DAY_0: u32 = 730_425;

/// Days in an era, the 400 years after which the Gregorian calendar repeats.
const DAYS_PER_ERA: u32 = 146_097;

/// A day of the week.
#[derive(Debug, Clone, Copy, PartialEq, Eq)]
pub enum Weekday {
    Monday,
    Tuesday,
    Wednesday,
    Thursday,
    Friday,
    Saturday,
    Sunday,
}

/// A date that exists and lies in the calendar. Dates are ordered by time and
/// shown as `YYYY-MM-DD`.
#[derive(Debug, Clone, Copy, PartialEq, Eq, PartialOrd, Ord)]
pub struct Date {
    year: u16,
    month: u8,
    day: u8,
}

impl Date {
    /// The date with this year, month (1 is January) and day of the month;
    /// `None` if it does not exist or lies outside the calendar.
    pub fn new(year: u16, month: u8, day: u8) -> Option<Date> {
        let exists = (1..=days_in_month(year, month)?).contains(&day);
        (exists && YEARS.contains(&year)).then_some(Date { year, month, day })
    }

    /// The year, 2000 to 2099.
    pub fn year(self) -> u16 {
        self.year
    }

    /// The month of the calendar year, 1 for January to 12 for December.
    pub fn month(self) -> u8 {
        self.month
    }

    /// The day of the month, from 1.
    pub fn day(self) -> u8 {
        self.day
    }

    /// The number of this gas-day. Document 01: day 0 is 1 January 2000.
    ///
    /// Days are counted by the "days from civil" method: years are taken to
    /// begin on 1 March, so that a leap day is the last day of its year, and are
    /// counted within eras of 400 years.
    pub fn day_number(self) -> u32 {
        let month = u32::from(self.month);
        let year = u32::from(self.year) - u32::from(month <= 2);
        let (era, year_of_era) = (year / 400, year % 400);
        let months_since_march = (month + 9) % 12;
        let day_of_year = (153 * months_since_march + 2) / 5 + u32::from(self.day) - 1;
        let day_of_era = 365 * year_of_era + year_of_era / 4 - year_of_era / 100 + day_of_year;
        DAYS_PER_ERA * era + day_of_era - DAYS_BEFORE_DAY_0
    }

    /// The date of the gas-day with this number; `None` above [`LAST_DAY`].
    ///
    /// The inverse of [`Date::day_number`], by the "civil from days" method.
    pub fn from_day_number(number: u32) -> Option<Date> {
        if number > LAST_DAY {
            return None;
        }
        let days = number + DAYS_BEFORE_DAY_0;
        let (era, day_of_era) = (days / DAYS_PER_ERA, days % DAYS_PER_ERA);
        let leap_days = day_of_era / 1_460 - day_of_era / 36_524 + day_of_era / 146_096;
        let year_of_era = (day_of_era - leap_days) / 365;
        let days_before_year = 365 * year_of_era + year_of_era / 4 - year_of_era / 100;
        let day_of_year = day_of_era - days_before_year;
        let months_since_march = (5 * day_of_year + 2) / 153;
        let day = day_of_year - (153 * months_since_march + 2) / 5 + 1;
        let month = (months_since_march + 2) % 12 + 1;
        let year = 400 * era + year_of_era + u32::from(month <= 2);
        Date::from_wide(year, month, day)
    }

    /// The day of the week, by Sakamoto's method: from year, month and day of
    /// the month, without the day number.
    pub fn weekday(self) -> Weekday {
        use Weekday::*;
        const MONTH_SHIFTS: [u16; 12] = [0, 3, 2, 5, 0, 3, 5, 1, 4, 6, 2, 4];
        const FROM_SUNDAY: [Weekday; 7] = [
            Sunday, Monday, Tuesday, Wednesday, Thursday, Friday, Saturday,
        ];
        let year = self.year - u16::from(self.month < 3);
        let shift = MONTH_SHIFTS[usize::from(self.month) - 1];
        let days = year + year / 4 - year / 100 + year / 400 + shift + u16::from(self.day);
        FROM_SUNDAY[usize::from(days % 7)]
    }

    /// The first day of the month after this date's month; `None` for a date in
    /// December 2099. Document 01: the calendar ends with that month.
    pub fn first_of_next_month(self) -> Option<Date> {
        match self.month {
            12 => Date::new(self.year + 1, 1, 1),
            month => Date::new(self.year, month + 1, 1),
        }
    }

    /// [`Date::new`] for the wider numbers that calculations yield.
    fn from_wide(year: u32, month: u32, day: u32) -> Option<Date> {
        let year = u16::try_from(year).ok()?;
        let month = u8::try_from(month).ok()?;
        let day = u8::try_from(day).ok()?;
        Date::new(year, month, day)
    }
}

impl fmt::Display for Date {
    fn fmt(&self, f: &mut fmt::Formatter<'_>) -> fmt::Result {
        write!(f, "{:04}-{:02}-{:02}", self.year, self.month, self.day)
    }
}

/// Whether a year is leap, by the full Gregorian rule. Document 01: every fourth
/// year from 2000 is leap, which is the same in 2000 to 2099.
pub fn is_leap_year(year: u16) -> bool {
    year.is_multiple_of(4) && (!year.is_multiple_of(100) || year.is_multiple_of(400))
}

/// The length of a month (1 is January); `None` if there is no such month.
fn days_in_month(year: u16, month: u8) -> Option<u8> {
    match month {
        1 | 3 | 5 | 7 | 8 | 10 | 12 => Some(31),
        4 | 6 | 9 | 11 => Some(30),
        2 if is_leap_year(year) => Some(29),
        2 => Some(28),
        _ => None,
    }
}

/// Easter Sunday of a year; `None` outside the calendar.
///
/// Document 01 gives Gauss's rule. This is the anonymous Gregorian computus
/// (Meeus/Jones/Butcher) instead, which holds for every Gregorian year without
/// exceptions; the letters are those it is customarily printed with.
pub fn easter(year: u16) -> Option<Date> {
    if !YEARS.contains(&year) {
        return None;
    }
    let y = u32::from(year);
    let a = y % 19;
    let (b, c) = (y / 100, y % 100);
    let (d, e) = (b / 4, b % 4);
    let f = (b + 8) / 25;
    let g = (b - f + 1) / 3;
    let h = (19 * a + b - d - g + 15) % 30;
    let (i, k) = (c / 4, c % 4);
    let l = (32 + 2 * e + 2 * i - h - k) % 7;
    let m = (a + 11 * h + 22 * l) / 451;
    let n = h + l + 114 - 7 * m;
    Date::from_wide(y, n / 31, n % 31 + 1)
}

/// Easter Monday, the day after Easter Sunday.
fn easter_monday(year: u16) -> Option<Date> {
    Date::from_day_number(easter(year)?.day_number() + 1)
}

/// Whether a date is a holiday on a fixed date. Document 01: 1 and 6 January,
/// 25 April, 1 May, 2 June, 15 August, 1 November, 8, 25 and 26 December.
fn is_fixed_holiday(date: Date) -> bool {
    matches!(
        (date.month, date.day),
        (1, 1 | 6) | (4, 25) | (5, 1) | (6, 2) | (8, 15) | (11, 1) | (12, 8 | 25 | 26)
    )
}

/// Whether a date is a working day. Document 01: Monday to Friday and no
/// holiday.
pub fn is_working_day(date: Date) -> bool {
    let is_weekend = matches!(date.weekday(), Weekday::Saturday | Weekday::Sunday);
    !is_weekend && !is_fixed_holiday(date) && easter_monday(date.year) != Some(date)
}

/// The working days of a month of the calendar year, in order; `None` if the
/// month does not exist or lies outside the calendar. The weekday of the first
/// and Easter are found once, and the days counted on from there.
pub fn working_days(year: u16, month: u8) -> Option<impl Iterator<Item = Date>> {
    let first = Date::new(year, month, 1)?;
    let from_monday = first.weekday() as u8;
    let holiday = easter_monday(year)?;
    let days = (0..days_in_month(year, month)?).filter(move |day| (from_monday + day) % 7 < 5);
    let dates = days.map(move |day| Date {
        year,
        month,
        day: day + 1,
    });
    Some(dates.filter(move |&date| !is_fixed_holiday(date) && date != holiday))
}

/// The `n`-th working day of a month, counted from 1; `None` if there is no such
/// day or month.
pub fn nth_working_day(year: u16, month: u8, n: usize) -> Option<Date> {
    working_days(year, month)?.nth(n.checked_sub(1)?)
}

/// How many months a thermal year has.
const MONTHS: usize = 12;

/// A thermal year. Document 01: thermal year Y runs from 1 October Y to 30
/// September Y+1; month 1 of it is October, month 12 September. What arrives
/// before the year does so in the September before it, which is month 0 here.
#[derive(Debug, Clone, Copy, PartialEq, Eq)]
pub struct ThermalYear {
    year: u16,
    /// 1 September before it.
    september: u32,
    month_firsts: [u32; MONTHS],
    /// The day after its last.
    end: u32,
}

impl ThermalYear {
    /// The thermal year that begins in October of a year; `None` outside
    /// [`THERMAL_YEARS`]. Its months are found by a walk from September on.
    pub fn new(year: u16) -> Option<ThermalYear> {
        if !THERMAL_YEARS.contains(&year) {
            return None;
        }
        let september = Date::new(year, 9, 1)?.day_number();
        let after = |first: u32, month: u8| {
            let (year, month) = calendar_month(year, month);
            first + u32::from(days_in_month(year, month).unwrap_or(0))
        };
        let mut end = after(september, 0);
        let month_firsts = array::from_fn(|place| {
            let first = end;
            end = after(first, place as u8 + 1);
            first
        });
        Some(ThermalYear {
            year,
            september,
            month_firsts,
            end,
        })
    }

    /// 1 October to 30 September.
    pub fn days(&self) -> Span {
        self.month_firsts[0]..=self.end - 1
    }

    /// How many days it has, 365 or 366.
    pub fn day_count(&self) -> usize {
        (self.end - self.month_firsts[0]) as usize
    }

    /// The days of a month, 1 to 12.
    pub fn month(&self, month: u8) -> Option<Span> {
        let place = usize::from(month).checked_sub(1)?;
        let first = self.month_firsts.get(place)?;
        let next = self.month_firsts.get(place + 1).unwrap_or(&self.end);
        Some(*first..=next - 1)
    }

    /// The first days of its months, October's first.
    pub fn month_firsts(&self) -> &[u32; MONTHS] {
        &self.month_firsts
    }

    /// The days on which a call may arrive. Document 01, question 8: from 1
    /// September Y to 30 September Y+1.
    pub fn arrivals(&self) -> Span {
        self.september..=self.end - 1
    }

    /// The month in which a call arrives, if it may.
    pub fn arrival_month(&self, day: u32) -> Option<u8> {
        let begun = self.month_firsts.partition_point(|&first| first <= day);
        self.arrivals().contains(&day).then_some(begun as u8)
    }

    /// From the first of the month after arrival to the year's end; `None` where
    /// nothing may arrive or no day is left.
    pub fn rest_after(&self, arrival: u32) -> Option<Span> {
        let month = self.arrival_month(arrival)?;
        let next = self.month_firsts.get(usize::from(month))?;
        Some(*next..=self.end - 1)
    }

    /// The `n`-th working day of a month, 0 to 12. Document 01, question 9: the
    /// deadlines are such days, and the day itself is in time.
    pub fn working_day(&self, month: u8, n: usize) -> Option<u32> {
        if usize::from(month) > MONTHS {
            return None;
        }
        let (year, month) = calendar_month(self.year, month);
        nth_working_day(year, month, n).map(Date::day_number)
    }
}

/// Year and month of the calendar of a month of a thermal year, 0 to 12.
fn calendar_month(year: u16, month: u8) -> (u16, u8) {
    match month {
        0..=3 => (year, month + 9),
        _ => (year + 1, month - 3),
    }
}
