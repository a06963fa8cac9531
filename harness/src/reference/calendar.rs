//! 01, "Calendar and hours": numbered months and the Gregorian calendar.
//!
//! Every function accepts every number; months past December 2099 go on in the
//! same calendar.

/// December 2099.
pub const LAST_MONTH: u32 = 1199;

/// The year of month 0.
pub const FIRST_YEAR: u32 = 2000;

pub const MONTHS_PER_YEAR: u32 = 12;

/// Month of the year, 1 to 12, for June.
pub const JUNE: u32 = 6;

/// 02, No. 1: the first year in which the clocks change.
const FIRST_CHANGE: u32 = 2007;

/// 02, No. 1: what the clocks do on a day.
#[derive(Clone, Copy, Debug, PartialEq, Eq)]
pub enum Clocks {
    Unchanged,
    /// At 02:00 to 03:00.
    Forward,
    /// At 02:00 back to 01:00.
    Back,
}

#[derive(Clone, Copy, Debug, PartialEq, Eq)]
pub enum Season {
    Winter,
    Summer,
}

#[derive(Clone, Copy, Debug, PartialEq, Eq)]
pub enum Weekday {
    Monday,
    Tuesday,
    Wednesday,
    Thursday,
    Friday,
    Saturday,
    Sunday,
}

/// Monday to Friday, or not.
#[derive(Clone, Copy, Debug, PartialEq, Eq)]
pub enum DayKind {
    Weekday,
    Weekend,
}

/// Number of a month: 12 × (year − 2000) + (month of the year − 1).
/// Nothing for a year before 2000 or a month of the year outside 1 to 12.
pub fn month_number(year: u32, month_of_year: u32) -> Option<u32> {
    if !(1..=MONTHS_PER_YEAR).contains(&month_of_year) {
        return None;
    }
    let years = year.checked_sub(FIRST_YEAR)?;
    years
        .checked_mul(MONTHS_PER_YEAR)?
        .checked_add(month_of_year - 1)
}

pub fn year(month: u32) -> u32 {
    FIRST_YEAR + month / MONTHS_PER_YEAR
}

/// 1 for January to 12 for December.
pub fn month_of_year(month: u32) -> u32 {
    month % MONTHS_PER_YEAR + 1
}

/// Gregorian rule: every fourth year, but of the hundredth years every fourth.
pub fn is_leap_year(year: u32) -> bool {
    year.is_multiple_of(4) && (!year.is_multiple_of(100) || year.is_multiple_of(400))
}

/// 28 to 31.
pub fn days_in_month(month: u32) -> u32 {
    match month_of_year(month) {
        4 | 6 | 9 | 11 => 30,
        2 if is_leap_year(year(month)) => 29,
        2 => 28,
        _ => 31,
    }
}

/// Days from 1 January 2000 to the first of the month.
fn days_before(month: u32) -> u64 {
    let years = u64::from(month / MONTHS_PER_YEAR);
    // Year 2000 is itself a four-hundredth year, so each count rounds up.
    let leap_years = years.div_ceil(4) - years.div_ceil(100) + years.div_ceil(400);
    let january = month - month % MONTHS_PER_YEAR;
    let this_year: u32 = (january..month).map(days_in_month).sum();
    365 * years + leap_years + u64::from(this_year)
}

/// 1 January 2000 is a Saturday. Day 1 is the first of the month.
pub fn weekday(month: u32, day: u32) -> Weekday {
    // One day before 1 January 2000, "day 0", is a Friday.
    match (days_before(month) + u64::from(day)) % 7 {
        0 => Weekday::Friday,
        1 => Weekday::Saturday,
        2 => Weekday::Sunday,
        3 => Weekday::Monday,
        4 => Weekday::Tuesday,
        5 => Weekday::Wednesday,
        _ => Weekday::Thursday,
    }
}

pub fn day_kind(month: u32, day: u32) -> DayKind {
    match weekday(month, day) {
        Weekday::Saturday | Weekday::Sunday => DayKind::Weekend,
        _ => DayKind::Weekday,
    }
}

/// 02, No. 1: from 2007 on, forward on the second Sunday of March and back on the first
/// of November, as one finds them in a calendar.
pub fn clocks(month: u32, day: u32) -> Clocks {
    let mut sundays = (1..=31).filter(|&day| weekday(month, day) == Weekday::Sunday);
    match month_of_year(month) {
        _ if year(month) < FIRST_CHANGE => Clocks::Unchanged,
        3 if sundays.nth(1) == Some(day) => Clocks::Forward,
        11 if sundays.next() == Some(day) => Clocks::Back,
        _ => Clocks::Unchanged,
    }
}

/// Summer is July to September, winter October to June.
pub fn season(month: u32) -> Season {
    match month_of_year(month) {
        7..=9 => Season::Summer,
        _ => Season::Winter,
    }
}
