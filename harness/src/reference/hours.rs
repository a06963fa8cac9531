//! 01, "Calendar and hours": the period of a quarter-hour, by the window rules.

use super::calendar::{clocks, day_kind, days_in_month, season, Clocks, DayKind, Season};
use std::iter::Chain;
use std::ops::Range;

/// The four periods, dearest first; the paper's numbers are 0 to 3.
#[derive(Clone, Copy, Debug, PartialEq, Eq)]
pub enum Period {
    Critical = 0,
    OnPeak = 1,
    OffPeak = 2,
    Discount = 3,
}

/// What the hours of a day depend on.
#[derive(Clone, Copy, Debug, PartialEq, Eq)]
pub struct Day {
    pub season: Season,
    pub kind: DayKind,
    pub is_critical: bool,
}

impl Day {
    pub fn of(month: u32, day: u32, critical_days: u32) -> Day {
        Day {
            season: season(month),
            kind: day_kind(month, day),
            is_critical: is_critical_day(critical_days, day),
        }
    }

    /// Period of a quarter, 0 to 95, quarter 0 starting at midnight.
    pub fn period(self, quarter: u32) -> Period {
        match scheduled(self.season, self.kind, quarter) {
            // On a critical day the on-peak quarters are critical.
            Period::OnPeak if self.is_critical => Period::Critical,
            period => period,
        }
    }
}

/// Period of a quarter on a day that isn't critical.
pub fn scheduled(season: Season, kind: DayKind, quarter: u32) -> Period {
    let on_peak = match (season, kind) {
        // Winter: 68 to 83, every day.
        (Season::Winter, _) => (68..=83).contains(&quarter),
        // Summer: 52 to 71, Monday to Friday only.
        (Season::Summer, DayKind::Weekday) => (52..=71).contains(&quarter),
        (Season::Summer, DayKind::Weekend) => false,
    };
    // Both seasons: 4 to 23, every day.
    let discount = (4..=23).contains(&quarter);
    if on_peak {
        Period::OnPeak
    } else if discount {
        Period::Discount
    } else {
        Period::OffPeak
    }
}

/// Bit d − 1 set means day d, bit 0 being the lowest.
pub fn is_critical_day(critical_days: u32, day: u32) -> bool {
    (1..=32).contains(&day) && (critical_days >> (day - 1)) & 1 == 1
}

/// The number of days set.
pub fn count_critical_days(critical_days: u32) -> usize {
    (1..=32)
        .filter(|&day| is_critical_day(critical_days, day))
        .count()
}

/// The clock quarters of a day's readings, in their order. Where the clocks change they
/// do so at 02:00, and show 03:00 or 01:00 then (02, No. 1).
pub fn clock_quarters(clocks: Clocks) -> Chain<Range<u32>, Range<u32>> {
    let two = 8;
    let shown = match clocks {
        Clocks::Unchanged => two,
        Clocks::Forward => two + 4,
        Clocks::Back => two - 4,
    };
    (0..two).chain(shown..96)
}

/// The readings of a month before a day.
pub fn first_reading(month: u32, day: u32) -> usize {
    (1..day)
        .map(|day| clock_quarters(clocks(month, day)).count())
        .sum()
}

/// Readings that a register of the month has.
pub fn register_length(month: u32) -> usize {
    first_reading(month, days_in_month(month) + 1)
}

/// The readings of each day of a month's register, each with its period. Readings past
/// the month are left out.
pub fn days_with_period(
    month: u32,
    critical_days: u32,
    register: &[u32],
) -> impl Iterator<Item = Vec<(Period, u32)>> + '_ {
    let mut readings = register.iter().copied();
    (1..=days_in_month(month)).map(move |number| {
        let day = Day::of(month, number, critical_days);
        let quarters = clock_quarters(clocks(month, number));
        let periods = quarters.map(|quarter| day.period(quarter));
        periods.zip(&mut readings).collect()
    })
}

/// Each reading of a month's register with its period.
pub fn readings_with_period(
    month: u32,
    critical_days: u32,
    register: &[u32],
) -> impl Iterator<Item = (Period, u32)> + '_ {
    days_with_period(month, critical_days, register).flatten()
}
