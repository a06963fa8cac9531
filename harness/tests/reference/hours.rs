//! The windows at their edges.

use crate::helpers::{FEBRUARY_2001, JULY_2001, MARCH_2007, NOVEMBER_2007};
use harness::reference::calendar::{Clocks, DayKind, Season};
use harness::reference::hours::{
    clock_quarters, count_critical_days, days_with_period, is_critical_day, readings_with_period,
    register_length, scheduled, Day, Period,
};

fn count(season: Season, kind: DayKind, period: Period) -> usize {
    (0..96)
        .filter(|&quarter| scheduled(season, kind, quarter) == period)
        .count()
}

#[test]
fn winter_windows() {
    for kind in [DayKind::Weekday, DayKind::Weekend] {
        let at = |quarter| scheduled(Season::Winter, kind, quarter);
        assert_eq!([at(0), at(3)], [Period::OffPeak; 2]);
        assert_eq!([at(4), at(23)], [Period::Discount; 2]);
        assert_eq!([at(24), at(67)], [Period::OffPeak; 2]);
        assert_eq!([at(68), at(83)], [Period::OnPeak; 2]);
        assert_eq!([at(84), at(95)], [Period::OffPeak; 2]);
        assert_eq!(count(Season::Winter, kind, Period::OnPeak), 16);
        assert_eq!(count(Season::Winter, kind, Period::Discount), 20);
        assert_eq!(count(Season::Winter, kind, Period::OffPeak), 60);
        assert_eq!(count(Season::Winter, kind, Period::Critical), 0);
    }
}

#[test]
fn summer_windows() {
    let weekday = |quarter| scheduled(Season::Summer, DayKind::Weekday, quarter);
    assert_eq!([weekday(3), weekday(24), weekday(51)], [Period::OffPeak; 3]);
    assert_eq!([weekday(4), weekday(23)], [Period::Discount; 2]);
    assert_eq!([weekday(52), weekday(71)], [Period::OnPeak; 2]);
    assert_eq!([weekday(72), weekday(95)], [Period::OffPeak; 2]);
    assert_eq!(count(Season::Summer, DayKind::Weekday, Period::OnPeak), 20);

    let weekend = |quarter| scheduled(Season::Summer, DayKind::Weekend, quarter);
    assert_eq!([weekend(4), weekend(23)], [Period::Discount; 2]);
    assert_eq!([weekend(52), weekend(71)], [Period::OffPeak; 2]);
    assert_eq!(count(Season::Summer, DayKind::Weekend, Period::OnPeak), 0);
    assert_eq!(count(Season::Summer, DayKind::Weekend, Period::OffPeak), 76);
}

#[test]
fn critical_days_change_on_peak_quarters_alone() {
    // Day 10, a Saturday in February 2001: bit 9.
    let critical = Day::of(FEBRUARY_2001, 10, 1 << 9);
    assert_eq!(critical.period(67), Period::OffPeak);
    assert_eq!(critical.period(68), Period::Critical);
    assert_eq!(critical.period(83), Period::Critical);
    assert_eq!(critical.period(4), Period::Discount);
    let day_after = Day::of(FEBRUARY_2001, 11, 1 << 9);
    assert_eq!(day_after.period(68), Period::OnPeak);
}

#[test]
fn bits_name_days_from_the_lowest() {
    assert!(is_critical_day(1, 1));
    assert!(!is_critical_day(1, 2));
    assert!(is_critical_day(1 << 31, 32));
    for day in [0, 33, u32::MAX] {
        assert!(!is_critical_day(u32::MAX, day));
    }
    assert_eq!(count_critical_days(0), 0);
    assert_eq!(count_critical_days(0b1011), 3);
    assert_eq!(count_critical_days(u32::MAX), 32);
}

#[test]
fn readings_meet_their_periods() {
    // July 2001: day 2 is a Monday, day 7 a Saturday.
    let register: Vec<u32> = (0..2_976).collect();
    let with_period: Vec<_> = readings_with_period(JULY_2001, 1 << 2, &register).collect();
    assert_eq!(with_period.len(), 2_976);
    assert_eq!(with_period[96 + 52], (Period::OnPeak, 96 + 52));
    assert_eq!(with_period[192 + 52], (Period::Critical, 192 + 52));
    assert_eq!(with_period[576 + 52], (Period::OffPeak, 576 + 52));
    assert_eq!(with_period[2_975], (Period::OffPeak, 2_975));
    // Registers of any length are accepted.
    assert_eq!(readings_with_period(JULY_2001, 0, &[]).count(), 0);
    assert_eq!(
        readings_with_period(JULY_2001, 0, &[1; 3_000]).count(),
        2_976
    );
    assert_eq!(register_length(FEBRUARY_2001), 2_688);
    assert_eq!(register_length(JULY_2001), 2_976);
}

#[test]
fn readings_of_each_day() {
    // 92 readings on 11 March 2007 and 100 on 4 November.
    for (month, length, changed, readings) in
        [(MARCH_2007, 2_972, 10, 92), (NOVEMBER_2007, 2_884, 3, 100)]
    {
        let register: Vec<u32> = (0..length).collect();
        let days: Vec<_> = days_with_period(month, 0, &register).collect();
        for (index, day) in days.iter().enumerate() {
            assert_eq!(day.len(), if index == changed { readings } else { 96 });
        }
        // None is left out or stands in two days.
        let all: Vec<u32> = days.concat().iter().map(|&(_, wh)| wh).collect();
        assert_eq!(all, register);
    }
}

#[test]
fn quarters_of_days_on_which_the_clocks_change() {
    // Hour by hour: all of them, all but 02:00, and 01:00 twice.
    let hours: Vec<u32> = (0..24).collect();
    let short = [&hours[..2], &hours[3..]].concat();
    let long = [&hours[..2], &hours[1..]].concat();
    for (clocks, hours) in [
        (Clocks::Unchanged, hours),
        (Clocks::Forward, short),
        (Clocks::Back, long),
    ] {
        let quarters = hours.iter().flat_map(|hour| 4 * hour..4 * hour + 4);
        assert!(clock_quarters(clocks).eq(quarters));
    }
}

#[test]
fn readings_take_their_periods_from_the_clock() {
    // On 11 March 2007 on-peak begins at place 64, on the days beside it at 68.
    let march: Vec<_> = readings_with_period(MARCH_2007, 0, &[1; 2_972]).collect();
    let on_peak = |place: usize| march[place].0 == Period::OnPeak;
    for (first, begins) in [(960 - 96, 68), (960, 64), (960 + 92, 68)] {
        assert!(!on_peak(first + begins - 1) && on_peak(first + begins));
        assert!(on_peak(first + begins + 15) && !on_peak(first + begins + 16));
    }
    // Discount hours: 16 quarters on the short day, 24 on the long one, 4 November.
    let discount = |month, length, first: usize, count| {
        readings_with_period(month, 0, &vec![1; length])
            .skip(first)
            .take(count)
            .filter(|&(period, _)| period == Period::Discount)
            .count()
    };
    assert_eq!(discount(MARCH_2007, 2_972, 960, 92), 16);
    assert_eq!(discount(NOVEMBER_2007, 2_884, 288, 100), 24);
}
