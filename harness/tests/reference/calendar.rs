//! The calendar against dates known from elsewhere.

use harness::reference::calendar::{
    clocks, day_kind, days_in_month, is_leap_year, month_number, month_of_year, season, weekday,
    year, Clocks, DayKind, Season, Weekday,
};

fn month(year: u32, month_of_year: u32) -> u32 {
    12 * (year - 2000) + (month_of_year - 1)
}

#[test]
fn months_are_numbered_from_january_2000() {
    assert_eq!(month_number(2000, 1), Some(0));
    assert_eq!(month_number(2001, 2), Some(13));
    assert_eq!(month_number(2099, 12), Some(1199));
    assert_eq!(month_number(9999, 12), Some(95_999));
    assert_eq!(month_number(1999, 12), None);
    assert_eq!(month_number(2000, 0), None);
    assert_eq!(month_number(2000, 13), None);
    assert_eq!(month_number(u32::MAX, 1), None);
    assert_eq!((year(1199), month_of_year(1199)), (2099, 12));
    assert_eq!((year(0), month_of_year(0)), (2000, 1));
}

#[test]
fn leap_years() {
    assert!(is_leap_year(2000));
    assert!(is_leap_year(2004));
    assert!(is_leap_year(2096));
    assert!(is_leap_year(2400));
    assert!(!is_leap_year(2001));
    assert!(!is_leap_year(2099));
    assert!(!is_leap_year(2100));
    assert!(!is_leap_year(1900));
}

#[test]
fn days_of_the_months() {
    let days_2001 = [31, 28, 31, 30, 31, 30, 31, 31, 30, 31, 30, 31];
    for (index, days) in (1..).zip(days_2001) {
        assert_eq!(days_in_month(month(2001, index)), days);
    }
    assert_eq!(days_in_month(month(2000, 2)), 29);
    assert_eq!(days_in_month(month(2004, 2)), 29);
    assert_eq!(days_in_month(month(2099, 2)), 28);
    assert_eq!(days_in_month(month(2100, 2)), 28);
    assert_eq!(days_in_month(month(2400, 2)), 29);
}

#[test]
fn known_weekdays() {
    assert_eq!(weekday(month(2000, 1), 1), Weekday::Saturday);
    assert_eq!(weekday(month(2000, 2), 29), Weekday::Tuesday);
    assert_eq!(weekday(month(2000, 3), 1), Weekday::Wednesday);
    assert_eq!(weekday(month(2001, 1), 1), Weekday::Monday);
    assert_eq!(weekday(month(2001, 7), 1), Weekday::Sunday);
    assert_eq!(weekday(month(2001, 9), 11), Weekday::Tuesday);
    assert_eq!(weekday(month(2020, 2), 29), Weekday::Saturday);
    assert_eq!(weekday(month(2024, 12), 25), Weekday::Wednesday);
    assert_eq!(weekday(month(2038, 1), 19), Weekday::Tuesday);
    assert_eq!(weekday(month(2099, 12), 31), Weekday::Thursday);
    assert_eq!(weekday(month(2100, 1), 1), Weekday::Friday);
    assert_eq!(weekday(month(2100, 3), 1), Weekday::Monday);
}

#[test]
fn the_century_has_36525_days_in_weekly_turn() {
    let turn = [
        Weekday::Saturday,
        Weekday::Sunday,
        Weekday::Monday,
        Weekday::Tuesday,
        Weekday::Wednesday,
        Weekday::Thursday,
        Weekday::Friday,
    ];
    let mut elapsed = 0;
    let mut weekends = 0;
    for month in 0..=1199 {
        for day in 1..=days_in_month(month) {
            assert_eq!(weekday(month, day), turn[elapsed % 7]);
            let is_weekend = elapsed % 7 < 2;
            assert_eq!(day_kind(month, day) == DayKind::Weekend, is_weekend);
            weekends += usize::from(is_weekend);
            elapsed += 1;
        }
    }
    assert_eq!(elapsed, 36_525);
    // 5,217 whole weeks and six days, Saturday to Thursday.
    assert_eq!(weekends, 2 * 5_217 + 2);
}

#[test]
fn summer_is_july_to_september() {
    for month_of_year in 1..=12 {
        let expected = if [7, 8, 9].contains(&month_of_year) {
            Season::Summer
        } else {
            Season::Winter
        };
        assert_eq!(season(month(2050, month_of_year)), expected);
    }
}

#[test]
fn any_number_has_an_answer() {
    for month in [1200, 95_999, u32::MAX - 1, u32::MAX] {
        assert!((28..=31).contains(&days_in_month(month)));
        for day in [0, 1, 32, u32::MAX] {
            weekday(month, day);
        }
    }
    // The day before 1 January 2000.
    assert_eq!(weekday(0, 0), Weekday::Friday);
}

#[test]
fn the_clocks_change_on_two_sundays() {
    for (year, march, november) in [
        (2007, 11, 4),
        (2008, 9, 2),
        (2009, 8, 1),
        (2010, 14, 7),
        (2011, 13, 6),
        (2012, 11, 4),
        (2013, 10, 3),
        (2026, 8, 1),
        (2099, 8, 1),
    ] {
        for first in (1..=12).map(|of_year| month(year, of_year)) {
            for day in 1..=days_in_month(first) {
                let expected = match (month_of_year(first), day) {
                    (3, day) if day == march => Clocks::Forward,
                    (11, day) if day == november => Clocks::Back,
                    _ => Clocks::Unchanged,
                };
                assert_eq!(clocks(first, day), expected);
            }
        }
    }
    for first in 0..month(2007, 1) {
        assert!((1..=31).all(|day| clocks(first, day) == Clocks::Unchanged));
    }
}
