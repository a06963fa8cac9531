//! 02, No. 6: demand by the half-hour, worked by hand. Its price is a cent for each Wh of a
//! pair, so that the line is the largest sum.

use crate::helpers::{
    account_with_demand, bill, Registers, FEBRUARY_2001, JULY_2001, MARCH_2007, NOVEMBER_2007,
};
use harness::reference::hours::{first_reading, register_length, Period};
use harness::reference::steps::pair_counts;
use std::ops::Range;

fn demand(month: u32, registers: &Registers, critical_days: u32) -> u64 {
    bill(account_with_demand(month), registers, critical_days)
        .0
        .demand
}

fn february(registers: Registers) -> u64 {
    demand(FEBRUARY_2001, &registers, 0)
}

/// February 2001 with two readings in quarters 70 and 71 of day 9.
fn pair(first: u32, second: u32) -> Registers {
    Registers::zeros(28)
        .deliver(9, 70, first)
        .deliver(9, 71, second)
}

/// Days by month and number, and the places in each that are critical or on-peak.
const DAYS: [(u32, u32, Range<usize>); 8] = [
    // A Thursday and a Sunday in winter.
    (FEBRUARY_2001, 1, 68..84),
    (FEBRUARY_2001, 4, 68..84),
    // A Monday and a Sunday in summer, the Sunday without on-peak quarters.
    (JULY_2001, 2, 52..72),
    (JULY_2001, 1, 0..0),
    // The days of 23 and of 25 hours, whose clocks show quarter 68 there, and those after.
    (MARCH_2007, 11, 64..80),
    (MARCH_2007, 12, 68..84),
    (NOVEMBER_2007, 4, 72..88),
    (NOVEMBER_2007, 5, 68..84),
];

/// The line of a month that has readings in a row from a place of a day on, where the day is
/// a usual one and, the same, where it is critical.
fn demand_from((month, day): (u32, u32), place: usize, readings: &[u32]) -> u64 {
    let mut registers = Registers::of_length(register_length(month));
    registers.delivered[first_reading(month, day) + place..][..readings.len()]
        .copy_from_slice(readings);
    let usual = demand(month, &registers, 0);
    assert_eq!(demand(month, &registers, 1 << (day - 1)), usual);
    usual
}

#[test]
fn either_quarter_is_enough() {
    let dear = [Period::Critical, Period::OnPeak];
    let cheap = [Period::OffPeak, Period::Discount];
    for one in dear {
        for other in [dear, cheap].concat() {
            assert!(pair_counts([one, other]) && pair_counts([other, one]));
        }
    }
    for one in cheap {
        assert!(cheap.into_iter().all(|other| !pair_counts([one, other])));
    }
}

#[test]
fn a_pair_has_the_sum_of_its_quarters() {
    assert_eq!(february(pair(700, 0)), 700);
    assert_eq!(february(pair(0, 700)), 700);
    assert_eq!(february(pair(400, 700)), 1_100);
    // Quarters 71 and 72 belong to two pairs.
    assert_eq!(february(pair(0, 500).deliver(9, 72, 600)), 600);
}

#[test]
fn the_largest_sum_counts_and_not_the_largest_reading() {
    let even = Registers::zeros(28).deliver(2, 74, 500).deliver(2, 75, 501);
    let single = even.clone().deliver(3, 80, 1_000);
    assert_eq!(february(single), 1_001);
    let larger = even.deliver(28, 83, 1_002);
    assert_eq!(february(larger.clone()), 1_002);
    // The same where the one or the other day is critical.
    for critical_days in [1 << 1, 1 << 27] {
        assert_eq!(demand(FEBRUARY_2001, &larger, critical_days), 1_002);
    }
}

#[test]
fn a_reading_alone_counts_in_its_window() {
    for (month, day, window) in DAYS {
        let readings = first_reading(month, day + 1) - first_reading(month, day);
        for place in 0..readings {
            let counts = window.contains(&place);
            let line = demand_from((month, day), place, &[900]);
            assert_eq!(line, if counts { 900 } else { 0 });
        }
    }
}

#[test]
fn pairs_at_the_edges_of_each_window() {
    for (month, day, Range { start, end }) in DAYS {
        if start == end {
            continue;
        }
        let at = |place| demand_from((month, day), place, &[700, 900]);
        // The last pair before the window; one reading of it and one of the first pair.
        assert_eq!([at(start - 2), at(start - 1)], [0, 900]);
        // The first pair; one reading of it and one of the second.
        assert_eq!([at(start), at(start + 1)], [1_600, 900]);
        // The last pair; one reading of it and one of the first pair after the window.
        assert_eq!([at(end - 2), at(end - 1)], [1_600, 700]);
        // The first pair after the window; one reading of it and one of the next.
        assert_eq!([at(end), at(end + 1)], [0, 0]);
    }
}

#[test]
fn a_summer_weekend_has_no_pair_that_counts() {
    // 7 and 8 July 2001, whole, with the evening before and the morning after.
    let mut registers = Registers::zeros(31);
    registers.delivered[6 * 96 - 24..8 * 96 + 24].fill(1_000);
    for critical_days in [0, 0b1100_0000] {
        assert_eq!(demand(JULY_2001, &registers, critical_days), 0);
    }
}

#[test]
fn no_pair_goes_across_midnight() {
    for day in [1, 27] {
        let registers = Registers::zeros(28)
            .deliver(day, 95, 900)
            .deliver(day + 1, 0, 900)
            .deliver(5, 70, 100);
        assert_eq!(february(registers), 100);
    }
}

#[test]
fn lost_quarters_of_a_pair() {
    // The second, the first, and both: filled from 69 where the first is lost.
    assert_eq!(february(pair(600, 0).lose_delivered(9, 71, 1)), 1_200);
    let lost = |second, count| {
        pair(0, second)
            .deliver(9, 69, 600)
            .lose_delivered(9, 70, count)
    };
    assert_eq!(february(lost(500, 1)), 1_100);
    assert_eq!(february(lost(0, 2)), 1_200);
    // The received register's gaps are no matter.
    assert_eq!(february(pair(600, 0).lose_received(9, 71, 1)), 600);
}

#[test]
fn gaps_over_the_edges_of_a_window() {
    // 67 is no part of the first pair, but fills it.
    let before = Registers::zeros(28).deliver(9, 67, 900);
    assert_eq!(february(before.clone().lose_delivered(9, 68, 1)), 900);
    assert_eq!(february(before.lose_delivered(9, 68, 2)), 1_800);
    // 83 is the end of the last pair, and what it fills lies past it.
    let after = Registers::zeros(28)
        .deliver(9, 83, 900)
        .lose_delivered(9, 84, 5);
    assert_eq!(february(after), 900);
    // From 22:45 of day 9 on: 5 readings of this day, and those of the next up to 17:00, and
    // one and two more.
    let evening = Registers::zeros(28).deliver(9, 90, 300);
    assert_eq!(february(evening.clone().lose_delivered(9, 91, 5 + 68)), 0);
    assert_eq!(february(evening.clone().lose_delivered(9, 91, 5 + 69)), 300);
    assert_eq!(february(evening.lose_delivered(9, 91, 5 + 70)), 600);
}
