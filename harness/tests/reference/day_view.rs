//! 01, "Day view and statement": the day view and its four empty cases.

use crate::helpers::{
    DECEMBER_2099, FEBRUARY_2000, FEBRUARY_2001, LOST, MARCH_2007, NOVEMBER_2007,
};
use harness::reference::day_view::day_view;

/// Registers with a different number in each place.
fn registers(days: u32) -> (Vec<u32>, Vec<u32>) {
    let delivered = (0..96 * days).collect();
    let received = (0..96 * days).map(|index| 100_000 + index).collect();
    (delivered, received)
}

/// The empty part at the front of the delivered register.
fn is_empty_front(view: &[u32], delivered: &[u32]) -> bool {
    view.is_empty() && std::ptr::eq(view.as_ptr(), delivered.as_ptr())
}

#[test]
fn each_day_is_a_part_of_the_register_named() {
    let (delivered, received) = registers(29);
    for day in 1..=29 {
        let start = 96 * (day - 1) as usize;
        let view = day_view(&delivered, &received, FEBRUARY_2000, day, 0);
        assert!(std::ptr::eq(view, &delivered[start..start + 96]));
        let view = day_view(&delivered, &received, FEBRUARY_2000, day, 1);
        assert!(std::ptr::eq(view, &received[start..start + 96]));
    }
    let (delivered, received) = registers(31);
    let view = day_view(&delivered, &received, DECEMBER_2099, 31, 1);
    assert_eq!((view.len(), view[0], view[95]), (96, 102_880, 102_975));
}

#[test]
fn days_on_which_the_clocks_change() {
    // The short day is 11 March 2007, the long one 4 November.
    for (month, length, day, readings) in
        [(MARCH_2007, 2_972, 11, 92), (NOVEMBER_2007, 2_884, 4, 100)]
    {
        let delivered: Vec<u32> = (0..length).collect();
        let at = |day| day_view(&delivered, &delivered, month, day, 0).to_vec();
        let start = 96 * (day - 1);
        assert_eq!(at(day - 1), (start - 96..start).collect::<Vec<_>>());
        assert_eq!(at(day), (start..start + readings).collect::<Vec<_>>());
        let next = start + readings;
        assert_eq!(at(day + 1), (next..next + 96).collect::<Vec<_>>());
        let view = day_view(&delivered[1..], &delivered[1..], month, day, 0);
        assert!(view.is_empty());
    }
}

#[test]
fn lost_readings_are_shown_as_they_are_marked() {
    let (mut delivered, mut received) = registers(28);
    // From 23:45 of day 1 on, and a whole register.
    delivered[95..100].fill(LOST);
    received.fill(LOST);
    let view = day_view(&delivered, &received, FEBRUARY_2001, 1, 0);
    assert_eq!((view[94], view[95]), (94, LOST));
    let view = day_view(&delivered, &received, FEBRUARY_2001, 2, 0);
    assert!(std::ptr::eq(view, &delivered[96..192]));
    assert_eq!((&view[..4], view[4]), (&[LOST; 4][..], 100));
    for day in 1..=28 {
        let view = day_view(&delivered, &received, FEBRUARY_2001, day, 1);
        assert_eq!(view, [LOST; 96]);
    }
}

#[test]
fn empty_above_month_1199() {
    // January 2100 and December 9999 have 31 days too.
    let (delivered, received) = registers(31);
    for month in [1_200, 95_999, u32::MAX] {
        for number in [0, 1] {
            let view = day_view(&delivered, &received, month, 1, number);
            assert!(is_empty_front(view, &delivered));
        }
    }
    // A month of the largest number, with registers of its length.
    assert_eq!(u32::MAX % 12, 3);
    let (delivered, received) = registers(30);
    let view = day_view(&delivered, &received, u32::MAX, 1, 1);
    assert!(is_empty_front(view, &delivered));
}

#[test]
fn empty_where_the_day_is_not_in_the_month() {
    let (delivered, received) = registers(28);
    for day in [0, 29, 30, 32, u32::MAX] {
        for number in [0, 1] {
            let view = day_view(&delivered, &received, FEBRUARY_2001, day, number);
            assert!(is_empty_front(view, &delivered));
        }
    }
    assert_eq!(
        day_view(&delivered, &received, FEBRUARY_2001, 28, 0).len(),
        96
    );
}

#[test]
fn empty_where_a_register_has_the_wrong_length() {
    let (long_delivered, long_received) = registers(29);
    for number in [0, 1] {
        for wrong in [0, 96, 2_687, 2_689, 2_784] {
            let right = 2_688;
            for (first, second) in [(wrong, right), (right, wrong), (wrong, wrong)] {
                let delivered = &long_delivered[..first];
                let received = &long_received[..second];
                let view = day_view(delivered, received, FEBRUARY_2001, 1, number);
                assert!(is_empty_front(view, delivered));
            }
        }
    }
}

#[test]
fn empty_where_the_number_is_not_0_or_1() {
    let (delivered, received) = registers(28);
    for number in [2, 3, u32::MAX] {
        let view = day_view(&delivered, &received, FEBRUARY_2001, 1, number);
        assert!(is_empty_front(view, &delivered));
    }
}
