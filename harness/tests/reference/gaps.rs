//! 02, No. 4: bills of registers with lost readings, worked by hand.

use crate::helpers::{
    account_with_demand, bill, Registers, FEBRUARY_2001, LOST, MARCH_2007, NOVEMBER_2007,
};
use harness::random::Random;
use harness::reference::account::Bill;
use harness::reference::gaps::filled;

fn february(registers: Registers, critical_days: u32) -> Bill {
    bill(
        account_with_demand(FEBRUARY_2001),
        &registers,
        critical_days,
    )
    .0
}

#[test]
fn a_gap_counts_as_the_reading_before_it() {
    // From 00:45 to 01:45: one more quarter off-peak, then three at discount.
    let registers = Registers::zeros(28)
        .deliver(1, 2, 100)
        .lose_delivered(1, 3, 4)
        .receive(1, 3, 30);
    let bill = february(registers, 0);
    assert_eq!(bill.delivered, [0, 0, 200, 300]);
    assert_eq!(bill.exported, [0, 0, 30, 0]);
    assert_eq!(bill.own, [0, 0, 30, 0]);
    assert_eq!(bill.billed, [0, 0, 170, 300]);
    // 170 × 10,000 + 300 × 5,000 = 3,200,000
    assert_eq!(bill.energy, 3);
    assert_eq!(bill.due, 1_403);
}

#[test]
fn each_register_is_filled_by_itself() {
    let registers = Registers::zeros(28)
        .deliver(3, 30, 500)
        .receive(3, 30, 20)
        .lose_delivered(3, 31, 2)
        .lose_received(3, 31, 1)
        .receive(3, 32, 7);
    let bill = february(registers, 0);
    assert_eq!(bill.delivered, [0, 0, 1_500, 0]);
    assert_eq!(bill.exported, [0, 0, 47, 0]);
    // The received register alone: what is exported is left.
    let registers = Registers::zeros(28)
        .receive(3, 67, 20)
        .lose_received(3, 68, 2);
    let bill = february(registers, 0);
    assert_eq!(bill.exported, [0, 40, 20, 0]);
    assert_eq!(bill.left, [0, 40, 20, 0]);
    assert_eq!((bill.delivered, bill.demand), ([0; 4], 0));
}

#[test]
fn a_gap_of_zeros_stays_0() {
    let registers = Registers::zeros(28)
        .lose_delivered(5, 60, 30)
        .deliver(5, 90, 8);
    let bill = february(registers, 0);
    assert_eq!((bill.delivered, bill.demand), ([0, 0, 8, 0], 0));
}

#[test]
fn a_reading_between_two_gaps_ends_the_first() {
    let registers = Registers::zeros(28)
        .deliver(1, 30, 9)
        .lose_delivered(1, 31, 2)
        .deliver(1, 33, 2)
        .lose_delivered(1, 34, 3);
    // 3 × 9 + 4 × 2
    assert_eq!(february(registers, 0).delivered, [0, 0, 35, 0]);
}

#[test]
fn a_gap_goes_across_midnight() {
    // From 23:45 of day 1: four quarters off-peak and one at discount of day 2.
    let registers = Registers::zeros(28)
        .deliver(1, 95, 40)
        .lose_delivered(2, 0, 5);
    assert_eq!(february(registers, 0).delivered, [0, 0, 200, 40]);
    // Days 2 to 4 whole.
    let registers = Registers::zeros(28)
        .deliver(1, 95, 1)
        .lose_delivered(2, 0, 3 * 96);
    assert_eq!(
        february(registers, 0).delivered,
        [0, 3 * 16, 1 + 3 * 60, 3 * 20]
    );
}

#[test]
fn a_month_of_which_only_the_first_reading_came() {
    let registers = Registers::zeros(28)
        .deliver(1, 0, 100)
        .lose_delivered(1, 1, 2_687)
        .receive(1, 0, 1)
        .lose_received(1, 1, 2_687);
    let bill = february(registers, 0);
    // 28 days of 16, 60 and 20 quarters, as in 01's example.
    assert_eq!(bill.delivered, [0, 44_800, 168_000, 56_000]);
    assert_eq!(bill.exported, [0, 448, 1_680, 560]);
    // Each pair has 2 × 100 Wh.
    assert_eq!(bill.demand, 200);
}

#[test]
fn the_last_readings_of_a_month() {
    let registers = Registers::zeros(28)
        .deliver(28, 93, 6)
        .lose_delivered(28, 94, 2);
    let (before, after) = bill(account_with_demand(FEBRUARY_2001), &registers, 0);
    assert_eq!(before.delivered, [0, 0, 18, 0]);
    // March has its own register, and its own first reading.
    let registers = Registers::zeros(31).lose_delivered(1, 1, 10);
    assert_eq!(bill(after, &registers, 0).0.delivered, [0; 4]);
    let registers = Registers::zeros(31)
        .deliver(1, 0, 2)
        .lose_delivered(1, 1, 1);
    assert_eq!(bill(after, &registers, 0).0.delivered, [0, 0, 4, 0]);
}

#[test]
fn a_value_counts_in_the_period_of_the_lost_quarter() {
    // 900 Wh came off-peak at 16:45, and the next four quarters are on-peak.
    let came = Registers::zeros(28).deliver(1, 67, 900);
    assert_eq!(february(came.clone(), 0).demand, 0);
    let lost = came.lose_delivered(1, 68, 4);
    let bill = february(lost.clone(), 0);
    assert_eq!(bill.delivered, [0, 3_600, 900, 0]);
    assert_eq!(bill.demand, 1_800);
    // On a critical day these are critical.
    let bill = february(lost, 1);
    assert_eq!(bill.delivered, [3_600, 0, 900, 0]);
    assert_eq!(bill.demand, 1_800);
    // The other way round: on-peak at 20:45, then off-peak.
    let registers = Registers::zeros(28)
        .deliver(1, 83, 900)
        .lose_delivered(1, 84, 4);
    let bill = february(registers, 0);
    assert_eq!(bill.delivered, [0, 900, 3_600, 0]);
    assert_eq!(bill.demand, 900);
}

#[test]
fn the_mark_itself_never_counts_for_demand() {
    let registers = Registers::zeros(28)
        .deliver(1, 70, 5)
        .lose_delivered(1, 71, 3)
        .deliver(1, 74, 6)
        .lose_received(1, 70, 9);
    // The pairs have 5 + 5, 5 + 5 and 6 + 0 Wh.
    let bill = february(registers, 0);
    assert_eq!((bill.delivered, bill.demand), ([0, 26, 0, 0], 10));
}

#[test]
fn gaps_on_days_on_which_the_clocks_change() {
    // 11 March 2007: after 01:45 comes 03:00, and on-peak begins at place 64.
    let registers = Registers::of_length(2_972)
        .deliver(11, 7, 50)
        .lose_delivered(11, 8, 2)
        .deliver(11, 63, 70)
        .lose_delivered(11, 64, 3)
        // Day 12 begins at place 92 of day 11.
        .receive(11, 91, 5)
        .lose_received(11, 92, 6);
    let (march, _) = bill(account_with_demand(MARCH_2007), &registers, 0);
    assert_eq!(march.delivered, [0, 210, 70, 150]);
    assert_eq!(march.exported, [0, 0, 25, 10]);
    assert_eq!(march.demand, 140);
    // 4 November 2007: after 01:45 comes 01:00, and on-peak begins at place 72.
    let registers = Registers::of_length(2_884)
        .deliver(4, 7, 50)
        .lose_delivered(4, 8, 2)
        .deliver(4, 71, 70)
        .lose_delivered(4, 72, 3)
        .receive(4, 99, 5)
        .lose_received(4, 100, 6);
    let (november, _) = bill(account_with_demand(NOVEMBER_2007), &registers, 0);
    assert_eq!(november.delivered, [0, 210, 70, 150]);
    assert_eq!(november.exported, [0, 0, 25, 10]);
    assert_eq!(november.demand, 140);
}

#[test]
fn the_largest_reading_may_be_repeated() {
    let registers = Registers::zeros(28)
        .deliver(1, 0, 1_000_000)
        .lose_delivered(1, 1, 2_687);
    let bill = february(registers, 0);
    assert_eq!(bill.delivered.iter().sum::<u64>(), 2_688_000_000);
    assert_eq!(bill.demand, 2_000_000);
}

#[test]
fn filling_is_the_rule_word_for_word() {
    assert_eq!(filled(&[]), []);
    assert_eq!(filled(&[7, LOST, LOST, 0, LOST]), [7, 7, 7, 0, 0]);
    let mut random = Random::new(4);
    for _ in 0..2_000 {
        let length = random.below(40) as usize;
        let register: Vec<u32> = (0..length)
            .map(|_| random.pick([LOST, LOST, LOST - 1, 0, 1, 2]))
            .collect();
        let counts = filled(&register);
        assert_eq!(counts.len(), length);
        for place in 0..length {
            // The last before it which isn't lost; a reading that isn't lost is itself.
            let last = register[..=place].iter().rfind(|&&reading| reading != LOST);
            assert_eq!(counts[place], last.copied().unwrap_or(0));
        }
    }
}
