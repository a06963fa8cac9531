//! 01, "Mistakes an examiner has met": each test fails if its mistake is made.

use crate::helpers::{
    bill, bridge_home, open_account, Registers, DISCOUNT, FEBRUARY_2001, JULY_2001, JUNE_2001,
    OFF_PEAK, SUMMER_ON_PEAK, WINTER_ON_PEAK,
};
use harness::reference::account::{Account, PriceList};
use harness::reference::calls::billing;

#[test]
fn june_keeps_its_own_export() {
    let account = Account {
        carried: [0, 0, 5_000, 70],
        ..open_account(JUNE_2001)
    };
    let registers = Registers::zeros(30)
        .deliver(3, OFF_PEAK, 300)
        .receive(4, OFF_PEAK, 2_000);
    let (bill, after) = bill(account, &registers, 0);
    assert_eq!(bill.forfeited, [0, 0, 5_000, 70]);
    assert_eq!(bill.own, [0, 0, 300, 0]);
    assert_eq!(bill.left, [0, 0, 1_700, 0]);
    assert_eq!(after.carried, [0, 0, 1_700, 0]);
}

#[test]
fn cheap_credit_does_not_cover_dear_hours() {
    let registers = Registers::zeros(28)
        .deliver(1, WINTER_ON_PEAK, 300)
        .receive(1, DISCOUNT, 700);
    let (banked, _) = bill(open_account(FEBRUARY_2001), &registers, 0);
    assert_eq!(banked.billed, [0, 300, 0, 0]);
    assert_eq!(banked.left, [0, 0, 0, 700]);

    let account = Account {
        terms: bridge_home(),
        ..open_account(FEBRUARY_2001)
    };
    let (bridge, _) = bill(account, &registers, 0);
    assert_eq!(bridge.billed, [0, 300, 0, 0]);
    assert_eq!(bridge.paid, [0, 0, 0, 700]);
}

#[test]
fn energy_is_rounded_once() {
    // 0.4 cents in each of three periods: 1.2 cents together.
    let registers = Registers::zeros(28)
        .deliver(1, WINTER_ON_PEAK, 20)
        .deliver(1, OFF_PEAK, 40)
        .deliver(1, DISCOUNT, 80);
    let (low, _) = bill(open_account(FEBRUARY_2001), &registers, 0);
    assert_eq!(low.energy, 1);

    // 0.5 cents in each of two periods: 1 cent together.
    let registers = Registers::zeros(28)
        .deliver(1, WINTER_ON_PEAK, 25)
        .deliver(1, OFF_PEAK, 50);
    let (high, _) = bill(open_account(FEBRUARY_2001), &registers, 0);
    assert_eq!(high.energy, 1);
}

#[test]
fn shortfall_is_found_before_money_is_taken_off() {
    let account = Account {
        terms: bridge_home(),
        price_list: PriceList {
            distribution: 4_493,
            minimum: 2_200,
            basic: 1_400,
            ..PriceList::default()
        },
        standing: 1_000,
        ..open_account(FEBRUARY_2001)
    };
    let registers = Registers::zeros(28).deliver(1, OFF_PEAK, 100_000);
    // Basic 1,400 and distribution 449 leave 351; gross is 1,400 + 351.
    let (some_money, after) = bill(account, &registers, 0);
    assert_eq!(some_money.shortfall, 351);
    assert_eq!(some_money.gross, 1_751);
    assert_eq!(some_money.used, 1_000);
    assert_eq!(some_money.due, 751);
    assert_eq!(after.standing, 0);

    // Enough money covers the shortfall as well.
    let account = Account {
        standing: 5_000,
        ..account
    };
    let (much_money, after) = bill(account, &registers, 0);
    assert_eq!(much_money.shortfall, 351);
    assert_eq!(much_money.used, 1_751);
    assert_eq!(much_money.due, 0);
    assert_eq!(after.standing, 3_249);
}

#[test]
fn a_summer_weekend_has_no_critical_quarters() {
    // 1 July 2001 is a Sunday and 2 July a Monday; both bits are set.
    let registers =
        Registers::zeros(31)
            .deliver(1, SUMMER_ON_PEAK, 10)
            .deliver(2, SUMMER_ON_PEAK, 200);
    let (summer, _) = bill(open_account(JULY_2001), &registers, 0b11);
    assert_eq!(summer.delivered, [200, 0, 10, 0]);
    assert_eq!(summer.billed, [200, 0, 10, 0]);

    // 4 February 2001 is a Sunday too, and winter has on-peak quarters there.
    let registers = Registers::zeros(28).deliver(4, WINTER_ON_PEAK, 10);
    let (winter, _) = bill(open_account(FEBRUARY_2001), &registers, 0b1000);
    assert_eq!(winter.delivered, [10, 0, 0, 0]);

    // A summer weekend still counts among the ten days.
    let registers = Registers::zeros(31);
    let (answer, _) = billing(
        open_account(JULY_2001),
        JULY_2001,
        &registers.delivered,
        &registers.received,
        0b111_1111_1111,
    );
    assert_eq!(answer.number, 9);
}
