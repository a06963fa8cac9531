//! Whole bills, worked by hand from steps 1 to 9, and closings.

use crate::helpers::{
    bill, bridge_home, business, home, open_account, prices, Registers, APRIL_2001, DISCOUNT,
    FEBRUARY_2001, JANUARY_2000, JULY_2001, JUNE_2001, MAY_2001, OFF_PEAK, SUMMER_ON_PEAK,
    WINTER_ON_PEAK,
};
use harness::reference::account::{
    Account, Assisted, Bill, Closing, Nameplates, PriceList, State, Terms,
};
use harness::reference::calls::{billing, closing, opening, repricing};

/// A bridge account with every price, and 10 cents standing.
fn bridge_account() -> Account {
    Account {
        terms: Terms {
            nameplates: Nameplates::one(8_001),
            ..bridge_home()
        },
        price_list: PriceList {
            energy: [30_000, 20_000, 10_000, 5_000],
            demand: 500_000,
            standby: 172_350,
            bypass: 2_000,
            credit: 3_350,
            distribution: 4_493,
            basic: 1_400,
            minimum: 2_200,
        },
        standing: 10,
        ..open_account(JULY_2001)
    }
}

/// July 2001: day 1 is a Sunday, day 2 a Monday, and day 3 is critical.
fn july() -> Registers {
    Registers::zeros(31)
        .deliver(1, SUMMER_ON_PEAK, 100_000)
        .receive(1, DISCOUNT, 10_000)
        .deliver(2, SUMMER_ON_PEAK, 600)
        .receive(2, SUMMER_ON_PEAK, 100)
        .receive(3, SUMMER_ON_PEAK, 1_000)
}

const DAY_3: u32 = 0b100;

#[test]
fn a_bridge_bill() {
    let (bill, after) = bill(bridge_account(), &july(), DAY_3);
    let expected = Bill {
        forfeited: [0; 4],
        delivered: [0, 600, 100_000, 0],
        exported: [1_000, 100, 0, 10_000],
        own: [0, 100, 0, 0],
        credit: [1_000, 0, 0, 10_000],
        need: [0, 500, 100_000, 0],
        moved_out: [1_000, 0, 0, 0],
        moved_in: [0, 500, 500, 0],
        billed: [0, 0, 99_500, 0],
        left: [0; 4],
        paid: [0, 0, 0, 10_000],
        // 99,500 × 10,000 = 995,000,000
        energy: 995,
        // 2 × 600 × 500,000 = 600,000,000
        demand: 600,
        standby: 0,
        // 8,001 × 2,000 = 16,002,000
        bypass: 16,
        // 2,200 − 1,400 − 447, from 99,500 × 4,493 = 447,053,500
        shortfall: 353,
        // 1,400 + 600 + 16 + 995 + 353
        gross: 3_364,
        // 10,000 × 3,350 = 33,500,000
        granted: 34,
        used: 44,
        due: 3_320,
        standing: 0,
    };
    assert_eq!(bill, expected);
    let expected_account = Account {
        next_month: JULY_2001 + 1,
        standing: 0,
        ..bridge_account()
    };
    assert_eq!(after, expected_account);
}

#[test]
fn money_over_stays_standing() {
    let account = Account {
        standing: 5_000,
        ..bridge_account()
    };
    let (bill, after) = bill(account, &july(), DAY_3);
    assert_eq!(bill.used, 3_364);
    assert_eq!(bill.due, 0);
    // 5,000 + 34 − 3,364
    assert_eq!(bill.standing, 1_670);
    assert_eq!(after.standing, 1_670);
}

#[test]
fn the_same_month_banked() {
    let account = Account {
        terms: Terms {
            nameplates: Nameplates::one(8_001),
            ..home()
        },
        carried: [0, 0, 9_500, 1],
        ..bridge_account()
    };
    let (bill, after) = bill(account, &july(), DAY_3);
    assert_eq!(bill.own, [0, 100, 9_500, 0]);
    assert_eq!(bill.credit, [1_000, 0, 0, 10_001]);
    assert_eq!(bill.need, [0, 500, 90_500, 0]);
    assert_eq!(bill.billed, [0, 0, 90_000, 0]);
    assert_eq!(bill.left, [0, 0, 0, 10_001]);
    assert_eq!(bill.paid, [0; 4]);
    assert_eq!((bill.bypass, bill.shortfall, bill.granted), (0, 0, 0));
    // 1,400 + 600 + 900
    assert_eq!(bill.gross, 2_900);
    // Standing money is taken as it is under the banked rider too.
    assert_eq!((bill.used, bill.due), (10, 2_890));
    assert_eq!(after.carried, [0, 0, 0, 10_001]);
}

#[test]
fn demand_looks_at_delivered_pairs_that_count() {
    let demand_of = |registers: Registers, critical_days| {
        bill(bridge_account(), &registers, critical_days).0.demand
    };
    // Off-peak, discount and received readings don't count.
    let others = Registers::zeros(31)
        .deliver(1, SUMMER_ON_PEAK, 900)
        .deliver(2, DISCOUNT, 900)
        .deliver(2, OFF_PEAK, 900)
        .receive(2, SUMMER_ON_PEAK, 900);
    assert_eq!(demand_of(others.clone(), 0), 0);
    // The largest pair, though all of it is netted: 2 × 300 × 500,000.
    let netted = others.clone().deliver(2, SUMMER_ON_PEAK, 300);
    assert_eq!(demand_of(netted.clone(), 0), 300);
    // A critical pair counts as well: 2 × 400 × 500,000.
    let critical = netted.deliver(3, SUMMER_ON_PEAK, 400);
    assert_eq!(demand_of(critical, DAY_3), 400);
    // Rounded from the product of all three: 2 × 1 × 250,000 is half a cent.
    let account = Account {
        price_list: PriceList {
            demand: 250_000,
            ..bridge_account().price_list
        },
        ..bridge_account()
    };
    let one = Registers::zeros(31).deliver(2, SUMMER_ON_PEAK, 1);
    assert_eq!(bill(account, &one, 0).0.demand, 1);
}

#[test]
fn standby_is_for_large_businesses() {
    let price_list = PriceList {
        standby: 172_350,
        bypass: 1_000_000,
        minimum: 1_000_000,
        ..prices()
    };
    let gross_of = |terms| {
        let account = Account {
            terms,
            price_list,
            ..open_account(FEBRUARY_2001)
        };
        bill(account, &Registers::zeros(28), 0).0.gross
    };
    assert_eq!(gross_of(business(100_000)), 1_400);
    assert_eq!(gross_of(business(100_001)), 1_400 + 17_235);
    // 150,000 × 172,350 = 25,852,500,000, half a cent up.
    assert_eq!(gross_of(business(150_000)), 1_400 + 25_853);
}

#[test]
fn shortfall_at_its_turning_points() {
    let shortfall_of = |terms, basic, minimum| {
        let account = Account {
            terms,
            price_list: PriceList {
                basic,
                minimum,
                ..prices()
            },
            ..open_account(FEBRUARY_2001)
        };
        bill(account, &Registers::zeros(28), 0).0.shortfall
    };
    assert_eq!(shortfall_of(bridge_home(), 1_400, 1_399), 0);
    assert_eq!(shortfall_of(bridge_home(), 1_400, 1_400), 0);
    assert_eq!(shortfall_of(bridge_home(), 1_400, 1_401), 1);
    // An unassisted customer of 8,000 W isn't spared, nor is 8,001 W assisted.
    let assisted = Terms {
        assisted: Assisted::Yes,
        ..bridge_home()
    };
    assert_eq!(shortfall_of(assisted, 1_400, 1_401), 0);
    let large = Terms {
        nameplates: Nameplates::one(8_001),
        ..assisted
    };
    assert_eq!(shortfall_of(large, 1_400, 1_401), 1);
    assert_eq!(shortfall_of(home(), 1_400, 1_401), 0);
}

#[test]
fn credit_is_carried_from_month_to_month_until_june() {
    let export = |days| Registers::zeros(days).receive(1, WINTER_ON_PEAK, 1_000);
    let (april, account) = bill(open_account(APRIL_2001), &export(30), 0);
    assert_eq!(april.left, [0, 1_000, 0, 0]);
    // May: 1,000 carried, 1,000 exported, 300 own, 900 moved to discount.
    let registers = export(31)
        .deliver(1, WINTER_ON_PEAK, 300)
        .deliver(1, DISCOUNT, 900);
    let (may, account) = bill(account, &registers, 0);
    assert_eq!(may.own, [0, 300, 0, 0]);
    assert_eq!(may.moved_out, [0, 900, 0, 0]);
    assert_eq!(may.moved_in, [0, 0, 0, 900]);
    assert_eq!(may.left, [0, 800, 0, 0]);
    assert_eq!(may.forfeited, [0; 4]);
    let (june, account) = bill(account, &export(30), 0);
    assert_eq!(june.forfeited, [0, 800, 0, 0]);
    assert_eq!(june.left, [0, 1_000, 0, 0]);
    // July takes over what June exported.
    let (july, account) = bill(account, &Registers::zeros(31), 0);
    assert_eq!(july.forfeited, [0; 4]);
    assert_eq!(july.left, [0, 1_000, 0, 0]);
    assert_eq!(account.next_month, JULY_2001 + 1);
}

#[test]
fn june_forfeits_nothing_under_the_bridge_rider() {
    // Carried Wh under the bridge rider can't arise, but are taken as they are.
    let account = Account {
        terms: bridge_home(),
        carried: [0, 0, 0, 50],
        ..open_account(JUNE_2001)
    };
    let (bill, after) = bill(account, &Registers::zeros(30), 0);
    assert_eq!(bill.forfeited, [0; 4]);
    assert_eq!(bill.paid, [0, 0, 0, 50]);
    assert_eq!(after.carried, [0; 4]);
}

#[test]
fn credit_moves_by_number_at_equal_prices() {
    let account = Account {
        price_list: PriceList {
            energy: [10_000; 4],
            ..prices()
        },
        ..open_account(FEBRUARY_2001)
    };
    let registers = Registers::zeros(28)
        .receive(1, OFF_PEAK, 100)
        .deliver(1, WINTER_ON_PEAK, 40)
        .deliver(1, DISCOUNT, 30);
    let (bill, _) = bill(account, &registers, 0);
    assert_eq!(bill.moved_out, [0, 0, 30, 0]);
    assert_eq!(bill.moved_in, [0, 0, 0, 30]);
    assert_eq!(bill.billed, [0, 40, 0, 0]);
    assert_eq!(bill.left, [0, 0, 70, 0]);
}

#[test]
fn the_largest_bill_fits() {
    // All prices at their limit, and everything carried, exported and standing.
    let account = Account {
        terms: Terms {
            nameplates: Nameplates::one(20_000),
            demand_limit: 20_000,
            ..bridge_home()
        },
        price_list: PriceList {
            energy: [1_000_000; 4],
            demand: 1_000_000,
            standby: 1_000_000,
            bypass: 1_000_000,
            credit: 1_000_000,
            distribution: 1_000_000,
            basic: 1_000_000,
            minimum: 1_000_000,
        },
        carried: [4_000_000_000_000; 4],
        standing: 4_000_000_000_000,
        ..open_account(JANUARY_2000)
    };
    let mut registers = Registers::zeros(31);
    registers.received.fill(1_000_000);
    let (export, after) = bill(account, &registers, 0);
    // 16,000,000,000,000 + 2,976,000,000 Wh at one cent.
    assert_eq!(export.granted, 16_002_976_000_000);
    // Basic and bypass; basic alone reaches the minimum.
    assert_eq!(export.gross, 1_000_000 + 20_000);
    assert_eq!(after.standing, 20_002_976_000_000 - 1_020_000);
    // The account handed back can't arise, so the next call answers 3.
    assert_eq!(closing(after).0.number, 3);

    let no_credit = Account {
        carried: [0; 4],
        standing: 0,
        ..account
    };
    let mut registers = Registers::zeros(31);
    registers.delivered.fill(1_000_000);
    let (draw, _) = bill(no_credit, &registers, 0);
    assert_eq!(draw.energy, 2_976_000_000);
    // 2 × 2,000,000 × 1,000,000
    assert_eq!(draw.demand, 4_000_000);
    assert_eq!(draw.due, 2_976_000_000 + 4_000_000 + 1_000_000 + 20_000);
}

#[test]
fn repricing_is_for_the_months_afterwards() {
    let registers = Registers::zeros(30).deliver(1, OFF_PEAK, 1_000);
    let (before, account) = bill(open_account(APRIL_2001), &registers, 0);
    // 1,000 × 10,000
    assert_eq!(before.energy, 10);
    let dearer = PriceList {
        energy: [40_000, 30_000, 20_000, 10_000],
        ..prices()
    };
    let (answer, repriced) = repricing(account, dearer);
    assert_eq!(answer.number, 0);
    let expected = Account {
        price_list: dearer,
        ..account
    };
    assert_eq!(repriced, expected);
    let registers = Registers::zeros(31).deliver(1, OFF_PEAK, 1_000);
    let (after, _) = bill(repriced, &registers, 0);
    assert_eq!(after.energy, 20);
}

#[test]
fn opening_starts_from_nothing() {
    let leftovers = Account {
        carried: [1, 2, 3, 4],
        standing: 5,
        next_month: 1_200,
        ..Account::default()
    };
    let (answer, account) = opening(leftovers, home(), prices(), MAY_2001);
    assert_eq!(answer.number, 0);
    assert_eq!(account, open_account(MAY_2001));
}

#[test]
fn closing_forfeits_and_refunds() {
    let account = Account {
        carried: [1, 2, 3, 4],
        standing: 5,
        ..open_account(MAY_2001)
    };
    let (answer, closed) = closing(account);
    assert_eq!(answer.number, 0);
    let expected = Closing {
        forfeited: [1, 2, 3, 4],
        refunded: 5,
    };
    assert_eq!(answer.amounts, expected);
    // Terms, price list and next month stay.
    let expected = Account {
        state: State::Closed,
        ..open_account(MAY_2001)
    };
    assert_eq!(closed, expected);
}

#[test]
fn both_registers_may_run_in_one_quarter() {
    let registers = Registers::zeros(28)
        .deliver(1, OFF_PEAK, 70)
        .receive(1, OFF_PEAK, 50);
    let (bill, _) = bill(open_account(FEBRUARY_2001), &registers, 0);
    assert_eq!(bill.delivered, [0, 0, 70, 0]);
    assert_eq!(bill.exported, [0, 0, 50, 0]);
    assert_eq!(bill.own, [0, 0, 50, 0]);
    assert_eq!(bill.billed, [0, 0, 20, 0]);
}

#[test]
fn a_refused_bill_is_all_zeros() {
    let account = Account {
        carried: [1, 2, 3, 4],
        standing: 5,
        ..open_account(MAY_2001)
    };
    let (answer, after) = billing(account, JUNE_2001, &[], &[], 0);
    assert_eq!(answer.number, 7);
    assert_eq!(answer.amounts, Bill::default());
    assert_eq!(after, account);
}
