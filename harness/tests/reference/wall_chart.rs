//! 01, "Figures for the wall chart", a to l.

use crate::helpers::{
    bill, bridge_home, business, home, open_account, Registers, JULY_2001, JUNE_2001, OFF_PEAK,
};
use harness::reference::account::{Account, Assisted, Nameplates, PriceList, Terms};
use harness::reference::calendar::{days_in_month, weekday, Weekday};
use harness::reference::hours::{Day, Period};
use harness::reference::steps::{cents, granted, share, shortfall, standby};

#[test]
fn a_credit_moves_down_in_turn() {
    let shared = share(&[10, 0, 5, 0], &[0, 4, 0, 9]);
    assert_eq!(shared.moved_out, [10, 0, 3, 0]);
    assert_eq!(shared.moved_in, [0, 4, 0, 9]);
    assert_eq!(shared.unspent, [0, 0, 2, 0]);
    assert_eq!(shared.billed, [0, 0, 0, 0]);
}

#[test]
fn b_cheap_credit_does_not_move_up() {
    let shared = share(&[0, 0, 0, 7], &[3, 0, 0, 0]);
    assert_eq!(shared.moved_out, [0; 4]);
    assert_eq!(shared.moved_in, [0; 4]);
    assert_eq!(shared.unspent, [0, 0, 0, 7]);
    assert_eq!(shared.billed, [3, 0, 0, 0]);
}

#[test]
fn c_and_d_half_a_cent_rounds_up() {
    assert_eq!(cents(499_999), 0);
    assert_eq!(cents(500_000), 1);
    assert_eq!(cents(1_499_999), 1);
    assert_eq!(cents(u128::MAX), u64::MAX);
}

#[test]
fn e_granted() {
    let prices = PriceList {
        credit: 3_350,
        ..PriceList::default()
    };
    assert_eq!(granted(&prices, &[0, 0, 0, 10_000]), 34);
    assert_eq!(granted(&prices, &[2_500; 4]), 34);
}

fn shortfall_of(terms: Terms) -> u64 {
    let prices = PriceList {
        basic: 1_400,
        distribution: 4_493,
        minimum: 2_200,
        ..PriceList::default()
    };
    shortfall(&terms, &prices, &[0, 60_000, 40_000, 0])
}

fn assisted(nameplate: u64) -> Terms {
    Terms {
        nameplates: Nameplates::one(nameplate),
        assisted: Assisted::Yes,
        ..bridge_home()
    }
}

#[test]
fn f_shortfall() {
    assert_eq!(shortfall_of(bridge_home()), 351);
}

#[test]
fn g_and_h_shortfall_of_the_assisted() {
    assert_eq!(shortfall_of(assisted(8_000)), 0);
    assert_eq!(shortfall_of(assisted(8_001)), 351);
}

#[test]
fn i_and_j_standby() {
    let prices = PriceList {
        standby: 172_350,
        ..PriceList::default()
    };
    assert_eq!(standby(&business(100_000), &prices), 0);
    assert_eq!(standby(&business(100_001), &prices), 17_235);
    // Not for a home, though none of this size can be opened.
    let large_home = Terms {
        nameplates: Nameplates::one(100_001),
        ..home()
    };
    assert_eq!(standby(&large_home, &prices), 0);
}

#[test]
fn k_july_2001() {
    assert_eq!(weekday(JULY_2001, 1), Weekday::Sunday);
    let on_peak: usize = (1..=days_in_month(JULY_2001))
        .map(|day| {
            let day = Day::of(JULY_2001, day, 0);
            (0..96)
                .filter(|&quarter| day.period(quarter) == Period::OnPeak)
                .count()
        })
        .sum();
    assert_eq!(on_peak, 440);
}

#[test]
fn l_june_resets_the_bank() {
    let account = Account {
        carried: [0, 0, 5_000, 0],
        ..open_account(JUNE_2001)
    };
    let registers = Registers::zeros(30).deliver(1, OFF_PEAK, 3_000);
    let (bill, after) = bill(account, &registers, 0);
    assert_eq!(bill.forfeited, [0, 0, 5_000, 0]);
    assert_eq!(bill.own, [0; 4]);
    assert_eq!(bill.billed, [0, 0, 3_000, 0]);
    assert_eq!(bill.left, [0; 4]);
    assert_eq!(after.carried, [0; 4]);
}
