//! Lists of calls and the balances of demand 3, worked by hand.

use crate::helpers::{bridge_home, home, prices, DISCOUNT, MAY_2001, OFF_PEAK, WINTER_ON_PEAK};
use crate::helpers::{Registers, JUNE_2001, LOST};
use harness::reference::account::{Account, PriceList, State, Terms};
use harness::reference::hours::register_length;
use harness::reference::ledger::{check_balances, run, Amounts, Call, Imbalance, Ledger};

fn opening(terms: Terms, price_list: PriceList, first_month: u32) -> Call {
    Call::Opening {
        terms,
        price_list,
        first_month,
    }
}

fn billing(month: u32, registers: Registers) -> Call {
    Call::Billing {
        month,
        delivered: registers.delivered,
        received: registers.received,
        critical_days: 0,
    }
}

fn numbers(ledger: &Ledger) -> Vec<u32> {
    ledger.answers.iter().map(|answer| answer.number).collect()
}

#[test]
fn an_empty_list() {
    let ledger = run(&[]);
    assert!(ledger.answers.is_empty());
    assert_eq!(ledger.account, Account::default());
    assert!(check_balances(&[], &[], &ledger.account).is_ok());
}

/// May exports 1,000 Wh off-peak, June 600 Wh on-peak and draws 100 Wh each
/// on-peak and at discount; then the account is closed. A refused bill is between.
fn banked_list() -> Vec<Call> {
    vec![
        Call::Closing,
        opening(home(), prices(), MAY_2001),
        billing(MAY_2001, Registers::zeros(31).receive(1, OFF_PEAK, 1_000)),
        billing(MAY_2001, Registers::zeros(31).receive(1, OFF_PEAK, 7)),
        billing(
            JUNE_2001,
            Registers::zeros(30)
                .receive(1, WINTER_ON_PEAK, 600)
                .deliver(1, WINTER_ON_PEAK, 100)
                .deliver(1, DISCOUNT, 100),
        ),
        Call::Closing,
        Call::Repricing {
            price_list: prices(),
        },
    ]
}

#[test]
fn totals_of_a_banked_list() {
    let calls = banked_list();
    let ledger = run(&calls);
    assert_eq!(numbers(&ledger), [1, 0, 0, 7, 0, 0, 3]);
    assert_eq!(ledger.account.state, State::Closed);
    let totals = check_balances(&calls, &ledger.answers, &ledger.account).unwrap();
    // The refused bill's 7 Wh aren't among them.
    assert_eq!(totals.exported, [0, 600, 1_000, 0]);
    assert_eq!(totals.delivered, [0, 100, 0, 100]);
    assert_eq!(totals.own, [0, 100, 0, 0]);
    assert_eq!(totals.moved_out, [0, 100, 0, 0]);
    assert_eq!(totals.moved_in, [0, 0, 0, 100]);
    // 1,000 by June's reset and 400 by the closing.
    assert_eq!(totals.forfeited, [0, 400, 1_000, 0]);
    assert_eq!(totals.left, [0; 4]);
    assert_eq!(totals.billed, [0; 4]);
}

/// May with a gap in each register; the two calls after it are refused, by 13 and by 7.
fn list_with_gaps() -> Vec<Call> {
    let june = || Registers::zeros(30).receive(1, OFF_PEAK, 9);
    vec![
        opening(home(), prices(), MAY_2001),
        billing(
            MAY_2001,
            Registers::zeros(31)
                .receive(1, OFF_PEAK, 1_000)
                .lose_received(1, OFF_PEAK + 1, 4)
                .deliver(1, WINTER_ON_PEAK - 1, 30)
                .lose_delivered(1, WINTER_ON_PEAK, 2),
        ),
        billing(JUNE_2001, june().lose_delivered(1, 0, 1)),
        billing(MAY_2001, june().lose_delivered(1, 1, 1)),
    ]
}

#[test]
fn totals_are_taken_from_filled_readings() {
    let calls = list_with_gaps();
    let ledger = run(&calls);
    assert_eq!(numbers(&ledger), [0, 0, 13, 7]);
    let totals = check_balances(&calls, &ledger.answers, &ledger.account).unwrap();
    // Four quarters off-peak of 1,000 Wh and one at discount; 30 Wh off-peak, 60 on-peak.
    assert_eq!(totals.exported, [0, 0, 4_000, 1_000]);
    assert_eq!(totals.delivered, [0, 60, 30, 0]);
    assert_eq!(totals.own, [0, 0, 30, 0]);
    assert_eq!(totals.billed, [0, 60, 0, 0]);
    assert_eq!(totals.left, [0, 0, 3_970, 1_000]);
}

#[test]
fn totals_without_the_gaps_do_not_balance() {
    let calls = list_with_gaps();
    let ledger = run(&calls);
    let without = |lost_in: fn(&mut Call) -> Option<&mut Vec<u32>>| {
        let mut calls = calls.clone();
        for register in calls.iter_mut().filter_map(lost_in) {
            for reading in register.iter_mut().filter(|reading| **reading == LOST) {
                *reading = 0;
            }
        }
        check_balances(&calls, &ledger.answers, &ledger.account)
    };
    let no_delivered = without(|call| match call {
        Call::Billing { delivered, .. } => Some(delivered),
        _ => None,
    });
    assert_eq!(no_delivered, Err(Imbalance::Delivered { period: 1 }));
    let no_received = without(|call| match call {
        Call::Billing { received, .. } => Some(received),
        _ => None,
    });
    assert_eq!(no_received, Err(Imbalance::Exported { period: 2 }));
}

#[test]
fn totals_of_a_bridge_list() {
    let list = PriceList {
        credit: 1_000_000,
        ..prices()
    };
    let mut calls = vec![
        opening(bridge_home(), list, MAY_2001),
        billing(MAY_2001, Registers::zeros(31).receive(1, OFF_PEAK, 2_000)),
        billing(JUNE_2001, Registers::zeros(30)),
    ];
    // 2,000 cents granted; the basic charge of 1,400 is used, then the other 600.
    let ledger = run(&calls[..2]);
    assert_eq!(ledger.account.standing, 600);
    let totals = check_balances(&calls[..2], &ledger.answers, &ledger.account).unwrap();
    assert_eq!(
        (totals.granted, totals.used, totals.standing),
        (2_000, 1_400, 600)
    );

    let ledger = run(&calls);
    let totals = check_balances(&calls, &ledger.answers, &ledger.account).unwrap();
    assert_eq!(
        (totals.granted, totals.used, totals.standing),
        (2_000, 2_000, 0)
    );

    calls[2] = Call::Closing;
    let ledger = run(&calls);
    let totals = check_balances(&calls, &ledger.answers, &ledger.account).unwrap();
    assert_eq!(
        (totals.used, totals.refunded, totals.standing),
        (1_400, 600, 0)
    );
    assert_eq!(totals.paid, [0, 0, 2_000, 0]);
}

/// Changes an answer or the account of the banked list and reports the balance.
fn after_tampering(change: fn(&mut Ledger)) -> Result<(), Imbalance> {
    let calls = banked_list();
    let mut ledger = run(&calls);
    change(&mut ledger);
    check_balances(&calls, &ledger.answers, &ledger.account).map(|_| ())
}

fn bill_at(ledger: &mut Ledger, call: usize) -> &mut harness::reference::account::Bill {
    match &mut ledger.answers[call].amounts {
        Amounts::Bill(bill) => bill,
        _ => panic!("not a bill"),
    }
}

#[test]
fn the_check_can_fail() {
    assert_eq!(after_tampering(|_| ()), Ok(()));
    assert_eq!(
        after_tampering(|ledger| ledger.answers.truncate(6)),
        Err(Imbalance::Unmatched)
    );
    assert_eq!(
        after_tampering(|ledger| ledger.answers.swap(4, 5)),
        Err(Imbalance::Unmatched)
    );
    // A forgotten forfeit, and a bill said to be accepted.
    assert_eq!(
        after_tampering(|ledger| bill_at(ledger, 4).forfeited[2] = 0),
        Err(Imbalance::Exported { period: 2 })
    );
    assert_eq!(
        after_tampering(|ledger| ledger.answers[3].number = 0),
        Err(Imbalance::Exported { period: 2 })
    );
    assert_eq!(
        after_tampering(|ledger| ledger.account.carried[0] = 1),
        Err(Imbalance::Exported { period: 0 })
    );
    assert_eq!(
        after_tampering(|ledger| bill_at(ledger, 4).billed[3] += 1),
        Err(Imbalance::Delivered { period: 3 })
    );
    // More moved in than out.
    assert_eq!(
        after_tampering(|ledger| {
            bill_at(ledger, 4).moved_out[1] -= 1;
            bill_at(ledger, 4).forfeited[1] += 1;
        }),
        Err(Imbalance::Moved)
    );
    assert_eq!(
        after_tampering(|ledger| bill_at(ledger, 4).granted += 1),
        Err(Imbalance::Money)
    );
    assert_eq!(
        after_tampering(|ledger| ledger.account.standing += 1),
        Err(Imbalance::Money)
    );
    // 100 Wh at discount billed though 400 on-peak were left.
    assert_eq!(
        after_tampering(|ledger| {
            let bill = bill_at(ledger, 4);
            bill.moved_out[1] = 0;
            bill.forfeited[1] = 100;
            bill.moved_in[3] = 0;
            bill.billed[3] = 100;
        }),
        Err(Imbalance::Charged { call: 4, period: 3 })
    );
    // 100 Wh on-peak billed though 400 were left in the same period.
    assert_eq!(
        after_tampering(|ledger| {
            let bill = bill_at(ledger, 4);
            bill.own[1] = 0;
            bill.forfeited[1] = 100;
            bill.billed[1] = 100;
        }),
        Err(Imbalance::Charged { call: 4, period: 1 })
    );
}

#[test]
fn the_check_takes_any_amounts() {
    let result = after_tampering(|ledger| {
        for call in [2, 3, 4] {
            bill_at(ledger, call).own = [u64::MAX; 4];
            bill_at(ledger, call).granted = u64::MAX;
        }
        ledger.account.carried = [u64::MAX; 4];
        ledger.account.standing = u64::MAX;
    });
    assert!(result.is_err());
}

/// Every month of the century with the same two readings in each quarter.
fn century(terms: Terms, price_list: PriceList, delivered: u32, received: u32) -> Vec<Call> {
    let mut calls = vec![opening(terms, price_list, 0)];
    for month in 0..=1_199 {
        let length = register_length(month);
        let registers = Registers {
            delivered: vec![delivered; length],
            received: vec![received; length],
        };
        calls.push(billing(month, registers));
    }
    calls.push(billing(1_200, Registers::zeros(31)));
    calls
}

#[test]
fn a_century_of_banked_months() {
    let calls = century(home(), prices(), 1, 2);
    let ledger = run(&calls);
    let totals = check_balances(&calls, &ledger.answers, &ledger.account).unwrap();
    assert_eq!(ledger.account.next_month, 1_200);
    assert!(numbers(&ledger)[..1_201].iter().all(|&number| number == 0));
    assert_eq!(numbers(&ledger)[1_201], 11);
    // 36,525 days of 96 quarters: each year that lacks an hour in March has one more in November.
    assert_eq!(totals.delivered.iter().sum::<u128>(), 3_506_400);
    assert_eq!(totals.exported.iter().sum::<u128>(), 7_012_800);
    assert_eq!(totals.own, totals.delivered);
    // After June 2099: 214 days from 1 June to 31 December, 96 Wh each, and 4 in the hour
    // that November has twice.
    assert_eq!(totals.left.iter().sum::<u128>(), 214 * 96 + 4);
}

#[test]
fn a_century_of_the_largest_export_stays_within_refusal_3() {
    let list = PriceList {
        credit: 1_000_000,
        ..PriceList::default()
    };
    let calls = century(bridge_home(), list, 0, 1_000_000);
    let ledger = run(&calls);
    check_balances(&calls, &ledger.answers, &ledger.account).unwrap();
    assert!(numbers(&ledger)[..1_201].iter().all(|&number| number == 0));
    // One cent for each Wh and nothing to pay.
    assert_eq!(ledger.account.standing, 3_506_400_000_000);
}
