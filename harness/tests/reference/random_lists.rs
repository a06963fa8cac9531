//! Random lists of calls, and random calls on accounts made by hand.

use harness::generate;
use harness::random::Random;
use harness::reference::account::{Account, Bill, Closing};
use harness::reference::ledger::{answer, check_balances, run, Amounts, Call, Totals};
use std::collections::BTreeSet;

const LISTS: u64 = 3_000;
const HAND_MADE: u64 = 10_000;

fn any(amounts: &[u128; 4]) -> bool {
    amounts.iter().any(|&amount| amount > 0)
}

#[test]
fn random_numbers_depend_on_the_seed_alone() {
    // The published first numbers of splitmix64 for the seed 1234567.
    let mut random = Random::new(1_234_567);
    assert_eq!(random.next_u64(), 6_457_827_717_110_365_317);
    assert_eq!(random.next_u64(), 3_203_168_211_198_807_973);
    assert_eq!(random.below(0), 0);
    assert!((0..1_000).all(|_| random.below(3) < 3));
    // Numbers aside leave the next ones as they are, and are others.
    let mut random = Random::new(1_234_567);
    assert_ne!(random.aside().next_u64(), 6_457_827_717_110_365_317);
    assert_eq!(random.next_u64(), 6_457_827_717_110_365_317);
}

#[test]
fn balances_hold_over_random_lists() {
    let mut numbers_met = BTreeSet::new();
    // What at least one list must have shown, so that the test isn't empty.
    let mut shown = [false; 8];
    for seed in 0..LISTS {
        let mut random = Random::new(seed);
        let length = random.up_to(24) as usize;
        let calls = generate::list(&mut random, length);
        let ledger = run(&calls);
        let checked = check_balances(&calls, &ledger.answers, &ledger.account);
        let totals = checked.unwrap_or_else(|imbalance| panic!("seed {seed}: {imbalance:?}"));
        numbers_met.extend(ledger.answers.iter().map(|answer| answer.number));
        for (was_shown, is_shown) in shown.iter_mut().zip(shows(&totals)) {
            *was_shown |= is_shown;
        }
    }
    assert_eq!(numbers_met, (0..=13).collect());
    assert_eq!(shown, [true; 8]);
}

fn shows(totals: &Totals) -> [bool; 8] {
    [
        any(&totals.own),
        any(&totals.moved_out),
        any(&totals.billed),
        any(&totals.paid),
        any(&totals.forfeited),
        any(&totals.left),
        totals.refunded > 0,
        totals.used > 0 && totals.standing > 0,
    ]
}

/// A refusal has zeros and hands back the account as it came.
fn assert_refusal(account: &Account, after: &Account, amounts: &Amounts) {
    assert_eq!(account, after);
    match amounts {
        Amounts::None => {}
        Amounts::Bill(bill) => assert_eq!(*bill, Bill::default()),
        Amounts::Closing(closing) => assert_eq!(*closing, Closing::default()),
    }
}

#[test]
fn any_account_answers_any_call() {
    let mut numbers_met = BTreeSet::new();
    for seed in 0..HAND_MADE {
        let mut random = Random::new(seed);
        let account = generate::account(&mut random);
        let call = generate::call(&mut random, &account);
        let (answer, after) = answer(account, &call);
        numbers_met.insert((call_number(&call), answer.number));
        if answer.number > 0 {
            assert_refusal(&account, &after, &answer.amounts);
        } else if let Amounts::Bill(bill) = answer.amounts {
            assert_bill_balances(&account, &after, &bill);
        }
    }
    let expected: BTreeSet<(u32, u32)> = [
        (0, &[0, 2, 3, 4, 5, 6, 7, 12][..]),
        (1, &[0, 1, 3, 4]),
        (2, &[0, 1, 3, 7, 8, 9, 10, 11, 13]),
        (3, &[0, 1, 3]),
    ]
    .iter()
    .flat_map(|&(call, numbers)| numbers.iter().map(move |&number| (call, number)))
    .collect();
    assert_eq!(numbers_met, expected);
}

fn call_number(call: &Call) -> u32 {
    match call {
        Call::Opening { .. } => 0,
        Call::Repricing { .. } => 1,
        Call::Billing { .. } => 2,
        Call::Closing => 3,
    }
}

/// The balances of a single bill, with what the account brought.
fn assert_bill_balances(before: &Account, after: &Account, bill: &Bill) {
    for period in 0..4 {
        let brought = before.carried[period] + bill.exported[period];
        let went = bill.own[period]
            + bill.moved_out[period]
            + bill.paid[period]
            + bill.forfeited[period]
            + bill.left[period];
        assert_eq!(brought, went);
        let met = bill.own[period] + bill.moved_in[period] + bill.billed[period];
        assert_eq!(bill.delivered[period], met);
    }
    assert_eq!(before.standing + bill.granted, bill.used + bill.standing);
    assert_eq!(bill.gross, bill.used + bill.due);
    assert_eq!(after.carried, bill.left);
    assert_eq!(after.standing, bill.standing);
    assert_eq!(after.next_month, before.next_month + 1);
}
