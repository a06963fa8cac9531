//! 02, No. 3: one to eight nameplates, worked by hand. Every limit and charge goes by the total.

use crate::helpers::{bill, bridge_home, business, home, open_account, prices};
use crate::helpers::{Registers, FEBRUARY_2001, OFF_PEAK};
use harness::generate;
use harness::random::Random;
use harness::reference::account::{Account, Assisted, Nameplates, PriceList, Rider, State, Terms};
use harness::reference::calls::{billing, closing, opening, repricing};
use harness::reference::steps::{bypass, shortfall, standby};

fn with(terms: Terms, watts: &[u64]) -> Terms {
    let nameplates = Nameplates::of(watts).expect("one to eight");
    Terms {
        nameplates,
        demand_limit: u32::MAX,
        ..terms
    }
}

fn opened(terms: Terms) -> u32 {
    opening(Account::default(), terms, prices(), 0).0.number
}

/// With a count of any value; the places are as they are.
fn counted(terms: Terms, count: u64) -> Terms {
    let places = terms.nameplates.places;
    Terms {
        nameplates: Nameplates { count, places },
        ..terms
    }
}

#[test]
fn the_total_is_that_of_the_first_places() {
    let places = [1, 20, 300, 4_000, 50_000, 600_000, 7_000_000, 80_000_000];
    let total = |count| Nameplates { count, places }.total();
    assert_eq!(total(1), 1);
    assert_eq!(total(3), 321);
    assert_eq!(total(7), 7_654_321);
    assert_eq!(total(8), 87_654_321);
    // 8 × (2^64 − 1)
    let largest = Nameplates {
        count: 8,
        places: [u64::MAX; 8],
    };
    assert_eq!(largest.total(), 147_573_952_589_676_412_920);
    assert_eq!(Nameplates::of(&[]), None);
    assert_eq!(Nameplates::of(&[1; 9]), None);
}

#[test]
fn refusal_12_by_the_count() {
    let terms = with(home(), &[1_000; 8]);
    for count in 1..=8 {
        assert_eq!(opened(counted(terms, count)), 0);
    }
    // Those past 32 bits have 0, 1 and 8 in the lower half.
    for count in [
        0,
        9,
        10,
        256,
        257,
        1 << 32,
        (1 << 32) + 1,
        (1 << 32) + 8,
        u64::MAX,
    ] {
        assert_eq!(opened(counted(terms, count)), 12);
    }
}

#[test]
fn refusal_5_by_a_nameplate_of_0() {
    for count in 1..=8 {
        for place in 0..count {
            let mut watts = vec![1_000; count];
            watts[place] = 0;
            assert_eq!(opened(with(home(), &watts)), 5);
            watts[place] = 1;
            assert_eq!(opened(with(home(), &watts)), 0);
        }
    }
}

#[test]
fn refusal_5_by_the_total() {
    assert_eq!(opened(with(home(), &[10_000, 10_000])), 0);
    assert_eq!(opened(with(home(), &[10_000, 10_001])), 5);
    assert_eq!(opened(with(home(), &[2_500; 8])), 0);
    assert_eq!(opened(with(home(), &[1, 1, 1, 1, 1, 1, 1, 19_994])), 5);
    assert_eq!(opened(with(business(1), &[999_999, 1])), 0);
    assert_eq!(opened(with(business(1), &[1, 1_000_000])), 5);
    let limited = |watts: &[u64]| {
        opened(Terms {
            demand_limit: 9_000,
            ..with(home(), watts)
        })
    };
    assert_eq!(limited(&[5_000, 3_999]), 0);
    assert_eq!(limited(&[5_000, 4_000]), 0);
    assert_eq!(limited(&[5_000, 4_001]), 5);
}

#[test]
fn refusal_5_by_totals_past_32_and_64_bits() {
    for watts in [
        // In 32 bits 0, 1 and 5,000.
        &[4_294_967_295, 1][..],
        &[4_294_967_295, 2],
        &[4_294_967_296, 5_000],
        // In 64 bits 0, 1 and 5,000.
        &[u64::MAX, 1],
        &[u64::MAX, 2],
        &[1 << 63, (1 << 63) + 5_000],
        &[(1 << 61) + 625; 8],
        // As large as can be.
        &[u64::MAX; 8],
    ] {
        assert_eq!(opened(with(home(), watts)), 5);
        assert_eq!(opened(with(business(1), watts)), 5);
    }
}

#[test]
fn order_of_12() {
    let mut list = PriceList {
        energy: [0, 0, 0, 1],
        ..prices()
    };
    // More than eight, with a 0 among the places; a bridge business, too late.
    let mut terms = Terms {
        rider: Rider::Bridge,
        ..counted(business(0), 9)
    };
    let number = |terms, list| opening(Account::default(), terms, list, 1_200).0.number;
    assert_eq!(number(terms, list), 4);
    list = prices();
    assert_eq!(number(terms, list), 12);
    assert_eq!(number(counted(terms, 0), list), 12);
    terms = counted(terms, 1);
    assert_eq!(number(terms, list), 5);
}

/// The numbers of an opening, a repricing, a billing and a closing. Where they are refused the
/// account must be handed back as it came.
fn all_four(account: Account) -> [u32; 4] {
    let february = Registers::zeros(28);
    let (delivered, received) = (&february.delivered, &february.received);
    let (opening, opened) = opening(account, home(), prices(), 0);
    let (repricing, repriced) = repricing(account, prices());
    let (billing, billed) = billing(account, FEBRUARY_2001, delivered, received, 0);
    let (closing, closed) = closing(account);
    let numbers = [
        opening.number,
        repricing.number,
        billing.number,
        closing.number,
    ];
    for (number, after) in numbers.iter().zip([opened, repriced, billed, closed]) {
        assert!(*number == 0 || after == account);
    }
    numbers
}

#[test]
fn refusal_3_asks_for_an_open_accounts_nameplates() {
    let account = |state, terms| Account {
        state,
        terms,
        ..open_account(FEBRUARY_2001)
    };
    for terms in [
        counted(with(home(), &[1_000; 8]), 0),
        counted(with(home(), &[1_000; 8]), 9),
        counted(with(home(), &[1_000; 8]), 1 << 32),
        with(home(), &[1_000, 0, 1_000]),
        with(home(), &[10_000, 10_001]),
        with(business(1), &[u64::MAX, 2]),
        with(business(1), &[1 << 61; 8]),
    ] {
        assert_eq!(all_four(account(State::Open, terms)), [2, 3, 3, 3]);
        // A fresh account may hold anything.
        assert_eq!(all_four(account(State::Fresh, terms)), [0, 1, 1, 1]);
    }
    for count in 1..=8 {
        let watts = vec![1_000; count];
        let terms = with(home(), &watts);
        assert_eq!(all_four(account(State::Open, terms)), [2, 0, 0, 0]);
    }
}

#[test]
fn what_stands_past_the_count_is_no_nameplate() {
    for count in 1..8 {
        for junk in [0, 1, 20_000, u64::MAX] {
            let mut terms = with(home(), &[1_000; 8]);
            terms.nameplates.places[count..].fill(junk);
            let terms = counted(terms, count as u64);
            // It is handed back as it came, by each call.
            let (answer, account) = opening(Account::default(), terms, prices(), FEBRUARY_2001);
            assert_eq!((answer.number, account.terms), (0, terms));
            let (_, account) = bill(account, &Registers::zeros(28), 0);
            assert_eq!(account.terms, terms);
            let (answer, account) = repricing(account, prices());
            assert_eq!((answer.number, account.terms), (0, terms));
            let (answer, account) = closing(account);
            assert_eq!((answer.number, account.terms), (0, terms));
        }
    }
}

#[test]
fn charges_go_by_the_total() {
    let list = PriceList {
        standby: 172_350,
        bypass: 25,
        basic: 1_400,
        distribution: 4_493,
        minimum: 2_200,
        ..PriceList::default()
    };
    // Standby: nothing for 100,000 W; 100,001 W at 172,350 are 17,235.17 cents.
    assert_eq!(standby(&with(business(1), &[99_999, 1]), &list), 0);
    assert_eq!(
        standby(&with(business(1), &[60_000, 40_001]), &list),
        17_235
    );
    assert_eq!(standby(&with(business(1), &[12_500; 8]), &list), 0);
    assert_eq!(standby(&with(home(), &[60_000, 40_001]), &list), 0);
    // Bypass: half a cent is rounded up once, and not a quarter of a cent twice down.
    assert_eq!(bypass(&with(bridge_home(), &[10_000, 10_000]), &list), 1);
    assert_eq!(bypass(&with(bridge_home(), &[10_000, 9_999]), &list), 0);
    // Shortfall: f, g and h of the wall chart.
    let assisted = Terms {
        assisted: Assisted::Yes,
        ..bridge_home()
    };
    let billed = [0, 0, 100_000, 0];
    assert_eq!(
        shortfall(&with(assisted, &[5_000, 3_000]), &list, &billed),
        0
    );
    assert_eq!(
        shortfall(&with(assisted, &[5_000, 3_001]), &list, &billed),
        351
    );
    assert_eq!(shortfall(&with(assisted, &[1_000; 8]), &list, &billed), 0);
    assert_eq!(
        shortfall(&with(bridge_home(), &[1_000; 8]), &list, &billed),
        351
    );
}

#[test]
fn a_bill_of_two_roofs() {
    // A barn of 5,000 W and a house of 3,001 W, assisted; 7 W past the count.
    let mut terms = with(bridge_home(), &[5_000, 3_001, 7]);
    terms.nameplates.count = 2;
    terms.assisted = Assisted::Yes;
    let account = Account {
        terms,
        price_list: PriceList {
            bypass: 50_000,
            distribution: 4_493,
            minimum: 2_200,
            ..prices()
        },
        ..open_account(FEBRUARY_2001)
    };
    let registers = Registers::zeros(28).deliver(1, OFF_PEAK, 100_000);
    let (bill, after) = bill(account, &registers, 0);
    // 8,001 W at 50,000; 2,200 less 1,400 and 449; 100,000 Wh at 10,000.
    assert_eq!(
        (bill.bypass, bill.shortfall, bill.energy),
        (400, 351, 1_000)
    );
    assert_eq!(bill.due, 1_400 + 400 + 351 + 1_000);
    assert_eq!(after.terms, terms);
}

#[test]
fn random_terms_have_every_count_and_fault() {
    let mut counts = [0; 10];
    // A 0 among several, a total past 32 bits, one past 64, and junk behind accepted ones.
    let mut shown = [0; 4];
    for seed in 0..5_000 {
        let terms = generate::terms(&mut Random::new(seed));
        let Nameplates { count, places } = terms.nameplates;
        let each = terms.nameplates.each();
        counts[count.min(9) as usize] += 1;
        let known = (1..=8).contains(&count);
        let behind = &places[each.len()..];
        for (shown, is_shown) in shown.iter_mut().zip([
            known && each.len() > 1 && each.contains(&0),
            known && terms.nameplates.total() > u128::from(u32::MAX),
            known && terms.nameplates.total() > u128::from(u64::MAX),
            opened(terms) == 0 && behind.iter().any(|&watts| watts > 0),
        ]) {
            *shown += u32::from(is_shown);
        }
    }
    assert!(counts.iter().all(|&count| count >= 50), "{counts:?}");
    assert!(shown.iter().all(|&count| count >= 50), "{shown:?}");
}
