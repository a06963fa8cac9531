//! The lists that are compared: boundaries, whole books and random lists.

use crate::boundary;
use harness::generate;
use harness::random::Random;
use harness::reference::account::{Account, Assisted, Class, Nameplates, PriceList, Rider, Terms};
use harness::reference::calendar::LAST_MONTH;
use harness::reference::hours::register_length;
use harness::reference::ledger::{answer, Call};
use harness::reference::refusal::{LARGEST_PRICE, LARGEST_READING};

/// Random lists that are always compared, whatever seed is given.
const FIXED_RANDOM: u64 = 200;
/// Most calls of a random list.
const LONGEST: u32 = 24;

pub struct List {
    pub name: String,
    pub calls: Vec<Call>,
}

/// The lists that don't depend on the command line.
pub fn fixed() -> impl Iterator<Item = List> {
    boundary::lists()
        .into_iter()
        .chain(random(0, FIXED_RANDOM))
        .chain(books())
}

/// So many random lists, each from its own seed.
pub fn random(first_seed: u64, count: u64) -> impl Iterator<Item = List> {
    (0..count).map(move |index| {
        let seed = first_seed.wrapping_add(index);
        let mut random = Random::new(seed);
        let length = random.up_to(LONGEST) as usize;
        List {
            name: format!("random list of seed {seed}"),
            calls: generate::list(&mut random, length),
        }
    })
}

/// All 1,200 months in order, for accounts of each kind.
fn books() -> impl Iterator<Item = List> {
    let random = [
        (Rider::Banked, Class::Home, Assisted::No),
        (Rider::Banked, Class::Home, Assisted::Yes),
        (Rider::Banked, Class::Business, Assisted::No),
        (Rider::Bridge, Class::Home, Assisted::No),
        (Rider::Bridge, Class::Home, Assisted::Yes),
    ]
    .into_iter()
    .zip(0..)
    .map(|((rider, class, assisted), seed)| List {
        name: format!("book of {rider:?} {class:?}, assisted {assisted:?}"),
        calls: random_book(&mut Random::new(seed), rider, class, assisted),
    });
    let largest = [
        (Rider::Banked, 0, LARGEST_READING),
        (Rider::Bridge, 0, LARGEST_READING),
        (Rider::Bridge, LARGEST_READING, 0),
    ]
    .into_iter()
    .map(|(rider, delivered, received)| List {
        name: format!("book of {rider:?}, each reading {delivered} and {received}"),
        calls: even_book(rider, delivered, received),
    });
    random.chain(largest)
}

/// Random calls until the book is full, and some more.
fn random_book(random: &mut Random, rider: Rider, class: Class, assisted: Assisted) -> Vec<Call> {
    let mut account = Account::default();
    let mut calls = Vec::new();
    while account.next_month <= LAST_MONTH {
        let call = match generate::call(random, &account) {
            Call::Opening {
                terms, price_list, ..
            } => Call::Opening {
                terms: Terms {
                    rider,
                    class,
                    assisted,
                    ..terms
                },
                price_list,
                first_month: 0,
            },
            Call::Closing => continue,
            call => call,
        };
        account = answer(account, &call).1;
        calls.push(call);
    }
    for _ in 0..20 {
        calls.push(generate::call(random, &account));
    }
    calls
}

/// The same readings in every quarter, at the largest prices.
fn even_book(rider: Rider, delivered: u32, received: u32) -> Vec<Call> {
    let opening = Call::Opening {
        terms: Terms {
            rider,
            class: Class::Home,
            nameplates: Nameplates::one(20_000),
            demand_limit: 20_000,
            assisted: Assisted::No,
        },
        price_list: PriceList {
            energy: [LARGEST_PRICE; 4],
            demand: LARGEST_PRICE,
            standby: LARGEST_PRICE,
            bypass: LARGEST_PRICE,
            credit: LARGEST_PRICE,
            distribution: 0,
            basic: 0,
            minimum: LARGEST_PRICE,
        },
        first_month: 0,
    };
    let bills = (0..=LAST_MONTH + 1).map(|month| Call::Billing {
        month,
        delivered: vec![delivered; register_length(month)],
        received: vec![received; register_length(month)],
        critical_days: 0b11_1111_1111 << (month % 18),
    });
    [opening]
        .into_iter()
        .chain(bills)
        .chain([Call::Closing, Call::Closing])
        .collect()
}
