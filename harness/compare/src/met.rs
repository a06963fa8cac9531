//! What the compared lists have met, so that a comparison can't be clean for want of
//! cases: each number that each kind of call answers, and each amount other than 0.

use crate::compare::Written;
use crate::encode::{
    account_name, record_of, row_name, ACCOUNT, BILLING, CLOSING, KIND, OPENING, REPRICING, ROW,
};
use harness::reference::ledger::Call;
use std::collections::BTreeSet;

/// The numbers that each kind of call can answer.
const NUMBERS: [(u64, &[u64]); 4] = [
    (OPENING, &[0, 2, 3, 4, 5, 6, 7, 12]),
    (REPRICING, &[0, 1, 3, 4]),
    (BILLING, &[0, 1, 3, 7, 8, 9, 10, 11, 13]),
    (CLOSING, &[0, 1, 3]),
];

/// Moved out of the cheapest period and into the dearest: always 0.
const ALWAYS_ZERO: [usize; 2] = [28, 29];

#[derive(Default)]
pub struct Met {
    /// Kind of call and number answered.
    numbers: BTreeSet<(u64, u64)>,
    row_places: BTreeSet<usize>,
    account_places: BTreeSet<usize>,
}

impl Met {
    pub fn add(&mut self, calls: &[Call], library: &Written) {
        let not_zero = |numbers: &[u64]| -> Vec<usize> {
            (0..numbers.len())
                .filter(|&place| numbers[place] > 0)
                .collect()
        };
        for (call, row) in calls.iter().zip(library.answers.chunks(ROW)) {
            self.numbers.insert((record_of(call)[KIND], row[0]));
            self.row_places.extend(not_zero(row));
        }
        self.account_places
            .extend(not_zero(&library.account[..ACCOUNT]));
    }

    /// In words, what wasn't met.
    pub fn missing(&self) -> Vec<String> {
        let numbers = NUMBERS.iter().flat_map(|&(kind, numbers)| {
            let unmet = move |number: &&u64| !self.numbers.contains(&(kind, **number));
            numbers
                .iter()
                .filter(unmet)
                .map(move |number| format!("call of kind {kind} that answers {number}"))
        });
        let rows = (0..ROW)
            .filter(|place| !self.row_places.contains(place) && !ALWAYS_ZERO.contains(place))
            .map(|place| format!("answer with {}", row_name(place)));
        let accounts = (0..ACCOUNT)
            .filter(|place| !self.account_places.contains(place))
            .map(|place| format!("last account with {}", account_name(place)));
        numbers.chain(rows).chain(accounts).collect()
    }
}
