//! 01, "Account and price list": opening, repricing, billing and closing.
//!
//! Each takes the account as it is and hands it back with the answer. A refusal
//! has 0 in every amount and hands back the account as it came.

use super::account::{Account, Answer, Bill, Closing, PriceList, State, Terms};
use super::refusal::{self, Refusal};
use super::steps;

fn accepted<Amounts>(amounts: Amounts, account: Account) -> (Answer<Amounts>, Account) {
    (Answer { number: 0, amounts }, account)
}

fn refused<Amounts: Default>(refusal: Refusal, account: Account) -> (Answer<Amounts>, Account) {
    let answer = Answer {
        number: refusal.number(),
        amounts: Amounts::default(),
    };
    (answer, account)
}

/// The first month becomes the next month; carried and standing start at 0.
pub fn opening(
    account: Account,
    terms: Terms,
    price_list: PriceList,
    first_month: u32,
) -> (Answer<()>, Account) {
    if let Some(refusal) = refusal::of_opening(&account, &terms, &price_list, first_month) {
        return refused(refusal, account);
    }
    let opened = Account {
        state: State::Open,
        terms,
        price_list,
        next_month: first_month,
        carried: [0; 4],
        standing: 0,
    };
    accepted((), opened)
}

/// The price list for the months billed afterwards.
pub fn repricing(account: Account, price_list: PriceList) -> (Answer<()>, Account) {
    if let Some(refusal) = refusal::of_repricing(&account, &price_list) {
        return refused(refusal, account);
    }
    let repriced = Account {
        price_list,
        ..account
    };
    accepted((), repriced)
}

/// One month, from its two registers and its critical days.
pub fn billing(
    account: Account,
    month: u32,
    delivered: &[u32],
    received: &[u32],
    critical_days: u32,
) -> (Answer<Bill>, Account) {
    let refusal = refusal::of_billing(&account, month, delivered, received, critical_days);
    if let Some(refusal) = refusal {
        return refused(refusal, account);
    }
    let bill = steps::bill(&account, month, delivered, received, critical_days);
    let billed = Account {
        // Step 5
        carried: bill.left,
        // Step 8
        standing: bill.standing,
        // Step 9; refusal 11 leaves at most 1199 before it.
        next_month: account.next_month + 1,
        ..account
    };
    accepted(bill, billed)
}

/// All carried Wh are forfeited and all standing money is refunded.
pub fn closing(account: Account) -> (Answer<Closing>, Account) {
    if let Some(refusal) = refusal::of_closing(&account) {
        return refused(refusal, account);
    }
    let amounts = Closing {
        forfeited: account.carried,
        refunded: account.standing,
    };
    let closed = Account {
        state: State::Closed,
        carried: [0; 4],
        standing: 0,
        ..account
    };
    accepted(amounts, closed)
}
