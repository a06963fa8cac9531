//! 01, end of "Account and price list": a list of calls, and the balances that
//! hold over its answers.

use super::account::{Account, Answer, Bill, Closing, PriceList, Terms};
use super::calls;
use super::steps::sum_by_period;

#[derive(Clone, Debug, PartialEq, Eq)]
pub enum Call {
    Opening {
        terms: Terms,
        price_list: PriceList,
        first_month: u32,
    },
    Repricing {
        price_list: PriceList,
    },
    Billing {
        month: u32,
        delivered: Vec<u32>,
        received: Vec<u32>,
        critical_days: u32,
    },
    Closing,
}

/// The amounts of any call's answer; an opening and a repricing have none.
#[allow(clippy::large_enum_variant)]
#[derive(Clone, Copy, Debug, PartialEq, Eq)]
pub enum Amounts {
    None,
    Bill(Bill),
    Closing(Closing),
}

/// The answers to a list of calls, and the account after it.
#[derive(Clone, Debug, PartialEq, Eq)]
pub struct Ledger {
    pub answers: Vec<Answer<Amounts>>,
    pub account: Account,
}

fn with_amounts<Own>(answer: Answer<Own>, amounts: impl Fn(Own) -> Amounts) -> Answer<Amounts> {
    Answer {
        number: answer.number,
        amounts: amounts(answer.amounts),
    }
}

/// One call on any account.
pub fn answer(account: Account, call: &Call) -> (Answer<Amounts>, Account) {
    match call {
        Call::Opening {
            terms,
            price_list,
            first_month,
        } => {
            let (answer, account) = calls::opening(account, *terms, *price_list, *first_month);
            (with_amounts(answer, |()| Amounts::None), account)
        }
        Call::Repricing { price_list } => {
            let (answer, account) = calls::repricing(account, *price_list);
            (with_amounts(answer, |()| Amounts::None), account)
        }
        Call::Billing {
            month,
            delivered,
            received,
            critical_days,
        } => {
            let (answer, account) =
                calls::billing(account, *month, delivered, received, *critical_days);
            (with_amounts(answer, Amounts::Bill), account)
        }
        Call::Closing => {
            let (answer, account) = calls::closing(account);
            (with_amounts(answer, Amounts::Closing), account)
        }
    }
}

/// A list of calls from the fresh account.
pub fn run(calls: &[Call]) -> Ledger {
    let mut ledger = Ledger {
        answers: Vec::new(),
        account: Account::default(),
    };
    for call in calls {
        let (answer, account) = answer(ledger.account, call);
        ledger.answers.push(answer);
        ledger.account = account;
    }
    ledger
}

/// Demand 3's totals over a list of calls.
#[derive(Clone, Copy, Debug, Default, PartialEq, Eq)]
pub struct Totals {
    // From the registers of the bills answered 0, filled.
    pub exported: [u128; 4],
    pub delivered: [u128; 4],
    // From the bills.
    pub own: [u128; 4],
    pub moved_out: [u128; 4],
    pub moved_in: [u128; 4],
    pub billed: [u128; 4],
    pub paid: [u128; 4],
    pub granted: u128,
    pub used: u128,
    // From bills and closings.
    pub forfeited: [u128; 4],
    // From closings.
    pub refunded: u128,
    // From the account after the list.
    pub left: [u128; 4],
    pub standing: u128,
}

fn add(total: &mut [u128; 4], amounts: &[u64; 4]) {
    for period in 0..4 {
        total[period] += u128::from(amounts[period]);
    }
}

pub fn totals(calls: &[Call], answers: &[Answer<Amounts>], last: &Account) -> Totals {
    let mut totals = Totals {
        left: last.carried.map(u128::from),
        standing: u128::from(last.standing),
        ..Totals::default()
    };
    for (call, answer) in calls.iter().zip(answers) {
        match call {
            Call::Billing {
                month,
                delivered,
                received,
                critical_days,
            } if answer.number == 0 => {
                let exported = sum_by_period(*month, *critical_days, received);
                let delivered = sum_by_period(*month, *critical_days, delivered);
                add(&mut totals.exported, &exported);
                add(&mut totals.delivered, &delivered);
            }
            _ => {}
        }
    }
    for answer in answers {
        match &answer.amounts {
            Amounts::None => {}
            Amounts::Bill(bill) => {
                add(&mut totals.own, &bill.own);
                add(&mut totals.moved_out, &bill.moved_out);
                add(&mut totals.moved_in, &bill.moved_in);
                add(&mut totals.billed, &bill.billed);
                add(&mut totals.paid, &bill.paid);
                add(&mut totals.forfeited, &bill.forfeited);
                totals.granted += u128::from(bill.granted);
                totals.used += u128::from(bill.used);
            }
            Amounts::Closing(closing) => {
                add(&mut totals.forfeited, &closing.forfeited);
                totals.refunded += u128::from(closing.refunded);
            }
        }
    }
    totals
}

/// Which balance of demand 3 fails first.
#[derive(Clone, Copy, Debug, PartialEq, Eq)]
pub enum Imbalance {
    /// The answers aren't one for each call, each with its call's amounts.
    Unmatched,
    /// Exported isn't own + moved out + paid + forfeited + left.
    Exported { period: usize },
    /// Delivered isn't own + moved in + billed.
    Delivered { period: usize },
    /// All moved out isn't all moved in.
    Moved,
    /// Granted isn't used + refunded + standing.
    Money,
    /// The bill charges this period, with credit over there or in a dearer one.
    Charged { call: usize, period: usize },
}

/// Demand 3 over a list of calls, the answers to it and the account after it.
pub fn check_balances(
    calls: &[Call],
    answers: &[Answer<Amounts>],
    last: &Account,
) -> Result<Totals, Imbalance> {
    let matched = calls.len() == answers.len()
        && calls.iter().zip(answers).all(|(call, answer)| {
            matches!(
                (call, &answer.amounts),
                (Call::Opening { .. } | Call::Repricing { .. }, Amounts::None)
                    | (Call::Billing { .. }, Amounts::Bill(_))
                    | (Call::Closing, Amounts::Closing(_))
            )
        });
    if !matched {
        return Err(Imbalance::Unmatched);
    }
    let totals = totals(calls, answers, last);
    check_energy(&totals)?;
    check_money(&totals)?;
    for (call, answer) in answers.iter().enumerate() {
        if let Amounts::Bill(bill) = &answer.amounts {
            check_charged(call, bill)?;
        }
    }
    Ok(totals)
}

fn check_energy(totals: &Totals) -> Result<(), Imbalance> {
    for period in 0..4 {
        let export_went_to = totals.own[period]
            + totals.moved_out[period]
            + totals.paid[period]
            + totals.forfeited[period]
            + totals.left[period];
        if totals.exported[period] != export_went_to {
            return Err(Imbalance::Exported { period });
        }
        let delivery_met_by = totals.own[period] + totals.moved_in[period] + totals.billed[period];
        if totals.delivered[period] != delivery_met_by {
            return Err(Imbalance::Delivered { period });
        }
    }
    let moved_out: u128 = totals.moved_out.iter().sum();
    let moved_in: u128 = totals.moved_in.iter().sum();
    if moved_out != moved_in {
        return Err(Imbalance::Moved);
    }
    Ok(())
}

fn check_money(totals: &Totals) -> Result<(), Imbalance> {
    if totals.granted != totals.used + totals.refunded + totals.standing {
        return Err(Imbalance::Money);
    }
    Ok(())
}

/// A bill that charges a Wh in a period has left 0 and paid 0 there and in each
/// dearer period, those of lower number.
fn check_charged(call: usize, bill: &Bill) -> Result<(), Imbalance> {
    for period in 0..4 {
        let credit_over = (0..=period).any(|dearer| bill.left[dearer] > 0 || bill.paid[dearer] > 0);
        if bill.billed[period] > 0 && credit_over {
            return Err(Imbalance::Charged { call, period });
        }
    }
    Ok(())
}
