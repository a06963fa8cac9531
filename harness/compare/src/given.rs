//! One call on an account made by hand, impossible ones among them; and numbers that
//! are no account or no call, which must leave everything as it was.

use crate::boundary;
use crate::compare::{Difference, Room, Written};
use crate::encode::{
    account_row, record_of, ACCOUNT, ASSISTED, CLASS, KIND, NEXT, RIDER, ROW, STAGE,
};
use crate::interface;
use crate::rules::Rules;
use crate::wrong::{self, Wrong};
use harness::generate;
use harness::random::Random;
use harness::reference::account::Account;
use harness::reference::ledger::{Call, Ledger};

/// A call, the account that it meets, and the room for what is written.
pub struct Given {
    pub name: String,
    pub account: Account,
    pub call: Call,
    pub room: Room,
}

/// So many of them, each from its own seed.
pub fn random(first_seed: u64, count: u64) -> impl Iterator<Item = Given> {
    (0..count).map(move |index| {
        let seed = first_seed.wrapping_add(index);
        let mut random = Random::new(seed);
        let account = generate::account(&mut random);
        let call = generate::call(&mut random, &account);
        let room = match random.once_in(10) {
            true => Room {
                answers: random.pick([0, 1, 44, ROW - 1, ROW]),
                account: random.pick([0, 1, 17, ACCOUNT - 1, ACCOUNT]),
            },
            false => Room::for_calls(1),
        };
        Given {
            name: format!("call on a given account of seed {seed}"),
            account,
            call,
            room,
        }
    })
}

/// Calls on accounts at each bound, and with each set of nameplates.
pub fn boundary() -> impl Iterator<Item = Given> {
    let accounts = boundary::accounts().into_iter().enumerate();
    accounts.map(|(index, (account, call))| Given {
        name: format!("call on given account {index}"),
        account,
        call,
        room: Room::for_calls(1),
    })
}

impl Given {
    pub fn by_library(&self) -> Option<Written> {
        by_library(
            &account_row(&self.account),
            &record_of(&self.call),
            &self.call,
            self.room,
        )
    }

    pub fn expected(&self, rules: &Rules) -> Written {
        let (answer, account) = rules.answer(&self.account, &self.call);
        let account = (rules.after)(&self.account, &self.call, account);
        let ledger = Ledger {
            answers: vec![answer],
            account,
        };
        Written::expected(&ledger, self.room)
    }

    /// The number of the answer, 0 or a refusal.
    pub fn number(&self) -> u32 {
        Rules::RIGHT.answer(&self.account, &self.call).0.number
    }

    /// Changes of the numbers after which they are no account or no call.
    pub fn spoiled(&self) -> Vec<(&'static str, Vec<u64>, Vec<u64>)> {
        let account = account_row(&self.account).to_vec();
        let call = record_of(&self.call).to_vec();
        let with = |numbers: &[u64], place: usize, number: u64| {
            let mut numbers = numbers.to_vec();
            numbers[place] = number;
            numbers
        };
        let longer = |numbers: &[u64]| [numbers, &[0]].concat();
        let shorter = |numbers: &[u64]| numbers[..numbers.len() - 1].to_vec();
        let mut spoiled = vec![
            ("stage 3", with(&account, STAGE, 3), call.clone()),
            (
                "rider 2 of the account",
                with(&account, RIDER, 2),
                call.clone(),
            ),
            (
                "class 2 of the account",
                with(&account, CLASS, 2),
                call.clone(),
            ),
            (
                "assisted 2 of the account",
                with(&account, ASSISTED, 2),
                call.clone(),
            ),
            (
                "next month of 33 bits",
                with(&account, NEXT, 1 << 32),
                call.clone(),
            ),
            (
                "a number more of an account",
                longer(&account),
                call.clone(),
            ),
            (
                "a number fewer of an account",
                shorter(&account),
                call.clone(),
            ),
            (
                "an account of the layout before",
                account[..23].to_vec(),
                call.clone(),
            ),
            ("no numbers of an account", vec![], call.clone()),
            ("kind 4", account.clone(), with(&call, KIND, 4)),
            ("a number more of a call", account.clone(), longer(&call)),
            ("a number fewer of a call", account.clone(), shorter(&call)),
            (
                "a call of the layout before",
                account.clone(),
                call[..18].to_vec(),
            ),
            ("no numbers of a call", account.clone(), vec![]),
        ];
        // A code is known or not by its whole number.
        for code in [4, 5, 7, 9, 256, 257, 1 << 32, (1 << 32) + 1, u64::MAX] {
            for place in [STAGE, RIDER, CLASS, ASSISTED] {
                let account = with(&account, place, code);
                spoiled.push(("another code of the account", account, call.clone()));
            }
            spoiled.push(("another kind", account.clone(), with(&call, KIND, code)));
        }
        spoiled
    }

    /// Whether the library leaves both buffers as they were for such numbers.
    pub fn is_left_alone(&self, account: &[u64], call: &[u64]) -> bool {
        by_library(account, call, &self.call, self.room).is_none()
    }
}

/// What the library writes, or nothing where it says that it wrote nothing, and did so.
fn by_library(account: &[u64], record: &[u64], call: &Call, room: Room) -> Option<Written> {
    let (delivered, received): (&[u32], &[u32]) = match call {
        Call::Billing {
            delivered,
            received,
            ..
        } => (delivered, received),
        _ => (&[], &[]),
    };
    let mut written = Written::untouched(room);
    let known = interface::call(
        account,
        record,
        delivered,
        received,
        &mut written.answers,
        &mut written.account,
    );
    match known == 0 && written == Written::untouched(room) {
        true => None,
        false => {
            assert!(known == 1, "buffers were written and {known} returned");
            Some(written)
        }
    }
}

/// The cases that must be met: each kind of call accepted, and refused by number 3.
#[derive(Default)]
pub struct Met {
    accepted: [bool; 4],
    impossible: [bool; 4],
}

impl Met {
    pub fn add(&mut self, given: &Given) {
        let kind = record_of(&given.call)[KIND] as usize;
        match given.number() {
            0 => self.accepted[kind] = true,
            3 => self.impossible[kind] = true,
            _ => {}
        }
    }

    pub fn is_complete(&self) -> bool {
        self.accepted == [true; 4] && self.impossible == [true; 4]
    }
}

/// The wrong variants that only a given account can show.
pub struct Watch {
    pub unnoticed: Vec<Wrong>,
}

impl Watch {
    pub fn new() -> Watch {
        Watch {
            unnoticed: wrong::given(),
        }
    }

    pub fn look(&mut self, given: &Given, library: &Written) {
        self.unnoticed
            .retain(|wrong| Difference::between(library, &given.expected(&wrong.rules)).is_none());
    }
}
