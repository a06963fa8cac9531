//! Accounts and registers to start from.

use harness::reference::account::{
    Account, Assisted, Bill, Class, Nameplates, PriceList, Rider, State, Terms,
};
use harness::reference::calls::billing;

// Months by their number: 12 × (year − 2000) + (month of the year − 1).
pub const JANUARY_2000: u32 = 0;
pub const FEBRUARY_2000: u32 = 1;
pub const FEBRUARY_2001: u32 = 13;
pub const MARCH_2001: u32 = 14;
pub const APRIL_2001: u32 = 15;
pub const MAY_2001: u32 = 16;
pub const JUNE_2001: u32 = 17;
pub const JULY_2001: u32 = 18;
pub const MARCH_2006: u32 = 74;
pub const NOVEMBER_2006: u32 = 82;
pub const MARCH_2007: u32 = 86;
pub const NOVEMBER_2007: u32 = 94;
pub const DECEMBER_2099: u32 = 1199;

/// 02, No. 4: the mark of a lost reading.
pub const LOST: u32 = 4_294_967_295;

// One quarter of each window.
pub const OFF_PEAK: usize = 0;
pub const DISCOUNT: usize = 4;
pub const WINTER_ON_PEAK: usize = 68;
pub const SUMMER_ON_PEAK: usize = 52;

/// The terms of 01's example.
pub fn home() -> Terms {
    Terms {
        rider: Rider::Banked,
        class: Class::Home,
        nameplates: Nameplates::one(8_000),
        demand_limit: 9_000,
        assisted: Assisted::No,
    }
}

/// The price list of 01's example.
pub fn prices() -> PriceList {
    PriceList {
        energy: [30_000, 20_000, 10_000, 5_000],
        basic: 1_400,
        ..PriceList::default()
    }
}

pub fn bridge_home() -> Terms {
    Terms {
        rider: Rider::Bridge,
        ..home()
    }
}

pub fn business(nameplate: u32) -> Terms {
    Terms {
        class: Class::Business,
        nameplates: Nameplates::one(u64::from(nameplate)),
        demand_limit: nameplate,
        ..home()
    }
}

/// An open account with the example's terms and price list.
pub fn open_account(next_month: u32) -> Account {
    Account {
        state: State::Open,
        terms: home(),
        price_list: prices(),
        next_month,
        carried: [0; 4],
        standing: 0,
    }
}

/// An open account whose demand costs a cent for each Wh of a pair of quarters.
pub fn account_with_demand(next_month: u32) -> Account {
    Account {
        price_list: PriceList {
            demand: 500_000,
            ..prices()
        },
        ..open_account(next_month)
    }
}

/// The two registers of a month.
#[derive(Clone)]
pub struct Registers {
    pub delivered: Vec<u32>,
    pub received: Vec<u32>,
}

impl Registers {
    /// A month of so many days with every reading 0.
    pub fn zeros(days: usize) -> Registers {
        Registers::of_length(96 * days)
    }

    /// A month of so many readings, each of them 0.
    pub fn of_length(length: usize) -> Registers {
        Registers {
            delivered: vec![0; length],
            received: vec![0; length],
        }
    }

    pub fn deliver(mut self, day: usize, quarter: usize, wh: u32) -> Registers {
        self.delivered[96 * (day - 1) + quarter] = wh;
        self
    }

    pub fn receive(mut self, day: usize, quarter: usize, wh: u32) -> Registers {
        self.received[96 * (day - 1) + quarter] = wh;
        self
    }

    /// So many delivered readings from a quarter on are lost.
    pub fn lose_delivered(mut self, day: usize, quarter: usize, count: usize) -> Registers {
        self.delivered[96 * (day - 1) + quarter..][..count].fill(LOST);
        self
    }

    /// So many received readings from a quarter on are lost.
    pub fn lose_received(mut self, day: usize, quarter: usize, count: usize) -> Registers {
        self.received[96 * (day - 1) + quarter..][..count].fill(LOST);
        self
    }
}

/// Bills the account's next month, which must be accepted.
pub fn bill(account: Account, registers: &Registers, critical_days: u32) -> (Bill, Account) {
    let (answer, after) = billing(
        account,
        account.next_month,
        &registers.delivered,
        &registers.received,
        critical_days,
    );
    assert_eq!(answer.number, 0);
    (answer.amounts, after)
}
