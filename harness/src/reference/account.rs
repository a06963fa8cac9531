//! 01, "Account and price list": what an account holds and what a call answers.
//!
//! All fields are public, so that accounts which no list of calls can reach may
//! be made by hand.

/// One amount for each period, by the period's number.
pub type ByPeriod = [u64; 4];

#[derive(Clone, Copy, Debug, Default, PartialEq, Eq)]
pub enum State {
    #[default]
    Fresh,
    Open,
    Closed,
}

#[derive(Clone, Copy, Debug, Default, PartialEq, Eq)]
pub enum Rider {
    #[default]
    Banked,
    Bridge,
}

#[derive(Clone, Copy, Debug, Default, PartialEq, Eq)]
pub enum Class {
    #[default]
    Home,
    Business,
}

#[derive(Clone, Copy, Debug, Default, PartialEq, Eq)]
pub enum Assisted {
    #[default]
    No,
    Yes,
}

/// Places for nameplates (02, No. 3).
pub const MOST_NAMEPLATES: usize = 8;

/// 02, No. 3: a count, which may be any number, and eight places of W. The nameplates are the
/// first places, as many as the count says; no rule looks at what stands past them.
#[derive(Clone, Copy, Debug, Default, PartialEq, Eq)]
pub struct Nameplates {
    pub count: u64,
    pub places: [u64; MOST_NAMEPLATES],
}

impl Nameplates {
    pub const fn one(watts: u64) -> Nameplates {
        Nameplates {
            count: 1,
            places: [watts, 0, 0, 0, 0, 0, 0, 0],
        }
    }

    /// One to eight, with 0 past them; nothing where there are none or more.
    pub fn of(watts: &[u64]) -> Option<Nameplates> {
        let mut places = [0; MOST_NAMEPLATES];
        places.get_mut(..watts.len())?.copy_from_slice(watts);
        (!watts.is_empty()).then_some(Nameplates {
            count: watts.len() as u64,
            places,
        })
    }

    /// The nameplates; all eight places where the count is above eight.
    pub fn each(&self) -> &[u64] {
        let count = usize::try_from(self.count).unwrap_or(usize::MAX);
        &self.places[..count.min(MOST_NAMEPLATES)]
    }

    /// Eight numbers of 64 bits don't fit 64.
    pub fn total(&self) -> u128 {
        self.each().iter().map(|&watts| u128::from(watts)).sum()
    }
}

/// Powers are in W.
#[derive(Clone, Copy, Debug, Default, PartialEq, Eq)]
pub struct Terms {
    pub rider: Rider,
    pub class: Class,
    pub nameplates: Nameplates,
    pub demand_limit: u32,
    pub assisted: Assisted,
}

/// Prices are in hundred-thousandths of a dollar per kWh or per kW; basic and
/// minimum are in cents.
#[derive(Clone, Copy, Debug, Default, PartialEq, Eq)]
pub struct PriceList {
    pub energy: [u32; 4],
    pub demand: u32,
    pub standby: u32,
    pub bypass: u32,
    pub credit: u32,
    pub distribution: u32,
    pub basic: u32,
    pub minimum: u32,
}

/// The default is the fresh account that a list of calls starts from: all zeros.
#[derive(Clone, Copy, Debug, Default, PartialEq, Eq)]
pub struct Account {
    pub state: State,
    pub terms: Terms,
    pub price_list: PriceList,
    pub next_month: u32,
    /// Wh.
    pub carried: ByPeriod,
    /// Cents.
    pub standing: u64,
}

/// Every amount that steps 1 to 8 name. The default, all zeros, is a refusal's.
#[derive(Clone, Copy, Debug, Default, PartialEq, Eq)]
pub struct Bill {
    // Wh by period.
    pub forfeited: ByPeriod,
    pub delivered: ByPeriod,
    pub exported: ByPeriod,
    pub own: ByPeriod,
    /// As step 3 finds it, before any is moved.
    pub credit: ByPeriod,
    /// As step 3 finds it, before any is met from another period.
    pub need: ByPeriod,
    pub moved_out: ByPeriod,
    pub moved_in: ByPeriod,
    pub billed: ByPeriod,
    pub left: ByPeriod,
    pub paid: ByPeriod,
    // Cents.
    pub energy: u64,
    pub demand: u64,
    pub standby: u64,
    pub bypass: u64,
    pub shortfall: u64,
    pub gross: u64,
    pub granted: u64,
    pub used: u64,
    pub due: u64,
    /// After the bill.
    pub standing: u64,
}

/// What a closing returns. The default, all zeros, is a refusal's.
#[derive(Clone, Copy, Debug, Default, PartialEq, Eq)]
pub struct Closing {
    /// Wh by period.
    pub forfeited: ByPeriod,
    /// Cents.
    pub refunded: u64,
}

/// The answer to a call: 0 or a refusal's number, and the amounts.
#[derive(Clone, Copy, Debug, Default, PartialEq, Eq)]
pub struct Answer<Amounts> {
    pub number: u32,
    pub amounts: Amounts,
}
