//! The shortest list that can be found with a difference: first fewer calls, then
//! registers with fewer readings, fewer that aren't 0 and smaller ones, then fewer
//! other numbers.

use crate::encode::{
    record_of, BILLING, COUNT, CRITICAL_DAYS, FIRST_MONTH, KIND, LIMIT, NAMEPLATES, RIDER,
};
use crate::meaning::call_of;
use harness::reference::ledger::Call;

/// Most calls that are run for one list.
const MOST_RUN: usize = 300_000;

/// A list that differs, and what may still be run to find a shorter one.
struct Search<'a> {
    calls: Vec<Call>,
    differs: &'a dyn Fn(&[Call]) -> bool,
    left_to_run: usize,
}

/// A list as short as can be found on which `differs` still holds.
pub fn shortest(calls: &[Call], differs: &dyn Fn(&[Call]) -> bool) -> Vec<Call> {
    let mut search = Search {
        calls: calls.to_vec(),
        differs,
        left_to_run: MOST_RUN,
    };
    loop {
        let before = search.calls.clone();
        search.cut_end();
        search.drop_calls();
        for index in 0..search.calls.len() {
            search.simplify(index);
        }
        if search.calls == before {
            return search.calls;
        }
    }
}

impl Search<'_> {
    /// Takes the other list if it differs too.
    fn try_list(&mut self, calls: Vec<Call>) -> bool {
        if calls.len() > self.left_to_run || calls == self.calls {
            return false;
        }
        self.left_to_run -= calls.len();
        let differs = (self.differs)(&calls);
        if differs {
            self.calls = calls;
        }
        differs
    }

    /// Takes the list with another call at the index, if it differs too.
    fn try_call(&mut self, index: usize, call: Call) -> bool {
        let mut calls = self.calls.clone();
        calls[index] = call;
        self.try_list(calls)
    }

    /// The shortest front part, found by halving: a call's answer doesn't depend on
    /// those after it.
    fn cut_end(&mut self) {
        let mut agrees = 0;
        while agrees + 1 < self.calls.len() {
            let half = (agrees + self.calls.len()) / 2;
            if !self.try_list(self.calls[..half].to_vec()) {
                agrees = half;
            }
        }
    }

    /// Drops runs of calls, from half of the list down to single calls. Where a
    /// billing goes, the opening may start later instead.
    fn drop_calls(&mut self) {
        let mut size = self.calls.len();
        while size > 0 {
            let mut start = 0;
            while start < self.calls.len() {
                let end = self.calls.len().min(start + size);
                let mut fewer = self.calls.clone();
                fewer.drain(start..end);
                let opened_later = opened_at_first_bill(&fewer);
                if !self.try_list(fewer) && !self.try_list(opened_later) {
                    start = end;
                }
            }
            size /= 2;
        }
    }

    fn simplify(&mut self, index: usize) {
        self.shorten_registers(index);
        for register in [Register::Delivered, Register::Received] {
            self.zero_readings(index, register);
            self.lower_readings(index, register);
        }
        self.clear_critical_days(index);
        self.zero_numbers(index);
    }

    /// Cuts the ends off both registers at once, then off each.
    fn shorten_registers(&mut self, index: usize) {
        let both: &[Register] = &[Register::Delivered, Register::Received];
        for registers in [both, &both[..1], &both[1..]] {
            let mut size = longest(&self.calls[index]);
            while size > 0 {
                let mut call = self.calls[index].clone();
                for register in registers {
                    if let Some(readings) = register.of(&mut call) {
                        readings.truncate(readings.len().saturating_sub(size));
                    }
                }
                if !self.try_call(index, call) {
                    size /= 2;
                }
            }
        }
    }

    fn zero_readings(&mut self, index: usize, register: Register) {
        let length = register.length(&self.calls[index]);
        let mut size = length;
        while size > 0 {
            for start in (0..length).step_by(size) {
                let mut call = self.calls[index].clone();
                let end = length.min(start + size);
                if let Some(readings) = register.of(&mut call) {
                    readings[start..end].fill(0);
                }
                self.try_call(index, call);
            }
            size /= 2;
        }
    }

    /// Halves each reading as long as possible.
    fn lower_readings(&mut self, index: usize, register: Register) {
        for place in 0..register.length(&self.calls[index]) {
            loop {
                let mut call = self.calls[index].clone();
                if let Some(readings) = register.of(&mut call) {
                    readings[place] /= 2;
                }
                if !self.try_call(index, call) {
                    break;
                }
            }
        }
    }

    fn clear_critical_days(&mut self, index: usize) {
        for bit in 0..32 {
            let mut call = self.calls[index].clone();
            if let Call::Billing { critical_days, .. } = &mut call {
                *critical_days &= !(1 << bit);
            }
            self.try_call(index, call);
        }
    }

    /// Sets each other number of the call's record to 0; a count of nameplates, and each
    /// place of one, to 1 first.
    fn zero_numbers(&mut self, index: usize) {
        let record = record_of(&self.calls[index]);
        let places = match record[KIND] {
            BILLING => CRITICAL_DAYS..CRITICAL_DAYS + 1,
            _ => RIDER..FIRST_MONTH + 1,
        };
        let smallest = places.flat_map(|place| match place {
            COUNT | NAMEPLATES..LIMIT => vec![(place, 1), (place, 0)],
            _ => vec![(place, 0)],
        });
        for (place, number) in smallest {
            let mut record = record_of(&self.calls[index]);
            // What is 0 stays so.
            record[place] = record[place].min(number);
            let mut call = self.calls[index].clone();
            let registers = [Register::Delivered, Register::Received]
                .map(|register| register.of(&mut call).cloned().unwrap_or_default());
            let [delivered, received] = &registers;
            let simpler = call_of(&record, &mut delivered.as_slice(), &mut received.as_slice());
            if let Some(simpler) = simpler {
                self.try_call(index, simpler);
            }
        }
    }
}

#[derive(Clone, Copy)]
enum Register {
    Delivered,
    Received,
}

impl Register {
    fn of(self, call: &mut Call) -> Option<&mut Vec<u32>> {
        match (self, call) {
            (Register::Delivered, Call::Billing { delivered, .. }) => Some(delivered),
            (Register::Received, Call::Billing { received, .. }) => Some(received),
            _ => None,
        }
    }

    fn length(self, call: &Call) -> usize {
        match (self, call) {
            (Register::Delivered, Call::Billing { delivered, .. }) => delivered.len(),
            (Register::Received, Call::Billing { received, .. }) => received.len(),
            _ => 0,
        }
    }
}

fn longest(call: &Call) -> usize {
    let delivered = Register::Delivered.length(call);
    delivered.max(Register::Received.length(call))
}

/// Each opening's first month becomes that of the billing that follows.
fn opened_at_first_bill(calls: &[Call]) -> Vec<Call> {
    let mut opened = calls.to_vec();
    for index in 0..opened.len() {
        let next_bill = calls[index..].iter().find_map(|call| match call {
            Call::Billing { month, .. } => Some(*month),
            _ => None,
        });
        if let (Call::Opening { first_month, .. }, Some(month)) = (&mut opened[index], next_bill) {
            *first_month = month;
        }
    }
    opened
}

#[cfg(test)]
mod tests {
    use super::*;
    use harness::generate;
    use harness::random::Random;
    use harness::reference::ledger::{run, Amounts};

    /// The first reading of 5 or more in quarter 70 of a day is found, with its bill alone.
    #[test]
    fn one_bill_and_one_reading_are_left() {
        let differs = |calls: &[Call]| {
            let ledger = run(calls);
            calls.iter().zip(&ledger.answers).any(|(call, answer)| {
                matches!(answer.amounts, Amounts::Bill(_))
                    && answer.number == 0
                    && matches!(call, Call::Billing { delivered, .. } if delivered[70] >= 5)
            })
        };
        let calls = (0..)
            .map(|seed| generate::list(&mut Random::new(seed), 24))
            .find(|calls| differs(calls))
            .expect("some list has such a reading");
        let shortest = shortest(&calls, &differs);
        let [Call::Opening { .. }, Call::Billing {
            delivered,
            received,
            critical_days,
            ..
        }] = shortest.as_slice()
        else {
            panic!("{shortest:?}");
        };
        assert_eq!(delivered.iter().filter(|&&reading| reading > 0).count(), 1);
        assert!((5..10).contains(&delivered[70]));
        assert!(received.iter().all(|&reading| reading == 0));
        assert_eq!(*critical_days, 0);
    }
}
