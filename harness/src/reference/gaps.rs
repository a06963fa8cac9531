//! 02, No. 4: lost readings, and what they count as.

/// Marks a lost reading of a register. No other number is ever lost.
pub const LOST: u32 = 4_294_967_295;

/// The readings that count: a lost one as the last before it in the register which isn't
/// lost. Where there is none, refusal 13 stands before every use; 0 keeps this total.
pub fn filled(register: &[u32]) -> Vec<u32> {
    let mut last = 0;
    let filling = |&reading: &u32| {
        if reading != LOST {
            last = reading;
        }
        last
    };
    register.iter().map(filling).collect()
}
