//! The proved library: its functions, as `include/kozempil.h` declares them, and a
//! safe way to call each.

#![allow(unsafe_code)]

/// How many calls of a list are answered, and how many rows of answers are written whole.
#[repr(C)]
#[derive(Clone, Copy, Debug, PartialEq, Eq)]
pub struct Counts {
    pub answered: u64,
    pub written: u64,
}

unsafe extern "C" {
    fn kozempil_run(
        calls: *const u64,
        calls_len: usize,
        delivered: *const u32,
        delivered_len: usize,
        received: *const u32,
        received_len: usize,
        answers: *mut u64,
        answers_len: usize,
        account: *mut u64,
        account_len: usize,
    ) -> Counts;
    fn kozempil_call(
        account: *const u64,
        account_len: usize,
        call: *const u64,
        call_len: usize,
        delivered: *const u32,
        delivered_len: usize,
        received: *const u32,
        received_len: usize,
        answer: *mut u64,
        answer_len: usize,
        after: *mut u64,
        after_len: usize,
    ) -> u32;
    fn kozempil_day_view(
        delivered: *const u32,
        delivered_len: usize,
        received: *const u32,
        received_len: usize,
        month: u32,
        day: u32,
        number: u32,
        part: *mut u64,
        part_len: usize,
    );
}

/// Answers the calls from the fresh account; writes the answers and the last account.
#[must_use]
pub fn run(
    calls: &[u64],
    delivered: &[u32],
    received: &[u32],
    answers: &mut [u64],
    account: &mut [u64],
) -> Counts {
    // SAFETY: each pointer holds for as many elements as its length says, and nothing
    // else has the two buffers that are written.
    unsafe {
        kozempil_run(
            calls.as_ptr(),
            calls.len(),
            delivered.as_ptr(),
            delivered.len(),
            received.as_ptr(),
            received.len(),
            answers.as_mut_ptr(),
            answers.len(),
            account.as_mut_ptr(),
            account.len(),
        )
    }
}

/// Answers one call on any account; 0 where the numbers are no account or no call.
pub fn call(
    account: &[u64],
    call: &[u64],
    delivered: &[u32],
    received: &[u32],
    answer: &mut [u64],
    after: &mut [u64],
) -> u32 {
    // SAFETY: as in `run`.
    unsafe {
        kozempil_call(
            account.as_ptr(),
            account.len(),
            call.as_ptr(),
            call.len(),
            delivered.as_ptr(),
            delivered.len(),
            received.as_ptr(),
            received.len(),
            answer.as_mut_ptr(),
            answer.len(),
            after.as_mut_ptr(),
            after.len(),
        )
    }
}

/// Writes start and length of the day view.
pub fn day_view(
    delivered: &[u32],
    received: &[u32],
    month: u32,
    day: u32,
    number: u32,
    part: &mut [u64],
) {
    // SAFETY: as in `run`.
    unsafe {
        kozempil_day_view(
            delivered.as_ptr(),
            delivered.len(),
            received.as_ptr(),
            received.len(),
            month,
            day,
            number,
            part.as_mut_ptr(),
            part.len(),
        );
    }
}
