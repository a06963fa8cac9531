//! Plain Rust to measure the proved library and program against: what a Rust programmer
//! would write who wants the amounts of 01 fast and proves nothing.
//!
//! - [`bill`]: the account's billing.
//! - [`statement`]: the program.

#![forbid(unsafe_code)]

pub mod bill;
pub mod statement;
