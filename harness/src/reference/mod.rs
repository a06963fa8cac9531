//! Document 01, with the requests of document 02 that have landed, in plain Rust: one file
//! per concept, each using only those above it.

#![forbid(unsafe_code)]

pub mod calendar;
pub mod gaps;
pub mod hours;

pub mod account;
pub mod refusal;
pub mod steps;

pub mod calls;
pub mod day_view;
pub mod ledger;
pub mod statement;
