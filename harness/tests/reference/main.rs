//! The second implementation against figures worked by hand from documents 01 and 02.

mod helpers;

mod bills;
mod calendar;
mod day_view;
mod demand;
mod examples;
mod gaps;
mod hours;
mod ledger;
mod mistakes;
mod nameplates;
mod random_lists;
mod refusals;
mod statement;
mod wall_chart;
