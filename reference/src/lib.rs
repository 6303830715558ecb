//! A second implementation of the checker.
//!
//! It was written from the rules alone and shares no code with the checker it
//! is compared with. It aims to be easy to check by eye.

#![forbid(unsafe_code)]

pub mod descriptor;
pub mod entries;
pub mod fragment;
pub mod judge;
pub mod name;
pub mod report;
pub mod run;
pub mod sheet;
pub mod statement;

mod expression;
mod ledger;
mod reader;
mod writer;
