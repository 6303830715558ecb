//! What stands behind the commands `foot`, `describe` and `fragment`: explanations of what the proved library answers. All judging is the library's.
#![deny(clippy::undocumented_unsafe_blocks)]

pub mod command;
pub mod explain;
pub mod expression;
pub mod fragment;
pub mod history;
pub mod number;
pub mod pages;
pub mod picture;
pub mod render;
pub mod rules;
pub mod sheet;
pub mod statement;
