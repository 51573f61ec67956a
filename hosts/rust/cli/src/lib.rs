//! The field engineers' command `sab`: archive files read, compared, met, mended
//! and shown.
//!
//! It never judges. Every yes, no, number, tree and vector is the answer of a
//! call of the proved library, through the crate `sab`; the program opens files,
//! asks, writes files safely and puts the answers into words. Records and rows
//! are decoded only to be printed. Only the sum of a state file, an old form of
//! this program's own, is its own to judge.

#![forbid(unsafe_code)]
#![deny(missing_docs)]

pub mod archive;
pub mod args;
pub mod base_rows;
pub mod blocks;
pub mod change;
pub mod commands;
pub mod failure;
pub mod files;
pub mod help;
pub mod html;
pub mod json;
pub mod marks;
pub mod meeting;
pub mod numbers;
pub mod out;
pub mod places;
pub mod plan_text;
pub mod records;
pub mod state;
pub mod system;
pub mod why;

pub use commands::run;
