//! Tests of the command as a whole.

mod chance;
#[path = "../common/mod.rs"]
mod common;
mod conformance;
mod disk;
mod here;
mod killed;
mod made;
mod marks;
mod meetings;
mod pages;
mod parts;
mod power;
mod start;
