//! Records, files, call lists and cases in the making, for programs that write
//! test vectors. What is expected is what the plain implementation does.

pub mod chain;
pub mod examples;
pub mod list;
pub mod lists;
pub mod long;
pub mod readout;
pub mod sab2;
pub mod tables;
pub mod text;
