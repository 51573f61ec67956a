//! Logs and wishes drawn by chance: the same seed gives the same bytes.

mod chance;
mod units;
mod wish;

pub use chance::Chance;
pub use units::{Units, log_of, vector_of};
pub use wish::{Mix, wish};
