//! The stores and the rig of this repository written by hand in plain Rust: the same rules, and nothing proved.

mod buckets;
pub mod heap;
pub mod ledger;
pub mod rig;
pub mod row_store;
pub mod rows;
pub mod store;
#[cfg(test)]
mod tests;
pub mod wheel;
