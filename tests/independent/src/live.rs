//! The live table and the calls on it.

mod alter;
mod calls;
mod checksum;
mod table;

pub use table::Table;

#[cfg(test)]
mod tests;
