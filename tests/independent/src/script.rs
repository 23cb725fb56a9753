//! Scripts: calls on the three carriers of a record, played one after the other.

pub mod call;
pub mod carriers;
pub mod parse;
pub mod play;
#[cfg(test)]
pub mod possible;
mod text;

use call::Call;

/// Calls, and a few plain words on what kind of script they are.
pub struct Script {
    pub shape: &'static str,
    pub calls: Vec<Call>,
}
