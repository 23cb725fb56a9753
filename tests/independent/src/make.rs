//! Makers of records and of scripts.

mod bytes;
pub mod calls;
mod carrying;
mod draft;
pub mod edges;
mod edits;
mod faults;
pub mod good;
mod list_faults;
mod losses;
pub mod records;
pub mod scripts;

/// Added to a good number, these show whether a number is cut to 8 or 16 bits.
const PAST_A_BYTE: u32 = 1 << 8;
const PAST_TWO_BYTES: u32 = 1 << 16;

/// The bytes of a record, and a few plain words on what kind they are.
#[derive(Clone, Debug)]
pub struct Made {
    pub shape: String,
    pub bytes: Vec<u8>,
}

impl Made {
    fn new(shape: impl Into<String>, bytes: Vec<u8>) -> Made {
        Made { shape: shape.into(), bytes }
    }
}
