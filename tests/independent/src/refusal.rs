//! The refusal numbers of document 01.

#[derive(Clone, Copy, Debug, PartialEq, Eq)]
pub enum Refusal {
    /// The record ends before a number is complete.
    Ends = 1,
    /// A third byte with its top bit set, or a last byte 0 after another byte.
    Form = 2,
    /// A header number or a field of an edit is out of range.
    Range = 3,
    /// A loss set with a bit that it may not have.
    LossSet = 4,
    /// An edit not after the one before.
    Order = 5,
    /// Bytes left after the last edit.
    BytesLeft = 6,
    /// A lent buffer too short.
    Room = 7,
    /// Asked about a seat or a time that the record does not have.
    Question = 8,
    /// The seat's view shows more than t known seats.
    Over = 9,
    /// Lists of the wrong length.
    Lengths = 10,
    /// A live round when 127 are done.
    RoundsFull = 11,
    /// A live edit when 512 are held.
    EditsFull = 12,
    /// A live table whose used part is not a good record.
    Table = 19,
}

impl Refusal {
    pub fn number(self) -> u8 {
        self as u8
    }
}
