//! The host's table: a plain struct whose used part is a record.

use crate::record::write::Lists;
use crate::record::{Record, EDIT_ENTRIES, LOSS_ENTRIES};
use crate::refusal::Refusal;

#[derive(Clone, PartialEq, Eq, Debug)]
pub struct Table {
    pub seats: u8,
    pub bound: u8,
    pub rounds: u16,
    pub edits: u16,
    /// Loss sets as in a record: n for each round, one after the other.
    pub losses: [u16; LOSS_ENTRIES],
    pub edit_seats: [u8; EDIT_ENTRIES],
    pub edit_times: [u16; EDIT_ENTRIES],
    pub edit_cells: [u32; EDIT_ENTRIES],
    pub edit_changes: [i16; EDIT_ENTRIES],
}

impl Table {
    /// A table that was never opened: every byte of it is A5.
    pub fn never_opened() -> Table {
        Table {
            seats: 0xA5,
            bound: 0xA5,
            rounds: 0xA5A5,
            edits: 0xA5A5,
            losses: [0xA5A5; LOSS_ENTRIES],
            edit_seats: [0xA5; EDIT_ENTRIES],
            edit_times: [0xA5A5; EDIT_ENTRIES],
            edit_cells: [0xA5A5_A5A5; EDIT_ENTRIES],
            edit_changes: [0xA5A5_u16 as i16; EDIT_ENTRIES],
        }
    }

    /// The record in the used part; 19 if that is not a good record.
    pub fn record(&self) -> Result<Record, Refusal> {
        if usize::from(self.edits) > EDIT_ENTRIES {
            return Err(Refusal::Table);
        }
        self.lists().judge().map_err(|_| Refusal::Table)
    }

    /// Writes the record so far: 19, then 7.
    pub fn write(&self, room: &mut [u8]) -> Result<usize, Refusal> {
        self.record()?;
        self.lists().write(room)
    }

    /// The used part as lists. Where a count points past the table, the lists
    /// end with the table.
    fn lists(&self) -> Lists {
        let losses = usize::from(self.seats) * usize::from(self.rounds);
        let edits = usize::from(self.edits);
        Lists {
            seats: self.seats.into(),
            bound: self.bound.into(),
            rounds: self.rounds.into(),
            losses: first(&self.losses, losses),
            edit_seats: first(&self.edit_seats, edits),
            edit_times: first(&self.edit_times, edits),
            edit_cells: first(&self.edit_cells, edits),
            edit_changes: first(&self.edit_changes, edits),
        }
    }
}

fn first<From: Copy, To: std::convert::From<From>>(entries: &[From], count: usize) -> Vec<To> {
    entries.iter().take(count).map(|&entry| entry.into()).collect()
}
