//! A checksum over the whole table, used entries and unused ones alike.

use super::Table;
use crate::checksum::checksum;

impl Table {
    pub fn checksum(&self) -> u32 {
        checksum(&self.bytes())
    }

    /// All numbers of the table in little-endian bytes.
    fn bytes(&self) -> Vec<u8> {
        let mut bytes = vec![self.seats, self.bound];
        bytes.extend(self.rounds.to_le_bytes());
        bytes.extend(self.edits.to_le_bytes());
        bytes.extend(self.losses.iter().flat_map(|set| set.to_le_bytes()));
        bytes.extend(self.edit_seats);
        bytes.extend(self.edit_times.iter().flat_map(|time| time.to_le_bytes()));
        bytes.extend(self.edit_cells.iter().flat_map(|cell| cell.to_le_bytes()));
        bytes.extend(self.edit_changes.iter().flat_map(|change| change.to_le_bytes()));
        bytes
    }
}
