//! Reading a record into five lists that the host lends.

use super::read::read;
use super::{Record, EDIT_ENTRIES, LOSS_ENTRIES};
use crate::checksum::checksum;
use crate::refusal::Refusal;

#[derive(Clone, Debug, PartialEq, Eq)]
pub struct Lent {
    losses: Vec<u16>,
    edit_seats: Vec<u8>,
    edit_times: Vec<u16>,
    edit_cells: Vec<u32>,
    edit_changes: Vec<i16>,
}

impl Lent {
    /// Lists of these lengths. Every byte of them is A5, so that entries that
    /// were not written show.
    pub fn with_rooms(rooms: [u16; 5]) -> Lent {
        let [losses, seats, times, cells, changes] = rooms.map(usize::from);
        Lent {
            losses: vec![0xA5A5; losses],
            edit_seats: vec![0xA5; seats],
            edit_times: vec![0xA5A5; times],
            edit_cells: vec![0xA5A5_A5A5; cells],
            edit_changes: vec![0xA5A5_u16 as i16; changes],
        }
    }

    /// The room is looked at before the record. What the record does not
    /// need is left alone.
    pub fn read(&mut self, bytes: &[u8]) -> Result<Record, Refusal> {
        if self.is_short() {
            return Err(Refusal::Room);
        }
        let record = read(bytes)?;
        self.fill(&record);
        Ok(record)
    }

    fn is_short(&self) -> bool {
        self.losses.len() < LOSS_ENTRIES
            || self.edit_seats.len() < EDIT_ENTRIES
            || self.edit_times.len() < EDIT_ENTRIES
            || self.edit_cells.len() < EDIT_ENTRIES
            || self.edit_changes.len() < EDIT_ENTRIES
    }

    fn fill(&mut self, record: &Record) {
        for (index, &set) in record.losses.iter().enumerate() {
            self.losses[index] = set as u16;
        }
        for (index, edit) in record.edits.iter().enumerate() {
            self.edit_seats[index] = edit.seat as u8;
            self.edit_times[index] = edit.time as u16;
            self.edit_cells[index] = edit.cell;
            self.edit_changes[index] = edit.change as i16;
        }
    }

    pub fn checksum(&self) -> u32 {
        let mut bytes = Vec::new();
        bytes.extend(self.losses.iter().flat_map(|set| set.to_le_bytes()));
        bytes.extend(&self.edit_seats);
        bytes.extend(self.edit_times.iter().flat_map(|time| time.to_le_bytes()));
        bytes.extend(self.edit_cells.iter().flat_map(|cell| cell.to_le_bytes()));
        bytes.extend(self.edit_changes.iter().flat_map(|change| change.to_le_bytes()));
        checksum(&bytes)
    }
}

#[cfg(test)]
mod tests {
    use super::*;
    use crate::examples;

    const ENOUGH: [u16; 5] = [889, 512, 512, 512, 512];

    #[test]
    fn the_printed_record_fills_the_first_entries_alone() {
        let mut lent = Lent::with_rooms(ENOUGH);
        assert_eq!(lent.read(&examples::PRINTED), read(&examples::PRINTED));
        let mut expected = Lent::with_rooms(ENOUGH);
        expected.losses[..6].copy_from_slice(&[0, 0, 1, 0, 0, 0]);
        expected.edit_seats[0] = 2;
        expected.edit_times[0] = 0;
        expected.edit_cells[0] = 5;
        expected.edit_changes[0] = -3;
        assert_eq!(lent, expected);
    }

    #[test]
    fn one_entry_less_in_any_list_is_7_before_all_else() {
        for list in 0..5 {
            let mut rooms = ENOUGH;
            rooms[list] -= 1;
            let mut lent = Lent::with_rooms(rooms);
            assert_eq!(lent.read(&examples::PRINTED), Err(Refusal::Room));
            assert_eq!(lent.read(&[]), Err(Refusal::Room));
            assert_eq!(lent, Lent::with_rooms(rooms));
        }
    }

    #[test]
    fn a_bad_record_leaves_the_lists() {
        let mut lent = Lent::with_rooms(ENOUGH);
        assert_eq!(lent.read(&examples::PRINTED[..13]), Err(Refusal::Ends));
        assert_eq!(lent, Lent::with_rooms(ENOUGH));
    }

    /// 6,386 bytes A5: the table's 6,392 less the six of its first four numbers.
    #[test]
    fn the_checksum_goes_over_all_entries() {
        let sum = checksum(&[0xA5; 6_386]);
        assert_eq!(Lent::with_rooms(ENOUGH).checksum(), sum);
        assert_ne!(Lent::with_rooms([890, 512, 512, 512, 512]).checksum(), sum);
    }
}
