//! The host scribbles on its own table between calls.

use super::Table;

impl Table {
    /// Gives one number of the table another value, cut to the number's width.
    /// An unknown field or an index past the table alters nothing.
    pub fn alter(&mut self, field: u8, index: u16, value: u32) {
        match field {
            0 => self.seats = value as u8,
            1 => self.bound = value as u8,
            2 => self.rounds = value as u16,
            3 => self.edits = value as u16,
            4 => put(&mut self.losses, index, value as u16),
            5 => put(&mut self.edit_seats, index, value as u8),
            6 => put(&mut self.edit_times, index, value as u16),
            7 => put(&mut self.edit_cells, index, value),
            8 => put(&mut self.edit_changes, index, value as u16 as i16),
            _ => (),
        }
    }
}

fn put<Entry>(entries: &mut [Entry], index: u16, value: Entry) {
    if let Some(entry) = entries.get_mut(usize::from(index)) {
        *entry = value;
    }
}
