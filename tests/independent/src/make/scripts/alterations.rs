//! Scribbles on the table between calls: some spoil it, some leave another
//! good record, most are repaired again.

use super::composer::Composer;
use crate::live::Table;
use crate::make::edits::{any_cell, any_change};
use crate::record::{EDIT_ENTRIES, LOSS_ENTRIES};
use crate::script::call::TableCall;

const FIELDS: u64 = 9;

impl Composer<'_> {
    /// One number altered in any way; hands back the call that repairs it.
    pub fn alter(&mut self) -> TableCall {
        let field = self.random.below(FIELDS) as u8;
        let index = self.any_index(field);
        let repair =
            TableCall::Alter { field, index, value: number_at(self.table(), field, index) };
        let value = self.any_value(field, index);
        self.put_on_table(TableCall::Alter { field, index, value });
        repair
    }

    /// Brings back entries of an earlier time, or entries that were never used.
    pub fn reveal(&mut self) {
        let (rounds, edits) = (self.table().rounds, self.table().edits);
        self.open();
        let value = rounds.into();
        self.put_on_table(TableCall::Alter { field: 2, index: 0, value });
        let value = edits.into();
        self.put_on_table(TableCall::Alter { field: 3, index: 0, value });
    }

    /// A good table without any opening.
    pub fn open_by_hand(&mut self) {
        let seats = self.random.between(2, 7) as u32;
        for (field, value) in [(0, seats), (1, seats - 1), (2, 0), (3, 0)] {
            self.put_on_table(TableCall::Alter { field, index: 0, value });
        }
    }

    /// Mostly an entry in use; sometimes an unused one, or one past the table.
    fn any_index(&mut self, field: u8) -> u16 {
        let (used, entries) = match field {
            0..=3 => return 0,
            4 => (self.used_losses(), LOSS_ENTRIES),
            _ => (self.table().edits.into(), EDIT_ENTRIES),
        };
        let used = used.clamp(1, entries);
        let inside = self.random.index(used);
        let choices = [inside, inside, inside, used - 1, used, entries - 1, entries, 65_535];
        self.random.pick(&choices) as u16
    }

    fn used_losses(&self) -> usize {
        usize::from(self.table().rounds) * usize::from(self.table().seats)
    }

    /// Values in range and at or past the limit; some are cut to their width.
    fn any_value(&mut self, field: u8, index: u16) -> u32 {
        let seats = self.seats();
        let rounds = u32::from(self.table().rounds);
        let edits = u32::from(self.table().edits);
        match field {
            0 => self.random.pick(&[0, 1, 2, 3, 4, 5, 6, 7, 8, 255, 256 + seats]),
            1 => self.random.pick(&[0, 1, seats - 1, seats, 255, 256]),
            2 => self.count_near(rounds, 127),
            3 => self.count_near(edits, 512),
            4 => self.any_loss_set(index),
            5 => self.random.pick(&[0, 1, seats - 1, seats, 255, 256]),
            6 => self.random.pick(&[0, rounds / 2, rounds, rounds + 1, 65_535, 65_536]),
            7 => {
                let cell = any_cell(self.random);
                self.random.pick(&[cell, cell, 65_535, 65_536, u32::MAX])
            }
            _ => any_change(self.random) as u32,
        }
    }

    fn count_near(&mut self, count: u32, most: u32) -> u32 {
        let less = count.saturating_sub(1);
        self.random.pick(&[0, less, less, count + 1, most, most + 1, 65_535, 65_536 + count])
    }

    fn any_loss_set(&mut self, index: u16) -> u32 {
        let sender = u32::from(index) % self.seats();
        let good = self.good_set(sender, 300).into();
        let own = 1 << sender;
        self.random.pick(&[good, good, 0, own, 1 << self.seats(), 0x8000, 0x1_0000])
    }
}

fn number_at(table: &Table, field: u8, index: u16) -> u32 {
    match field {
        0 => table.seats.into(),
        1 => table.bound.into(),
        2 => table.rounds.into(),
        3 => table.edits.into(),
        4 => entry(&table.losses, index).into(),
        5 => entry(&table.edit_seats, index).into(),
        6 => entry(&table.edit_times, index).into(),
        7 => entry(&table.edit_cells, index),
        _ => entry(&table.edit_changes, index) as u16 as u32,
    }
}

/// The entry, or 0 past the table, where nothing is altered.
fn entry<Entry: Copy + Default>(entries: &[Entry], index: u16) -> Entry {
    entries.get(usize::from(index)).copied().unwrap_or_default()
}
