//! The three carriers of a record: bytes, lists, and the live table.

use super::call::{Carrier, Part};
use crate::live::Table;
use crate::record::read::read;
use crate::record::write::Lists;
use crate::record::Record;
use crate::refusal::Refusal;

pub struct Carriers {
    pub bytes: Vec<u8>,
    pub lists: Lists,
    pub table: Table,
}

impl Carriers {
    pub fn fresh() -> Carriers {
        Carriers { bytes: Vec::new(), lists: Lists::default(), table: Table::never_opened() }
    }

    /// The record that a carrier holds, or the carrier's own refusal.
    pub fn record(&self, carrier: Carrier) -> Result<Record, Refusal> {
        match carrier {
            Carrier::Bytes => read(&self.bytes),
            Carrier::Lists => self.lists.judge(),
            Carrier::Table => self.table.record(),
        }
    }

    pub fn put(&mut self, part: &Part) {
        let lists = &mut self.lists;
        match part {
            Part::Bytes(bytes) => self.bytes = bytes.clone(),
            Part::Lists { seats, bound, rounds } => {
                lists.seats = *seats;
                lists.bound = *bound;
                lists.rounds = *rounds;
            }
            Part::Losses(sets) => lists.losses = wide(sets),
            Part::Editors(seats) => lists.edit_seats = wide(seats),
            Part::Times(times) => lists.edit_times = wide(times),
            Part::Cells(cells) => lists.edit_cells = wide(cells),
            Part::Changes(changes) => lists.edit_changes = wide(changes),
        }
    }
}

fn wide<Narrow: Copy, Wide: From<Narrow>>(entries: &[Narrow]) -> Vec<Wide> {
    entries.iter().map(|&entry| entry.into()).collect()
}
