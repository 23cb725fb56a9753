//! The calls that change the table: opening, a round, an edit.

use super::Table;
use crate::place::{Seat, Time};
use crate::record::{is_good_loss_set, Edit};
use crate::record::{
    FEWEST_SEATS, HIGHEST_CELL, HIGHEST_CHANGE, LOWEST_CHANGE, MOST_EDITS, MOST_ROUNDS, MOST_SEATS,
};
use crate::refusal::Refusal;

impl Table {
    /// Opening goes into a table in any state, and only 3 can refuse it.
    pub fn open(&mut self, seats: u32, bound: u32) -> Result<(), Refusal> {
        if !(FEWEST_SEATS..=MOST_SEATS).contains(&seats) || bound >= seats {
            return Err(Refusal::Range);
        }
        self.seats = seats as u8;
        self.bound = bound as u8;
        self.rounds = 0;
        self.edits = 0;
        Ok(())
    }

    /// A round: 19, 11, 10, 4.
    pub fn round(&mut self, sets: &[u16]) -> Result<(), Refusal> {
        let record = self.record()?;
        if u32::from(self.rounds) == MOST_ROUNDS {
            return Err(Refusal::RoundsFull);
        }
        if sets.len() != record.seats {
            return Err(Refusal::Lengths);
        }
        let good =
            |(sender, &set): (Seat, &u16)| is_good_loss_set(set.into(), sender, record.seats);
        if !sets.iter().enumerate().all(good) {
            return Err(Refusal::LossSet);
        }
        let start = record.losses.len();
        self.losses[start..start + sets.len()].copy_from_slice(sets);
        self.rounds += 1;
        Ok(())
    }

    /// An edit: 19, 3, 12, 5. It is placed at the present time.
    pub fn edit(&mut self, seat: u32, cell: u32, change: i32) -> Result<(), Refusal> {
        let record = self.record()?;
        let change_good = (LOWEST_CHANGE..=HIGHEST_CHANGE).contains(&change);
        if seat >= record.seats as u32 || cell > HIGHEST_CELL || !change_good {
            return Err(Refusal::Range);
        }
        if u32::from(self.edits) == MOST_EDITS {
            return Err(Refusal::EditsFull);
        }
        let edit = Edit { seat: seat as Seat, time: Time::from(self.rounds), cell, change };
        if record.edits.last().map_or(false, |before| !edit.is_after(before)) {
            return Err(Refusal::Order);
        }
        self.append_edit(&edit);
        Ok(())
    }

    fn append_edit(&mut self, edit: &Edit) {
        let index = usize::from(self.edits);
        self.edit_seats[index] = edit.seat as u8;
        self.edit_times[index] = edit.time as u16;
        self.edit_cells[index] = edit.cell;
        self.edit_changes[index] = edit.change as i16;
        self.edits += 1;
    }
}
