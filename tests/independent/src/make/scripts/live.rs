//! Live calls, good ones and bad ones: openings, rounds, edits, the record.

use super::composer::Composer;
use crate::make::edits::{any_cell, any_change};
use crate::make::{PAST_A_BYTE, PAST_TWO_BYTES};
use crate::record::{EDIT_ENTRIES, HIGHEST_CELL, HIGHEST_CHANGE, LOWEST_CHANGE};
use crate::script::call::TableCall;

impl Composer<'_> {
    pub fn open(&mut self) {
        let (seats, bound) = self.good_opening();
        self.put_on_table(TableCall::Open { seats, bound });
    }

    pub fn open_badly(&mut self) {
        let (seats, bound) = self.good_opening();
        let past = self.random.pick(&[PAST_A_BYTE, PAST_TWO_BYTES]);
        let choices = [
            (0, 0),
            (1, 0),
            (8, 0),
            (255, 0),
            (1, 1),
            (seats, seats),
            (seats, 255),
            (seats + past, bound),
            (seats, bound + past),
            (u32::MAX, u32::MAX),
        ];
        let (seats, bound) = self.random.pick(&choices);
        self.put_on_table(TableCall::Open { seats, bound });
    }

    fn good_opening(&mut self) -> (u32, u32) {
        let seats = self.random.between(2, 7);
        (seats as u32, self.random.below(seats) as u32)
    }

    /// A round that fits the table, if rounds are left.
    pub fn round(&mut self) {
        let share = self.random.pick(&[0, 50, 50, 200, 600]);
        let losers = if self.reckless { self.seats() } else { self.table().bound.into() };
        let share_of = |sender| if sender < losers { share } else { 0 };
        let sets = (0..self.seats()).map(|sender| self.good_set(sender, share_of(sender)));
        let sets = sets.collect();
        self.put_on_table(TableCall::Round(sets));
        self.ask_for_record_now_and_then();
    }

    /// A round of a wrong length, with a bad loss set, or both.
    pub fn round_badly(&mut self) {
        let seats = self.seats() as usize;
        let counts = [seats, seats, seats, seats - 1, seats + 1, 0, 16, seats + 256];
        let mut sets: Vec<u16> = vec![0; self.random.pick(&counts)];
        if !sets.is_empty() {
            let sender = self.random.index(seats.min(sets.len()));
            let own = 1 << sender;
            sets[sender] = self.random.pick(&[own, 1 << seats, 0x0100, 0x8000, 0x00FF, 0xFFFF]);
        }
        self.put_on_table(TableCall::Round(sets));
    }

    /// An edit after the last one, if edits are left.
    pub fn edit(&mut self) {
        let (seat, cell) = self.key_after_last();
        self.put_edit(seat, cell);
        self.ask_for_record_now_and_then();
    }

    /// An edit out of range or not after the last one.
    pub fn edit_badly(&mut self) {
        let (last_seat, last_cell) = self.last_key();
        let past = self.random.pick(&[PAST_A_BYTE, PAST_TWO_BYTES]);
        let choices = [
            (self.seats(), 0),
            (255, last_cell),
            (last_seat + past, HIGHEST_CELL),
            (0, HIGHEST_CELL + 1),
            (last_seat, last_cell.saturating_add(1 + PAST_TWO_BYTES)),
            (self.seats(), u32::MAX),
            (last_seat, last_cell),
            (last_seat, last_cell),
            (last_seat, last_cell.saturating_sub(1)),
            (0, 0),
        ];
        let (seat, cell) = self.random.pick(&choices);
        self.put_edit(seat, cell);
    }

    /// An edit after the last one whose change is out of range.
    pub fn change_badly(&mut self) {
        let (seat, cell) = self.key_after_last();
        let change = self.random.pick(&[
            LOWEST_CHANGE - 1,
            HIGHEST_CHANGE + 1,
            1 + PAST_TWO_BYTES as i32,
            i32::MIN,
            i32::MAX,
        ]);
        self.put_on_table(TableCall::Edit { seat, cell, change });
    }

    /// The table's seats, or the nearest good count.
    pub fn seats(&self) -> u32 {
        self.table().seats.clamp(2, 7).into()
    }

    fn put_edit(&mut self, seat: u32, cell: u32) {
        let change = any_change(self.random);
        self.put_on_table(TableCall::Edit { seat, cell, change });
    }

    pub fn good_set(&mut self, sender: u32, share: u64) -> u16 {
        let receivers = (0..self.seats()).filter(|&receiver| receiver != sender);
        receivers.fold(0, |set, receiver| set | u16::from(self.random.chance(share)) << receiver)
    }

    /// Seat and cell of the last edit of the present time.
    fn last_key(&self) -> (u32, u32) {
        let table = self.table();
        match usize::from(table.edits) {
            count @ 1..=EDIT_ENTRIES if table.edit_times[count - 1] == table.rounds => {
                (table.edit_seats[count - 1].into(), table.edit_cells[count - 1])
            }
            _ => (0, 0),
        }
    }

    fn key_after_last(&mut self) -> (u32, u32) {
        let (seat, cell) = self.last_key();
        let another = self.random.below(self.seats().into()) as u32;
        let next = cell.saturating_add(self.random.pick(&[1, 1, 2, 130, 9_000]));
        if another > seat {
            (another, any_cell(self.random))
        } else {
            (seat, next.min(HIGHEST_CELL))
        }
    }

    /// The record so far shows whether a round or an edit went in as it should.
    fn ask_for_record_now_and_then(&mut self) {
        if self.random.chance(150) {
            self.ask_for_record();
        }
    }

    pub fn ask_for_record(&mut self) {
        let length = self.table().record().map_or(0, |record| record.bytes().len());
        let room = self.writing_room(length);
        self.put_on_table(TableCall::Record { room });
    }

    /// Room for a record: exact, larger, too small by one, none.
    pub fn writing_room(&mut self, length: usize) -> u16 {
        let length = length as u16;
        self.random.pick(&[length, length, length + 1, 6_000, length.saturating_sub(1), 0])
    }
}
