//! Records as bytes, good ones and damaged ones.

use super::composer::Composer;
use crate::make::{carrying, records};
use crate::record::{EDIT_ENTRIES, LOSS_ENTRIES};
use crate::script::call::{BytesCall, Call, Carrier};

/// The lengths that reading into lists needs.
const ENOUGH: [u16; 5] = {
    let edits = EDIT_ENTRIES as u16;
    [LOSS_ENTRIES as u16, edits, edits, edits, edits]
};

impl Composer<'_> {
    pub fn read_records(&mut self) -> &'static str {
        for _ in 0..self.random.between(5, 15) {
            let bytes = records::record(self.random).bytes;
            self.put(carrying::as_bytes(&bytes));
            self.ask_bytes();
        }
        "records as bytes"
    }

    /// Every call that the bytes answer.
    pub fn ask_bytes(&mut self) {
        self.put(Call::Bytes(BytesCall::Check));
        let rooms = self.reading_rooms();
        self.put(Call::Bytes(BytesCall::Read(rooms)));
        self.ask_all(Carrier::Bytes);
        if self.random.chance(100) {
            self.ask_everyone(Carrier::Bytes);
        }
    }

    /// Rooms for the five lists: exact, larger, one of them too small by one, or any.
    fn reading_rooms(&mut self) -> [u16; 5] {
        let mut rooms = ENOUGH;
        let list = self.random.index(rooms.len());
        match self.random.below(10) {
            0..=5 => (),
            6 => rooms[list] += self.random.pick(&[1, 100]),
            7 | 8 => rooms[list] -= 1,
            _ => rooms = rooms.map(|room| self.random.pick(&[0, room - 1, room, 1_000])),
        }
        rooms
    }
}
