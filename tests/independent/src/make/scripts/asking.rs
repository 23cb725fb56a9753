//! Questions of a script. Mostly they have a good place and enough room.

use super::composer::Composer;
use crate::make::{PAST_A_BYTE, PAST_TWO_BYTES};
use crate::record::Record;
use crate::script::call::{Call, Carrier, Question};

/// What a question has to keep to.
#[derive(Clone, Copy)]
pub struct Size {
    seats: u32,
    rounds: u32,
    edits: u16,
}

impl Size {
    pub fn of(record: &Record) -> Size {
        Size {
            seats: record.seats as u32,
            rounds: record.rounds as u32,
            edits: record.edits.len() as u16,
        }
    }
}

impl Composer<'_> {
    pub fn ask(&mut self, carrier: Carrier) {
        let size = self.size(carrier);
        let question = self.any_question(size);
        self.put(Call::Ask(carrier, question));
    }

    /// Each of the six questions once, mostly about one place.
    pub fn ask_all(&mut self, carrier: Carrier) {
        let size = self.size(carrier);
        for question in self.all_questions(size) {
            self.put(Call::Ask(carrier, question));
        }
    }

    /// The whole construction of every seat at one time.
    pub fn ask_everyone(&mut self, carrier: Carrier) {
        let size = self.size(carrier);
        let (_, time) = self.any_place(size);
        let room = size.edits;
        for seat in 0..size.seats {
            self.put(Call::Ask(carrier, Question::Seen { seat, time }));
            self.put(Call::Ask(carrier, Question::Agreed { seat, time }));
            self.put(Call::Ask(carrier, Question::Marks { seat, time, room }));
        }
    }

    pub fn any_question(&mut self, size: Size) -> Question {
        let questions = self.all_questions(size);
        self.random.pick(&questions)
    }

    fn all_questions(&mut self, size: Size) -> [Question; 6] {
        let (seat, time) = self.any_place(size);
        [
            Question::Seen { seat, time },
            Question::Agreed { seat, time },
            Question::Standing { seat },
            Question::View { seat, time, room: self.view_room(size) },
            Question::Core { seat, time, room: self.view_room(size) },
            Question::Marks { seat, time, room: self.marks_room(size) },
        ]
    }

    /// A bad carrier refuses whatever the place is.
    fn size(&self, carrier: Carrier) -> Size {
        let small = Size { seats: 2, rounds: 1, edits: 1 };
        self.carriers.record(carrier).map_or(small, |record| Size::of(&record))
    }

    /// A place of the record, one just outside, or one that would be a place of
    /// the record if its numbers were cut.
    fn any_place(&mut self, size: Size) -> (u32, u32) {
        let Size { seats, rounds, .. } = size;
        let mut seat = self.random.below(seats.into()) as u32;
        let any = self.random.between(0, rounds.into()) as u32;
        let mut time = self.random.pick(&[any, rounds, rounds.saturating_sub(1)]);
        if self.random.chance(70) {
            let cut = [PAST_A_BYTE, PAST_TWO_BYTES].map(|past| seat + past);
            seat = self.random.pick(&[seats, seats + 1, 255, cut[0], cut[1], u32::MAX]);
        }
        if self.random.chance(70) {
            let cut = [PAST_A_BYTE, PAST_TWO_BYTES].map(|past| time + past);
            time = self.random.pick(&[rounds + 1, 128, 65_535, cut[0], cut[1], u32::MAX]);
        }
        (seat, time)
    }

    fn view_room(&mut self, size: Size) -> u16 {
        let seats = size.seats as u16;
        self.random.pick(&[seats, seats, seats + 1, seats + 3, 7, 8, seats - 1, 0])
    }

    fn marks_room(&mut self, size: Size) -> u16 {
        let edits = size.edits;
        let less = edits.saturating_sub(1);
        self.random.pick(&[edits, edits, edits + 1, edits + 5, less, 0])
    }
}
