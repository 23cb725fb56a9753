//! Scripts of every shape.

mod alterations;
mod asking;
mod composer;
mod filling;
mod listing;
mod live;
mod reading;

use super::{carrying, good};
use crate::random::Random;
use crate::record::write::Lists;
use crate::script::call::{Call, Carrier, TableCall};
use crate::script::Script;
use asking::Size;
use composer::Composer;

/// Every script makes the carriers fresh first and shows the table last.
pub fn script(random: &mut Random) -> Script {
    let kind = random.below(30);
    let mut composer = Composer::new(random);
    composer.put(Call::Fresh);
    let shape = match kind {
        0 => composer.fill_rounds(),
        1 => composer.fill_edits(),
        2 => composer.fill_everything(),
        3 => composer.pass_limits(),
        4 | 5 => composer.never_open(),
        6..=9 => composer.scribble(),
        10..=14 => composer.mix(),
        15..=20 => composer.read_records(),
        21..=26 => composer.hand_in_lists(),
        _ => composer.carry_thrice(),
    };
    composer.put_on_table(TableCall::Sum);
    Script { shape, calls: composer.calls }
}

impl Composer<'_> {
    fn mix(&mut self) -> &'static str {
        self.open();
        for _ in 0..self.random.between(10, 90) {
            self.any_live_call();
        }
        "live calls of all kinds"
    }

    /// Alterations, most of them repaired after a few calls.
    fn scribble(&mut self) -> &'static str {
        self.open();
        for _ in 0..self.random.between(5, 20) {
            self.any_live_calls();
            let repair = self.alter();
            self.any_live_calls();
            if self.random.chance(850) {
                self.put_on_table(repair);
            }
        }
        self.any_live_calls();
        "a table altered between calls"
    }

    /// A table that is asked before it is opened, or opened by hand.
    fn never_open(&mut self) -> &'static str {
        for _ in 0..self.random.between(1, 8) {
            self.any_live_call_but_opening();
        }
        if self.random.chance(700) {
            self.open_by_hand();
        }
        for _ in 0..self.random.between(5, 30) {
            self.any_live_call_but_opening();
        }
        "a table never opened"
    }

    /// One record in all three carriers, which are asked alike; before that the
    /// carriers as they are at the start.
    fn carry_thrice(&mut self) -> &'static str {
        for carrier in Carrier::ALL {
            self.ask_all(carrier);
        }
        let record = good::small_record(self.random);
        self.put(carrying::as_bytes(&record.bytes()));
        self.put_all(carrying::as_lists(&Lists::of(&record)));
        self.put_all(carrying::as_table(&record));
        self.ask_bytes();
        self.ask_lists();
        self.ask_for_record();
        for _ in 0..self.random.between(5, 15) {
            let question = self.any_question(Size::of(&record));
            self.put_all(Carrier::ALL.map(|carrier| Call::Ask(carrier, question)));
        }
        "one record in all three carriers"
    }

    fn any_live_calls(&mut self) {
        for _ in 0..self.random.between(1, 6) {
            self.any_live_call();
        }
    }

    fn any_live_call(&mut self) {
        match self.random.below(100) {
            0..=91 => self.any_live_call_but_opening(),
            92..=94 => self.open(),
            95..=97 => self.open_badly(),
            _ => self.reveal(),
        }
    }

    fn any_live_call_but_opening(&mut self) {
        match self.random.below(100) {
            0..=23 => self.round(),
            24..=30 => self.round_badly(),
            31..=49 => self.edit(),
            50..=56 => self.edit_badly(),
            57 | 58 => self.change_badly(),
            59..=86 => self.ask(Carrier::Table),
            87..=94 => self.ask_for_record(),
            95 | 96 => self.ask_all(Carrier::Table),
            97 | 98 => self.ask_everyone(Carrier::Table),
            _ => self.put_on_table(TableCall::Sum),
        }
    }
}

#[cfg(test)]
mod tests;
