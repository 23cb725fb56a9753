//! Tables filled to their limits.

use super::composer::Composer;
use crate::script::call::{Carrier, TableCall};

impl Composer<'_> {
    /// All 127 rounds, with few questions and edits between.
    pub fn fill_rounds(&mut self) -> &'static str {
        self.open();
        while self.table().rounds < 127 {
            self.round();
            if self.random.chance(200) {
                self.any_live_call_but_opening();
            }
        }
        self.after_filling();
        "all 127 rounds"
    }

    /// All 512 edits, in a few rounds.
    pub fn fill_edits(&mut self) -> &'static str {
        self.open();
        while self.table().edits < 512 {
            self.put_rising_edit();
            if self.random.chance(10) {
                self.round();
                self.ask(Carrier::Table);
            }
        }
        self.after_filling();
        "all 512 edits"
    }

    /// All rounds and all edits: the longest table.
    pub fn fill_everything(&mut self) -> &'static str {
        self.put_on_table(TableCall::Open { seats: 7, bound: 6 });
        while self.table().rounds < 127 {
            self.put_four_edits();
            self.round();
        }
        self.put_four_edits();
        self.after_filling();
        "all 127 rounds and 512 edits"
    }

    /// Counts altered to their limits and past them, over entries that are all
    /// good, so that only the count itself can give 19.
    pub fn pass_limits(&mut self) -> &'static str {
        self.put_on_table(TableCall::Open { seats: 7, bound: 6 });
        while self.table().edits < 512 {
            self.put_rising_edit();
        }
        while self.table().rounds < 127 {
            self.put_on_table(TableCall::Round(vec![0; 7]));
        }
        self.open();
        let seats = self.seats();
        let rounds = [127, 128, 129, 889 / seats, 889 / seats + 1, 126].map(|value| (2, value));
        let edits = [512, 513, 65_535, 511].map(|value| (3, value));
        let others = [(1, seats), (1, seats - 1), (0, 8), (0, seats)];
        for &(field, value) in rounds.iter().chain(&edits).chain(&others) {
            self.put_on_table(TableCall::Alter { field, index: 0, value });
            self.ask(Carrier::Table);
            self.ask_for_record();
        }
        "counts at their limits and past them"
    }

    fn put_four_edits(&mut self) {
        for _ in 0..4 {
            self.put_rising_edit();
        }
    }

    /// An edit by seat 0 whose cell rises with the count of edits, so that all fit.
    fn put_rising_edit(&mut self) {
        let cell = 60_000 + u32::from(self.table().edits);
        let change = self.random.pick(&[-32_768, 32_767]);
        self.put_on_table(TableCall::Edit { seat: 0, cell, change });
    }

    fn after_filling(&mut self) {
        for _ in 0..3 {
            self.round();
            self.round_badly();
            self.edit();
            self.edit_badly();
            self.change_badly();
            self.any_live_calls();
        }
        self.reveal();
        self.any_live_calls();
        self.open();
        self.any_live_calls();
    }
}
