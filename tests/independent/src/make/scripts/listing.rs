//! Records as lists, good ones and damaged ones.

use super::composer::Composer;
use crate::make::{carrying, good, list_faults};
use crate::record::write::Lists;
use crate::script::call::{Call, Carrier, ListsCall};

impl Composer<'_> {
    pub fn hand_in_lists(&mut self) -> &'static str {
        for _ in 0..self.random.between(5, 15) {
            let lists = if self.random.chance(300) {
                Lists::of(&good::record(self.random))
            } else {
                self.spoilt_lists()
            };
            self.put_lists(&lists);
            self.ask_lists();
        }
        "records as lists"
    }

    /// One fault or two, so that the order of the refusals is tried as well.
    fn spoilt_lists(&mut self) -> Lists {
        let mut lists = Lists::of(&good::small_record(self.random));
        for _ in 0..self.random.pick(&[1, 1, 2]) {
            list_faults::spoil(self.random, &mut lists);
        }
        lists
    }

    /// Puts the parts that are not there already, and now and then one that is.
    pub fn put_lists(&mut self, lists: &Lists) {
        let present = carrying::as_lists(&self.carriers.lists);
        for (part, before) in carrying::as_lists(lists).into_iter().zip(present) {
            if part != before || self.random.chance(100) {
                self.put(part);
            }
        }
    }

    /// Every call that the lists answer.
    pub fn ask_lists(&mut self) {
        let record = self.carriers.record(Carrier::Lists);
        let room = self.writing_room(record.map_or(0, |record| record.bytes().len()));
        self.put(Call::Lists(ListsCall::Judge));
        self.put(Call::Lists(ListsCall::Length));
        self.put(Call::Lists(ListsCall::Write { room }));
        self.ask_all(Carrier::Lists);
        if self.random.chance(100) {
            self.ask_everyone(Carrier::Lists);
        }
    }
}
