//! Composes a script call by call. It plays each call on carriers of its own,
//! so that it knows which calls would be good ones next.

use crate::live::Table;
use crate::random::Random;
use crate::script::call::{Call, TableCall};
use crate::script::carriers::Carriers;
use crate::script::play;

pub struct Composer<'a> {
    pub random: &'a mut Random,
    pub carriers: Carriers,
    pub calls: Vec<Call>,
    /// Whether any seat may lose sends, or only so many as the bound allows.
    pub reckless: bool,
}

impl Composer<'_> {
    pub fn new(random: &mut Random) -> Composer<'_> {
        let reckless = random.chance(400);
        Composer { random, carriers: Carriers::fresh(), calls: Vec::new(), reckless }
    }

    pub fn put(&mut self, call: Call) {
        play::line(&mut self.carriers, &call);
        self.calls.push(call);
    }

    pub fn put_all(&mut self, calls: impl IntoIterator<Item = Call>) {
        calls.into_iter().for_each(|call| self.put(call));
    }

    pub fn put_on_table(&mut self, call: TableCall) {
        self.put(Call::Table(call));
    }

    pub fn table(&self) -> &Table {
        &self.carriers.table
    }
}
