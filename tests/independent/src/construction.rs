//! The chain of steps from which the core comes (rules 3 to 6 of document 01).

use crate::place::{Place, Time};
use crate::record::{Edit, Record};
use crate::refusal::Refusal;
use crate::seats::SeatSet;
use crate::views::{View, Views};

/// One step of the chain: k, the view of S at k, and the set B known in it.
struct Step {
    time: Time,
    view: View,
    known: SeatSet,
}

/// What the chain comes to rest at.
pub struct Settled {
    pub critical: Time,
    pub kept: SeatSet,
    pub steps: usize,
    pub core: View,
}

impl Settled {
    /// An edit is in the core if its place is.
    pub fn holds(&self, edit: &Edit) -> bool {
        self.core.contains(edit.place())
    }

    pub fn count_edits(&self, record: &Record) -> usize {
        record.edits.iter().filter(|edit| self.holds(edit)).count()
    }
}

/// Follows the chain of a place to the first h ≥ 1 that brings no change.
pub fn settle(views: &mut Views, place: Place) -> Result<Settled, Refusal> {
    let mut before = step(views, SeatSet::only(place.seat), place.time);
    if before.known.len() > views.record.bound {
        return Err(Refusal::Over);
    }
    let mut steps = 0;
    loop {
        steps += 1;
        let after = next(views, &before, place.time);
        if after.known == before.known {
            let Step { time: critical, view: core, known: kept } = after;
            return Ok(Settled { critical, kept, steps, core });
        }
        before = after;
    }
}

fn step(views: &mut Views, seats: SeatSet, time: Time) -> Step {
    let view = views.of_set(seats, time);
    let known = views.known(&view);
    Step { time, view, known }
}

/// Rule 3: all seats outside B, at the asked time less t + 1 − |B|.
fn next(views: &mut Views, before: &Step, asked: Time) -> Step {
    let trusted = SeatSet::everyone(views.record.seats).without(before.known);
    let delay = views.record.bound as Time + 1 - before.known.len() as Time;
    step(views, trusted, asked - delay)
}

#[cfg(test)]
mod tests;
