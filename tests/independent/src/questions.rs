//! The questions to a good record. After the record's own refusals they are
//! refused by 8, then 7, then 9.

use crate::construction::{settle, Settled};
use crate::place::{Place, Seat, Time};
use crate::record::Record;
use crate::refusal::Refusal;
use crate::seats::SeatSet;
use crate::views::{View, Views};

/// The view of a place, and the set known in it.
pub fn seen(record: &Record, seat: u32, time: u32) -> Result<(View, SeatSet), Refusal> {
    let place = asked(record, seat, time)?;
    let mut views = Views::new(record);
    let view = views.of_place(place);
    let known = views.known(&view);
    Ok((view, known))
}

pub fn agreed(record: &Record, seat: u32, time: u32) -> Result<Settled, Refusal> {
    let place = asked(record, seat, time)?;
    settle(&mut Views::new(record), place)
}

/// Whether the seat is a loser. Time 0 is a time of every record.
pub fn is_loser(record: &Record, seat: u32) -> Result<bool, Refusal> {
    let place = asked(record, seat, 0)?;
    Ok(record.is_loser(place.seat))
}

pub fn view(record: &Record, seat: u32, time: u32, room: &mut [Time]) -> Result<(), Refusal> {
    let place = asked(record, seat, time)?;
    let space = room.get_mut(..record.seats).ok_or(Refusal::Room)?;
    fill(space, &Views::new(record).of_place(place));
    Ok(())
}

pub fn core(record: &Record, seat: u32, time: u32, room: &mut [Time]) -> Result<(), Refusal> {
    let place = asked(record, seat, time)?;
    let space = room.get_mut(..record.seats).ok_or(Refusal::Room)?;
    let settled = settle(&mut Views::new(record), place)?;
    fill(space, &settled.core);
    Ok(())
}

/// One byte for each edit: 1 in the core and 0 outside.
pub fn marks(record: &Record, seat: u32, time: u32, room: &mut [u8]) -> Result<(), Refusal> {
    let place = asked(record, seat, time)?;
    let space = room.get_mut(..record.edits.len()).ok_or(Refusal::Room)?;
    let settled = settle(&mut Views::new(record), place)?;
    for (mark, edit) in space.iter_mut().zip(&record.edits) {
        *mark = settled.holds(edit).into();
    }
    Ok(())
}

/// The place that is asked about; 8 if the record has none. The numbers are
/// compared as they were given, so that a large one is never cut to a good one.
fn asked(record: &Record, seat: u32, time: u32) -> Result<Place, Refusal> {
    if seat < record.seats as u32 && time <= record.rounds as u32 {
        Ok(Place { seat: seat as Seat, time: time as Time })
    } else {
        Err(Refusal::Question)
    }
}

/// Puts a view into a space of n numbers.
fn fill(space: &mut [Time], view: &View) {
    let latest_times = view.latest_times(space.len());
    space.iter_mut().zip(latest_times).for_each(|(number, latest)| *number = latest);
}

#[cfg(test)]
mod tests;
