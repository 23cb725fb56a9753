//! Views as explicit sets of places (rules 1 and 2 of document 01).

mod view;

use crate::place::{Place, Time};
use crate::record::Record;
use crate::seats::SeatSet;
pub use view::View;

/// Searches the views of one record.
pub struct Views<'a> {
    pub record: &'a Record,
    everyone: SeatSet,
    /// For each round, for each receiver, the seats whose send to it was lost.
    missed: Vec<SeatSet>,
    /// Places found but not yet followed; kept here so that its room is used again.
    open: Vec<Place>,
}

impl<'a> Views<'a> {
    pub fn new(record: &'a Record) -> Self {
        let everyone = SeatSet::everyone(record.seats);
        let missed_by = |receiver, round| {
            everyone.iter().filter(move |&sender| record.lost(sender, receiver, round)).collect()
        };
        let missed = (1..=record.rounds)
            .flat_map(|round| everyone.iter().map(move |receiver| missed_by(receiver, round)))
            .collect();
        Views { record, everyone, missed, open: Vec::new() }
    }

    pub fn of_place(&mut self, place: Place) -> View {
        self.of_set(SeatSet::only(place.seat), place.time)
    }

    /// The view of a set of seats at a time joins theirs, so one search starts
    /// from all their places; below time 0 it is empty.
    pub fn of_set(&mut self, seats: SeatSet, time: Time) -> View {
        let mut view = View::empty();
        if time >= 0 {
            self.reach(seats, time, &mut view);
        }
        while let Some(place) = self.open.pop() {
            if place.time >= 1 {
                self.reach(self.heard_at(place), place.time - 1, &mut view);
            }
        }
        view
    }

    /// Rule 2: a seat is known if the view has a place that missed a send of it.
    pub fn known(&self, view: &View) -> SeatSet {
        view.places()
            .filter(|place| place.time >= 1)
            .fold(SeatSet::default(), |known, place| known.join(self.missed_at(place)))
    }

    /// Adds the places of some seats at a time; those that are new have yet to be followed.
    fn reach(&mut self, seats: SeatSet, time: Time, view: &mut View) {
        let new = view.insert(seats, time);
        self.open.extend(new.iter().map(|seat| Place { seat, time }));
    }

    /// Rule 1: the seats whose message, or own memory, reaches this place from the
    /// time before. Its own seat is among them: no seat is in its own loss set.
    fn heard_at(&self, place: Place) -> SeatSet {
        self.everyone.without(self.missed_at(place))
    }

    /// The seats whose send to this place, of a time from 1 on, was lost.
    fn missed_at(&self, place: Place) -> SeatSet {
        self.missed[(place.time as usize - 1) * self.record.seats + place.seat]
    }
}

#[cfg(test)]
mod tests {
    use super::*;
    use crate::make::good;
    use crate::random::Random;

    #[test]
    fn a_view_holds_all_times_up_to_the_latest_one() {
        let mut random = Random::new(5);
        for _ in 0..300 {
            let record = good::record(&mut random);
            let place = Place { seat: random.index(record.seats), time: record.rounds };
            let view = Views::new(&record).of_place(place);
            for (seat, latest) in view.latest_times(record.seats).enumerate() {
                assert!((0..=latest).all(|time| view.contains(Place { seat, time })));
                let later = latest + 1..=record.rounds;
                assert!(!later.into_iter().any(|time| view.contains(Place { seat, time })));
            }
        }
    }

    #[test]
    fn below_time_0_a_view_is_empty() {
        let record = good::record(&mut Random::new(6));
        let everyone = SeatSet::everyone(record.seats);
        assert_eq!(Views::new(&record).of_set(everyone, -1), View::empty());
    }

    fn joined(views: &mut Views, seats: SeatSet, time: Time) -> View {
        let mut joined = View::empty();
        for seat in seats.iter() {
            for place in views.of_place(Place { seat, time }).places() {
                joined.insert(SeatSet::only(place.seat), place.time);
            }
        }
        joined
    }

    /// Rule 1 word for word: the place itself, and the views of the places of the
    /// time before whose send was not lost, the seat's own among them.
    #[test]
    fn the_search_finds_what_the_rule_says() {
        let mut random = Random::new(7);
        for _ in 0..300 {
            let record = good::small_record(&mut random);
            let views = &mut Views::new(&record);
            for time in 1..=record.rounds {
                for seat in 0..record.seats {
                    let reaches = |q: &usize| *q == seat || !record.lost(*q, seat, time);
                    let heard = (0..record.seats).filter(reaches).collect();
                    let mut expected = joined(views, heard, time - 1);
                    expected.insert(SeatSet::only(seat), time);
                    assert_eq!(views.of_place(Place { seat, time }), expected);
                }
            }
        }
    }

    #[test]
    fn the_view_of_a_set_joins_theirs() {
        let mut random = Random::new(8);
        for _ in 0..300 {
            let record = good::small_record(&mut random);
            let views = &mut Views::new(&record);
            let seats = (0..record.seats).filter(|_| random.chance(600)).collect();
            let time = random.between(0, record.rounds as u64) as Time;
            assert_eq!(views.of_set(seats, time), joined(views, seats, time));
        }
    }
}
