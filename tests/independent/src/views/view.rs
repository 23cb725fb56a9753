//! A set of places.

use crate::place::{Place, Seat, Time};
use crate::record::MOST_ROUNDS;
use crate::seats::SeatSet;

const TIMES: usize = MOST_ROUNDS as usize + 1;

#[derive(Clone, Copy, Debug, PartialEq, Eq)]
pub struct View {
    /// For each time, the seats whose place of that time is in the view.
    seats_at: [SeatSet; TIMES],
    /// One past the latest time of all; it saves walking the rest.
    end: usize,
}

impl View {
    pub fn empty() -> View {
        View { seats_at: [SeatSet::default(); TIMES], end: 0 }
    }

    /// Adds the places of some seats at a time; hands back the seats whose place is new.
    pub fn insert(&mut self, seats: SeatSet, time: Time) -> SeatSet {
        let time = time as usize;
        let new = seats.without(self.seats_at[time]);
        self.seats_at[time] = self.seats_at[time].join(seats);
        if !seats.is_empty() {
            self.end = self.end.max(time + 1);
        }
        new
    }

    pub fn contains(&self, place: Place) -> bool {
        self.seats_at[place.time as usize].contains(place.seat)
    }

    pub fn places(&self) -> impl Iterator<Item = Place> + '_ {
        let at =
            |(time, seats): (Time, &SeatSet)| seats.iter().map(move |seat| Place { seat, time });
        (0..).zip(&self.seats_at[..self.end]).flat_map(at)
    }

    /// The view as n numbers: the latest time of each seat, or −1 for none.
    pub fn latest_times(&self, seats: usize) -> impl Iterator<Item = Time> + '_ {
        let has_place = |seat: Seat| move |seats: &SeatSet| seats.contains(seat);
        let latest = move |seat: Seat| self.seats_at[..self.end].iter().rposition(has_place(seat));
        (0..seats).map(move |seat| latest(seat).map_or(-1, |time| time as Time))
    }
}

#[cfg(test)]
mod tests {
    use super::*;

    fn set<const COUNT: usize>(seats: [Seat; COUNT]) -> SeatSet {
        seats.into_iter().collect()
    }

    #[test]
    fn places_come_back_once_each() {
        let mut view = View::empty();
        assert_eq!(view.insert(set([2, 5]), 127), set([2, 5]));
        assert_eq!(view.insert(set([6, 5]), 127), set([6]));
        assert_eq!(view.insert(set([0]), 0), set([0]));
        let expected = [(0, 0), (2, 127), (5, 127), (6, 127)];
        assert!(view.places().eq(expected.map(|(seat, time)| Place { seat, time })));
        assert!(view.places().all(|place| view.contains(place)));
        assert!(!view.contains(Place { seat: 0, time: 127 }));
    }

    #[test]
    fn latest_times_are_those_of_the_latest_places() {
        let mut view = View::empty();
        view.insert(set([]), 9);
        assert_eq!(view, View::empty());
        assert!(view.latest_times(2).eq([-1, -1]));
        view.insert(set([1, 2]), 0);
        view.insert(set([2]), 127);
        assert!(view.latest_times(4).eq([-1, 0, 127, -1]));
    }
}
