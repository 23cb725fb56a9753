//! Sets of seats.

use crate::place::Seat;

/// Bit q stands for seat q, as in a loss set.
#[derive(Clone, Copy, Debug, PartialEq, Eq, Default)]
pub struct SeatSet(u8);

impl SeatSet {
    pub fn only(seat: Seat) -> SeatSet {
        SeatSet(1 << seat)
    }

    pub fn everyone(seats: usize) -> SeatSet {
        (0..seats).collect()
    }

    pub fn insert(&mut self, seat: Seat) {
        self.0 |= 1 << seat;
    }

    pub fn contains(self, seat: Seat) -> bool {
        self.0 >> seat & 1 == 1
    }

    pub fn join(self, other: SeatSet) -> SeatSet {
        SeatSet(self.0 | other.0)
    }

    pub fn without(self, other: SeatSet) -> SeatSet {
        SeatSet(self.0 & !other.0)
    }

    pub fn len(self) -> usize {
        self.0.count_ones() as usize
    }

    pub fn is_empty(self) -> bool {
        self.len() == 0
    }

    /// The set as a number, bit q for seat q.
    pub fn number(self) -> u8 {
        self.0
    }

    /// The seats in rising order: each time the lowest bit is taken out.
    pub fn iter(self) -> impl Iterator<Item = Seat> {
        let mut left = self.0;
        std::iter::from_fn(move || {
            let lowest = left.trailing_zeros() as Seat;
            left &= left.wrapping_sub(1);
            (lowest < 8).then_some(lowest)
        })
    }
}

impl FromIterator<Seat> for SeatSet {
    fn from_iter<Seats: IntoIterator<Item = Seat>>(seats: Seats) -> SeatSet {
        let mut set = SeatSet::default();
        seats.into_iter().for_each(|seat| set.insert(seat));
        set
    }
}

#[cfg(test)]
mod tests {
    use super::*;

    fn set<const COUNT: usize>(seats: [Seat; COUNT]) -> SeatSet {
        seats.into_iter().collect()
    }

    #[test]
    fn seats_come_back_in_rising_order() {
        assert_eq!(set([6, 0, 3]).iter().collect::<Vec<Seat>>(), [0, 3, 6]);
        assert_eq!(SeatSet::everyone(7), set([0, 1, 2, 3, 4, 5, 6]));
        assert!(SeatSet::default().is_empty());
        assert_eq!(set([6, 0, 3]).number(), 0b100_1001);
    }

    #[test]
    fn sets_are_joined_and_taken_apart() {
        assert_eq!(set([1, 2]).join(set([2, 5])), set([1, 2, 5]));
        assert_eq!(set([1, 2]).without(set([2, 5])), set([1]));
        assert_eq!(set([1, 2, 5]).len(), 3);
    }
}
