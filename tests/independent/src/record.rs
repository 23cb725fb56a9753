//! The record of a shared farm: its header, its losses, its edits.

pub mod lent;
pub mod read;
pub mod write;

use crate::change;
use crate::place::{Place, Seat, Time};
use crate::seats::SeatSet;

pub const FEWEST_SEATS: u32 = 2;
pub const MOST_SEATS: u32 = 7;
pub const MOST_ROUNDS: u32 = 127;
pub const MOST_EDITS: u32 = 512;
/// The loss sets of the longest record: 7 for each of 127 rounds.
pub const LOSS_ENTRIES: usize = 889;
pub const EDIT_ENTRIES: usize = 512;
pub const HIGHEST_CELL: u32 = 65_535;
pub const HIGHEST_MAPPED_CHANGE: u32 = 65_535;
pub const LOWEST_CHANGE: i32 = -32_768;
pub const HIGHEST_CHANGE: i32 = 32_767;

#[derive(Clone, Debug, PartialEq, Eq)]
pub struct Edit {
    pub seat: Seat,
    pub time: Time,
    pub cell: u32,
    pub change: i32,
}

impl Edit {
    pub fn place(&self) -> Place {
        Place { seat: self.seat, time: self.time }
    }

    /// Whether this edit may follow that one.
    pub fn is_after(&self, before: &Edit) -> bool {
        (self.time, self.seat, self.cell) > (before.time, before.seat, before.cell)
    }
}

#[derive(Clone, Debug, PartialEq, Eq)]
pub struct Record {
    pub seats: usize,
    pub bound: usize,
    pub rounds: Time,
    /// Round by round, and in each round sender by sender: who missed the
    /// send, seat q as bit q.
    pub losses: Vec<u32>,
    pub edits: Vec<Edit>,
}

impl Record {
    /// Whether the sender's send to the receiver was lost in the round.
    pub fn lost(&self, sender: Seat, receiver: Seat, round: Time) -> bool {
        let set = self.losses[(round as usize - 1) * self.seats + sender];
        set >> receiver & 1 == 1
    }

    /// A loser loses a send in some round of the record.
    pub fn is_loser(&self, seat: Seat) -> bool {
        (1..=self.rounds)
            .any(|round| (0..self.seats).any(|receiver| self.lost(seat, receiver, round)))
    }

    pub fn losers(&self) -> SeatSet {
        (0..self.seats).filter(|&seat| self.is_loser(seat)).collect()
    }

    /// All numbers of the record in the order in which they are written.
    pub fn numbers(&self) -> Vec<u32> {
        let mut numbers =
            vec![self.seats as u32, self.bound as u32, self.rounds as u32, self.edits.len() as u32];
        numbers.extend(&self.losses);
        for edit in &self.edits {
            let change = change::mapped(edit.change);
            numbers.extend([edit.seat as u32, edit.time as u32, edit.cell, change]);
        }
        numbers
    }
}

/// A good loss set has neither the sender's own bit nor any bit at n or above.
pub fn is_good_loss_set(set: u32, sender: Seat, seats: usize) -> bool {
    set >> seats == 0 && set >> sender & 1 == 0
}
