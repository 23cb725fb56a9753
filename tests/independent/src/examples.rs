//! The records behind the proved examples of document 01.

use crate::place::{Seat, Time};
use crate::record::Record;

/// P11: P4's losses and one edit, as the lister's page prints them.
pub const PRINTED: [u8; 14] = [3, 1, 2, 1, 0, 0, 1, 0, 0, 0, 2, 0, 5, 5];

/// A send that did not arrive.
struct Lost {
    round: Time,
    sender: Seat,
    receiver: Seat,
}

/// P1 to P3.
pub fn no_loss() -> Record {
    record(3, 1, 3, &[])
}

/// P4 to P6.
pub fn one_loss() -> Record {
    record(3, 1, 2, &[lost(1, 2, 0)])
}

/// P7 and P8.
pub fn two_losers() -> Record {
    record(3, 2, 3, &[lost(1, 2, 1), lost(3, 1, 0)])
}

/// P9.
pub fn over_the_bound() -> Record {
    record(3, 1, 1, &[lost(1, 1, 0), lost(1, 2, 0)])
}

/// P10.
pub fn bound_zero() -> Record {
    record(2, 0, 1, &[])
}

fn lost(round: Time, sender: Seat, receiver: Seat) -> Lost {
    Lost { round, sender, receiver }
}

fn record(seats: usize, bound: usize, rounds: Time, all_lost: &[Lost]) -> Record {
    let mut losses = vec![0; seats * rounds as usize];
    for lost in all_lost {
        losses[(lost.round as usize - 1) * seats + lost.sender] |= 1 << lost.receiver;
    }
    Record { seats, bound, rounds, losses, edits: Vec::new() }
}
