//! Seats, times and places. A seat and a time have different machine types,
//! so the compiler keeps them apart.

/// A seat's number, from 0.
pub type Seat = usize;

/// A time. It is signed because a critical time may be below 0.
pub type Time = i32;

#[derive(Clone, Copy, Debug, PartialEq, Eq)]
pub struct Place {
    pub seat: Seat,
    pub time: Time,
}
