//! Ways in which seats lose sends, from none to heavy.

use crate::place::{Seat, Time};
use crate::random::Random;
use crate::record::Record;

/// Puts losses of one kind into a record that has none.
pub fn lose(random: &mut Random, record: &mut Record) {
    if record.rounds == 0 {
        return;
    }
    match random.below(8) {
        0 => (),
        1 => lose_few(random, record),
        2 | 3 => lose_within_bound(random, record),
        4 => lose_anywhere(random, record),
        5 => fall_silent(random, record),
        _ => lose_one_after_another(random, record),
    }
}

/// One to three sends, of any seats.
fn lose_few(random: &mut Random, record: &mut Record) {
    for _ in 0..random.between(1, 3) {
        let sender = random.index(record.seats);
        let receiver = other_seat(random, record, sender);
        let round = any_round(random, record);
        lose_send(record, sender, receiver, round);
    }
}

/// At most t losers, each losing sends lightly or heavily.
fn lose_within_bound(random: &mut Random, record: &mut Record) {
    let count = random.between(0, record.bound as u64) as usize;
    for loser in some_seats(random, record, count) {
        lose_often(random, record, loser);
    }
}

/// Every seat may be a loser, whatever the bound.
fn lose_anywhere(random: &mut Random, record: &mut Record) {
    for sender in 0..record.seats {
        lose_often(random, record, sender);
    }
}

/// Seats that reach only some in one round and nobody later.
fn fall_silent(random: &mut Random, record: &mut Record) {
    let count = random.between(1, record.seats as u64) as usize;
    for loser in some_seats(random, record, count) {
        let last = any_round(random, record);
        for receiver in others(record, loser) {
            for round in last..=record.rounds {
                if round > last || random.chance(500) {
                    lose_send(record, loser, receiver, round);
                }
            }
        }
    }
}

/// A new loser in each of some rounds, most of them towards the same seat:
/// this makes the chains of many steps.
fn lose_one_after_another(random: &mut Random, record: &mut Record) {
    let order = some_seats(random, record, record.seats);
    let victim = order[0];
    let start = any_round(random, record);
    let most = if random.chance(800) { record.bound } else { record.seats };
    for (round, &loser) in (start..=record.rounds).zip(order[1..].iter().take(most)) {
        let receiver = if random.chance(800) { victim } else { other_seat(random, record, loser) };
        lose_send(record, loser, receiver, round);
    }
}

fn lose_often(random: &mut Random, record: &mut Record, sender: Seat) {
    let share = random.pick(&[20, 100, 300, 600, 1_000]);
    for round in 1..=record.rounds {
        for receiver in others(record, sender) {
            if random.chance(share) {
                lose_send(record, sender, receiver, round);
            }
        }
    }
}

fn lose_send(record: &mut Record, sender: Seat, receiver: Seat, round: Time) {
    record.losses[(round as usize - 1) * record.seats + sender] |= 1 << receiver;
}

fn any_round(random: &mut Random, record: &Record) -> Time {
    random.between(1, record.rounds as u64) as Time
}

fn others(record: &Record, seat: Seat) -> Vec<Seat> {
    (0..record.seats).filter(|&other| other != seat).collect()
}

fn other_seat(random: &mut Random, record: &Record, seat: Seat) -> Seat {
    random.pick(&others(record, seat))
}

/// So many different seats in any order.
fn some_seats(random: &mut Random, record: &Record, count: usize) -> Vec<Seat> {
    let mut left: Vec<Seat> = (0..record.seats).collect();
    (0..count).map(|_| left.remove(random.index(left.len()))).collect()
}
