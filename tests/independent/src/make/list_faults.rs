//! Faults put into the lists of a record. Every number keeps to the width of its
//! line; some would be good ones if they were cut to 8 or 16 bits.

use super::{PAST_A_BYTE, PAST_TWO_BYTES};
use crate::random::Random;
use crate::record::write::Lists;
use crate::record::{HIGHEST_CELL, MOST_EDITS, MOST_ROUNDS, MOST_SEATS};

type Fault = fn(&mut Random, &mut Lists);

const FAULTS: [Fault; 11] = [
    give_bad_seats,
    give_bad_bound,
    give_bad_rounds,
    give_other_rounds,
    give_too_many_edits,
    change_a_length,
    spoil_loss_set,
    spoil_edit,
    spoil_edit,
    repeat_edit,
    swap_edits,
];

/// Spoils lists in one way. They may have been spoilt before.
pub fn spoil(random: &mut Random, lists: &mut Lists) {
    random.pick(&FAULTS)(random, lists);
}

fn give_bad_seats(random: &mut Random, lists: &mut Lists) {
    let past = random.pick(&[PAST_A_BYTE, PAST_TWO_BYTES]);
    let cut = lists.seats.saturating_add(past);
    lists.seats = random.pick(&[0, 1, MOST_SEATS + 1, cut, cut, u32::MAX]);
}

fn give_bad_bound(random: &mut Random, lists: &mut Lists) {
    let past = random.pick(&[PAST_A_BYTE, PAST_TWO_BYTES]);
    let cut = lists.bound.saturating_add(past);
    lists.bound = random.pick(&[lists.seats, cut, cut, u32::MAX]);
}

fn give_bad_rounds(random: &mut Random, lists: &mut Lists) {
    let past = random.pick(&[PAST_A_BYTE, PAST_TWO_BYTES]);
    let cut = lists.rounds.saturating_add(past);
    lists.rounds = random.pick(&[MOST_ROUNDS + 1, cut, cut, u32::MAX]);
}

/// Rounds in range that the losses do not fit.
fn give_other_rounds(random: &mut Random, lists: &mut Lists) {
    lists.rounds = random.pick(&[0, MOST_ROUNDS, lists.rounds.saturating_add(1)]);
}

/// One edit too many, or so many that the count would be a good one if it were
/// cut; in the list of editors, which counts, or in all four.
fn give_too_many_edits(random: &mut Random, lists: &mut Lists) {
    let count = random.pick(&[MOST_EDITS + 1, MOST_EDITS + PAST_A_BYTE]);
    lists.edit_seats = vec![0; count as usize];
    if random.chance(500) {
        lists.edit_times = vec![0; count as usize];
        lists.edit_cells = (0..count).collect();
        lists.edit_changes = vec![0; count as usize];
    }
}

fn change_a_length(random: &mut Random, lists: &mut Lists) {
    match random.below(5) {
        0 => resize(random, &mut lists.losses),
        1 => resize(random, &mut lists.edit_seats),
        2 => resize(random, &mut lists.edit_times),
        3 => resize(random, &mut lists.edit_cells),
        _ => resize(random, &mut lists.edit_changes),
    }
}

/// One entry less, one more, none, or 256 more.
fn resize<Entry: Clone + Default>(random: &mut Random, list: &mut Vec<Entry>) {
    let length = list.len();
    let lengths = [length.saturating_sub(1), length + 1, 0, length + 256];
    list.resize(random.pick(&lengths).min(1_000), Entry::default());
}

/// The sender's own bit, or a bit at n or above.
fn spoil_loss_set(random: &mut Random, lists: &mut Lists) {
    if lists.losses.is_empty() {
        return;
    }
    let seats = lists.seats.clamp(2, 7);
    let index = random.index(lists.losses.len());
    let own = 1 << (index as u32 % seats);
    let bit = random.pick(&[own, own, 1 << seats, 0x0100, 0x8000]);
    lists.losses[index] = random.pick(&[bit, lists.losses[index] | bit]);
}

/// A seat, a time or a cell out of range.
fn spoil_edit(random: &mut Random, lists: &mut Lists) {
    match random.below(3) {
        0 => {
            let past = lists.seats.min(254);
            let seat = random.pick(&[past, past + 1, 255]);
            put_anywhere(random, &mut lists.edit_seats, seat);
        }
        1 => {
            let past = lists.rounds.min(65_000) + 1;
            let time = random.pick(&[past, PAST_A_BYTE, 65_535]);
            put_anywhere(random, &mut lists.edit_times, time);
        }
        _ => {
            let cell = random.pick(&[HIGHEST_CELL + 1, HIGHEST_CELL + 300, u32::MAX]);
            put_anywhere(random, &mut lists.edit_cells, cell);
        }
    }
}

fn put_anywhere(random: &mut Random, list: &mut [u32], value: u32) {
    if !list.is_empty() {
        let index = random.index(list.len());
        list[index] = value;
    }
}

/// An edit with the time, seat and cell of the one before.
fn repeat_edit(random: &mut Random, lists: &mut Lists) {
    let index = random.index(shortest(lists).max(2) - 1);
    for list in [&mut lists.edit_seats, &mut lists.edit_times, &mut lists.edit_cells] {
        if index + 1 < list.len() {
            list[index + 1] = list[index];
        }
    }
}

/// Two edits in falling order.
fn swap_edits(random: &mut Random, lists: &mut Lists) {
    let length = shortest(lists).max(2);
    let first = random.index(length - 1);
    let second = first + 1 + random.index(length - 1 - first);
    for list in [&mut lists.edit_seats, &mut lists.edit_times, &mut lists.edit_cells] {
        if second < list.len() {
            list.swap(first, second);
        }
    }
}

fn shortest(lists: &Lists) -> usize {
    lists.edit_seats.len().min(lists.edit_times.len()).min(lists.edit_cells.len())
}

#[cfg(test)]
mod tests {
    use super::*;
    use crate::make::{carrying, good};
    use crate::script::carriers::Carriers;
    use crate::script::play;

    /// A number that did not fit its width would come back as another one.
    #[test]
    fn spoilt_lists_keep_to_their_widths() {
        let mut random = Random::new(61);
        for _ in 0..500 {
            let mut lists = Lists::of(&good::small_record(&mut random));
            spoil(&mut random, &mut lists);
            spoil(&mut random, &mut lists);
            let carriers = &mut Carriers::fresh();
            for call in carrying::as_lists(&lists) {
                play::line(carriers, &call);
            }
            assert_eq!(carriers.lists, lists);
        }
    }
}
