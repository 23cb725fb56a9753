//! Faults put into single numbers of a record, as a hostile machine would.

use super::draft::{Draft, EDIT_FIELDS, HEADER};
use crate::random::Random;

/// The highest number that three bytes hold.
pub const HIGHEST_NUMBER: u32 = (1 << 21) - 1;

/// A fault in plain words, and what puts it into a record.
type Fault = (&'static str, fn(&mut Random, &mut Draft));

const FAULTS: [Fault; 10] = [
    ("a number padded", pad),
    ("a number too long", make_too_long),
    ("a header number too high", exceed_in_header),
    ("a loss set too high", exceed_in_loss),
    ("an edit's field too high", exceed_in_edit),
    ("too few seats", lack_seats),
    ("an own bit in a loss set", set_own_bit),
    ("an edit repeated", repeat_edit),
    ("two edits swapped", swap_edits),
    ("another header number", give_other_header),
];

/// Spoils a record that has at least one round and two edits; says how.
pub fn spoil(random: &mut Random, draft: &mut Draft) -> &'static str {
    let (name, put) = random.pick(&FAULTS);
    put(random, draft);
    name
}

/// A longer form than the shortest: a last byte 0 after another byte.
fn pad(random: &mut Random, draft: &mut Draft) {
    let position = any_position(random, draft);
    let number = &mut draft.numbers[position];
    number.truncate(2);
    if number.len() == 1 && random.chance(500) {
        number.push(0);
    }
    for byte in number.iter_mut() {
        *byte |= 0x80;
    }
    number.push(0);
}

/// A third byte with its top bit set.
fn make_too_long(random: &mut Random, draft: &mut Draft) {
    let position = any_position(random, draft);
    let mut number: Vec<u8> = (0..3).map(|_| random.byte() | 0x80).collect();
    if random.chance(500) {
        number.push(random.byte() & 0x7F);
    }
    draft.numbers[position] = number;
}

fn exceed_in_header(random: &mut Random, draft: &mut Draft) {
    let position = random.index(HEADER);
    exceed(random, draft, position);
}

fn exceed_in_loss(random: &mut Random, draft: &mut Draft) {
    let position = any_loss(random, draft);
    exceed(random, draft, position);
}

fn exceed_in_edit(random: &mut Random, draft: &mut Draft) {
    let position = any_edit_field(random, draft);
    exceed(random, draft, position);
}

/// Out of range by one or by a lot.
fn exceed(random: &mut Random, draft: &mut Draft, position: usize) {
    let past = draft.limit(position) + 1;
    let anywhere = random.between(past.into(), HIGHEST_NUMBER.into()) as u32;
    let value = random.pick(&[past, past, past + 1, anywhere, HIGHEST_NUMBER]);
    draft.set(position, value);
}

fn lack_seats(random: &mut Random, draft: &mut Draft) {
    draft.set(0, random.pick(&[0, 1]));
}

fn set_own_bit(random: &mut Random, draft: &mut Draft) {
    let index = random.index(draft.loss_count());
    let own = 1 << (index as u32 % draft.seats);
    let rest = random.below(1 << draft.seats) as u32;
    draft.set(draft.loss(index), own | random.pick(&[0, rest]));
}

/// An edit with the time, seat and cell of the one before.
fn repeat_edit(random: &mut Random, draft: &mut Draft) {
    let index = random.index(draft.edits - 1);
    let fields = random.pick(&[EDIT_FIELDS - 1, EDIT_FIELDS]);
    for field in 0..fields {
        let (from, to) = (draft.edit(index, field), draft.edit(index + 1, field));
        draft.numbers[to] = draft.numbers[from].clone();
    }
}

/// Two edits in falling order.
fn swap_edits(random: &mut Random, draft: &mut Draft) {
    let first = random.index(draft.edits - 1);
    let second = first + 1 + random.index(draft.edits - 1 - first);
    for field in 0..EDIT_FIELDS {
        let (one, other) = (draft.edit(first, field), draft.edit(second, field));
        draft.numbers.swap(one, other);
    }
}

/// A small header number that need not fit what follows.
fn give_other_header(random: &mut Random, draft: &mut Draft) {
    let position = random.index(HEADER);
    let highest = draft.limit(position).min(7);
    draft.set(position, random.between(0, highest.into()) as u32);
}

/// The record ends before a number or within it.
pub fn end_at_number(random: &mut Random, draft: &mut Draft) {
    let position = any_position(random, draft);
    draft.numbers.truncate(position);
    let begun = vec![random.byte() | 0x80; random.index(3)];
    draft.numbers.push(begun);
}

fn any_position(random: &mut Random, draft: &Draft) -> usize {
    match random.below(3) {
        0 => random.index(HEADER),
        1 => any_loss(random, draft),
        _ => any_edit_field(random, draft),
    }
}

fn any_loss(random: &mut Random, draft: &Draft) -> usize {
    draft.loss(random.index(draft.loss_count()))
}

fn any_edit_field(random: &mut Random, draft: &Draft) -> usize {
    draft.edit(random.index(draft.edits), random.index(EDIT_FIELDS))
}
