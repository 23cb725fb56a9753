//! Fixed records with faults: each fault in each number, and faults together.

use crate::examples;
use crate::hex;
use crate::make::draft::Draft;
use crate::make::faults::HIGHEST_NUMBER;
use crate::make::Made;
use crate::number;
use crate::record::{Edit, Record};

/// Each kind of fault in each number of a record: header, losses, both edits.
pub fn faults_in_each_number() -> Vec<Made> {
    let draft = Draft::of(&sample());
    let mut records = Vec::new();
    for position in 0..draft.numbers.len() {
        for number in numbers_to_try(&draft, position) {
            let shape = format!("{} as {}", draft.name(position), hex::text(&number));
            let mut faulty = draft.clone();
            faulty.numbers[position] = number;
            records.push(Made::new(shape, faulty.bytes()));
        }
        for begun in [&[][..], &[0x80], &[0x80, 0x80], &[0x80, 0x80, 0x80]] {
            let shape = format!("the end in {} after {} bytes", draft.name(position), begun.len());
            let before = draft.numbers[..position].concat();
            records.push(Made::new(shape, [&before[..], begun].concat()));
        }
    }
    records
}

/// Bad forms, and values at the limit, one past it and far past it.
fn numbers_to_try(draft: &Draft, position: usize) -> Vec<Vec<u8>> {
    let limit = draft.limit(position);
    vec![
        vec![0x80, 0x00],
        vec![0x81, 0x00],
        vec![0x80, 0x80, 0x00],
        vec![0x80, 0x80, 0x80],
        vec![0xFF, 0xFF, 0xFF],
        vec![0xFF, 0xFF, 0xFF, 0x01],
        number::write(limit),
        number::write(limit + 1),
        number::write(limit + 2),
        number::write(HIGHEST_NUMBER),
    ]
}

/// A number out of range before one in a bad form, and the other way round:
/// the first in byte order decides.
pub fn two_faults() -> Vec<Made> {
    let draft = Draft::of(&sample());
    let mut records = Vec::new();
    for first in 0..draft.numbers.len() {
        for second in 0..draft.numbers.len() {
            let mut faulty = draft.clone();
            faulty.set(first, draft.limit(first) + 1);
            faulty.numbers[second] = vec![0x80, 0x00];
            let shape = format!("{} too high, {} padded", draft.name(first), draft.name(second));
            records.push(Made::new(shape, faulty.bytes()));
        }
    }
    records
}

/// Equal and falling edits, alone and with another fault behind or inside.
pub fn faults_in_order_of_edits() -> Vec<Made> {
    // One edit by seat 1 at time 1, cell 5; and then a second one.
    let after = |shape: &str, second: &[u8]| {
        let first = [2, 1, 1, 2, 0, 0, 1, 1, 5, 0];
        Made::new(format!("second edit {shape}"), [&first[..], second].concat())
    };
    vec![
        after("of a later cell", &[1, 1, 6, 0]),
        after("the same as the first", &[1, 1, 5, 0]),
        after("with another change alone", &[1, 1, 5, 1]),
        after("of an earlier cell", &[1, 1, 4, 0]),
        after("of an earlier seat", &[0, 1, 6, 0]),
        after("of an earlier time", &[1, 0, 6, 0]),
        after("repeated without its change", &[1, 1, 5]),
        after("repeated with its change cut", &[1, 1, 5, 0x80]),
        after("repeated with its change padded", &[1, 1, 5, 0x80, 0x00]),
        after("repeated with its change too high", &[1, 1, 5, 0x80, 0x80, 0x04]),
        after("repeated with its seat too high", &[2, 1, 5, 0]),
        after("repeated with its time too high", &[1, 2, 5, 0]),
        after("repeated and a byte left", &[1, 1, 5, 0, 0]),
        after("of a later cell and a byte left", &[1, 1, 6, 0, 0]),
    ]
}

/// Bytes left after the last number, which are not looked at.
pub fn bytes_left() -> Vec<Made> {
    let tails = [&[0][..], &[0x80], &[0x80, 0x00], &[0xFF, 0xFF, 0xFF], &examples::PRINTED];
    let bodies = [&[2, 0, 0, 0][..], &[2, 0, 1, 0, 0, 0], &examples::PRINTED];
    let joined = |body: &[u8]| {
        tails.map(|tail| {
            let shape = format!("{} left after {} good bytes", hex::text(tail), body.len());
            Made::new(shape, [body, tail].concat())
        })
    };
    bodies.iter().flat_map(|body| joined(body)).collect()
}

/// P4's losses and two edits.
fn sample() -> Record {
    let mut record = examples::one_loss();
    for (seat, time) in [(2, 0), (1, 2)] {
        record.edits.push(Edit { seat, time, cell: 300, change: -3 });
    }
    record
}
