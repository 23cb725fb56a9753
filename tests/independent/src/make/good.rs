//! Good records of every shape.

use super::{edits, losses};
use crate::place::Time;
use crate::random::Random;
use crate::record::Record;

struct Size {
    seats: usize,
    bound: usize,
    rounds: Time,
    edits: usize,
}

/// Any good record. Small ones are far more frequent, so that many records
/// stay quick to judge.
pub fn record(random: &mut Random) -> Record {
    if random.chance(1) {
        return longest(random);
    }
    let seats = random.between(2, 7) as usize;
    let size = Size {
        seats,
        bound: random.index(seats),
        rounds: any_rounds(random),
        edits: any_edits(random),
    };
    fill(random, size)
}

/// A small record with at least one round and two edits, so that a fault can
/// be put into every kind of number.
pub fn small_record(random: &mut Random) -> Record {
    let seats = random.between(2, 7) as usize;
    let size = Size {
        seats,
        bound: random.index(seats),
        rounds: random.between(1, 5) as Time,
        edits: random.between(2, 6) as usize,
    };
    fill(random, size)
}

/// A record of 4,990 bytes: everything at its limit, each cell and each mapped
/// change in three bytes.
pub fn longest(random: &mut Random) -> Record {
    let size = Size { seats: 7, bound: 6, rounds: 127, edits: 512 };
    let mut record = fill(random, size);
    for (index, edit) in record.edits.iter_mut().enumerate() {
        edit.cell = 65_535 - 512 + index as u32;
        edit.change = if index % 2 == 0 { 32_767 } else { -32_768 };
    }
    record
}

fn fill(random: &mut Random, size: Size) -> Record {
    let mut record = Record {
        seats: size.seats,
        bound: size.bound,
        rounds: size.rounds,
        losses: vec![0; size.seats * size.rounds as usize],
        edits: Vec::new(),
    };
    losses::lose(random, &mut record);
    record.edits = edits::edits(random, &record, size.edits);
    record
}

fn any_rounds(random: &mut Random) -> Time {
    let most = match random.below(1_000) {
        0 => return 127,
        1..=4 => 127,
        5..=40 => 24,
        41..=340 => 10,
        _ => 4,
    };
    random.between(0, most) as Time
}

fn any_edits(random: &mut Random) -> usize {
    let most = match random.below(1_000) {
        0 => return 512,
        1..=9 => 512,
        10..=120 => 40,
        121..=500 => 10,
        _ => 3,
    };
    random.between(0, most) as usize
}

#[cfg(test)]
mod tests {
    use super::*;
    use crate::record::read::read;

    #[test]
    fn good_records_read_back_as_they_were_written() {
        let mut random = Random::new(11);
        for _ in 0..3_000 {
            let record = record(&mut random);
            assert_eq!(read(&record.bytes()), Ok(record));
        }
    }

    #[test]
    fn the_longest_record_has_4990_bytes() {
        let record = longest(&mut Random::new(2));
        assert_eq!(record.bytes().len(), 4_990);
        assert_eq!(read(&record.bytes()), Ok(record));
    }
}
