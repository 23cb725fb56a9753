use super::*;
use crate::examples;
use crate::make::good;
use crate::random::Random;

/// The number of the refusal; 0 for a good record.
pub fn outcome(bytes: &[u8]) -> u8 {
    read(bytes).map_or_else(|refusal| refusal.number(), |_| 0)
}

#[test]
fn p11_is_read_and_written_in_the_same_bytes() {
    let record = read(&examples::PRINTED).unwrap();
    assert_eq!(record.losses, examples::one_loss().losses);
    assert_eq!(record.edits, [Edit { seat: 2, time: 0, cell: 5, change: -3 }]);
    assert_eq!(record.bytes(), examples::PRINTED);
}

#[test]
fn edges_to_run() {
    assert_eq!(outcome(&[1, 0, 0, 0]), 3);
    assert_eq!(outcome(&[8, 0, 0, 0]), 3);
    assert_eq!(outcome(&[2, 0, 0, 0]), 0);
    assert_eq!(outcome(&[7, 0, 0, 0]), 0);
    assert_eq!(outcome(&[3, 3, 0, 0]), 3);
    assert_eq!(outcome(&[3, 2, 0, 0]), 0);
    assert_eq!(outcome(&[2, 0, 0x80, 0x01, 0]), 3);
    assert_eq!(outcome(&[2, 0, 0, 0x81, 0x04]), 3);
    assert_eq!(outcome(&[0x80, 0x00]), 2);
    assert_eq!(outcome(&[0xFF, 0xFF, 0xFF]), 2);
    assert_eq!(outcome(&[0x80]), 1);
}

#[test]
fn changes_at_their_limits() {
    let one_edit = |mapped: &[u8]| [&[2, 0, 0, 1, 0, 0, 0][..], mapped].concat();
    let rows: [(&[u8], i32); 4] =
        [(&[1], -1), (&[2], 1), (&[0xFF, 0xFF, 0x03], -32_768), (&[0xFE, 0xFF, 0x03], 32_767)];
    for (mapped, change) in rows {
        assert_eq!(read(&one_edit(mapped)).unwrap().edits[0].change, change);
    }
    assert_eq!(outcome(&one_edit(&[0x80, 0x80, 0x04])), 3);
}

#[test]
fn a_missing_number_is_1_at_every_byte() {
    for length in 0..examples::PRINTED.len() {
        assert_eq!(outcome(&examples::PRINTED[..length]), 1);
    }
    assert_eq!(outcome(&[2, 0, 0x80, 0x80]), 1);
    assert_eq!(outcome(&[2, 0, 0x80, 0x80, 0x80]), 2);
}

#[test]
fn every_cut_of_a_good_record_is_1_and_every_byte_more_is_6() {
    let mut random = Random::new(21);
    for _ in 0..100 {
        let mut bytes = good::small_record(&mut random).bytes();
        for length in 0..bytes.len() {
            assert_eq!(outcome(&bytes[..length]), 1);
        }
        bytes.push(random.byte());
        assert_eq!(outcome(&bytes), 6);
    }
}

#[test]
fn loss_sets_of_every_length() {
    let first_set = |set: &[u8]| outcome(&[&[3, 0, 1, 0][..], set, &[0, 0]].concat());
    assert_eq!(first_set(&[0b110]), 0);
    assert_eq!(first_set(&[0b001]), 4);
    assert_eq!(first_set(&[0b1000]), 4);
    assert_eq!(first_set(&[0x80, 0x01]), 4);
    assert_eq!(first_set(&[0x80, 0x80, 0x40]), 4);
    assert_eq!(first_set(&[0x82, 0x00]), 2);
    assert_eq!(first_set(&[0x80, 0x80, 0x80]), 2);
}

#[test]
fn the_senders_own_bit_turns_with_the_sender() {
    let sets = |sets: [u8; 6]| outcome(&[&[3, 0, 2, 0][..], &sets].concat());
    assert_eq!(sets([0b110, 0b101, 0b011, 0b110, 0b101, 0b011]), 0);
    assert_eq!(sets([0, 0b010, 0, 0, 0, 0]), 4);
    assert_eq!(sets([0, 0, 0, 0, 0, 0b100]), 4);
}

#[test]
fn edits_rise_by_time_then_seat_then_cell() {
    let second = |edit: &[u8]| outcome(&[&[2, 1, 1, 2, 0, 0, 0, 0, 5, 9][..], edit].concat());
    assert_eq!(second(&[0, 1, 0, 0]), 0);
    assert_eq!(second(&[1, 0, 0, 0]), 0);
    assert_eq!(second(&[0, 0, 6, 0]), 0);
    assert_eq!(second(&[0, 0, 5, 10]), 5);
    assert_eq!(second(&[0, 0, 4, 0]), 5);
}

#[test]
fn falling_time_or_seat_is_5() {
    let second = |edit: &[u8]| outcome(&[&[2, 1, 1, 2, 0, 0, 1, 1, 5, 9][..], edit].concat());
    assert_eq!(second(&[1, 0, 9, 0]), 5);
    assert_eq!(second(&[0, 1, 9, 0]), 5);
}

#[test]
fn the_first_faulty_number_decides() {
    // n out of range before t in a bad form.
    assert_eq!(outcome(&[8, 0x80, 0x00]), 3);
    // t in a bad form before R out of range.
    assert_eq!(outcome(&[2, 0x80, 0x00, 0x80, 0x01]), 2);
    // A bad loss set before the record's end, and the other way round.
    assert_eq!(outcome(&[2, 0, 1, 0, 1]), 4);
    assert_eq!(outcome(&[2, 0, 1, 0, 0, 0x82]), 1);
    // A bad loss set before an edit out of range.
    assert_eq!(outcome(&[2, 0, 1, 1, 0, 2, 9, 9, 9, 9]), 4);
}

#[test]
fn for_one_number_its_form_comes_before_its_range() {
    assert_eq!(outcome(&[0x88, 0x00]), 2);
    assert_eq!(outcome(&[0x88]), 1);
    assert_eq!(outcome(&[2, 0, 1, 0, 0x81]), 1);
}

#[test]
fn order_is_tested_when_an_edit_is_complete() {
    let second = |edit: &[u8]| outcome(&[&[2, 0, 0, 2, 0, 0, 5, 0][..], edit].concat());
    assert_eq!(second(&[0, 0, 5]), 1);
    assert_eq!(second(&[0, 0, 5, 0x80, 0x00]), 2);
    assert_eq!(second(&[0, 0, 5, 0x80, 0x80, 0x04]), 3);
    assert_eq!(second(&[0, 0, 5, 0, 7]), 5);
}
