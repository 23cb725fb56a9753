use super::*;
use crate::examples;
use crate::record::read::read;
use crate::refusal::Refusal;

fn opened(seats: u32, bound: u32) -> Table {
    let mut table = Table::never_opened();
    table.open(seats, bound).unwrap();
    table
}

/// P9's record: seats 1 and 2 lose their sends to seat 0, and the bound is 1.
fn over_the_bound() -> Table {
    let mut table = opened(3, 1);
    table.round(&[0, 1, 1]).unwrap();
    table
}

#[test]
fn the_printed_record_grows_live() {
    let mut table = opened(3, 1);
    table.edit(2, 5, -3).unwrap();
    table.round(&[0, 0, 1]).unwrap();
    table.round(&[0, 0, 0]).unwrap();
    assert_eq!(table.record(), read(&examples::PRINTED));
    let mut room = [9; 15];
    assert_eq!(table.write(&mut room), Ok(14));
    assert_eq!(room[..14], examples::PRINTED);
    assert_eq!(room[14], 9);
}

#[test]
fn opening_writes_four_numbers_and_nothing_else() {
    let mut expected = Table::never_opened();
    expected.seats = 7;
    expected.bound = 6;
    expected.rounds = 0;
    expected.edits = 0;
    assert_eq!(opened(7, 6), expected);
}

#[test]
fn a_refused_opening_touches_nothing() {
    let numbers = [(0, 0), (1, 0), (8, 0), (255, 0), (258, 1), (65_538, 1), (2, 2), (7, 256)];
    for (seats, bound) in numbers {
        let mut table = over_the_bound();
        assert_eq!(table.open(seats, bound), Err(Refusal::Range));
        assert_eq!(table, over_the_bound());
    }
}

#[test]
fn a_table_that_was_never_opened_gives_19_first() {
    let mut table = Table::never_opened();
    assert_eq!(table.round(&[]), Err(Refusal::Table));
    assert_eq!(table.edit(255, u32::MAX, 0), Err(Refusal::Table));
    assert_eq!(table.write(&mut []), Err(Refusal::Table));
    assert_eq!(table, Table::never_opened());
}

#[test]
fn a_round_is_refused_by_11_then_10_then_4() {
    let mut table = opened(2, 1);
    assert_eq!(table.round(&[0b01]), Err(Refusal::Lengths));
    assert_eq!(table.round(&[0, 0, 0]), Err(Refusal::Lengths));
    assert_eq!(table.round(&[0b01, 0]), Err(Refusal::LossSet));
    assert_eq!(table.round(&[0, 0b100]), Err(Refusal::LossSet));
    assert_eq!(table, opened(2, 1));
    for _ in 0..127 {
        table.round(&[0b10, 0b01]).unwrap();
    }
    let full = table.clone();
    assert_eq!(table.round(&[0, 0]), Err(Refusal::RoundsFull));
    assert_eq!(table.round(&[0b01]), Err(Refusal::RoundsFull));
    assert_eq!(table, full);
}

#[test]
fn an_edit_is_refused_by_3_then_12_then_5() {
    let mut table = opened(2, 1);
    for cell in 0..512 {
        assert_eq!(table.edit(2, 0, 0), Err(Refusal::Range));
        table.edit(0, cell, 0).unwrap();
        let expected = if cell < 511 { Refusal::Order } else { Refusal::EditsFull };
        assert_eq!(table.edit(0, cell, 0), Err(expected));
    }
    let full = table.clone();
    assert_eq!(table.edit(2, 512, 0), Err(Refusal::Range));
    assert_eq!(table.edit(256, 512, 0), Err(Refusal::Range));
    assert_eq!(table.edit(0, 65_536, 0), Err(Refusal::Range));
    assert_eq!(table.edit(0, 512, 32_768), Err(Refusal::Range));
    assert_eq!(table.edit(0, 512, -32_769), Err(Refusal::Range));
    assert_eq!(table.edit(0, 512, 0), Err(Refusal::EditsFull));
    assert_eq!(table, full);
}

#[test]
fn edits_rise_by_seat_then_cell_within_a_round() {
    let mut table = opened(3, 1);
    table.edit(1, 9, 0).unwrap();
    assert_eq!(table.edit(1, 9, 1), Err(Refusal::Order));
    assert_eq!(table.edit(1, 8, 0), Err(Refusal::Order));
    assert_eq!(table.edit(0, 10, 0), Err(Refusal::Order));
    table.edit(2, 0, 0).unwrap();
    table.round(&[0, 0, 0]).unwrap();
    table.edit(0, 0, 0).unwrap();
}

/// Each number of the used part, one past its limit.
#[test]
fn an_altered_table_gives_19_until_it_is_repaired() {
    let mut table = over_the_bound();
    table.edit(0, 7, 0).unwrap();
    table.edit(1, 7, 0).unwrap();
    let alterations = [
        (0, 0, 1),
        (0, 0, 8),
        (1, 0, 3),
        (2, 0, 128),
        (3, 0, 513),
        (3, 0, 3),
        (4, 0, 0b001),
        (4, 2, 0b1000),
        (5, 1, 3),
        (6, 1, 2),
        (7, 1, 65_536),
        (5, 1, 0),
        (6, 1, 0),
    ];
    for (field, index, value) in alterations {
        let mut altered = table.clone();
        altered.alter(field, index, value);
        assert_eq!(altered.record(), Err(Refusal::Table), "{field} {index} {value}");
    }
}

#[test]
fn alterations_of_unused_entries_and_past_the_table_change_no_answer() {
    let mut table = over_the_bound();
    for field in 4..=8 {
        table.alter(field, 511, 3);
    }
    assert_eq!(table.record(), over_the_bound().record());
    let before = table.clone();
    table.alter(4, 889, 0);
    table.alter(5, 512, 0);
    assert_eq!(table, before);
}

#[test]
fn altered_values_are_cut_to_their_width() {
    let mut table = opened(3, 1);
    table.alter(0, 0, 256 + 4);
    table.alter(2, 0, 65_536);
    table.alter(8, 0, 0x1_FFFF);
    assert_eq!((table.seats, table.rounds, table.edit_changes[0]), (4, 0, -1));
}

#[test]
fn a_table_never_opened_that_passes_19_answers() {
    let mut table = Table::never_opened();
    for (field, value) in [(0, 2), (1, 0), (2, 0), (3, 0)] {
        table.alter(field, 0, value);
    }
    assert_eq!(table, opened(2, 0));
    assert_eq!(table.record(), read(&[2, 0, 0, 0]));
}

/// The checksum of 6,392 bytes A5, worked out by another program.
#[test]
fn the_checksum_of_a_table_never_opened() {
    assert_eq!(Table::never_opened().checksum(), 0x2B23_CF9D);
}
