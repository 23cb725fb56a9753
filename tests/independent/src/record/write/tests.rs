use super::*;
use crate::examples;
use crate::make::good;
use crate::random::Random;
use crate::record::read::read;

fn refusal(lists: &Lists) -> Option<Refusal> {
    lists.write(&mut [0; 5_000]).err()
}

/// Two seats, one round, two edits.
fn small() -> Lists {
    Lists {
        seats: 2,
        bound: 1,
        rounds: 1,
        losses: vec![0, 0],
        edit_seats: vec![0, 1],
        edit_times: vec![0, 0],
        edit_cells: vec![5, 5],
        edit_changes: vec![1, 1],
    }
}

#[test]
fn records_read_back_as_they_were_written() {
    let mut random = Random::new(31);
    for _ in 0..2_000 {
        let record = good::record(&mut random);
        let mut room = [0; 5_000];
        let length = Lists::of(&record).write(&mut room).unwrap();
        assert_eq!(read(&room[..length]), Ok(record));
    }
}

#[test]
fn bytes_past_the_record_stay() {
    let record = read(&examples::PRINTED).unwrap();
    let mut room = [9; 16];
    assert_eq!(Lists::of(&record).write(&mut room), Ok(14));
    assert_eq!(room[..14], examples::PRINTED);
    assert_eq!(room[14..], [9, 9]);
}

#[test]
fn a_refusal_leaves_the_room() {
    let record = read(&examples::PRINTED).unwrap();
    let mut room = [9; 13];
    assert_eq!(Lists::of(&record).write(&mut room), Err(Refusal::Room));
    assert_eq!(room, [9; 13]);
}

/// Every fault at once; then they are repaired from the first on.
#[test]
fn refusals_come_in_order() {
    let mut lists = small();
    lists.seats = 8;
    lists.bound = 8;
    lists.rounds = 128;
    lists.edit_seats = vec![9; 513];
    lists.losses = vec![0b100, 0];
    lists.edit_times = vec![0, 0, 0];
    let mut room = [9; 3];
    let mut next = |lists: &Lists| lists.write(&mut room);
    assert_eq!(next(&lists), Err(Refusal::Range));
    lists.seats = 2;
    assert_eq!(next(&lists), Err(Refusal::Range));
    lists.bound = 1;
    assert_eq!(next(&lists), Err(Refusal::Range));
    lists.rounds = 1;
    assert_eq!(next(&lists), Err(Refusal::Range));
    lists.edit_seats = vec![0, 9];
    assert_eq!(next(&lists), Err(Refusal::Lengths));
    lists.edit_times = vec![0, 0];
    assert_eq!(next(&lists), Err(Refusal::LossSet));
    lists.losses = vec![0b10, 0];
    assert_eq!(next(&lists), Err(Refusal::Range));
    lists.edit_seats = vec![0, 0];
    assert_eq!(next(&lists), Err(Refusal::Order));
    lists.edit_cells = vec![5, 6];
    assert_eq!(next(&lists), Err(Refusal::Room));
    assert_eq!(lists.write(&mut [0; 14]), Ok(14));
    assert_eq!(room, [9; 3]);
}

#[test]
fn every_list_has_its_length() {
    assert_eq!(refusal(&small()), None);
    let spoilings: [fn(&mut Lists); 6] = [
        |lists| lists.losses.push(0),
        |lists| lists.losses.clear(),
        |lists| lists.edit_seats.push(1),
        |lists| lists.edit_times.push(0),
        |lists| lists.edit_cells.truncate(1),
        |lists| lists.edit_changes.truncate(1),
    ];
    for spoil in spoilings {
        let mut lists = small();
        spoil(&mut lists);
        assert_eq!(refusal(&lists), Some(Refusal::Lengths));
    }
}

#[test]
fn every_field_of_an_edit_has_its_range() {
    let spoilings: [fn(&mut Lists); 5] = [
        |lists| lists.edit_seats[1] = 2,
        |lists| lists.edit_times[1] = 2,
        |lists| lists.edit_cells[1] = 65_536,
        |lists| lists.edit_changes[1] = 32_768,
        |lists| lists.edit_changes[1] = -32_769,
    ];
    for spoil in spoilings {
        let mut lists = small();
        spoil(&mut lists);
        assert_eq!(refusal(&lists), Some(Refusal::Range));
    }
}

/// Edit by edit: 5 of an earlier edit comes before 3 of a later one.
#[test]
fn the_first_faulty_edit_decides() {
    let mut lists = small();
    lists.edit_seats = vec![1, 1, 9];
    lists.edit_times = vec![0, 0, 0];
    lists.edit_cells = vec![5, 5, 5];
    lists.edit_changes = vec![0, 0, 0];
    assert_eq!(refusal(&lists), Some(Refusal::Order));
    lists.edit_cells[1] = 65_536;
    assert_eq!(refusal(&lists), Some(Refusal::Range));
}

#[test]
fn one_more_edit_than_allowed_is_3_whatever_the_other_lists_are() {
    let mut lists = small();
    lists.edit_seats = vec![0; 513];
    assert_eq!(refusal(&lists), Some(Refusal::Range));
    lists.edit_seats = vec![0; 512];
    assert_eq!(refusal(&lists), Some(Refusal::Lengths));
}
