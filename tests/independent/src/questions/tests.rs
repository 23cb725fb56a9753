use super::*;
use crate::examples;
use crate::record::read::read;
use crate::record::Edit;

fn printed() -> Record {
    read(&examples::PRINTED).unwrap()
}

/// P9's record with an edit, so that marks need room.
fn over_the_bound() -> Record {
    let mut record = examples::over_the_bound();
    record.edits.push(Edit { seat: 0, time: 0, cell: 0, change: 0 });
    record
}

#[test]
fn p6_asked_in_every_way() {
    let record = printed();
    let mut numbers = [1_000; 4];
    view(&record, 0, 2, &mut numbers).unwrap();
    assert_eq!(numbers, [2, 1, 1, 1_000]);
    core(&record, 0, 2, &mut numbers).unwrap();
    assert_eq!(numbers, [1, 1, 0, 1_000]);
    let mut marked = [200; 2];
    marks(&record, 0, 2, &mut marked).unwrap();
    assert_eq!(marked, [1, 200]);
    marks(&record, 0, 1, &mut marked).unwrap();
    assert_eq!(marked, [0, 200]);
    assert_eq!(agreed(&record, 0, 2).map(|settled| settled.critical), Ok(1));
    assert_eq!(seen(&record, 0, 2).map(|(_, known)| known), Ok(SeatSet::only(2)));
    assert_eq!(is_loser(&record, 2), Ok(true));
    assert_eq!(is_loser(&record, 1), Ok(false));
}

/// A seat and a time that would be good ones if they were cut to 8 or 16 bits.
#[test]
fn large_numbers_are_never_cut() {
    let record = printed();
    let mut numbers = [1_000; 3];
    for seat in [3, 255, 256, 65_536, u32::MAX] {
        assert_eq!(view(&record, seat, 0, &mut numbers), Err(Refusal::Question));
        assert_eq!(is_loser(&record, seat), Err(Refusal::Question));
    }
    for time in [3, 128, 256, 65_536, u32::MAX] {
        assert_eq!(view(&record, 0, time, &mut numbers), Err(Refusal::Question));
    }
    assert_eq!(numbers, [1_000; 3]);
}

#[test]
fn a_question_is_refused_by_8_then_7_then_9() {
    let record = over_the_bound();
    let mut numbers = [1_000; 3];
    assert_eq!(core(&record, 3, 1, &mut numbers[..2]), Err(Refusal::Question));
    assert_eq!(core(&record, 0, 2, &mut numbers[..2]), Err(Refusal::Question));
    assert_eq!(core(&record, 0, 1, &mut numbers[..2]), Err(Refusal::Room));
    assert_eq!(core(&record, 0, 1, &mut numbers), Err(Refusal::Over));
    assert_eq!(numbers, [1_000; 3]);
    assert_eq!(core(&record, 1, 1, &mut numbers), Ok(()));
    assert_eq!(marks(&record, 3, 1, &mut []), Err(Refusal::Question));
    assert_eq!(marks(&record, 0, 1, &mut []), Err(Refusal::Room));
    assert_eq!(marks(&record, 0, 1, &mut [0]), Err(Refusal::Over));
    assert_eq!(agreed(&record, 0, 1).err(), Some(Refusal::Over));
}

#[test]
fn views_and_known_sets_never_give_9() {
    let record = over_the_bound();
    let mut numbers = [1_000; 3];
    assert_eq!(view(&record, 0, 1, &mut numbers[..2]), Err(Refusal::Room));
    assert_eq!(view(&record, 0, 1, &mut numbers), Ok(()));
    assert_eq!(numbers, [1, -1, -1]);
    let known = [1, 2].into_iter().collect();
    assert_eq!(seen(&record, 0, 1).map(|(_, set)| set), Ok(known));
}
