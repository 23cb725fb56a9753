//! The calls that put a record into a carrier.

use crate::record::write::Lists;
use crate::record::Record;
use crate::script::call::{Call, Part, TableCall};

pub fn as_bytes(bytes: &[u8]) -> Call {
    Call::Put(Part::Bytes(bytes.to_vec()))
}

/// The six parts of the lists. Their numbers fit the widths of the parts, also
/// where they are out of range.
pub fn as_lists(lists: &Lists) -> [Call; 6] {
    let Lists { seats, bound, rounds, .. } = *lists;
    [
        Part::Lists { seats, bound, rounds },
        Part::Losses(lists.losses.iter().map(|&set| set as u16).collect()),
        Part::Editors(lists.edit_seats.iter().map(|&seat| seat as u8).collect()),
        Part::Times(lists.edit_times.iter().map(|&time| time as u16).collect()),
        Part::Cells(lists.edit_cells.clone()),
        Part::Changes(lists.edit_changes.iter().map(|&change| change as i16).collect()),
    ]
    .map(Call::Put)
}

/// The live calls that grow a record: its opening, and at each time the edits
/// of that time and the round after it.
pub fn as_table(record: &Record) -> Vec<Call> {
    let (seats, bound) = (record.seats as u32, record.bound as u32);
    let mut calls = vec![TableCall::Open { seats, bound }];
    for time in 0..=record.rounds {
        calls.extend(edits_at(record, time));
        let start = time as usize * record.seats;
        if time < record.rounds {
            let sets = &record.losses[start..start + record.seats];
            calls.push(TableCall::Round(sets.iter().map(|&set| set as u16).collect()));
        }
    }
    calls.into_iter().map(Call::Table).collect()
}

fn edits_at(record: &Record, time: i32) -> impl Iterator<Item = TableCall> + '_ {
    record.edits.iter().filter(move |edit| edit.time == time).map(|edit| TableCall::Edit {
        seat: edit.seat as u32,
        cell: edit.cell,
        change: edit.change,
    })
}

#[cfg(test)]
mod tests {
    use super::*;
    use crate::make::good;
    use crate::random::Random;
    use crate::script::call::Carrier;
    use crate::script::carriers::Carriers;
    use crate::script::play;

    #[test]
    fn a_record_is_the_same_in_all_three_carriers() {
        let mut random = Random::new(51);
        for _ in 0..200 {
            let record = good::small_record(&mut random);
            let mut calls = vec![as_bytes(&record.bytes())];
            calls.extend(as_lists(&Lists::of(&record)));
            calls.extend(as_table(&record));
            let carriers = &mut Carriers::fresh();
            for call in calls {
                assert!(play::line(carriers, &call).ends_with(" done"));
            }
            for carrier in Carrier::ALL {
                assert_eq!(carriers.record(carrier), Ok(record.clone()));
            }
        }
    }
}
