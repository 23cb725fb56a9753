//! The answers to questions, which are the same for all three carriers.

use super::{words, Words};
use crate::construction::Settled;
use crate::place::Time;
use crate::questions;
use crate::record::{Record, MOST_SEATS};
use crate::refusal::Refusal;
use crate::script::call::Question;
use crate::seats::SeatSet;
use crate::views::View;

/// The numbers that lent buffers hold before a call, so that untouched places show.
const LENT_NUMBER: Time = 1_000;
const LENT_BYTE: u8 = 200;

pub fn answer(record: &Record, question: &Question) -> Result<Words, Refusal> {
    match *question {
        Question::Seen { seat, time } => questions::seen(record, seat, time).map(seen),
        Question::Agreed { seat, time } => {
            questions::agreed(record, seat, time).map(|settled| agreed(record, &settled))
        }
        Question::Standing { seat } => questions::is_loser(record, seat).map(standing),
        Question::View { seat, time, room } => {
            lend_numbers(room, |numbers| questions::view(record, seat, time, numbers))
        }
        Question::Core { seat, time, room } => {
            lend_numbers(room, |numbers| questions::core(record, seat, time, numbers))
        }
        Question::Marks { seat, time, room } => {
            let mut marks = vec![LENT_BYTE; room.into()];
            questions::marks(record, seat, time, &mut marks)?;
            Ok(words(marks))
        }
    }
}

fn seen((view, known): (View, SeatSet)) -> Words {
    let mut answer = seven(&view);
    answer.push(known.number().to_string());
    answer
}

fn agreed(record: &Record, settled: &Settled) -> Words {
    let mut answer = vec![
        settled.critical.to_string(),
        settled.steps.to_string(),
        settled.kept.number().to_string(),
        settled.count_edits(record).to_string(),
    ];
    answer.extend(seven(&settled.core));
    answer
}

fn standing(loser: bool) -> Words {
    words([if loser { "loser" } else { "clean" }])
}

/// A view that comes back by value has seven numbers; seats from n on have no place in it.
fn seven(view: &View) -> Words {
    words(view.latest_times(MOST_SEATS as usize))
}

fn lend_numbers(
    room: u16,
    fill: impl FnOnce(&mut [Time]) -> Result<(), Refusal>,
) -> Result<Words, Refusal> {
    let mut numbers: Vec<Time> = (0..Time::from(room)).map(|index| LENT_NUMBER + index).collect();
    fill(&mut numbers)?;
    Ok(words(numbers))
}
