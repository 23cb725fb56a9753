//! Lines of text as calls. A line that is none of them gives none.

use super::call::{BytesCall, Call, Carrier, ListsCall, Part, Question, TableCall};
use crate::hex;

/// Lists and most lent buffers are at most this long.
pub const MOST_ENTRIES: usize = 1_000;

/// The bytes of a record, and the buffers that one is written to.
pub const MOST_BYTES: usize = 6_000;

impl Call {
    pub fn parse(line: &[u8]) -> Option<Call> {
        let mut words = std::str::from_utf8(line).ok()?.split(' ');
        let name = words.next()?;
        if name == "bytes" {
            return bytes(words).map(|bytes| Call::Put(Part::Bytes(bytes)));
        }
        let numbers: Option<Vec<i64>> = words.map(whole_number).collect();
        Call::of(name, &numbers?)
    }

    fn of(name: &str, numbers: &[i64]) -> Option<Call> {
        match name.split_once('-') {
            None if name == "fresh" && numbers.is_empty() => Some(Call::Fresh),
            None => Part::of(name, numbers).map(Call::Put),
            Some(("bytes", word)) => BytesCall::of(word, numbers)
                .map(Call::Bytes)
                .or_else(|| Question::to(Carrier::Bytes, word, numbers)),
            Some(("lists", word)) => ListsCall::of(word, numbers)
                .map(Call::Lists)
                .or_else(|| Question::to(Carrier::Lists, word, numbers)),
            Some(("table", word)) => TableCall::of(word, numbers)
                .map(Call::Table)
                .or_else(|| Question::to(Carrier::Table, word, numbers)),
            _ => None,
        }
    }
}

impl Part {
    fn of(name: &str, numbers: &[i64]) -> Option<Part> {
        Some(match (name, numbers) {
            ("lists", [seats, bound, rounds]) => {
                Part::Lists { seats: fit(seats)?, bound: fit(bound)?, rounds: fit(rounds)? }
            }
            ("losses", sets) => Part::Losses(fit_all(sets)?),
            ("editors", seats) => Part::Editors(fit_all(seats)?),
            ("times", times) => Part::Times(fit_all(times)?),
            ("cells", cells) => Part::Cells(fit_all(cells)?),
            ("changes", changes) => Part::Changes(fit_all(changes)?),
            _ => return None,
        })
    }
}

impl BytesCall {
    fn of(word: &str, numbers: &[i64]) -> Option<BytesCall> {
        match (word, numbers) {
            ("check", []) => Some(BytesCall::Check),
            ("read", [losses, editors, times, cells, changes]) => Some(BytesCall::Read([
                lent(losses)?,
                lent(editors)?,
                lent(times)?,
                lent(cells)?,
                lent(changes)?,
            ])),
            _ => None,
        }
    }
}

impl ListsCall {
    fn of(word: &str, numbers: &[i64]) -> Option<ListsCall> {
        match (word, numbers) {
            ("judge", []) => Some(ListsCall::Judge),
            ("length", []) => Some(ListsCall::Length),
            ("write", [room]) => Some(ListsCall::Write { room: lent_bytes(room)? }),
            _ => None,
        }
    }
}

impl TableCall {
    fn of(word: &str, numbers: &[i64]) -> Option<TableCall> {
        Some(match (word, numbers) {
            ("open", [seats, bound]) => TableCall::Open { seats: fit(seats)?, bound: fit(bound)? },
            ("round", sets) => TableCall::Round(fit_all(sets)?),
            ("edit", [seat, cell, change]) => {
                TableCall::Edit { seat: fit(seat)?, cell: fit(cell)?, change: fit(change)? }
            }
            ("record", [room]) => TableCall::Record { room: lent_bytes(room)? },
            ("alter", [field, index, value]) => {
                TableCall::Alter { field: fit(field)?, index: fit(index)?, value: fit(value)? }
            }
            ("sum", []) => TableCall::Sum,
            _ => return None,
        })
    }
}

impl Question {
    fn to(carrier: Carrier, word: &str, numbers: &[i64]) -> Option<Call> {
        let question = match *numbers {
            [seat] => Question::of_seat(word, fit(&seat)?),
            [seat, time] => Question::of_place(word, fit(&seat)?, fit(&time)?),
            [seat, time, room] => Question::lent(word, fit(&seat)?, fit(&time)?, lent(&room)?),
            _ => None,
        };
        question.map(|question| Call::Ask(carrier, question))
    }

    fn of_seat(word: &str, seat: u32) -> Option<Question> {
        (word == "standing").then_some(Question::Standing { seat })
    }

    fn of_place(word: &str, seat: u32, time: u32) -> Option<Question> {
        match word {
            "seen" => Some(Question::Seen { seat, time }),
            "agreed" => Some(Question::Agreed { seat, time }),
            _ => None,
        }
    }

    fn lent(word: &str, seat: u32, time: u32, room: u16) -> Option<Question> {
        match word {
            "view" => Some(Question::View { seat, time, room }),
            "core" => Some(Question::Core { seat, time, room }),
            "marks" => Some(Question::Marks { seat, time, room }),
            _ => None,
        }
    }
}

/// The record of a `bytes` line: no further word, or one of hexadecimal pairs.
fn bytes<'a>(mut words: impl Iterator<Item = &'a str>) -> Option<Vec<u8>> {
    match (words.next(), words.next()) {
        (None, _) => Some(Vec::new()),
        (Some(digits), None) => {
            hex::pairs(digits).filter(|bytes| (1..=MOST_BYTES).contains(&bytes.len()))
        }
        _ => None,
    }
}

/// Digits, with or without `-` before them. Rust would take a `+` as well.
fn whole_number(word: &str) -> Option<i64> {
    if word.starts_with('+') {
        None
    } else {
        word.parse().ok()
    }
}

/// The number in the width of its parameter, if it fits.
fn fit<Narrow: TryFrom<i64>>(number: &i64) -> Option<Narrow> {
    Narrow::try_from(*number).ok()
}

fn fit_all<Narrow: TryFrom<i64>>(numbers: &[i64]) -> Option<Vec<Narrow>> {
    if numbers.len() <= MOST_ENTRIES {
        numbers.iter().map(fit).collect()
    } else {
        None
    }
}

/// The length of a lent buffer.
fn lent(number: &i64) -> Option<u16> {
    fit(number).filter(|&room| usize::from(room) <= MOST_ENTRIES)
}

/// The length of a buffer that a record is written to.
fn lent_bytes(number: &i64) -> Option<u16> {
    fit(number).filter(|&room| usize::from(room) <= MOST_BYTES)
}

#[cfg(test)]
mod tests;
