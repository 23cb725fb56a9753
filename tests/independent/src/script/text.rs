//! Calls as lines of text: a word and whole numbers, apart by single blanks.

use super::call::{BytesCall, Call, ListsCall, Part, Question, TableCall};
use crate::hex;
use std::fmt::{Display, Formatter, Result};

impl Display for Call {
    fn fmt(&self, output: &mut Formatter) -> Result {
        output.write_str(&self.name())?;
        match self {
            Call::Put(Part::Bytes(bytes)) if bytes.is_empty() => Ok(()),
            Call::Put(Part::Bytes(bytes)) => write!(output, " {}", hex::text(bytes)),
            _ => self.numbers().iter().try_for_each(|number| write!(output, " {number}")),
        }
    }
}

impl Call {
    fn numbers(&self) -> Vec<i64> {
        match self {
            Call::Fresh => vec![],
            Call::Put(part) => part.numbers(),
            Call::Bytes(BytesCall::Check) => vec![],
            Call::Bytes(BytesCall::Read(rooms)) => whole(rooms),
            Call::Lists(ListsCall::Judge | ListsCall::Length) => vec![],
            Call::Lists(ListsCall::Write { room }) => whole(&[*room]),
            Call::Table(call) => call.numbers(),
            Call::Ask(_, question) => question.numbers(),
        }
    }
}

impl Part {
    fn numbers(&self) -> Vec<i64> {
        match self {
            Part::Bytes(bytes) => whole(bytes),
            Part::Lists { seats, bound, rounds } => whole(&[*seats, *bound, *rounds]),
            Part::Losses(sets) => whole(sets),
            Part::Editors(seats) => whole(seats),
            Part::Times(times) => whole(times),
            Part::Cells(cells) => whole(cells),
            Part::Changes(changes) => whole(changes),
        }
    }
}

impl TableCall {
    fn numbers(&self) -> Vec<i64> {
        match *self {
            TableCall::Open { seats, bound } => whole(&[seats, bound]),
            TableCall::Round(ref sets) => whole(sets),
            TableCall::Edit { seat, cell, change } => vec![seat.into(), cell.into(), change.into()],
            TableCall::Record { room } => whole(&[room]),
            TableCall::Alter { field, index, value } => {
                vec![field.into(), index.into(), value.into()]
            }
            TableCall::Sum => vec![],
        }
    }
}

impl Question {
    fn numbers(&self) -> Vec<i64> {
        match *self {
            Question::Seen { seat, time } | Question::Agreed { seat, time } => whole(&[seat, time]),
            Question::Standing { seat } => whole(&[seat]),
            Question::View { seat, time, room }
            | Question::Core { seat, time, room }
            | Question::Marks { seat, time, room } => vec![seat.into(), time.into(), room.into()],
        }
    }
}

fn whole<Number: Copy + Into<i64>>(numbers: &[Number]) -> Vec<i64> {
    numbers.iter().map(|&number| number.into()).collect()
}

#[cfg(test)]
mod tests {
    use super::*;
    use crate::script::call::Carrier;

    #[test]
    fn the_line_of_a_call() {
        let lines = [
            (Call::Fresh, "fresh"),
            (Call::Put(Part::Bytes(vec![3, 0xFF])), "bytes 03ff"),
            (Call::Put(Part::Bytes(vec![])), "bytes"),
            (Call::Put(Part::Changes(vec![-3, 2])), "changes -3 2"),
            (Call::Bytes(BytesCall::Read([889, 512, 512, 0, 1])), "bytes-read 889 512 512 0 1"),
            (Call::Table(TableCall::Round(vec![0x0102, 3])), "table-round 258 3"),
            (Call::Table(TableCall::Round(vec![])), "table-round"),
            (Call::Ask(Carrier::Lists, Question::Standing { seat: 256 }), "lists-standing 256"),
        ];
        for (call, line) in lines {
            assert_eq!(call.to_string(), line);
        }
    }
}
