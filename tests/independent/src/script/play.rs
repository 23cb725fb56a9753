//! Playing a script: one line for each call.

mod answers;

use super::call::{BytesCall, Call, ListsCall, TableCall};
use super::carriers::Carriers;
use crate::hex;
use crate::live::Table;
use crate::record::lent::Lent;
use crate::record::read::read;
use crate::record::write::Lists;
use crate::record::Record;
use crate::refusal::Refusal;

type Words = Vec<String>;

/// Makes one call; gives the line that it prints, without its newline.
pub fn line(carriers: &mut Carriers, call: &Call) -> String {
    let mut words = vec![call.name()];
    words.extend(match answer(carriers, call) {
        Ok(answer) => answer,
        Err(refusal) => vec!["refused".to_string(), refusal.number().to_string()],
    });
    words.join(" ")
}

fn answer(carriers: &mut Carriers, call: &Call) -> Result<Words, Refusal> {
    match call {
        Call::Fresh => {
            *carriers = Carriers::fresh();
            Ok(done(()))
        }
        Call::Put(part) => {
            carriers.put(part);
            Ok(done(()))
        }
        Call::Bytes(call) => of_bytes(&carriers.bytes, call),
        Call::Lists(call) => of_lists(&carriers.lists, call),
        Call::Table(call) => of_table(&mut carriers.table, call),
        Call::Ask(carrier, question) => answers::answer(&carriers.record(*carrier)?, question),
    }
}

fn of_bytes(bytes: &[u8], call: &BytesCall) -> Result<Words, Refusal> {
    match call {
        BytesCall::Check => read(bytes).map(|record| header(&record)),
        BytesCall::Read(rooms) => {
            let mut lent = Lent::with_rooms(*rooms);
            let mut answer = header(&lent.read(bytes)?);
            answer.push(sum(lent.checksum()));
            Ok(answer)
        }
    }
}

fn of_lists(lists: &Lists, call: &ListsCall) -> Result<Words, Refusal> {
    match call {
        ListsCall::Judge => lists.judge().map(|record| header(&record)),
        ListsCall::Length => lists.judge().map(|record| words([record.bytes().len()])),
        ListsCall::Write { room } => written(*room, |bytes| lists.write(bytes)),
    }
}

fn of_table(table: &mut Table, call: &TableCall) -> Result<Words, Refusal> {
    match call {
        TableCall::Open { seats, bound } => table.open(*seats, *bound).map(done),
        TableCall::Round(sets) => table.round(sets).map(done),
        TableCall::Edit { seat, cell, change } => table.edit(*seat, *cell, *change).map(done),
        TableCall::Record { room } => written(*room, |bytes| table.write(bytes)),
        TableCall::Alter { field, index, value } => {
            table.alter(*field, *index, *value);
            Ok(done(()))
        }
        TableCall::Sum => Ok(vec![sum(table.checksum())]),
    }
}

fn done(_: ()) -> Words {
    words(["done"])
}

/// n, t, R, E.
fn header(record: &Record) -> Words {
    record.numbers()[..4].iter().map(u32::to_string).collect()
}

fn sum(sum: u32) -> String {
    format!("{sum:08x}")
}

/// The length of a record that is written to so much room, and its bytes.
fn written(
    room: u16,
    write: impl FnOnce(&mut [u8]) -> Result<usize, Refusal>,
) -> Result<Words, Refusal> {
    let mut bytes = vec![0; room.into()];
    let length = write(&mut bytes)?;
    Ok(vec![length.to_string(), hex::text(&bytes[..length])])
}

fn words<Word: ToString>(entries: impl IntoIterator<Item = Word>) -> Words {
    entries.into_iter().map(|entry| entry.to_string()).collect()
}

#[cfg(test)]
mod tests;
