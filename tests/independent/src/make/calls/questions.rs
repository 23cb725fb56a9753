//! The six questions, put to all three carriers alike.

use super::sheet::Sheet;
use crate::examples;
use crate::make::carrying;
use crate::record::read::read;
use crate::record::write::Lists;
use crate::record::{Edit, Record};
use crate::script::call::{Call, Carrier, Question};

/// A record of document 01, and a place that its examples ask about.
pub struct Example {
    pub name: &'static str,
    pub record: Record,
    pub seat: u32,
    pub time: u32,
}

pub fn examples() -> [Example; 4] {
    let example = |name, record, seat, time| Example { name, record, seat, time };
    [
        example("the printed record, asked as P6 is", printed(), 0, 2),
        example("P4", examples::one_loss(), 0, 1),
        example("P7", examples::two_losers(), 0, 3),
        example("P9, asked for seat 1, which knows no loser", examples::over_the_bound(), 1, 1),
    ]
}

/// Puts a record into a carrier.
pub fn fill(sheet: &mut Sheet, carrier: Carrier, record: &Record) {
    match carrier {
        Carrier::Bytes => sheet.put(carrying::as_bytes(&record.bytes())),
        Carrier::Lists => sheet.put_all(carrying::as_lists(&Lists::of(record))),
        Carrier::Table => sheet.put_all(carrying::as_table(record)),
    }
}

/// All six about one place, with room for one number and one mark more than needed.
pub fn ask_example(sheet: &mut Sheet, carrier: Carrier, example: &Example) {
    let Example { record, seat, time, .. } = example;
    let (numbers, marks) = (record.seats as u16 + 1, record.edits.len() as u16 + 1);
    ask(sheet, carrier, (*seat, *time), numbers, marks);
}

/// All six about a place of every record, with room enough for any.
pub fn ask_at_start(sheet: &mut Sheet, carrier: Carrier) {
    ask(sheet, carrier, (0, 0), 7, 512);
}

fn ask(sheet: &mut Sheet, carrier: Carrier, place: (u32, u32), numbers: u16, marks: u16) {
    let (seat, time) = place;
    let questions = [
        Question::Seen { seat, time },
        Question::Agreed { seat, time },
        Question::Standing { seat },
        Question::View { seat, time, room: numbers },
        Question::Core { seat, time, room: numbers },
        Question::Marks { seat, time, room: marks },
    ];
    put(sheet, carrier, questions);
}

/// 8, 7 and 9 of every question, alone and together.
pub fn refuse(sheet: &mut Sheet, carrier: Carrier) {
    sheet.say("The printed record: three seats, two rounds, one edit.");
    fill(sheet, carrier, &printed());
    refuse_place(sheet, carrier);
    refuse_room(sheet, carrier);
    sheet.say("P9 with an edit: views and known sets are answered over the bound too.");
    fill(sheet, carrier, &over_the_bound());
    refuse_over(sheet, carrier);
}

fn refuse_place(sheet: &mut Sheet, carrier: Carrier) {
    sheet.say("8: no such seat.");
    ask(sheet, carrier, (3, 2), 3, 1);
    sheet.say("8: no such time.");
    let (seat, time) = (0, 3);
    put(sheet, carrier, [Question::Agreed { seat, time }, Question::View { seat, time, room: 3 }]);
    sheet.say("8: numbers that would be good ones if they were cut to 8 or 16 bits.");
    let questions = [
        Question::Standing { seat: 256 },
        Question::Seen { seat: 65_536, time: 2 },
        Question::Agreed { seat: 0, time: 258 },
        Question::Core { seat: 0, time: 65_538, room: 3 },
    ];
    put(sheet, carrier, questions);
}

fn refuse_room(sheet: &mut Sheet, carrier: Carrier) {
    sheet.say("7: room for two of three numbers, and for no mark.");
    put(sheet, carrier, lent(0, 2, 2, 0));
    sheet.say("8, not 7: no such seat, and too little room.");
    put(sheet, carrier, lent(3, 2, 2, 0));
}

fn refuse_over(sheet: &mut Sheet, carrier: Carrier) {
    let (seat, time) = (0, 1);
    put(sheet, carrier, [Question::Seen { seat, time }, Question::View { seat, time, room: 3 }]);
    sheet.say("9: seat 0 knows two losers, and the bound is 1.");
    put(sheet, carrier, [Question::Agreed { seat, time }]);
    put(sheet, carrier, lent(seat, time, 3, 1)[1..].iter().copied());
    sheet.say("7, not 9: too little room as well.");
    put(sheet, carrier, lent(seat, time, 2, 0)[1..].iter().copied());
}

/// The three questions that are answered into a lent buffer.
fn lent(seat: u32, time: u32, room: u16, marks: u16) -> [Question; 3] {
    [
        Question::View { seat, time, room },
        Question::Core { seat, time, room },
        Question::Marks { seat, time, room: marks },
    ]
}

fn put(sheet: &mut Sheet, carrier: Carrier, questions: impl IntoIterator<Item = Question>) {
    sheet.put_all(questions.into_iter().map(|question| Call::Ask(carrier, question)));
}

fn printed() -> Record {
    read(&examples::PRINTED).expect("the printed record is good")
}

/// P9's record with an edit, so that marks need room.
fn over_the_bound() -> Record {
    let mut record = examples::over_the_bound();
    record.edits.push(Edit { seat: 2, time: 0, cell: 5, change: -3 });
    record
}
