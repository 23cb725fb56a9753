//! Records in the live table.

use super::questions::{ask_at_start, ask_example, examples, fill, refuse};
use super::sheet::Sheet;
use crate::script::call::Carrier;

pub fn show(sheet: &mut Sheet) {
    for example in examples() {
        sheet.say(&format!("Grown live: {}.", example.name));
        fill(sheet, Carrier::Table, &example.record);
        sheet.put(format!("table-record {}", example.record.bytes().len()));
        ask_example(sheet, Carrier::Table, &example);
        sheet.put("table-sum");
    }
    refuse(sheet, Carrier::Table);
    show_never_opened(sheet);
    show_refused_changes(sheet);
    show_alterations(sheet);
}

fn show_never_opened(sheet: &mut Sheet) {
    sheet.say("A fresh table was never opened.");
    sheet.put_all(["fresh", "table-sum"]);
    sheet.say("19: every call but opening, whatever else is wrong.");
    sheet.put_all(["table-round 0 0", "table-edit 0 0 0", "table-record 6000"]);
    ask_at_start(sheet, Carrier::Table);
    sheet.put_all(["table-round", "table-edit 9 65536 0", "table-record 0", "table-view 9 9 0"]);
    sheet.say("3: one seat, eight seats, a bound as large as n, and numbers that are never cut.");
    sheet.put_all(["table-open 1 0", "table-open 8 0", "table-open 2 2"]);
    sheet.put_all(["table-open 258 1", "table-open 2 65537"]);
    sheet.say("No refusal changed the table.");
    sheet.put("table-sum");
}

fn show_refused_changes(sheet: &mut Sheet) {
    sheet.say("A table of two seats with one edit.");
    sheet.put_all(["table-open 2 1", "table-edit 1 5 -3", "table-sum"]);
    sheet.say("10: one set, three sets, no set.");
    sheet.put_all(["table-round 0", "table-round 0 0 0", "table-round"]);
    sheet.say("4: an own bit, a bit at n, a bit that 8 bits would cut off.");
    sheet.put_all(["table-round 1 0", "table-round 4 0", "table-round 256 0"]);
    sheet.say("10, not 4: one set, with an own bit.");
    sheet.put("table-round 1");
    sheet.say("3: the seat, the cell, the change; then a seat that is never cut.");
    sheet.put_all(["table-edit 2 6 0", "table-edit 1 65536 0", "table-edit 1 6 32768"]);
    sheet.put_all(["table-edit 1 6 -32769", "table-edit 257 6 0"]);
    sheet.say("5: the same cell, an earlier cell, an earlier seat.");
    sheet.put_all(["table-edit 1 5 0", "table-edit 1 4 0", "table-edit 0 6 0"]);
    sheet.say("3, not 5: an earlier seat, and a cell out of range.");
    sheet.put("table-edit 0 65536 0");
    sheet.say("7: room for one byte less than the record has.");
    sheet.put("table-record 7");
    sheet.say("No refusal changed the table.");
    sheet.put_all(["table-sum", "table-record 8"]);
}

fn show_alterations(sheet: &mut Sheet) {
    sheet.say("19: the bound altered to n.");
    sheet.put_all(["table-alter 1 0 2", "table-standing 0"]);
    sheet.say("The bound put back: the table answers as before.");
    sheet.put_all(["table-alter 1 0 1", "table-standing 0"]);
    sheet.say("A table that was never opened, given good numbers by hand, answers too.");
    sheet.put_all(["fresh", "table-alter 0 0 2", "table-alter 1 0 0"]);
    sheet.put_all(["table-alter 2 0 0", "table-alter 3 0 0", "table-record 4", "table-sum"]);
}
