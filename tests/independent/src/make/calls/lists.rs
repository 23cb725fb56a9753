//! Records as lists.

use super::questions::{ask_at_start, ask_example, examples, fill, refuse};
use super::sheet::Sheet;
use crate::script::call::Carrier;

/// Two seats, one round, two edits.
const SMALL: [&str; 6] =
    ["lists 2 1 1", "losses 0 0", "editors 0 1", "times 0 1", "cells 5 5", "changes 1 -1"];

/// A line that spoils the small lists, and the line that repairs them.
const FAULTS: [(&str, &str, &str); 5] = [
    ("3: eight seats.", "lists 8 1 1", "lists 2 1 1"),
    ("10: one loss set for two seats and one round.", "losses 0", "losses 0 0"),
    ("4: seat 0 in its own loss set.", "losses 1 0", "losses 0 0"),
    ("3: an edit by a seat that is not there.", "editors 0 2", "editors 0 1"),
    ("5: a second edit not after the first.", "times 1 0", "times 0 1"),
];

/// Numbers just out of range, and numbers that would be good ones if they were cut.
const BAD_NUMBERS: [&str; 6] = [
    "lists 1 0 1",
    "lists 2 2 1",
    "lists 2 1 128",
    "lists 258 1 1",
    "lists 2 257 1",
    "lists 2 1 65537",
];

/// Lines that repair lists with every fault, one fault after the other.
const REPAIRS: [(&str, &str); 8] = [
    ("3: n is good now; the bound is 8.", "lists 2 8 128"),
    ("3: the bound is good now; there are 128 rounds.", "lists 2 1 128"),
    ("3: the rounds are good now; there are 513 edits.", "lists 2 1 1"),
    ("10, not 4: two edits now, and three times.", "editors 0 9"),
    ("4: the lengths fit now; seat 0 is in its own loss set.", "times 1 0"),
    ("3, not 5: the loss sets are good now; seat 9 is not there.", "losses 0 0"),
    ("5: the seats are good now; the second edit is not after the first.", "editors 0 1"),
    ("7: the edits rise now; the room is too short.", "times 0 1"),
];

pub fn show(sheet: &mut Sheet) {
    for example in examples() {
        sheet.say(&format!("As lists: {}.", example.name));
        fill(sheet, Carrier::Lists, &example.record);
        sheet.put_all(["lists-judge", "lists-length"]);
        sheet.put(format!("lists-write {}", example.record.bytes().len()));
        ask_example(sheet, Carrier::Lists, &example);
    }
    show_faults(sheet);
    show_bad_numbers(sheet);
    show_order(sheet);
    refuse(sheet, Carrier::Lists);
}

fn show_faults(sheet: &mut Sheet) {
    sheet.say("Small lists: two seats, one round, two edits.");
    sheet.put_all(SMALL);
    sheet.put("lists-judge");
    for (comment, fault, repair) in FAULTS {
        sheet.say(comment);
        sheet.put_all([fault, "lists-judge", "lists-length", "lists-write 6000"]);
        ask_at_start(sheet, Carrier::Lists);
        sheet.put(repair);
    }
    sheet.say("7: room for one byte less than the record has.");
    sheet.put("lists-write 13");
}

fn show_bad_numbers(sheet: &mut Sheet) {
    sheet.say("3: n, t and R out of range; then 258, 257 and 65537, which are never cut.");
    for line in BAD_NUMBERS {
        sheet.put_all([line, "lists-judge"]);
    }
}

/// The order of the refusals. E is the length of the list of editors.
fn show_order(sheet: &mut Sheet) {
    sheet.say("3: every fault at once. n is the first. Below they are repaired one by one.");
    sheet.put_all(["lists 8 8 128", "losses 1 0", "times 1 0 1"]);
    sheet.put(format!("editors{}", " 9".repeat(513)));
    sheet.put("lists-write 3");
    for (comment, repair) in REPAIRS {
        sheet.say(comment);
        sheet.put_all([repair, "lists-write 3"]);
    }
    sheet.say("No fault is left.");
    sheet.put("lists-write 14");
    sheet.say("5: the second edit is not after the first. The third is out of range.");
    sheet.put_all(["editors 0 0 9", "times 0 0 0", "cells 5 5 5", "changes 0 0 0", "lists-judge"]);
    sheet.say("3, not 5: the second edit is out of range as well.");
    sheet.put_all(["times 1 0 0", "cells 5 65536 5", "lists-judge"]);
}
