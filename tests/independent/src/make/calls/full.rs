//! A live table with 512 edits and 127 rounds, and what it refuses then.

use super::sheet::Sheet;

/// A round of two seats without a loss.
const ROUND: &str = "table-round 0 0";

/// An edit after all the others.
const EDIT: &str = "table-edit 0 512 0";

pub fn show(sheet: &mut Sheet) {
    show_edits(sheet);
    show_rounds(sheet);
    show_alteration(sheet);
}

fn show_edits(sheet: &mut Sheet) {
    sheet.say("Two seats, and 512 edits by seat 0 at time 0.");
    sheet.put_all(["fresh", "table-open 2 1"]);
    sheet.put_all((0..512).map(|cell| format!("table-edit 0 {cell} 0")));
    sheet.say("12: a 513th edit.");
    sheet.put(EDIT);
    sheet.say("12, not 5: a 513th edit that is not after the last one.");
    sheet.put("table-edit 0 511 0");
    sheet.say("3, not 12: a 513th edit by a seat that is not there.");
    sheet.put("table-edit 2 512 0");
}

fn show_rounds(sheet: &mut Sheet) {
    sheet.say("All 127 rounds, without a loss.");
    sheet.put_all([ROUND; 127]);
    sheet.put_all(["table-sum", "table-agreed 0 127"]);
    sheet.say("11: a 128th round.");
    sheet.put(ROUND);
    sheet.say("11, not 10: a 128th round with one set.");
    sheet.put("table-round 0");
    sheet.say("11, not 4: a 128th round with an own bit.");
    sheet.put("table-round 1 0");
}

fn show_alteration(sheet: &mut Sheet) {
    sheet.say("19, not 11 and not 12: the first loss set altered to an own bit.");
    sheet.put_all(["table-alter 4 0 1", ROUND, EDIT]);
    sheet.say("The loss set put back: the table is what it was.");
    sheet.put_all(["table-alter 4 0 0", "table-agreed 0 127", "table-sum"]);
}
