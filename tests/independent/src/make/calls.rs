//! A fixed script stream to be read: every call answers for the examples of
//! document 01 and is refused in every way it can be.

mod bytes;
mod full;
mod lists;
mod questions;
mod sheet;
mod table;

use sheet::Sheet;

/// Lines that are no calls, most of them nearly one.
const NO_CALLS: [&str; 11] = [
    "close",
    "Fresh",
    "bytes 030",
    "bytes 0g",
    "lists 3 1",
    "lists 3 1 -1",
    "editors 256",
    "table-round 0 65536",
    "table-edit 0 0 +1",
    "table-view 0 0 1001",
    "table-record 6001",
];

pub fn stream() -> String {
    let mut sheet = Sheet::default();
    sheet.say("A comment that begins with a number says which refusal the calls below it give.");
    sheet.put("fresh");
    sheet.begin("Part 1: records as bytes.");
    bytes::show(&mut sheet);
    sheet.begin("Part 2: records as lists.");
    lists::show(&mut sheet);
    sheet.begin("Part 3: records in the live table.");
    table::show(&mut sheet);
    sheet.begin("Part 4: lines that are no calls. They print `unknown` and do nothing.");
    sheet.put_all(NO_CALLS);
    sheet.begin("Part 5: a full table.");
    full::show(&mut sheet);
    sheet.text
}

#[cfg(test)]
mod tests;
