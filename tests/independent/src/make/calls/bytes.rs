//! Records as bytes.

use super::questions::{ask_at_start, ask_example, examples, fill, refuse};
use super::sheet::Sheet;
use crate::script::call::Carrier;

const READ: &str = "bytes-read 889 512 512 512 512";

/// A record for each refusal of reading.
const BAD_RECORDS: [(&str, &str); 6] = [
    ("1: the record ends before its last number.", "bytes 03010201000001000000020005"),
    ("2: n in a longer form than the shortest.", "bytes 8300020100000100000002000505"),
    ("3: eight seats.", "bytes 08000000"),
    ("4: seat 1 in its own loss set.", "bytes 03010100000200"),
    ("5: the same edit twice.", "bytes 020000020000050000000500"),
    ("6: a byte after the last edit.", "bytes 030102010000010000000200050500"),
];

/// One entry too few in each of the five lists.
const SHORT_READS: [&str; 5] = [
    "bytes-read 888 512 512 512 512",
    "bytes-read 889 511 512 512 512",
    "bytes-read 889 512 511 512 512",
    "bytes-read 889 512 512 511 512",
    "bytes-read 889 512 512 512 511",
];

pub fn show(sheet: &mut Sheet) {
    for example in examples() {
        sheet.say(&format!("As bytes: {}.", example.name));
        fill(sheet, Carrier::Bytes, &example.record);
        sheet.put_all(["bytes-check", READ]);
        ask_example(sheet, Carrier::Bytes, &example);
    }
    for (comment, record) in BAD_RECORDS {
        sheet.say(comment);
        sheet.put_all([record, "bytes-check", READ]);
        ask_at_start(sheet, Carrier::Bytes);
    }
    sheet.say("7, not 1: one entry too few in each list, and the empty record.");
    sheet.put("bytes");
    sheet.put_all(SHORT_READS);
    refuse(sheet, Carrier::Bytes);
}
