use super::*;

/// The lines that a script prints, from fresh carriers on.
fn play(script: &str) -> String {
    let carriers = &mut Carriers::fresh();
    let call = |text: &str| Call::parse(text.as_bytes()).unwrap();
    script.lines().map(|text| line(carriers, &call(text)) + "\n").collect()
}

#[test]
fn carriers_hold_no_record_at_the_start() {
    let script = "\
bytes-check
bytes-standing 0
lists-judge
lists-standing 0
table-standing 0
table-record 0
table-sum
";
    let expected = "\
bytes-check refused 1
bytes-standing refused 1
lists-judge refused 3
lists-standing refused 3
table-standing refused 19
table-record refused 19
table-sum 2b23cf9d
";
    assert_eq!(play(script), expected);
}

#[test]
fn fresh_undoes_every_change() {
    let script = "\
bytes 02000000
lists 2 0 0
table-open 2 0
fresh
bytes-check
lists-judge
table-sum
";
    let expected = "\
bytes done
lists done
table-open done
fresh done
bytes-check refused 1
lists-judge refused 3
table-sum 2b23cf9d
";
    assert_eq!(play(script), expected);
}

/// P4, P6 and P9 as document 01 gives them.
#[test]
fn answers_to_questions() {
    let script = "\
bytes 0301020100000100000002000505
bytes-seen 0 1
bytes-agreed 0 1
bytes-agreed 0 2
bytes-view 0 1 5
bytes-core 0 2 3
bytes-core 0 2 2
bytes-marks 0 2 3
bytes-marks 0 1 1
bytes-standing 2
bytes-standing 256
bytes 03010100000101
bytes-seen 0 1
bytes-agreed 0 1
bytes-marks 1 1 0
";
    let expected = "\
bytes done
bytes-seen 1 0 -1 -1 -1 -1 -1 4
bytes-agreed -1 2 0 0 -1 -1 -1 -1 -1 -1 -1
bytes-agreed 1 1 4 1 1 1 0 -1 -1 -1 -1
bytes-view 1 0 -1 1003 1004
bytes-core 1 1 0
bytes-core refused 7
bytes-marks 1 200 200
bytes-marks 0
bytes-standing loser
bytes-standing refused 8
bytes done
bytes-seen 1 -1 -1 -1 -1 -1 -1 6
bytes-agreed refused 9
bytes-marks
";
    assert_eq!(play(script), expected);
}

#[test]
fn lists_are_put_one_by_one() {
    let script = "\
lists 3 1 2
lists-judge
losses 0 0 1 0 0 0
lists-judge
editors 2
lists-judge
times 0
cells 5
changes -3
lists-judge
lists-length
lists-write 13
lists-write 14
cells 65541
lists-write 0
cells
lists-length
";
    let expected = "\
lists done
lists-judge refused 10
losses done
lists-judge 3 1 2 0
editors done
lists-judge refused 10
times done
cells done
changes done
lists-judge 3 1 2 1
lists-length 14
lists-write refused 7
lists-write 14 0301020100000100000002000505
cells done
lists-write refused 3
cells done
lists-length refused 10
";
    assert_eq!(play(script), expected);
}

/// The checksums were worked out by another program.
#[test]
fn reading_shows_the_lent_lists() {
    let script = "\
bytes 0301020100000100000002000505
bytes-read 889 512 512 512 512
bytes-read 890 513 514 515 516
bytes-read 889 512 511 512 512
";
    let expected = "\
bytes done
bytes-read 3 1 2 1 29a0be54
bytes-read 3 1 2 1 13928f3b
bytes-read refused 7
";
    assert_eq!(play(script), expected);
}
