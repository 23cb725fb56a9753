use super::*;
use crate::make::scripts;
use crate::random::Random;

fn good(line: &str) -> bool {
    Call::parse(line.as_bytes()).is_some()
}

#[test]
fn calls_come_back_as_they_were_written() {
    let mut random = Random::new(3);
    for _ in 0..200 {
        for call in scripts::script(&mut random).calls {
            let line = call.to_string();
            assert_eq!(Call::parse(line.as_bytes()), Some(call), "{line}");
        }
    }
}

#[test]
fn bytes_are_pairs_of_digits_without_blanks() {
    let record = |line: &str| Call::parse(line.as_bytes());
    assert_eq!(record("bytes 03fF"), Some(Call::Put(Part::Bytes(vec![3, 0xFF]))));
    assert_eq!(record("bytes"), Some(Call::Put(Part::Bytes(vec![]))));
    assert!(!good("bytes ") && !good("bytes 0") && !good("bytes 0g") && !good("bytes 03 ff"));
    assert!(good(&format!("bytes {}", "00".repeat(6_000))));
    assert!(!good(&format!("bytes {}", "00".repeat(6_001))));
}

#[test]
fn a_number_is_digits_with_at_most_a_minus_before_them() {
    assert!(good("table-edit 0 0 -1") && good("table-edit 000 07 -0"));
    assert!(!good("table-edit 0 0 +1") && !good("table-edit 0 0 -") && !good("table-edit 0 0 1x"));
    assert!(!good("table-edit 0 0 --1") && !good("table-edit 0 0 "));
    assert!(!good("table-edit  0 0 0") && !good("table-edit 0 0 0 ") && !good(" fresh"));
    assert!(!good("fresh\r") && !good("") && !good("Fresh") && !good("fresh 0"));
}

#[test]
fn numbers_keep_to_the_width_of_their_parameter() {
    let most = u32::MAX;
    assert!(good(&format!("lists {most} {most} {most}")) && !good("lists 4294967296 0 0"));
    assert!(good("losses 65535") && !good("losses 65536") && !good("losses -1"));
    assert!(good("editors 255") && !good("editors 256"));
    assert!(good("times 65535") && !good("times 65536"));
    assert!(good("cells 4294967295") && !good("cells 4294967296"));
    assert!(good("changes -32768 32767") && !good("changes 32768"));
    assert!(good("table-open 258 65538") && !good("table-open 2 -1"));
    assert!(good("table-round 65535") && !good("table-round 65536"));
    assert!(good("table-edit 256 65536 -2147483648") && !good("table-edit 0 0 2147483648"));
    assert!(good("table-alter 255 65535 4294967295") && !good("table-alter 256 0 0"));
    assert!(good("table-seen 256 65536") && !good("table-seen 0 4294967296"));
    assert!(!good("table-seen 0 99999999999999999999"));
}

#[test]
fn rooms_have_their_limits() {
    assert!(good("bytes-read 1000 1000 1000 1000 1000"));
    assert!(!good("bytes-read 1001 512 512 512 512") && !good("bytes-read 889 512 512 512"));
    assert!(good("lists-write 6000") && !good("lists-write 6001"));
    assert!(good("table-record 6000") && !good("table-record 6001"));
    for word in ["view", "core", "marks"] {
        assert!(
            good(&format!("lists-{word} 0 0 1000")) && !good(&format!("lists-{word} 0 0 1001"))
        );
    }
}

#[test]
fn lists_have_their_limits() {
    for word in ["losses", "editors", "times", "cells", "changes", "table-round"] {
        assert!(good(word));
        assert!(good(&format!("{word}{}", " 0".repeat(1_000))));
        assert!(!good(&format!("{word}{}", " 0".repeat(1_001))));
    }
}

#[test]
fn every_call_has_its_own_carrier() {
    assert!(good("bytes-check") && !good("lists-check") && !good("table-check"));
    assert!(good("lists-judge") && !good("bytes-judge") && !good("bytes-write 10"));
    assert!(good("table-record 9") && !good("lists-record 9") && !good("seen 0 0"));
    assert!(!good("table-losses 0") && !good("table") && !good("close"));
}
