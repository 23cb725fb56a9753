//! The lister's page.

use crate::construction::settle;
use crate::place::Place;
use crate::record::read::read;
use crate::record::Record;
use crate::views::Views;
use std::io::{Result, Write};

/// The lister takes at most this many bytes and judges what it took.
pub const TAKEN: usize = 4_991;

pub fn print(bytes: &[u8], output: &mut impl Write) -> Result<()> {
    let taken = &bytes[..bytes.len().min(TAKEN)];
    match read(taken) {
        Ok(record) => print_listing(&record, output),
        Err(refusal) => writeln!(output, "refused {}", refusal.number()),
    }
}

fn print_listing(record: &Record, output: &mut impl Write) -> Result<()> {
    let Record { seats, bound, rounds, .. } = record;
    writeln!(output, "seats {seats} bound {bound} rounds {rounds} edits {}", record.edits.len())?;
    let views = &mut Views::new(record);
    let losers = record.losers();
    for time in 0..=record.rounds {
        for seat in 0..record.seats {
            let letter = if losers.contains(seat) { 'L' } else { 'C' };
            write!(output, "{time} {seat} {letter}")?;
            print_answer(views, Place { seat, time }, output)?;
        }
    }
    Ok(())
}

fn print_answer(views: &mut Views, place: Place, output: &mut impl Write) -> Result<()> {
    match settle(views, place) {
        Ok(settled) => {
            write!(output, " {} {}", settled.critical, settled.steps)?;
            for time in settled.core.latest_times(views.record.seats) {
                write!(output, " {time}")?;
            }
            writeln!(output, " {}", settled.count_edits(views.record))
        }
        // 9 is the only refusal here: `over` stands alone after the letter.
        Err(_) => writeln!(output, " over"),
    }
}

/// The page as text.
#[cfg(test)]
pub fn page(bytes: &[u8]) -> String {
    let mut text = Vec::new();
    print(bytes, &mut text).unwrap();
    String::from_utf8(text).unwrap()
}

#[cfg(test)]
pub mod tests {
    use super::*;
    use crate::examples;
    use crate::make::good;
    use crate::random::Random;

    pub const PRINTED_PAGE: &str = "\
seats 3 bound 1 rounds 2 edits 1
0 0 C -2 1 -1 -1 -1 0
0 1 C -2 1 -1 -1 -1 0
0 2 L -2 1 -1 -1 -1 0
1 0 C -1 2 -1 -1 -1 0
1 1 C -1 1 -1 -1 -1 0
1 2 L -1 1 -1 -1 -1 0
2 0 C 1 1 1 1 0 1
2 1 C 1 1 1 1 0 1
2 2 L 1 1 1 1 0 1
";

    #[test]
    fn the_printed_page() {
        assert_eq!(page(&examples::PRINTED), PRINTED_PAGE);
    }

    #[test]
    fn p9_gives_an_over_line_that_keeps_its_letter() {
        let text = page(&examples::over_the_bound().bytes());
        assert!(text.contains("\n1 0 C over\n1 1 L -1 1 -1 -1 -1 0\n"));
    }

    #[test]
    fn a_bad_record_gives_one_line() {
        assert_eq!(page(&[]), "refused 1\n");
        assert_eq!(page(&[1, 0, 0, 0]), "refused 3\n");
    }

    #[test]
    fn a_byte_past_the_longest_record_is_enough_for_6() {
        let mut bytes = good::longest(&mut Random::new(1)).bytes();
        assert_eq!(bytes.len() + 1, TAKEN);
        bytes.resize(6_000, 0);
        assert_eq!(page(&bytes[..TAKEN]), "refused 6\n");
        assert_eq!(page(&bytes), "refused 6\n");
    }
}
