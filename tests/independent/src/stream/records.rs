//! The record stream: a record on a line, as hexadecimal digits.

use super::{answer_lines, write_comment};
use crate::hex;
use crate::make::Made;
use crate::page::{self, TAKEN};
use std::io::{BufRead, Result, Write};

/// For each record its page.
pub fn print_pages(input: impl BufRead, output: &mut impl Write) -> Result<()> {
    let mut bytes = Vec::with_capacity(TAKEN);
    answer_lines(input, output, |line, output| {
        hex::read(line, TAKEN, &mut bytes);
        page::print(&bytes, output)
    })
}

pub fn write(output: &mut impl Write, made: impl Iterator<Item = Made>) -> Result<()> {
    for (index, Made { shape, bytes }) in (0..).zip(made) {
        write_comment(output, index, &shape)?;
        writeln!(output, "{}", hex::text(&bytes))?;
    }
    Ok(())
}

#[cfg(test)]
mod tests {
    use super::*;
    use crate::examples;
    use crate::make::{edges, good};
    use crate::page::page;
    use crate::page::tests::PRINTED_PAGE;
    use crate::random::Random;

    fn pages(stream: &str) -> String {
        let mut output = Vec::new();
        print_pages(stream.as_bytes(), &mut output).unwrap();
        String::from_utf8(output).unwrap()
    }

    fn written(made: impl IntoIterator<Item = Made>) -> String {
        let mut stream = Vec::new();
        write(&mut stream, made.into_iter()).unwrap();
        String::from_utf8(stream).unwrap()
    }

    fn made(shape: &str, bytes: &[u8]) -> Made {
        Made { shape: shape.to_string(), bytes: bytes.to_vec() }
    }

    #[test]
    fn the_printed_example() {
        let stream = written([made("P11", &examples::PRINTED), made("empty", &[])]);
        assert_eq!(stream, "# 0 P11\n0301020100000100000002000505\n# 1 empty\n\n");
        assert_eq!(pages(&stream), format!("# 0 P11\n{PRINTED_PAGE}# 1 empty\nrefused 1\n"));
    }

    #[test]
    fn a_record_may_be_written_by_hand() {
        let stream = "03 01 02 01  00 00 01  00 00 00  02 00 05 05 0\n";
        assert_eq!(pages(stream), PRINTED_PAGE);
    }

    #[test]
    fn a_last_line_without_a_newline_is_a_record() {
        let stream = "\n03 01 02 01  00 00 01  00 00 00  02 00 05 05";
        assert_eq!(pages(stream), format!("refused 1\n{PRINTED_PAGE}"));
    }

    #[test]
    fn the_first_4991_bytes_of_a_line_are_taken() {
        let longest = good::longest(&mut Random::new(1)).bytes();
        let stream = written([made("longest", &longest)]);
        assert_eq!(pages(&stream), format!("# 0 longest\n{}", page(&longest)));
        let digits = stream.lines().nth(1).unwrap();
        assert_eq!(pages(&format!("{digits}0\n")), page(&longest));
        assert_eq!(pages(&format!("{digits}00\n")), "refused 6\n");
        assert_eq!(pages(&format!("{digits}{digits}{digits}\n")), "refused 6\n");
    }

    #[test]
    fn every_edge_has_a_comment_and_a_page() {
        let stream = written(edges::records());
        let mut expected = String::new();
        for (index, edge) in edges::records().into_iter().enumerate() {
            expected += &format!("# {index} {}\n{}", edge.shape, page(&edge.bytes));
        }
        assert_eq!(pages(&stream), expected);
    }
}
