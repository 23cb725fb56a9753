//! Streams of text: comment lines, and lines that are answered one by one.

pub mod records;
pub mod scripts;

use std::io::{BufRead, Result, Write};

const COMMENT: u8 = b'#';

/// Copies each comment line and answers every other line. Only one line is held
/// at a time. A last line without a newline is a line like any other.
fn answer_lines<Output: Write>(
    mut input: impl BufRead,
    output: &mut Output,
    mut answer: impl FnMut(&[u8], &mut Output) -> Result<()>,
) -> Result<()> {
    let mut line = Vec::new();
    while input.read_until(b'\n', &mut line)? > 0 {
        let text = line.strip_suffix(b"\n").unwrap_or(&line);
        if text.first() == Some(&COMMENT) {
            output.write_all(text)?;
            output.write_all(b"\n")?;
        } else {
            answer(text, output)?;
        }
        line.clear();
    }
    Ok(())
}

fn write_comment(output: &mut impl Write, index: u64, shape: &str) -> Result<()> {
    writeln!(output, "# {index} {shape}")
}

#[cfg(test)]
mod tests {
    use super::*;

    fn answered(input: &str) -> String {
        let mut output = Vec::new();
        let answer = |line: &[u8], output: &mut Vec<u8>| writeln!(output, "{}", line.len());
        answer_lines(input.as_bytes(), &mut output, answer).unwrap();
        String::from_utf8(output).unwrap()
    }

    #[test]
    fn comments_are_copied_and_other_lines_answered() {
        assert_eq!(answered("# one\nab\n\n#\n #\n"), "# one\n2\n0\n#\n2\n");
    }

    #[test]
    fn a_last_line_without_a_newline_is_a_line() {
        assert_eq!(answered(""), "");
        assert_eq!(answered("abc"), "3\n");
        assert_eq!(answered("a\n# comment"), "1\n# comment\n");
        assert_eq!(answered("a\n\n"), "1\n0\n");
    }

    #[test]
    fn a_carriage_return_belongs_to_its_line() {
        assert_eq!(answered("# one\r\nab\r\n"), "# one\r\n3\n");
    }

    /// The blocks of FORMATS.md: a stream and its output, for records and for scripts.
    #[test]
    fn the_worked_examples_of_the_formats_page() {
        let page = include_str!("../FORMATS.md");
        let blocks: Vec<&str> = page.split("```\n").skip(1).step_by(2).collect();
        let mut pages = Vec::new();
        records::print_pages(blocks[0].as_bytes(), &mut pages).unwrap();
        assert_eq!(String::from_utf8(pages).unwrap(), blocks[1]);
        let mut answers = Vec::new();
        scripts::print_answers(blocks[2].as_bytes(), &mut answers).unwrap();
        assert_eq!(String::from_utf8(answers).unwrap(), blocks[3]);
    }
}
