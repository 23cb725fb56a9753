//! The script stream: a call on a line.

use super::{answer_lines, write_comment};
use crate::script::call::Call;
use crate::script::carriers::Carriers;
use crate::script::{play, Script};
use std::io::{BufRead, Result, Write};

/// For each call its line. All calls go to the same carriers.
pub fn print_answers(input: impl BufRead, output: &mut impl Write) -> Result<()> {
    let mut carriers = Carriers::fresh();
    answer_lines(input, output, |line, output| match Call::parse(line) {
        Some(call) => writeln!(output, "{}", play::line(&mut carriers, &call)),
        None => writeln!(output, "unknown"),
    })
}

pub fn write(output: &mut impl Write, scripts: impl Iterator<Item = Script>) -> Result<()> {
    for (index, Script { shape, calls }) in (0..).zip(scripts) {
        write_comment(output, index, shape)?;
        for call in calls {
            writeln!(output, "{call}")?;
        }
    }
    Ok(())
}

#[cfg(test)]
mod tests {
    use super::*;
    use crate::make::scripts;
    use crate::random::Random;

    fn answers(stream: &str) -> String {
        let mut output = Vec::new();
        print_answers(stream.as_bytes(), &mut output).unwrap();
        String::from_utf8(output).unwrap()
    }

    #[test]
    fn a_line_that_is_no_call_is_unknown_and_does_nothing() {
        let stream = "bytes 02000000\nbytes 0\n\nbytes-check\r\nbytes-check\nclose";
        let expected = "bytes done\nunknown\nunknown\nunknown\nbytes-check 2 0 0 0\nunknown\n";
        assert_eq!(answers(stream), expected);
    }

    #[test]
    fn a_last_line_without_a_newline_is_a_call() {
        assert_eq!(answers("# one\nfresh"), "# one\nfresh done\n");
    }

    /// Every line prints one line, so that an answer's place shows its call.
    #[test]
    fn made_scripts_print_as_their_calls_do() {
        let mut random = Random::new(8);
        let made: Vec<Script> = (0..20).map(|_| scripts::script(&mut random)).collect();
        let mut expected = String::new();
        for (index, script) in made.iter().enumerate() {
            expected += &format!("# {index} {}\n", script.shape);
            let carriers = &mut Carriers::fresh();
            for call in &script.calls {
                expected += &(play::line(carriers, call) + "\n");
            }
        }
        let mut stream = Vec::new();
        write(&mut stream, made.into_iter()).unwrap();
        let stream = String::from_utf8(stream).unwrap();
        assert_eq!(answers(&stream), expected);
        assert_eq!(stream.lines().count(), expected.lines().count());
    }
}
