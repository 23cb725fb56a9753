//! The text of a stream that is written for people.

use std::fmt::Display;

#[derive(Default)]
pub struct Sheet {
    pub text: String,
}

impl Sheet {
    /// A comment. One that begins with a number says which refusal the calls
    /// below it give; below any other comment nothing is refused.
    pub fn say(&mut self, comment: &str) {
        self.put(format!("# {comment}"));
    }

    /// A comment at the head of a part, after an empty one.
    pub fn begin(&mut self, title: &str) {
        self.put('#');
        self.say(title);
    }

    pub fn put(&mut self, line: impl Display) {
        self.text += &format!("{line}\n");
    }

    pub fn put_all<Line: Display>(&mut self, lines: impl IntoIterator<Item = Line>) {
        lines.into_iter().for_each(|line| self.put(line));
    }
}
