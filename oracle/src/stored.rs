//! What crates/replay replays: questions, their answers, and why some of them are there.

use std::fmt::{Display, Formatter, Result};

/// A line of crates/replay/stdin.
pub struct Stored {
    pub question: String,
    pub answer: String,
    /// What to say of the line, if anything.
    pub why: &'static str,
}

impl Display for Stored {
    fn fmt(&self, f: &mut Formatter) -> Result {
        write!(f, "{} {}", self.question, self.answer)?;
        if self.why.is_empty() {
            return Ok(());
        }
        write!(f, "  # {}", self.why)
    }
}

/// The stored questions that start with one of these, and their answers.
pub fn read<Q>(starts: &[&str], read: impl Fn(&str) -> Option<Q>) -> Vec<(Q, String)> {
    let file = concat!(env!("CARGO_MANIFEST_DIR"), "/../crates/replay/stdin");
    let text = std::fs::read_to_string(file).expect("the stored sample");
    let starting = |line: &&str| starts.iter().any(|start| line.starts_with(start));
    let both = |line: &str| {
        let (question, rest) = line.split_once(' ').expect("a question and its answer");
        let (answer, _) = rest.split_once(' ').unwrap_or((rest, ""));
        let question = read(question).expect("a question of this form");
        (question, answer.to_owned())
    };
    text.lines().filter(starting).map(both).collect()
}

/// A name and its arguments as patterns.
pub fn question(name: &str, arguments: &[u64]) -> String {
    let arguments = arguments.iter().map(|a| format!(",{a:016x}"));
    name.to_owned() + &arguments.collect::<String>()
}
