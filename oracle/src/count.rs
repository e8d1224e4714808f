//! How many answers had each number.

use crate::line::Answer;

/// By number, 01's and 02's.
#[derive(Default)]
pub struct Count([usize; NUMBERS as usize]);

/// They are below this.
const NUMBERS: u8 = 32;

impl Count {
    pub fn count(&mut self, answer: Answer) {
        self.number(answer.number);
    }

    pub fn number(&mut self, number: u8) {
        self.0[usize::from(number)] += 1;
    }

    pub fn of(&self, number: u8) -> usize {
        self.0[usize::from(number)]
    }

    pub fn total(&self) -> usize {
        self.0.iter().sum()
    }

    /// The numbers that came up.
    pub fn numbers(&self) -> Vec<u8> {
        (0..NUMBERS).filter(|&number| self.of(number) > 0).collect()
    }

    /// Those, and how often.
    pub fn text(&self) -> String {
        let listed = |&number: &u8| format!(" {number}: {}", self.of(number));
        self.numbers().iter().map(listed).collect()
    }
}
