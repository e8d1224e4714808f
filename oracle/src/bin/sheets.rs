//! Holds a program's standard output, byte for byte, against what 01's sheet program prints by what
//! is expected: `sheets STEP COMMAND..`, where the words of COMMAND run the program. Sheets of every
//! size, every change of one byte of a line, damaged sheets, those at an end of what a sheet may be,
//! input and output that come and go in parts, and noise of every STEPth length. At the first that
//! differs it saves the sheet, says where, and ends in 1.

use oracle::expected::answer;
use oracle::program::{Feed, Outcome, Program, Take};
use oracle::sheet::answers;
use oracle::sheets::{MOST_LINES, Named, Sheets};
use std::time::Duration;

const DAMAGED: usize = 2000;
const LONGEST_NOISE: usize = 70_000;

fn main() {
    let mut words = std::env::args().skip(1);
    let step = words.next().and_then(|word| word.parse().ok());
    let step: usize = step.expect("sheets STEP COMMAND..");
    let mut trial = Trial {
        program: Program::new(words.collect()),
        held: 0,
        numbers: [0; 25],
    };
    let mut sheets = Sheets::new(1);

    for count in 0..=MOST_LINES + 2 {
        trial.hold(sheets.of_size(count));
    }
    trial.hold_all(sheets.changed_lines());
    trial.hold_all(sheets.names_lines());
    trial.hold_all(sheets.ends());
    in_parts(&mut trial, &mut sheets);
    not_taken(&trial.program, &mut sheets);
    let (lines, held) = (trial.lines(), trial.held);

    for place in 0..DAMAGED {
        trial.hold(sheets.damaged(place));
    }
    for length in (0..=LONGEST_NOISE).step_by(step) {
        let name = format!("noise of {length} bytes");
        trial.hold((name, sheets.noise(length)));
    }
    let noise = trial.held - held - DAMAGED;

    let missing = |number: &usize| *number != 3 && trial.numbers[*number] == 0;
    if let Some(number) = (0..25).find(missing) {
        panic!("{number} came up in no sheet");
    }
    println!(
        "sheets: {lines} lines in {held} sheets, {DAMAGED} damaged, {noise} noise, \
        all as the oracle's"
    );
}

/// A sheet with many lines, one with the longest answer and one that is too long, each fed and
/// taken in every way; and a small one so slowly that the program waits for every byte.
fn in_parts(trial: &mut Trial, sheets: &mut Sheets) {
    let slowly = Feed::Bytes(Duration::from_micros(100));
    let fast = Feed::Bytes(Duration::ZERO);
    trial.hold_by(sheets.of_size(20), slowly, Take::AtOnce);
    for sheet in [
        sheets.of_size(MOST_LINES),
        sheets.longest_answer(),
        sheets.of_size(MOST_LINES + 1),
    ] {
        for feed in [Feed::AtOnce, fast, Feed::Parts] {
            for take in [Take::AtOnce, Take::Slowly, Take::SmallPipe, Take::Stopping] {
                trial.hold_by(sheet.clone(), feed, take);
            }
        }
    }
}

/// Answers that cannot be written are not lost in silence.
fn not_taken(program: &Program, sheets: &mut Sheets) {
    let (_, sheet) = sheets.of_size(1);
    let outcome = program.run(&sheet, Feed::AtOnce, Take::Nothing);
    assert!(!outcome.errors.is_empty(), "nothing on standard error");
}

struct Trial {
    program: Program,
    /// How many sheets were answered as by the oracle, and of their lines how many by each number.
    held: usize,
    numbers: [usize; 25],
}

impl Trial {
    fn hold_all(&mut self, sheets: Vec<Named>) {
        for sheet in sheets {
            self.hold(sheet);
        }
    }

    fn hold(&mut self, sheet: Named) {
        self.hold_by(sheet, Feed::AtOnce, Take::AtOnce);
    }

    fn hold_by(&mut self, (name, sheet): Named, feed: Feed, take: Take) {
        let expected = answers(&sheet, answer);
        let outcome = self.program.run(&sheet, feed, take);
        let right = outcome.output == expected.as_bytes();
        if !right || !outcome.errors.is_empty() || outcome.status != Some(0) {
            println!("{name}, {feed:?}, {take:?}");
            differs(&sheet, &expected, &outcome);
        }
        self.held += 1;
        for line in expected.lines().filter(|&line| line != "code,p,q") {
            let (number, _) = line.split_once(',').expect("three fields");
            self.numbers[number.parse::<usize>().expect("a number")] += 1;
        }
    }

    /// How many lines had the form of a value line.
    fn lines(&self) -> usize {
        self.numbers.iter().sum::<usize>() - self.numbers[1] - self.numbers[2]
    }
}

/// Saves the sheet beside this program, says how the outcome differs, and ends.
fn differs(sheet: &[u8], expected: &str, outcome: &Outcome) -> ! {
    let file = std::env::current_exe().expect("a path");
    let file = file.with_file_name("differs.sheet");
    std::fs::write(&file, sheet).expect("room for the sheet");
    println!("the sheet is in {}", file.display());
    let ours: Vec<_> = outcome.output.split(|&byte| byte == b'\n').collect();
    let theirs: Vec<_> = expected.as_bytes().split(|&byte| byte == b'\n').collect();
    let same = ours.iter().zip(&theirs).take_while(|(a, b)| a == b).count();
    let shown = |lines: &[&[u8]]| match lines.get(same) {
        Some(line) => line[..line.len().min(99)].escape_ascii().to_string(),
        None => "no more".to_owned(),
    };
    println!("line {} of the output: {}", same + 1, shown(&ours));
    println!("the oracle's: {}", shown(&theirs));
    println!("standard error: {}", outcome.errors.escape_ascii());
    println!("status: {:?}", outcome.status);
    std::process::exit(1)
}
