//! The lines of stored sheets through the crate: the answers' numbers and bits must be the stored
//! ones. A line of another form, number 2, is none that a type can be asked.

mod common;

use common::{Bits, KINDS, WAYS, bits, build, project};
use lenthuc::Ellipsoid;

const SHEET: &[u8] = include_bytes!("../../../crates/lenthuc/stdin");
const ANSWERS: &str = include_str!("../../../crates/lenthuc/stdout");
const SAMPLE: &str = include_str!("../../../crates/replay/stdin");

/// A way, a kind and ten numbers.
struct Line {
    way: u8,
    kind: u8,
    fields: [f64; 10],
}

/// A value line of a sheet; none where it has another form.
fn read(line: &[u8]) -> Option<Line> {
    let [way, b',', kind, b',', rest @ ..] = line else {
        return None;
    };
    let mut parts = rest.split(|&byte| byte == b',');
    let mut fields = [0.0; 10];
    for field in &mut fields {
        *field = f64::from_bits(pattern(parts.next()?)?);
    }
    let (way, kind) = (*way, *kind);
    let known = WAYS.contains(&way) && KINDS.contains(&kind) && parts.next().is_none();
    known.then_some(Line { way, kind, fields })
}

/// The number that 16 lowercase hexadecimal digits write.
fn pattern(digits: &[u8]) -> Option<u64> {
    let lowercase = |byte: &u8| matches!(byte, b'0'..=b'9' | b'a'..=b'f');
    if digits.len() != 16 || !digits.iter().all(lowercase) {
        return None;
    }
    u64::from_str_radix(std::str::from_utf8(digits).ok()?, 16).ok()
}

/// An answer line: a decimal number and two patterns.
fn answer(line: &str) -> Bits {
    let parts: Vec<_> = line.split(',').collect();
    let [number, p, q] = parts[..] else {
        panic!("an answer has three parts: {line}");
    };
    let pattern = |digits: &str| pattern(digits.as_bytes()).expect("a pattern");
    (number.parse().expect("a number"), pattern(p), pattern(q))
}

/// What the crate answers to a line.
fn ours(line: &Line) -> Bits {
    let [settings @ .., u, v] = line.fields;
    bits(build(line.kind, settings).and_then(|map| project(&*map, line.way, u, v)))
}

#[test]
fn the_programs_sheet() {
    let lines = SHEET.split(|&byte| byte == b'\n').skip(1);
    let answers = ANSWERS.lines().skip(1);
    assert_eq!(lines.clone().count(), answers.clone().count());
    let (mut asked, mut other_form) = (0, 0);
    for (line, expected) in lines.zip(answers.map(answer)) {
        let text = String::from_utf8_lossy(line);
        match read(line) {
            Some(line) => {
                asked += 1;
                assert_eq!(ours(&line), expected, "{text}");
            }
            None => {
                other_form += 1;
                assert_eq!(expected, (2, 0, 0), "{text}");
            }
        }
    }
    assert!(asked >= 200 && other_form >= 20, "{asked} {other_form}");
}

/// The sample that the program `replay` repeats has answers of the Rust.
#[test]
fn the_stored_sample() {
    let mut asked = 0;
    let lines = SAMPLE
        .lines()
        .filter(|line| matches!(line.as_bytes(), [_, b',', _, b',', ..]));
    for (line, rest) in lines.map(|line| line.split_once(' ').expect("an answer")) {
        // A comment may follow the answer.
        let expected = rest.split_once(' ').map_or(rest, |(answer, _)| answer);
        asked += 1;
        let read = read(line.as_bytes()).expect("a value line");
        assert_eq!(ours(&read), answer(expected), "{line}");
    }
    assert!(asked >= 1500, "{asked}");
}

/// The sample's answers for an ellipsoid's numbers, wherever the crate can make the ellipsoid.
#[test]
fn the_stored_ellipsoids() {
    let mut asked = 0;
    for line in SAMPLE.lines() {
        let Some((name, rest)) = line.split_once(',') else {
            continue;
        };
        let derived = match name {
            "b" => Ellipsoid::b,
            "e2" => Ellipsoid::e2,
            "inverse_flattening" => Ellipsoid::inverse_flattening,
            _ => continue,
        };
        let mut words = rest.split_whitespace();
        let mut word = || words.next().expect("an ellipsoid and an answer").as_bytes();
        let (of, answer) = (word(), word());
        let (a, f) = (pattern(&of[..16]), pattern(&of[17..]));
        let [a, f] = [a, f].map(|bits| f64::from_bits(bits.expect("a pattern")));
        if let Ok(ellipsoid) = Ellipsoid::from_a_f(a, f) {
            asked += 1;
            assert_eq!(
                Some(derived(&ellipsoid).to_bits()),
                pattern(answer),
                "{line}"
            );
        }
    }
    assert!(asked >= 100, "{asked}");
}
