//! A value line of 01's sheet, and what a program answers to it.

use crate::fixed::bits_of;

pub const WAYS: [u8; 2] = *b"FI";
pub const KINDS: [u8; 7] = *b"LSAECPG";

/// The places of a line's ten fields.
pub const A: usize = 0;
pub const F: usize = 1;
pub const LON0: usize = 2;
pub const LAT0: usize = 3;
pub const LAT1: usize = 4;
pub const LAT2: usize = 5;
pub const FE: usize = 6;
pub const FN: usize = 7;
pub const U: usize = 8;
pub const V: usize = 9;

/// A way, a kind and ten f64.
#[derive(Clone, Copy, Debug)]
pub struct Line {
    pub way: u8,
    pub kind: u8,
    pub fields: [f64; 10],
}

impl Line {
    /// As the sheet has it, without byte 10.
    pub fn text(&self) -> String {
        let (way, kind) = (char::from(self.way), char::from(self.kind));
        let fields = self.fields.map(|x| format!("{:016x}", x.to_bits()));
        format!("{way},{kind},{}", fields.join(","))
    }

    /// The line of a sheet; none where it has another form.
    pub fn read(text: &[u8]) -> Option<Line> {
        let [way, b',', kind, b',', rest @ ..] = text else {
            return None;
        };
        let mut parts = rest.split(|&b| b == b',');
        let mut fields = [0.0; 10];
        for field in &mut fields {
            *field = f64::from_bits(pattern(parts.next()?)?);
        }
        let (way, kind) = (*way, *kind);
        let known = WAYS.contains(&way) && KINDS.contains(&kind) && parts.next().is_none();
        known.then_some(Line { way, kind, fields })
    }
}

/// The number that 16 lowercase hexadecimal digits write.
pub fn pattern(field: &[u8]) -> Option<u64> {
    let lowercase = |b: &u8| matches!(b, b'0'..=b'9' | b'a'..=b'f');
    if field.len() != 16 || !field.iter().all(lowercase) {
        return None;
    }
    u64::from_str_radix(std::str::from_utf8(field).ok()?, 16).ok()
}

/// A number, 0 if answered, and two results as patterns.
#[derive(Clone, Copy, Debug, PartialEq)]
pub struct Answer {
    pub number: u8,
    pub p: u64,
    pub q: u64,
}

impl Answer {
    pub fn pair(p: f64, q: f64) -> Answer {
        let (p, q) = (bits_of(p), bits_of(q));
        Answer { number: 0, p, q }
    }

    pub fn refused(number: u8) -> Answer {
        Answer { number, p: 0, q: 0 }
    }

    /// As the sheet has it, without byte 10.
    pub fn text(&self) -> String {
        format!("{},{:016x},{:016x}", self.number, self.p, self.q)
    }
}

/// What a column of points is projected to.
#[derive(Clone, Debug)]
pub struct Columns {
    pub p: Vec<f64>,
    pub q: Vec<f64>,
    pub numbers: Vec<u8>,
}

impl Columns {
    /// With room for so many points.
    pub fn new(points: usize) -> Columns {
        let (p, q) = (vec![f64::NAN; points], vec![f64::NAN; points]);
        let numbers = vec![u8::MAX; points];
        Columns { p, q, numbers }
    }

    pub fn answers(&self) -> impl Iterator<Item = Answer> {
        let results = self.p.iter().zip(&self.q);
        results.zip(&self.numbers).map(|((&p, &q), &number)| {
            let (p, q) = (bits_of(p), bits_of(q));
            Answer { number, p, q }
        })
    }
}
