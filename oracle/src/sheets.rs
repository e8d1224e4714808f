//! Sheets to try a program on: whole ones, every change of one byte of a line, damaged ones, those
//! at an end of what a sheet may be, and noise.

use crate::damage::DAMAGES;
use crate::line::{KINDS, WAYS};
use crate::lines::{Lines, SORTS};
use crate::patterns::Patterns;
use crate::sheet::{LONGEST, NAMES};

/// The most value lines that a sheet has room for.
pub const MOST_LINES: usize = (LONGEST - NAMES.len() - 1) / 174;

/// A sheet with the name of what it tries.
pub type Named = (String, Vec<u8>);

/// A seeded source of sheets.
pub struct Sheets {
    /// Of each way and kind.
    lines: Vec<Lines>,
    drawn: usize,
    patterns: Patterns,
}

impl Sheets {
    pub fn new(seed: u64) -> Sheets {
        let of_kind = |kind| WAYS.map(|way| Lines::new(way, kind, seed));
        Sheets {
            lines: KINDS.into_iter().flat_map(of_kind).collect(),
            drawn: 0,
            patterns: Patterns::new(seed),
        }
    }

    /// A value line without byte 10, of each way and kind in turn, and then of each sort.
    fn line(&mut self) -> Vec<u8> {
        let kinds = self.lines.len();
        let sort = SORTS[self.drawn / kinds % SORTS.len()];
        let line = self.lines[self.drawn % kinds].next(sort);
        self.drawn += 1;
        line.text().into_bytes()
    }

    /// The names line and so many value lines, each ended by byte 10.
    fn whole(&mut self, count: usize) -> Vec<Vec<u8>> {
        let values = std::iter::repeat_with(|| self.line()).take(count);
        let lines = std::iter::once(NAMES.to_vec()).chain(values);
        lines.map(|line| [line, vec![b'\n']].concat()).collect()
    }

    /// A sheet of so many value lines. Every other one lacks its last byte 10.
    pub fn of_size(&mut self, count: usize) -> Named {
        let mut sheet = self.whole(count).concat();
        if count % 2 == 1 {
            sheet.pop();
        }
        (format!("{count} value lines"), sheet)
    }

    /// Every line that comes of a value line by one byte put in, left out or set, in as few sheets
    /// as hold them.
    pub fn changed_lines(&mut self) -> Vec<Named> {
        let line = self.line();
        let mut changed = Vec::new();
        for at in 0..=line.len() {
            let (before, after) = line.split_at(at);
            let with = |byte, after| [before, &[byte], after].concat();
            changed.extend((0..=255).map(|byte| with(byte, after)));
            if let Some(after) = after.get(1..) {
                changed.push([before, after].concat());
                changed.extend((0..=255).map(|byte| with(byte, after)));
            }
        }
        // a line of one byte more, and byte 10
        let in_a_sheet = (LONGEST - NAMES.len()) / (line.len() + 2);
        let named = |(i, lines): (usize, &[Vec<u8>])| {
            let sheet = [NAMES, b"\n", &lines.join(&b'\n')].concat();
            (format!("changed lines, part {i}"), sheet)
        };
        changed.chunks(in_a_sheet).enumerate().map(named).collect()
    }

    /// A sheet whose names line comes of the right one by one bit turned, or by one byte left out
    /// or put in; and some that tools write.
    pub fn names_lines(&mut self) -> Vec<Named> {
        let mut others = Vec::new();
        for at in 0..=NAMES.len() {
            let (before, after) = NAMES.split_at(at);
            others.extend(b" \r\0,\n".map(|byte| [before, &[byte], after].concat()));
            if let [byte, after @ ..] = after {
                others.push([before, after].concat());
                others.extend((0..8).map(|bit| [before, &[byte ^ 1 << bit], after].concat()));
            }
        }
        others.extend(OTHER_NAMES.map(<[u8]>::to_vec));
        let line = self.line();
        let named = |names: Vec<u8>| {
            let sheet = [&names[..], b"\n", &line, b"\n"].concat();
            (format!("names line {}", names.escape_ascii()), sheet)
        };
        others.into_iter().map(named).collect()
    }

    /// What is next to no sheet, and to the longest.
    pub fn ends(&mut self) -> Vec<Named> {
        let full = self.of_size(MOST_LINES).1;
        let mut ends = Vec::new();
        let mut add = |name: &str, sheet: Vec<u8>| {
            let name = format!("{name}, {} bytes", sheet.len());
            ends.push((name, sheet));
        };
        add("no input", Vec::new());
        add("byte 10", vec![b'\n']);
        add("a value line alone", self.line());
        add("names line twice", [NAMES, b"\n", NAMES].concat());
        for length in (NAMES.len()..=NAMES.len() + 2).chain(LONGEST - 3..=LONGEST + 3) {
            let filled = |start: &[u8], byte: u8| {
                let mut sheet = start.to_vec();
                sheet.resize(length, byte);
                sheet
            };
            add("empty lines", filled(NAMES, b'\n'));
            add("a long line", filled(&[NAMES, b"\n"].concat(), b'0'));
            add("many fields", filled(&[NAMES, b"\n"].concat(), b','));
            add("no names line", filled(b"", b'\n'));
            add("as many value lines as there can be", filled(&full, b'\n'));
            add("noise", self.noise(length));
        }
        let mut megabyte = self.whole(6000).concat();
        megabyte.truncate(1_000_000);
        add("far too long", megabyte);
        add("far too long, noise", self.noise(1_000_000));
        ends
    }

    /// A sheet with the longest answer that there is.
    pub fn longest_answer(&self) -> Named {
        let mut sheet = NAMES.to_vec();
        sheet.resize(LONGEST, b'\n');
        ("the longest answer".to_owned(), sheet)
    }

    /// A sheet with the damage of that place in the list, and one time in two with others too.
    pub fn damaged(&mut self, place: usize) -> Named {
        let draw = &mut self.patterns;
        let most = draw.choose(&[3, 12, MOST_LINES as u64]);
        let count = 1 + draw.below(most) as usize;
        let others = [(); 3].map(|()| draw.bits() as usize);
        let more = draw.choose(&[0, 0, 1, 3]);
        let mut lines = self.whole(count);
        let mut names = Vec::new();
        for place in std::iter::once(place).chain(others).take(1 + more) {
            let (name, damage) = DAMAGES[place % DAMAGES.len()];
            damage(&mut self.patterns, &mut lines);
            names.push(name);
        }
        (names.join(", "), lines.concat())
    }

    /// So many bytes: of four lengths in turn two have any bytes and two those of sheets, and every
    /// other has them after the names line.
    pub fn noise(&mut self, length: usize) -> Vec<u8> {
        let mut noise = Vec::new();
        if length % 2 == 1 {
            noise = [NAMES, b"\n"].concat();
        }
        let draw = &mut self.patterns;
        noise.resize_with(length, || match length % 4 {
            0 | 1 => draw.bits() as u8,
            _ => draw.choose(b"0123456789abcdef,\nFILSAECPG"),
        });
        noise
    }
}

const OTHER_NAMES: [&[u8]; 8] = [
    b"",
    b"WAY,KIND,A,F,LON0,LAT0,LAT1,LAT2,FE,FN,U,V",
    b"\xef\xbb\xbfway,kind,a,f,lon0,lat0,lat1,lat2,fe,fn,u,v",
    b"way;kind;a;f;lon0;lat0;lat1;lat2;fe;fn;u;v",
    b"way, kind, a, f, lon0, lat0, lat1, lat2, fe, fn, u, v",
    b"\"way\",\"kind\",\"a\",\"f\",\"lon0\",\"lat0\",\"lat1\",\"lat2\",\"fe\",\"fn\",\"u\",\"v\"",
    b"way,kind,a,f,lat0,lon0,lat1,lat2,fe,fn,u,v",
    b"code,p,q",
];
