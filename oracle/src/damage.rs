//! Ways to damage a sheet, given as its lines with their ends, the names line first.

use crate::patterns::Patterns;

type Lines = Vec<Vec<u8>>;
type Damage = fn(&mut Patterns, &mut Lines);

pub const DAMAGES: [(&str, Damage); 25] = [
    ("a bit turned", |draw, lines| {
        let bit = 1 << draw.below(8);
        at_a_byte(draw, lines, |byte| vec![byte ^ bit]);
    }),
    ("another byte", |draw, lines| {
        let other = draw.bits() as u8;
        at_a_byte(draw, lines, |_| vec![other]);
    }),
    ("a byte left out", |draw, lines| {
        at_a_byte(draw, lines, |_| vec![]);
    }),
    ("a byte put in", |draw, lines| {
        let more = draw.bits() as u8;
        at_a_byte(draw, lines, |byte| vec![more, byte]);
    }),
    ("a byte twice", |draw, lines| {
        at_a_byte(draw, lines, |byte| vec![byte, byte]);
    }),
    ("cut off", |draw, lines| {
        let line = any(draw, lines);
        let length = below(draw, lines[line].len());
        lines[line].truncate(length);
        lines.truncate(line + 1);
    }),
    ("a line twice", |draw, lines| {
        let line = any(draw, lines);
        let copy = lines[line].clone();
        lines.insert(line, copy);
    }),
    ("two lines swapped", |draw, lines| {
        let (one, other) = (any(draw, lines), any(draw, lines));
        lines.swap(one, other);
    }),
    ("a line left out", |draw, lines| {
        let line = any(draw, lines);
        lines.remove(line);
    }),
    ("an empty line", |draw, lines| {
        let line = any(draw, lines);
        lines.insert(line, b"\n".to_vec());
    }),
    ("byte 13 before every byte 10", |_, lines| {
        for line in lines {
            replace(line, b'\n', b"\r\n");
        }
    }),
    ("byte 13 before a byte 10", |draw, lines| {
        let line = any(draw, lines);
        replace(&mut lines[line], b'\n', b"\r\n");
    }),
    ("another line end", |draw, lines| {
        let line = any(draw, lines);
        let end = draw.choose(&[
            &b"\r"[..],
            b"\0",
            b"\x0b",
            b"\x0c",
            b"\xe2\x80\xa8",
            b"\n\r",
            b"",
        ]);
        replace(&mut lines[line], b'\n', end);
    }),
    ("uppercase", |draw, lines| {
        let line = value(draw, lines);
        lines[line].make_ascii_uppercase();
    }),
    ("lowercase", |draw, lines| {
        let line = value(draw, lines);
        lines[line].make_ascii_lowercase();
    }),
    ("an uppercase digit", |draw, lines| {
        at_a_byte(draw, lines, |byte| vec![byte.to_ascii_uppercase()]);
    }),
    ("a comma put in", |draw, lines| {
        at_a_byte(draw, lines, |byte| vec![b',', byte]);
    }),
    ("another separator", |draw, lines| {
        let line = value(draw, lines);
        let separator = draw.choose(&[&b";"[..], b" ", b"\t", b", ", b" ,", b",,"]);
        replace(&mut lines[line], b',', separator);
    }),
    ("a blank put in", |draw, lines| {
        let blank = draw.choose(b" \t\0");
        at_a_byte(draw, lines, |byte| vec![blank, byte]);
    }),
    ("byte 0", |draw, lines| {
        at_a_byte(draw, lines, |_| vec![0]);
    }),
    ("a field left out", |draw, lines| {
        at_a_field(draw, lines, |_| vec![]);
    }),
    ("a field twice", |draw, lines| {
        at_a_field(draw, lines, |field| vec![field.to_vec(), field.to_vec()]);
    }),
    ("another field", |draw, lines| {
        let other = draw.choose(&OTHER_FIELDS);
        at_a_field(draw, lines, |_| vec![other.to_vec()]);
    }),
    ("another letter", |draw, lines| {
        let line = value(draw, lines);
        let place = draw.choose(&[0, 2]);
        if let Some(byte) = lines[line].get_mut(place) {
            *byte = draw.choose(b"FILSAECPGfilsaecpgXB0\0 ,");
        }
    }),
    ("the last byte 10 left out, or twice", |draw, lines| {
        let end = draw.choose(&[&b""[..], b"\n\n", b"\n\n\n", b"\n\0", b"\n "]);
        if let Some(last) = lines.last_mut() {
            replace(last, b'\n', end);
        }
    }),
];

/// Next to a field of 16 lowercase digits.
const OTHER_FIELDS: [&[u8]; 16] = [
    b"",
    b"0",
    b"000000000000000",
    b"00000000000000000",
    b"0x00000000000000",
    b"+000000000000000",
    b"-000000000000000",
    b"3FF0000000000000",
    b"3ff000000000000g",
    b"3ff000000000000/",
    b"3ff000000000000:",
    b"3ff000000000000@",
    b"3ff000000000000`",
    b" 3ff00000000000 ",
    b"3ff0000000000000 ",
    b"6378137.0",
];

fn below(draw: &mut Patterns, n: usize) -> usize {
    draw.below(n.max(1) as u64) as usize
}

/// The place of a line.
fn any(draw: &mut Patterns, lines: &mut Lines) -> usize {
    if lines.is_empty() {
        lines.push(Vec::new());
    }
    below(draw, lines.len())
}

/// The place of a line that is not the first, if there is one.
fn value(draw: &mut Patterns, lines: &mut Lines) -> usize {
    any(draw, lines).max(1).min(lines.len() - 1)
}

fn replace(line: &mut Vec<u8>, byte: u8, by: &[u8]) {
    *line = line.split(|&b| b == byte).collect::<Vec<_>>().join(by);
}

/// Puts other bytes in the place of one.
fn at_a_byte(draw: &mut Patterns, lines: &mut Lines, by: impl Fn(u8) -> Vec<u8>) {
    let line = any(draw, lines);
    let at = below(draw, lines[line].len());
    if let Some(&byte) = lines[line].get(at) {
        lines[line].splice(at..=at, by(byte));
    }
}

/// Puts other fields in the place of one of a value line.
fn at_a_field(draw: &mut Patterns, lines: &mut Lines, by: impl Fn(&[u8]) -> Vec<Vec<u8>>) {
    let line = value(draw, lines);
    let text = lines[line].strip_suffix(b"\n").unwrap_or(&lines[line]);
    let mut fields: Vec<_> = text.split(|&b| b == b',').map(<[u8]>::to_vec).collect();
    let at = below(draw, fields.len());
    let others = by(&fields[at]);
    fields.splice(at..=at, others);
    lines[line] = [fields.join(&b','), vec![b'\n']].concat();
}
