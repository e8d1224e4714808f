//! 01's sheet program: bytes in, text out.

use crate::line::{Answer, Line};

pub const NAMES: &[u8] = b"way,kind,a,f,lon0,lat0,lat1,lat2,fe,fn,u,v";
/// The most bytes that a sheet may have.
pub const LONGEST: usize = 65_536;

/// What the program prints for a sheet, where `answer` projects.
pub fn answers(sheet: &[u8], answer: fn(&Line) -> Answer) -> String {
    if sheet.len() > LONGEST {
        return Answer::refused(1).text() + "\n";
    }
    // A last byte 10 opens no line.
    let lines = sheet.strip_suffix(b"\n").unwrap_or(sheet);
    let mut lines = lines.split(|&byte| byte == b'\n');
    if lines.next() != Some(NAMES) {
        return Answer::refused(2).text() + "\n";
    }
    let mut output = String::from("code,p,q\n");
    for line in lines {
        let answer = Line::read(line).map_or(Answer::refused(2), |line| answer(&line));
        output += &(answer.text() + "\n");
    }
    output
}
