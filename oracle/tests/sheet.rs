//! The forms of a sheet, as 01 and READINGS have them.

use oracle::expected::answer;
use oracle::sheet::answers;

const NAMES: &str = "way,kind,a,f,lon0,lat0,lat1,lat2,fe,fn,u,v";
const LINE: &str = "F,P,3ff0000000000000,0000000000000000,0000000000000000,0000000000000000,\
    0000000000000000,0000000000000000,0000000000000000,0000000000000000,3fe0000000000000,\
    0000000000000000";
const ONE: &str = "1,0000000000000000,0000000000000000\n";
const TWO: &str = "2,0000000000000000,0000000000000000\n";
const HEAD: &str = "code,p,q\n";
const HALF: &str = "0,3fe0000000000000,0000000000000000\n";

fn of(sheet: &str) -> String {
    answers(sheet.as_bytes(), answer)
}

#[test]
fn of_01() {
    assert_eq!(of(&format!("{NAMES}\n{LINE}\n")), format!("{HEAD}{HALF}"));
    assert_eq!(of(&format!("{NAMES}\n{LINE}")), format!("{HEAD}{HALF}"));
}

#[test]
fn names_lines() {
    assert_eq!(of(""), TWO);
    assert_eq!(of("\n"), TWO);
    assert_eq!(of(&format!("{NAMES} \n{LINE}\n")), TWO);
    assert_eq!(of(&format!("{NAMES}\r\n")), TWO);
    assert_eq!(of(NAMES), HEAD);
    assert_eq!(of(&format!("{NAMES}\n")), HEAD);
}

#[test]
fn empty_lines() {
    assert_eq!(of(&format!("{NAMES}\n\n")), format!("{HEAD}{TWO}"));
    let mixed = of(&format!("{NAMES}\n\n{LINE}\n\n"));
    assert_eq!(mixed, format!("{HEAD}{TWO}{HALF}{TWO}"));
}

#[test]
fn lengths() {
    let most = format!("{NAMES}{}", "\n".repeat(65_536 - NAMES.len()));
    assert_eq!(of(&most).len(), 2_357_757);
    assert_eq!(of(&(most + "\n")), ONE);
}

/// Every byte of a line changed to one that may not stand there, and lines too short or long.
#[test]
fn lines_of_another_form() {
    let refused = format!("{HEAD}{TWO}");
    assert_eq!(LINE.len(), 173);
    for at in 0..LINE.len() {
        for byte in ["x", " ", "A", "\r", "/", ":", "g", "\0"] {
            let mut line = LINE.to_owned();
            line.replace_range(at..=at, byte);
            // A is a kind
            if (at, byte) != (2, "A") {
                assert_eq!(of(&format!("{NAMES}\n{line}\n")), refused, "{line}");
            }
        }
    }
    for line in [
        &LINE[..172],
        &format!("{LINE},"),
        &format!("{LINE} "),
        &format!("{LINE}0"),
    ] {
        assert_eq!(of(&format!("{NAMES}\n{line}\n")), refused);
    }
    let thirteenth = format!("{LINE},0000000000000000");
    assert_eq!(of(&format!("{NAMES}\n{thirteenth}\n")), refused);
}
