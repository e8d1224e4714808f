//! 01's sheet program: a sheet on standard input, its answers on standard output. `sheet --platform`
//! takes the source with the platform's functions, which has no Albers on a sphere.

use oracle::expected;
use oracle::sheet::answers;
use oracle::source::platform;
use std::io::{Read, Write, stdin, stdout};

fn main() {
    let answer = match std::env::args().nth(1).as_deref() {
        None => expected::answer,
        Some("--platform") => platform::door::answer,
        Some(word) => panic!("not --platform: {word}"),
    };
    let mut sheet = Vec::new();
    stdin().read_to_end(&mut sheet).expect("a sheet");
    let output = answers(&sheet, answer);
    stdout()
        .write_all(output.as_bytes())
        .expect("room for the answers");
}
