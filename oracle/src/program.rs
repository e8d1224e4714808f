//! A program that answers sheets, as a process: what it does with one, however its input comes and
//! its output is taken. For Linux.

use crate::patterns::Patterns;
use std::ffi::c_int;
use std::fs::File;
use std::io::{PipeReader, PipeWriter, Read, Write, pipe};
use std::os::fd::AsRawFd;
use std::process::{ChildStdin, Command, Stdio};
use std::sync::mpsc::channel;
use std::thread::{scope, sleep};
use std::time::Duration;

/// Who runs longer hangs, and is ended.
const DEADLINE: Duration = Duration::from_secs(60);

/// How a sheet comes to standard input.
#[derive(Clone, Copy, Debug)]
pub enum Feed {
    AtOnce,
    /// Byte by byte, with a pause after each.
    Bytes(Duration),
    /// In random parts with random pauses.
    Parts,
}

/// How standard output is taken.
#[derive(Clone, Copy, Debug)]
pub enum Take {
    AtOnce,
    /// In small reads, with pauses.
    Slowly,
    /// In small reads from a pipe that holds one page.
    SmallPipe,
    /// In small reads, the program stopped and resumed after each: a write that waits then ends
    /// short.
    Stopping,
    /// Not at all: it goes to a device that is always full.
    Nothing,
}

/// What a run left. It has no status if it was ended.
pub struct Outcome {
    pub output: Vec<u8>,
    pub errors: Vec<u8>,
    pub status: Option<i32>,
}

/// The words of a command.
pub struct Program(Vec<String>);

impl Program {
    pub fn new(words: Vec<String>) -> Program {
        assert!(!words.is_empty(), "a command");
        Program(words)
    }

    pub fn run(&self, sheet: &[u8], feed: Feed, take: Take) -> Outcome {
        let (reader, writer) = pipe().expect("a pipe");
        if let Take::SmallPipe = take {
            shrink(&reader);
        }
        let mut child = Command::new(&self.0[0])
            .args(&self.0[1..])
            .stdin(Stdio::piped())
            .stdout(take.output(writer))
            .stderr(Stdio::piped())
            .spawn()
            .expect("the command runs");
        let input = child.stdin.take().expect("piped");
        let mut stderr = child.stderr.take().expect("piped");
        let id = child.id();
        let (done, taken) = channel();
        scope(|threads| {
            threads.spawn(move || feed.write(sheet, input));
            threads.spawn(move || done.send(take.read(reader, id)));
            let output = taken.recv_timeout(DEADLINE).unwrap_or_else(|_| {
                child.kill().expect("its own child");
                Vec::new()
            });
            let status = child.wait().expect("its own child").code();
            let mut errors = Vec::new();
            stderr.read_to_end(&mut errors).expect("standard error");
            Outcome {
                output,
                errors,
                status,
            }
        })
    }
}

impl Feed {
    /// Ends where the program reads no further, as it may.
    fn write(self, sheet: &[u8], mut input: ChildStdin) {
        let mut rest = sheet;
        let mut patterns = Patterns::new(sheet.len() as u64);
        while !rest.is_empty() {
            let (most, pause) = match self {
                Feed::AtOnce => (rest.len(), Duration::ZERO),
                Feed::Bytes(pause) => (1, pause),
                Feed::Parts => {
                    let most = 1 + patterns.below(5000) as usize;
                    (most, Duration::from_micros(patterns.below(3000)))
                }
            };
            let (part, after) = rest.split_at(most.min(rest.len()));
            if input.write_all(part).is_err() {
                return;
            }
            if !pause.is_zero() {
                sleep(pause);
            }
            rest = after;
        }
    }
}

impl Take {
    /// What the program writes to.
    fn output(self, pipe: PipeWriter) -> Stdio {
        match self {
            Take::Nothing => {
                let device = File::options().write(true).open("/dev/full");
                device.expect("the device").into()
            }
            _ => pipe.into(),
        }
    }

    fn read(self, mut reader: PipeReader, id: u32) -> Vec<u8> {
        let mut output = Vec::new();
        let mut part = [0; 1021];
        if let Take::AtOnce = self {
            reader.read_to_end(&mut output).expect("standard output");
            return output;
        }
        loop {
            let read = reader.read(&mut part).expect("standard output");
            if read == 0 {
                return output;
            }
            output.extend(&part[..read]);
            match self {
                Take::Slowly => sleep(Duration::from_micros(500)),
                Take::Stopping => stop_and_resume(id),
                _ => (),
            }
        }
    }
}

/// Linux's numbers.
const F_SETPIPE_SZ: c_int = 1031;
const SIGCONT: c_int = 18;
const SIGSTOP: c_int = 19;

unsafe extern "C" {
    fn fcntl(fd: c_int, command: c_int, ...) -> c_int;
    safe fn kill(id: c_int, signal: c_int) -> c_int;
}

/// A pipe of one page, the least that there is.
fn shrink(pipe: &PipeReader) {
    // SAFETY: the command takes one int, and touches no memory of ours.
    let size = unsafe { fcntl(pipe.as_raw_fd(), F_SETPIPE_SZ, 4096 as c_int) };
    assert!(size > 0, "a pipe of one page");
}

fn stop_and_resume(id: u32) {
    for signal in [SIGSTOP, SIGCONT] {
        assert_eq!(kill(id as c_int, signal), 0, "its own child");
    }
}
