//! Runs scripts of a Raft host by the written rules, plainly and without proofs: a yardstick.

mod envelope;
mod group;
mod log;
mod machine;
mod object;
mod proposal;
mod replica;
mod requests;
mod run;
mod script;
mod sessions;
mod voters;

use run::{Run, Stop};
use std::env;
use std::ffi::OsString;
use std::io::{self, BufRead, ErrorKind, Write};
use std::process::ExitCode;

const DONE: u8 = 0;
const USAGE: u8 = 2;
const BAD_LINE: u8 = 3;
const READ_FAULT: u8 = 4;
const WRITE_FAULT: u8 = 5;
const LIMIT: u8 = 7;

fn main() -> ExitCode {
    let words: Vec<OsString> = env::args_os().skip(1).collect();
    let mut output = io::stdout().lock();
    let status = if words == ["run"] {
        stream(&mut io::stdin().lock(), &mut output)
    } else {
        match put(&mut output, b"usage\n") {
            Ok(()) => USAGE,
            Err(_) => WRITE_FAULT,
        }
    };
    ExitCode::from(status)
}

/// Takes the input piece by piece. What the whole lines of a piece print is written before the
/// next piece is taken.
fn stream(input: &mut impl BufRead, output: &mut impl Write) -> u8 {
    let mut run = Run::new();
    loop {
        let piece = match input.fill_buf() {
            Ok(piece) => piece,
            Err(fault) if fault.kind() == ErrorKind::Interrupted => continue,
            Err(_) => return READ_FAULT,
        };
        let taken = piece.len();
        let stop = if taken == 0 {
            run.finish()
        } else {
            run.feed(piece)
        };
        input.consume(taken);
        if put(output, run.printed()).is_err() {
            return WRITE_FAULT;
        }
        run.clear_printed();
        match stop {
            Ok(()) => {}
            Err(Stop::End) => return DONE,
            Err(Stop::BadLine) => return BAD_LINE,
            Err(Stop::Limit(_)) => return LIMIT,
        }
    }
}

fn put(output: &mut impl Write, bytes: &[u8]) -> io::Result<()> {
    output.write_all(bytes)?;
    output.flush()
}
