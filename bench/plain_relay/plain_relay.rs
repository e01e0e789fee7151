//! A plain program that is a relay of a market, without proofs: the yardstick for `market relay`.
//!
//! It reads the frames of `docs/RELAY.md` from standard input and writes their answers as they come. It keeps one running sum of the
//! bids, and makes no allocation for a frame. The statuses are those of the page, except that no status tells that memory ran out.
//!
//!     rustc -O --edition 2021 bench/plain_relay/plain_relay.rs
//!     plain_relay CHILD FLOOR CEILING [GIVER]

mod frames;
mod relay;

use frames::{write_fault, Bad, Command, Frame, Limits, Reader, CHILDREN, LONGEST, MOST};
use relay::Relay;
use std::fs::File;
use std::io::{self, Read, Write};
use std::ops::RangeInclusive;
use std::os::fd::AsFd;
use std::process::ExitCode;

const LIMIT: u64 = 1_073_741_824;
/// How many bytes one read asks for.
const PIECE: usize = 65_536;

const USAGE: u8 = 2;
const READ_FAULT: u8 = 3;
const TOO_LONG: u8 = 4;
const REFUSED: u8 = 5;
const WRITE_FAULT: u8 = 6;
const NO_TEXT: u8 = 8;

/// The number that a word is in decimal digits without a leading zero, if it is in the range.
fn number_of(word: &str, range: RangeInclusive<i64>) -> Option<i64> {
    let number: i64 = word.parse().ok()?;
    (range.contains(&number) && number.to_string() == word).then_some(number)
}

fn command_of(words: &[String]) -> Option<Command> {
    let [child, floor, ceiling, giver @ ..] = words else {
        return None;
    };
    let place = |word: &String| number_of(word, 1..=CHILDREN as i64).map(|number| number as u16);
    Some(Command {
        child: place(child)?,
        limits: Limits {
            floor: number_of(floor, -i64::from(MOST)..=0)? as i32,
            ceiling: number_of(ceiling, 0..=i64::from(MOST))? as i32,
        },
        giver: match giver {
            [] => 0,
            [word] => place(word)?,
            _ => return None,
        },
    })
}

/// The relay that a stream is for, once it has read Hello.
struct Service {
    command: Command,
    reader: Reader,
    relay: Option<Relay>,
}

impl Service {
    fn new(command: Command) -> Service {
        Service { reader: Reader::new(command), command, relay: None }
    }

    /// Takes the whole frames of the data and appends their answers. It tells how many bytes they have, and whether a bad one follows.
    fn take_all(&mut self, data: &[u8], out: &mut Vec<u8>) -> (usize, bool) {
        let mut at = 0;
        loop {
            match self.reader.frame(&data[at..]) {
                Ok(Some((frame, size))) => {
                    at += size;
                    match (&mut self.relay, frame) {
                        (Some(relay), frame) => relay.take(frame, out),
                        (None, Frame::Hello(basis)) => self.relay = Some(Relay::new(self.command, basis)),
                        (None, _) => unreachable!("Hello is the first frame"),
                    }
                }
                Ok(None) => return (at, false),
                Err(Bad) => return (at, true),
            }
        }
    }
}

/// Answers the stream, and gives the exit status.
fn serve(mut service: Service, mut input: impl Read, mut output: impl Write) -> u8 {
    let (mut buffer, mut out) = (vec![0; LONGEST + PIECE], Vec::new());
    // How many bytes of the buffer belong to no whole frame, how many bytes were read, and how many of them whole frames have.
    let (mut kept, mut taken, mut before) = (0, 0u64, 0u64);
    loop {
        let Ok(read) = input.read(&mut buffer[kept..kept + PIECE]) else {
            return READ_FAULT;
        };
        taken += read as u64;
        let filled = kept + read;
        let (whole, bad) = service.take_all(&buffer[..filled], &mut out);
        buffer.copy_within(whole..filled, 0);
        kept = filled - whole;
        before += whole as u64;
        let bad = bad || (read == 0 && kept > 0);
        if bad {
            write_fault(before, &mut out);
        }
        if output.write_all(&out).is_err() {
            return WRITE_FAULT;
        }
        out.clear();
        if bad {
            return REFUSED;
        }
        if taken > LIMIT {
            return TOO_LONG;
        }
        if read == 0 {
            return 0;
        }
    }
}

/// Standard input and output without buffers of their own.
fn standard() -> io::Result<(File, File)> {
    let input = io::stdin().as_fd().try_clone_to_owned()?;
    let output = io::stdout().as_fd().try_clone_to_owned()?;
    Ok((File::from(input), File::from(output)))
}

fn main() -> ExitCode {
    let words: Result<Vec<String>, _> = std::env::args_os().skip(1).map(|word| word.into_string()).collect();
    let Ok(words) = words else {
        return ExitCode::from(NO_TEXT);
    };
    let Some(command) = command_of(&words) else {
        let told = writeln!(io::stdout(), "usage: plain_relay CHILD FLOOR CEILING [GIVER]");
        return ExitCode::from(if told.is_ok() { USAGE } else { WRITE_FAULT });
    };
    match standard() {
        Ok((input, output)) => ExitCode::from(serve(Service::new(command), input, output)),
        Err(_) => ExitCode::from(READ_FAULT),
    }
}
