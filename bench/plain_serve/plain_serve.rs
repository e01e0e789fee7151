//! A plain program that answers a stream of bids, without proofs: the yardstick for `market serve`.
//!
//! It reads the frames of `docs/SERVE.md` from standard input and writes their answers as they come, with a running sum of the
//! bids. It is written as one writes such a program at once. The statuses are those of `market serve`.
//!
//!     rustc -O --edition 2021 bench/plain_serve/plain_serve.rs

use std::collections::BTreeMap;
use std::io::{Read, Write};
use std::process::ExitCode;

const LIMIT: u64 = 1_073_741_824;
const PIECE: usize = 65_536;
const CHILDREN: u16 = 256;
const MOST: i32 = 1_000_000_000;
const MOST_STEPS: u16 = 1_000;
const READ_FAULT: u8 = 3;
const TOO_LONG: u8 = 4;
const REFUSED: u8 = 5;
const WRITE_FAULT: u8 = 6;

enum Frame {
    Hello { steps: usize },
    Bid { child: u16, number: u32, demands: Vec<i32> },
    Gone { child: u16, number: u32 },
    Clear,
}

/// Bytes that are no frame: the stream has no answers from here on.
struct Bad;

fn u16_at(data: &[u8], at: usize) -> u16 {
    u16::from_be_bytes([data[at], data[at + 1]])
}

fn u32_at(data: &[u8], at: usize) -> u32 {
    u32::from_be_bytes([data[at], data[at + 1], data[at + 2], data[at + 3]])
}

fn i32_at(data: &[u8], at: usize) -> i32 {
    u32_at(data, at) as i32
}

/// The frame at the front of the data and its length; no frame if more bytes are needed. Steps are 0 before a hello.
fn frame(data: &[u8], steps: usize) -> Result<Option<(Frame, usize)>, Bad> {
    let Some(kind) = data.first() else {
        return Ok(None);
    };
    let size = match (kind, steps) {
        (1, 0) => 11,
        (2, 1..) => 7 + 4 * steps,
        (3, 1..) => 7,
        (4, 1..) => 1,
        _ => return Err(Bad),
    };
    if data.len() < size {
        return Ok(None);
    }
    let frame = match kind {
        1 => hello(data)?,
        2 => bid(data, steps)?,
        3 => {
            let (child, number) = sender(data)?;
            Frame::Gone { child, number }
        }
        _ => Frame::Clear,
    };
    Ok(Some((frame, size)))
}

fn hello(data: &[u8]) -> Result<Frame, Bad> {
    let (least, greatest, steps) = (i32_at(data, 1), i32_at(data, 5), u16_at(data, 9));
    let fits = (2..=MOST_STEPS).contains(&steps) && -MOST <= least && least < greatest && greatest <= MOST;
    if !fits || (greatest as i64 - least as i64) % (steps as i64 - 1) != 0 {
        return Err(Bad);
    }
    Ok(Frame::Hello { steps: steps as usize })
}

fn sender(data: &[u8]) -> Result<(u16, u32), Bad> {
    let (child, number) = (u16_at(data, 1), u32_at(data, 3));
    if !(1..=CHILDREN).contains(&child) || number == 0 {
        return Err(Bad);
    }
    Ok((child, number))
}

fn bid(data: &[u8], steps: usize) -> Result<Frame, Bad> {
    let (child, number) = sender(data)?;
    let demands: Vec<i32> = (0..steps).map(|step| i32_at(data, 7 + 4 * step)).collect();
    let falls = demands.windows(2).all(|two| two[0] >= two[1]);
    if !falls || demands.iter().any(|demand| !(-MOST..=MOST).contains(demand)) {
        return Err(Bad);
    }
    Ok(Frame::Bid { child, number, demands })
}

#[derive(Default)]
struct Market {
    /// The newest number of each child, with its bid if it has not gone.
    children: BTreeMap<u16, (u32, Option<Vec<i32>>)>,
    total: Vec<i64>,
    changed: bool,
    index: u32,
}

impl Market {
    fn steps(&self) -> usize {
        self.total.len()
    }

    /// Takes a frame, and appends its answers.
    fn take(&mut self, frame: Frame, out: &mut Vec<u8>) {
        match frame {
            Frame::Hello { steps } => self.total = vec![0; steps],
            Frame::Bid { child, number, demands } => self.learn(child, number, Some(demands), out),
            Frame::Gone { child, number } => self.learn(child, number, None, out),
            Frame::Clear => self.clear(out),
        }
    }

    fn learn(&mut self, child: u16, number: u32, demands: Option<Vec<i32>>, out: &mut Vec<u8>) {
        let entry = self.children.entry(child).or_default();
        if number <= entry.0 {
            out.push(7);
            out.extend(child.to_be_bytes());
            out.extend(entry.0.to_be_bytes());
            return;
        }
        for (sum, demand) in self.total.iter_mut().zip(entry.1.iter().flatten()) {
            *sum -= *demand as i64;
        }
        for (sum, demand) in self.total.iter_mut().zip(demands.iter().flatten()) {
            *sum += *demand as i64;
        }
        *entry = (number, demands);
        self.changed = true;
    }

    fn clear(&mut self, out: &mut Vec<u8>) {
        if !self.changed {
            out.push(6);
            return;
        }
        self.changed = false;
        self.index += 1;
        let step = self.total.iter().position(|sum| *sum <= 0).unwrap_or(self.steps() - 1) as u16;
        for (child, (number, demands)) in &self.children {
            if demands.is_some() {
                out.push(5);
                out.extend(child.to_be_bytes());
                out.extend(number.to_be_bytes());
                out.extend(self.index.to_be_bytes());
                out.extend(step.to_be_bytes());
            }
        }
    }
}

/// Takes the whole frames of what was read, and tells how many bytes they have and whether a bad one follows.
fn take_all(data: &[u8], market: &mut Market, out: &mut Vec<u8>) -> (usize, bool) {
    let mut at = 0;
    loop {
        match frame(&data[at..], market.steps()) {
            Ok(Some((frame, size))) => {
                market.take(frame, out);
                at += size;
            }
            Ok(None) => return (at, false),
            Err(Bad) => return (at, true),
        }
    }
}

fn serve(mut input: impl Read, mut output: impl Write) -> u8 {
    let (mut market, mut kept, mut piece) = (Market::default(), Vec::new(), vec![0; PIECE]);
    let (mut taken, mut before) = (0u64, 0u64);
    loop {
        let Ok(read) = input.read(&mut piece) else {
            return READ_FAULT;
        };
        taken += read as u64;
        kept.extend_from_slice(&piece[..read]);
        let mut out = Vec::new();
        let (whole, bad) = take_all(&kept, &mut market, &mut out);
        kept.drain(..whole);
        before += whole as u64;
        let bad = bad || (read == 0 && !kept.is_empty());
        if bad {
            out.push(8);
            out.extend(before.to_be_bytes());
        }
        if output.write_all(&out).and_then(|()| output.flush()).is_err() {
            return WRITE_FAULT;
        }
        if bad {
            return REFUSED;
        }
        if taken > LIMIT {
            return TOO_LONG;
        }
        if read == 0 {
            return 0;
        }
    }
}

fn main() -> ExitCode {
    ExitCode::from(serve(std::io::stdin().lock(), std::io::stdout().lock()))
}
