//! The frames of a relay: how they are read from bytes, and written.

/// How many children a relay may have.
pub const CHILDREN: usize = 256;
/// How many bytes the longest frame has: a bid of 1000 steps.
pub const LONGEST: usize = 7 + 4 * 1_000;
/// The greatest power in watts, and the greatest price.
pub const MOST: i32 = 1_000_000_000;

const HELLO: u8 = 1;
const BID: u8 = 2;
const GONE: u8 = 3;
const NOT_CHANGED: u8 = 6;
const OLD: u8 = 7;
const FAULT: u8 = 8;
const SEND: u8 = 9;
const WINDOW_FULL: u8 = 10;
const DROPPED: u8 = 11;
const NOT_CAUGHT_UP: u8 = 17;
const OUT_OF_NUMBERS: u8 = 18;
const EXPIRE: u8 = 19;
const LIMITS: u8 = 20;
const BOUND: u8 = 21;
const TOO_MUCH: u8 = 22;
const PRICE: u8 = 23;
const OTHER_BASIS: u8 = 24;
const RESUME: u8 = 25;
const OUT_OF_LIMITS: u8 = 27;

/// How many bytes a Resume has before the numbers of the children.
const RESUME_HEAD: usize = 41;

/// A frame that a relay reads. The place of a child counts from 0.
pub enum Frame<'a> {
    Hello(Basis),
    Resume(Resume),
    Bid { place: usize, number: u32, demands: &'a [i32] },
    Gone { place: usize, number: u32 },
    Expire { place: usize },
    Limits { number: u32, limits: Limits },
    Bound { place: usize, bound: Limits },
    Send,
    Price(Price),
    OtherBasis(Price),
    Old,
}

/// The least price, the greatest price and the number of steps.
#[derive(Clone, Copy, PartialEq, Eq)]
pub struct Basis {
    pub least: i32,
    pub greatest: i32,
    pub steps: u16,
}

/// A floor and a ceiling in watts, of a relay or of the bids of a child.
#[derive(Clone, Copy, PartialEq, Eq)]
pub struct Limits {
    pub floor: i32,
    pub ceiling: i32,
}

/// The arguments of a relay: its own number at its parent, its first limits, and the place in which others are given, from 1 on, or 0.
#[derive(Clone, Copy)]
pub struct Command {
    pub child: u16,
    pub limits: Limits,
    pub giver: u16,
}

/// What a relay keeps over a restart, beside its basis and its arguments. The limits are those of its newest bid.
pub struct Resume {
    pub last: u32,
    pub answered: u32,
    pub index: u32,
    pub limits: Limits,
    pub numbers: [u32; CHILDREN],
}

/// A price of the parent: the number of the bid that it answers, the index of the clearing, and the step.
#[derive(Clone, Copy)]
pub struct Price {
    pub number: u32,
    pub index: u32,
    pub step: u16,
}

/// Bytes that are no frame: the stream has no answers from here on.
pub struct Bad;

/// How far the stream is: before Hello, directly behind it, or further.
enum Stage {
    Start,
    Opened,
    Running,
}

/// Reads the frames of the stream to a relay.
pub struct Reader {
    command: Command,
    basis: Basis,
    stage: Stage,
    /// The demands of the bid that was read last, one for each step of the basis.
    demands: Vec<i32>,
}

impl Reader {
    pub fn new(command: Command) -> Reader {
        Reader { command, basis: Basis { least: 0, greatest: 0, steps: 0 }, stage: Stage::Start, demands: Vec::new() }
    }

    /// The frame at the front of the data, and its length; no frame if more bytes are needed.
    pub fn frame(&mut self, data: &[u8]) -> Result<Option<(Frame<'_>, usize)>, Bad> {
        let Some(&kind) = data.first() else {
            return Ok(None);
        };
        let size = self.size(kind)?;
        if data.len() < size {
            return Ok(None);
        }
        if let Stage::Opened = self.stage {
            self.stage = Stage::Running;
        }
        Ok(Some((self.fields(kind, &data[1..size])?, size)))
    }

    /// How many bytes a frame of this kind has.
    fn size(&self, kind: u8) -> Result<usize, Bad> {
        match (&self.stage, kind) {
            (Stage::Start, HELLO) => Ok(11),
            (Stage::Start, _) => Err(Bad),
            (Stage::Opened, RESUME) => Ok(RESUME_HEAD + 4 * CHILDREN),
            (_, BID) => Ok(7 + 4 * self.demands.len()),
            (_, GONE | OLD) => Ok(7),
            (_, PRICE) => Ok(23),
            (_, EXPIRE) => Ok(3),
            (_, LIMITS) if self.command.giver > 0 => Ok(13),
            (_, BOUND) => Ok(11),
            (_, SEND) => Ok(1),
            _ => Err(Bad),
        }
    }

    /// The frame of this kind with these fields.
    fn fields(&mut self, kind: u8, body: &[u8]) -> Result<Frame<'_>, Bad> {
        match kind {
            HELLO => self.hello(body),
            RESUME => self.resume(body),
            BID => self.bid(body),
            GONE => Ok(Frame::Gone { place: self.place(body)?, number: above_0(u32_at(body, 2))? }),
            EXPIRE => Ok(Frame::Expire { place: self.place(body)? }),
            LIMITS => match u32_at(body, 0) {
                0 => Err(Bad),
                number if number % 2 == 1 => Err(Bad),
                number => Ok(Frame::Limits { number, limits: limits(body, 4)? }),
            },
            BOUND => Ok(Frame::Bound { place: self.place(body)?, bound: limits(body, 2)? }),
            PRICE => self.price(body),
            OLD if u16_at(body, 0) == self.command.child => Ok(Frame::Old),
            SEND => Ok(Frame::Send),
            _ => Err(Bad),
        }
    }

    fn hello(&mut self, body: &[u8]) -> Result<Frame<'_>, Bad> {
        self.basis = basis(body, 0)?;
        self.stage = Stage::Opened;
        self.demands = vec![0; usize::from(self.basis.steps)];
        Ok(Frame::Hello(self.basis))
    }

    fn bid(&mut self, body: &[u8]) -> Result<Frame<'_>, Bad> {
        let (place, number) = (self.place(body)?, above_0(u32_at(body, 2))?);
        for (demand, bytes) in self.demands.iter_mut().zip(body[6..].chunks_exact(4)) {
            *demand = i32::from_be_bytes([bytes[0], bytes[1], bytes[2], bytes[3]]);
        }
        let demands = &self.demands;
        // No demand rises, so the first is the greatest and the last the least.
        let rises = demands.windows(2).fold(false, |rises, two| rises | (two[0] < two[1]));
        if rises || demands[0] > MOST || demands[demands.len() - 1] < -MOST {
            return Err(Bad);
        }
        Ok(Frame::Bid { place, number, demands })
    }

    fn price(&self, body: &[u8]) -> Result<Frame<'_>, Bad> {
        let price = Price { number: above_0(u32_at(body, 2))?, index: u32_at(body, 6), step: u16_at(body, 10) };
        let basis = basis(body, 12)?;
        if u16_at(body, 0) != self.command.child || price.step >= basis.steps {
            return Err(Bad);
        }
        Ok(if basis == self.basis { Frame::Price(price) } else { Frame::OtherBasis(price) })
    }

    fn resume(&self, body: &[u8]) -> Result<Frame<'static>, Bad> {
        let (last, answered, index) = (u32_at(body, 0), u32_at(body, 4), u32_at(body, 8));
        let is_same = limits(body, 22)? == self.command.limits && u16_at(body, 30) == self.command.giver;
        if answered > last || !is_same || basis(body, 12)? != self.basis {
            return Err(Bad);
        }
        let numbers = std::array::from_fn(|place| u32_at(body, 40 + 4 * place));
        Ok(Frame::Resume(Resume { last, answered, index, limits: limits(body, 32)?, numbers }))
    }

    /// The place of the child that a frame names first. In the place in which limits are given there is no child.
    fn place(&self, body: &[u8]) -> Result<usize, Bad> {
        let child = u16_at(body, 0);
        if !(1..=CHILDREN).contains(&usize::from(child)) || child == self.command.giver {
            return Err(Bad);
        }
        Ok(usize::from(child) - 1)
    }
}

fn above_0(number: u32) -> Result<u32, Bad> {
    if number == 0 { Err(Bad) } else { Ok(number) }
}

/// Limits that a relay may have, at this place of the fields of a frame.
fn limits(body: &[u8], at: usize) -> Result<Limits, Bad> {
    let (floor, ceiling) = (i32_at(body, at), i32_at(body, at + 4));
    if !(-MOST..=0).contains(&floor) || !(0..=MOST).contains(&ceiling) {
        return Err(Bad);
    }
    Ok(Limits { floor, ceiling })
}

/// The basis at this place of the fields of a frame.
fn basis(body: &[u8], at: usize) -> Result<Basis, Bad> {
    let (least, greatest, steps) = (i32_at(body, at), i32_at(body, at + 4), u16_at(body, at + 8));
    let fits = (2..=1_000).contains(&steps) && -MOST <= least && least < greatest && greatest <= MOST;
    if !fits || (i64::from(greatest) - i64::from(least)) % (i64::from(steps) - 1) != 0 {
        return Err(Bad);
    }
    Ok(Basis { least, greatest, steps })
}

fn u16_at(body: &[u8], at: usize) -> u16 {
    u16::from_be_bytes([body[at], body[at + 1]])
}

fn u32_at(body: &[u8], at: usize) -> u32 {
    u32::from_be_bytes([body[at], body[at + 1], body[at + 2], body[at + 3]])
}

fn i32_at(body: &[u8], at: usize) -> i32 {
    u32_at(body, at) as i32
}

/// The number by which a frame names the child in a place.
fn child_in(place: usize) -> [u8; 2] {
    (place as u16 + 1).to_be_bytes()
}

pub fn write_bid(child: u16, number: u32, demands: impl ExactSizeIterator<Item = i32>, out: &mut Vec<u8>) {
    out.push(BID);
    out.extend_from_slice(&child.to_be_bytes());
    out.extend_from_slice(&number.to_be_bytes());
    write_words(demands.map(i32::to_be_bytes), out);
}

/// The price for the child in a place, by the number of its bid.
pub fn write_price(place: usize, price: Price, basis: Basis, out: &mut Vec<u8>) {
    let (child, step) = (child_in(place), price.step.to_be_bytes());
    let (number, index) = (price.number.to_be_bytes(), price.index.to_be_bytes());
    let mut bytes = [PRICE; 23];
    bytes[1..3].copy_from_slice(&child);
    bytes[3..7].copy_from_slice(&number);
    bytes[7..11].copy_from_slice(&index);
    bytes[11..13].copy_from_slice(&step);
    bytes[13..].copy_from_slice(&basis_bytes(basis));
    out.extend_from_slice(&bytes);
}

/// The receipt for a bid of the child in a place that is not newer than the kept one.
pub fn write_old(place: usize, kept: u32, out: &mut Vec<u8>) {
    out.push(OLD);
    out.extend_from_slice(&child_in(place));
    out.extend_from_slice(&kept.to_be_bytes());
}

pub fn write_dropped(price: Price, out: &mut Vec<u8>) {
    out.push(DROPPED);
    out.extend_from_slice(&price.number.to_be_bytes());
    out.extend_from_slice(&price.index.to_be_bytes());
}

fn basis_bytes(basis: Basis) -> [u8; 10] {
    let mut bytes = [0; 10];
    bytes[..4].copy_from_slice(&basis.least.to_be_bytes());
    bytes[4..8].copy_from_slice(&basis.greatest.to_be_bytes());
    bytes[8..].copy_from_slice(&basis.steps.to_be_bytes());
    bytes
}

/// The answer to a bid of the child in a place that is beyond its bound.
pub fn write_too_much(place: usize, number: u32, out: &mut Vec<u8>) {
    out.push(TOO_MUCH);
    out.extend_from_slice(&child_in(place));
    out.extend_from_slice(&number.to_be_bytes());
}

pub fn write_other_basis(price: Price, out: &mut Vec<u8>) {
    out.push(OTHER_BASIS);
    out.extend_from_slice(&price.number.to_be_bytes());
    out.extend_from_slice(&price.index.to_be_bytes());
}

pub fn write_out_of_limits(number: u32, out: &mut Vec<u8>) {
    out.push(OUT_OF_LIMITS);
    out.extend_from_slice(&number.to_be_bytes());
}

pub fn write_resume(resume: &Resume, basis: Basis, command: &Command, out: &mut Vec<u8>) {
    out.push(RESUME);
    let numbers = [resume.last, resume.answered, resume.index];
    write_words(numbers.into_iter().map(u32::to_be_bytes), out);
    out.extend_from_slice(&basis_bytes(basis));
    let Command { limits: given, giver, .. } = command;
    write_words([given.floor, given.ceiling].into_iter().map(i32::to_be_bytes), out);
    out.extend_from_slice(&giver.to_be_bytes());
    write_words([resume.limits.floor, resume.limits.ceiling].into_iter().map(i32::to_be_bytes), out);
    write_words(resume.numbers.iter().map(|number| number.to_be_bytes()), out);
}

pub fn write_fault(offset: u64, out: &mut Vec<u8>) {
    out.push(FAULT);
    out.extend_from_slice(&offset.to_be_bytes());
}

pub fn write_not_changed(out: &mut Vec<u8>) {
    out.push(NOT_CHANGED);
}

pub fn write_window_full(out: &mut Vec<u8>) {
    out.push(WINDOW_FULL);
}

pub fn write_not_caught_up(out: &mut Vec<u8>) {
    out.push(NOT_CAUGHT_UP);
}

pub fn write_out_of_numbers(out: &mut Vec<u8>) {
    out.push(OUT_OF_NUMBERS);
}

fn write_words(words: impl ExactSizeIterator<Item = [u8; 4]>, out: &mut Vec<u8>) {
    let begin = out.len();
    out.resize(begin + 4 * words.len(), 0);
    for (bytes, word) in out[begin..].chunks_exact_mut(4).zip(words) {
        bytes.copy_from_slice(&word);
    }
}
