//! A relay: it adds up the bids of its children, bids the sum to its parent, and passes prices down.

use crate::frames::{
    write_bid, write_dropped, write_not_caught_up, write_not_changed, write_old, write_other_basis, write_out_of_limits,
    write_out_of_numbers, write_price, write_resume, write_too_much, write_window_full, Basis, Command, Frame, Limits, Price, Resume,
    CHILDREN, MOST,
};

/// How many numbers may be unanswered.
const WINDOW: u32 = 8;

/// The greatest number heard of a child, and whether the child is gone with it.
#[derive(Clone, Copy)]
struct Head {
    number: u32,
    gone: bool,
}

/// What a child may bid that has no bound.
const UNBOUND: Limits = Limits { floor: -MOST, ceiling: MOST };

const NOTHING_HEARD: Head = Head { number: 0, gone: true };

/// What went into a bid of the relay: the heads of its children, the sum of their bids, and the limits.
struct Record {
    number: u32,
    heads: [Head; CHILDREN],
    total: Vec<i64>,
    limits: Limits,
}

pub struct Relay {
    command: Command,
    basis: Basis,
    /// The limits of the next bid, and of each child what it may bid.
    limits: Limits,
    bounds: [Limits; CHILDREN],
    heads: [Head; CHILDREN],
    /// The demands that count of each child, child by child, and their running sum.
    demands: Vec<i32>,
    total: Vec<i64>,
    /// What is kept over a restart: the last bid with the children's numbers in it, and the price taken last.
    kept: Resume,
    /// The record of a number is in the place of its remainder. A record that there is not has number 0.
    records: Vec<Record>,
    /// Whether something counted since the last bid.
    has_news: bool,
    /// Whether a restart lost the record of the last bid.
    is_lost: bool,
    waiting: Option<Price>,
}

impl Relay {
    /// A relay of this basis to which nothing was sent.
    pub fn new(command: Command, basis: Basis) -> Relay {
        let (steps, limits) = (usize::from(basis.steps), command.limits);
        let record = || Record { number: 0, heads: [NOTHING_HEARD; CHILDREN], total: vec![0; steps], limits };
        Relay {
            command,
            basis,
            limits,
            bounds: [UNBOUND; CHILDREN],
            heads: [NOTHING_HEARD; CHILDREN],
            demands: vec![0; CHILDREN * steps],
            total: vec![0; steps],
            kept: Resume { last: 0, answered: 0, index: 0, limits, numbers: [0; CHILDREN] },
            records: (0..=WINDOW).map(|_| record()).collect(),
            has_news: false,
            is_lost: false,
            waiting: None,
        }
    }

    /// Takes a frame behind Hello, and appends its answers.
    pub fn take(&mut self, frame: Frame, out: &mut Vec<u8>) {
        match frame {
            Frame::Resume(kept) => self.come_back(kept, out),
            Frame::Bid { place, number, demands } => {
                let bound = self.bounds[place];
                if demands[0] > bound.ceiling || demands[demands.len() - 1] < bound.floor {
                    write_too_much(place, number, out);
                } else {
                    self.learn(place, number, Some(demands), out);
                }
            }
            Frame::Gone { place, number } => self.learn(place, number, None, out),
            Frame::Expire { place } => {
                let number = self.heads[place].number.max(self.kept.numbers[place]) | 1;
                if number > self.heads[place].number {
                    self.learn(place, number, None, out);
                }
            }
            Frame::Limits { number, limits } => self.take_limits(number, limits, out),
            Frame::Bound { place, bound } => self.bounds[place] = bound,
            Frame::Send => {
                self.send(out);
                self.try_waiting(out);
            }
            Frame::Price(price) => self.take_price(price, out),
            Frame::OtherBasis(price) => write_other_basis(price, out),
            Frame::Hello(_) | Frame::Old => {}
        }
    }

    /// Goes on from what was kept. The limits of the newest bid are given again under their number.
    fn come_back(&mut self, kept: Resume, out: &mut Vec<u8>) {
        self.is_lost = kept.last > 0;
        self.kept = kept;
        let number = match self.command.giver {
            0 => 0,
            giver => self.kept.numbers[usize::from(giver) - 1],
        };
        if number > 0 {
            self.take_limits(number, self.kept.limits, out);
        }
    }

    /// Takes limits, which are heard as a child that is gone.
    fn take_limits(&mut self, number: u32, limits: Limits, out: &mut Vec<u8>) {
        let place = usize::from(self.command.giver) - 1;
        if number > self.heads[place].number {
            self.limits = limits;
        }
        self.learn(place, number, None, out);
    }

    /// Takes a bid of the child in a place, or that it is gone.
    fn learn(&mut self, place: usize, number: u32, demands: Option<&[i32]>, out: &mut Vec<u8>) {
        let head = &mut self.heads[place];
        if number <= head.number {
            write_old(place, head.number, out);
        } else {
            *head = Head { number, gone: demands.is_none() };
            self.has_news = true;
            self.exchange(place, demands);
            self.find_record(out);
        }
        self.try_waiting(out);
    }

    /// Puts a child's demands, or zeros, in the place of those before, in the running sum too.
    fn exchange(&mut self, place: usize, demands: Option<&[i32]>) {
        let steps = self.total.len();
        let before = &mut self.demands[place * steps..][..steps];
        let Some(demands) = demands else {
            for (sum, before) in self.total.iter_mut().zip(before) {
                *sum -= i64::from(*before);
                *before = 0;
            }
            return;
        };
        for ((sum, before), demand) in self.total.iter_mut().zip(before).zip(demands) {
            // Both are within a billion, so the difference fits.
            *sum += i64::from(demand - *before);
            *before = *demand;
        }
    }

    /// The number heard of each child, with its number in the last bid.
    fn heard_and_sent(&self) -> impl Iterator<Item = (u32, u32)> + '_ {
        self.heads.iter().zip(&self.kept.numbers).map(|(head, sent)| (head.number, *sent))
    }

    fn is_caught_up(&self) -> bool {
        self.heard_and_sent().all(|(heard, sent)| heard >= sent)
    }

    /// If what was heard is what went into the last bid, whose record was lost, it is the record again, and the bid is sent again.
    fn find_record(&mut self, out: &mut Vec<u8>) {
        if self.is_lost && self.heard_and_sent().all(|(heard, sent)| heard == sent) {
            self.record();
            self.write_own_bid(out);
        }
    }

    /// Whether the lost record of the last bid may be found again.
    fn may_find_record(&self) -> bool {
        self.is_lost && self.heard_and_sent().all(|(heard, sent)| heard <= sent)
    }

    /// Notes what was heard as what went into the last bid.
    fn record(&mut self) {
        let record = &mut self.records[place_of(self.kept.last)];
        record.number = self.kept.last;
        record.heads = self.heads;
        record.total.copy_from_slice(&self.total);
        record.limits = self.limits;
        self.kept.limits = self.limits;
        for (sent, head) in self.kept.numbers.iter_mut().zip(&self.heads) {
            *sent = head.number;
        }
        self.has_news = false;
        self.is_lost = false;
    }

    /// Sends a bid, or tells why not.
    fn send(&mut self, out: &mut Vec<u8>) {
        if !self.is_caught_up() {
            write_not_caught_up(out);
        } else if !self.has_news {
            write_not_changed(out);
        } else if self.kept.last - self.kept.answered >= WINDOW {
            write_window_full(out);
        } else if self.kept.last == u32::MAX {
            write_out_of_numbers(out);
        } else {
            self.kept.last += 1;
            self.record();
            self.write_resume(out);
            self.write_own_bid(out);
        }
    }

    /// Appends the last bid, whose record is kept.
    fn write_own_bid(&self, out: &mut Vec<u8>) {
        let record = &self.records[place_of(self.kept.last)];
        let (first, last) = steps_within(record);
        let most = i64::from(MOST);
        let demands = (0..record.total.len()).map(|step| record.total[last.min(step).max(first)].clamp(-most, most) as i32);
        write_bid(self.command.child, self.kept.last, demands, out);
        let (floor, ceiling) = (i64::from(record.limits.floor), i64::from(record.limits.ceiling));
        if !(floor..=ceiling).contains(&record.total[first]) {
            write_out_of_limits(self.kept.last, out);
        }
    }

    /// Takes a price of the parent, drops it, or lets it wait.
    fn take_price(&mut self, price: Price, out: &mut Vec<u8>) {
        let may_name = self.kept.answered..=self.kept.last;
        if price.index <= self.kept.index || !may_name.contains(&price.number) {
            write_dropped(price, out);
            return;
        }
        if price.number == self.kept.last && self.may_find_record() {
            self.wait_with(price, out);
            return;
        }
        self.kept.answered = price.number;
        self.kept.index = price.index;
        self.pass_down(price, out);
        self.write_resume(out);
    }

    fn write_resume(&self, out: &mut Vec<u8>) {
        write_resume(&self.kept, self.basis, &self.command, out);
    }

    /// Lets the price with the greater index wait, of two with one index the first, and drops the other.
    fn wait_with(&mut self, price: Price, out: &mut Vec<u8>) {
        match self.waiting {
            Some(first) if first.index >= price.index => write_dropped(price, out),
            Some(first) => {
                self.waiting = Some(price);
                write_dropped(first, out);
            }
            None => self.waiting = Some(price),
        }
    }

    /// Takes the price that waits as if it came now.
    fn try_waiting(&mut self, out: &mut Vec<u8>) {
        if let Some(price) = self.waiting.take() {
            self.take_price(price, out);
        }
    }

    /// Appends the price for each child that was not gone in the record of the price's number, if the record is kept.
    fn pass_down(&self, price: Price, out: &mut Vec<u8>) {
        let record = &self.records[place_of(price.number)];
        if record.number != price.number {
            return;
        }
        let (first, last) = steps_within(record);
        let step = last.min(usize::from(price.step)).max(first) as u16;
        for (place, head) in record.heads.iter().enumerate().filter(|(_, head)| !head.gone) {
            write_price(place, Price { number: head.number, step, ..price }, self.basis, out);
        }
    }
}

/// The first step at which the sum of a record is at most its ceiling, and the last at which it is at least its floor. No sum is above
/// the one before, so the children go by a step between the two, and by the first if the last is before it.
fn steps_within(record: &Record) -> (usize, usize) {
    let (floor, ceiling, total) = (i64::from(record.limits.floor), i64::from(record.limits.ceiling), &record.total);
    let first = total.partition_point(|sum| *sum > ceiling).min(total.len() - 1);
    (first, total.partition_point(|sum| *sum >= floor).saturating_sub(1))
}

/// The place of a number's record: the number answered last and eight later ones have places of their own.
fn place_of(number: u32) -> usize {
    (number % (WINDOW + 1)) as usize
}
