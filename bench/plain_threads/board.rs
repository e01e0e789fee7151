//! What is behind the lock: the cluster, and which node has something to do.
//!
//! A phase goes up the tree once and down once. A parent learns and sends only when each child that changes in the phase, or has
//! such a device below it, has sent its bid. So the auctioneer clears each phase with changes exactly once, and no price and no
//! bid is offered on a link on which one waits, except the bids of a device that changes more than once. All that a thread asks
//! is found without a search through the nodes.

use crate::cluster::Cluster;
use crate::plan::{Part, Plan};
use crate::schedule::{Planned, Schedule};
use std::mem;

/// What a node has to do.
#[derive(Clone, Copy, PartialEq)]
pub enum Work {
    Nothing,
    /// Makes its next change.
    Change,
    /// Learns a bid that waits.
    Learn,
    /// Publishes or clears.
    Send,
    /// Takes the price that waits.
    Pass,
    /// Closes the open phase: the node whose move left nothing to be done.
    Close,
}

/// What a device is after its next change.
pub struct Change {
    pub member: bool,
    pub state: i64,
}

/// What a node still has to do in the open phase.
struct Duty {
    /// How many changes a device has made when the phase is over.
    due: u32,
    /// How many children of a parent still owe it a bid.
    below: usize,
    /// The children whose bid waits.
    waiting: Vec<usize>,
}

pub struct Board<'p> {
    plan: &'p Plan,
    schedule: &'p Schedule,
    pub cluster: Cluster<'p>,
    duties: Vec<Duty>,
    /// What is still to go up in the open phase: the changes that are left, the bids that wait, and the parents that have something
    /// to send.
    rising: usize,
    /// The prices that wait.
    falling: usize,
    /// The node that moved last.
    mover: usize,
    /// The first phase behind the open one that has changes, or the number of phases.
    next: usize,
    /// The nodes to which the moves since this list was emptied gave something to do.
    pub woken: Vec<usize>,
}

impl<'p> Board<'p> {
    /// A board whose first phase is open; phases without changes at the beginning are closed.
    pub fn new(plan: &'p Plan, schedule: &'p Schedule) -> Board<'p> {
        let duty = |children| Duty {
            due: 0,
            below: 0,
            waiting: Vec::with_capacity(children),
        };
        let nodes = plan.nodes.iter();
        let mut board = Board {
            plan,
            schedule,
            cluster: Cluster::new(plan),
            duties: nodes.map(|node| duty(node.children.len())).collect(),
            rising: 0,
            falling: 0,
            mover: 0,
            next: 0,
            woken: Vec::with_capacity(2 * plan.nodes.len()),
        };
        board.open();
        while board.may_close() {
            board.close();
        }
        board.woken.clear();
        board
    }

    pub fn is_done(&self) -> bool {
        self.closed() == self.plan.phases.len()
    }

    /// How many phases are closed, which is also the place of the open one.
    pub fn closed(&self) -> usize {
        self.cluster.closed as usize
    }

    fn may_close(&self) -> bool {
        self.rising == 0 && self.falling == 0 && !self.is_done()
    }

    /// Gives the devices their changes of the phase that opens, and marks the path from each to the auctioneer.
    fn open(&mut self) {
        let (open, phases) = (self.closed(), &self.schedule.phases);
        self.next = self.next.max(open + 1).min(phases.len());
        while self.next < phases.len() && phases[self.next].is_empty() {
            self.next += 1;
        }
        for changer in phases.get(open).into_iter().flatten() {
            self.duties[changer.device].due += changer.changes;
            self.rising += changer.changes as usize;
            self.woken.push(changer.device);
            let mut node = changer.device;
            while node > 0 {
                node = self.plan.nodes[node].parent;
                self.duties[node].below += 1;
                if self.duties[node].below > 1 {
                    break;
                }
            }
        }
    }

    pub fn work(&self, node: usize) -> Work {
        let duty = &self.duties[node];
        if self.cluster.links[node].price.is_some() {
            return Work::Pass;
        }
        if let Some(device) = &self.cluster.devices[node] {
            if device.count < duty.due {
                return Work::Change;
            }
        }
        if let Some(parent) = &self.cluster.parents[node] {
            if duty.below == 0 && !duty.waiting.is_empty() {
                return Work::Learn;
            }
            if duty.below == 0 && (parent.may_publish() || node == 0 && parent.changed) {
                return Work::Send;
            }
        }
        if self.mover == node && self.may_close() {
            return Work::Close;
        }
        Work::Nothing
    }

    /// Whether a node without work never gets any again: no change is left in the run, all is cleared, and no price is on its way
    /// to the node.
    pub fn is_over(&self, node: usize) -> bool {
        if self.is_done() {
            return true;
        }
        if self.rising > 0 || self.next < self.schedule.phases.len() {
            return false;
        }
        let mut above = node;
        while above > 0 {
            if self.cluster.links[above].price.is_some() {
                return false;
            }
            above = self.plan.nodes[above].parent;
        }
        true
    }

    /// The next change of a device that has one to make.
    pub fn next_change(&self, node: usize) -> Option<Change> {
        if self.work(node) != Work::Change {
            return None;
        }
        let Part::Device { kind, .. } = &self.plan.nodes[node].part else {
            return None;
        };
        let now = self.cluster.devices[node].as_ref()?;
        let (mut member, mut state) = (now.member, now.state);
        match self.schedule.changes[node][now.count as usize] {
            Planned::Join => member = true,
            Planned::Leave => member = false,
            Planned::Set(new) => state = new,
            Planned::Tick(minutes) => state = kind.after_tick(state, now.power, minutes),
        }
        Some(Change { member, state })
    }

    /// A device makes the change that was read, and its bid takes the place of an older one, which it is given back.
    pub fn change(&mut self, node: usize, change: Change, demand: &mut Vec<i64>) {
        self.mover = node;
        self.rising -= 1;
        mem::swap(&mut self.cluster.links[node].demand, demand);
        self.await_learn(node);
        self.cluster.change(node, change.member, change.state);
        let count = self.cluster.devices[node].as_ref().map(|it| it.count);
        if count == Some(self.duties[node].due) {
            self.settle(node);
        }
    }

    /// A node makes its next move, if it has another one than a change.
    pub fn turn(&mut self, node: usize) {
        match self.work(node) {
            Work::Nothing | Work::Change => return,
            Work::Learn => self.learn(node),
            Work::Send if node == 0 => self.clear(),
            Work::Send => self.publish(node),
            Work::Pass => self.pass(node),
            Work::Close => self.close(),
        }
        self.mover = node;
    }

    fn learn(&mut self, node: usize) {
        let Some(child) = self.duties[node].waiting.pop() else {
            return;
        };
        let had_changed = self.has_changed(node);
        self.cluster.learn(child);
        // A parent that has something to send takes the place of the bid.
        if had_changed {
            self.rising -= 1;
        }
    }

    fn publish(&mut self, node: usize) {
        self.rising -= 1;
        self.await_learn(node);
        self.cluster.publish(node);
        self.settle(node);
    }

    fn clear(&mut self) {
        self.rising -= 1;
        self.cluster.clear();
        self.address(0);
    }

    fn pass(&mut self, node: usize) {
        self.falling -= 1;
        self.cluster.pass(node);
        self.address(node);
    }

    fn close(&mut self) {
        self.cluster.close();
        self.open();
    }

    fn has_changed(&self, node: usize) -> bool {
        self.cluster.parents[node]
            .as_ref()
            .is_some_and(|parent| parent.changed)
    }

    /// The parent is to learn the bid that the node is about to offer, if none waits yet.
    fn await_learn(&mut self, node: usize) {
        if self.cluster.links[node].bid.is_none() {
            self.rising += 1;
            self.duties[self.plan.nodes[node].parent].waiting.push(node);
        }
    }

    /// A node owes its parent no more, which wakes the parent if no other child owes it anything.
    fn settle(&mut self, node: usize) {
        let parent = self.plan.nodes[node].parent;
        self.duties[parent].below -= 1;
        if self.duties[parent].below == 0 {
            self.woken.push(parent);
        }
    }

    /// Wakes the children to which a price was offered. None of them had one before.
    fn address(&mut self, node: usize) {
        for child in &self.plan.nodes[node].children {
            if self.cluster.links[*child].price.is_some() {
                self.falling += 1;
                self.woken.push(*child);
            }
        }
    }

    /// Whether a device is a member to which no price has come since the open phase began to change.
    pub fn awaits_price(&self, node: usize) -> bool {
        let Some(device) = &self.cluster.devices[node] else {
            return false;
        };
        let has_changes = self
            .schedule
            .phases
            .get(self.closed())
            .is_some_and(|it| !it.is_empty());
        let last = self.cluster.parents[0]
            .as_ref()
            .map(|auctioneer| auctioneer.last);
        let has_come = self.rising == 0 && device.given.map(|price| price.index) == last;
        device.member && has_changes && !has_come
    }

    pub fn is_member(&self, node: usize) -> bool {
        self.cluster.devices[node]
            .as_ref()
            .is_some_and(|device| device.member)
    }

    /// Whether a device changes in the open phase.
    pub fn changes_now(&self, node: usize) -> bool {
        self.schedule.has_changes(self.closed(), node)
    }

    /// Whether a device changes in the next phase in which any does.
    pub fn changes_next(&self, node: usize) -> bool {
        self.schedule.has_changes(self.next, node)
    }
}
