//! The market: bids go up the tree and prices down it, by messages on links, as `docs/PROTOCOL.md` has it.
//!
//! Here are its moves; in which order they are made is the caller's choice.

use crate::plan::{Part, Plan};
use std::fmt::Write;
use std::hint::black_box;

/// One move of the run.
#[derive(Clone, Copy)]
#[allow(
    dead_code,
    reason = "the journal is kept, and no text of this program shows it"
)]
pub enum Move {
    Change { device: u32, number: u32 },
    Learn { child: u32, number: u32 },
    Publish { node: u32, number: u32 },
    Clear { index: u32 },
    Pass { node: u32, index: u32 },
    Close { phase: u32 },
}

/// A move and, after a price was passed to a device, the step and the number that the device then holds.
pub struct Line {
    pub what: Move,
    pub held: Option<(u32, u32)>,
}

const _: () = assert!(size_of::<Line>() == 24);

/// The number of a bid, and whether its sender is gone.
#[derive(Clone, Copy)]
pub struct Head {
    number: u32,
    gone: bool,
}

const NOTHING_SENT: Head = Head {
    number: 0,
    gone: true,
};

/// The price at a step of a clearing, with the number of the bid that it answers.
#[derive(Clone, Copy)]
pub struct Price {
    step: usize,
    number: u32,
    pub index: u32,
}

/// The link between a node and its parent: the newest bid and the newest price, until they are taken.
pub struct Link {
    pub bid: Option<Head>,
    pub demand: Vec<i64>,
    pub price: Option<Price>,
}

/// What a concentrator sent under a number: the heads of its children, and if it is limited the sum of their bids.
struct Record {
    heads: Vec<Head>,
    sum: Vec<i64>,
}

const WINDOW: u32 = 8;

/// The auctioneer or a concentrator.
pub struct Parent {
    /// The newest bids of the children, and their sum.
    heads: Vec<Head>,
    demands: Vec<Vec<i64>>,
    sum: Vec<i64>,
    /// Whether something was learnt that was not sent.
    pub changed: bool,
    /// The number of the newest bid, or of the newest clearing.
    pub last: u32,
    /// The number of its own that the last price names, and the records of this one and those after it.
    answered: u32,
    records: Vec<Record>,
}

pub struct Device {
    pub count: u32,
    pub member: bool,
    pub state: i64,
    /// The number of the join that began the membership.
    joined: u32,
    /// The price that was passed to it last.
    pub given: Option<Price>,
    /// The power at the end of the phase closed last.
    pub power: i64,
}

pub struct Cluster<'p> {
    pub plan: &'p Plan,
    /// By the nodes; the auctioneer's own link stays empty.
    pub links: Vec<Link>,
    pub parents: Vec<Option<Parent>>,
    pub devices: Vec<Option<Device>>,
    /// The step of the last clearing.
    step: usize,
    pub closed: u32,
    journal: Vec<Line>,
    report: String,
}

impl Parent {
    fn new(children: usize, steps: usize, records: usize, is_limited: bool) -> Parent {
        let record = || Record {
            heads: vec![NOTHING_SENT; children],
            sum: vec![0; if is_limited { steps } else { 0 }],
        };
        Parent {
            heads: vec![NOTHING_SENT; children],
            demands: vec![vec![0; steps]; children],
            sum: vec![0; steps],
            changed: false,
            last: 0,
            answered: 0,
            records: (0..records).map(|_| record()).collect(),
        }
    }

    /// Whether a concentrator has something to send and room for its record.
    pub fn may_publish(&self) -> bool {
        self.changed && self.last - self.answered < WINDOW
    }

    /// Takes the bid in the place of the one before, which is then in its place.
    fn learn(&mut self, place: usize, head: Head, demand: &mut Vec<i64>) {
        for ((sum, old), new) in self.sum.iter_mut().zip(&self.demands[place]).zip(&*demand) {
            *sum += new - old;
        }
        std::mem::swap(&mut self.demands[place], demand);
        self.heads[place] = head;
        self.changed = true;
    }
}

impl Device {
    /// The price that it holds: no price of a former membership.
    fn held(&self) -> Option<Price> {
        self.given
            .filter(|price| self.member && price.number >= self.joined)
    }
}

impl<'p> Cluster<'p> {
    pub fn new(plan: &'p Plan) -> Cluster<'p> {
        let link = || Link {
            bid: None,
            demand: vec![0; plan.steps],
            price: None,
        };
        let mut cluster = Cluster {
            plan,
            links: plan.nodes.iter().map(|_| link()).collect(),
            parents: Vec::new(),
            devices: Vec::new(),
            step: 0,
            closed: 0,
            journal: Vec::with_capacity(plan.bound()),
            report: String::new(),
        };
        for (number, node) in plan.nodes.iter().enumerate() {
            let (parent, device) = match node.part {
                Part::Parent { limits } => {
                    let records = if number == 0 { 0 } else { WINDOW as usize + 1 };
                    (
                        Some(Parent::new(
                            node.children.len(),
                            plan.steps,
                            records,
                            limits.is_some(),
                        )),
                        None,
                    )
                }
                Part::Device { start, .. } => (
                    None,
                    Some(Device {
                        count: 0,
                        member: false,
                        state: start,
                        joined: 0,
                        given: None,
                        power: 0,
                    }),
                ),
            };
            cluster.parents.push(parent);
            cluster.devices.push(device);
        }
        cluster
    }

    /// A device makes its next change, and offers the bid that lies in its link.
    pub fn change(&mut self, number: usize, member: bool, state: i64) {
        let device = self.devices[number].as_mut().unwrap();
        device.count += 1;
        if member && !device.member {
            device.joined = device.count;
        }
        (device.member, device.state) = (member, state);
        let count = device.count;
        self.links[number].bid = Some(Head {
            number: count,
            gone: !member,
        });
        self.note(
            Move::Change {
                device: number as u32,
                number: count,
            },
            None,
        );
    }

    fn note(&mut self, what: Move, held: Option<(u32, u32)>) {
        self.journal.push(Line { what, held });
    }

    /// A concentrator publishes if it may.
    pub fn publish(&mut self, node: usize) {
        let Some(parent) = &mut self.parents[node] else {
            return;
        };
        if !parent.may_publish() {
            return;
        }
        parent.changed = false;
        parent.last += 1;
        let record = &mut parent.records[(parent.last % (WINDOW + 1)) as usize];
        record.heads.copy_from_slice(&parent.heads);
        let link = &mut self.links[node];
        link.bid = Some(Head {
            number: parent.last,
            gone: false,
        });
        link.demand.copy_from_slice(&parent.sum);
        if let Part::Parent {
            limits: Some((floor, ceiling)),
        } = self.plan.nodes[node].part
        {
            record.sum.copy_from_slice(&parent.sum);
            link.demand
                .iter_mut()
                .for_each(|demand| *demand = (*demand).clamp(floor, ceiling));
        }
        let number = parent.last;
        self.note(
            Move::Publish {
                node: node as u32,
                number,
            },
            None,
        );
    }

    /// A parent learns the bid of a child if one waits.
    pub fn learn(&mut self, child: usize) {
        let node = &self.plan.nodes[child];
        let link = &mut self.links[child];
        let Some(head) = link.bid.take() else { return };
        let parent = self.parents[node.parent].as_mut().unwrap();
        parent.learn(node.place, head, &mut link.demand);
        self.note(
            Move::Learn {
                child: child as u32,
                number: head.number,
            },
            None,
        );
    }

    /// The auctioneer clears if it has something to clear: at the first step at which the sum is not positive.
    pub fn clear(&mut self) {
        let parent = self.parents[0].as_mut().unwrap();
        if !parent.changed {
            return;
        }
        parent.changed = false;
        parent.last += 1;
        self.step = parent
            .sum
            .iter()
            .position(|sum| *sum <= 0)
            .unwrap_or(self.plan.steps - 1);
        let index = parent.last;
        offer_prices(
            &mut self.links,
            &self.plan.nodes[0].children,
            &parent.heads,
            self.step,
            index,
        );
        self.note(Move::Clear { index }, None);
    }

    /// A node takes the price if one waits for it, and a concentrator passes it on.
    pub fn pass(&mut self, number: usize) {
        let Some(price) = self.links[number].price.take() else {
            return;
        };
        let mut held = None;
        if let Some(device) = &mut self.devices[number] {
            device.given = Some(price);
            held = device.held().map(|price| (price.step as u32, price.number));
        }
        if let Some(parent) = &mut self.parents[number] {
            parent.answered = price.number;
            let node = &self.plan.nodes[number];
            let record = &parent.records[(price.number % (WINDOW + 1)) as usize];
            let step = match node.part {
                Part::Parent {
                    limits: Some(limits),
                } => local_step(limits, &record.sum, price.step),
                _ => price.step,
            };
            offer_prices(
                &mut self.links,
                &node.children,
                &record.heads,
                step,
                price.index,
            );
        }
        self.note(
            Move::Pass {
                node: number as u32,
                index: price.index,
            },
            held,
        );
    }

    /// Closes the phase: each device keeps its power, and the report gets its lines.
    pub fn close(&mut self) {
        let plan = self.plan;
        self.closed += 1;
        let total = self.parents[0].as_ref().unwrap().sum[self.step];
        let members = self
            .devices
            .iter()
            .flatten()
            .filter(|device| device.member)
            .count();
        let (phase, price, step) = (self.closed, plan.price(self.step), self.step);
        let _ = writeln!(
            self.report,
            "phase {phase} price {price} step {step} total {total} members {members}"
        );
        for (number, node) in plan.nodes.iter().enumerate() {
            let Some(device) = &mut self.devices[number] else {
                continue;
            };
            let entry = &self.parents[node.parent].as_ref().unwrap().demands[node.place];
            device.power = device.held().map_or(0, |price| entry[price.step]);
            if device.member {
                let _ = writeln!(
                    self.report,
                    "member {} power {} bid {}",
                    node.name, device.power, device.count
                );
            }
        }
        for (number, node) in plan.nodes.iter().enumerate() {
            let Part::Parent {
                limits: Some(limits),
            } = node.part
            else {
                continue;
            };
            let sum = &self.parents[number].as_ref().unwrap().sum;
            let step = local_step(limits, sum, self.step);
            let (price, total) = (plan.price(step), sum[step]);
            let _ = writeln!(
                self.report,
                "limited {} price {price} step {step} total {total}",
                node.name
            );
        }
        self.note(Move::Close { phase }, None);
    }

    /// Ends the report, and gives it.
    pub fn into_report(mut self) -> String {
        let (phases, changes) = (self.plan.phases.len(), self.plan.changes);
        let _ = writeln!(self.report, "end phases {phases} changes {changes}");
        // The journal is kept, though no text of this program shows it.
        for line in &black_box(&self.journal)[self.journal.len().saturating_sub(1)..] {
            black_box((line.what, line.held));
        }
        self.report
    }
}

/// Writes the bid of a device: nothing is its demand once it is gone.
pub fn fill_demand(plan: &Plan, number: usize, member: bool, state: i64, demand: &mut [i64]) {
    let Part::Device { kind, .. } = &plan.nodes[number].part else {
        unreachable!()
    };
    if member {
        kind.fill_bid(state, &plan.arrays, demand);
    } else {
        demand.fill(0);
    }
}

/// Offers a price to each child that is not gone, with the child's number.
fn offer_prices(links: &mut [Link], children: &[usize], heads: &[Head], step: usize, index: u32) {
    for (child, head) in children.iter().zip(heads) {
        if !head.gone {
            links[*child].price = Some(Price {
                step,
                number: head.number,
                index,
            });
        }
    }
}

/// The step of the nodes below a limited concentrator, for a price of this step and the sum of its children's bids.
fn local_step((floor, ceiling): (i64, i64), sum: &[i64], step: usize) -> usize {
    if sum[step] > ceiling {
        sum.iter()
            .position(|sum| *sum <= ceiling)
            .unwrap_or(sum.len() - 1)
    } else if sum[step] < floor {
        sum.iter().rposition(|sum| *sum >= floor).unwrap_or(0)
    } else {
        step
    }
}
