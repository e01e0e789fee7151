//! The market on one thread: in rounds of all bids, a clearing and all prices, until nothing waits.

use crate::cluster::{fill_demand, Cluster, Link};
use crate::plan::{Event, Part, Phase, What};

impl Cluster<'_> {
    /// Runs all phases.
    pub fn run(&mut self) {
        let plan = self.plan;
        for phase in &plan.phases {
            self.make_changes(phase);
            while !self.is_idle() {
                self.send_bids();
                self.clear();
                self.pass_prices();
            }
            self.close();
        }
    }

    fn make_changes(&mut self, phase: &Phase) {
        match phase {
            Phase::Events(events) => {
                for Event { device, what } in events {
                    let now = self.devices[*device].as_ref().unwrap();
                    match what {
                        What::Join => self.make_change(*device, true, now.state),
                        What::Leave => self.make_change(*device, false, now.state),
                        What::Set(state) => self.make_change(*device, now.member, *state),
                    }
                }
            }
            Phase::Tick(minutes) => {
                for (number, node) in self.plan.nodes.iter().enumerate() {
                    let Part::Device { kind, .. } = &node.part else {
                        continue;
                    };
                    let now = self.devices[number].as_ref().unwrap();
                    if now.member && kind.ticks() {
                        let state = kind.after_tick(now.state, now.power, *minutes);
                        self.make_change(number, true, state);
                    }
                }
            }
        }
    }

    fn make_change(&mut self, number: usize, member: bool, state: i64) {
        let demand = &mut self.links[number].demand;
        fill_demand(self.plan, number, member, state, demand);
        self.change(number, member, state);
    }

    /// Whether nothing waits on a link, and no parent has something to send.
    fn is_idle(&self) -> bool {
        let waits = |link: &Link| link.bid.is_some() || link.price.is_some();
        !self.links.iter().any(waits) && !self.parents.iter().flatten().any(|parent| parent.changed)
    }

    /// Each concentrator publishes, and each parent learns what its children sent. A parent stands before its children.
    fn send_bids(&mut self) {
        for node in (1..self.plan.nodes.len()).rev() {
            self.publish(node);
            self.learn(node);
        }
    }

    /// Each node takes the price that waits for it. A parent stands before its children.
    fn pass_prices(&mut self) {
        for node in 1..self.plan.nodes.len() {
            self.pass(node);
        }
    }
}
