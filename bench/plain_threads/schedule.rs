//! The changes of a plan by devices, so that each thread finds its own.

use crate::plan::{Event, Part, Phase, Plan, What};

/// A change of a device.
#[derive(Clone, Copy)]
pub enum Planned {
    Join,
    Leave,
    /// The new state.
    Set(i64),
    /// The minutes.
    Tick(i64),
}

/// A device that changes in a phase, and how often it does.
#[derive(Clone, Copy)]
pub struct Changer {
    pub device: usize,
    pub changes: u32,
}

pub struct Schedule {
    /// By the nodes, the changes of a device in their order.
    pub changes: Vec<Vec<Planned>>,
    /// By the phases, the devices that change, with rising numbers.
    pub phases: Vec<Vec<Changer>>,
}

impl Schedule {
    pub fn new(plan: &Plan) -> Schedule {
        let nodes = plan.nodes.len();
        let mut changes = vec![Vec::new(); nodes];
        let mut joined = vec![false; nodes];
        let mut phases = Vec::with_capacity(plan.phases.len());
        let mut before = vec![0; nodes];
        for phase in &plan.phases {
            add_changes(plan, phase, &mut joined, &mut changes);
            let mut changers = Vec::new();
            for (device, list) in changes.iter().enumerate() {
                if list.len() > before[device] {
                    let changes = (list.len() - before[device]) as u32;
                    changers.push(Changer { device, changes });
                    before[device] = list.len();
                }
            }
            phases.push(changers);
        }
        Schedule { changes, phases }
    }

    /// Whether a device changes in a phase; no device does behind the last one.
    pub fn has_changes(&self, phase: usize, device: usize) -> bool {
        self.phases
            .get(phase)
            .is_some_and(|it| it.binary_search_by_key(&device, |it| it.device).is_ok())
    }
}

/// Adds the changes of a phase. A tick changes the members of the kinds that tick.
fn add_changes(plan: &Plan, phase: &Phase, joined: &mut [bool], changes: &mut [Vec<Planned>]) {
    match phase {
        Phase::Events(events) => {
            for Event { device, what } in events {
                changes[*device].push(match what {
                    What::Join => Planned::Join,
                    What::Leave => Planned::Leave,
                    What::Set(state) => Planned::Set(*state),
                });
                match what {
                    What::Join => joined[*device] = true,
                    What::Leave => joined[*device] = false,
                    What::Set(_) => {}
                }
            }
        }
        Phase::Tick(minutes) => {
            for (device, node) in plan.nodes.iter().enumerate() {
                let ticks = matches!(&node.part, Part::Device { kind, .. } if kind.ticks());
                if ticks && joined[device] {
                    changes[device].push(Planned::Tick(*minutes));
                }
            }
        }
    }
}
