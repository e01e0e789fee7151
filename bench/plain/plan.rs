//! The plan that a cluster file gives. It says of a file only that it is refused, and not why.

use crate::device::{Kind, POWER};
use crate::json::{parse, Value};
use std::collections::HashMap;

pub struct Plan {
    pub min: i64,
    pub max: i64,
    pub steps: usize,
    /// By their numbers, the auctioneer first.
    pub nodes: Vec<Node>,
    /// The bids of the manual devices.
    pub arrays: Vec<Vec<i64>>,
    pub phases: Vec<Phase>,
    /// How many changes the run has.
    pub changes: usize,
}

pub struct Node {
    pub name: String,
    pub parent: usize,
    pub part: Part,
    /// The children of a parent, in the order of the file.
    pub children: Vec<usize>,
    /// The node's place among its parent's children.
    pub place: usize,
}

pub enum Part {
    /// The auctioneer or a concentrator, with its floor and ceiling if it has them.
    Parent {
        limits: Option<(i64, i64)>,
    },
    Device {
        kind: Kind,
        start: i64,
    },
}

pub enum Phase {
    Events(Vec<Event>),
    /// The minutes.
    Tick(i64),
}

pub struct Event {
    pub device: usize,
    pub what: What,
}

pub enum What {
    Join,
    Leave,
    /// The new state.
    Set(i64),
}

const MOST_NODES: usize = 256;
const MOST_PHASES: usize = 1000;
const MOST_EVENTS: usize = 4096;
const MOST_CHANGES: usize = 20_000;
const MOST_POINTS: usize = 64;
const MOST_CONCENTRATORS: usize = 6;
const SUM: i64 = 256_000_000_000;

impl Plan {
    /// The price of a step.
    pub fn price(&self, step: usize) -> i64 {
        self.min + step as i64 * ((self.max - self.min) / (self.steps as i64 - 1))
    }

    /// The most moves that a run can have.
    pub fn bound(&self) -> usize {
        self.changes * (self.nodes.len() - 1 + 15) + self.phases.len()
    }
}

/// The plan of a cluster file; no plan if the file is refused.
pub fn read(text: &str) -> Option<Plan> {
    let file = parse(text)?;
    require(file.has_exactly(&["version", "basis", "nodes", "phases"]))?;
    let version = file.get("version")?.whole()?;
    require(version == 1 || version == 2)?;
    let mut plan = read_basis(file.get("basis")?)?;
    let mut numbers = HashMap::from([("auctioneer".to_string(), 0)]);
    let nodes = file.get("nodes")?.list()?;
    require(nodes.len() <= MOST_NODES)?;
    for node in nodes {
        read_node(&mut plan, &mut numbers, version, node)?;
    }
    let phases = file.get("phases")?.list()?;
    require(phases.len() <= MOST_PHASES)?;
    let mut joined = vec![false; plan.nodes.len()];
    for phase in phases {
        read_phase(&mut plan, &numbers, &mut joined, phase)?;
    }
    Some(plan)
}

fn require(holds: bool) -> Option<()> {
    holds.then_some(())
}

fn read_basis(basis: &Value) -> Option<Plan> {
    require(basis.has_exactly(&["min", "max", "steps"]))?;
    let (min, max, steps) = (
        basis.get("min")?.whole()?,
        basis.get("max")?.whole()?,
        basis.get("steps")?.whole()?,
    );
    require(
        (2..=1000).contains(&steps)
            && -POWER <= min
            && min < max
            && max <= POWER
            && (max - min) % (steps - 1) == 0,
    )?;
    let part = Part::Parent { limits: None };
    let auctioneer = Node {
        name: "auctioneer".to_string(),
        parent: 0,
        part,
        children: Vec::new(),
        place: 0,
    };
    let steps = steps as usize;
    Some(Plan {
        min,
        max,
        steps,
        nodes: vec![auctioneer],
        arrays: Vec::new(),
        phases: Vec::new(),
        changes: 0,
    })
}

fn read_node(
    plan: &mut Plan,
    numbers: &mut HashMap<String, usize>,
    version: i64,
    node: &Value,
) -> Option<()> {
    let name = node.get("name")?.text()?.to_string();
    require(is_name(&name))?;
    let part = read_part(plan, version, node)?;
    let parent = match node.get("parent") {
        Some(parent) => *numbers.get(parent.text()?)?,
        None => 0,
    };
    let is_limited = matches!(part, Part::Parent { limits: Some(_) });
    let mut concentrators = matches!(part, Part::Parent { .. }) as usize;
    let mut above = parent;
    require(matches!(plan.nodes[above].part, Part::Parent { .. }))?;
    while above > 0 {
        require(
            !(is_limited && matches!(plan.nodes[above].part, Part::Parent { limits: Some(_) })),
        )?;
        concentrators += 1;
        above = plan.nodes[above].parent;
    }
    require(concentrators <= MOST_CONCENTRATORS)?;
    let number = plan.nodes.len();
    require(numbers.insert(name.clone(), number).is_none())?;
    let place = plan.nodes[parent].children.len();
    plan.nodes[parent].children.push(number);
    plan.nodes.push(Node {
        name,
        parent,
        part,
        children: Vec::new(),
        place,
    });
    Some(())
}

fn is_name(name: &str) -> bool {
    let first = name.as_bytes().first().is_some_and(u8::is_ascii_alphabetic);
    first
        && name.len() <= 32
        && name
            .bytes()
            .all(|byte| byte.is_ascii_alphanumeric() || byte == b'_' || byte == b'-')
}

/// What a node is, by its kind and the members of that.
fn read_part(plan: &mut Plan, version: i64, node: &Value) -> Option<Part> {
    // The whole numbers of a node with exactly the named members beside its name, kind and parent.
    let numbers = |names: &[&str]| -> Option<Vec<i64>> {
        require(node.has_exactly(&[&["name", "kind", "parent"], names].concat()))?;
        names.iter().map(|name| node.get(name)?.whole()).collect()
    };
    let (kind, start) = match node.get("kind")?.text()? {
        "concentrator" => {
            numbers(&[])?;
            return Some(Part::Parent { limits: None });
        }
        "limited" if version == 2 => {
            let it = numbers(&["floor", "ceiling"])?;
            require((-SUM..=0).contains(&it[0]) && (0..=SUM).contains(&it[1]))?;
            return Some(Part::Parent {
                limits: Some((it[0], it[1])),
            });
        }
        "freezer" => {
            let it = numbers(&["low", "high", "power", "warm", "cool", "start"])?;
            (
                Kind::Freezer {
                    low: it[0],
                    high: it[1],
                    power: it[2],
                    warm: it[3],
                    cool: it[4],
                },
                it[5],
            )
        }
        "heat_pump" => {
            let it = numbers(&["low", "high", "power", "loss", "gain", "start"])?;
            (
                Kind::Pump {
                    low: it[0],
                    high: it[1],
                    power: it[2],
                    loss: it[3],
                    gain: it[4],
                },
                it[5],
            )
        }
        "cogeneration" => {
            let it = numbers(&["low", "high", "power", "loss", "gain", "start"])?;
            (
                Kind::Unit {
                    low: it[0],
                    high: it[1],
                    power: it[2],
                    loss: it[3],
                    gain: it[4],
                },
                it[5],
            )
        }
        "battery" => {
            let it = numbers(&["capacity", "charge", "discharge", "spread", "start"])?;
            (
                Kind::Battery {
                    capacity: it[0],
                    charge: it[1],
                    discharge: it[2],
                    spread: it[3],
                },
                it[4],
            )
        }
        "solar" => (Kind::Solar, numbers(&["start"])?[0]),
        "load" => (Kind::Load, numbers(&["start"])?[0]),
        "objective" => {
            require(node.has_exactly(&["name", "kind", "start"]))?;
            (Kind::Objective, node.get("start")?.whole()?)
        }
        "manual" => {
            let word = if node.get("demand").is_some() {
                "demand"
            } else {
                "points"
            };
            require(node.has_exactly(&["name", "kind", "parent", word]))?;
            (Kind::Manual, read_array(plan, word, node.get(word)?)?)
        }
        _ => return None,
    };
    require(kind.is_valid() && kind.fits(start))?;
    Some(Part::Device { kind, start })
}

/// Adds the array of a manual device to those of the plan, and gives its number.
fn read_array(plan: &mut Plan, word: &str, value: &Value) -> Option<i64> {
    let demands = if word == "demand" {
        read_demands(plan, value)?
    } else {
        read_points(plan, value)?
    };
    plan.arrays.push(demands);
    Some(plan.arrays.len() as i64 - 1)
}

fn read_demands(plan: &Plan, value: &Value) -> Option<Vec<i64>> {
    let demands: Vec<i64> = value
        .list()?
        .iter()
        .map(Value::whole)
        .collect::<Option<_>>()?;
    let falls = demands.windows(2).all(|pair| pair[0] >= pair[1]);
    require(
        demands.len() == plan.steps
            && falls
            && demands
                .iter()
                .all(|demand| (-POWER..=POWER).contains(demand)),
    )?;
    Some(demands)
}

/// The array of a point bid: straight lines between the points, rounded down.
fn read_points(plan: &Plan, value: &Value) -> Option<Vec<i64>> {
    let mut points = Vec::new();
    for point in value.list()? {
        let [price, demand] = point.list()? else {
            return None;
        };
        points.push((price.whole()?, demand.whole()?));
    }
    require((1..=MOST_POINTS).contains(&points.len()))?;
    require(
        points
            .windows(2)
            .all(|pair| pair[0].0 <= pair[1].0 && pair[0].1 >= pair[1].1),
    )?;
    require(
        points
            .iter()
            .all(|it| (plan.min..=plan.max).contains(&it.0) && (-POWER..=POWER).contains(&it.1)),
    )?;
    Some(
        (0..plan.steps)
            .map(|step| demand_at(&points, plan.price(step)))
            .collect(),
    )
}

fn demand_at(points: &[(i64, i64)], price: i64) -> i64 {
    let Some(at) = points.iter().rposition(|point| point.0 <= price) else {
        return points[0].1;
    };
    let (here, demand) = points[at];
    match points.get(at + 1) {
        None => demand,
        Some((there, next)) => demand + ((next - demand) * (price - here)).div_euclid(there - here),
    }
}

fn read_phase(
    plan: &mut Plan,
    numbers: &HashMap<String, usize>,
    joined: &mut [bool],
    phase: &Value,
) -> Option<()> {
    if let Some(events) = phase.get("events") {
        require(phase.has_exactly(&["events"]))?;
        let events = events.list()?;
        require(events.len() <= MOST_EVENTS)?;
        let mut list = Vec::with_capacity(events.len());
        for event in events {
            list.push(read_event(plan, numbers, joined, event)?);
        }
        plan.changes += list.len();
        plan.phases.push(Phase::Events(list));
    } else {
        require(phase.has_exactly(&["tick"]))?;
        let minutes = phase.get("tick")?.whole()?;
        require((1..=1440).contains(&minutes))?;
        let ticks = |node: &Node| matches!(&node.part, Part::Device { kind, .. } if kind.ticks());
        plan.changes += plan
            .nodes
            .iter()
            .zip(&*joined)
            .filter(|(node, joined)| **joined && ticks(node))
            .count();
        plan.phases.push(Phase::Tick(minutes));
    }
    require(plan.changes <= MOST_CHANGES)
}

fn read_event(
    plan: &mut Plan,
    numbers: &HashMap<String, usize>,
    joined: &mut [bool],
    event: &Value,
) -> Option<Event> {
    let word = ["join", "leave", "state"]
        .into_iter()
        .find(|word| event.get(word).is_some())?;
    let device = *numbers.get(event.get(word)?.text()?)?;
    let Part::Device { kind, .. } = &plan.nodes[device].part else {
        return None;
    };
    require(joined[device] == (word != "join"))?;
    if word != "state" {
        require(event.has_exactly(&[word]))?;
        joined[device] = word == "join";
        return Some(Event {
            device,
            what: if word == "join" {
                What::Join
            } else {
                What::Leave
            },
        });
    }
    let form = ["value", "demand", "points"]
        .into_iter()
        .find(|form| event.get(form).is_some())?;
    require(event.has_exactly(&["state", form]))?;
    let value = event.get(form)?;
    let is_manual = matches!(kind, Kind::Manual);
    require(is_manual == (form != "value"))?;
    let state = if is_manual {
        read_array(plan, form, value)?
    } else {
        value.whole().filter(|state| kind.fits(*state))?
    };
    Some(Event {
        device,
        what: What::Set(state),
    })
}
