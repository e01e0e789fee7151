//! The threads: one for each node. Each sleeps until its node has something to do, and moves.
//!
//! No wake-up is lost. While the lock is free, a node that is noted as asleep has nothing to do. Whoever gives it something strikes
//! the note in the same hold of the lock, and rings the bell once the lock is free. And a thread tests whether it has something to
//! do, and waits at the bell, in one hold.

use crate::board::{Board, Change, Work};
use crate::cluster::fill_demand;
use crate::plan::{Part, Plan};
use crate::schedule::Schedule;
use std::process;
use std::sync::atomic::{AtomicU64, Ordering};
use std::sync::{Condvar, Mutex, MutexGuard};
use std::thread::{self, Builder};

const STACK: usize = 128 * 1024;

/// Where threads sleep, and how often it was rung.
struct Bell {
    sleepers: Condvar,
    rings: AtomicU64,
}

/// What is behind the lock.
struct Desk<'p> {
    board: Board<'p>,
    /// By the nodes, the bell at which a node's thread sleeps, or will if nothing wakes it.
    asleep: Vec<Option<usize>>,
}

struct Shared<'p> {
    plan: &'p Plan,
    /// How often a device near its next work yields the processor before it sleeps.
    yields: usize,
    desk: Mutex<Desk<'p>>,
    /// One for the opening of a phase, then one for each node, then one for each node's children.
    bells: Vec<Bell>,
}

/// What a thread needs. The caller allocates it: the C library makes an arena for a thread that allocates.
struct Own {
    /// The bid that the device works out.
    demand: Vec<i64>,
    /// The bells that are to be rung once the lock is free.
    rings: Vec<usize>,
}

const OPENING: usize = 0;

/// Where a node sleeps, and whether its next work is near, so that its thread yields for a while first.
struct Berth {
    bell: usize,
    is_near: bool,
}

/// Where a device waits for its next work, and how often the bell was rung before.
struct Rest {
    bell: usize,
    rings: u64,
}

/// Runs the plan, and gives the report.
pub fn run(plan: &Plan, yields: usize) -> String {
    let schedule = Schedule::new(plan);
    let nodes = plan.nodes.len();
    let bell = || Bell {
        sleepers: Condvar::new(),
        rings: AtomicU64::new(0),
    };
    let shared = Shared {
        plan,
        yields,
        desk: Mutex::new(Desk {
            board: Board::new(plan, &schedule),
            asleep: vec![None; nodes],
        }),
        bells: (0..1 + 2 * nodes).map(|_| bell()).collect(),
    };
    let mut owns: Vec<Own> = (0..nodes).map(|node| shared.own(node)).collect();
    let (devices, parents): (Vec<_>, Vec<_>) = owns
        .iter_mut()
        .enumerate()
        .partition(|(node, _)| shared.is_device(*node));
    thread::scope(|scope| {
        // The devices begin, and a parent comes behind its children, so that there is something to do for it.
        for (node, own) in devices.into_iter().chain(parents.into_iter().rev()) {
            let shared = &shared;
            let thread = Builder::new().stack_size(STACK);
            if thread
                .spawn_scoped(scope, move || shared.serve(node, own))
                .is_err()
            {
                process::exit(1);
            }
        }
    });
    shared
        .desk
        .into_inner()
        .unwrap()
        .board
        .cluster
        .into_report()
}

impl<'p> Shared<'p> {
    fn own(&self, node: usize) -> Own {
        let steps = if self.is_device(node) {
            self.plan.steps
        } else {
            0
        };
        Own {
            demand: vec![0; steps],
            rings: Vec::with_capacity(self.plan.nodes.len()),
        }
    }

    fn is_device(&self, node: usize) -> bool {
        matches!(self.plan.nodes[node].part, Part::Device { .. })
    }

    fn lock(&self) -> MutexGuard<'_, Desk<'p>> {
        self.desk.lock().unwrap()
    }

    /// Makes the moves of a node, one in each hold of the lock, until it never has one again.
    fn serve(&self, node: usize, own: &mut Own) {
        let mut next: Option<Change> = None;
        loop {
            let mut desk;
            if let Some(change) = next.take() {
                let demand = &mut own.demand;
                fill_demand(self.plan, node, change.member, change.state, demand);
                desk = self.lock();
                desk.board.change(node, change, demand);
            } else {
                desk = self.await_work(node);
                desk.board.turn(node);
            }
            next = desk.board.next_change(node);
            desk.wake(&mut own.rings);
            let has_work = desk.board.work(node) != Work::Nothing;
            let is_over = !has_work && desk.board.is_over(node);
            let rest = if has_work || is_over {
                None
            } else {
                self.rest(&mut desk, node)
            };
            drop(desk);
            self.ring(&mut own.rings);
            if is_over {
                return;
            }
            if let Some(rest) = rest {
                self.yield_at(&rest);
            }
        }
    }

    /// Sleeps until a node has something to do, or never has again.
    fn await_work(&self, node: usize) -> MutexGuard<'_, Desk<'p>> {
        let mut desk = self.lock();
        while desk.board.work(node) == Work::Nothing && !desk.board.is_over(node) {
            let bell = self.berth_of(&desk.board, node).bell;
            desk.asleep[node] = Some(bell);
            desk = self.bells[bell].sleepers.wait(desk).unwrap();
        }
        desk.asleep[node] = None;
        desk
    }

    /// Where a node without work sleeps: a device at the bell of those that wait for the same thing.
    ///
    /// A device is near its next work if it awaits the price of a phase in which it changes, or the opening of such a phase. Another
    /// one has a whole phase to wait, and so has a parent, which waits for all its children. Before the first phase is closed
    /// nobody is near, since threads are still being started.
    fn berth_of(&self, board: &Board, node: usize) -> Berth {
        let nodes = self.plan.nodes.len();
        let (own, prices) = (1 + node, 1 + nodes + self.plan.nodes[node].parent);
        let has_begun = board.closed() > 0;
        let (bell, is_near) = if !self.is_device(node) {
            (own, false)
        } else if board.awaits_price(node) {
            (prices, has_begun && board.changes_now(node))
        } else if board.changes_next(node) {
            (OPENING, has_begun)
        } else if board.is_member(node) {
            (prices, false)
        } else {
            (own, false)
        };
        Berth { bell, is_near }
    }

    /// Notes a device near its next work as asleep, though its thread yields first.
    fn rest(&self, desk: &mut Desk, node: usize) -> Option<Rest> {
        let Berth { bell, is_near } = self.berth_of(&desk.board, node);
        if !is_near {
            return None;
        }
        desk.asleep[node] = Some(bell);
        let rings = self.bells[bell].rings.load(Ordering::Relaxed);
        Some(Rest { bell, rings })
    }

    /// Yields the processor for a while, as long as the bell is not rung.
    fn yield_at(&self, rest: &Rest) {
        let rings = &self.bells[rest.bell].rings;
        for _ in 0..self.yields {
            if rings.load(Ordering::Relaxed) != rest.rings {
                return;
            }
            thread::yield_now();
        }
    }

    fn ring(&self, rings: &mut Vec<usize>) {
        for number in rings.drain(..) {
            let bell = &self.bells[number];
            bell.rings.fetch_add(1, Ordering::Relaxed);
            bell.sleepers.notify_all();
        }
    }
}

impl Desk<'_> {
    /// Strikes the notes of those that got something to do, and once the run is done of all, and lists their bells.
    fn wake(&mut self, rings: &mut Vec<usize>) {
        let mut strike = |asleep: &mut Option<usize>| {
            if let Some(bell) = asleep.take() {
                if !rings.contains(&bell) {
                    rings.push(bell);
                }
            }
        };
        for node in self.board.woken.drain(..) {
            strike(&mut self.asleep[node]);
        }
        if self.board.is_done() {
            self.asleep.iter_mut().for_each(strike);
        }
    }
}
