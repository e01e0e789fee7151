//! A plain program for the market, without proofs and on one thread: the yardstick for `market run`.
//!
//! It reads a cluster file from standard input, runs its market by messages up and down the tree, keeps the journal of the
//! moves in memory, and prints the report, all as `market run` does. With the word `read` it stops once the plan is made.
//! It is written as one writes such a program at once: running sums, and no allocation in a move. The status is 0 if the
//! text was written, and 1 if the file is refused; of refusals it tells no more.
//!
//!     rustc -O --edition 2021 bench/plain/plain.rs

mod cluster;
mod device;
mod json;
mod plan;
mod program;
mod rounds;

use cluster::Cluster;
use plan::Plan;
use std::process::ExitCode;

fn text_of(plan: &Plan, only_read: bool) -> String {
    if only_read {
        let (phases, nodes) = (plan.phases.len(), plan.nodes.len() - 1);
        return format!("phases {phases} nodes {nodes}\n");
    }
    let mut cluster = Cluster::new(plan);
    cluster.run();
    cluster.into_report()
}

fn main() -> ExitCode {
    let only_read = std::env::args().nth(1).is_some_and(|word| word == "read");
    program::answer(|plan| text_of(plan, only_read))
}
