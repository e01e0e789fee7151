//! A plain program for the market, without proofs and with one thread a node: the fair yardstick for `market run`.
//!
//! It reads and prints what the program of `bench/plain` does, and shares its reader, its devices, its moves and its report.
//! But each node has a thread, as in `market run`, and the cluster is behind one lock. The thread of a device near its next work
//! yields the processor up to YIELDS times before it sleeps, 50 if no number is given. The status is 0 if the text was written,
//! and 1 if the file is refused or a thread cannot be started; it tells no more.
//!
//!     rustc -O --edition 2021 bench/plain_threads/plain_threads.rs
//!     plain_threads [YIELDS]

mod board;
#[path = "../plain/cluster.rs"]
mod cluster;
#[path = "../plain/device.rs"]
mod device;
#[path = "../plain/json.rs"]
mod json;
#[path = "../plain/plan.rs"]
mod plan;
#[path = "../plain/program.rs"]
mod program;
mod runner;
mod schedule;

use std::process::ExitCode;

const YIELDS: usize = 50;

fn main() -> ExitCode {
    let word = std::env::args().nth(1);
    match word.map_or(Ok(YIELDS), |word| word.parse()) {
        Ok(yields) => program::answer(|plan| runner::run(plan, yields)),
        Err(_) => ExitCode::FAILURE,
    }
}
