//! What the plain programs have around their run: the cluster file from standard input, and the text to standard output.

use crate::plan::{self, Plan};
use std::io::{Read, Write};
use std::process::ExitCode;

const LIMIT: u64 = 4_194_304;

/// The plan of standard input; no plan if the file is refused.
fn read_plan() -> Option<Plan> {
    let mut bytes = Vec::new();
    std::io::stdin()
        .take(LIMIT + 1)
        .read_to_end(&mut bytes)
        .ok()?;
    let text = String::from_utf8(bytes)
        .ok()
        .filter(|text| text.len() as u64 <= LIMIT)?;
    plan::read(&text)
}

/// Writes the text of the plan that stands on standard input.
pub fn answer(text_of: impl FnOnce(&Plan) -> String) -> ExitCode {
    let text = read_plan().map(|plan| text_of(&plan));
    match text {
        Some(text) if std::io::stdout().write_all(text.as_bytes()).is_ok() => ExitCode::SUCCESS,
        _ => ExitCode::FAILURE,
    }
}
