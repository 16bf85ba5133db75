//! The listing of a deck, byte for byte as the program `listing` prints it.
//!
//!     cargo run --example paving [DECK]
//!
//! Without a name it is that of decks/paving.txt.

use std::path::PathBuf;
use std::process::ExitCode;

use koralimbu::{solve_text, Refusal, Solved, Verdict};

/// The step limit of the listing program.
const LIMIT: u32 = 10_000;
const PAVING: &str = concat!(env!("CARGO_MANIFEST_DIR"), "/../../decks/paving.txt");

fn listing(result: Result<Solved, Refusal>) -> String {
    let solved = match result {
        Ok(solved) => solved,
        Err(Refusal::NoWholeNumbers) => return "NONE\n".to_string(),
        Err(refusal) => return format!("REFUSED {}\n", refusal.number()),
    };
    let verdict = match solved.verdict {
        Verdict::Fitted => "FITTED",
        Verdict::Outside => "OUTSIDE",
        Verdict::Spent => "SPENT",
    };
    let mut lines = format!("{verdict} {} {}\n", solved.steps.bounds, solved.steps.goals);
    for (column, (value, stride)) in solved.values.iter().zip(&solved.strides).enumerate() {
        lines += &format!("{} {value} {stride}\n", column + 1);
    }
    lines
}

fn main() -> ExitCode {
    let name = std::env::args_os().nth(1).map_or(PathBuf::from(PAVING), PathBuf::from);
    let text = match std::fs::read(&name) {
        Ok(text) => text,
        Err(error) => {
            eprintln!("{}: {error}", name.display());
            return ExitCode::FAILURE;
        }
    };
    let result = solve_text(text, LIMIT);
    // The listing has the number alone; this says what to mend.
    if let Err(refusal) = &result {
        eprintln!("{}: {refusal}", name.display());
    }
    print!("{}", listing(result));
    ExitCode::SUCCESS
}
