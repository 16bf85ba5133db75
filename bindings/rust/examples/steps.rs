//! The run of a deck step by step: the seated list, each step with the columns that it changes, the last list and the verdict.
//!
//!     cargo run --example steps [DECK]
//!
//! Without a name it is that of decks/paved-bulkhead.txt. Curves and added columns have their numbers of the listing.

use std::error::Error;
use std::path::PathBuf;

use koralimbu::{next_step, solve_from, Deck, Part, Steps, Verdict};

/// The step limit of the listing program.
const LIMIT: u32 = 10_000;
const PAVED: &str = concat!(env!("CARGO_MANIFEST_DIR"), "/../../decks/paved-bulkhead.txt");

/// The values of the curves, and behind them those of the columns that rows added.
fn list(deck: &Deck, values: &[i64]) -> String {
    let words: Vec<String> = values.iter().map(i64::to_string).collect();
    let (curves, added) = words.split_at(deck.curves());
    match added {
        [] => curves.join(" "),
        _ => format!("{}, added {}", curves.join(" "), added.join(" ")),
    }
}

fn column_name(deck: &Deck, column: usize) -> String {
    let kind = if column < deck.curves() { "curve" } else { "added column" };
    format!("{kind} {}", column + 1)
}

fn main() -> Result<(), Box<dyn Error>> {
    let name = std::env::args_os().nth(1).map_or(PathBuf::from(PAVED), PathBuf::from);
    let text = std::fs::read(&name).map_err(|error| format!("{}: {error}", name.display()))?;
    let deck = Deck::read(text)?;
    // No step is taken with the limit 0: the list is seated, and a list to continue from only gets its verdict.
    let problem = deck.problem(0);
    let mut values = deck.solve(0)?.values;
    println!("seated: {}", list(&deck, &values));
    let mut steps = Steps { bounds: 0, goals: 0 };
    for number in 1..=LIMIT {
        let Some(next) = next_step(&problem, &values)? else { break };
        println!("step {number}, {}", next.step);
        for change in next.changes {
            println!("  {}: {} to {}", column_name(&deck, change.column), change.from, change.to);
        }
        match next.step.part {
            Part::Bounds => steps.bounds += 1,
            Part::Goals => steps.goals += 1,
        }
        values = next.after;
    }
    println!("last: {}", list(&deck, &values));
    let verdict = match solve_from(&problem, &values)?.verdict {
        Verdict::Fitted => "FITTED",
        Verdict::Outside => "OUTSIDE",
        Verdict::Spent => "SPENT",
    };
    println!("{verdict} {} {}", steps.bounds, steps.goals);
    Ok(())
}
