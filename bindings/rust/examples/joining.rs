//! Two blocks, read from their decks and joined where they share curves, assigned as one problem; then the share of each block.
//!
//!     cargo run --example joining [FIRST SECOND [COLUMN COLUMN]..]
//!
//! Each two columns are a pair, one of the first deck and the one of the second that is the same curve, with their numbers of the listing. Without
//! names the blocks are those of decks/aft-block.txt and decks/fore-block.txt, with the three curves that they share. Below the verdict each block
//! has a line for each of its columns, as in the listing; those in a pair are marked.

use std::error::Error;

use koralimbu::{Deck, Joined, Refusal, Solved, Verdict};

/// The step limit of the listing program.
const LIMIT: u32 = 10_000;
const BLOCKS: [&str; 2] = [
    concat!(env!("CARGO_MANIFEST_DIR"), "/../../decks/aft-block.txt"),
    concat!(env!("CARGO_MANIFEST_DIR"), "/../../decks/fore-block.txt"),
];
const PAIRS: [&str; 6] = ["1", "2", "2", "3", "6", "1"];

fn read_block(name: &str) -> Result<Deck, Box<dyn Error>> {
    let text = std::fs::read(name).map_err(|error| format!("{name}: {error}"))?;
    Ok(Deck::read(text).map_err(|refusal| format!("{name}: {refusal}"))?)
}

/// The pairs of these words, counted from 0. None are left over.
fn pairs_of(words: &[String]) -> Option<Vec<(usize, usize)>> {
    // The column 0 becomes the last of all, which no deck has either.
    let column = |word: &String| Some(word.parse::<usize>().ok()?.wrapping_sub(1));
    let pairs = words.chunks(2).map(|pair| Some((column(pair.first()?)?, column(pair.get(1)?)?)));
    pairs.collect()
}

/// A block's share of the columns, by its name, and which of them are in a pair.
fn share(name: &str, values: &[i64], strides: &[u64], shared: impl Fn(usize) -> bool) -> String {
    let mut lines = format!("{name}\n");
    for (column, (value, stride)) in values.iter().zip(strides).enumerate() {
        let mark = if shared(column) { " shared" } else { "" };
        lines += &format!("{} {value} {stride}{mark}\n", column + 1);
    }
    lines
}

fn listing(joined: &Joined, solved: &Solved, pairs: &[(usize, usize)]) -> String {
    let verdict = match solved.verdict {
        Verdict::Fitted => "FITTED",
        Verdict::Outside => "OUTSIDE",
        Verdict::Spent => "SPENT",
    };
    let Solved { values, strides, steps, .. } = solved;
    let first = share("first block", joined.first_share(values), joined.first_share(strides), |column| {
        pairs.iter().any(|pair| pair.0 == column)
    });
    let second = share("second block", &joined.second_share(values), &joined.second_share(strides), |column| {
        pairs.iter().any(|pair| pair.1 == column)
    });
    format!("{verdict} {} {}\n{first}{second}", steps.bounds, steps.goals)
}

fn main() -> Result<(), Box<dyn Error>> {
    let mut words: Vec<String> = std::env::args().skip(1).collect();
    if words.is_empty() {
        words = BLOCKS.iter().chain(&PAIRS).map(|word| word.to_string()).collect();
    }
    let usage = "usage: joining [FIRST SECOND [COLUMN COLUMN]..]";
    let [first, second, rest @ ..] = words.as_slice() else { return Err(usage.into()) };
    let pairs = pairs_of(rest).ok_or(usage)?;
    let (first, second) = (read_block(first)?, read_block(second)?);
    let solved = first.join(&second, &pairs).and_then(|joined| Ok((joined.solve(LIMIT)?, joined)));
    match solved {
        Ok((solved, joined)) => print!("{}", listing(&joined, &solved, &pairs)),
        Err(Refusal::NoWholeNumbers) => println!("NONE"),
        Err(refusal) => {
            // The number alone is as in the listing; this says what to mend.
            eprintln!("{refusal}");
            println!("REFUSED {}", refusal.number());
        }
    }
    Ok(())
}
