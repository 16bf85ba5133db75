//! The header `include/koralimbu.h`, the library and this package say the same.

use std::collections::BTreeMap;

use crate::calls::{verdict_of, JOINED_COUNT, REPORT_COUNT, SIZES_COUNT};
use crate::step::{part_of, sign_of, PREVIEW_COUNT};
use crate::{Part, Refusal, Sign, Verdict};

const HEADER: &str = include_str!("../../../include/koralimbu.h");

/// The numbers that the header gives names, which stand here without their `KORALIMBU_`.
fn defined() -> BTreeMap<&'static str, i64> {
    let lines = HEADER.lines().filter_map(|line| line.strip_prefix("#define KORALIMBU_"));
    lines
        .filter_map(|line| line.split_once(' '))
        .filter_map(|(name, number)| Some((name, number.parse().ok()?)))
        .collect()
}

/// What this package has under the header's names of limits and counts. `stringify!` keeps a name and its number together.
fn limits() -> BTreeMap<&'static str, i64> {
    macro_rules! named {
        ($($name:ident)*) => { [$((stringify!($name), i64::try_from(crate::limits::$name).unwrap())),*] };
    }
    let mut names = BTreeMap::from(named! {
        MOST_COLUMNS MOST_ROWS MOST_COEFFICIENTS MOST_TABLEAU MOST_STEPS ROUNDS_PER_COLUMN DECK_COLUMNS DECK_ROWS DECK_COEFFICIENTS MOST_TEXT
        RANGE_COEFFICIENT RANGE_RIGHT RANGE_BOUND RANGE_GOAL M MOST_STACK
    });
    names.insert("REPORT_COUNT", REPORT_COUNT as i64);
    names.insert("PREVIEW_COUNT", PREVIEW_COUNT as i64);
    names.insert("SIZES_COUNT", SIZES_COUNT as i64);
    names.insert("JOINED_COUNT", JOINED_COUNT as i64);
    names
}

/// The header's names of refusals, in the order of their numbers.
const REFUSED: [(&str, Refusal); 15] = [
    ("REFUSED_SIZE", Refusal::Size),
    ("REFUSED_LENGTH", Refusal::Length),
    ("REFUSED_COEFFICIENT", Refusal::Coefficient),
    ("REFUSED_BOUND", Refusal::Bound),
    ("REFUSED_GOAL", Refusal::Goal),
    ("REFUSED_LIMIT", Refusal::Limit),
    ("REFUSED_ELIMINATION", Refusal::Elimination),
    ("REFUSED_NONE", Refusal::NoWholeNumbers),
    ("REFUSED_SEATING", Refusal::Seating),
    ("REFUSED_STANDING", Refusal::Standing),
    ("REFUSED_LAYOUT", Refusal::Layout),
    ("REFUSED_TERM", Refusal::Term),
    ("REFUSED_VOLUME", Refusal::Volume),
    ("REFUSED_PAIR", Refusal::Pair),
    ("REFUSED_PAIR_BOUNDS", Refusal::PairBounds),
];

const VERDICTS: [(&str, Verdict); 3] =
    [("FITTED", Verdict::Fitted), ("OUTSIDE", Verdict::Outside), ("SPENT", Verdict::Spent)];

/// Where there is no step, there is no part.
const PARTS: [(&str, Option<Part>); 3] =
    [("PART_NONE", None), ("PART_BOUNDS", Some(Part::Bounds)), ("PART_GOALS", Some(Part::Goals))];

const SIGNS: [(&str, Sign); 2] = [("SIGN_PLUS", Sign::Plus), ("SIGN_MINUS", Sign::Minus)];

#[test]
fn the_limits_are_the_headers() {
    for (name, number) in limits() {
        assert_eq!(defined().get(name), Some(&number), "{name}");
    }
}

#[test]
fn the_refusals_and_verdicts_are_the_headers() {
    assert_eq!(defined()["ACCEPTED"], 0);
    for (name, refusal) in REFUSED {
        assert_eq!(defined().get(name), Some(&refusal.number().into()), "{name}");
    }
    for (name, verdict) in VERDICTS {
        assert_eq!(verdict_of(defined()[name] as u32), Ok(verdict), "{name}");
    }
}

#[test]
fn the_parts_and_signs_are_the_headers() {
    for (name, part) in PARTS {
        assert_eq!(part_of(defined()[name] as u32), part, "{name}");
    }
    for (name, sign) in SIGNS {
        assert_eq!(sign_of(defined()[name] as u32), Some(sign), "{name}");
    }
}

#[test]
fn the_version_is_the_headers_and_the_librarys() {
    let [major, minor, patch] =
        ["MAJOR", "MINOR", "PATCH"].map(|part| defined()[format!("VERSION_{part}").as_str()] as u32);
    assert_eq!((major, minor, patch), crate::VERSION);
    assert_eq!(crate::version(), crate::VERSION);
}

/// The calls' declarations in this package.
const CALLS: &str = include_str!("calls.rs");

/// The parameters that stand behind some words, up to the closing bracket.
fn parameters(text: &'static str, words: &str) -> Vec<&'static str> {
    let (_, behind) = text.split_once(words).unwrap_or_else(|| panic!("no {words}"));
    let (list, _) = behind.split_once(')').unwrap_or_else(|| panic!("no end of {words}"));
    list.split(',').map(str::trim).filter(|parameter| !["", "void"].contains(parameter)).collect()
}

/// A parameter of the header as Rust declares it.
fn in_rust(parameter: &str) -> String {
    let (kind, name) = parameter.rsplit_once([' ', '*']).unwrap_or_else(|| panic!("{parameter}"));
    let number = match kind.trim().trim_start_matches("const ") {
        "uint8_t" => "u8",
        "uint32_t" => "u32",
        "int64_t" => "i64",
        "uint64_t" => "u64",
        "size_t" => "usize",
        other => panic!("{other}"),
    };
    let pointer = match (parameter.contains('*'), kind.starts_with("const ")) {
        (true, true) => "*const ",
        (true, false) => "*mut ",
        (false, _) => "",
    };
    format!("{name}: {pointer}{number}")
}

/// A call that is declared otherwise than in the header would read and write what it was not lent.
#[test]
fn the_calls_are_declared_as_in_the_header() {
    let calls: Vec<&str> = HEADER.lines().filter_map(|line| line.strip_prefix("uint32_t koralimbu_")).collect();
    assert_eq!(calls.len(), HEADER.matches("\nuint32_t ").count());
    assert_eq!(calls.len(), CALLS.matches("    fn koralimbu_").count());
    for call in calls {
        let name = call.split('(').next().unwrap_or(call);
        let wanted: Vec<String> =
            parameters(HEADER, &format!("\nuint32_t koralimbu_{name}(")).into_iter().map(in_rust).collect();
        assert_eq!(parameters(CALLS, &format!("\n    fn koralimbu_{name}(")), wanted, "{name}");
    }
}

/// A name that the header gains is compared too, or this fails.
#[test]
fn every_name_of_the_header_is_compared() {
    let mut names = defined();
    names.retain(|name, _| !limits().contains_key(name) && !name.starts_with("VERSION_") && *name != "ACCEPTED");
    let answers = REFUSED.map(|(name, _)| name).into_iter().chain(VERDICTS.map(|(name, _)| name));
    let steps = PARTS.map(|(name, _)| name).into_iter().chain(SIGNS.map(|(name, _)| name));
    for name in answers.chain(steps) {
        names.remove(name);
    }
    assert_eq!(names, BTreeMap::new());
}
