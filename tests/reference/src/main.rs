//! The reference planner as a program: listings to compare with osp-list's, the listings of faulty planners, canonical and random files.

use reference::plan::{best, Fault, Place};
use reference::random::{file, task, Dice};
use reference::search::{search, Found, Lengths, LIST_MOST, OSP_LIST};
use reference::states::{states, Lengths as StateLengths};
use reference::{task as bpt, walk::walk, write::canonical};
use std::io::Write;
use std::process::ExitCode;

const USAGE: &str = "reference plan FILE [ENTRIES]    the listing, with osp-list's lists or so many entries in each list
reference pairs FILE [ENTRIES]   a line for each pair made: cost, steps, states in its set and in its wanted set (- past the target)
reference states FILE [ENTRIES]  the figures and steps of the engine that lists states, then a line for each state: number, cost, steps
reference faults FILE            the best plan, and what planners with the named faults hand over
reference walk FILE OPERATOR...  cost and utility of a plan, or its refusal
reference write FILE             the canonical file on standard output
reference random SEED            a random task file on standard output";

fn read(name: &str) -> Result<Vec<u8>, String> {
    std::fs::read(name).map_err(|e| format!("{name}: {e}"))
}

fn number<T: std::str::FromStr>(word: &str) -> Result<T, String> {
    word.parse().map_err(|_| format!("'{word}' is no number"))
}

/// What is shown of a search with osp-list's lists, or with so many entries in every list.
fn searched(name: &str, entries: Option<&String>, show: fn(&Found) -> String) -> Result<String, String> {
    let lengths = match entries {
        None => OSP_LIST,
        Some(word) => {
            let n = number(word)?;
            Lengths { pairs: [n; 4], nodes: [n; 3], utility: [n; 3], plan: n }
        }
    };
    Ok(match search(&read(name)?, &lengths) {
        Ok(found) => show(&found),
        Err(r) => format!("refused {} {}\n", r.number, r.value),
    })
}

/// What is listed with lists as long as they may be, or with so many entries in every list.
fn listed(name: &str, entries: Option<&String>) -> Result<String, String> {
    let n = entries.map_or(Ok(LIST_MOST), |word| number(word))?;
    Ok(match states(&read(name)?, &StateLengths { states: [n; 3], plan: n }) {
        Ok(listed) => listed.listing(),
        Err(r) => format!("refused {} {}\n", r.number, r.value),
    })
}

/// A line for each pair.
fn pairs(found: &Found) -> String {
    let line = |((cost, steps), states, wanted): (Place, u64, Option<u64>)| {
        format!("{cost} {steps} {states} {}\n", wanted.map_or("-".to_string(), |n| n.to_string()))
    };
    found.sizes().into_iter().map(line).collect()
}

/// A refusal where the command has nothing to print.
fn told(refusal: bpt::Refusal) -> String {
    format!("refused {} {}", refusal.number, refusal.value)
}

fn faults(name: &str) -> Result<String, String> {
    let task = bpt::check(&read(name)?).map_err(told)?;
    let planners = [
        ("best plan", Fault::None),
        ("closed when generated", Fault::ClosedWhenGenerated),
        ("old value matters", Fault::OldValueMatters),
        ("start value matters", Fault::StartValueMatters),
        ("steps ignored", Fault::StepsIgnored),
        ("free moves ignored", Fault::FreeMovesIgnored),
        ("strict bound", Fault::StrictBound),
    ];
    let mut out = String::new();
    for (label, fault) in planners {
        let b = best(&task, fault);
        out += &format!("{label}: utility {} cost {} steps {}:", b.utility, b.cost, b.plan.len());
        out += &b.plan.iter().map(|o| format!(" {o}")).collect::<String>();
        out += "\n";
    }
    Ok(out)
}

fn walked(name: &str, steps: &[String]) -> Result<String, String> {
    let numbers: Result<Vec<u16>, _> = steps.iter().map(|s| s.parse::<u16>()).collect();
    let plan: Vec<u8> = numbers.map_err(|e| e.to_string())?.iter().flat_map(|n| n.to_le_bytes()).collect();
    Ok(match walk(&read(name)?, &plan) {
        Ok(w) => format!("cost {} utility {}\n", w.cost, w.utility),
        Err(r) => format!("refused {} {}\n", r.number, r.value),
    })
}

fn run(words: &[String]) -> Result<Vec<u8>, String> {
    match words {
        [c, name, n @ ..] if c == "plan" && n.len() < 2 => searched(name, n.first(), Found::listing).map(String::into_bytes),
        [c, name, n @ ..] if c == "pairs" && n.len() < 2 => searched(name, n.first(), pairs).map(String::into_bytes),
        [c, name, n @ ..] if c == "states" && n.len() < 2 => listed(name, n.first()).map(String::into_bytes),
        [c, name] if c == "faults" => faults(name).map(String::into_bytes),
        [c, name, steps @ ..] if c == "walk" => walked(name, steps).map(String::into_bytes),
        [c, name] if c == "write" => canonical(&read(name)?).map_err(told),
        [c, seed] if c == "random" => {
            let mut dice = Dice(number(seed)?);
            let random = task(&mut dice);
            Ok(file(&mut dice, &random))
        }
        _ => Err(USAGE.to_string()),
    }
}

fn main() -> ExitCode {
    let words: Vec<String> = std::env::args().skip(1).collect();
    match run(&words) {
        Ok(out) => {
            let written = std::io::stdout().write_all(&out);
            if written.is_ok() {
                ExitCode::SUCCESS
            } else {
                ExitCode::FAILURE
            }
        }
        Err(message) => {
            eprintln!("{message}");
            ExitCode::FAILURE
        }
    }
}
