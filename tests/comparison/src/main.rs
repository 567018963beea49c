//! The comparison as a command: generated tasks, planned by the proved library and by the reference planner.

use comparison::features::{features, shown, FAULTS, NAMES};
use comparison::listed::{compare_all_states, compare_engines};
use comparison::{compare_search, lent, Difference};
use laurelsnap::{Lists, Room, StateLists, StateRoom};
use reference::plan::{best, Fault};
use reference::random::{file, task, Dice};
use reference::search::Found;
use reference::states::Listed;
use std::path::{Path, PathBuf};
use std::process::{Command, ExitCode};

const USAGE: &str = "compare [--tasks N] SEED...    for each seed N generated tasks (300 if none is given)
compare --files FILE...        these task files
Tasks are planned by both engines of the proved library and by a search over single states; stops at the first difference.";
/// The tasks of a seed if no number is given; from so many on they are tested for what they should have.
const TASKS: usize = 300;
/// The greatest bound; the tasks' bounds go from 0 to here in turn, but each of so many tasks has just what its best plan costs.
const BOUND: u64 = 40;
const SPENT: usize = 6;
/// What is lent, more than a generated task needs.
const ROOM: Room = Room { nodes: 65_536, utility: 2_048, pairs: 4_096, steps: 4_096 };
/// What is lent for a task file.
const LARGE: Room = Room { nodes: 1 << 20, utility: 1 << 16, pairs: 1 << 17, steps: 1 << 17 };
/// A feature must be in one of so many tasks.
const RARE: usize = 20;

fn root() -> PathBuf {
    Path::new(env!("CARGO_MANIFEST_DIR")).join("../..")
}

/// One task: what the search and the engine that lists states found, the library's as the reference's, or where they differ.
fn compare_task(dice: &mut Dice, bytes: &[u8], room: Room) -> Result<(Found, Listed), String> {
    let lists = lent(dice, room);
    let told = |difference: Difference| difference.to_string();
    let found = compare_search(bytes, lists).map_err(told)?.map_err(|refusal| format!("both: {refusal}"))?;
    let listed =
        compare_all_states(&mut dice.clone(), bytes).map_err(told)?.map_err(|refusal| format!("both list states: {refusal}"))?;
    let state_room = StateRoom { states: listed.states.len(), steps: room.steps };
    let agree = compare_engines(bytes, &mut Lists::new(room), &mut StateLists::new(state_room)).map_err(told)?;
    if !agree {
        return Err("an engine refuses lists that are long enough".to_string());
    }
    Ok((found, listed))
}

/// The message, with the task as a file and as text.
fn tell(name: &str, bytes: &[u8], message: &str) -> String {
    let folder = root().join("target/compare");
    let path = folder.join(format!("{name}.bpt"));
    let written = std::fs::create_dir_all(&folder).and_then(|()| std::fs::write(&path, bytes));
    let place = written.map_or_else(|e| e.to_string(), |()| format!("target/compare/{name}.bpt"));
    let decoded = Command::new(root().join("tools/bpt")).arg("decode").arg(&path).output();
    let text = decoded.map_or_else(|e| e.to_string(), |out| String::from_utf8_lossy(&out.stdout).into_owned());
    format!("{name} ({place}): {message}\n\n{text}")
}

/// All tasks of a seed: the summary, or the first difference.
fn compare_seed(seed: u64, tasks: usize) -> Result<String, String> {
    let mut dice = Dice(seed);
    let mut counts = [0; NAMES.len()];
    let mut shows = [0; FAULTS.len()];
    let (mut states, mut pairs, mut all) = (0, 0, 0);
    for (number, bound) in (0..tasks).zip((0..=BOUND).cycle()) {
        let mut random = task(&mut dice);
        random.bound = bound;
        if number % SPENT == 0 {
            random.bound = best(&random, Fault::None).cost;
        }
        let bytes = file(&mut dice, &random);
        let name = format!("seed-{seed}-task-{number}");
        let (found, listed) = compare_task(&mut dice, &bytes, ROOM).map_err(|message| tell(&name, &bytes, &message))?;
        states += found.reached.len();
        pairs += found.pairs();
        all += listed.states.len();
        counts.iter_mut().zip(features(&found)).for_each(|(count, has)| *count += has as usize);
        shows.iter_mut().zip(shown(&found)).for_each(|(count, shows)| *count += shows as usize);
    }
    let list = |counted: Vec<(&str, usize)>| {
        counted.iter().map(|(name, count)| format!("{name} {count}")).collect::<Vec<_>>().join(", ")
    };
    let had = list(NAMES.into_iter().zip(counts).collect());
    let told = list(FAULTS.map(|(name, _)| name).into_iter().zip(shows).collect());
    let summary =
        format!("seed {seed}: {tasks} tasks, {states} states in {pairs} pairs, {all} states listed; {had}; would show {told}");
    let poor = counts.iter().any(|count| count * RARE < tasks) || shows.contains(&0);
    if poor && tasks >= TASKS {
        return Err(format!("{summary}: a feature is in less than one of {RARE} tasks, or a fault would not show"));
    }
    Ok(summary)
}

/// Task files that both accept: how many there are, or the first difference.
fn compare_files(names: &[String]) -> Result<String, String> {
    for name in names {
        let bytes = std::fs::read(name).map_err(|e| format!("{name}: {e}"))?;
        compare_task(&mut Dice(1), &bytes, LARGE).map_err(|message| format!("{name}: {message}"))?;
    }
    Ok(format!("{} task files agree", names.len()))
}

/// What a command line asks for, each part with its summary or its first difference; nothing for a wrong one.
fn run(words: &[String]) -> Option<Result<(), String>> {
    let (tasks, seeds) = match words {
        [option, names @ ..] if option == "--files" => return Some(compare_files(names).map(|summary| println!("{summary}"))),
        [option, number, seeds @ ..] if option == "--tasks" => (number.parse().ok()?, seeds),
        seeds => (TASKS, seeds),
    };
    let seeds: Vec<u64> = seeds.iter().map(|word| word.parse().ok()).collect::<Option<_>>()?;
    if tasks == 0 || seeds.is_empty() {
        return None;
    }
    Some(seeds.into_iter().try_for_each(|seed| compare_seed(seed, tasks).map(|summary| println!("{summary}"))))
}

fn main() -> ExitCode {
    let words: Vec<String> = std::env::args().skip(1).collect();
    match run(&words) {
        None => {
            eprintln!("{USAGE}");
            ExitCode::from(2)
        }
        Some(Ok(())) => ExitCode::SUCCESS,
        Some(Err(message)) => {
            println!("{message}");
            ExitCode::FAILURE
        }
    }
}
