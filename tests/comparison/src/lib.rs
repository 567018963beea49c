//! One search, question, list of states or canonical file, asked of the proved library and of the reference planner, and compared in full.
//!
//! A search is compared in its figures, the whole plan, the states of every pair made with those of the single-state search, the node
//! entries, and in what the lists keep. The first difference is told with both answers.

pub mod features;
pub mod listed;

use laurelsnap::{question, search, write, Lists, Place, Refusal, Room};
use reference::plan::Reached;
use reference::question::Answer;
use reference::random::Dice;
use reference::search::{Found, Lengths};
use reference::task::Task;
use std::collections::BTreeMap;
use std::fmt::{self, Debug, Display};

/// Where the two differ, and both answers.
#[derive(Debug)]
pub struct Difference {
    pub at: String,
    pub library: String,
    pub reference: String,
}

impl Display for Difference {
    fn fmt(&self, f: &mut fmt::Formatter) -> fmt::Result {
        write!(f, "{}\n  library:   {}\n  reference: {}", self.at, self.library, self.reference)
    }
}

pub(crate) fn same<T: Debug + PartialEq>(at: impl Display, library: T, reference: T) -> Result<(), Difference> {
    if library == reference {
        return Ok(());
    }
    Err(Difference { at: at.to_string(), library: format!("{library:?}"), reference: format!("{reference:?}") })
}

/// The reference's refusal in the library's terms.
pub fn refusal(refusal: reference::task::Refusal) -> Refusal {
    Refusal { number: refusal.number, value: refusal.value }
}

/// Lists full of noise, with this room and with working lists of random lengths.
pub fn lent(dice: &mut Dice, room: Room) -> Lists {
    let mut noise = |count: usize| (0..count).map(|_| dice.number() as u32 % 300).collect::<Vec<u32>>();
    let (costs, steps, sets, wanted) = (noise(room.pairs), noise(room.pairs), noise(room.pairs), noise(room.pairs));
    let (bit, low, high) = (noise(room.nodes), noise(room.nodes), noise(room.nodes));
    let (utility_bit, utility_low, utility_high) = (noise(room.utility), noise(room.utility), noise(room.utility));
    let plan = noise(room.steps).iter().map(|&x| x as u16).collect();
    let mut working = |most: &[usize]| {
        let count = dice.pick(most);
        (0..count).map(|_| dice.number() as u32).collect::<Vec<u32>>()
    };
    let heads = working(&[0, 1, 7, 64, 1024]);
    let chain = working(&[0, 5, 100, 4096, 20_000]);
    let memo = working(&[0, 3, 6_155, 6_156, 6_160, 7_000, 16_384]);
    Lists { costs, steps, sets, wanted, bit, low, high, utility_bit, utility_low, utility_high, heads, chain, memo, plan }
}

fn lengths(lists: &Lists) -> Lengths {
    Lengths {
        pairs: [lists.costs.len(), lists.steps.len(), lists.sets.len(), lists.wanted.len()],
        nodes: [lists.bit.len(), lists.low.len(), lists.high.len()],
        utility: [lists.utility_bit.len(), lists.utility_low.len(), lists.utility_high.len()],
        plan: lists.plan.len(),
    }
}

/// Whether the lists still hold what a refusal keeps: everything up to 12, working lists too; pairs, nodes and plan after 13; else the plan.
fn kept(number: u64, before: &Lists, after: &Lists) -> bool {
    let pairs = |l: &Lists| [l.costs.clone(), l.steps.clone(), l.sets.clone(), l.wanted.clone()];
    let nodes = before.bit == after.bit && before.low == after.low && before.high == after.high;
    match number {
        1..=12 => before == after,
        13 => pairs(before) == pairs(after) && nodes && before.plan == after.plan,
        _ => before.plan == after.plan,
    }
}

/// The lists of bits in a set, from bit k on, as words with bit k worth 2^k.
fn members(lists: &Lists, name: u32, k: u32, bits: u32, word: u64, out: &mut Vec<u64>) {
    if name == 0 {
        return;
    }
    if k == bits {
        return out.push(word);
    }
    let (low, high) = match (name as usize).checked_sub(2) {
        Some(entry) if lists.bit[entry] == k => (lists.low[entry], lists.high[entry]),
        _ => (name, name),
    };
    members(lists, low, k + 1, bits, word, out);
    members(lists, high, k + 1, bits, word | 1 << k, out);
}

/// Every pair made, state by state: its set holds the states that have this place, and no other list of bits.
fn compare_pairs(task: &Task, reached: &Reached, lists: &Lists) -> Result<(), Difference> {
    let mut expected: BTreeMap<(u64, u64), Vec<u64>> = BTreeMap::new();
    for (state, way) in reached {
        expected.entry(way.place()).or_default().push(task.word(state));
    }
    for (i, (place, states)) in expected.iter_mut().enumerate() {
        same(format_args!("the place of pair {i}"), (lists.costs[i] as u64, lists.steps[i] as u64), *place)?;
        let mut held = Vec::new();
        members(lists, lists.sets[i], 0, task.bits() as u32, 0, &mut held);
        held.sort();
        states.sort();
        same(format_args!("the states of {place:?}"), &held, states)?;
    }
    Ok(())
}

/// The lists of pairs and nodes in the reference's terms.
fn seen(lists: &Lists) -> reference::question::Lists {
    reference::question::Lists {
        costs: lists.costs.clone(),
        steps: lists.steps.clone(),
        sets: lists.sets.clone(),
        wanted: lists.wanted.clone(),
        bit: lists.bit.clone(),
        low: lists.low.clone(),
        high: lists.high.clone(),
    }
}

/// What success reports and leaves in the lists.
fn compare_found(found: &laurelsnap::Found, expected: &mut Found, before: &Lists, lists: &Lists) -> Result<(), Difference> {
    same("utility and ceiling", (found.utility, found.ceiling), (expected.best.utility, expected.ceiling))?;
    same("cost and bound", (found.cost, found.bound), (expected.best.cost, expected.task.bound))?;
    same("time", (found.minutes, found.units, found.unused), expected.time())?;
    same("nodes and utility entries", (found.nodes, found.entries), (expected.nodes, expected.entries))?;
    same("plan", found.plan(lists), &expected.best.plan)?;
    same("pairs", found.pairs, expected.pairs() as u64)?;
    same("node entries, sets and wanted sets", expected.test_lists(&seen(lists)), Ok(()))?;
    compare_pairs(&expected.task, &expected.reached, lists)?;
    let (steps, pairs, nodes) = (found.steps as usize, found.pairs as usize, found.nodes as usize);
    same("later plan entries", &lists.plan[steps..], &before.plan[steps..])?;
    same("later costs", &lists.costs[pairs..], &before.costs[pairs..])?;
    same("later steps", &lists.steps[pairs..], &before.steps[pairs..])?;
    same("later sets", &lists.sets[pairs..], &before.sets[pairs..])?;
    same("later wanted sets", &lists.wanted[pairs..], &before.wanted[pairs..])?;
    same("later bits", &lists.bit[nodes..], &before.bit[nodes..])?;
    same("later low children", &lists.low[nodes..], &before.low[nodes..])?;
    same("later high children", &lists.high[nodes..], &before.high[nodes..])
}

/// One search with these lists, compared in full: what the reference found, or the refusal that both gave.
pub fn compare_search(file: &[u8], mut lists: Lists) -> Result<Result<Found, Refusal>, Difference> {
    let before = lists.clone();
    let got = search(file, &mut lists);
    match reference::search::search(file, &lengths(&before)) {
        Err(expected) => {
            let expected = refusal(expected);
            same("search", got, Err(expected))?;
            same("a refusal keeps its lists", kept(expected.number, &before, &lists), true)?;
            Ok(Err(expected))
        }
        Ok(mut expected) => {
            let told = |refusal: Refusal| Difference {
                at: "search".to_string(),
                library: refusal.to_string(),
                reference: expected.listing(),
            };
            let found = got.map_err(told)?;
            compare_found(&found, &mut expected, &before, &lists)?;
            Ok(Ok(expected))
        }
    }
}

/// The answer in the library's terms.
fn place(answer: Answer) -> Place {
    match answer {
        Answer::At((cost, steps)) => Place::At { cost, steps },
        Answer::NotReached => Place::NotReached,
    }
}

/// One question, compared: the refusal's number, or 0.
pub fn compare_question(file: &[u8], lists: &Lists, nodes: u64, pairs: u64, state: &[u8]) -> Result<u64, Difference> {
    let expected = reference::question::question(file, &seen(lists), nodes, pairs, state);
    same("question", question(file, lists, nodes, pairs, state), expected.map(place).map_err(refusal))?;
    Ok(expected.map_or_else(|refusal| refusal.number, |_| 0))
}

/// One file written into the first bytes of a list, so many of them, and every byte of the whole list compared: the length that both
/// gave, or the refusal.
pub fn compare_write(file: &[u8], list: &[u8], length: usize) -> Result<Result<usize, Refusal>, Difference> {
    let (mut written, mut expected) = (list.to_vec(), list.to_vec());
    let answer = reference::write::write(file, &mut expected[..length]).map_err(refusal);
    same("write", write(file, &mut written[..length]), answer)?;
    same("the output list", written, expected)?;
    Ok(answer)
}
