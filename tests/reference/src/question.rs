//! The question about one state, over lists that nobody vouches for (refusals 12, 20, 21).

use crate::plan::Place;
use crate::search::permitted;
use crate::task::{check, refuse, Refusal};

/// The lists that a search has left, or any others.
#[derive(Clone, Debug)]
pub struct Lists {
    pub costs: Vec<u32>,
    pub steps: Vec<u32>,
    pub sets: Vec<u32>,
    pub wanted: Vec<u32>,
    pub bit: Vec<u32>,
    pub low: Vec<u32>,
    pub high: Vec<u32>,
}

#[derive(Clone, Copy, Debug, PartialEq, Eq)]
pub enum Answer {
    At(Place),
    NotReached,
}

/// Refusal 21's test of the numbers of entries and pairs, the node entries and the names of the pairs' sets.
fn sound(lists: &Lists, count: u64, pairs: u64, bits: usize) -> bool {
    if count > lists.bit.len() as u64 || pairs > lists.sets.len() as u64 {
        return false;
    }
    let child = |k: usize, name: u32| name < 2 || ((name as usize) < k + 2 && lists.bit[name as usize - 2] > lists.bit[k]);
    let entry = |k: usize| (lists.bit[k] as usize) < bits && child(k, lists.low[k]) && child(k, lists.high[k]);
    (0..count as usize).all(entry) && lists.sets[..pairs as usize].iter().all(|&name| (name as u64) < count + 2)
}

/// Cost and steps of the first pair whose set holds the state.
pub fn question(file: &[u8], lists: &Lists, count: u64, pairs: u64, state: &[u8]) -> Result<Answer, Refusal> {
    let task = check(file)?;
    let four = [lists.costs.len(), lists.steps.len(), lists.sets.len(), lists.wanted.len()];
    if !permitted(&four) || !permitted(&[lists.bit.len(), lists.low.len(), lists.high.len()]) {
        return refuse(12, 0);
    }
    if state.len() != task.sizes.len() || state.iter().zip(&task.sizes).any(|(x, d)| x >= d) {
        return refuse(20, 0);
    }
    if !sound(lists, count, pairs, task.bits()) {
        return refuse(21, 0);
    }
    let literals = task.state_literals(state);
    let holds = |mut name: u32| {
        while name >= 2 {
            let k = name as usize - 2;
            name = if literals[lists.bit[k] as usize].1 { lists.high[k] } else { lists.low[k] };
        }
        name == 1
    };
    let found = (0..pairs as usize).find(|&i| holds(lists.sets[i]));
    Ok(found.map_or(Answer::NotReached, |i| Answer::At((lists.costs[i] as u64, lists.steps[i] as u64))))
}
