//! The search's answer from file bytes and list lengths (refusals 1 to 15 and 23), and the test of the lists it leaves.

use crate::ceiling::{ceiling, last_pair};
use crate::diagrams::Node;
use crate::plan::{choose, reach, Best, Fault, Place, Reached};
use crate::question::Lists;
use crate::sets::{make, Pairs, Sets};
use crate::task::{check, refuse, Refusal, Task};
use crate::utility::entries;
use std::collections::HashSet;

pub const LIST_MOST: usize = 1_048_576;

/// The lengths of the lent lists; `pairs` those of cost, steps, set and wanted set.
#[derive(Clone, Copy, Debug)]
pub struct Lengths {
    pub pairs: [usize; 4],
    pub nodes: [usize; 3],
    pub utility: [usize; 3],
    pub plan: usize,
}

/// What the program osp-list lends.
pub const OSP_LIST: Lengths = Lengths { pairs: [4096; 4], nodes: [1024; 3], utility: [512; 3], plan: 4096 };

/// What success reports, with the states of the pairs made and the sets behind it.
#[derive(Debug)]
pub struct Found {
    pub task: Task,
    pub reached: Reached,
    pub best: Best,
    pub ceiling: u64,
    pub nodes: u64,
    pub entries: u64,
    pub sets: Sets,
}

/// Refusal 12's test of lists that belong together.
pub fn permitted(lengths: &[usize]) -> bool {
    lengths.iter().all(|&length| length == lengths[0] && length <= LIST_MOST)
}

pub fn search(file: &[u8], lengths: &Lengths) -> Result<Found, Refusal> {
    let task = check(file)?;
    if !permitted(&lengths.pairs) || !permitted(&lengths.nodes) || !permitted(&lengths.utility) {
        return refuse(12, 0);
    }
    let entries = entries(&task);
    if entries > lengths.utility[0] {
        return refuse(13, 0);
    }
    let mut reached = reach(&task, Fault::None);
    let best = choose(&task, &reached, Fault::None);
    let ceiling = ceiling(&task);
    let last = last_pair(&task, &reached, ceiling);
    reached.retain(|_, way| way.place() <= last);
    let sets = make(&task, &best, &reached, last, Pairs::Offered, lengths.nodes[0], lengths.pairs[0])?;
    let nodes = sets.counted.len();
    if best.plan.len() > lengths.plan {
        return refuse(15, 0);
    }
    Ok(Found { task, reached, best, ceiling, nodes: nodes as u64, entries: entries as u64, sets })
}

impl Found {
    /// Whole minutes, units left over and units unused.
    pub fn time(&self) -> (u64, u64, u64) {
        self.best.time(self.task.bound)
    }

    /// The listing that osp-list prints.
    pub fn listing(&self) -> String {
        let (minutes, units, unused) = self.time();
        format!(
            "utility {} of {}\ncost {} of {}\ntime {minutes} {units} {unused}\nnodes {} {}\n{}",
            self.best.utility,
            self.ceiling,
            self.best.cost,
            self.task.bound,
            self.nodes,
            self.entries,
            self.best.steps(&self.task)
        )
    }

    /// The number of non-empty pairs made.
    pub fn pairs(&self) -> usize {
        self.sets.levels.len()
    }

    /// The place of the best plan.
    pub fn goal(&self) -> Place {
        (self.best.cost, self.best.plan.len() as u64)
    }

    /// Each non-empty pair made with the number of states in its set, and in its wanted set unless the pair is past the target.
    pub fn sizes(&self) -> Vec<(Place, u64, Option<u64>)> {
        let members = |&set: &u32| self.sets.diagrams.members(set, self.task.bits() as u32);
        self.sets.levels.iter().map(|(&pair, set)| (pair, members(set), self.sets.wanted.get(&pair).map(members))).collect()
    }

    /// Lists as a search could leave them.
    pub fn lists(&self) -> Lists {
        let mut counted: Vec<u32> = self.sets.counted.iter().copied().collect();
        counted.sort();
        let name = |n: u32| if n < 2 { n } else { counted.binary_search(&n).expect("a counted node") as u32 + 2 };
        let nodes: Vec<Node> = counted.iter().map(|&n| self.sets.diagrams.node(n)).collect();
        Lists {
            costs: self.sets.levels.keys().map(|pair| pair.0 as u32).collect(),
            steps: self.sets.levels.keys().map(|pair| pair.1 as u32).collect(),
            sets: self.sets.levels.values().map(|&n| name(n)).collect(),
            wanted: self.sets.levels.keys().map(|pair| self.sets.wanted.get(pair).map_or(0, |&n| name(n))).collect(),
            bit: nodes.iter().map(|n| n.bit).collect(),
            low: nodes.iter().map(|n| name(n.low)).collect(),
            high: nodes.iter().map(|n| name(n.high)).collect(),
        }
    }

    /// Whether the lists begin with what success promises: the counted nodes, each once and children first, and an entry for
    /// each non-empty pair made with its cost, its steps and the names of its set and its wanted set. Says what is wrong otherwise.
    pub fn test_lists(&mut self, lists: &Lists) -> Result<(), String> {
        let count = self.nodes as usize;
        let mut names = vec![0, 1];
        for k in 0..count {
            let (l, h) = (lists.low[k] as usize, lists.high[k] as usize);
            if l >= k + 2 || h >= k + 2 || l == h {
                return Err(format!("entry {k} has the children {l} and {h}"));
            }
            let name = self.sets.diagrams.make(lists.bit[k], names[l], names[h]);
            names.push(name);
        }
        let listed: HashSet<u32> = names[2..].iter().copied().collect();
        if listed.len() != count || listed != self.sets.counted {
            return Err("the entries are not the counted nodes, each once".to_string());
        }
        for (i, (&pair, &set)) in self.sets.levels.iter().enumerate() {
            let listed = (lists.costs[i] as u64, lists.steps[i] as u64);
            if listed != pair {
                return Err(format!("pair {i} is {listed:?} in place of {pair:?}"));
            }
            if names.get(lists.sets[i] as usize) != Some(&set) {
                return Err(format!("the set of {pair:?} is named {}, which is another set", lists.sets[i]));
            }
            if names.get(lists.wanted[i] as usize) != Some(self.sets.wanted.get(&pair).unwrap_or(&0)) {
                return Err(format!("the wanted set of {pair:?} is named {}, which is another set", lists.wanted[i]));
            }
        }
        Ok(())
    }
}
