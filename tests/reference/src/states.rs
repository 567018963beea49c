//! The answer of the engine that lists states, from file bytes and list lengths (refusals 1 to 10, 12, 24 and 15).

use crate::plan::{choose, reach_at_most, Best, Fault, Place};
use crate::search::permitted;
use crate::task::{check, refuse, Refusal, Task};

/// The lengths of the lent lists; `states` those of state, cost and steps.
#[derive(Clone, Copy, Debug)]
pub struct Lengths {
    pub states: [usize; 3],
    pub plan: usize,
}

/// What success reports: every state within the bound by its number, with its place, and the best plan.
#[derive(Clone, Debug, PartialEq, Eq)]
pub struct Listed {
    pub task: Task,
    /// In rising order of the states' numbers.
    pub states: Vec<(u64, Place)>,
    pub best: Best,
}

pub fn states(file: &[u8], lengths: &Lengths) -> Result<Listed, Refusal> {
    let task = check(file)?;
    if !permitted(&lengths.states) {
        return refuse(12, 0);
    }
    let Some(reached) = reach_at_most(&task, Fault::None, lengths.states[0]) else {
        return refuse(24, 0);
    };
    let best = choose(&task, &reached, Fault::None);
    if best.plan.len() > lengths.plan {
        return refuse(15, 0);
    }
    let mut states: Vec<(u64, Place)> = reached.iter().map(|(state, way)| (task.word(state), way.place())).collect();
    states.sort();
    Ok(Listed { task, states, best })
}

impl Listed {
    /// Whole minutes, units left over and units unused.
    pub fn time(&self) -> (u64, u64, u64) {
        self.best.time(self.task.bound)
    }

    /// The figures and the plan as in osp-list's listing, without ceiling and diagrams, then a line for each state: its number, cost and
    /// steps.
    pub fn listing(&self) -> String {
        let (minutes, units, unused) = self.time();
        let mut out = format!(
            "utility {}\ncost {} of {}\ntime {minutes} {units} {unused}\nstates {}\n{}",
            self.best.utility,
            self.best.cost,
            self.task.bound,
            self.states.len(),
            self.best.steps(&self.task)
        );
        for (state, (cost, steps)) in &self.states {
            out += &format!("{state} {cost} {steps}\n");
        }
        out
    }
}
