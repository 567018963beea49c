//! The walk of a given plan (refusals 16 to 19).

use crate::task::{apply, check, holds, refuse, Refusal};

/// A plan that can be walked: its cost and the utility of the state it ends in.
#[derive(Clone, Copy, Debug, PartialEq, Eq)]
pub struct Walked {
    pub cost: u64,
    pub utility: u64,
}

/// Walks a plan of two bytes per step, low byte first.
pub fn walk(file: &[u8], plan: &[u8]) -> Result<Walked, Refusal> {
    let task = check(file)?;
    if plan.len() % 2 == 1 {
        return refuse(16, 0);
    }
    let mut state = task.start.clone();
    let mut cost = 0;
    for (step, bytes) in plan.chunks(2).enumerate() {
        let Some(o) = task.operators.get(bytes[0] as usize + 256 * bytes[1] as usize) else {
            return refuse(17, step);
        };
        if !holds(&o.pre, &state) {
            return refuse(18, step);
        }
        cost += o.cost;
        if cost > task.bound {
            return refuse(19, step);
        }
        state = apply(&o.eff, &state);
    }
    Ok(Walked { cost, utility: task.utility(&state) })
}
