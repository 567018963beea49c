//! The ceiling: the greatest utility of any state with permitted values, reached or not. Every value of every variable is tried, one
//! variable after the other.

use crate::plan::{Place, Reached};
use crate::task::{Task, Term};
use std::collections::HashMap;

/// What the variables from `var` on can make of the terms that no earlier value rules out. Only terms that ask something of these variables
/// matter to what follows, so for the same ones of them it is worked out once.
fn most(task: &Task, var: usize, terms: &[usize], known: &mut HashMap<(usize, Vec<usize>), u64>) -> u64 {
    let asks_more = |t: &usize| task.terms[*t].facts.iter().any(|f| f.var as usize >= var);
    let (open, met): (Vec<usize>, Vec<usize>) = terms.iter().partition(|t| asks_more(t));
    let sum: u64 = met.iter().map(|&t| task.terms[t].weight).sum();
    if open.is_empty() {
        return sum;
    }
    let key = (var, open);
    if let Some(rest) = known.get(&key) {
        return sum + rest;
    }
    let allows = |term: &Term, value: u8| term.facts.iter().all(|f| f.var as usize != var || f.val == value);
    let rest = |value: u8| {
        let left: Vec<usize> = key.1.iter().copied().filter(|&t| allows(&task.terms[t], value)).collect();
        most(task, var + 1, &left, known)
    };
    let rest = (0..task.sizes[var]).map(rest).max().expect("a variable has values");
    known.insert(key, rest);
    sum + rest
}

pub fn ceiling(task: &Task) -> u64 {
    let all: Vec<usize> = (0..task.terms.len()).collect();
    most(task, 0, &all, &mut HashMap::new())
}

/// The last pair that may be made: the first with a state that attains the ceiling, and if there is none, any within the bound.
pub fn last_pair(task: &Task, reached: &Reached, ceiling: u64) -> Place {
    let attaining = reached.iter().filter(|(state, _)| task.utility(state) == ceiling);
    attaining.map(|(_, way)| way.place()).min().unwrap_or((task.bound, u64::MAX))
}
