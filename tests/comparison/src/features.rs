//! What generated tasks should have so that agreeing on them says something, told from what the single-state search found.

use reference::plan::{best, reach, Fault};
use reference::search::Found;
use reference::task::{apply, holds, Operator, State};
use std::collections::HashMap;

/// The names of the features, in the order of `features`.
pub const NAMES: [&str; 19] = [
    "many equal cost sums",
    "ties in utility",
    "effects without preconditions",
    "domains that are no powers of two",
    "plans of several steps",
    "plans of a minute or more",
    "plans with free moves",
    "cycles of free moves",
    "a hundred free steps in a row",
    "more steps at equal cost",
    "gaps in the steps of a cost",
    "a domain of 3 values",
    "a domain of 5 values",
    "a domain of 9 values",
    "terms that exclude each other",
    "a ceiling attained at the start",
    "a ceiling attained at a later pair with pairs left",
    "a ceiling attained at the last pair",
    "a ceiling that is not attained",
];

/// So many states with several cheapest sequences are many.
const MANY: usize = 3;
/// So many free steps in a row are a long chain.
const LONG: u64 = 100;

/// How many states end several cheapest sequences that differ in their last step.
fn equal_sums(found: &Found) -> usize {
    let mut last_steps: HashMap<State, usize> = HashMap::new();
    for (state, way) in &found.reached {
        for o in found.task.operators.iter().filter(|o| holds(&o.pre, state)) {
            let next = apply(&o.eff, state);
            if found.reached.get(&next).is_some_and(|w| w.cost == way.cost + o.cost) {
                *last_steps.entry(next).or_default() += 1;
            }
        }
    }
    last_steps.values().filter(|&&n| n > 1).count()
}

/// The moves that change a state for nothing, and where they lead in the pairs made.
fn free_moves<'a>(found: &'a Found, state: &'a State) -> impl Iterator<Item = State> + 'a {
    let free = |o: &&Operator| o.cost == 0 && holds(&o.pre, state);
    let made = move |next: &State| next != state && found.reached.contains_key(next);
    found.task.operators.iter().filter(free).map(|o| apply(&o.eff, state)).filter(made)
}

/// Whether free moves lead from some state around and back: taking away states that no free move leads to does not end in none.
fn free_cycle(found: &Found) -> bool {
    let mut leading: HashMap<State, usize> = HashMap::new();
    for state in found.reached.keys() {
        for next in free_moves(found, state) {
            *leading.entry(next).or_default() += 1;
        }
    }
    let mut rest: Vec<&State> = found.reached.keys().filter(|s| !leading.contains_key(*s)).collect();
    let mut taken = 0;
    while let Some(state) = rest.pop() {
        taken += 1;
        for next in free_moves(found, state) {
            let count = leading.get_mut(&next).expect("counted above");
            *count -= 1;
            if *count == 0 {
                rest.push(found.reached.get_key_value(&next).expect("free moves in the pairs made").0);
            }
        }
    }
    taken < found.reached.len()
}

/// The most free steps in a row on the first way to a state.
fn free_row(found: &Found) -> u64 {
    let free = |&o: &u16| found.task.operators[o as usize].cost == 0;
    let row = |plan: &[u16]| plan.split(|o| !free(o)).map(|row| row.len()).max().unwrap_or(0);
    found.reached.values().map(|way| row(&way.plan)).max().unwrap_or(0) as u64
}

/// Whether some state is reached again at its least cost, in more steps than the fewest.
fn longer_ways(found: &Found) -> bool {
    let again =
        |next: &State, cost: u64, steps: u64| found.reached.get(next).is_some_and(|w| w.cost == cost && w.place().1 < steps);
    found.reached.iter().any(|(state, way)| {
        let moves = found.task.operators.iter().filter(|o| holds(&o.pre, state));
        moves
            .map(|o| (apply(&o.eff, state), way.cost + o.cost))
            .any(|(next, cost)| next != *state && again(&next, cost, way.place().1 + 1))
    })
}

/// Whether a cost has pairs with some steps, and with more steps, and none between.
fn gap(found: &Found) -> bool {
    let pairs: Vec<_> = found.sets.levels.keys().collect();
    pairs.windows(2).any(|p| p[0].0 == p[1].0 && p[0].1 + 1 < p[1].1)
}

/// How many states have the best plan's utility.
fn as_useful(found: &Found) -> usize {
    found.reached.keys().filter(|s| found.task.utility(s) == found.best.utility).count()
}

/// Whether an operator that some state allows has an effect on a variable that its preconditions do not name.
fn free_effect(found: &Found) -> bool {
    let allowed = |pre: &_| found.reached.keys().any(|s| holds(pre, s));
    let free = found.task.operators.iter().filter(|o| o.eff.iter().any(|e| o.pre.iter().all(|p| p.var != e.var)));
    free.map(|o| &o.pre).any(|pre| allowed(pre))
}

/// Whether the best plan's utility is the ceiling, and whether states within the bound are past the pairs made.
fn attained(found: &Found) -> (bool, bool) {
    (found.best.utility == found.ceiling, reach(&found.task, Fault::None).len() > found.reached.len())
}

/// Which features the task has.
pub fn features(found: &Found) -> [bool; NAMES.len()] {
    let domain = |values: u8| found.task.sizes.contains(&values);
    let (attained, left) = attained(found);
    let later = found.goal() > (0, 0);
    [
        equal_sums(found) >= MANY,
        found.best.utility > 0 && as_useful(found) > 1,
        free_effect(found),
        found.task.sizes.iter().any(|d| !d.is_power_of_two()),
        found.best.plan.len() > 1,
        found.time().0 > 0,
        found.best.plan.iter().any(|&o| found.task.operators[o as usize].cost == 0),
        free_cycle(found),
        free_row(found) >= LONG,
        longer_ways(found),
        gap(found),
        domain(3),
        domain(5),
        domain(9),
        found.task.terms.iter().map(|t| t.weight).sum::<u64>() > found.ceiling,
        found.ceiling > 0 && attained && !later,
        attained && later && left,
        attained && later && !left,
        !attained,
    ]
}

/// The faults of a planner that still hands over a runnable list, with their names.
pub const FAULTS: [(&str, Fault); 5] = [
    ("a state closed when generated", Fault::ClosedWhenGenerated),
    ("an old value that matters", Fault::OldValueMatters),
    ("steps that do not count", Fault::StepsIgnored),
    ("free moves that are ignored", Fault::FreeMovesIgnored),
    ("a strict bound", Fault::StrictBound),
];

/// Which faults the task shows: a planner that has one hands over another plan.
pub fn shown(found: &Found) -> [bool; FAULTS.len()] {
    FAULTS.map(|(_, fault)| best(&found.task, fault) != found.best)
}
