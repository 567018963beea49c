//! The engine that lists states, asked of the proved library and of the reference planner, and compared in full: figures, the whole plan,
//! every state with its place, and what the lists keep; and the library's two engines with each other.

use crate::{refusal, same, Difference};
use laurelsnap::{search, states, Lists, Refusal, StateLists, StateRoom};
use reference::random::Dice;
use reference::search::LIST_MOST;
use reference::states::{Lengths, Listed};

/// The lengths of the two working lists, heads and links.
pub type Working = [usize; 2];

/// Working lists to try where there are so many states: none, one entry, odd lengths, as many entries as states, and more. Both may be
/// short, or one of them alone.
pub fn working(count: usize) -> [Working; 9] {
    let (odd, half) = ((count / 3) | 1, (count / 2) | 1);
    [[0, 0], [1, 1], [7, 3], [odd, half], [count, count], [2 * count + 1, 2 * count + 1], [0, count], [count, 0], [1, half]]
}

/// Lists full of noise, with this room and these working lists. The noise in the working lists is any numbers, or such as chains could have.
pub fn lent_states(dice: &mut Dice, room: StateRoom, working: Working) -> StateLists {
    let states = (0..room.states).map(|_| dice.number() >> dice.below(64)).collect();
    let mut noise = |count: usize| (0..count).map(|_| dice.number() as u32 >> dice.below(32)).collect::<Vec<u32>>();
    let (costs, steps) = (noise(room.states), noise(room.states));
    let plan = (0..room.steps).map(|_| dice.number() as u16).collect();
    let [heads, links] = working.map(|count| {
        let most = if dice.one_in(2) { usize::MAX } else { room.states + 2 };
        (0..count).map(|_| dice.below(most) as u32).collect()
    });
    StateLists { states, costs, steps, heads, links, plan }
}

fn lengths(lists: &StateLists) -> Lengths {
    Lengths { states: [lists.states.len(), lists.costs.len(), lists.steps.len()], plan: lists.plan.len() }
}

/// Whether the lists still hold what a refusal keeps: everything up to 12, working lists too; else the plan.
fn kept(number: u64, before: &StateLists, after: &StateLists) -> bool {
    match number {
        1..=12 => before == after,
        _ => before.plan == after.plan,
    }
}

/// What success reports and leaves in the lists: each state within the bound once, with its place.
fn compare_listed(
    listed: &laurelsnap::Listed,
    expected: &Listed,
    before: &StateLists,
    lists: &StateLists,
) -> Result<(), Difference> {
    same("utility", listed.utility, expected.best.utility)?;
    same("cost and bound", (listed.cost, listed.bound), (expected.best.cost, expected.task.bound))?;
    same("time", (listed.minutes, listed.units, listed.unused), expected.time())?;
    same("plan", listed.plan(lists), &expected.best.plan)?;
    same("states", listed.states, expected.states.len() as u64)?;
    let mut entries: Vec<_> = listed.entries(lists).map(|(state, cost, steps)| (state, (cost as u64, steps as u64))).collect();
    entries.sort();
    for (entry, state) in entries.iter().zip(&expected.states) {
        same("a state and its place", entry, state)?;
    }
    let (states, steps) = (listed.states as usize, listed.steps as usize);
    same("later plan entries", &lists.plan[steps..], &before.plan[steps..])?;
    same("later states", &lists.states[states..], &before.states[states..])?;
    same("later costs", &lists.costs[states..], &before.costs[states..])?;
    same("later steps", &lists.steps[states..], &before.steps[states..])
}

/// The states of one file listed in these lists, against what the reference answers.
fn compare_answer(file: &[u8], lists: &mut StateLists, expected: Result<&Listed, Refusal>) -> Result<(), Difference> {
    let before = lists.clone();
    match (states(file, lists), expected) {
        (Ok(listed), Ok(expected)) => compare_listed(&listed, expected, &before, lists),
        (got, Err(expected)) => {
            same("states", got, Err(expected))?;
            same("a refusal keeps its lists", kept(expected.number, &before, lists), true)
        }
        (Err(got), Ok(expected)) => {
            Err(Difference { at: "states".to_string(), library: got.to_string(), reference: expected.listing() })
        }
    }
}

/// The states of one file listed in these lists, compared in full: what the reference listed, or the refusal that both gave. The lists are
/// left as the library leaves them.
pub fn compare_states(file: &[u8], lists: &mut StateLists) -> Result<Result<Listed, Refusal>, Difference> {
    let expected = reference::states::states(file, &lengths(lists)).map_err(refusal);
    compare_answer(file, lists, expected.as_ref().map_err(|refusal| *refusal))?;
    Ok(expected)
}

/// The states of one file in lists of many lengths: exactly long enough with working lists of each kind, longer, one entry too short (24),
/// and with a plan list one step too short (15). What the reference listed, or the refusal that both gave with the longest lists.
pub fn compare_all_states(dice: &mut Dice, file: &[u8]) -> Result<Result<Listed, Refusal>, Difference> {
    let longest = Lengths { states: [LIST_MOST; 3], plan: LIST_MOST };
    let Ok(listed) = reference::states::states(file, &longest) else {
        return compare_states(file, &mut StateLists::new(StateRoom { states: LIST_MOST, steps: LIST_MOST }));
    };
    let exact = StateRoom { states: listed.states.len(), steps: listed.best.plan.len() };
    let shapes = working(exact.states);
    let more = dice.between(1, 9);
    let longer = StateRoom { states: exact.states + more, steps: exact.steps + more };
    let mut tried: Vec<(StateRoom, Working, u64)> = shapes.map(|shape| (exact, shape, 0)).to_vec();
    tried.push((longer, dice.pick(&shapes), 0));
    tried.push((StateRoom { states: exact.states - 1, ..exact }, dice.pick(&shapes), 24));
    if exact.steps > 0 {
        tried.push((StateRoom { steps: exact.steps - 1, ..exact }, dice.pick(&shapes), 15));
    }
    for (room, shape, number) in tried {
        let expected = if number == 0 { Ok(&listed) } else { Err(Refusal { number, value: 0 }) };
        let told = |difference: Difference| Difference {
            at: format!("{} ({room:?}, working lists of {shape:?} entries)", difference.at),
            ..difference
        };
        compare_answer(file, &mut lent_states(dice, room, shape), expected).map_err(told)?;
    }
    Ok(Ok(listed))
}

/// The library's two engines on one file: utility, cost, bound, time, steps and plan are the same wherever both accept. Whether both do.
pub fn compare_engines(file: &[u8], lists: &mut Lists, state_lists: &mut StateLists) -> Result<bool, Difference> {
    let (Ok(found), Ok(listed)) = (search(file, lists), states(file, state_lists)) else { return Ok(false) };
    let of_search = ([found.utility, found.cost, found.bound, found.minutes, found.units, found.unused], found.plan(lists));
    let of_states =
        ([listed.utility, listed.cost, listed.bound, listed.minutes, listed.units, listed.unused], listed.plan(state_lists));
    if of_search != of_states {
        let (at, library) = ("the library's engines".to_string(), format!("search {of_search:?}, states {of_states:?}"));
        return Err(Difference { at, library, reference: "one best plan, which both should find".to_string() });
    }
    Ok(true)
}
