//! The best plan by the engine that has room for it, and the ceiling.

use crate::{check, search, states, Found, Listed, Lists, Refusal, Room, StateLists, StateRoom};

/// The engine that found a plan, with all that it reports.
#[derive(Clone, Copy, Debug, PartialEq, Eq)]
pub enum Engine {
    Listed(Listed),
    Searched(Found),
}

/// The best plan, with the figures that both engines report.
#[derive(Clone, Debug, PartialEq, Eq)]
pub struct Best {
    pub utility: u64,
    /// In units of ten seconds, as the bound.
    pub cost: u64,
    pub bound: u64,
    /// The cost in whole minutes, and the units left over, 0 to 5.
    pub minutes: u64,
    pub units: u64,
    /// The units of the bound that the plan leaves.
    pub unused: u64,
    pub plan: Vec<u16>,
    pub engine: Engine,
}

fn by_states(file: &[u8]) -> Result<Best, Refusal> {
    let mut lists = StateLists::new(StateRoom::MOST);
    let l = states(file, &mut lists)?;
    let Listed { utility, cost, bound, minutes, units, unused, .. } = l;
    Ok(Best { utility, cost, bound, minutes, units, unused, plan: l.plan(&lists).to_vec(), engine: Engine::Listed(l) })
}

fn by_search(file: &[u8]) -> Result<Best, Refusal> {
    let mut lists = Lists::new(Room::MOST);
    let f = search(file, &mut lists)?;
    let Found { utility, cost, bound, minutes, units, unused, .. } = f;
    Ok(Best { utility, cost, bound, minutes, units, unused, plan: f.plan(&lists).to_vec(), engine: Engine::Searched(f) })
}

/// The best plan: by the engine that lists states and, if there are more states than that has room for (24), by the search. Refusals 1 to 10
/// say that the file is no task; 13, 14 and 23 that neither engine has room.
pub fn plan(file: &[u8]) -> Result<Best, Refusal> {
    match by_states(file) {
        Err(Refusal { number: Refusal::STATES, .. }) => by_search(file),
        answer => answer,
    }
}

/// The ceiling, the greatest utility of any state with permitted values, reached or not (refusals 1 to 10 and 13). The search tells it of the
/// same task without moves: a copy of the file with no operators and the bound 0.
pub fn ceiling(file: &[u8]) -> Result<u64, Refusal> {
    check(file)?;
    let mut still = file.to_vec();
    for at in [6, 7, 10, 11] {
        still[at] = 0;
    }
    let mut lists = Lists::new(Room { nodes: 48, pairs: 1, steps: 0, ..Room::MOST });
    search(&still, &mut lists).map(|found| found.ceiling)
}

/// The cost of an operator of a file; nothing for a refused file or a number without an operator.
pub fn operator_cost(file: &[u8], number: u16) -> Option<u64> {
    check(file).ok()?;
    let at = |place: usize| u16::from_le_bytes([file[place], file[place + 1]]);
    // the section's offset fits two of its four bytes
    (number < at(6)).then(|| u64::from(at(at(16) as usize + 36 * number as usize)))
}
