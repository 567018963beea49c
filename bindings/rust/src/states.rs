//! The engine that lists states, over vectors that are lent to the library for the call.

use crate::{ffi, Refusal, LIST_MOST};

/// The lists that the engine is lent: states with their places, working lists and the plan. Lengths may be anything; the engine refuses
/// those it cannot work with.
///
/// For each state that can be reached within the bound, once and in any order, there are the state, its least cost, and the fewest steps at
/// that cost. A state is a number: a variable takes the fewest bits that can number its values, bits follow the file's variables, high bit
/// first, and bit k, from 0 on, is worth 2^k.
#[derive(Clone, Debug, Default, PartialEq, Eq)]
pub struct StateLists {
    pub states: Vec<u64>,
    pub costs: Vec<u32>,
    pub steps: Vec<u32>,
    pub heads: Vec<u32>,
    pub links: Vec<u32>,
    pub plan: Vec<u16>,
}

/// What lists have room for: states, and steps of the plan, which has fewer than there are states.
#[derive(Clone, Copy, Debug, PartialEq, Eq)]
pub struct StateRoom {
    pub states: usize,
    pub steps: usize,
}

impl StateRoom {
    /// As much room as these lists may have: 26 MB, of which the engine takes what it writes to.
    pub const MOST: StateRoom = StateRoom { states: LIST_MOST, steps: LIST_MOST - 1 };
}

impl StateLists {
    /// Lists with this room and working lists to match, as laurelsnap_share_states makes them in C.
    pub fn new(room: StateRoom) -> StateLists {
        let states = vec![0; room.states];
        let [costs, steps, heads, links] = [(); 4].map(|()| vec![0; room.states]);
        let plan = vec![0; room.steps];
        StateLists { states, costs, steps, heads, links, plan }
    }
}

/// What the engine reports: the figures that a search reports, without ceiling and diagrams, and how many states are listed.
#[derive(Clone, Copy, Debug, PartialEq, Eq)]
#[repr(C)]
pub struct Listed {
    pub utility: u64,
    /// In units of ten seconds, as the bound.
    pub cost: u64,
    pub bound: u64,
    /// The cost in whole minutes, and the units left over, 0 to 5.
    pub minutes: u64,
    pub units: u64,
    /// The units of the bound that the plan leaves.
    pub unused: u64,
    pub states: u64,
    pub steps: u64,
}

impl Listed {
    /// The best plan, which the engine has left in the lists.
    pub fn plan<'a>(&self, lists: &'a StateLists) -> &'a [u16] {
        &lists.plan[..self.steps as usize]
    }

    /// The states that the engine has left in the lists, each with its cost and its steps.
    pub fn entries<'a>(&self, lists: &'a StateLists) -> impl Iterator<Item = (u64, u32, u32)> + 'a {
        (0..self.states as usize).map(|k| (lists.states[k], lists.costs[k], lists.steps[k]))
    }
}

/// The best plan, as the search finds it, from a list of all states that can be reached within the bound (refusals 1 to 12, 24 and 15).
/// Every pair of cost and steps up to the bound is made, past the ceiling too. After refusals 1 to 12 the lists hold what they held before;
/// after 24 and 15 the plan does. After success the entries past the states and past the plan do.
pub fn states(file: &[u8], lists: &mut StateLists) -> Result<Listed, Refusal> {
    // SAFETY: the pointers and lengths are those of a slice and of different vectors, lent for the call.
    let report = unsafe {
        ffi::laurelsnap_states(
            file.as_ptr(),
            file.len(),
            lists.states.as_mut_ptr(),
            lists.states.len(),
            lists.costs.as_mut_ptr(),
            lists.costs.len(),
            lists.steps.as_mut_ptr(),
            lists.steps.len(),
            lists.heads.as_mut_ptr(),
            lists.heads.len(),
            lists.links.as_mut_ptr(),
            lists.links.len(),
            lists.plan.as_mut_ptr(),
            lists.plan.len(),
        )
    };
    if report.number != 0 {
        return Err(Refusal { number: report.number, value: report.value });
    }
    Ok(report.listed)
}
