//! The search and the question, over vectors that are lent to the library for the call.

use crate::{ffi, Refusal, LIST_MOST};

/// The lists that a search is lent: the four lists of pairs, node and utility lists, working lists and the plan. A search writes into
/// them, a question reads them again. Lengths may be anything; the search refuses those it cannot work with.
///
/// For each non-empty pair of cost and steps that is made, in rising order, there are its cost, its steps, the name of the set of states that
/// have this place, and that of those on a way to the best ones (0 past the best plan's pair). No pair is made after the first that has a
/// state of the ceiling's utility.
#[derive(Clone, Debug, Default, PartialEq, Eq)]
pub struct Lists {
    pub costs: Vec<u32>,
    pub steps: Vec<u32>,
    pub sets: Vec<u32>,
    pub wanted: Vec<u32>,
    pub bit: Vec<u32>,
    pub low: Vec<u32>,
    pub high: Vec<u32>,
    pub utility_bit: Vec<u32>,
    pub utility_low: Vec<u32>,
    pub utility_high: Vec<u32>,
    pub heads: Vec<u32>,
    pub chain: Vec<u32>,
    pub memo: Vec<u32>,
    pub plan: Vec<u16>,
}

/// What lists have room for: nodes, utility entries, pairs, and steps of the plan. A plan has fewer steps than there are pairs, and there
/// are no more pairs than states.
#[derive(Clone, Copy, Debug, PartialEq, Eq)]
pub struct Room {
    pub nodes: usize,
    pub utility: usize,
    pub pairs: usize,
    pub steps: usize,
}

impl Room {
    /// As much room as lists may have: 98 MB, of which a search takes what it writes to.
    pub const MOST: Room = Room { nodes: LIST_MOST, utility: LIST_MOST, pairs: LIST_MOST, steps: LIST_MOST };
}

/// Words of the memo's two headers, and for each node entry.
const MEMO_HEADER: usize = 12_312;
const MEMO_WORDS: usize = 12;

impl Lists {
    /// Lists with this room and working lists to match, as laurelsnap_share makes them in C.
    pub fn new(room: Room) -> Lists {
        let working = room.nodes.max(room.utility);
        let [costs, steps, sets, wanted] = [(); 4].map(|()| vec![0; room.pairs]);
        let [bit, low, high] = [(); 3].map(|()| vec![0; room.nodes]);
        let [utility_bit, utility_low, utility_high] = [(); 3].map(|()| vec![0; room.utility]);
        let [heads, chain] = [(); 2].map(|()| vec![0; working]);
        let memo = vec![0; MEMO_HEADER + MEMO_WORDS * working];
        let plan = vec![0; room.steps];
        Lists { costs, steps, sets, wanted, bit, low, high, utility_bit, utility_low, utility_high, heads, chain, memo, plan }
    }
}

/// What a search reports: the listing's figures, in the listing's order, and among them the number of non-empty pairs made.
#[derive(Clone, Copy, Debug, PartialEq, Eq)]
#[repr(C)]
pub struct Found {
    pub utility: u64,
    /// The greatest utility of any state with permitted values, reached or not.
    pub ceiling: u64,
    /// In units of ten seconds, as the bound.
    pub cost: u64,
    pub bound: u64,
    /// The cost in whole minutes, and the units left over, 0 to 5.
    pub minutes: u64,
    pub units: u64,
    /// The units of the bound that the plan leaves.
    pub unused: u64,
    pub nodes: u64,
    pub entries: u64,
    pub pairs: u64,
    pub steps: u64,
}

impl Found {
    /// The best plan, which the search has left in the lists.
    pub fn plan<'a>(&self, lists: &'a Lists) -> &'a [u16] {
        &lists.plan[..self.steps as usize]
    }
}

/// Where a state stands: at its least cost and the fewest steps at that cost, if the pairs that the search has made reach it.
#[derive(Clone, Copy, Debug, PartialEq, Eq)]
pub enum Place {
    At { cost: u64, steps: u64 },
    NotReached,
}

/// The search for the best plan (refusals 1 to 10, 12 to 15 and 23). After refusals 1 to 12 the lists hold what they held before; after 13 the lists
/// of pairs, the nodes and the plan do; after 14, 15 and 23 the plan does.
pub fn search(file: &[u8], lists: &mut Lists) -> Result<Found, Refusal> {
    // SAFETY: the pointers and lengths are those of a slice and of different vectors, lent for the call.
    let report = unsafe {
        ffi::laurelsnap_search(
            file.as_ptr(),
            file.len(),
            lists.costs.as_mut_ptr(),
            lists.costs.len(),
            lists.steps.as_mut_ptr(),
            lists.steps.len(),
            lists.sets.as_mut_ptr(),
            lists.sets.len(),
            lists.wanted.as_mut_ptr(),
            lists.wanted.len(),
            lists.bit.as_mut_ptr(),
            lists.bit.len(),
            lists.low.as_mut_ptr(),
            lists.low.len(),
            lists.high.as_mut_ptr(),
            lists.high.len(),
            lists.utility_bit.as_mut_ptr(),
            lists.utility_bit.len(),
            lists.utility_low.as_mut_ptr(),
            lists.utility_low.len(),
            lists.utility_high.as_mut_ptr(),
            lists.utility_high.len(),
            lists.heads.as_mut_ptr(),
            lists.heads.len(),
            lists.chain.as_mut_ptr(),
            lists.chain.len(),
            lists.memo.as_mut_ptr(),
            lists.memo.len(),
            lists.plan.as_mut_ptr(),
            lists.plan.len(),
        )
    };
    if report.number != 0 {
        return Err(Refusal { number: report.number, value: report.value });
    }
    Ok(report.found)
}

/// The question about one state, a byte per variable, over lists that a search has left with so many nodes and pairs (refusals 1 to 12, 20
/// and 21).
pub fn question(file: &[u8], lists: &Lists, nodes: u64, pairs: u64, state: &[u8]) -> Result<Place, Refusal> {
    // SAFETY: the pointers and lengths are those of slices, which are only read.
    let answer = unsafe {
        ffi::laurelsnap_question(
            file.as_ptr(),
            file.len(),
            state.as_ptr(),
            state.len(),
            lists.costs.as_ptr(),
            lists.costs.len(),
            lists.steps.as_ptr(),
            lists.steps.len(),
            lists.sets.as_ptr(),
            lists.sets.len(),
            lists.wanted.as_ptr(),
            lists.wanted.len(),
            lists.bit.as_ptr(),
            lists.bit.len(),
            lists.low.as_ptr(),
            lists.low.len(),
            lists.high.as_ptr(),
            lists.high.len(),
            nodes as usize,
            pairs as usize,
        )
    };
    match (answer.number, answer.reached) {
        (0, 0) => Ok(Place::NotReached),
        (0, _) => Ok(Place::At { cost: answer.cost, steps: answer.steps }),
        (number, _) => Err(Refusal { number, value: answer.value }),
    }
}
