//! Laurelsnap for Rust: the proved planner's functions with slices and vectors in place of pointers and lengths.
//!
//! A task is the bytes of a BPT1 file. Every input gets an answer: a result, or a refusal with the planner's two numbers.
//!
//! ```no_run
//! let file = std::fs::read("examples/calibration.bpt").unwrap();
//! match laurelsnap::plan(&file) {
//!     Ok(best) => println!("utility {} at {}: {:?}", best.utility, best.cost, best.plan),
//!     Err(refusal) => println!("{refusal}"),
//! }
//! ```

mod ffi;
mod plan;
mod refusal;
mod search;
mod states;

pub use plan::{ceiling, operator_cost, plan, Best, Engine};
pub use refusal::Refusal;
pub use search::{question, search, Found, Lists, Place, Room};
pub use states::{states, Listed, StateLists, StateRoom};

/// The most bytes that a task file has, and its canonical file.
pub const FILE_MOST: usize = 16_384;
pub const CANONICAL_MOST: usize = 12_380;
/// The most entries that a list of pairs, states, nodes or utility entries has.
pub const LIST_MOST: usize = 1_048_576;

/// What a plan that can be walked costs, and the utility of the state it ends in.
#[derive(Clone, Copy, Debug, PartialEq, Eq)]
pub struct Walked {
    pub cost: u64,
    pub utility: u64,
}

/// The two values of an answer, or its refusal.
fn values(answer: ffi::Answer) -> Result<(u64, u64), Refusal> {
    match answer.number {
        0 => Ok((answer.first, answer.second)),
        number => Err(Refusal { number, value: answer.first }),
    }
}

/// The file check (refusals 1 to 10).
pub fn check(file: &[u8]) -> Result<(), Refusal> {
    // SAFETY: the pointer and length are those of a slice, which is only read.
    values(unsafe { ffi::laurelsnap_check(file.as_ptr(), file.len()) }).map(|_| ())
}

/// The writer (refusals 1 to 10 and 22): puts the task's canonical file at the front of the list and gives its length. The bytes past it stay,
/// and after a refusal the whole list does. The canonical file has the variables, operators and terms in this order without gaps, so files
/// that differ only in gaps and section order have the same one.
pub fn write(file: &[u8], out: &mut [u8]) -> Result<usize, Refusal> {
    // SAFETY: the pointers and lengths are those of two slices, of which one is only read and the other lent for the call.
    values(unsafe { ffi::laurelsnap_write(file.as_ptr(), file.len(), out.as_mut_ptr(), out.len()) })
        .map(|(length, _)| length as usize)
}

/// The task's canonical file as a vector (refusals 1 to 10). It is never longer than the file given.
pub fn canonical(file: &[u8]) -> Result<Vec<u8>, Refusal> {
    let mut out = vec![0; file.len()];
    let length = write(file, &mut out)?;
    out.truncate(length);
    Ok(out)
}

/// The walk of a plan (refusals 1 to 10 and 17 to 19).
pub fn walk(file: &[u8], plan: &[u16]) -> Result<Walked, Refusal> {
    let bytes: Vec<u8> = plan.iter().flat_map(|step| step.to_le_bytes()).collect();
    walk_bytes(file, &bytes)
}

/// The walk of a plan of two bytes per step, low byte first (refusals 1 to 10 and 16 to 19).
pub fn walk_bytes(file: &[u8], plan: &[u8]) -> Result<Walked, Refusal> {
    // SAFETY: the pointers and lengths are those of slices, which are only read.
    values(unsafe { ffi::laurelsnap_walk(file.as_ptr(), file.len(), plan.as_ptr(), plan.len()) })
        .map(|(cost, utility)| Walked { cost, utility })
}
