//! The planner's definitions once more, straight from its scope document and without a thought for speed: the file check,
//! the writer, the walk, the best plan by a search over single states, all these states, the ceiling, the sets made with their node count,
//! and the question. It shares nothing with the proved library, so that each can be tested against the other.

pub mod ceiling;
pub mod diagrams;
pub mod plan;
pub mod question;
pub mod random;
pub mod search;
pub mod sets;
pub mod states;
pub mod task;
pub mod utility;
pub mod walk;
pub mod write;

/// The bytes of one of the repository's example files.
pub fn example(name: &str) -> Vec<u8> {
    std::fs::read(format!("{}/../../examples/{name}.bpt", env!("CARGO_MANIFEST_DIR"))).expect("an example file")
}
