//! The planner's numbered refusals, as include/laurelsnap.h has them.

/// A numbered refusal. The value is the record's number for 7, 9 and 10, the step's for 17, 18 and 19, and else 0.
#[derive(Clone, Copy, Debug, PartialEq, Eq)]
pub struct Refusal {
    pub number: u64,
    pub value: u64,
}

impl Refusal {
    pub const SHORT_FILE: u64 = 1;
    pub const LONG_FILE: u64 = 2;
    pub const LETTERS: u64 = 3;
    pub const LENGTH_FIELD: u64 = 4;
    pub const COUNTS: u64 = 5;
    pub const SECTIONS: u64 = 6;
    pub const VARIABLE: u64 = 7;
    pub const BITS: u64 = 8;
    pub const OPERATOR: u64 = 9;
    pub const TERM: u64 = 10;
    pub const LISTS: u64 = 12;
    pub const UTILITY_ENTRIES: u64 = 13;
    pub const NODES: u64 = 14;
    pub const PLAN_LIST: u64 = 15;
    pub const ODD_PLAN: u64 = 16;
    pub const NO_OPERATOR: u64 = 17;
    pub const PRECONDITION: u64 = 18;
    pub const BOUND: u64 = 19;
    pub const STATE: u64 = 20;
    pub const NODE_LISTS: u64 = 21;
    pub const OUTPUT_LIST: u64 = 22;
    pub const PAIRS: u64 = 23;
    pub const STATES: u64 = 24;

    /// The cause in words.
    pub fn cause(&self) -> &'static str {
        match self.number {
            Refusal::SHORT_FILE => "the file is under 28 bytes",
            Refusal::LONG_FILE => "the file is over 16,384 bytes",
            Refusal::LETTERS => "the file does not begin with the letters BPT1",
            Refusal::LENGTH_FIELD => "the length field differs from the file",
            Refusal::COUNTS => "a count or the bound is outside its range",
            Refusal::SECTIONS => "a section lies outside the file or in its header, or two overlap",
            Refusal::VARIABLE => "a variable record is against the rules",
            Refusal::BITS => "the variables take more than 48 bits",
            Refusal::OPERATOR => "an operator record is against the rules",
            Refusal::TERM => "a term record is against the rules",
            Refusal::LISTS => "the lists of pairs, states, nodes or utility entries are unequal or too long",
            Refusal::UTILITY_ENTRIES => "the utility lists are too short",
            Refusal::NODES => "the node lists are too short",
            Refusal::PLAN_LIST => "the plan list is too short",
            Refusal::ODD_PLAN => "the plan has an odd number of bytes",
            Refusal::NO_OPERATOR => "there is no such operator",
            Refusal::PRECONDITION => "a precondition is unmet",
            Refusal::BOUND => "the cost so far is above the bound",
            Refusal::STATE => "the state has a wrong number of values, or one out of range",
            Refusal::NODE_LISTS => "the lists are no diagrams of the task",
            Refusal::OUTPUT_LIST => "the output list is too short",
            Refusal::PAIRS => "the lists of pairs are too short",
            Refusal::STATES => "the lists of states are too short",
            _ => "unknown cause",
        }
    }
}

impl std::fmt::Display for Refusal {
    fn fmt(&self, f: &mut std::fmt::Formatter) -> std::fmt::Result {
        write!(f, "refused {} {}: {}", self.number, self.value, self.cause())
    }
}

impl std::error::Error for Refusal {}
