//! Reduced ordered diagrams with every node made once. Names: 0 the empty set, 1 the full one, node k is k + 2.

use std::collections::{HashMap, HashSet};

pub const EMPTY: u32 = 0;
pub const FULL: u32 = 1;

#[derive(Clone, Copy, Debug, PartialEq, Eq, Hash)]
pub struct Node {
    pub bit: u32,
    pub low: u32,
    pub high: u32,
}

#[derive(Clone, Copy, Debug, PartialEq, Eq, Hash)]
enum Op {
    Union,
    Intersection,
    Difference,
    Forget(u32),
}

#[derive(Default, Debug)]
pub struct Diagrams {
    nodes: Vec<Node>,
    unique: HashMap<Node, u32>,
    memo: HashMap<(Op, u32, u32), u32>,
}

impl Diagrams {
    pub fn node(&self, name: u32) -> Node {
        self.nodes[name as usize - 2]
    }

    pub fn make(&mut self, bit: u32, low: u32, high: u32) -> u32 {
        if low == high {
            return low;
        }
        let node = Node { bit, low, high };
        if let Some(&name) = self.unique.get(&node) {
            return name;
        }
        let name = self.nodes.len() as u32 + 2;
        self.nodes.push(node);
        self.unique.insert(node, name);
        name
    }

    fn top(&self, name: u32) -> u32 {
        if name < 2 {
            u32::MAX
        } else {
            self.node(name).bit
        }
    }

    fn parts(&self, name: u32, bit: u32) -> (u32, u32) {
        if self.top(name) == bit {
            (self.node(name).low, self.node(name).high)
        } else {
            (name, name)
        }
    }

    fn combine(&mut self, op: Op, a: u32, b: u32) -> u32 {
        let known = match op {
            Op::Union if a == FULL || b == FULL => Some(FULL),
            Op::Union if a == EMPTY => Some(b),
            Op::Union if b == EMPTY => Some(a),
            Op::Intersection if a == EMPTY || b == EMPTY => Some(EMPTY),
            Op::Intersection if a == FULL => Some(b),
            Op::Intersection if b == FULL => Some(a),
            Op::Difference if a == EMPTY || b == FULL => Some(EMPTY),
            Op::Difference if b == EMPTY => Some(a),
            _ => None,
        };
        if let Some(name) = known.or_else(|| self.memo.get(&(op, a, b)).copied()) {
            return name;
        }
        let bit = self.top(a).min(self.top(b));
        let ((a0, a1), (b0, b1)) = (self.parts(a, bit), self.parts(b, bit));
        let low = self.combine(op, a0, b0);
        let high = self.combine(op, a1, b1);
        let name = self.make(bit, low, high);
        self.memo.insert((op, a, b), name);
        name
    }

    pub fn union(&mut self, a: u32, b: u32) -> u32 {
        self.combine(Op::Union, a, b)
    }

    pub fn intersection(&mut self, a: u32, b: u32) -> u32 {
        self.combine(Op::Intersection, a, b)
    }

    pub fn difference(&mut self, a: u32, b: u32) -> u32 {
        self.combine(Op::Difference, a, b)
    }

    /// The set with one bit forgotten.
    pub fn forget(&mut self, bit: u32, a: u32) -> u32 {
        if self.top(a) > bit {
            return a;
        }
        if let Some(&name) = self.memo.get(&(Op::Forget(bit), a, EMPTY)) {
            return name;
        }
        let node = self.node(a);
        let name = if node.bit == bit {
            self.union(node.low, node.high)
        } else {
            let low = self.forget(bit, node.low);
            let high = self.forget(bit, node.high);
            self.make(node.bit, low, high)
        };
        self.memo.insert((Op::Forget(bit), a, EMPTY), name);
        name
    }

    /// The bit patterns in which all literals (in rising bit number) hold.
    pub fn cube(&mut self, literals: &[(u32, bool)]) -> u32 {
        literals.iter().rev().fold(
            FULL,
            |rest, &(bit, value)| {
                if value {
                    self.make(bit, EMPTY, rest)
                } else {
                    self.make(bit, rest, EMPTY)
                }
            },
        )
    }

    /// Adds the names of the inner nodes in a set's diagram.
    pub fn note_nodes(&self, set: u32, seen: &mut HashSet<u32>) {
        let mut rest = vec![set];
        while let Some(name) = rest.pop() {
            if name >= 2 && seen.insert(name) {
                rest.extend([self.node(name).low, self.node(name).high]);
            }
        }
    }

    /// The number of patterns of so many bits in a set.
    pub fn members(&self, set: u32, bits: u32) -> u64 {
        let mut known = HashMap::from([(EMPTY, 0), (FULL, 1)]);
        let count = self.members_below(set, bits, &mut known);
        count << self.top(set).min(bits)
    }

    /// The number of patterns of the bits from the set's top bit on.
    fn members_below(&self, set: u32, bits: u32, known: &mut HashMap<u32, u64>) -> u64 {
        if let Some(&count) = known.get(&set) {
            return count;
        }
        let node = self.node(set);
        let mut part = |child: u32| self.members_below(child, bits, known) << (self.top(child).min(bits) - node.bit - 1);
        let count = part(node.low) + part(node.high);
        known.insert(set, count);
        count
    }
}
