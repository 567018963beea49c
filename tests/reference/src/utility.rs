//! The utility diagram, made as the constant 0 and then with each term added in turn, and its entry count.

use crate::task::Task;
use std::collections::{HashMap, HashSet};

#[derive(Clone, Copy, Debug, PartialEq, Eq, Hash)]
enum Node {
    End(u64),
    Inner { bit: u32, low: usize, high: usize },
}

#[derive(Default)]
struct Utility {
    nodes: Vec<Node>,
    unique: HashMap<Node, usize>,
}

impl Utility {
    fn make(&mut self, node: Node) -> usize {
        if let Node::Inner { low, high, .. } = node {
            if low == high {
                return low;
            }
        }
        if let Some(&name) = self.unique.get(&node) {
            return name;
        }
        self.nodes.push(node);
        self.unique.insert(node, self.nodes.len() - 1);
        self.nodes.len() - 1
    }

    /// The diagram with the weight added wherever all literals hold.
    fn add(&mut self, name: usize, literals: &[(u32, bool)], weight: u64, memo: &mut HashMap<(usize, usize), usize>) -> usize {
        if let Some(&sum) = memo.get(&(name, literals.len())) {
            return sum;
        }
        let top = match self.nodes[name] {
            Node::End(_) => u32::MAX,
            Node::Inner { bit, .. } => bit,
        };
        let asked = literals.first().map_or(u32::MAX, |l| l.0);
        let sum = if let (Node::End(value), []) = (self.nodes[name], literals) {
            self.make(Node::End(value + weight))
        } else {
            let bit = top.min(asked);
            let (low, high) = match self.nodes[name] {
                Node::Inner { low, high, .. } if top == bit => (low, high),
                _ => (name, name),
            };
            let (low, high) = if asked > bit {
                (self.add(low, literals, weight, memo), self.add(high, literals, weight, memo))
            } else if literals[0].1 {
                (low, self.add(high, &literals[1..], weight, memo))
            } else {
                (self.add(low, &literals[1..], weight, memo), high)
            };
            self.make(Node::Inner { bit, low, high })
        };
        memo.insert((name, literals.len()), sum);
        sum
    }
}

/// The different nodes over all stages, end values included.
pub fn entries(task: &Task) -> usize {
    let mut utility = Utility::default();
    let mut stages = vec![utility.make(Node::End(0))];
    for term in &task.terms {
        let last = stages[stages.len() - 1];
        stages.push(utility.add(last, &task.literals(&term.facts), term.weight, &mut HashMap::new()));
    }
    let mut seen = HashSet::new();
    while let Some(name) = stages.pop() {
        if seen.insert(name) {
            if let Node::Inner { low, high, .. } = utility.nodes[name] {
                stages.extend([low, high]);
            }
        }
    }
    seen.len()
}
