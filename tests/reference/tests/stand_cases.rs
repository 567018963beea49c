//! The scope document's stand cases, on the example files.

use reference::example;
use reference::plan::{best, Fault, Place};
use reference::search::{search, Lengths, OSP_LIST};
use reference::states::{self, states};
use reference::task::{check, encode, Operator, Refusal, Task};
use reference::walk::{walk, Walked};

fn figures(name: &str) -> (u64, u64, (u64, u64, u64), u64, u64, Vec<u16>) {
    let found = search(&example(name), &OSP_LIST).expect("a plan");
    let time = found.time();
    (found.best.utility, found.best.cost, time, found.nodes, found.entries, found.best.plan)
}

fn refused(number: u64, value: u64) -> Refusal {
    Refusal { number, value }
}

#[test]
fn p_and_q() {
    assert_eq!(figures("p-0"), (0, 0, (0, 0, 0), 2, 6, vec![]));
    assert_eq!(figures("p-1"), (2, 1, (0, 1, 0), 8, 6, vec![1]));
    assert_eq!(figures("p-2"), (3, 2, (0, 2, 0), 10, 6, vec![1, 2]));
    assert_eq!(figures("q-3"), (0, 0, (0, 0, 3), 5, 4, vec![]));
    assert_eq!(figures("q-4"), (7, 4, (0, 4, 0), 8, 4, vec![3]));
    assert_eq!(figures("q-5"), (7, 4, (0, 4, 1), 8, 4, vec![3]));
}

#[test]
fn the_listing() {
    let found = search(&example("p-1"), &OSP_LIST).expect("a plan");
    assert_eq!(found.listing(), "utility 2 of 3\ncost 1 of 1\ntime 0 1 0\nnodes 8 6\nsteps 1\n0 1 1 1\n");
}

#[test]
fn short_lists() {
    let number = |lengths: Lengths| search(&example("p-1"), &lengths).map_or_else(|r| r.number, |_| 0);
    assert_eq!(number(Lengths { nodes: [8; 3], ..OSP_LIST }), 0);
    assert_eq!(number(Lengths { nodes: [7; 3], ..OSP_LIST }), 14);
    assert_eq!(number(Lengths { utility: [6; 3], ..OSP_LIST }), 0);
    assert_eq!(number(Lengths { utility: [5; 3], ..OSP_LIST }), 13);
    assert_eq!(number(Lengths { plan: 0, ..OSP_LIST }), 15);
    assert_eq!(number(Lengths { pairs: [2; 4], ..OSP_LIST }), 0);
    assert_eq!(number(Lengths { pairs: [1; 4], ..OSP_LIST }), 23);
    assert_eq!(number(Lengths { pairs: [1; 4], nodes: [7; 3], ..OSP_LIST }), 14);
    assert_eq!(number(Lengths { pairs: [0; 4], nodes: [2; 3], ..OSP_LIST }), 23);
    assert_eq!(number(Lengths { pairs: [0; 4], nodes: [1; 3], ..OSP_LIST }), 14);
    assert_eq!(number(Lengths { pairs: [2, 2, 2, 3], ..OSP_LIST }), 12);
    assert_eq!(number(Lengths { pairs: [1_048_577; 4], ..OSP_LIST }), 12);
    assert_eq!(number(Lengths { nodes: [8, 8, 9], ..OSP_LIST }), 12);
    assert_eq!(number(Lengths { utility: [1_048_577; 3], ..OSP_LIST }), 12);
}

/// The states with their places, or the refusal's number.
fn listed(name: &str, count: usize, plan: usize) -> Result<Vec<(u64, Place)>, u64> {
    let lengths = states::Lengths { states: [count; 3], plan };
    states(&example(name), &lengths).map(|listed| listed.states).map_err(|r| r.number)
}

/// In P bit 0 is p and bit 1 is q. Q's one variable has two bits, the high one first: 2 has the number 1, and 1 has 2.
#[test]
fn states_with_their_places() {
    assert_eq!(listed("p-0", 1, 0), Ok(vec![(0, (0, 0))]));
    assert_eq!(listed("p-1", 3, 1), Ok(vec![(0, (0, 0)), (1, (1, 1)), (2, (1, 1))]));
    assert_eq!(listed("p-2", 4, 2), Ok(vec![(0, (0, 0)), (1, (1, 1)), (2, (1, 1)), (3, (2, 2))]));
    assert_eq!(listed("q-3", 2, 0), Ok(vec![(0, (0, 0)), (2, (2, 1))]));
    assert_eq!(listed("q-5", 3, 1), Ok(vec![(0, (0, 0)), (1, (4, 1)), (2, (2, 1))]));
    assert_eq!(listed("p-1", 2, 1), Err(24));
    assert_eq!(listed("p-1", 2, 0), Err(24));
    assert_eq!(listed("p-1", 3, 0), Err(15));
    assert_eq!(listed("p-1", 1_048_577, 1), Err(12));
}

#[test]
fn the_listing_of_states() {
    let listed = states(&example("p-1"), &states::Lengths { states: [3; 3], plan: 1 }).expect("a plan");
    assert_eq!(listed.listing(), "utility 2\ncost 1 of 1\ntime 0 1 0\nstates 3\nsteps 1\n0 1 1 1\n0 0 0\n1 1 1\n2 1 1\n");
}

#[test]
fn walks() {
    let steps = |plan: &[u16]| plan.iter().flat_map(|n| n.to_le_bytes()).collect::<Vec<u8>>();
    assert_eq!(walk(&example("p-2"), &steps(&[1, 2])), Ok(Walked { cost: 2, utility: 3 }));
    assert_eq!(walk(&example("p-1"), &steps(&[1, 2])), Err(refused(19, 1)));
    assert_eq!(walk(&example("p-2"), &steps(&[1, 1])), Err(refused(18, 1)));
    assert_eq!(walk(&example("p-2"), &steps(&[3])), Err(refused(17, 0)));
    assert_eq!(walk(&example("p-2"), &[1]), Err(refused(16, 0)));
}

fn bare(sizes: Vec<u8>) -> Task {
    Task { start: vec![0; sizes.len()], sizes, operators: vec![], terms: vec![], bound: 0 }
}

#[test]
fn limits() {
    assert!(check(&encode(&bare(vec![16]))).is_ok());
    assert_eq!(check(&encode(&bare(vec![2, 17]))), Err(refused(7, 1)));
    assert!(check(&encode(&bare(vec![16; 12]))).is_ok());
    assert_eq!(check(&encode(&bare([vec![16; 12], vec![2]].concat()))), Err(refused(8, 0)));
    let mut priced = bare(vec![2]);
    for (cost, number) in [(0, 0), (4_095, 0), (4_096, 9)] {
        priced.operators = vec![Operator { cost, pre: vec![], eff: vec![] }];
        assert_eq!(check(&encode(&priced)).map_or_else(|r| r.number, |_| 0), number);
    }
}

#[test]
fn faulty_planners_on_q() {
    let q = check(&example("q-5")).expect("a task");
    assert_eq!(best(&q, Fault::ClosedWhenGenerated).plan, [0]);
    assert_eq!(best(&q, Fault::StepsIgnored).plan, [1, 2]);
    let q = check(&example("q-4")).expect("a task");
    assert_eq!(best(&q, Fault::StrictBound).plan, []);
}

/// The worked task's reconciling move.
const RECONCILE: u16 = 18;

#[test]
fn the_worked_task_tells_the_faults_apart() {
    let found = search(&example("calibration"), &OSP_LIST).expect("a plan that fits osp-list's lists");
    let stored = std::fs::read_to_string(format!("{}/../../examples/calibration.listing", env!("CARGO_MANIFEST_DIR")));
    assert_eq!(found.listing(), stored.expect("the stored listing"));
    assert!(found.best.plan.contains(&RECONCILE));
    let faults = [
        Fault::ClosedWhenGenerated,
        Fault::OldValueMatters,
        Fault::StartValueMatters,
        Fault::StepsIgnored,
        Fault::FreeMovesIgnored,
        Fault::StrictBound,
    ];
    for fault in faults {
        let other = best(&found.task, fault);
        assert!(!other.plan.contains(&RECONCILE), "{fault:?} reconciles too");
        let steps: Vec<u8> = other.plan.iter().flat_map(|n| n.to_le_bytes()).collect();
        assert_eq!(walk(&example("calibration"), &steps), Ok(Walked { cost: other.cost, utility: other.utility }));
    }
}
