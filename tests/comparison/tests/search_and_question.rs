//! The library's search and question against the reference: figures, plan, every pair made, the node entries, and what each refusal
//! leaves as it was.

use comparison::{compare_question, compare_search, lent};
use laurelsnap::{question, search, Lists, Place, Refusal, Room};
use reference::ceiling::{ceiling, last_pair};
use reference::example;
use reference::plan::{reach, Fault};
use reference::random::{counter_task, damage, file, task, terms_task, Dice};
use reference::search::Lengths;
use reference::task::{encode, Fact, Operator, Task, Term};

/// More than most generated tasks need, and no more nodes than the longest working list has links.
const ROOM: Room = Room { nodes: 20_000, utility: 300, pairs: 2_048, steps: 2_048 };

/// One search with these lists, compared in full; the refusal's number, or 0.
fn compare(file: &[u8], lists: Lists) -> u64 {
    match compare_search(file, lists) {
        Ok(both) => both.map_or_else(|refusal| refusal.number, |_| 0),
        Err(difference) => panic!("{difference}"),
    }
}

#[test]
fn searches_agree() {
    let mut dice = Dice(21);
    for _ in 0..3_000 {
        let random = task(&mut dice);
        let whole = file(&mut dice, &random);
        let lists = lent(&mut dice, ROOM);
        compare(&whole, lists);
    }
}

#[test]
fn searches_agree_on_short_lists() {
    let mut dice = Dice(22);
    let mut met = [0; 24];
    for _ in 0..6_000 {
        let random = task(&mut dice);
        let whole = file(&mut dice, &random);
        let tried = if dice.one_in(10) { damage(&mut dice, &whole) } else { whole };
        let room = Room {
            nodes: dice.pick(&[0, 5, 50, 300, 2_000, 20_000]),
            utility: dice.pick(&[0, 3, 20, 300, 300]),
            pairs: dice.pick(&[0, 1, 2, 5, 20, 100, 2_048, 2_048, 2_048]),
            steps: dice.pick(&[0, 1, 2, 40]),
        };
        let mut lists = lent(&mut dice, room);
        if dice.one_in(6) {
            let unequal =
                [&mut lists.costs, &mut lists.steps, &mut lists.sets, &mut lists.wanted, &mut lists.low, &mut lists.utility_high];
            unequal.into_iter().nth(dice.below(6)).expect("one of six").push(0);
        }
        met[compare(&tried, lists) as usize] += 1;
    }
    assert!([0, 12, 13, 14, 15, 23].iter().all(|&n| met[n] > 20), "{met:?}");
}

#[test]
fn exact_lengths_are_accepted_and_one_less_is_refused() {
    let mut dice = Dice(23);
    for turn in 0..300 {
        let random = if turn % 20 == 0 { counter_task(&mut dice) } else { task(&mut dice) };
        let whole = file(&mut dice, &random);
        let wide = Lengths { pairs: [1 << 20; 4], nodes: [1 << 20; 3], utility: [1 << 20; 3], plan: 1 << 20 };
        let found = reference::search::search(&whole, &wide).expect("long lists");
        let exact = Room {
            nodes: found.nodes as usize,
            utility: found.entries as usize,
            pairs: found.pairs(),
            steps: found.best.plan.len(),
        };
        let mut with = |room: Room| compare(&whole, lent(&mut dice, room));
        assert_eq!(with(exact), 0);
        assert_eq!(with(Room { pairs: exact.pairs - 1, ..exact }), 23);
        assert_eq!(with(Room { utility: exact.utility - 1, ..exact }), 13);
        assert_eq!(with(Room { nodes: exact.nodes - 1, ..exact }), 14);
        assert_eq!(with(Room { nodes: 0, pairs: 0, ..exact }), 14);
        assert_eq!(with(Room { nodes: random.bits(), pairs: 0, ..exact }), 23);
        if exact.steps > 0 {
            assert_eq!(with(Room { steps: exact.steps - 1, ..exact }), 15);
        }
    }
}

/// At the pair that has no entry left 14 comes before 23: with the nodes that the pairs up to it take it is 23, with one less 14.
#[test]
fn nodes_before_pairs() {
    let mut dice = Dice(26);
    let mut both = 0;
    for _ in 0..200 {
        let random = task(&mut dice);
        let whole = file(&mut dice, &random);
        let wide = Lengths { pairs: [1 << 20; 4], nodes: [1 << 20; 3], utility: [1 << 20; 3], plan: 1 << 20 };
        let found = reference::search::search(&whole, &wide).expect("long lists");
        let pairs = dice.below(found.pairs());
        let number = |nodes: usize| {
            reference::search::search(&whole, &Lengths { pairs: [pairs; 4], nodes: [nodes; 3], ..wide })
                .map_or_else(|r| r.number, |_| 0)
        };
        let (mut short, mut enough) = (0, found.nodes as usize);
        while short + 1 < enough {
            let middle = (short + enough) / 2;
            *(if number(middle) == 23 { &mut enough } else { &mut short }) = middle;
        }
        let mut with = |nodes: usize| compare(&whole, lent(&mut dice, Room { nodes, pairs, ..ROOM }));
        assert_eq!((with(enough), with(enough - 1)), (23, 14));
        both += (pairs > 0) as usize;
    }
    assert!(both > 50, "{both}");
}

#[test]
fn questions_agree() {
    let mut dice = Dice(24);
    let mut met = [0; 22];
    for _ in 0..2_000 {
        let random = task(&mut dice);
        let whole = file(&mut dice, &random);
        let mut lists = lent(&mut dice, Room { nodes: 3_000, pairs: 400, ..ROOM });
        let Ok(found) = search(&whole, &mut lists) else { continue };
        for _ in 0..10 {
            let mut state: Vec<u8> = random.sizes.iter().map(|&d| dice.below(d as usize) as u8).collect();
            let mut asked = lists.clone();
            let (mut nodes, mut pairs) = (found.nodes, found.pairs);
            match dice.below(16) {
                0 => state.push(0),
                1 => state[0] = random.sizes[0],
                2 => nodes = dice.pick(&[0, nodes / 2, nodes + 1, 3_001, u64::MAX >> 16]),
                3 => pairs = dice.pick(&[0, pairs / 2, pairs + 1, 400, 401, u64::MAX >> 16]),
                4 => asked.high.truncate(dice.below(3_000)),
                5 => {
                    let four = [&mut asked.costs, &mut asked.steps, &mut asked.sets, &mut asked.wanted];
                    four.into_iter().nth(dice.below(4)).expect("one of four").truncate(dice.below(400));
                }
                6..=9 => {
                    let at = dice.below(found.nodes as usize);
                    let other = dice.below(found.nodes as usize);
                    match dice.below(3) {
                        0 => asked.bit.swap(at, other),
                        1 => asked.low.swap(at, other),
                        _ => asked.high.swap(at, other),
                    }
                }
                10 => asked.sets.swap(0, dice.below(found.pairs as usize + 3)),
                11 => asked.wanted.fill(u32::MAX),
                12 => (asked.costs, asked.steps) = (asked.steps, asked.costs),
                _ => {}
            }
            let number =
                compare_question(&whole, &asked, nodes, pairs, &state).unwrap_or_else(|difference| panic!("{difference}"));
            met[number as usize] += 1;
        }
    }
    assert!([0, 12, 20, 21].iter().all(|&n| met[n] > 20), "{met:?}");
}

/// Every state of generated tasks, asked of the lists that a search left, against a search over single states: its place, if that is a pair
/// made, so no state past the first pair that attains the ceiling is reached.
#[test]
fn every_state_has_its_place() {
    let mut dice = Dice(25);
    let (mut tasks, mut reached_states, mut past) = (0, 0, 0);
    for _ in 0..1_000 {
        let random = task(&mut dice);
        let states: usize = random.sizes.iter().map(|&d| d as usize).product();
        if states > 1_000 {
            continue;
        }
        let whole = file(&mut dice, &random);
        let mut lists = lent(&mut dice, ROOM);
        let Ok(found) = search(&whole, &mut lists) else { continue };
        let mut ways = reach(&random, Fault::None);
        let (all, last) = (ways.len(), last_pair(&random, &ways, ceiling(&random)));
        ways.retain(|_, way| way.place() <= last);
        for number in 0..states {
            let mut rest = number;
            let mut digit = |d: u8| {
                let value = rest % d as usize;
                rest /= d as usize;
                value as u8
            };
            let state: Vec<u8> = random.sizes.iter().map(|&d| digit(d)).collect();
            let expected = ways.get(&state).map_or(Place::NotReached, |way| {
                let (cost, steps) = way.place();
                Place::At { cost, steps }
            });
            assert_eq!(question(&whole, &lists, found.nodes, found.pairs, &state), Ok(expected));
        }
        tasks += 1;
        reached_states += ways.len();
        past += all - ways.len();
    }
    assert!(tasks > 100 && reached_states > 1_000 && past > 1_000, "{tasks} tasks, {reached_states} states reached, {past} past");
}

/// The ceilings of tasks with many terms, over more states than can be tried.
#[test]
fn ceilings_agree() {
    let mut dice = Dice(27);
    let (mut below_sum, mut entries) = (0, 0);
    for _ in 0..300 {
        let random = terms_task(&mut dice);
        let lists = Lists::new(Room { nodes: 64, utility: 1 << 15, pairs: 1, steps: 0 });
        let found = compare_search(&file(&mut dice, &random), lists).unwrap_or_else(|difference| panic!("{difference}"));
        let found = found.expect("long lists");
        below_sum += (found.ceiling < random.terms.iter().map(|t| t.weight).sum()) as usize;
        entries = found.entries.max(entries);
    }
    assert!(below_sum > 200 && entries > 10_000, "{below_sum} ceilings below the sum of weights, at most {entries} entries");
}

/// One variable of three values with a move of cost 1 from each to the next, and terms of these weights for the values.
fn steps_up(weights: [u64; 3], bound: u64) -> Vec<u8> {
    let fact = |val: u8| vec![Fact { var: 0, val }];
    let operators = (0..2).map(|x| Operator { cost: 1, pre: fact(x), eff: fact(x + 1) }).collect();
    let terms = weights.iter().zip(0..).map(|(&weight, x)| Term { weight, facts: fact(x) }).collect();
    encode(&Task { sizes: vec![3], start: vec![0], operators, terms, bound })
}

/// The ceiling is the greatest weight, not their sum, and the pairs go up to the first that attains it, or to the bound.
#[test]
fn the_search_stops_at_the_ceiling() {
    let cases = [
        ([5, 3, 2], 2, 5, 5, vec![]),
        ([5, 5, 5], 2, 5, 5, vec![]),
        ([0, 0, 0], 2, 0, 0, vec![]),
        ([1, 5, 2], 2, 5, 5, vec![0]),
        ([1, 5, 5], 2, 5, 5, vec![0]),
        ([1, 2, 5], 2, 5, 5, vec![0, 1]),
        ([1, 2, 5], 1, 2, 5, vec![0]),
        ([3, 2, 5], 1, 3, 5, vec![]),
    ];
    for (weights, bound, utility, greatest, plan) in cases {
        let whole = steps_up(weights, bound);
        let mut lists = Lists::new(Room { nodes: 64, utility: 64, pairs: 8, steps: 8 });
        let found = search(&whole, &mut lists).expect("a plan");
        assert_eq!((found.utility, found.ceiling), (utility, greatest));
        assert_eq!(found.plan(&lists), plan);
        let made = if utility == greatest { plan.len() as u64 } else { bound };
        assert_eq!(found.pairs, made + 1);
        for x in 0..3 {
            let place = if x <= made { Place::At { cost: x, steps: x } } else { Place::NotReached };
            assert_eq!(question(&whole, &lists, found.nodes, found.pairs, &[x as u8]), Ok(place));
        }
    }
}

#[test]
fn the_worked_task() {
    let mut lists = Lists::new(Room { nodes: 1_024, utility: 512, pairs: 4_096, steps: 4_096 });
    let found = search(&example("calibration"), &mut lists).expect("a plan");
    assert_eq!((found.utility, found.ceiling, found.cost, found.bound), (13, 16, 14, 14));
    assert_eq!((found.minutes, found.units, found.unused), (2, 2, 0));
    assert_eq!((found.nodes, found.entries, found.pairs), (1_001, 45, 19));
    assert_eq!(found.plan(&lists), [1, 2, 3, 4, 6, 8, 11, 7, 10, 13, 5, 17, 18]);
    let place = |state: &[u8]| question(&example("calibration"), &lists, found.nodes, found.pairs, state);
    assert_eq!(place(&[1, 1, 0, 0, 0, 0, 0, 0, 0, 0, 0]), Ok(Place::At { cost: 0, steps: 0 }));
    let taken = [1, 2, 1, 1, 1, 0, 1, 0, 1, 1, 0];
    let closed = [1, 2, 0, 1, 1, 0, 1, 0, 1, 1, 0];
    assert_eq!(place(&taken), Ok(Place::At { cost: 12, steps: 10 }));
    assert_eq!(place(&closed), Ok(Place::At { cost: 12, steps: 11 }));
}

#[test]
fn lists_that_are_too_long() {
    let room = Room { nodes: 16, utility: 16, pairs: 16, steps: 16 };
    let rooms = [Room { nodes: 1_048_577, ..room }, Room { utility: 1_048_577, ..room }, Room { pairs: 1_048_577, ..room }];
    for room in rooms {
        assert_eq!(search(&example("p-1"), &mut Lists::new(room)), Err(Refusal { number: 12, value: 0 }));
    }
    assert_eq!(search(&example("p-1"), &mut Lists::new(Room { pairs: 1_048_576, ..room })).map(|found| found.pairs), Ok(2));
}
