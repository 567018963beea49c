//! The library's engine that lists states against the reference: figures, plan, every state with its place, and what each refusal leaves as
//! it was; and the library's two engines against each other.

use comparison::lent;
use comparison::listed::{compare_all_states, compare_engines, compare_states, lent_states, working};
use laurelsnap::{states, Listed, Lists, Refusal, Room, StateLists, StateRoom};
use reference::example;
use reference::random::{any_task, counter_task, damage, file, large_task, task, Dice};
use reference::search::LIST_MOST;
use reference::task::{encode, Fact, Operator, Task, Term};

/// The states listed in these lists, compared in full; the refusal's number, or 0.
fn compare(file: &[u8], lists: &mut StateLists) -> u64 {
    match compare_states(file, lists) {
        Ok(both) => both.map_or_else(|refusal| refusal.number, |_| 0),
        Err(difference) => panic!("{difference}"),
    }
}

/// Lists that are exactly long enough, one too short and longer, each with working lists of many lengths.
#[test]
fn listed_states_agree() {
    let mut dice = Dice(41);
    let mut states = 0;
    for turn in 0..1_000 {
        let random = if turn % 20 == 0 { counter_task(&mut dice) } else { task(&mut dice) };
        let whole = file(&mut dice, &random);
        let both = compare_all_states(&mut dice, &whole).unwrap_or_else(|difference| panic!("{difference}"));
        states += both.expect("long lists").states.len();
    }
    assert!(states > 50_000, "{states}");
}

/// Files that are whole or damaged, lists of any length, now and then unequal.
#[test]
fn listed_states_agree_on_short_lists() {
    let mut dice = Dice(42);
    let mut met = [0; 25];
    for _ in 0..6_000 {
        let random = task(&mut dice);
        let whole = file(&mut dice, &random);
        let tried = if dice.one_in(10) { damage(&mut dice, &whole) } else { whole };
        let room = StateRoom { states: dice.pick(&[0, 1, 2, 5, 20, 100, 2_048, 2_048]), steps: dice.pick(&[0, 1, 2, 40]) };
        let shape = dice.pick(&working(room.states));
        let mut lists = lent_states(&mut dice, room, shape);
        if dice.one_in(6) {
            match dice.below(3) {
                0 => lists.states.push(0),
                1 => lists.costs.push(0),
                _ => lists.steps.push(0),
            }
        }
        met[compare(&tried, &mut lists) as usize] += 1;
    }
    assert!([0, 12, 15, 24].iter().all(|&n| met[n] > 20), "{met:?}");
}

/// No lists hide a refusal of the file check, not even unequal ones, and all of them stay.
#[test]
fn refused_files_leave_all_lists() {
    let mut dice = Dice(43);
    let mut met = [0; 11];
    for _ in 0..20_000 {
        let random = any_task(&mut dice);
        let whole = file(&mut dice, &random);
        let tried = damage(&mut dice, &whole);
        if reference::task::check(&tried).is_ok() {
            continue;
        }
        let room = StateRoom { states: dice.below(4), steps: dice.below(4) };
        let mut lists = lent_states(&mut dice, room, [5, 5]);
        if dice.one_in(2) {
            lists.costs.push(7);
        }
        met[compare(&tried, &mut lists) as usize] += 1;
    }
    assert!([1, 2, 3, 4, 5, 6, 7, 9, 10].iter().all(|&n| met[n] > 20), "{met:?}");
}

/// Tasks of up to 48 bits, 256 operators and 256 terms, some with more states than a small table of chains has.
#[test]
fn large_tasks_agree() {
    let mut dice = Dice(44);
    let mut met = [0; 25];
    let (mut many, mut last_bit) = (0, 0);
    for _ in 0..1_000 {
        let random = large_task(&mut dice);
        let whole = file(&mut dice, &random);
        let room = StateRoom { states: dice.pick(&[1, 50, 5_000, 5_000]), steps: 40 };
        let shape = dice.pick(&[[room.states; 2], [2_000, 10_000], [1_025, 1_023], [0, 0]]);
        match compare_states(&whole, &mut lent_states(&mut dice, room, shape)).unwrap_or_else(|difference| panic!("{difference}"))
        {
            Err(refusal) => met[refusal.number as usize] += 1,
            Ok(listed) => {
                met[0] += 1;
                many += (listed.states.len() > 1_024) as usize;
                last_bit += listed.states.iter().any(|(state, _)| state >> 47 == 1) as usize;
            }
        }
    }
    assert!(met[0] > 200 && met[24] > 20 && many > 5 && last_bit > 5, "{met:?}, {many} with many states, {last_bit} with bit 47");
}

/// The same lists for one task after the other, and for each task twice, with what the last call has left in them.
#[test]
fn lists_are_used_again() {
    let mut dice = Dice(45);
    let mut met = [0; 25];
    for shape in working(400) {
        let mut lists = lent_states(&mut dice, StateRoom { states: 400, steps: 30 }, shape);
        for _ in 0..60 {
            let random = task(&mut dice);
            let whole = file(&mut dice, &random);
            let tried = if dice.one_in(10) { damage(&mut dice, &whole) } else { whole };
            let number = compare(&tried, &mut lists);
            assert_eq!(compare(&tried, &mut lists), number);
            met[number as usize] += 1;
        }
    }
    assert!([0, 15, 24].iter().all(|&n| met[n] > 20), "{met:?}");
}

/// Each engine with lists that are now and then too short for it.
#[test]
fn both_engines_agree_where_both_accept() {
    let mut dice = Dice(46);
    let mut both = 0;
    for _ in 0..2_000 {
        let random = task(&mut dice);
        let whole = file(&mut dice, &random);
        let room = Room {
            nodes: dice.pick(&[200, 2_000, 20_000]),
            utility: dice.pick(&[50, 300]),
            pairs: dice.pick(&[20, 2_048]),
            steps: 2_048,
        };
        let mut lists = lent(&mut dice, room);
        let state_room = StateRoom { states: dice.pick(&[20, 200, 2_048]), steps: 2_048 };
        let shape = dice.pick(&working(state_room.states));
        let mut state_lists = lent_states(&mut dice, state_room, shape);
        both +=
            compare_engines(&whole, &mut lists, &mut state_lists).unwrap_or_else(|difference| panic!("{difference}")) as usize;
    }
    assert!(both > 500 && both < 1_900, "{both}");
}

/// A counter of five digits of 16 values that goes on for nothing, worth 1 at its last number, and a lamp that can be lit there.
fn free_counter(lamp_cost: u64) -> Vec<u8> {
    const DIGITS: u8 = 5;
    let fact = |var: u8, val: u8| Fact { var, val };
    let from = |j: u8, value: u8, rest: u8| (j..DIGITS).map(|v| fact(v, if v == j { value } else { rest })).collect::<Vec<_>>();
    let step = |j: u8, x: u8| Operator { cost: 0, pre: from(j, x, 15), eff: from(j, x + 1, 0) };
    let mut operators: Vec<Operator> = (0..DIGITS).flat_map(|j| (0..15).map(move |x| (j, x))).map(|(j, x)| step(j, x)).collect();
    operators.push(Operator { cost: lamp_cost, pre: from(0, 15, 15), eff: vec![fact(DIGITS, 1)] });
    let terms = vec![Term { weight: 1, facts: from(0, 15, 15).into_iter().take(4).collect() }];
    encode(&Task { sizes: vec![16, 16, 16, 16, 16, 2], start: vec![0; 6], operators, terms, bound: 0 })
}

/// As many states as lists may have entries, one in each step from the first to the last; with one state more it is 24.
#[test]
fn as_many_states_as_lists_may_have() {
    // worth 1 once the first four digits are 15, which the number ffff0 is the first to have
    const BEST: usize = LIST_MOST - 16;
    let mut lists = StateLists::new(StateRoom { states: LIST_MOST, steps: BEST });
    let whole = free_counter(1);
    let listed = states(&whole, &mut lists).expect("room for all states");
    let figures =
        Listed { utility: 1, cost: 0, bound: 0, minutes: 0, units: 0, unused: 0, states: LIST_MOST as u64, steps: BEST as u64 };
    assert_eq!(listed, figures);
    // the first digit's high bit is bit 0, so a state's number has the counter's bits in reverse
    let mut steps = vec![None; LIST_MOST];
    for (state, cost, count) in listed.entries(&lists) {
        assert_eq!(cost, 0);
        assert_eq!(steps[state as usize].replace(count), None, "{state} is listed twice");
    }
    for (state, count) in steps.iter().enumerate() {
        assert_eq!(*count, Some((state as u32).reverse_bits() >> 12), "{state}");
    }
    let lowest = |number: usize| {
        let trailing = (0..5).rev().find(|j| number >> (4 * (4 - j)) & 15 != 15).expect("not the last number");
        15 * trailing + (number >> (4 * (4 - trailing)) & 15)
    };
    for (number, &operator) in listed.plan(&lists).iter().enumerate() {
        assert_eq!(operator as usize, lowest(number), "step {number}");
    }
    lists.plan.pop();
    assert_eq!(states(&whole, &mut lists), Err(Refusal { number: 15, value: 0 }));
    assert_eq!(states(&free_counter(0), &mut lists), Err(Refusal { number: 24, value: 0 }));
}

#[test]
fn lists_that_are_too_long() {
    let long = StateRoom { states: LIST_MOST + 1, steps: 16 };
    assert_eq!(states(&example("p-1"), &mut StateLists::new(long)), Err(Refusal { number: 12, value: 0 }));
    let longest = StateRoom { states: LIST_MOST, steps: 16 };
    assert_eq!(states(&example("p-1"), &mut StateLists::new(longest)).map(|listed| listed.states), Ok(3));
}

/// The states of P and Q, by rising number; in Q the variable's high bit is bit 0.
#[test]
fn stand_cases() {
    let listed = |name: &str, room: StateRoom| {
        let mut lists = StateLists::new(room);
        states(&example(name), &mut lists).map(|listed| {
            let mut entries: Vec<_> = listed.entries(&lists).collect();
            entries.sort();
            (listed.utility, listed.cost, listed.plan(&lists).to_vec(), entries)
        })
    };
    let room = |states: usize, steps: usize| StateRoom { states, steps };
    assert_eq!(listed("p-0", room(1, 0)), Ok((0, 0, vec![], vec![(0, 0, 0)])));
    assert_eq!(listed("p-1", room(3, 1)), Ok((2, 1, vec![1], vec![(0, 0, 0), (1, 1, 1), (2, 1, 1)])));
    assert_eq!(listed("p-2", room(4, 2)), Ok((3, 2, vec![1, 2], vec![(0, 0, 0), (1, 1, 1), (2, 1, 1), (3, 2, 2)])));
    assert_eq!(listed("q-3", room(2, 0)), Ok((0, 0, vec![], vec![(0, 0, 0), (2, 2, 1)])));
    assert_eq!(listed("q-5", room(3, 1)), Ok((7, 4, vec![3], vec![(0, 0, 0), (1, 4, 1), (2, 2, 1)])));
    let refused = |number: u64| Err(Refusal { number, value: 0 });
    assert_eq!(listed("p-1", room(2, 0)), refused(24));
    assert_eq!(listed("p-1", room(3, 0)), refused(15));
    let message = listed("p-1", room(2, 0)).expect_err("a refusal").to_string();
    assert_eq!(message, "refused 24 0: the lists of states are too short");
}

#[test]
fn the_worked_task() {
    let mut lists = StateLists::new(StateRoom { states: 59, steps: 13 });
    let listed = states(&example("calibration"), &mut lists).expect("a plan");
    assert_eq!((listed.utility, listed.cost, listed.bound), (13, 14, 14));
    assert_eq!((listed.minutes, listed.units, listed.unused), (2, 2, 0));
    assert_eq!((listed.states, listed.steps), (59, 13));
    assert_eq!(listed.plan(&lists), [1, 2, 3, 4, 6, 8, 11, 7, 10, 13, 5, 17, 18]);
    let mut search_lists = Lists::new(Room { nodes: 1_024, utility: 512, pairs: 4_096, steps: 4_096 });
    let found = laurelsnap::search(&example("calibration"), &mut search_lists).expect("a plan");
    assert_eq!(found.plan(&search_lists), listed.plan(&lists));
}
