//! Random tasks, files, plans and damage, from a seed.

use crate::task::{apply, header, holds, sections, Fact, Operator, State, Task, Term, COST_MOST, HEADER, TERM_FACTS};

/// Random numbers (splitmix64).
#[derive(Clone, Debug)]
pub struct Dice(pub u64);

impl Dice {
    pub fn number(&mut self) -> u64 {
        self.0 = self.0.wrapping_add(0x9E37_79B9_7F4A_7C15);
        let mut z = self.0;
        z = (z ^ z >> 30).wrapping_mul(0xBF58_476D_1CE4_E5B9);
        z = (z ^ z >> 27).wrapping_mul(0x94D0_49BB_1331_11EB);
        z ^ z >> 31
    }

    /// A number below n; 0 if n is 0.
    pub fn below(&mut self, n: usize) -> usize {
        if n == 0 {
            0
        } else {
            (self.number() % n as u64) as usize
        }
    }

    /// A number from a to b, both included.
    pub fn between(&mut self, a: usize, b: usize) -> usize {
        a + self.below(b - a + 1)
    }

    pub fn one_in(&mut self, n: usize) -> bool {
        self.below(n) == 0
    }

    pub fn pick<T: Copy>(&mut self, from: &[T]) -> T {
        from[self.below(from.len())]
    }
}

/// Facts of so many different variables, or fewer if there are fewer, in rising number.
fn facts(dice: &mut Dice, sizes: &[u8], count: usize) -> Vec<Fact> {
    let mut vars: Vec<usize> = (0..sizes.len()).collect();
    while vars.len() > count {
        vars.remove(dice.below(vars.len()));
    }
    vars.iter().map(|&v| Fact { var: v as u8, val: dice.below(sizes[v] as usize) as u8 }).collect()
}

/// The facts with the values that the variables have in a state.
fn facts_of(dice: &mut Dice, sizes: &[u8], count: usize, state: &State) -> Vec<Fact> {
    facts(dice, sizes, count).into_iter().map(|f| Fact { val: state[f.var as usize], ..f }).collect()
}

/// One of the states met, half the time the last.
fn one_met(dice: &mut Dice, met: &[State]) -> State {
    let last = met.len() - 1;
    met[if dice.one_in(2) { last } else { dice.below(last) }].clone()
}

/// An operator that is applicable in one of the states met so far; the state that it leads to is met too.
fn operator(dice: &mut Dice, sizes: &[u8], met: &mut Vec<State>, costs: &[u64]) -> Operator {
    let state = one_met(dice, met);
    let (asked, changed) = (dice.pick(&[0, 1, 1, 1, 2, 2, 3]), dice.pick(&[0, 1, 1, 1, 1, 1, 1, 2, 2, 3]));
    let pre = facts_of(dice, sizes, asked, &state);
    let mut eff = facts(dice, sizes, changed);
    if !dice.one_in(4) {
        eff.iter_mut().filter(|f| f.val == state[f.var as usize]).for_each(|f| f.val = (f.val + 1) % sizes[f.var as usize]);
    }
    met.push(apply(&eff, &state));
    Operator { cost: dice.pick(costs), pre, eff }
}

/// The operator that does what two do one after the other, for the sum of their costs; none if the first undoes what the second asks.
fn joined(first: &Operator, second: &Operator) -> Option<Operator> {
    let value = |facts: &[Fact], var: u8| facts.iter().find(|f| f.var == var).map(|f| f.val);
    let (mut pre, mut eff) = (first.pre.clone(), second.eff.clone());
    for f in &second.pre {
        match value(&first.eff, f.var).or(value(&first.pre, f.var)) {
            None => pre.push(*f),
            Some(val) if val != f.val => return None,
            Some(_) => {}
        }
    }
    eff.extend(first.eff.iter().filter(|f| value(&second.eff, f.var).is_none()));
    pre.sort_by_key(|f| f.var);
    eff.sort_by_key(|f| f.var);
    Some(Operator { cost: (first.cost + second.cost).min(COST_MOST), pre, eff })
}

/// The digits of a counter: the values of each, and how many there are.
const COUNTERS: [(u8, usize); 6] = [(2, 7), (3, 5), (4, 4), (5, 3), (7, 3), (16, 2)];

/// The moves of a counter from each number to the next, all free but those of the first digit.
fn counter_moves(dice: &mut Dice, size: u8, digits: usize) -> Vec<Operator> {
    let dear = dice.pick(&[0, 0, 0, 0, 1, 2]);
    let facts = |j: usize, value: u8, rest: u8| {
        (j..digits).map(|v| Fact { var: v as u8, val: if v == j { value } else { rest } }).collect::<Vec<Fact>>()
    };
    let step =
        |j: usize, x: u8| Operator { cost: if j == 0 { dear } else { 0 }, pre: facts(j, x, size - 1), eff: facts(j, x + 1, 0) };
    (0..digits).flat_map(|j| (0..size - 1).map(move |x| step(j, x))).collect()
}

/// A task with a counter of more than a hundred numbers and a lamp that can be lit at some of them, for something or for nothing. Now
/// and then the counter starts again after its last number, goes on only while the lamp is out, and has moves of two numbers at once.
/// Most want the lamp lit at some number where it need not be possible, so that the ceiling may be out of reach.
pub fn counter_task(dice: &mut Dice) -> Task {
    let (size, digits) = dice.pick(&COUNTERS);
    let lamp = digits as u8;
    let sizes = [vec![size; digits], vec![3]].concat();
    let number = |dice: &mut Dice| -> State { (0..digits).map(|_| dice.below(size as usize) as u8).collect() };
    let mut operators = counter_moves(dice, size, digits);
    let count = operators.len();
    let joins: Vec<Operator> =
        (0..8 * count).filter_map(|_| joined(&operators[dice.below(count)], &operators[dice.below(count)])).collect();
    operators.extend(joins.into_iter().take(dice.pick(&[0, 1, 3])));
    if dice.one_in(2) {
        let all = |val: u8| (0..lamp).map(|var| Fact { var, val }).collect();
        operators.push(Operator { cost: 0, pre: all(size - 1), eff: all(0) });
    }
    if dice.one_in(2) {
        operators.iter_mut().for_each(|o| o.pre.push(Fact { var: lamp, val: 0 }));
    }
    for _ in 0..dice.between(2, 5) {
        let (at, asked) = (number(dice), dice.between(1, digits));
        let mut pre = facts_of(dice, &sizes[..digits], asked, &at);
        pre.push(Fact { var: lamp, val: 0 });
        let eff = vec![Fact { var: lamp, val: dice.between(1, 2) as u8 }];
        operators.push(Operator { cost: dice.pick(&[0, 1, 2, 3, 5]), pre, eff });
    }
    for k in 1..operators.len() {
        operators.swap(k, dice.between(0, k));
    }
    let mut terms = vec![Term { weight: dice.pick(&[0, 3, 9]), facts: vec![Fact { var: lamp, val: 1 }] }];
    for _ in 0..dice.between(0, 3) {
        let (at, asked) = (number(dice), dice.between(1, digits.min(TERM_FACTS)));
        terms.push(Term { weight: dice.pick(&[1, 2, 9]), facts: facts_of(dice, &sizes[..digits], asked, &at) });
    }
    if !dice.one_in(4) {
        let (at, asked) = (number(dice), dice.between(1, digits.min(TERM_FACTS - 1)));
        let mut facts = facts_of(dice, &sizes[..digits], asked, &at);
        facts.push(Fact { var: lamp, val: 2 });
        terms.push(Term { weight: dice.pick(&[4, 9, 20]), facts });
    }
    Task { start: vec![0; sizes.len()], sizes, operators, terms, bound: dice.between(0, 12) as u64 }
}

/// A valid task with at most some thousand states: ties in utility, equal cost sums, moves that cost nothing, effects without
/// preconditions, domains that are no powers of two, terms that exclude each other, ceilings that the start attains, a later state or
/// none, bounds 0 to 40.
pub fn task(dice: &mut Dice) -> Task {
    if dice.one_in(5) {
        return counter_task(dice);
    }
    let mut sizes: Vec<u8> = Vec::new();
    let states = dice.pick(&[8, 128, 512, 2000, 2000]);
    for _ in 0..dice.between(2, 9) {
        let size = dice.pick(&[2, 2, 2, 3, 3, 3, 4, 5, 5, 6, 7, 9, 9, 13, 16]);
        if sizes.iter().map(|&d| d as usize).product::<usize>() * size as usize <= states {
            sizes.push(size);
        }
    }
    if sizes.is_empty() {
        sizes.push(2);
    }
    let start: State = sizes.iter().map(|&d| dice.below(d as usize) as u8).collect();
    let positive: &[u64] =
        dice.pick(&[&[1][..], &[1, 2], &[1, 2, 3], &[2, 3, 4, 5], &[1, 5, 7, 4095], &[3, 6], &[4, 6, 10], &[7, 8, 15]]);
    let free: &[u64] = dice.pick(&[&[0][..], &[0, 1], &[0, 0, 1], &[0, 0, 0, 2, 5], &[0, 1, 2, 3], &[0, 0, 3, 4095]]);
    let costs = if dice.one_in(3) { free } else { positive };
    let weights: &[u64] = dice.pick(&[&[1][..], &[1, 2], &[0, 1, 2, 3], &[5, 10, 65_535]]);
    let mut met = vec![start.clone()];
    let count = if dice.one_in(8) { dice.below(4) } else { dice.between(6, 20) };
    let mut operators: Vec<Operator> = (0..count).map(|_| operator(dice, &sizes, &mut met, costs)).collect();
    let joins: Vec<Operator> =
        (0..count).filter_map(|_| joined(&operators[dice.below(count)], &operators[dice.below(count)])).collect();
    for join in joins.into_iter().take(4) {
        operators.insert(dice.between(0, operators.len()), join);
    }
    let mut terms = Vec::new();
    for _ in 0..dice.between(0, 8) {
        let count = dice.pick(&[0, 1, 2, 2, 3, 3, 4]);
        let wanted = one_met(dice, &met);
        let facts = if dice.one_in(4) { facts(dice, &sizes, count) } else { facts_of(dice, &sizes, count, &wanted) };
        terms.push(Term { weight: dice.pick(weights), facts });
    }
    if !terms.is_empty() && !dice.one_in(4) {
        // values that no move need bring together, worth more than most terms
        let (count, weight) = (dice.pick(&[2, 3, 4, 4]), dice.pick(&[2, 5, 65_535]));
        terms.push(Term { weight, facts: facts(dice, &sizes, count) });
    }
    let bound = if dice.one_in(4) { dice.below(4) } else { dice.between(0, 40) };
    Task { sizes, start, operators, terms, bound: bound as u64 }
}

/// A task without operators and with many terms of near variables, which often exclude each other. It may have far more states than can be
/// tried, and some ten thousand utility entries.
pub fn terms_task(dice: &mut Dice) -> Task {
    const NEAR: usize = 4;
    let sizes: Vec<u8> = (0..dice.between(NEAR, 12)).map(|_| dice.pick(&[2, 3, 3, 5, 5, 9, 9, 16])).collect();
    let start: State = sizes.iter().map(|&d| dice.below(d as usize) as u8).collect();
    let weights: &[u64] = dice.pick(&[&[1][..], &[1, 2, 3], &[1, 2, 4, 8, 16, 32, 64], &[0, 5, 65_535]]);
    let mut terms = Vec::new();
    for _ in 0..dice.pick(&[5, 10, 20, 30]) {
        let (first, count) = (dice.between(0, sizes.len() - NEAR), dice.between(1, 3));
        let near = facts(dice, &sizes[first..first + NEAR], count);
        let facts = near.iter().map(|f| Fact { var: f.var + first as u8, ..*f }).collect();
        terms.push(Term { weight: dice.pick(weights), facts });
    }
    Task { sizes, start, operators: vec![], terms, bound: 0 }
}

/// A valid task of any size that the file allows, for the file check and the walk.
pub fn large_task(dice: &mut Dice) -> Task {
    let mut sizes = Vec::new();
    let mut bits = 0;
    for _ in 0..dice.between(1, 32) {
        let size = dice.between(2, 16) as u8;
        if bits + crate::task::width(size) <= crate::task::BITS_MOST {
            bits += crate::task::width(size);
            sizes.push(size);
        }
    }
    let start: State = sizes.iter().map(|&d| dice.below(d as usize) as u8).collect();
    let mut operators = Vec::new();
    for _ in 0..dice.pick(&[0, 3, 20, 256]) {
        let (pre, eff) = (dice.below(9), dice.below(9));
        let pre = facts(dice, &sizes, pre);
        operators.push(Operator { cost: dice.between(0, 4095) as u64, pre, eff: facts(dice, &sizes, eff) });
    }
    let mut terms = Vec::new();
    for _ in 0..dice.pick(&[0, 3, 20, 256]) {
        let count = dice.below(5);
        terms.push(Term { weight: dice.below(65_536) as u64, facts: facts(dice, &sizes, count) });
    }
    Task { sizes, start, operators, terms, bound: dice.below(4096) as u64 }
}

/// A valid task, now and then of any size.
pub fn any_task(dice: &mut Dice) -> Task {
    if dice.one_in(8) {
        large_task(dice)
    } else {
        task(dice)
    }
}

/// Up to so many unread bytes behind the body.
fn gap(dice: &mut Dice, most: usize, body: &mut Vec<u8>) {
    let count = dice.between(0, most);
    body.extend((0..count).map(|_| dice.number() as u8));
}

/// A file of the task: its sections in any order, now and then with unread bytes around them; an empty one begins anywhere.
pub fn file(dice: &mut Dice, task: &Task) -> Vec<u8> {
    let parts = sections(task);
    let mut order = [0, 1, 2];
    order.swap(0, dice.below(3));
    order.swap(1, dice.between(1, 2));
    let most = dice.pick(&[0, 0, 7, 7, 300]);
    let mut body = Vec::new();
    let mut offsets = [0; 3];
    for k in order {
        gap(dice, most, &mut body);
        offsets[k] = HEADER + body.len();
        body.extend(&parts[k]);
    }
    gap(dice, most, &mut body);
    for k in (0..3).filter(|&k| parts[k].is_empty()) {
        let inside = dice.below(body.len());
        offsets[k] = HEADER + dice.pick(&[0, inside, inside, body.len()]);
    }
    let mut out = header(task, offsets, HEADER + body.len());
    out.extend(body);
    out
}

/// The file with some of its bytes changed, cut or added; its length field is mostly mended, so that later tests are met.
pub fn damage(dice: &mut Dice, file: &[u8]) -> Vec<u8> {
    let mut out = file.to_vec();
    for _ in 0..dice.between(1, 3) {
        let most = if dice.one_in(3) { HEADER } else { out.len() };
        let at = dice.below(most.min(out.len()));
        match dice.below(8) {
            0 => out.truncate(at),
            1 => out.extend((0..dice.pick(&[1, 5, 20_000])).map(|_| 0)),
            2 if at < out.len() => out[at] ^= 1 << dice.below(8),
            3 if at < out.len() => out[at] = dice.number() as u8,
            4 if at < out.len() => out[at] = 0,
            _ if at < out.len() => out[at] = out[at].wrapping_add(dice.pick(&[1, 255])),
            _ => {}
        }
    }
    if out.len() >= HEADER && !dice.one_in(6) {
        let length = (out.len() as u32).to_le_bytes();
        out[24..28].copy_from_slice(&length);
    }
    out
}

/// A plan to walk, as bytes: mostly applicable steps, now and then a wrong one or an odd byte.
pub fn plan(dice: &mut Dice, task: &Task) -> Vec<u8> {
    let mut state = task.start.clone();
    let mut out = Vec::new();
    for _ in 0..dice.below(12) {
        let fitting: Vec<usize> = (0..task.operators.len()).filter(|&k| holds(&task.operators[k].pre, &state)).collect();
        let step = if dice.one_in(8) || fitting.is_empty() { dice.below(task.operators.len() + 2) } else { dice.pick(&fitting) };
        if let Some(o) = task.operators.get(step) {
            state = apply(&o.eff, &state);
        }
        out.extend((step as u16).to_le_bytes());
    }
    if dice.one_in(16) {
        out.push(dice.number() as u8);
    }
    out
}
