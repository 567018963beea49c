//! Tasks, their states and operators, and the BPT1 file: check (refusals 1 to 10) and encoding.

pub const LETTERS: [u8; 4] = *b"BPT1";
pub const HEADER: usize = 28;
pub const FILE_MOST: usize = 16_384;
pub const VARIABLE_BYTES: usize = 2;
pub const OPERATOR_BYTES: usize = 36;
pub const TERM_BYTES: usize = 12;
pub const VARIABLES_MOST: usize = 32;
pub const OPERATORS_MOST: usize = 256;
pub const TERMS_MOST: usize = 256;
pub const BOUND_MOST: usize = 4_095;
pub const COST_MOST: u64 = 4_095;
pub const VALUES_MOST: usize = 16;
pub const OPERATOR_FACTS: usize = 8;
pub const TERM_FACTS: usize = 4;
pub const BITS_MOST: usize = 48;

/// A state: one value per variable, in file order.
pub type State = Vec<u8>;

#[derive(Clone, Copy, Debug, PartialEq, Eq)]
pub struct Fact {
    pub var: u8,
    pub val: u8,
}

#[derive(Clone, Debug, PartialEq, Eq)]
pub struct Operator {
    pub cost: u64,
    pub pre: Vec<Fact>,
    pub eff: Vec<Fact>,
}

#[derive(Clone, Debug, PartialEq, Eq)]
pub struct Term {
    pub weight: u64,
    pub facts: Vec<Fact>,
}

#[derive(Clone, Debug, PartialEq, Eq)]
pub struct Task {
    pub sizes: Vec<u8>,
    pub start: State,
    pub operators: Vec<Operator>,
    pub terms: Vec<Term>,
    pub bound: u64,
}

/// A numbered refusal with its second number.
#[derive(Clone, Copy, Debug, PartialEq, Eq)]
pub struct Refusal {
    pub number: u64,
    pub value: u64,
}

pub fn refuse<T>(number: u64, value: usize) -> Result<T, Refusal> {
    Err(Refusal { number, value: value as u64 })
}

pub fn holds(facts: &[Fact], state: &[u8]) -> bool {
    facts.iter().all(|f| state[f.var as usize] == f.val)
}

pub fn apply(effects: &[Fact], state: &[u8]) -> State {
    let mut next = state.to_vec();
    for f in effects {
        next[f.var as usize] = f.val;
    }
    next
}

/// The fewest bits that can number so many values.
pub fn width(size: u8) -> usize {
    let mut w = 0;
    while (1usize << w) < size as usize {
        w += 1;
    }
    w
}

impl Task {
    pub fn utility(&self, state: &[u8]) -> u64 {
        self.terms.iter().filter(|t| holds(&t.facts, state)).map(|t| t.weight).sum()
    }

    pub fn bits(&self) -> usize {
        self.sizes.iter().map(|&d| width(d)).sum()
    }

    /// The numbers of a variable's bits, high bit first.
    pub fn bits_of(&self, var: u8) -> std::ops::Range<usize> {
        let first: usize = self.sizes[..var as usize].iter().map(|&d| width(d)).sum();
        first..first + width(self.sizes[var as usize])
    }

    /// The facts as literals, in rising bit number.
    pub fn literals(&self, facts: &[Fact]) -> Vec<(u32, bool)> {
        let mut out = Vec::new();
        for f in facts {
            let bits = self.bits_of(f.var);
            let last = bits.end - 1;
            out.extend(bits.map(|k| (k as u32, f.val >> (last - k) & 1 == 1)));
        }
        out
    }

    /// All literals of a state, in rising bit number.
    pub fn state_literals(&self, state: &[u8]) -> Vec<(u32, bool)> {
        let facts: Vec<Fact> = state.iter().enumerate().map(|(v, &x)| Fact { var: v as u8, val: x }).collect();
        self.literals(&facts)
    }

    /// A state's number: bit k is worth 2^k.
    pub fn word(&self, state: &[u8]) -> u64 {
        self.state_literals(state).iter().map(|&(k, one)| (one as u64) << k).sum()
    }
}

/// A number of so many bytes, low byte first.
pub fn number(file: &[u8], at: usize, bytes: usize) -> usize {
    (0..bytes).map(|k| (file[at + k] as usize) << (8 * k)).sum()
}

/// The used facts of a record's part, if they keep the rules.
fn facts(sizes: &[u8], part: &[u8], used: usize, places: usize) -> Option<Vec<Fact>> {
    if used > places {
        return None;
    }
    let all: Vec<Fact> = part.chunks(2).map(|p| Fact { var: p[0], val: p[1] }).collect();
    let named = all[..used].iter().all(|f| sizes.get(f.var as usize).is_some_and(|&d| f.val < d));
    let rising = all[..used].windows(2).all(|p| p[0].var < p[1].var);
    let clean = all[used..].iter().all(|f| f.var == 0 && f.val == 0);
    (named && rising && clean).then(|| all[..used].to_vec())
}

fn operator(sizes: &[u8], record: &[u8]) -> Option<Operator> {
    let cost = number(record, 0, 2) as u64;
    if cost > COST_MOST {
        return None;
    }
    let pre = facts(sizes, &record[4..20], record[2] as usize, OPERATOR_FACTS)?;
    let eff = facts(sizes, &record[20..36], record[3] as usize, OPERATOR_FACTS)?;
    Some(Operator { cost, pre, eff })
}

fn term(sizes: &[u8], record: &[u8]) -> Option<Term> {
    if record[3] != 0 {
        return None;
    }
    let facts = facts(sizes, &record[4..12], record[2] as usize, TERM_FACTS)?;
    Some(Term { weight: number(record, 0, 2) as u64, facts })
}

/// The file check: the task, or the first of refusals 1 to 10.
pub fn check(file: &[u8]) -> Result<Task, Refusal> {
    if file.len() < HEADER {
        return refuse(1, 0);
    }
    if file.len() > FILE_MOST {
        return refuse(2, 0);
    }
    if file[..4] != LETTERS {
        return refuse(3, 0);
    }
    if number(file, 24, 4) != file.len() {
        return refuse(4, 0);
    }
    let counts = [number(file, 4, 2), number(file, 6, 2), number(file, 8, 2)];
    let bound = number(file, 10, 2);
    let in_range = (1..=VARIABLES_MOST).contains(&counts[0]) && counts[1] <= OPERATORS_MOST && counts[2] <= TERMS_MOST;
    if !in_range || bound > BOUND_MOST {
        return refuse(5, 0);
    }
    let starts = [number(file, 12, 4), number(file, 16, 4), number(file, 20, 4)];
    let widths = [VARIABLE_BYTES, OPERATOR_BYTES, TERM_BYTES];
    let ends: Vec<usize> = (0..3).map(|k| starts[k] + counts[k] * widths[k]).collect();
    let outside = (0..3).any(|k| starts[k] < HEADER || ends[k] > file.len());
    let meet = |a: usize, b: usize| counts[a] > 0 && counts[b] > 0 && starts[a] < ends[b] && starts[b] < ends[a];
    if outside || meet(0, 1) || meet(0, 2) || meet(1, 2) {
        return refuse(6, 0);
    }
    let record = |kind: usize, k: usize| &file[starts[kind] + k * widths[kind]..][..widths[kind]];
    let mut sizes = Vec::new();
    let mut start = Vec::new();
    for k in 0..counts[0] {
        let r = record(0, k);
        if r[0] < 2 || r[0] as usize > VALUES_MOST || r[1] >= r[0] {
            return refuse(7, k);
        }
        sizes.push(r[0]);
        start.push(r[1]);
    }
    if sizes.iter().map(|&d| width(d)).sum::<usize>() > BITS_MOST {
        return refuse(8, 0);
    }
    let mut operators = Vec::new();
    for k in 0..counts[1] {
        match operator(&sizes, record(1, k)) {
            Some(o) => operators.push(o),
            None => return refuse(9, k),
        }
    }
    let mut terms = Vec::new();
    for k in 0..counts[2] {
        match term(&sizes, record(2, k)) {
            Some(t) => terms.push(t),
            None => return refuse(10, k),
        }
    }
    Ok(Task { sizes, start, operators, terms, bound: bound as u64 })
}

fn fact_bytes(facts: &[Fact], places: usize) -> Vec<u8> {
    let mut out: Vec<u8> = facts.iter().flat_map(|f| [f.var, f.val]).collect();
    out.resize(2 * places, 0);
    out
}

/// The bytes of the three sections: variables, operators, terms.
pub fn sections(task: &Task) -> [Vec<u8>; 3] {
    let variables = task.sizes.iter().zip(&task.start).flat_map(|(&d, &x)| [d, x]).collect();
    let mut operators = Vec::new();
    for o in &task.operators {
        operators.extend((o.cost as u16).to_le_bytes());
        operators.extend([o.pre.len() as u8, o.eff.len() as u8]);
        operators.extend(fact_bytes(&o.pre, OPERATOR_FACTS));
        operators.extend(fact_bytes(&o.eff, OPERATOR_FACTS));
    }
    let mut terms = Vec::new();
    for t in &task.terms {
        terms.extend((t.weight as u16).to_le_bytes());
        terms.extend([t.facts.len() as u8, 0]);
        terms.extend(fact_bytes(&t.facts, TERM_FACTS));
    }
    [variables, operators, terms]
}

/// The header of a file with these section offsets and this length.
pub fn header(task: &Task, offsets: [usize; 3], length: usize) -> Vec<u8> {
    let mut out = LETTERS.to_vec();
    for n in [task.sizes.len(), task.operators.len(), task.terms.len(), task.bound as usize] {
        out.extend((n as u16).to_le_bytes());
    }
    for n in [offsets[0], offsets[1], offsets[2], length] {
        out.extend((n as u32).to_le_bytes());
    }
    out
}

/// The task's file: variables, operators, terms, without gaps.
pub fn encode(task: &Task) -> Vec<u8> {
    let parts = sections(task);
    let second = HEADER + parts[0].len();
    let third = second + parts[1].len();
    let mut out = header(task, [HEADER, second, third], third + parts[2].len());
    out.extend(parts.concat());
    out
}
