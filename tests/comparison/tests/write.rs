//! The library's writer against the reference's, on files in every section order, with gaps, empty sections and damage, in lists that
//! are too short, exact and longer; and that two files are written alike exactly if they carry one task.

use comparison::{compare_write, refusal};
use laurelsnap::{canonical, check, search, walk_bytes, write, Lists, Refusal, Room};
use reference::example;
use reference::random::{any_task, damage, file, large_task, plan, task, Dice};
use reference::task::{encode, number, Task, FILE_MOST, HEADER, OPERATOR_BYTES, TERM_BYTES, VARIABLE_BYTES};

const SHORT_LIST: Refusal = Refusal { number: 22, value: 0 };
/// Bytes of a list past those that are lent.
const PAST: usize = 9;

/// The file written into so many bytes of a list full of noise, compared byte by byte.
fn compare(dice: &mut Dice, file: &[u8], length: usize) -> Result<usize, Refusal> {
    let noise: Vec<u8> = (0..length + PAST).map(|_| dice.number() as u8).collect();
    compare_write(file, &noise, length).unwrap_or_else(|difference| panic!("{difference}"))
}

/// What the accepted files should have so that agreeing on them says something; the first six are the section orders.
const KINDS: [&str; 14] = [
    "variables, operators, terms",
    "variables, terms, operators",
    "operators, variables, terms",
    "operators, terms, variables",
    "terms, variables, operators",
    "terms, operators, variables",
    "unread bytes",
    "no unread bytes",
    "no operators",
    "no terms",
    "neither",
    "an empty section at the file's end",
    "an empty section inside another one",
    "canonical",
];

fn kinds(file: &[u8], task: &Task) -> [bool; KINDS.len()] {
    let starts = [12, 16, 20].map(|at| number(file, at, 4));
    let counts = [task.sizes.len(), task.operators.len(), task.terms.len()];
    let widths = [VARIABLE_BYTES, OPERATOR_BYTES, TERM_BYTES];
    let bytes = [0, 1, 2].map(|k| counts[k] * widths[k]);
    let full = counts.iter().all(|&count| count > 0);
    let order = |a: usize, b: usize, c: usize| full && starts[a] < starts[b] && starts[b] < starts[c];
    let unread = HEADER + bytes.iter().sum::<usize>() < file.len();
    let within = |k: usize| (0..3).any(|other| starts[other] < starts[k] && starts[k] < starts[other] + bytes[other]);
    let empty = || (0..3).filter(|&k| counts[k] == 0);
    [
        order(0, 1, 2),
        order(0, 2, 1),
        order(1, 0, 2),
        order(1, 2, 0),
        order(2, 0, 1),
        order(2, 1, 0),
        unread,
        !unread,
        counts[1] == 0,
        counts[2] == 0,
        counts[1] + counts[2] == 0,
        empty().any(|k| starts[k] == file.len()),
        empty().any(within),
        file == encode(task),
    ]
}

#[test]
fn accepted_files_agree() {
    let mut dice = Dice(31);
    let mut met = [0; KINDS.len()];
    for _ in 0..12_000 {
        let random = any_task(&mut dice);
        let whole = file(&mut dice, &random);
        let written = encode(&random).len();
        assert_eq!(compare(&mut dice, &whole, 0), Err(SHORT_LIST));
        assert_eq!(compare(&mut dice, &whole, written - 1), Err(SHORT_LIST));
        let short = dice.below(written);
        assert_eq!(compare(&mut dice, &whole, short), Err(SHORT_LIST));
        let longer = written + dice.below(100);
        for length in [written, written + 1, longer, whole.len()] {
            assert_eq!(compare(&mut dice, &whole, length), Ok(written));
        }
        met.iter_mut().zip(kinds(&whole, &random)).for_each(|(count, is)| *count += is as usize);
    }
    let rare: Vec<_> = KINDS.iter().zip(met).filter(|(_, count)| *count < 100).collect();
    assert!(rare.is_empty(), "too few of {rare:?}");
}

/// The task with variables of more than 48 bits.
fn wide(random: Task) -> Task {
    let count = random.sizes.len().max(13);
    let mut start = random.start;
    start.resize(count, 0);
    Task { sizes: vec![16; count], start, ..random }
}

/// No output list, not even the empty one, hides a refusal of the file check.
#[test]
fn refused_files_agree() {
    let mut dice = Dice(32);
    let mut met = [0; 11];
    for _ in 0..30_000 {
        let random = any_task(&mut dice);
        let random = if dice.one_in(20) { wide(random) } else { random };
        let whole = file(&mut dice, &random);
        let tried = if dice.one_in(10) { whole } else { damage(&mut dice, &whole) };
        let Err(expected) = reference::task::check(&tried).map_err(refusal) else { continue };
        let short = dice.below(HEADER);
        for length in [0, short, tried.len()] {
            assert_eq!(compare(&mut dice, &tried, length), Err(expected));
        }
        assert_eq!(canonical(&tried), Err(expected));
        met[expected.number as usize] += 1;
    }
    assert!(met[1..].iter().all(|&count| count > 50), "{met:?}");
}

#[test]
fn the_canonical_file_reads_back_as_the_task() {
    let mut dice = Dice(33);
    for _ in 0..12_000 {
        let random = any_task(&mut dice);
        let whole = file(&mut dice, &random);
        let written = canonical(&whole).expect("a task");
        assert!(written.len() <= whole.len());
        assert_eq!(check(&written), Ok(()));
        assert_eq!(reference::task::check(&written).as_ref(), Ok(&random));
        assert_eq!(canonical(&written).as_ref(), Ok(&written));
        assert_eq!(canonical(&file(&mut dice, &random)).as_ref(), Ok(&written));
        let steps = plan(&mut dice, &random);
        assert_eq!(walk_bytes(&written, &steps), walk_bytes(&whole, &steps));
    }
}

#[test]
fn the_canonical_file_has_the_same_best_plan() {
    let mut dice = Dice(34);
    let mut plans = 0;
    for _ in 0..500 {
        let random = task(&mut dice);
        let whole = file(&mut dice, &random);
        let written = canonical(&whole).expect("a task");
        let [(found, plan), again] = [whole, written].map(|bytes| {
            let mut lists = Lists::new(Room { nodes: 2_000, utility: 500, pairs: 2_048, steps: 2_048 });
            (search(&bytes, &mut lists), lists.plan)
        });
        plans += found.is_ok_and(|found| found.steps > 0) as usize;
        assert_eq!((found, plan), again);
    }
    assert!(plans > 50, "{plans}");
}

/// A file of the same task with one byte changed, wherever it stands, is written alike exactly if it still carries that task.
#[test]
fn files_are_written_alike_exactly_if_they_carry_one_task() {
    let mut dice = Dice(35);
    let (mut alike, mut bounds, mut variables, mut operators, mut terms) = (0, 0, 0, 0, 0);
    for _ in 0..30_000 {
        let random = any_task(&mut dice);
        let whole = file(&mut dice, &random);
        let mut other = file(&mut dice, &random);
        let at = if dice.one_in(8) { dice.between(4, 11) } else { dice.below(other.len()) };
        other[at] = other[at].wrapping_add(dice.pick(&[1, 2, 16, 255]));
        let Ok(changed) = reference::task::check(&other) else { continue };
        assert_eq!(canonical(&other) == canonical(&whole), changed == random);
        alike += (changed == random) as usize;
        bounds += (changed.bound != random.bound) as usize;
        variables += ((changed.sizes, changed.start) != (random.sizes, random.start)) as usize;
        operators += (changed.operators != random.operators) as usize;
        terms += (changed.terms != random.terms) as usize;
    }
    let met = [alike, bounds, variables, operators, terms];
    assert!(met.iter().all(|&count| count > 50), "{met:?}");
}

/// The longest file that is accepted, and one byte more.
#[test]
fn long_files() {
    let mut dice = Dice(36);
    let random = large_task(&mut dice);
    let mut whole = file(&mut dice, &random);
    for (length, expected) in [(FILE_MOST, Ok(encode(&random))), (FILE_MOST + 1, Err(Refusal { number: 2, value: 0 }))] {
        whole.resize(length, 170);
        whole[24..28].copy_from_slice(&(length as u32).to_le_bytes());
        assert_eq!(canonical(&whole), expected);
    }
}

#[test]
fn examples_are_canonical() {
    for name in ["p-0", "p-1", "p-2", "q-3", "q-4", "q-5", "calibration"] {
        assert_eq!(canonical(&example(name)), Ok(example(name)));
    }
    let message = write(&example("p-1"), &mut [0; 163]).expect_err("a refusal").to_string();
    assert_eq!(message, "refused 22 0: the output list is too short");
}
