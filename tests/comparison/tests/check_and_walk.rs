//! The library's file check and walk against the reference, on tens of thousands of files and plans, valid and damaged.

use comparison::refusal;
use laurelsnap::{check, walk, walk_bytes, Refusal, Walked};
use reference::example;
use reference::random::{any_task, damage, file, plan, task, Dice};
use reference::task::encode;

#[test]
fn checks_agree() {
    let mut dice = Dice(11);
    for turn in 0..60_000 {
        let random = any_task(&mut dice);
        let whole = file(&mut dice, &random);
        let tried = if dice.one_in(5) { whole } else { damage(&mut dice, &whole) };
        assert_eq!(check(&tried), reference::task::check(&tried).map(|_| ()).map_err(refusal), "turn {turn}");
    }
}

#[test]
fn checks_agree_on_noise() {
    let mut dice = Dice(12);
    for _ in 0..20_000 {
        let length = dice.pick(&[0, 1, 4, 27, 28, 29, 60, 300]);
        let mut noise: Vec<u8> = (0..length).map(|_| dice.number() as u8).collect();
        if noise.len() >= 28 && dice.one_in(2) {
            noise[..4].copy_from_slice(b"BPT1");
            let field = (noise.len() as u32).to_le_bytes();
            noise[24..28].copy_from_slice(&field);
        }
        assert_eq!(check(&noise), reference::task::check(&noise).map(|_| ()).map_err(refusal));
    }
}

#[test]
fn walks_agree() {
    let mut dice = Dice(13);
    for turn in 0..40_000 {
        let random = any_task(&mut dice);
        let steps = plan(&mut dice, &random);
        let whole = file(&mut dice, &random);
        let tried = if dice.one_in(10) { damage(&mut dice, &whole) } else { whole };
        let expected = reference::walk::walk(&tried, &steps);
        let expected = expected.map(|w| Walked { cost: w.cost, utility: w.utility }).map_err(refusal);
        assert_eq!(walk_bytes(&tried, &steps), expected, "turn {turn}");
    }
}

#[test]
fn best_plans_walk() {
    let mut dice = Dice(14);
    for _ in 0..5_000 {
        let random = task(&mut dice);
        let best = reference::plan::best(&random, reference::plan::Fault::None);
        assert_eq!(walk(&encode(&random), &best.plan), Ok(Walked { cost: best.cost, utility: best.utility }));
    }
}

#[test]
fn stand_cases() {
    assert_eq!(walk(&example("p-2"), &[1, 2]), Ok(Walked { cost: 2, utility: 3 }));
    assert_eq!(walk(&example("p-1"), &[1, 2]), Err(Refusal { number: 19, value: 1 }));
    assert_eq!(walk(&example("p-2"), &[1, 1]), Err(Refusal { number: 18, value: 1 }));
    assert_eq!(walk(&example("p-2"), &[3]), Err(Refusal { number: 17, value: 0 }));
    assert_eq!(walk_bytes(&example("p-2"), &[1]), Err(Refusal { number: 16, value: 0 }));
    assert_eq!(check(&[]), Err(Refusal { number: 1, value: 0 }));
    let message = check(&[]).expect_err("a refusal").to_string();
    assert_eq!(message, "refused 1 0: the file is under 28 bytes");
}
