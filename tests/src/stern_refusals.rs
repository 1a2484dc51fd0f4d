//! What the calls of `test_stern` refuse: a damaged P, an answer 1 that is not balanced, lengths and ranges.
use crate::argument::{is_permutation, Argument};
use crate::random::Random;
use crate::scratch::{Scratch, SCRATCH};
use crate::stern::{answer, answer_length, digests, material, place, repetition, test, Left, Lent, MODULI};
use crate::tally::{Comparison, Tally};

/// P with one entry written over: a repeat, or an index out of range.
fn damaged(random: &mut Random, p: &[u8]) -> Vec<u8> {
    let count = (p.len() / 4) as u64;
    let (i, j) = (random.below(count) as usize, random.below(count - 1) as usize);
    let j = if j < i { j } else { j + 1 };
    let other = match random.below(3) {
        0 => u32::from_le_bytes(p[4 * j..4 * j + 4].try_into().unwrap()),
        1 => count as u32,
        _ => u32::MAX,
    };
    let mut wrong = p.to_vec();
    wrong[4 * i..4 * i + 4].copy_from_slice(&other.to_le_bytes());
    wrong
}

fn permutations(tally: &mut Tally, random: &mut Random) {
    let mut c = Comparison::default();
    let mut ignored = Comparison::default();
    for n in [4, 16, 64] {
        let (a, d, answers) = repetition(&mut ignored, random, n, 97, false);
        for _ in 0..20 {
            let mut l = material(random, n, 97, false);
            l.drawn.p = damaged(random, &l.drawn.p);
            c.same(|| "a damaged P".into(), is_permutation(&l.drawn.p), false);
            let kept = random.bytes(96);
            c.same(|| format!("digests, n {n}"), digests(&l, &kept), Left(9, kept.clone(), Scratch::Zeroed));
            for challenge in 1..=3 {
                let kept = random.bytes(answer_length(n, challenge));
                c.same(|| format!("answer {challenge}, n {n}"), answer(&l, challenge, &kept), Left(9, kept.clone(), Scratch::Zeroed));
            }
            for challenge in [2, 3] {
                let mut wrong = answers[usize::from(challenge) - 1].clone();
                let p = damaged(random, &wrong[..168 * n]);
                wrong[..168 * n].copy_from_slice(&p);
                let at = place(random);
                let expected = (9 + 256 * u64::from(at), Scratch::Zeroed);
                c.same(|| format!("test of answer {challenge}, n {n}"), test(&a, &d, challenge, &wrong, at, SCRATCH), expected);
            }
        }
    }
    c.claim(tally, "stern: a P with a repeat or an index out of range is refused 9");
}

fn unbalanced(tally: &mut Tally, random: &mut Random) {
    let mut c = Comparison::default();
    let mut ignored = Comparison::default();
    for n in [4, 16, 64] {
        let (a, d, answers) = repetition(&mut ignored, random, n, MODULI[2], false);
        for _ in 0..60 {
            let mut wrong = answers[0].clone();
            let i = random.below(42 * n as u64) as usize;
            wrong[i] = (wrong[i] + 1 + random.below(2) as u8) % 3;
            let at = place(random);
            c.same(|| format!("n {n}"), test(&a, &d, 1, &wrong, at, SCRATCH), (10 + 256 * u64::from(at), Scratch::Zeroed));
        }
    }
    c.claim(tally, "stern: an answer 1 that is ternary and not balanced is refused 10");
}

/// Every byte is kept where the reply is 1; scratch is zeroed where it is 5.
fn state(number: u64) -> Scratch {
    if number == 1 { Scratch::Kept } else { Scratch::Zeroed }
}

/// The material with one thing wrong, and the refusal. The last three do not concern the call for an answer.
fn wrong_material(random: &mut Random, kind: usize) -> (Lent, u64) {
    let mut l = material(random, 8, 97, false);
    match kind {
        0 => l.n = [0, 3, 2049, usize::MAX][random.below(4) as usize],
        1 => l.q = [0, 2, 1 << 56, u64::MAX][random.below(4) as usize],
        2 => l.x.push(0),
        3 => l.drawn.r.truncate(335 * 8),
        4 => l.drawn.p.push(0),
        5 => l.drawn.salts.truncate(95),
        6 => l.scratch = [0, SCRATCH - 1, SCRATCH + 1][random.below(3) as usize],
        7 => l.x[random.below(112) as usize] = 3,
        8 => l.drawn.r[8 * random.below(336) as usize] = 97,
        9 => l.keys[8 * random.below(24) as usize] = 97,
        10 => l.keys.truncate(191),
        _ => l.keys.push(0),
    }
    (l, if [0, 1, 7, 8, 9].contains(&kind) { 5 } else { 1 })
}

fn refusals(tally: &mut Tally, random: &mut Random) {
    let mut c = Comparison::default();
    for kind in (0..12).cycle().take(96) {
        let (l, number) = wrong_material(random, kind);
        let kept = random.bytes(96);
        c.same(|| format!("digests, {kind}"), digests(&l, &kept), Left(number, kept.clone(), state(number)));
        for challenge in (0..=4).filter(|_| kind < 9) {
            let kept = random.bytes(answer_length(8, challenge));
            c.same(|| format!("answer {challenge}, {kind}"), answer(&l, challenge, &kept), Left(number, kept.clone(), state(number)));
        }
    }
    let l = material(random, 8, 97, false);
    for length in [0, 95, 97] {
        let kept = random.bytes(length);
        c.same(|| format!("an output of {length}"), digests(&l, &kept), Left(1, kept.clone(), Scratch::Kept));
    }
    for challenge in [0, 1, 2, 3, 4, 255] {
        for other in [0, 1].map(|k| answer_length(8, 1 + u8::from(challenge == 1)) + k) {
            let kept = random.bytes(other);
            c.same(|| format!("answer {challenge} of {other} bytes"), answer(&l, challenge, &kept), Left(1, kept.clone(), Scratch::Kept));
        }
    }
    let third = Argument::new(8, 97, l.keys.clone()).answer(3, &l.x, &l.drawn);
    for challenge in [0, 3, 4, 255] {
        let kept = random.bytes(third.len());
        c.same(|| format!("challenge {challenge} counts as 3"), answer(&l, challenge, &kept), Left(0, third.clone(), Scratch::Zeroed));
    }
    c.claim(tally, "stern: material of wrong length or out of range, and nothing written");
}

fn wrong_tests(tally: &mut Tally, random: &mut Random) {
    let mut c = Comparison::default();
    let mut ignored = Comparison::default();
    let (mut a, d, answers) = repetition(&mut ignored, random, 8, 97, false);
    for challenge in [1, 2, 3, 0, 4, 255] {
        let right = &answers[usize::from(if (1..3).contains(&challenge) { challenge } else { 3 }) - 1];
        c.same(|| format!("challenge {challenge}"), test(&a, &d, challenge, right, 7, SCRATCH), (0, Scratch::Zeroed));
        for length in [0, SCRATCH - 1, SCRATCH + 1] {
            c.same(|| format!("scratch of {length}"), test(&a, &d, challenge, right, 7, length), (1, Scratch::Kept));
        }
        c.same(|| format!("a short answer {challenge}"), test(&a, &d, challenge, &right[1..], 7, SCRATCH), (1, Scratch::Kept));
        c.same(|| "short digests".into(), test(&a, &d[1..], challenge, right, 7, SCRATCH), (1, Scratch::Kept));
        let mut wrong = right.clone();
        wrong[(if challenge == 1 { 42 } else { 168 }) * 8] = 97;
        c.same(|| format!("a coefficient of answer {challenge}"), test(&a, &d, challenge, &wrong, 7, SCRATCH), (5, Scratch::Zeroed));
        for (number, damage) in [(5, 97), (1, 0)] {
            let (keys, pairs) = (a.keys.clone(), a.pairs.clone());
            if number == 5 { a.keys[184] = damage } else { a.keys.push(damage) }
            c.same(|| format!("keys, {number}"), test(&a, &d, challenge, right, 7, SCRATCH), (number, state(number)));
            a.keys = keys;
            if number == 5 { a.pairs[504] = damage } else { a.pairs.push(damage) }
            c.same(|| format!("pairs, {number}"), test(&a, &d, challenge, right, 7, SCRATCH), (number, state(number)));
            a.pairs = pairs;
        }
    }
    let mut wrong = answers[0].clone();
    wrong[0] = 3;
    c.same(|| "a byte of answer 1 above 2".into(), test(&a, &d, 1, &wrong, 7, SCRATCH), (5, Scratch::Zeroed));
    c.claim(tally, "stern: a test of slices of wrong length or out of range");
}

pub fn run(tally: &mut Tally, random: &mut Random) {
    permutations(tally, random);
    unbalanced(tally, random);
    refusals(tally, random);
    wrong_tests(tally, random);
}
