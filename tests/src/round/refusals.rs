//! Every refusal of every call of a round, at every place, alone and two together.
use super::lent::{refused, taken, Refusal};
use super::material::{Modulus, Plan, SMALL};
use super::whole::{second, Whole};
use super::{check_faults, extract_faults, producer_faults};
use crate::random::Random;
use crate::tally::{Comparison, Tally};

const SIZES: [usize; 3] = [4, 8, 16];
const CHALLENGES: [[u8; 3]; 3] = [[1, 2, 3], [3, 1, 2], [2, 3, 1]];

/// Rounds with room for masks that are a little too large, so that nothing but the mask is wrong with them.
fn plan(n: usize) -> Plan {
    Plan { n, modulus: Modulus::Any, ..SMALL }
}

fn producers(tally: &mut Tally, random: &mut Random, sizes: &[usize]) {
    let mut c = Comparison::default();
    for n in sizes.iter().copied() {
        let first = plan(n).material(random);
        let whole = Whole::honest(&first);
        producer_faults::faults(&whole, &first).run(&mut c, random, &first);
        let asked = second(random, &first, &whole, n / 4 % 2, &CHALLENGES[n % 3]);
        let mut faults = producer_faults::faults(&whole, &asked);
        producer_faults::asked(&mut faults, &asked);
        faults.run(&mut c, random, &asked);
    }
    c.claim(tally, "round: what the producer refuses, by each number at each place, and of two faults the earlier");
}

fn checks(tally: &mut Tally, random: &mut Random, sizes: &[usize]) {
    let mut c = Comparison::default();
    for n in sizes.iter().copied() {
        let whole = Whole::honest(&plan(n).material(random));
        for (i, challenges) in CHALLENGES.iter().enumerate() {
            let lent = whole.check((n / 4 + i) % 2, challenges);
            check_faults::faults(&whole, &lent).run(&mut c, random, &lent);
        }
    }
    c.claim(tally, "round: what a check refuses, by each number at each place, and of two faults the earlier");
}

fn extractors(tally: &mut Tally, random: &mut Random, sizes: &[usize]) {
    let mut c = Comparison::default();
    for n in sizes.iter().copied() {
        let whole = Whole::honest(&plan(n).material(random));
        for repetition in 0..3 {
            let lent = whole.extract(random, repetition);
            extract_faults::faults(&whole, &lent).run(&mut c, random, &lent);
        }
    }
    c.claim(tally, "round: what the extractor refuses, by each number at each place, and of two faults the earlier");
}

/// What no test looks at may be anything: a mark, and the digest that an answer does not open, which has the number of its challenge.
fn ignored(tally: &mut Tally, random: &mut Random) {
    let mut c = Comparison::default();
    let n = 8;
    let whole = Whole::honest(&plan(n).material(random));
    for (side, challenges) in CHALLENGES.iter().enumerate().map(|(i, challenges)| (i % 2, challenges)) {
        let right = whole.check(side, challenges);
        let mut lent = right.clone();
        lent["ballots"][..4].copy_from_slice(&random.bytes(4));
        taken(&mut c, &lent, 0, || "another mark".into());
        for (i, challenge) in challenges.iter().enumerate() {
            let mut lent = right.clone();
            lent["head"][80 * n + 96 * i + 32 * (usize::from(*challenge) - 1)] ^= 1;
            taken(&mut c, &lent, 0, || format!("the digest that answer {challenge} does not open"));
        }
    }
    c.claim(tally, "round: a check does not look at marks and unopened digests");
}

/// Honest parts where they do not belong: the other side's opening, an answer to another challenge or of another repetition.
fn misplaced(tally: &mut Tally, random: &mut Random) {
    let mut c = Comparison::default();
    let whole = Whole::honest(&plan(8).material(random));
    for side in 0..2 {
        let mut lent = whole.check(side, &[1, 2, 3]);
        lent.number = 1 - lent.number;
        refused(&mut c, &lent, Refusal { number: 7, place: 0 }, || "the other side".into());
        let mut lent = whole.check(side, &[1, 2, 3]);
        lent["challenges"].copy_from_slice(&[1, 3, 2]);
        refused(&mut c, &lent, Refusal { number: 11, place: 1 }, || "answers to each other's challenges".into());
        let mut lent = whole.check(side, &[3, 3, 3]);
        lent["answers"].rotate_left(504 * 8 + 64);
        refused(&mut c, &lent, Refusal { number: 11, place: 0 }, || "answers of each other's repetitions".into());
    }
    for repetition in 0..3 {
        let mut lent = whole.extract(random, repetition);
        lent.number = (lent.number + 1) % 3;
        refused(&mut c, &lent, Refusal { number: 11, place: lent.number }, || "another repetition".into());
        let mut lent = whole.extract(random, repetition);
        lent["answer3"] = whole.source.answer((repetition + 1) % 3, 3);
        refused(&mut c, &lent, Refusal { number: 11, place: repetition as u64 }, || "answer 3 of another repetition".into());
        lent["opening0"] = whole.source.opening(1);
        refused(&mut c, &lent, Refusal { number: 7, place: 0 }, || "side 1 opened twice".into());
    }
    c.claim(tally, "round: openings and answers where they do not belong");
}

pub fn run(tally: &mut Tally, random: &mut Random) {
    producers(tally, random, &SIZES);
    checks(tally, random, &SIZES);
    extractors(tally, random, &SIZES);
    ignored(tally, random);
    misplaced(tally, random);
}

pub fn small(tally: &mut Tally, random: &mut Random) {
    producers(tally, random, &[4]);
    checks(tally, random, &[4]);
    extractors(tally, random, &[4]);
}
