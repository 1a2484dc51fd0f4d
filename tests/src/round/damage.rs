//! One byte changed anywhere in what a call is lent: the library and the independent implementation answer alike, refused or not.
use super::lent::{compare, Lent};
use super::material::{Plan, SMALL};
use super::whole::{second, Whole};
use crate::random::Random;
use crate::tally::{Comparison, Tally};
use std::collections::BTreeSet;

/// The numbers of the replies that a call was brought to.
type Reached = BTreeSet<u64>;

/// Every `step`-th byte of every slice that is read, its lowest bit changed and then any bits; of a slice of at most 200 bytes every byte.
fn each_byte(c: &mut Comparison, random: &mut Random, reached: &mut Reached, lent: &Lent, step: usize) {
    for (slice, name) in lent.call.reads.iter().enumerate() {
        let length = lent.slices[slice].len();
        for at in (0..length).step_by(if length > 200 { step } else { 1 }) {
            for change in [1, 1 + random.below(255) as u8] {
                let mut damaged = lent.clone();
                damaged.slices[slice][at] ^= change;
                reached.insert(compare(c, &damaged, || format!("byte {at} of {name} changed by {change}")) % 256);
            }
        }
    }
}

fn reaches(c: &mut Comparison, lent: &Lent, reached: &Reached, numbers: &[u64]) {
    for number in numbers {
        c.same(|| format!("{} reached {number}", lent.call.name), reached.contains(number), true);
    }
}

/// A check of every byte, with each challenge in one of the repetitions, and the extractor with every byte of all three answers.
fn every(tally: &mut Tally, random: &mut Random) {
    let whole = Whole::honest(&SMALL.material(random));
    let (mut c, mut reached) = (Comparison::default(), Reached::new());
    for (side, challenges) in [[1, 2, 3], [3, 1, 2]].iter().enumerate() {
        let lent = whole.check(side, challenges);
        each_byte(&mut c, random, &mut reached, &lent, 1 + 4 * side);
    }
    reaches(&mut c, &whole.check(0, &[1, 2, 3]), &reached, &[0, 1, 2, 3, 4, 5, 6, 7, 8, 9, 10, 11, 12, 13]);
    c.claim(tally, "round: a check with every byte of every slice changed");

    let (mut c, mut reached) = (Comparison::default(), Reached::new());
    let lent = whole.extract(random, 1);
    each_byte(&mut c, random, &mut reached, &lent, 1);
    reaches(&mut c, &lent, &reached, &[0, 2, 3, 4, 5, 6, 7, 8, 9, 10, 11, 12, 13]);
    c.claim(tally, "round: the extractor with every byte of every slice changed");
}

/// Bytes of the producer's material, some of each long slice.
fn produced(tally: &mut Tally, random: &mut Random) {
    let (mut c, mut reached) = (Comparison::default(), Reached::new());
    let first = SMALL.material(random);
    let whole = Whole::honest(&first);
    let asked = second(random, &first, &whole, 1, &[3, 2, 1]);
    for lent in [&first, &asked] {
        each_byte(&mut c, random, &mut reached, lent, 5);
        reaches(&mut c, lent, &reached, &[0, 2, 3, 4, 5, 9, 12, 14, 15]);
        reached.clear();
    }
    c.claim(tally, "round: the producer's calls with bytes of every slice changed");
}

/// Bytes anywhere in larger rounds, sometimes two of them.
fn larger(tally: &mut Tally, random: &mut Random) {
    let mut c = Comparison::default();
    for n in [8, 16, 16, 64] {
        let first = Plan::random(random, n).material(random);
        let whole = Whole::honest(&first);
        let challenges = whole.challenges(random);
        let side = random.below(2) as usize;
        let calls = [second(random, &first, &whole, side, &challenges), whole.check(side, &challenges), whole.extract(random, 0), first];
        for lent in calls.iter().flat_map(|lent| std::iter::repeat_n(lent, 40)) {
            let mut damaged = lent.clone();
            for _ in 0..1 + random.below(2) {
                let slice = random.below(lent.slices.len() as u64) as usize;
                let length = damaged.slices[slice].len() as u64;
                if length > 0 {
                    damaged.slices[slice][random.below(length) as usize] ^= 1 << random.below(8);
                }
            }
            compare(&mut c, &damaged, || format!("a bit changed, N = {n}"));
        }
    }
    c.claim(tally, "round: bits changed anywhere in larger rounds");
}

pub fn run(tally: &mut Tally, random: &mut Random) {
    every(tally, random);
    produced(tally, random);
    larger(tally, random);
}
