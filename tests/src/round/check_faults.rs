//! What a check of a round refuses, each number at each place.
use super::answer_faults::{opens, Answer};
use super::faults::{add, turn, Faults, RANGES};
use super::lent::Lent;
use super::setting::Setting;
use super::whole::Whole;
use crate::polynomials::signed;
use crate::stern::answer_length;

/// The steps of a check after the ranges.
const SPLIT: u64 = 3;
const KEY: u64 = 4;
const PAIRS: u64 = 5;
const REPETITIONS: u64 = 6;
const BALLOTS: u64 = 7;

pub fn faults(whole: &Whole, lent: &Lent) -> Faults {
    let (z, side) = (whole.setting(), lent.number as usize);
    let mut faults = Faults::default();
    faults.sheets(lent);
    faults.lengths(lent);
    message_ranges(&mut faults, z, whole.source.count());
    opening_ranges(&mut faults, z, "opening");
    [2, 3, 1 << 32, u64::MAX].into_iter().for_each(|side| faults.past_number(side));
    split(&mut faults, z, SPLIT);
    shifted(&mut faults, z, KEY);
    opened_key(&mut faults, z, "opening", KEY);
    opened_pairs(&mut faults, z, side, "opening", PAIRS);
    answers(&mut faults, z, lent);
    let shares = ["shares0", "shares1"][side];
    let (n, q) = (z.n(), z.ring.q);
    for j in 0..whole.source.count() {
        mask(&mut faults, whole, side, j, BALLOTS);
        faults.add(BALLOTS, 12, j, "half a mask", move |lent| add(&mut lent[shares], 8 * n * (j + 1) - 8, 1, q));
        claim(&mut faults, z, j, BALLOTS);
    }
    faults
}

fn answers(faults: &mut Faults, z: &Setting, lent: &Lent) {
    let mut at = 0;
    for (i, challenge) in lent["challenges"].iter().copied().enumerate() {
        let answer = Answer { slice: "answers", at, repetition: i, challenge, step: REPETITIONS, turn: i };
        answer.all(faults, z);
        opens(challenge).into_iter().for_each(|number| answer.digest(faults, z, number));
        // only where the answer keeps its length
        for other in [0, 4, 255].into_iter().filter(|_| challenge != 1) {
            faults.add(RANGES, 5, 0, &format!("challenge {other} in repetition {i}"), move |lent| lent["challenges"][i] = other);
        }
        at += answer_length(z.n(), challenge);
    }
}

/// 5 in ballots, claims and the first message, which the extractor is lent too.
pub fn message_ranges(faults: &mut Faults, z: &Setting, count: usize) {
    let (n, q) = (z.n(), z.q());
    for k in 0..10 {
        faults.past("head", 8 * n * k, q);
        faults.past("head", 8 * n * (k + 1) - 8, u64::MAX);
    }
    for j in 0..count {
        ballot_ranges(faults, z, j);
        faults.past("shares0", 8 * n * j, q);
        faults.past("shares1", 8 * n * (j + 1) - 8, q + 1);
        faults.past_byte("claims", n * j, 2);
        faults.past_byte("claims", n * (j + 1) - 1, 255);
    }
}

/// 5 in ballot j.
pub fn ballot_ranges(faults: &mut Faults, z: &Setting, j: usize) {
    let (n, at) = (z.n(), (4 + 16 * z.n()) * j + 4);
    faults.past("ballots", at, z.q());
    faults.past("ballots", at + 8 * n, z.q());
    faults.past("ballots", at + 16 * n - 8, 1 << 56);
}

/// 5 in an opening.
pub fn opening_ranges(faults: &mut Faults, z: &Setting, slice: &'static str) {
    let n = z.n();
    for at in [0, 8 * n - 8, 8 * n, 16 * n - 8] {
        faults.past(slice, at, z.q());
    }
    for at in [16 * n, 19 * n - 1, 19 * n, 22 * n - 1] {
        faults.past_byte(slice, at, 3);
    }
}

/// 6: b0 + b1 is another polynomial than b.
pub fn split(faults: &mut Faults, z: &Setting, step: u64) {
    let (n, q) = (z.n(), z.ring.q);
    faults.add(step, 6, 0, "b0", move |lent| add(&mut lent["head"], 0, 1, q));
    faults.add(step, 6, 0, "b1", move |lent| add(&mut lent["head"], 16 * n - 8, -1, q));
}

/// 7: b0 and b1 still add to b, and neither is that of its half.
pub fn shifted(faults: &mut Faults, z: &Setting, step: u64) {
    let (n, q) = (z.n(), z.ring.q);
    faults.add(step, 7, 0, "b0 and b1", move |lent| {
        add(&mut lent["head"], 8, 1, q);
        add(&mut lent["head"], 8 * n + 8, -1, q);
    });
}

/// 7 by the opening: another s_i or e_i.
pub fn opened_key(faults: &mut Faults, z: &Setting, slice: &'static str, step: u64) {
    let (n, q) = (z.n(), z.ring.q);
    faults.add(step, 7, 0, &format!("s of {slice}"), move |lent| add(&mut lent[slice], 8, 1, q));
    faults.add(step, 7, 0, &format!("e of {slice}"), move |lent| add(&mut lent[slice], 16 * n - 8, -1, q));
}

/// 8 by either pair of a side, and by each of the six r.
pub fn opened_pairs(faults: &mut Faults, z: &Setting, side: usize, slice: &'static str, step: u64) {
    let (n, q) = (z.n(), z.ring.q);
    for pair in [side, 2 + side] {
        faults.add(step, 8, 0, &format!("the row of pair {pair}"), move |lent| add(&mut lent["head"], 16 * n * (1 + pair), 1, q));
        faults.add(step, 8, 0, &format!("the second half of pair {pair}"), move |lent| add(&mut lent["head"], 16 * n * (2 + pair) - 8, 1, q));
    }
    for r in 16..22 {
        faults.add(step, 8, 0, &format!("an r of {slice} at {r}N"), move |lent| turn(&mut lent[slice], r * n));
    }
}

/// 12 of ballot j on a side: the mask worked out from its share is larger by one than B.
pub fn mask(faults: &mut Faults, whole: &Whole, side: usize, j: usize, step: u64) {
    let (z, at) = (whole.setting(), 8 * whole.setting().n() * j);
    let (q, bound, mask) = (z.ring.q, z.bound, signed(&whole.source.masks[side][at..at + 8])[0]);
    let shares = ["shares0", "shares1"][side];
    for larger in [bound + 1, -bound - 1] {
        faults.add(step, 12, j, &format!("a mask of {larger} in {shares}"), move |lent| add(&mut lent[shares], at, 2 * (larger - mask), q));
    }
}

/// 13 of ballot j.
pub fn claim(faults: &mut Faults, z: &Setting, j: usize, step: u64) {
    let (n, q) = (z.n(), z.ring.q);
    faults.add(step, 13, j, "the first claim", move |lent| lent["claims"][n * j] ^= 1);
    faults.add(step, 13, j, "the last claim", move |lent| lent["claims"][n * (j + 1) - 1] ^= 1);
    faults.add(step, 13, j, "v", move |lent| add(&mut lent["ballots"], (4 + 16 * n) * j + 4 + 8 * n, 1, q));
}
