//! What the producer's calls refuse, each number at each place.
use super::answer_faults::repeat;
use super::check_faults::ballot_ranges;
use super::faults::{add, put, turn, Faults, RANGES};
use super::lent::Lent;
use super::setting::Setting;
use super::whole::Whole;
use crate::polynomials::ternary;
use crate::sheets;

/// The steps of the producer after the ranges.
const SECRET: u64 = 3;
const MASKS: u64 = 4;
const PERMUTATIONS: u64 = 5;
const NOISE: u64 = 6;

/// What both calls refuse.
pub fn faults(whole: &Whole, lent: &Lent) -> Faults {
    let z = whole.setting();
    let mut faults = Faults::default();
    faults.sheets(lent);
    faults.lengths(lent);
    ranges(&mut faults, z, whole.source.count());
    secret(&mut faults, z, lent);
    for j in 0..whole.source.count() {
        masks(&mut faults, z, j);
        noise(&mut faults, whole, lent, j);
    }
    (0..z.repeats).for_each(|i| permutations(&mut faults, z, i));
    faults
}

/// What the second refuses besides: a side and challenges out of range.
pub fn asked(faults: &mut Faults, lent: &Lent) {
    [2, 3, 1 << 32, u64::MAX].into_iter().for_each(|side| faults.past_number(side));
    for i in (0..lent["challenges"].len()).filter(|i| lent["challenges"][*i] != 1) {
        for other in [0, 4, 255] {
            faults.add(RANGES, 5, 0, &format!("challenge {other} in repetition {i}"), move |lent| lent["challenges"][i] = other);
        }
    }
}

fn ranges(faults: &mut Faults, z: &Setting, count: usize) {
    let (n, q) = (z.n(), z.q());
    for at in (0..14).map(|k| k * n).chain([14 * n - 1]) {
        faults.past_byte("secrets", at, 3);
    }
    for half in ["s0", "e0"] {
        faults.past(half, 0, q);
        faults.past(half, 8 * n - 8, u64::MAX);
    }
    for i in 0..z.repeats {
        faults.past("vectors", 336 * n * i, q);
        faults.past("vectors", 336 * n * (i + 1) - 8, 1 << 63);
    }
    (0..count).for_each(|j| ballot_ranges(faults, z, j));
}

/// 14: another s or e, or another b or a on the sheet.
fn secret(faults: &mut Faults, z: &Setting, lent: &Lent) {
    let n = z.n();
    for (name, at) in [("the first of s", 0), ("the last of s", n - 1), ("the first of e", n), ("the last of e", 2 * n - 1)] {
        faults.add(SECRET, 14, 0, name, move |lent| turn(&mut lent["secrets"], at));
    }
    if let Ok((right, _)) = sheets::read(&lent["sheet"]) {
        for (list, place) in [(1, 0), (1, n - 1), (0, 0)] {
            let mut changed = right.clone();
            changed.lists[list][place] = (changed.lists[list][place] + 1) % z.q();
            faults.add(SECRET, 14, 0, "another sheet", move |lent| lent["sheet"] = changed.text().into_bytes());
        }
    }
}

/// 12: a mask of ballot j that is larger than B as it is lent; q and -q would be 0 if they were centred first.
fn masks(faults: &mut Faults, z: &Setting, j: usize) {
    let (n, q, bound) = (z.n(), z.q() as i64, z.bound as i64);
    for masks in ["masks0", "masks1"] {
        for (k, larger) in [bound + 1, -bound - 1, i64::MIN, i64::MAX, q, -q].into_iter().enumerate() {
            let at = 8 * (n * j + k % n);
            faults.add(MASKS, 12, j, &format!("{larger} in {masks}"), move |lent| put(&mut lent[masks], at, larger as u64));
        }
    }
}

/// 9.
fn permutations(faults: &mut Faults, z: &Setting, i: usize) {
    let (n, at) = (z.n(), 168 * z.n() * i);
    for place in [0, 42 * n - 1] {
        faults.add(PERMUTATIONS, 9, i, "an entry twice", move |lent| repeat(&mut lent["permutations"][at..at + 168 * n], place));
        for past in [42 * n as u32, u32::MAX] {
            let to = at + 4 * place;
            faults.add(PERMUTATIONS, 9, i, &format!("{past} in P"), move |lent| lent["permutations"][to..to + 4].copy_from_slice(&past.to_le_bytes()));
        }
    }
}

/// 15: noise of ballot j that is larger by one than D, at its first and its last coefficient.
fn noise(faults: &mut Faults, whole: &Whole, lent: &Lent, j: usize) {
    let (z, n, q) = (whole.setting(), whole.setting().n(), whole.setting().ring.q);
    let (u, v) = z.ballot(&lent["ballots"], j);
    let noise = z.ring.centred(z.ring.sum(&v, &z.ring.times(&ternary(&lent["secrets"][..n]), &u), -1));
    for k in [0, n - 1] {
        for larger in [z.noise + 1, -z.noise - 1] {
            let more = larger - noise[k];
            let at = (4 + 16 * n) * j + 4 + 8 * (n + k);
            faults.add(NOISE, 15, j, &format!("noise {larger}"), move |lent| add(&mut lent["ballots"], at, more, q));
        }
    }
}
