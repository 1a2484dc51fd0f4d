//! Whole rounds: what the producer's calls write, that a check accepts it for every side and challenges tried, and that the extractor gives the key.
use super::extractor;
use super::lent::{refused, taken, Lent, Refusal};
use super::material::{Modulus, Plan, SMALL};
use super::whole::{second, Whole};
use crate::random::Random;
use crate::tally::{Comparison, Tally};

#[derive(Default)]
struct Tried {
    first: Comparison,
    second: Comparison,
    checked: Comparison,
    extracted: Comparison,
}

/// One round with some sets of challenges, each for both sides, and with each repetition extracted.
fn round(tried: &mut Tried, random: &mut Random, plan: &Plan, sets: &[&[u8]]) {
    let lent = plan.material(random);
    let what = || format!("{plan:?}");
    taken(&mut tried.first, &lent, 0, what);
    let whole = Whole::honest(&lent);
    let (n, repeats) = (plan.n, whole.setting().repeats);
    for set in sets {
        // a short set is repeated, an empty one stands for any challenges
        let challenges = if set.is_empty() { whole.challenges(random) } else { set.iter().copied().cycle().take(repeats).collect() };
        for side in 0..2 {
            taken(&mut tried.second, &second(random, &lent, &whole, side, &challenges), 0, what);
            taken(&mut tried.checked, &whole.check(side, &challenges), 0, what);
        }
    }
    for repetition in 0..repeats {
        let openings = whole.extract(random, repetition);
        taken(&mut tried.extracted, &openings, 6, what);
        let key = [&lent["secrets"][..2 * n], &vec![0; 22 * n]].concat();
        tried.extracted.same(what, extractor::extract(&openings) == Ok((6, vec![key])), true);
    }
}

impl Tried {
    fn claim(self, tally: &mut Tally, sizes: &str) {
        self.first.claim(tally, &format!("round: first messages and claims, {sizes}"));
        self.second.claim(tally, &format!("round: openings and answers, {sizes}"));
        self.checked.claim(tally, &format!("round: honest rounds are accepted, whichever side and challenges, {sizes}"));
        self.extracted.claim(tally, &format!("round: three honest answers and both openings give the key, {sizes}"));
    }
}

/// The same with the first ballot once more at the end.
fn one_more(lent: &Lent) -> Lent {
    let mut longer = lent.clone();
    for (name, length) in [("ballots", 68), ("shares0", 32), ("shares1", 32), ("claims", 4)] {
        longer[name].extend_from_within(..length);
    }
    longer
}

/// As many ballots as may be, and one more.
fn many(tally: &mut Tally, random: &mut Random) {
    let mut c = Comparison::default();
    let refusal = Refusal { number: 1, place: 0 };
    let too_many = Plan { ballots: 4097, ..SMALL }.material(random);
    let mut most = too_many.clone();
    for (name, length) in [("ballots", 68), ("masks0", 32), ("masks1", 32), ("shares0", 32), ("shares1", 32), ("claims", 4)] {
        most[name].truncate(4096 * length);
    }
    let whole = Whole::honest(&most);
    let asked = second(random, &most, &whole, 0, &[1, 2, 3]);
    let asked_too_many = second(random, &too_many, &whole, 0, &[1, 2, 3]);
    let (check, extract) = (whole.check(1, &[3, 1, 2]), whole.extract(random, 1));
    for (lent, value) in [(&most, 0), (&asked, 0), (&check, 0), (&extract, 6)] {
        taken(&mut c, lent, value, || "4,096 ballots".into());
    }
    for lent in [&too_many, &asked_too_many, &one_more(&check), &one_more(&extract)] {
        refused(&mut c, lent, refusal, || "4,097 ballots".into());
    }
    c.claim(tally, "round: 4,096 ballots are taken, 4,097 refused 1");
}

pub fn run(tally: &mut Tally, random: &mut Random) {
    let mut small = Tried::default();
    for n in [4, 8, 16].repeat(12) {
        let plan = Plan::random(random, n);
        round(&mut small, random, &plan, &[&[1], &[2], &[3], &[]]);
    }
    for ballots in 0..6 {
        round(&mut small, random, &Plan { ballots, extreme: ballots % 2 == 1, ..SMALL }, &[&[1, 2, 3], &[2, 3, 1], &[3, 1, 2]]);
    }
    small.claim(tally, "N from 4 to 16");
    let mut larger = Tried::default();
    for _ in 0..3 {
        let plan = Plan::random(random, 64);
        round(&mut larger, random, &plan, &[&[1, 2, 3], &[]]);
    }
    let largest = Plan { n: 2048, ballots: 2, drown: 40, rounds: 2, more: 0, modulus: Modulus::Any, extreme: false };
    round(&mut larger, random, &largest, &[&[1, 2, 3]]);
    larger.claim(tally, "N of 64 and 2048");
    many(tally, random);
}

pub fn small(tally: &mut Tally, random: &mut Random) {
    let mut tried = Tried::default();
    for ballots in 0..3 {
        round(&mut tried, random, &Plan { ballots, ..SMALL }, &[&[1, 2, 3], &[2, 3, 1], &[3, 1, 2]]);
    }
    tried.claim(tally, "N of 4 alone");
}
