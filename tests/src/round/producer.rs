//! The producer of a round, from document 01: its order (the sheet's, 1, 5, 14, 12, 9, 15) and what its two calls write.
use super::lent::{unless, Lent, Outcome, Refusal};
use super::setting::{sized, Setting};
use super::source::Source;
use crate::argument::{is_permutation, Drawn};
use crate::polynomials::{signed, ternary, Poly};

/// The material of a producer, once it has passed every test.
pub struct Producer {
    pub source: Source,
    s: Poly,
}

pub fn first(lent: &Lent) -> Outcome {
    let producer = tested(lent, true, |z, _, count| z.message_lengths(count))?;
    let source = &producer.source;
    Ok((0, vec![source.head(), source.shares(0), source.shares(1), producer.claims()]))
}

pub fn second(lent: &Lent) -> Outcome {
    let asked = lent.number < 2 && lent["challenges"].iter().all(|challenge| (1..=3).contains(challenge));
    let lengths = |z: &Setting, lent: &Lent, _| {
        let answers = z.answers_length(&lent["challenges"]);
        vec![("challenges", z.repeats), ("opening", 22 * z.n()), ("answers", answers)]
    };
    let source = tested(lent, asked, lengths)?.source;
    Ok((0, vec![source.opening(lent.number as usize), source.answers(&lent["challenges"])]))
}

/// The order of both calls. A call has lengths of its own; `asked` says whether what it is asked beside the material is in range.
pub fn tested(lent: &Lent, asked: bool, lengths: impl Fn(&Setting, &Lent, usize) -> Vec<(&'static str, usize)>) -> Result<Producer, Refusal> {
    let z = Setting::read(&lent["sheet"])?;
    let count = z.count(&lent["ballots"])?;
    sized(lent, &material_lengths(&z, count))?;
    sized(lent, &lengths(&z, lent, count))?;
    unless(asked && material_ranged(&z, lent), 5, 0)?;
    let producer = Producer::new(z, lent);
    producer.matches()?;
    producer.masks_bounded(count)?;
    for (i, drawn) in producer.source.drawn.iter().enumerate() {
        unless(is_permutation(&drawn.p), 9, i)?;
    }
    producer.noise_bounded(count)?;
    Ok(producer)
}

fn material_lengths(z: &Setting, count: usize) -> Vec<(&'static str, usize)> {
    let (n, repeats) = (z.n(), z.repeats);
    let secret = [("secrets", 14 * n), ("s0", 8 * n), ("e0", 8 * n), ("masks0", 8 * n * count), ("masks1", 8 * n * count)];
    let drawn = [("vectors", 336 * n * repeats), ("permutations", 168 * n * repeats), ("salts", 96 * repeats)];
    secret.into_iter().chain(drawn).collect()
}

fn material_ranged(z: &Setting, lent: &Lent) -> bool {
    lent["secrets"].iter().all(|b| *b < 3) && ["s0", "e0", "vectors"].iter().all(|name| z.below(&lent[name])) && z.ballots_ranged(&lent["ballots"])
}

impl Producer {
    fn new(setting: Setting, lent: &Lent) -> Producer {
        let (n, secrets) = (setting.n(), &lent["secrets"]);
        let (s, e) = (ternary(&secrets[..n]), ternary(&secrets[n..2 * n]));
        let halves = |whole: &Poly, name: &str| {
            let half = setting.polynomial(&lent[name], 0);
            let other = setting.ring.reduce(setting.ring.sum(whole, &half, -1));
            [half, other]
        };
        let hides = |first: usize| [0, 3].map(|side| secrets[(first + side) * n..(first + side + 3) * n].to_vec());
        let stretch = |name: &str, length: usize, i: usize| lent[name][length * i..length * (i + 1)].to_vec();
        let drawn = |i: usize| Drawn { p: stretch("permutations", 168 * n, i), r: stretch("vectors", 336 * n, i), salts: stretch("salts", 96, i) };
        let source = Source {
            s: halves(&s, "s0"),
            e: halves(&e, "e0"),
            hides_s: hides(2),
            hides_e: hides(8),
            unknowns: secrets.clone(),
            drawn: (0..setting.repeats).map(drawn).collect(),
            masks: ["masks0", "masks1"].map(|name| lent[name].clone()),
            ballots: lent["ballots"].clone(),
            setting,
        };
        Producer { source, s }
    }

    /// 14: the secret is that of b.
    fn matches(&self) -> Result<(), Refusal> {
        let z = &self.source.setting;
        let e = ternary(&self.source.unknowns[z.n()..2 * z.n()]);
        unless(z.key(&self.s, &e) == z.b, 14, 0)
    }

    /// 12: each mask of a ballot is at most B as it is lent, on either side.
    fn masks_bounded(&self, count: usize) -> Result<(), Refusal> {
        let (z, n) = (&self.source.setting, self.source.setting.n());
        let bounded = |masks: &Vec<u8>, j: usize| z.within(&signed(&masks[8 * n * j..8 * n * (j + 1)]), z.bound);
        (0..count).try_for_each(|j| unless(self.source.masks.iter().all(|masks| bounded(masks, j)), 12, j))
    }

    /// v - s u of ballot j.
    fn opened(&self, j: usize) -> Poly {
        let z = &self.source.setting;
        let (u, v) = z.ballot(&self.source.ballots, j);
        z.ring.sum(&v, &z.ring.times(&self.s, &u), -1)
    }

    /// 15: the size of centred v - s u is at most D.
    fn noise_bounded(&self, count: usize) -> Result<(), Refusal> {
        let z = &self.source.setting;
        (0..count).try_for_each(|j| unless(z.within(&z.ring.centred(self.opened(j)), z.noise), 15, j))
    }

    /// The decrypted votes.
    fn claims(&self) -> Vec<u8> {
        (0..self.source.count()).flat_map(|j| self.source.setting.ring.vote(self.opened(j))).collect()
    }
}
