//! What a round needs of a sheet that is taken, and where the parts of a round stand (document 01, "Layouts").
use super::lent::{unless, Lent, Refusal};
use crate::argument::Argument;
use crate::polynomials::{encode, list, poly, ternary, Poly, Ring};
use crate::scratch::SCRATCH;
use crate::sheets;
use crate::stern::answer_length;

pub struct Setting {
    pub ring: Ring,
    pub repeats: usize,
    /// D and B
    pub noise: i128,
    pub bound: i128,
    pub a: Poly,
    pub b: Poly,
    /// k1, k2, k3
    pub keys: Vec<u8>,
}

impl Setting {
    pub fn read(text: &[u8]) -> Result<Setting, Refusal> {
        let (sheet, [n, noise, bound, _]) = sheets::read(text).map_err(|number| Refusal { number, place: 0 })?;
        let ring = Ring { n: n as usize, q: i128::from(sheet.numbers[1]) };
        let keys = encode(&ring, sheet.lists[2..].iter().map(|k| list(k)).collect());
        Ok(Setting {
            repeats: sheet.numbers[4] as usize,
            noise: i128::from(noise),
            bound: i128::from(bound),
            a: list(&sheet.lists[0]),
            b: list(&sheet.lists[1]),
            keys,
            ring,
        })
    }

    pub fn n(&self) -> usize {
        self.ring.n
    }

    pub fn q(&self) -> u64 {
        self.ring.q as u64
    }

    /// The shortness argument over these committed pairs.
    pub fn argument(&self, pairs: &[u8]) -> Argument {
        let mut argument = Argument::new(self.n(), self.q(), self.keys.clone());
        argument.pairs = pairs.to_vec();
        argument
    }

    // ---- the scheme

    pub fn bytes(&self, polynomials: &[Poly]) -> Vec<u8> {
        encode(&self.ring, polynomials.to_vec())
    }

    /// a s + p e
    pub fn key(&self, s: &Poly, e: &Poly) -> Poly {
        self.ring.reduce(self.ring.sum(&self.ring.times(&self.a, s), e, 2))
    }

    /// The pair that commits to a polynomial with three r in ternary bytes.
    pub fn pair(&self, hides: &[u8], m: &Poly) -> Vec<u8> {
        self.bytes(&self.argument(&[]).pair(&self.three(hides), m))
    }

    /// Whether no number is larger in size than a bound.
    pub fn within(&self, numbers: &[i128], bound: i128) -> bool {
        numbers.iter().all(|x| x.abs() <= bound)
    }

    // ---- layouts

    /// Polynomial j of a slice that has nothing else.
    pub fn polynomial(&self, slice: &[u8], j: usize) -> Poly {
        poly(&slice[8 * self.n() * j..8 * self.n() * (j + 1)])
    }

    /// Three polynomials in ternary bytes.
    pub fn three(&self, slice: &[u8]) -> Vec<Poly> {
        ternary(slice).chunks(self.n()).map(<[i128]>::to_vec).collect()
    }

    /// u and v of ballot j.
    pub fn ballot(&self, ballots: &[u8], j: usize) -> (Poly, Poly) {
        let length = 4 + 16 * self.n();
        let numbers = &ballots[length * j + 4..length * (j + 1)];
        (self.polynomial(numbers, 0), self.polynomial(numbers, 1))
    }

    /// How many ballots are lent: whole ones, at most 4,096.
    pub fn count(&self, ballots: &[u8]) -> Result<usize, Refusal> {
        let length = 4 + 16 * self.n();
        let count = ballots.len() / length;
        unless(ballots.len() % length == 0 && count <= 4096, 1, 0)?;
        Ok(count)
    }

    /// The lengths of the first message and the claims.
    pub fn message_lengths(&self, count: usize) -> Vec<(&'static str, usize)> {
        let n = self.n();
        vec![("head", 80 * n + 96 * self.repeats), ("shares0", 8 * n * count), ("shares1", 8 * n * count), ("claims", n * count)]
    }

    /// The length of the answers to these challenges, end to end.
    pub fn answers_length(&self, challenges: &[u8]) -> usize {
        challenges.iter().map(|challenge| answer_length(self.n(), *challenge)).sum()
    }

    // ---- ranges

    pub fn below(&self, coefficients: &[u8]) -> bool {
        self.argument(&[]).below(coefficients)
    }

    pub fn ballots_ranged(&self, ballots: &[u8]) -> bool {
        ballots.chunks(4 + 16 * self.n()).all(|ballot| self.below(&ballot[4..]))
    }

    /// Ballots, claims, and of the first message all but the digests.
    pub fn message_ranged(&self, lent: &Lent) -> bool {
        self.ballots_ranged(&lent["ballots"])
            && lent["claims"].iter().all(|claim| *claim < 2)
            && self.below(&lent["head"][..80 * self.n()])
            && self.below(&lent["shares0"])
            && self.below(&lent["shares1"])
    }

    pub fn opening_ranged(&self, opening: &[u8]) -> bool {
        let (halves, hides) = opening.split_at(16 * self.n());
        self.below(halves) && hides.iter().all(|b| *b < 3)
    }
}

/// Refuses 1 where a slice has not its length, or scratch not its own.
pub fn sized(lent: &Lent, lengths: &[(&str, usize)]) -> Result<(), Refusal> {
    unless(lengths.iter().all(|(name, length)| lent[name].len() == *length) && lent.scratch == SCRATCH, 1, 0)
}
