//! Stern's shortness argument of a round in the plainest way, from document 01 ("One round" and "Layouts"): what the calls are compared with.
use crate::polynomials::{encode, poly, ternary, Poly, Ring};
use crate::sha3::sha3_256_on_lanes;

/// What producer and checker share.
pub struct Argument {
    pub ring: Ring,
    pub keys: Vec<u8>,
    pub pairs: Vec<u8>,
}

/// What is drawn for a repetition.
pub struct Drawn {
    pub p: Vec<u8>,
    pub r: Vec<u8>,
    pub salts: Vec<u8>,
}

impl Drawn {
    fn salt(&self, number: usize) -> &[u8] {
        &self.salts[32 * (number - 1)..32 * number]
    }
}

/// The unknowns, then -1s, then 0s, then 1s, until there are as many of each as there are unknowns.
fn extended(x: &[u8]) -> Vec<u8> {
    let mut all = x.to_vec();
    for value in [2, 0, 1] {
        let missing = x.len() - x.iter().filter(|b| **b == value).count();
        all.extend(vec![value; missing]);
    }
    all
}

fn entries(p: &[u8]) -> Vec<usize> {
    p.chunks(4).map(|c| u32::from_le_bytes(c.try_into().unwrap()) as usize).collect()
}

/// Entry i is entry P[i] of x.
fn permuted<T: Copy>(p: &[u8], x: &[T]) -> Vec<T> {
    entries(p).into_iter().map(|i| x[i]).collect()
}

pub fn is_permutation(p: &[u8]) -> bool {
    let mut sorted = entries(p);
    sorted.sort_unstable();
    sorted.into_iter().enumerate().all(|(i, x)| i == x)
}

fn balanced(w: &[u8]) -> bool {
    (0..3).all(|value| 3 * w.iter().filter(|b| **b == value).count() == w.len())
}

impl Argument {
    pub fn new(n: usize, q: u64, keys: Vec<u8>) -> Argument {
        Argument { ring: Ring { n, q: i128::from(q) }, keys, pairs: Vec::new() }
    }

    pub fn below(&self, bytes: &[u8]) -> bool {
        poly(bytes).into_iter().all(|x| x < self.ring.q)
    }

    fn bytes(&self, v: Vec<i128>) -> Vec<u8> {
        encode(&self.ring, vec![v])
    }

    /// The pair of m and three r: r1 + k1 r2 + k2 r3, and r2 + k3 r3 + m.
    pub fn pair(&self, r: &[Poly], m: &Poly) -> [Poly; 2] {
        let (ring, keys) = (&self.ring, poly(&self.keys));
        let key = |i: usize| keys[i * ring.n..(i + 1) * ring.n].to_vec();
        let row = ring.sum(&ring.sum(&r[0], &ring.times(&key(0), &r[1]), 1), &ring.times(&key(1), &r[2]), 1);
        [row, ring.sum(&ring.sum(&r[1], &ring.times(&key(2), &r[2]), 1), m, 1)]
    }

    /// The four left-hand sides for s, e and the three r of s0, s1, e0, e1.
    fn equations(&self, vector: &[i128]) -> Vec<i128> {
        let v: Vec<Poly> = vector.chunks(self.ring.n).map(<[i128]>::to_vec).collect();
        let added = |first: usize| (first..first + 3).map(|j| self.ring.sum(&v[j], &v[j + 3], 1)).collect::<Vec<_>>();
        [self.pair(&added(2), &v[0]), self.pair(&added(8), &v[1])].concat().concat()
    }

    /// The committed pairs of s0 and s1 added, then those of e0 and e1.
    fn sides(&self) -> Vec<i128> {
        let c: Vec<Poly> = poly(&self.pairs).chunks(self.ring.n).map(<[i128]>::to_vec).collect();
        [(0, 2), (1, 3), (4, 6), (5, 7)].into_iter().flat_map(|(i, j)| self.ring.sum(&c[i], &c[j], 1)).collect()
    }

    /// The string of digest 1: P and a vector under the equations, less the right-hand sides or not.
    fn first_string(&self, salt: &[u8], p: &[u8], vector: &[i128], less: bool) -> Vec<u8> {
        let mut applied = self.equations(&vector[..14 * self.ring.n]);
        if less {
            applied = self.ring.sum(&applied, &self.sides(), -1);
        }
        [&[1], salt, p, &self.bytes(applied)].concat()
    }

    /// The extended unknowns and R, added.
    fn masked(&self, w: &[u8], r: &[u8]) -> Vec<i128> {
        self.ring.reduce(self.ring.sum(&ternary(w), &poly(r), 1))
    }

    pub fn digests(&self, x: &[u8], d: &Drawn) -> Vec<u8> {
        let r = poly(&d.r);
        let masked = self.masked(&extended(x), &d.r);
        let one = self.first_string(d.salt(1), &d.p, &r, false);
        let two = [&[2], d.salt(2), &self.bytes(permuted(&d.p, &r))].concat();
        let three = [&[3], d.salt(3), &self.bytes(permuted(&d.p, &masked))].concat();
        [one, two, three].map(|string| sha3_256_on_lanes(&string)).concat()
    }

    pub fn answer(&self, challenge: u8, x: &[u8], d: &Drawn) -> Vec<u8> {
        match challenge {
            1 => [&permuted(&d.p, &extended(x)), &self.bytes(permuted(&d.p, &poly(&d.r))), d.salt(2), d.salt(3)].concat(),
            2 => [&d.p, &self.bytes(self.masked(&extended(x), &d.r)), d.salt(1), d.salt(3)].concat(),
            _ => [&d.p, &d.r, d.salt(1), d.salt(2)].concat(),
        }
    }

    /// Whether the numbers of an answer of the right length are in range. Entries of P are not tested here.
    pub fn ranged(&self, challenge: u8, answer: &[u8]) -> bool {
        let n = self.ring.n;
        match challenge {
            1 => answer[..42 * n].iter().all(|b| *b < 3) && self.below(&answer[42 * n..378 * n]),
            _ => self.below(&answer[168 * n..504 * n]),
        }
    }

    /// The two strings that an answer opens, each with the number of its digest.
    pub fn strings(&self, challenge: u8, answer: &[u8]) -> [(usize, Vec<u8>); 2] {
        let n = self.ring.n;
        let (head, salts) = answer.split_at(answer.len() - 64);
        let (first, second) = salts.split_at(32);
        if challenge == 1 {
            let (w, t) = head.split_at(42 * n);
            return [(2, [&[2], first, t].concat()), (3, [&[3], second, &self.bytes(self.masked(w, t))].concat())];
        }
        let (p, vector) = head.split_at(168 * n);
        let other = if challenge == 2 { 3 } else { 2 };
        let gathered = self.bytes(permuted(p, &poly(vector)));
        [(1, self.first_string(first, p, &poly(vector), challenge == 2)), (other, [&[other as u8], second, &gathered].concat())]
    }

    /// What a test of an answer of the right length replies: 5, or 9, 10, 11 with the place above the low byte.
    pub fn test(&self, digests: &[u8], challenge: u8, answer: &[u8], place: u32) -> u64 {
        let number = self.refused(digests, challenge, answer);
        if number > 5 { number + 256 * u64::from(place) } else { number }
    }

    fn refused(&self, digests: &[u8], challenge: u8, answer: &[u8]) -> u64 {
        let n = self.ring.n;
        if !self.ranged(challenge, answer) {
            return 5;
        }
        if challenge == 1 && !balanced(&answer[..42 * n]) {
            return 10;
        }
        if challenge != 1 && !is_permutation(&answer[..168 * n]) {
            return 9;
        }
        let opened = |(number, string): (usize, Vec<u8>)| sha3_256_on_lanes(&string) == digests[32 * (number - 1)..32 * number];
        if self.strings(challenge, answer).into_iter().all(opened) { 0 } else { 11 }
    }
}
