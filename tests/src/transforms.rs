//! The product by transform alone, over the call of `test_ring`: without a sheet, and so for every odd modulus, however small.
use crate::calls::Kind;
use crate::polynomials::{encode, poly, Ring};
use crate::products::OTHER_LENGTHS;
use crate::random::Random;
use crate::roots::{is_root, moduli, power};
use crate::tally::{Comparison, Tally};

extern "C" {
    fn ring_by_transform(
        work: *mut u8,
        work_length: usize,
        a: *const u8,
        a_length: usize,
        b: *const u8,
        b_length: usize,
        n: usize,
        root: u64,
        q: u64,
    ) -> u64;
}

/// What the call is lent.
#[derive(Clone)]
struct Lent {
    work: Vec<u8>,
    inputs: [Vec<u8>; 2],
    n: usize,
    root: u64,
    q: u64,
}

impl Lent {
    fn new(random: &mut Random, n: usize, root: u64, q: u64) -> Lent {
        let inputs = [0, 1].map(|_| Kind::Polynomials(1).random(random, n, q, 0));
        Lent { work: random.bytes(16 * n), inputs, n, root, q }
    }

    /// The product and zeros behind it.
    fn written(&self) -> Vec<u8> {
        let ring = Ring { n: self.n, q: i128::from(self.q) };
        let mut bytes = encode(&ring, vec![ring.times(&poly(&self.inputs[0]), &poly(&self.inputs[1]))]);
        bytes.resize(16 * self.n, 0);
        bytes
    }

    /// Compares the reply with this number, and what the call leaves with what it is lent or with the product.
    fn answers(&self, c: &mut Comparison, what: &str, number: u64) {
        let mut work = self.work.clone();
        let [a, b] = &self.inputs;
        // All three slices are live and apart for the call.
        let reply = unsafe {
            ring_by_transform(work.as_mut_ptr(), work.len(), a.as_ptr(), a.len(), b.as_ptr(), b.len(), self.n, self.root, self.q)
        };
        let left = if number == 0 { self.written() } else { self.work.clone() };
        c.same(|| format!("{what}, n {}, q {}, root {}", self.n, self.q, self.root), (reply, work), (number, left));
    }
}

/// Every odd modulus from 3 on with every root up to it: taken are those whose n-th power is -1.
fn every(c: &mut Comparison, random: &mut Random, n: usize) {
    for q in (3..260).step_by(2) {
        let lent = Lent::new(random, n, 0, q);
        for root in 0..q + 2 {
            let number = if is_root(root, n as u64, q) { 0 } else { 37 };
            Lent { root, ..lent.clone() }.answers(c, "a small modulus", number);
        }
    }
}

/// Random polynomials and all coefficients q - 1, with any root of a modulus that has some.
fn written(c: &mut Comparison, random: &mut Random) {
    for (n, list) in moduli() {
        for modulus in list {
            let (w, q) = (modulus.root(n).unwrap_or(0), modulus.value());
            for _ in 0..2 {
                let root = power(w, 2 * random.below(n) + 1, q);
                let lent = Lent::new(random, n as usize, root, q);
                lent.answers(c, "random", 0);
                let highest = Kind::Polynomials(1).highest(n as usize, q, 0);
                Lent { inputs: [highest.clone(), highest], ..lent }.answers(c, "all q - 1", 0);
            }
        }
    }
}

/// 5 for the ring or the modulus, then 1, then 37, then 5 for a coefficient.
fn refusals(c: &mut Comparison, random: &mut Random) {
    let right = Lent::new(random, 8, 3, 17);
    right.answers(c, "nothing wrong", 0);
    let wrong = Lent { root: 2, ..right.clone() };
    for place in 0..8 {
        for i in [0, 1] {
            let mut past = right.clone();
            Kind::Polynomials(1).past(&mut past.inputs[i], place, 17, 0);
            past.answers(c, "a coefficient q", 5);
            Lent { root: 17 + 3, ..past }.answers(c, "a wrong root before a coefficient q", 37);
        }
    }
    for way in OTHER_LENGTHS {
        for i in 0..3 {
            let mut lent = wrong.clone();
            way(if i < 2 { &mut lent.inputs[i] } else { &mut lent.work });
            lent.answers(c, "a wrong length before a wrong root", 1);
            for n in [0, 1, 2, 3, 5, 7, 9, 12, 2047, 2049, 4096, usize::MAX] {
                Lent { n, ..lent.clone() }.answers(c, "no ring before a wrong length", 5);
            }
            for q in [0, 1, 2, 16, 1 << 56, (1 << 56) + 1, u64::MAX] {
                Lent { q, ..lent.clone() }.answers(c, "no modulus before a wrong length", 5);
            }
        }
    }
}

pub fn run(tally: &mut Tally, random: &mut Random) {
    let mut c = Comparison::default();
    [4, 8, 16].into_iter().for_each(|n| every(&mut c, random, n));
    c.claim(tally, "ring: products by transform, for every small odd modulus with every root");
    let mut c = Comparison::default();
    written(&mut c, random);
    c.claim(tally, "ring: products by transform, 4 to 2048 coefficients, prime and composite moduli");
    let mut c = Comparison::default();
    refusals(&mut c, random);
    c.claim(tally, "ring: products by transform, every refusal, and nothing written");
}
