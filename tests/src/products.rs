//! The product by transform against plain 128-bit arithmetic, and beside it the plain product: what is written, which roots are taken, and
//! each refusal in its order. The plain product by itself is a call of the part `scheme`.
use crate::calls::{multiply, Kind, PRODUCT};
use crate::random::Random;
use crate::roots::{is_root, joined, moduli, power, small, Factored};
use crate::round::faults::{put, refused_sheets};
use crate::scheme::{self, damage};
use crate::scratch::{with_scratch, Scratch, SCRATCH};
use crate::sheets::{self, Sheet};
use crate::tally::{Comparison, Tally};
use std::collections::BTreeSet;

/// What both calls are lent; the root is lent to one of them.
#[derive(Clone)]
struct Lent {
    text: Vec<u8>,
    inputs: Vec<Vec<u8>>,
    root: u64,
    out: Vec<u8>,
    scratch: usize,
}

impl Lent {
    fn new(random: &mut Random, sheet: &Sheet, root: u64) -> Lent {
        let [n, q, ..] = sheet.numbers;
        let inputs = PRODUCT.kinds.iter().map(|kind| kind.random(random, n as usize, q, 0)).collect();
        Lent { text: sheet.text().into_bytes(), inputs, root, out: random.bytes(8 * n as usize), scratch: SCRATCH }
    }

    /// The number, and what the output holds. The root is looked at behind the lengths and before the coefficients.
    fn expected(&self) -> (u64, Vec<u8>) {
        let plain = scheme::expected(&PRODUCT, &self.text, &self.inputs, &self.out, self.scratch);
        match sheets::read(&self.text) {
            Ok((sheet, _)) if plain.0 != 1 && !is_root(self.root, sheet.numbers[0], sheet.numbers[1]) => (37, self.out.clone()),
            _ => plain,
        }
    }

    /// The reply of the product by transform, what it wrote and what it left of scratch.
    fn by_transform(&self) -> (u64, Vec<u8>, Scratch) {
        let mut written = self.out.clone();
        let (reply, state) = with_scratch(self.scratch, |room| multiply(&self.text, &self.inputs, self.root, &mut written, room));
        (reply, written, state)
    }

    fn compare(&self, c: &mut Comparison, what: &str) -> u64 {
        let (number, output) = self.expected();
        let left = Scratch::after(number, self.scratch);
        let ours = self.by_transform();
        let reply = ours.0;
        c.same(|| format!("{what}, root {}, {} bytes of sheet", self.root, self.text.len()), ours, (number, output, left));
        reply
    }

    /// Compares, and says that the number is this one.
    fn answers(&self, c: &mut Comparison, what: &str, number: u64) {
        let reply = self.compare(c, what);
        c.same(|| what.to_string(), reply, number);
    }

    /// Compares both calls.
    fn both(&self, c: &mut Comparison, what: &str) {
        self.answers(c, what, 0);
        scheme::compare(c, &PRODUCT, &self.text, &self.inputs, &self.out, self.scratch);
    }
}

/// A sheet with this N and modulus, and the drown 0.
fn sheet(random: &mut Random, n: u64, modulus: &Factored) -> Sheet {
    let sheet = sheets::with(random, n, modulus.value(), 0);
    assert_eq!(sheets::judged(&sheet.numbers), Ok(()), "N = {n}, modulus {}", modulus.value());
    sheet
}

fn root(n: u64, modulus: &Factored) -> u64 {
    modulus.root(n).unwrap_or_else(|| panic!("{} has no root for N = {n}", modulus.value()))
}

/// A polynomial of one term.
fn term(n: u64, place: u64, value: u64) -> Vec<u8> {
    let mut bytes = vec![0; 8 * n as usize];
    put(&mut bytes, 8 * place as usize, value);
    bytes
}

/// Random polynomials, all coefficients q - 1, zero and single terms, with a root and with others: its inverse, its negative, its cube.
fn written(c: &mut Comparison, random: &mut Random, n: u64, modulus: &Factored) {
    let (sheet, w) = (sheet(random, n, modulus), root(n, modulus));
    let q = modulus.value();
    let highest = Kind::Polynomials(1).highest(n as usize, q, 0);
    let any = Lent::new(random, &sheet, w);
    let [x, y] = [0, 1].map(|i| any.inputs[i].clone());
    let pairs = [
        (w, x.clone(), y.clone()),
        (power(w, 2 * n - 1, q), x.clone(), highest.clone()),
        (q - w, highest.clone(), highest),
        (power(w, 3, q), term(n, n - 1, q - 1), term(n, n - 1, q - 1)),
        (w, term(n, 1, 1), y),
        (q - w, x, term(n, 0, 0)),
    ];
    for (i, (root, x, y)) in pairs.into_iter().enumerate() {
        Lent { inputs: vec![x, y], root, ..any.clone() }.both(c, &format!("case {i}, N = {n}, q = {q}"));
    }
}

/// Numbers that are no roots, with a word for each.
fn wrong_roots(n: u64, modulus: &Factored) -> Vec<(&'static str, u64)> {
    let (q, w) = (modulus.value(), root(n, modulus));
    let mut all = vec![
        ("0", 0),
        ("1", 1),
        ("q - 1", q - 1),
        ("q", q),
        ("a root and q", w + q),
        ("a root and 2^63", w + (1 << 63)),
        ("the last of 64 bits", u64::MAX),
        ("a root's negative in 64 bits", w.wrapping_neg()),
        ("a root of 1", power(w, 2, q)),
        ("a root and one", w + 1),
        ("a root less one", w - 1),
    ];
    if let [(p1, k1), (p2, k2)] = modulus.0[..] {
        let (m1, m2) = (p1.pow(k1), p2.pow(k2));
        all.push(("a root modulo the first prime, 1 modulo the second", joined((w % m1, m1), (1, m2))));
        all.push(("1 modulo the first prime, a root modulo the second", joined((1, m1), (w % m2, m2))));
    }
    if let [(p, k)] = modulus.0[..] {
        // x -> x^N is one to one on the numbers that are w modulo p
        all.extend((k > 1).then_some(("a root modulo the prime alone", (w + q / p) % q)));
    }
    all
}

/// Each of these is refused 37, with coefficients in their range and with one past it.
fn refused(c: &mut Comparison, random: &mut Random, n: u64, modulus: &Factored) {
    let sheet = sheet(random, n, modulus);
    let right = Lent::new(random, &sheet, 0);
    for (name, root) in wrong_roots(n, modulus) {
        let what = format!("{name}, N = {n}, q = {}", modulus.value());
        let mut lent = Lent { root, ..right.clone() };
        lent.answers(c, &what, 37);
        let place = random.below(n) as usize;
        Kind::Polynomials(1).past(&mut lent.inputs[place % 2], place, modulus.value(), 0);
        lent.answers(c, &format!("{what}, a coefficient q"), 37);
    }
}

/// Every number up to the modulus and a little past it: taken are those whose N-th power is -1, as many as there should be.
fn every(c: &mut Comparison, random: &mut Random, n: u64, modulus: &Factored) {
    let sheet = sheet(random, n, modulus);
    let lent = Lent::new(random, &sheet, 0);
    let q = modulus.value();
    let reply = |root: u64| Lent { root, ..lent.clone() }.compare(c, &format!("N = {n}, q = {q}"));
    let replies: Vec<u64> = (0..q + 3).map(reply).collect();
    let count = |number: u64| replies.iter().filter(|reply| **reply == number).count() as u64;
    c.same(|| format!("roots for N = {n}, q = {q}"), (count(0), count(37)), (modulus.count(n), q + 3 - modulus.count(n)));
    c.same(|| format!("a root for N = {n}, q = {q}"), modulus.root(n).is_some(), count(0) > 0);
    scheme::compare(c, &PRODUCT, &lent.text, &lent.inputs, &lent.out, SCRATCH);
}

/// A slice a byte longer, a byte shorter, and empty.
pub const OTHER_LENGTHS: [fn(&mut Vec<u8>); 3] = [|slice| slice.push(0), |slice| slice.truncate(slice.len() - 1), Vec::clear];

/// What is lent with one slice of another length, or another scratch.
fn other_lengths(lent: &Lent) -> Vec<Lent> {
    let mut all: Vec<Lent> = [0, 1, SCRATCH - 1, SCRATCH + 1].map(|scratch| Lent { scratch, ..lent.clone() }).into();
    for way in OTHER_LENGTHS {
        for i in 0..3 {
            let mut other = lent.clone();
            way(if i < 2 { &mut other.inputs[i] } else { &mut other.out });
            all.push(other);
        }
    }
    all
}

/// Each refusal before the later ones: the sheet's own, 1, 37, 5.
fn orders(c: &mut Comparison, random: &mut Random, n: u64, modulus: &Factored) {
    let (sheet, w, q) = (sheet(random, n, modulus), root(n, modulus), modulus.value());
    let right = Lent::new(random, &sheet, w);
    right.answers(c, "nothing wrong", 0);
    let mut past = right.clone();
    for (i, place) in [(0, 0), (1, n as usize - 1)] {
        let mut one = right.clone();
        Kind::Polynomials(1).past(&mut one.inputs[i], place, q, 0);
        one.answers(c, "a coefficient q", 5);
        Kind::Polynomials(1).past(&mut past.inputs[i], place, q, 0);
    }
    for root in [1, w + q] {
        let wrong = Lent { root, ..past.clone() };
        wrong.answers(c, "a wrong root before a coefficient q", 37);
        Lent { inputs: right.inputs.clone(), ..wrong.clone() }.answers(c, "a wrong root", 37);
        for lent in other_lengths(&wrong) {
            lent.answers(c, "a wrong length before a wrong root", 1);
            for (number, name, text) in refused_sheets(&right.text) {
                Lent { text, ..lent.clone() }.answers(c, name, number);
            }
        }
    }
    for lent in other_lengths(&past) {
        lent.answers(c, "a wrong length before a coefficient q", 1);
    }
}

/// A little of everything damaged at once, the root too.
fn damaged(c: &mut Comparison, random: &mut Random, reached: &mut BTreeSet<u64>, n: u64, modulus: &Factored) {
    let sheet = sheet(random, n, modulus);
    let right = Lent::new(random, &sheet, root(n, modulus));
    let wrong = wrong_roots(n, modulus);
    right.both(c, &format!("nothing damaged, N = {n}, q = {}", modulus.value()));
    for _ in 0..6 {
        let mut lent = right.clone();
        for _ in 0..random.below(3) {
            let Lent { text, inputs, out, scratch, .. } = &mut lent;
            damage(random, &PRODUCT, text, inputs, out, scratch, &sheet, 0);
        }
        if random.below(3) == 0 {
            lent.root = wrong[random.below(wrong.len() as u64) as usize].1;
        }
        reached.insert(lent.compare(c, &format!("damaged, N = {n}, q = {}", modulus.value())));
    }
}

/// Both calls leave the same bytes, with any root of the modulus.
fn agree(c: &mut Comparison, random: &mut Random, n: u64, modulus: &Factored) {
    let (sheet, w, q) = (sheet(random, n, modulus), root(n, modulus), modulus.value());
    for _ in 0..8 {
        let odd = 2 * random.below(n) + 1;
        let lent = Lent::new(random, &sheet, power(w, odd, q));
        let mut written = lent.out.clone();
        let (reply, state) = with_scratch(SCRATCH, |room| (PRODUCT.run)(&lent.text, &lent.inputs, &mut written, room));
        c.same(|| format!("the two products, N = {n}, q = {q}, root {}", lent.root), lent.by_transform(), (reply, written, state));
    }
}

pub fn run(tally: &mut Tally) {
    let random = &mut Random(37);
    let all = |per: &mut dyn FnMut(&mut Comparison, u64, &Factored)| {
        let mut c = Comparison::default();
        moduli().iter().for_each(|(n, list)| list.iter().for_each(|modulus| per(&mut c, *n, modulus)));
        c
    };
    all(&mut |c, n, modulus| written(c, random, n, modulus))
        .claim(tally, "products: by transform and by the plain method, N from 4 to 2048, prime and composite moduli");
    all(&mut |c, n, modulus| agree(c, random, n, modulus)).claim(tally, "products: both calls write the same, with any root");
    all(&mut |c, n, modulus| refused(c, random, n, modulus)).claim(tally, "products: wrong roots, with coefficients in and out of range");

    let mut c = Comparison::default();
    for (n, modulus) in small() {
        every(&mut c, random, n, &modulus);
    }
    c.claim(tally, "products: of all roots of small moduli exactly those are taken whose N-th power is -1");

    let mut c = Comparison::default();
    for (n, modulus) in small().into_iter().filter(|(n, modulus)| modulus.count(*n) > 0) {
        orders(&mut c, random, n, &modulus);
    }
    c.claim(tally, "products: the sheet's refusals, then 1, then 37, then 5");

    let mut reached = BTreeSet::new();
    let mut c = Comparison::default();
    for (n, list) in moduli().iter().filter(|(n, _)| *n <= 64) {
        for modulus in list.iter().cycle().take(24) {
            damaged(&mut c, random, &mut reached, *n, modulus);
        }
    }
    c.claim(tally, "products: damaged slices, roots and sheets");
    let mut c = Comparison::default();
    c.same(|| "the numbers reached".into(), reached, BTreeSet::from([0, 1, 2, 3, 4, 5, 37]));
    c.claim(tally, "products: every refusal was reached");
}
