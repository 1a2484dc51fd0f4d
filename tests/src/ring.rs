//! Numbers modulo q and polynomials modulo X^n + 1, over the calls of `test_ring`, against plain 128-bit arithmetic.
use crate::random::Random;
use crate::tally::{Comparison, Tally};
use crate::transforms;

extern "C" {
    fn modular_numbers(operation: u64, x: u64, y: u64, q: u64) -> u64;
    fn modular_divide(x: u64, p: u64, q: u64) -> u64;
    fn modular_centred(x: u64, q: u64) -> i64;
    fn modular_reduce(e: i64, q: u64) -> u64;
    fn ring_count(t: *const u8, t_length: usize, v: u8) -> u64;
    fn ring_ternary(work: *mut u8, work_length: usize, t: *const u8, t_length: usize, q: u64) -> u64;
    fn ring_polynomials(
        operation: u64,
        work: *mut u8,
        work_length: usize,
        a: *const u8,
        a_length: usize,
        b: *const u8,
        b_length: usize,
        n: usize,
        q: u64,
    ) -> u64;
}

const ADD: u64 = 0;
const SUBTRACT: u64 = 1;
const MULTIPLY: u64 = 2;
/// The product by the plain method, where `MULTIPLY` leaves the method to the library.
const PLAIN: u64 = 3;

/// The moduli of the comparisons: document 01's small ring, its example I, one near 2^55 and the largest below 2^56 with 4096 dividing q - 1.
const MODULI: [u64; 4] = [97, 81, 36_028_797_018_820_609, (1 << 56) - 4095];

/// The independent implementation.
pub fn times(x: u64, y: u64, q: u64) -> u64 {
    (u128::from(x) * u128::from(y) % u128::from(q)) as u64
}

fn on_numbers(operation: u64, x: u64, y: u64, q: u64) -> u64 {
    let centred = if x <= (q - 1) / 2 { i128::from(x) } else { i128::from(x) - i128::from(q) };
    match operation {
        0 => ((u128::from(x) + u128::from(y)) % u128::from(q)) as u64,
        1 => (i128::from(x) - i128::from(y)).rem_euclid(i128::from(q)) as u64,
        2 => times(x, y, q),
        3 => (-i128::from(x)).rem_euclid(i128::from(q)) as u64,
        4 => centred.unsigned_abs() as u64,
        _ => centred.rem_euclid(2) as u64,
    }
}

/// 1 / p modulo q by Euclid's algorithm, or nothing where they have a common factor.
pub fn inverse(p: u64, q: u64) -> Option<u64> {
    let (mut a, mut b) = (i128::from(p), i128::from(q));
    let (mut s, mut t) = (1, 0);
    while b != 0 {
        let k = a / b;
        (a, b) = (b, a - k * b);
        (s, t) = (t, s - k * t);
    }
    (a == 1).then(|| s.rem_euclid(i128::from(q)) as u64)
}

fn on_polynomials(operation: u64, a: &[u64], b: &[u64], q: u64) -> Vec<u64> {
    if operation < MULTIPLY {
        return a.iter().zip(b).map(|(x, y)| on_numbers(operation, *x, *y, q)).collect();
    }
    let n = a.len();
    let mut whole = vec![0; 2 * n];
    for (i, x) in a.iter().enumerate().filter(|(_, x)| **x != 0) {
        for (j, y) in b.iter().enumerate() {
            whole[i + j] = on_numbers(ADD, whole[i + j], times(*x, *y, q), q);
        }
    }
    (0..n).map(|k| on_numbers(SUBTRACT, whole[k], whole[n + k], q)).collect()
}

fn bytes(a: &[u64]) -> Vec<u8> {
    a.iter().flat_map(|x| x.to_le_bytes()).collect()
}

/// A call of ours: its reply, and what it leaves in the scratch that is lent with these bytes.
fn ours(operation: u64, work: &[u8], a: &[u8], b: &[u8], n: usize, q: u64) -> (u64, Vec<u8>) {
    let mut work = work.to_vec();
    // All three slices are live and apart for the call.
    let reply = unsafe {
        ring_polynomials(operation, work.as_mut_ptr(), work.len(), a.as_ptr(), a.len(), b.as_ptr(), b.len(), n, q)
    };
    (reply, work)
}

fn compare(c: &mut Comparison, random: &mut Random, operation: u64, a: &[u64], b: &[u64], q: u64) {
    let n = a.len();
    let mut expected = bytes(&on_polynomials(operation, a, b, q));
    expected.resize(32 * n, 0);
    let work = random.bytes(32 * n);
    c.same(|| format!("operation {operation}, n {n}, q {q}"), ours(operation, &work, &bytes(a), &bytes(b), n, q), (0, expected));
}

fn polynomial(random: &mut Random, n: usize, q: u64) -> Vec<u64> {
    (0..n).map(|_| random.below(q)).collect()
}

fn term(n: usize, place: usize, value: u64) -> Vec<u64> {
    (0..n).map(|k| if k == place { value } else { 0 }).collect()
}

fn numbers(tally: &mut Tally, random: &mut Random) {
    let mut c = Comparison::default();
    let mut centred = Comparison::default();
    for q in MODULI.into_iter().chain([1, 3, (1 << 56) - 1]) {
        let mut samples: Vec<u64> = [0, 1, 2, (q - 1) / 2, q.div_ceil(2), q.saturating_sub(2), q - 1, q, q + 1, 1 << 56, u64::MAX].into();
        samples.extend((0..200).map(|_| random.below(q)));
        for x in &samples {
            for y in samples.iter().take(16) {
                for operation in 0..8 {
                    let expected = if operation < 6 && *x < q && *y < q { 256 * on_numbers(operation, *x, *y, q) } else { 5 };
                    let reply = unsafe { modular_numbers(operation, *x, *y, q) };
                    c.same(|| format!("operation {operation}, {x}, {y} modulo {q}"), reply, expected);
                }
            }
            let expected = match *x {
                x if x >= q => 1 << 62,
                x if x <= (q - 1) / 2 => x as i64,
                x => x as i64 - q as i64,
            };
            centred.same(|| format!("{x} modulo {q}"), unsafe { modular_centred(*x, q) }, expected);
        }
    }
    for q in [0, 2, 96, 1 << 56, u64::MAX] {
        c.same(|| format!("modulus {q}"), unsafe { modular_numbers(MULTIPLY, 0, 0, q) }, 5);
    }
    // 94 is -3, and by 2 that is 1
    c.same(|| "94 modulo 97 by 2".into(), unsafe { modular_numbers(5, 94, 0, 97) }, 256);
    c.claim(tally, "modular: every operation, at and past the ends of the range");
    centred.claim(tally, "modular: centred");
}

fn divided(tally: &mut Tally, random: &mut Random) {
    let mut c = Comparison::default();
    // 2 · 3 · 5 · .. · 43 below 2^56 has a factor in common with most p; 3 and 251 are small primes
    for q in MODULI.into_iter().chain([1, 3, 251, 13_082_761_331_670_030, (1 << 56) - 1]) {
        for p in (0..260).chain([1 << 32, u64::MAX]) {
            let by = if (2..=251).contains(&p) { inverse(p, q) } else { None };
            for x in [0, 1, p % q, (q - 1) / 2, q - 1, random.below(q), random.below(q), q] {
                let expected = by.filter(|_| x < q).map_or(5, |y| 256 * times(x, y % q, q));
                c.same(|| format!("{x} / {p} modulo {q}"), unsafe { modular_divide(x, p, q) }, expected);
            }
        }
    }
    c.same(|| "modulus 2^56".into(), unsafe { modular_divide(1, 3, 1 << 56) }, 5);
    c.claim(tally, "modular: division by every p of 2 to 251");
}

fn reduced(tally: &mut Tally, random: &mut Random) {
    let mut c = Comparison::default();
    for q in MODULI {
        let ends = [i64::MIN, i64::MIN + 1, -1, 0, 1, i64::MAX - 1, i64::MAX];
        for e in ends.into_iter().chain((0..300).map(|_| random.next() as i64)) {
            let expected = 256 * i128::from(e).rem_euclid(i128::from(q)) as u64;
            c.same(|| format!("{e} modulo {q}"), unsafe { modular_reduce(e, q) }, expected);
        }
    }
    for q in [0, 1 << 56, u64::MAX] {
        c.same(|| format!("modulus {q}"), unsafe { modular_reduce(7, q) }, 5);
    }
    c.claim(tally, "modular: signed numbers reduced, at both ends of 64 bits");
}

fn ternary(tally: &mut Tally, random: &mut Random) {
    let mut loaded = Comparison::default();
    let mut counted = Comparison::default();
    for q in MODULI {
        for n in [0, 1, 4, 64, 2048, 2049] {
            let mut t: Vec<u8> = (0..n).map(|_| random.below(3) as u8).collect();
            for wrong in [false, true] {
                if wrong && n > 0 {
                    let place = random.below(n as u64) as usize;
                    t[place] = 3 + random.below(253) as u8;
                }
                let kept = random.bytes(8 * n);
                let mut work = kept.clone();
                let reply = unsafe { ring_ternary(work.as_mut_ptr(), work.len(), t.as_ptr(), t.len(), q) };
                let refused = n > 2048 || (wrong && n > 0);
                let expected = if refused { (5, kept) } else { (0, bytes(&t.iter().map(|b| [0, 1, q - 1][*b as usize]).collect::<Vec<_>>())) };
                loaded.same(|| format!("{n} ternary bytes modulo {q}"), (reply, work), expected);
                for v in 0..4 {
                    let count = t.iter().filter(|b| **b == v).count() as u64;
                    counted.same(|| format!("{v} in {n} bytes"), unsafe { ring_count(t.as_ptr(), t.len(), v) }, count);
                }
            }
        }
        let kept = random.bytes(31);
        let mut work = kept.clone();
        let reply = unsafe { ring_ternary(work.as_mut_ptr(), 31, [0; 4].as_ptr(), 4, q) };
        loaded.same(|| "scratch of another length".into(), (reply, work), (1, kept));
    }
    loaded.claim(tally, "ring: ternary bytes as polynomials, and refused above 2");
    counted.claim(tally, "ring: counts of a byte");
}

fn polynomials(tally: &mut Tally, random: &mut Random) {
    let mut c = Comparison::default();
    for q in MODULI {
        for n in [1, 2, 4, 8, 16, 32, 64, 100, 127, 128, 129, 256, 512] {
            for operation in [ADD, SUBTRACT, MULTIPLY, PLAIN] {
                let (a, b) = (polynomial(random, n, q), polynomial(random, n, q));
                compare(&mut c, random, operation, &a, &b, q);
                compare(&mut c, random, operation, &vec![q - 1; n], &vec![q - 1; n], q);
                compare(&mut c, random, operation, &vec![q - 1; n], &b, q);
                compare(&mut c, random, operation, &vec![0; n], &b, q);
            }
        }
    }
    c.claim(tally, "ring: sums, differences and products, random and all q - 1");

    let mut c = Comparison::default();
    for q in MODULI {
        for n in [4, 8, 64] {
            for i in 0..n {
                for j in [0, 1, n / 2, n - 1] {
                    compare(&mut c, random, MULTIPLY, &term(n, i, q - 1), &term(n, j, q - 2), q);
                }
            }
        }
    }
    c.claim(tally, "ring: products of single terms");

    let mut c = Comparison::default();
    for q in MODULI {
        let (a, b) = (polynomial(random, 2048, q), polynomial(random, 2048, q));
        compare(&mut c, random, MULTIPLY, &a, &b, q);
        compare(&mut c, random, MULTIPLY, &vec![q - 1; 2048], &vec![q - 1; 2048], q);
        compare(&mut c, random, MULTIPLY, &term(2048, 2047, q - 1), &b, q);
        compare(&mut c, random, SUBTRACT, &a, &b, q);
    }
    c.claim(tally, "ring: 2048 coefficients");
}

/// Products with and without a root of X^n + 1 that the library could find: 12289 is prime with 4096 dividing q - 1, and 7681 with 512 alone;
/// 12289 · 40961 is no prime and has roots; 4097 = 17 · 241 has none, though 4096
/// divides q - 1; 1, 2 and 12288 are no moduli of a transform.
fn methods(tally: &mut Tally, random: &mut Random) {
    let mut c = Comparison::default();
    for q in [12289, 7681, 12289 * 40961, 4097, 1, 2, 12288] {
        for n in [255, 256, 512, 1024, 2048] {
            let (a, b) = (polynomial(random, n, q), polynomial(random, n, q));
            for operation in [MULTIPLY, PLAIN] {
                compare(&mut c, random, operation, &a, &b, q);
            }
            compare(&mut c, random, MULTIPLY, &vec![q - 1; n], &term(n, n - 1, q - 1), q);
        }
    }
    c.claim(tally, "ring: products where a root is found and where there is none");
}

fn refusals(tally: &mut Tally, random: &mut Random) {
    let (n, q) = (8, 97);
    let (a, b) = (bytes(&polynomial(random, n, q)), bytes(&polynomial(random, n, q)));
    let mut c = Comparison::default();
    let mut refused = |what: &str, operation, work: usize, a: &[u8], b: &[u8], n, q, number| {
        let kept = random.bytes(work);
        c.same(|| what.to_string(), ours(operation, &kept, a, b, n, q), (number, kept));
    };
    for operation in 0..4 {
        refused("scratch one byte short", operation, 255, &a, &b, n, q, 1);
        refused("scratch one byte long", operation, 257, &a, &b, n, q, 1);
        refused("empty scratch", operation, 0, &a, &b, n, q, 1);
        refused("first polynomial short", operation, 256, &a[..63], &b, n, q, 1);
        refused("second polynomial long", operation, 256, &a, &[b.clone(), vec![0]].concat(), n, q, 1);
        refused("modulus 0", operation, 256, &a, &b, n, 0, 5);
        refused("modulus 2^56", operation, 256, &a, &b, n, 1 << 56, 5);
        refused("2049 coefficients", operation, 256, &a, &b, 2049, q, 5);
        refused("as many coefficients as fit 64 bits", operation, 256, &a, &b, usize::MAX, q, 5);
        for place in 0..n {
            for wrong in [q, u64::MAX] {
                let mut damaged = a.clone();
                damaged[8 * place..8 * place + 8].copy_from_slice(&wrong.to_le_bytes());
                refused("a coefficient of the first", operation, 256, &damaged, &b, n, q, 5);
                refused("a coefficient of the second", operation, 256, &a, &damaged, n, q, 5);
            }
        }
    }
    refused("unknown operation", 4, 256, &a, &b, n, q, 5);
    c.claim(tally, "ring: every refusal, and nothing written");
}

pub fn run(tally: &mut Tally) {
    let mut random = Random(97);
    numbers(tally, &mut random);
    divided(tally, &mut random);
    reduced(tally, &mut random);
    ternary(tally, &mut random);
    polynomials(tally, &mut random);
    methods(tally, &mut random);
    refusals(tally, &mut random);
    transforms::run(tally, &mut random);
}
