//! The shortness argument of a round over the calls of `test_stern`: digests, answers and the tests of answers against the independent implementation.
use crate::argument::{Argument, Drawn};
use crate::polynomials::{encode, poly, ternary, Poly};
use crate::random::Random;
use crate::scratch::{with_scratch, Scratch, SCRATCH};
use crate::stern_refusals;
use crate::tally::{Comparison, Tally};

extern "C" {
    fn stern_digests(
        keys: *const u8, keys_length: usize, x: *const u8, x_length: usize, r: *const u8, r_length: usize, p: *const u8, p_length: usize, salts: *const u8,
        salts_length: usize, out: *mut u8, out_length: usize, scratch: *mut u8, scratch_length: usize, n: usize, q: u64,
    ) -> u64;
    fn stern_answer(
        challenge: u8, x: *const u8, x_length: usize, r: *const u8, r_length: usize, p: *const u8, p_length: usize, salts: *const u8, salts_length: usize,
        out: *mut u8, out_length: usize, scratch: *mut u8, scratch_length: usize, n: usize, q: u64,
    ) -> u64;
    fn stern_test(
        keys: *const u8, keys_length: usize, pairs: *const u8, pairs_length: usize, digests: *const u8, digests_length: usize, challenge: u8, answer: *const u8,
        answer_length: usize, place: u32, scratch: *mut u8, scratch_length: usize, n: usize, q: u64,
    ) -> u64;
}

/// Document 01's small ring, its example I, one near 2^55, and the largest below 2^56 with 4096 dividing q - 1.
pub const MODULI: [u64; 4] = [97, 81, 36_028_797_018_820_609, (1 << 56) - 4095];

/// What a call leaves: its reply, the output, and what became of scratch.
#[derive(Debug, PartialEq)]
pub struct Left(pub u64, pub Vec<u8>, pub Scratch);

/// What a call is lent besides an output.
pub struct Lent {
    pub n: usize,
    pub q: u64,
    pub keys: Vec<u8>,
    pub x: Vec<u8>,
    pub drawn: Drawn,
    pub scratch: usize,
}

pub fn digests(l: &Lent, kept: &[u8]) -> Left {
    let (d, mut out) = (&l.drawn, kept.to_vec());
    let (reply, scratch) = with_scratch(l.scratch, |w| unsafe {
        stern_digests(
            l.keys.as_ptr(), l.keys.len(), l.x.as_ptr(), l.x.len(), d.r.as_ptr(), d.r.len(), d.p.as_ptr(), d.p.len(), d.salts.as_ptr(), d.salts.len(),
            out.as_mut_ptr(), out.len(), w.as_mut_ptr(), w.len(), l.n, l.q,
        )
    });
    Left(reply, out, scratch)
}

pub fn answer(l: &Lent, challenge: u8, kept: &[u8]) -> Left {
    let (d, mut out) = (&l.drawn, kept.to_vec());
    let (reply, scratch) = with_scratch(l.scratch, |w| unsafe {
        stern_answer(
            challenge, l.x.as_ptr(), l.x.len(), d.r.as_ptr(), d.r.len(), d.p.as_ptr(), d.p.len(), d.salts.as_ptr(), d.salts.len(),
            out.as_mut_ptr(), out.len(), w.as_mut_ptr(), w.len(), l.n, l.q,
        )
    });
    Left(reply, out, scratch)
}

pub fn test(a: &Argument, digests: &[u8], challenge: u8, answer: &[u8], place: u32, length: usize) -> (u64, Scratch) {
    let q = a.ring.q as u64;
    with_scratch(length, |w| unsafe {
        stern_test(
            a.keys.as_ptr(), a.keys.len(), a.pairs.as_ptr(), a.pairs.len(), digests.as_ptr(), digests.len(), challenge, answer.as_ptr(), answer.len(), place,
            w.as_mut_ptr(), w.len(), a.ring.n, q,
        )
    })
}

pub fn answer_length(n: usize, challenge: u8) -> usize {
    if challenge == 1 { 378 * n + 64 } else { 504 * n + 64 }
}

/// Coefficients below q, all q - 1 or random.
pub fn coefficients(random: &mut Random, count: usize, q: u64, extreme: bool) -> Vec<u8> {
    (0..count).flat_map(|_| (if extreme { q - 1 } else { random.below(q) }).to_le_bytes()).collect()
}

pub fn permutation(random: &mut Random, count: usize) -> Vec<u8> {
    let mut p: Vec<u32> = (0..count as u32).collect();
    for i in (1..count).rev() {
        p.swap(i, random.below(i as u64 + 1) as usize);
    }
    p.into_iter().flat_map(u32::to_le_bytes).collect()
}

/// Material for a repetition. An extreme one has coefficients q - 1 and equal unknowns.
pub fn material(random: &mut Random, n: usize, q: u64, extreme: bool) -> Lent {
    let value = random.below(3) as u8;
    let x = (0..14 * n).map(|_| if extreme { value } else { random.below(3) as u8 }).collect();
    let drawn = Drawn { p: permutation(random, 42 * n), r: coefficients(random, 42 * n, q, extreme), salts: random.bytes(96) };
    Lent { n, q, keys: coefficients(random, 3 * n, q, extreme), x, drawn, scratch: SCRATCH }
}

/// The argument of a split: the pairs of s0, s1 = s - s0, e0, e1 = e - e0 for the unknowns s, e and twelve r.
pub fn honest(random: &mut Random, l: &Lent) -> Argument {
    let mut a = Argument::new(l.n, l.q, l.keys.clone());
    let v: Vec<Poly> = ternary(&l.x).chunks(l.n).map(<[i128]>::to_vec).collect();
    let half = |random: &mut Random| poly(&coefficients(random, l.n, l.q, false));
    let (s0, e0) = (half(random), half(random));
    let (s1, e1) = (a.ring.sum(&v[0], &s0, -1), a.ring.sum(&v[1], &e0, -1));
    let pairs = [(2, s0), (5, s1), (8, e0), (11, e1)].map(|(r, m)| encode(&a.ring, a.pair(&v[r..r + 3], &m).to_vec()));
    a.pairs = pairs.concat();
    a
}

pub fn place(random: &mut Random) -> u32 {
    [0, 1, 255, 256, u32::MAX, random.next() as u32][random.below(6) as usize]
}

/// A repetition: what is written, and that each honest answer is accepted.
pub fn repetition(c: &mut Comparison, random: &mut Random, n: usize, q: u64, extreme: bool) -> (Argument, Vec<u8>, [Vec<u8>; 3]) {
    let l = material(random, n, q, extreme);
    let a = honest(random, &l);
    let expected = a.digests(&l.x, &l.drawn);
    let kept = random.bytes(96);
    c.same(|| format!("digests, n {n}, q {q}"), digests(&l, &kept), Left(0, expected.clone(), Scratch::Zeroed));
    let answers = [1, 2, 3].map(|challenge| {
        let right = a.answer(challenge, &l.x, &l.drawn);
        let kept = random.bytes(answer_length(n, challenge));
        c.same(|| format!("answer {challenge}, n {n}, q {q}"), answer(&l, challenge, &kept), Left(0, right.clone(), Scratch::Zeroed));
        let at = place(random);
        let theirs = a.test(&expected, challenge, &right, at);
        c.same(|| format!("test of answer {challenge}, n {n}, q {q}"), test(&a, &expected, challenge, &right, at, SCRATCH), (theirs, Scratch::Zeroed));
        c.same(|| format!("honest answer {challenge}, n {n}, q {q}"), theirs, 0);
        right
    });
    (a, expected, answers)
}

fn repetitions(tally: &mut Tally, random: &mut Random) {
    let mut c = Comparison::default();
    for n in [4, 8, 16, 32, 64] {
        for q in MODULI {
            for extreme in [false, true] {
                repetition(&mut c, random, n, q, extreme);
            }
        }
    }
    for n in [5, 7, 12] {
        repetition(&mut c, random, n, 3, false);
    }
    c.claim(tally, "stern: digests, each answer, and honest answers accepted");
    let mut c = Comparison::default();
    let (a, d, answers) = repetition(&mut c, random, 2048, MODULI[3], false);
    for challenge in 1..=3 {
        changed(&mut c, random, &a, &d, challenge, &answers[usize::from(challenge) - 1], None);
    }
    c.claim(tally, "stern: 2048 coefficients");
}

/// One bit of an answer is changed, at a place or anywhere: both refuse it alike.
fn changed(c: &mut Comparison, random: &mut Random, a: &Argument, digests: &[u8], challenge: u8, right: &[u8], byte: Option<usize>) {
    let mut wrong = right.to_vec();
    let byte = byte.unwrap_or_else(|| random.below(right.len() as u64) as usize);
    wrong[byte] ^= 1 << random.below(8);
    let at = place(random);
    let theirs = a.test(digests, challenge, &wrong, at);
    c.same(|| format!("answer {challenge} with byte {byte} changed"), (test(a, digests, challenge, &wrong, at, SCRATCH), theirs != 0), ((theirs, Scratch::Zeroed), true));
}

fn bits(tally: &mut Tally, random: &mut Random) {
    let mut ignored = Comparison::default();
    let mut c = Comparison::default();
    for q in [97, MODULI[3]] {
        let (a, d, answers) = repetition(&mut ignored, random, 4, q, false);
        for challenge in 1..=3 {
            let right = &answers[usize::from(challenge) - 1];
            (0..right.len()).for_each(|byte| changed(&mut c, random, &a, &d, challenge, right, Some(byte)));
        }
    }
    c.claim(tally, "stern: a bit changed in every byte of every answer");
    let mut c = Comparison::default();
    for n in [8, 16, 64] {
        let (a, d, answers) = repetition(&mut ignored, random, n, MODULI[2], false);
        for round in 0..60 {
            let challenge = 1 + round % 3;
            changed(&mut c, random, &a, &d, challenge, &answers[usize::from(challenge) - 1], None);
        }
    }
    c.claim(tally, "stern: a bit changed anywhere in larger answers");
}

pub fn run(tally: &mut Tally) {
    let mut random = Random(14);
    repetitions(tally, &mut random);
    bits(tally, &mut random);
    stern_refusals::run(tally, &mut random);
}
