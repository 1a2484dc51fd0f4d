//! Rounds by a producer who knows a short vector that the commitment row takes to zero, and so has two ways to open a commitment. A check accepts them, whatever is
//! drawn, and the extractor writes that vector. Its kinds 1, 2 and 3 need two strings with one SHA3-256, which nobody can give: they are not reached here.
use super::extractor;
use super::lent::taken;
use super::material::{Modulus, Plan};
use super::setting::Setting;
use super::source::Source;
use super::whole::Whole;
use crate::argument::Drawn;
use crate::polynomials::{list, poly, ternary, Poly, Ring};
use crate::random::Random;
use crate::sheets::Sheet;
use crate::stern::{coefficients, permutation};
use crate::tally::{Comparison, Tally};

type Vector = [Poly; 3];

fn between(random: &mut Random, least: i128, most: i128) -> i128 {
    least + i128::from(random.below((most - least + 1) as u64))
}

/// Every vector of N numbers from -size to size.
fn all_small(n: usize, size: i128) -> Vec<Poly> {
    let longer = |shorter: Vec<Poly>, _| shorter.iter().flat_map(|v| (-size..=size).map(|x| [&v[..], &[x]].concat())).collect();
    (0..n).fold(vec![Vec::new()], longer)
}

/// The vectors of any sheet of four coefficients, by trying: z2 and z3 are small, and z1 = -(k1 z2 + k2 z3) is small by chance.
fn searched(sheet: &Sheet) -> Vec<Vector> {
    let ring = Ring { n: 4, q: i128::from(sheet.numbers[1]) };
    let [k1, k2] = [2, 3].map(|i| list(&sheet.lists[i]));
    let negative = |k: &Poly, z: &Poly| ring.centred(ring.times(k, z).into_iter().map(|x| -x).collect());
    let seconds: Vec<(Poly, Poly)> = all_small(4, 2).into_iter().map(|z| (negative(&k1, &z), z)).collect();
    let mut found = Vec::new();
    for z3 in all_small(4, 2).into_iter().filter(|z| z.iter().any(|x| *x != 0)) {
        let part = negative(&k2, &z3);
        for (other, z2) in &seconds {
            let z1 = ring.centred(ring.sum(&part, other, 1));
            if z1.iter().all(|x| x.abs() <= 4) {
                found.push([z1, z2.clone(), z3.clone()]);
            }
        }
    }
    found
}

/// A vector of any numbers up to 4 in size, and k2 on the sheet changed so that the row takes it to zero: z3 is a power of X, which has an inverse.
fn planted(random: &mut Random, sheet: &mut Sheet) -> Vector {
    let (n, q) = (sheet.numbers[0] as usize, sheet.numbers[1]);
    let ring = Ring { n, q: i128::from(q) };
    let mut any = || (0..n).map(|_| between(random, -4, 4)).collect::<Poly>();
    let (z1, z2) = (any(), any());
    let power = 1 + random.below(n as u64 - 1) as usize;
    let raised = |at: usize| (0..n).map(|k| i128::from(k == at)).collect::<Poly>();
    // k2 = -(z1 + k1 z2) / X^power, and 1 / X^power is -X^(N - power)
    let k2 = ring.times(&ring.sum(&z1, &ring.times(&list(&sheet.lists[2]), &z2), 1), &raised(n - power));
    sheet.lists[3] = k2.into_iter().map(|x| x as u64).collect();
    [z1, z2, raised(power)]
}

/// Two ternary numbers that add to a sum of size at most 2, as bytes.
fn parted(random: &mut Random, sum: i128) -> [u8; 2] {
    let first = between(random, (sum - 1).max(-1), (sum + 1).min(1));
    [first, sum - first].map(|x| x.rem_euclid(3) as u8)
}

/// The r of both sides as they are opened, and as they stand among the unknowns: their sums differ by the vector.
fn hides(random: &mut Random, vector: &Vector) -> ([Vec<u8>; 2], [Vec<u8>; 2]) {
    let (mut opened, mut unknown) = ([Vec::new(), Vec::new()], [Vec::new(), Vec::new()]);
    for z in vector.iter().flatten() {
        let sum = between(random, (z - 2).max(-2), (z + 2).min(2));
        let (r, x) = (parted(random, sum), parted(random, sum - z));
        for side in 0..2 {
            opened[side].push(r[side]);
            unknown[side].push(x[side]);
        }
    }
    (opened, unknown)
}

/// The two halves of what a ternary polynomial becomes under the vector, m - z2 - k3 z3: the first half is any.
fn halves(random: &mut Random, z: &Setting, m: &[u8], vector: &Vector) -> [Poly; 2] {
    let (n, q, ring) = (z.n(), z.q(), &z.ring);
    let moved = ring.sum(&vector[1], &ring.times(&poly(&z.keys[16 * n..]), &vector[2]), 1);
    let whole = ring.sum(&ternary(m), &moved, -1);
    let half = poly(&coefficients(random, n, q, false));
    [half.clone(), ring.reduce(ring.sum(&whole, &half, -1))]
}

/// The round: its ballots are any numbers, and the sheet's b is that of the key that is opened.
fn forged(random: &mut Random, plan: &Plan, sheet: &mut Sheet, vectors: &[Vector; 2]) -> Whole {
    let read = |sheet: &Sheet| Setting::read(sheet.text().as_bytes()).unwrap_or_else(|refusal| panic!("the sheet is refused {}", refusal.number));
    let z = read(sheet);
    let (n, q) = (z.n(), z.q());
    let [s, e] = [0, 1].map(|_| (0..n).map(|_| random.below(3) as u8).collect::<Vec<u8>>());
    let (hides_s, unknown_s) = hides(random, &vectors[0]);
    let (hides_e, unknown_e) = hides(random, &vectors[1]);
    let (halves_s, halves_e) = (halves(random, &z, &s, &vectors[0]), halves(random, &z, &e, &vectors[1]));
    let keys = [0, 1].map(|i| z.key(&halves_s[i], &halves_e[i]));
    sheet.lists[1] = z.ring.reduce(z.ring.sum(&keys[0], &keys[1], 1)).into_iter().map(|x| x as u64).collect();
    let drawn = |random: &mut Random| Drawn { p: permutation(random, 42 * n), r: coefficients(random, 42 * n, q, false), salts: random.bytes(96) };
    let source = Source {
        s: halves_s,
        e: halves_e,
        hides_s,
        hides_e,
        unknowns: [vec![s, e], unknown_s.to_vec(), unknown_e.to_vec()].concat().concat(),
        drawn: (0..z.repeats).map(|_| drawn(random)).collect(),
        masks: [0, 1].map(|_| plan.masks(random, z.bound)),
        ballots: (0..plan.ballots).flat_map(|_| [random.bytes(4), coefficients(random, 2 * n, q, false)].concat()).collect(),
        setting: read(sheet),
    };
    Whole::new(source, sheet.text().into_bytes())
}

/// The check accepts it for both sides and all challenges, and the extractor has its kind and writes what it should.
fn compare(c: &mut Comparison, random: &mut Random, whole: &Whole, kind: u64, output: &[u8]) {
    let n = whole.setting().n();
    let what = || format!("kind {kind}, N = {n}");
    for side in 0..2 {
        for challenge in 1..=3 {
            taken(c, &whole.check(side, &vec![challenge; whole.setting().repeats]), 0, what);
        }
    }
    let lent = whole.extract(random, 0);
    taken(c, &lent, kind, what);
    c.same(what, extractor::extract(&lent) == Ok((kind, vec![output.to_vec()])), true);
}

/// A vector for s, one for e, one for each, and none at all, where only the r that are opened are other than those among the unknowns.
fn kinds(c: &mut Comparison, random: &mut Random, plan: &Plan, sheet: &mut Sheet, vector: &Vector) {
    let none: Vector = [0, 1, 2].map(|_| vec![0; plan.n]);
    for (kind, vectors) in [(4, [vector, &none]), (5, [&none, vector]), (4, [vector, vector]), (6, [&none, &none])] {
        let whole = forged(random, plan, sheet, &vectors.map(Vector::clone));
        let written = match kind {
            6 => [&whole.source.unknowns[..2 * plan.n], &vec![0; 22 * plan.n]].concat(),
            _ => whole.setting().bytes(vector),
        };
        compare(c, random, &whole, kind, &written);
    }
}

pub fn run(tally: &mut Tally, random: &mut Random) {
    let mut c = Comparison::default();
    let small = Plan { n: 4, ballots: 2, drown: 0, rounds: 1, more: 1, modulus: Modulus::Least, extreme: false };
    for _ in 0..4 {
        let mut sheet = small.sheet(random);
        let vectors = searched(&sheet);
        c.same(|| "a sheet with short vectors".into(), vectors.is_empty(), false);
        for _ in 0..vectors.len().min(4) {
            let vector = &vectors[random.below(vectors.len() as u64) as usize];
            kinds(&mut c, random, &small, &mut sheet, vector);
        }
    }
    c.claim(tally, "extractor: short vectors found on small sheets, for s and for e");
    let mut c = Comparison::default();
    for n in [4, 8, 16, 64, 8, 16] {
        let plan = Plan { ballots: 2, rounds: 1, ..Plan::random(random, n) };
        let mut sheet = plan.sheet(random);
        let vector = planted(random, &mut sheet);
        kinds(&mut c, random, &plan, &mut sheet, &vector);
    }
    c.claim(tally, "extractor: short vectors planted on sheets of any size, for s and for e");
}
