//! Rounds to try: a sheet of given numbers, and everything that a producer is lent for it, in range and honest.
use super::calls::FIRST;
use super::lent::Lent;
use super::setting::Setting;
use crate::calls::Kind;
use crate::polynomials::{encode, list, poly, ternary, Poly, Ring};
use crate::random::Random;
use crate::scratch::SCRATCH;
use crate::sheets::{self, Sheet};
use crate::stern::{coefficients, permutation};

/// How large the modulus is that a sheet's other numbers leave room for.
#[derive(Clone, Copy, Debug)]
pub enum Modulus {
    Least,
    Any,
    Largest,
}

/// The numbers of a round. An extreme one has every number that is drawn at an end of its range.
#[derive(Clone, Copy, Debug)]
pub struct Plan {
    pub n: usize,
    pub ballots: usize,
    pub drown: u64,
    pub rounds: u64,
    /// repetitions above the fewest that the rounds allow
    pub more: u64,
    pub modulus: Modulus,
    pub extreme: bool,
}

/// The numbers that most tests of refusals are made with: N = 4, two ballots, three repetitions.
pub const SMALL: Plan = Plan { n: 4, ballots: 2, drown: 3, rounds: 1, more: 2, modulus: Modulus::Least, extreme: false };

impl Plan {
    pub fn random(random: &mut Random, n: usize) -> Plan {
        let modulus = [Modulus::Least, Modulus::Any, Modulus::Largest][random.below(3) as usize];
        let drown = [0, 1, 7, 20, 39, 40][random.below(6) as usize];
        Plan { n, ballots: random.below(6) as usize, drown, rounds: 1 + random.below(3), more: random.below(3), modulus, extreme: random.below(5) == 0 }
    }

    /// 2N divides q - 1, and (1 + 2^d) D is below (q - 1) / 2.
    fn modulus(&self, random: &mut Random) -> u64 {
        let n = self.n as u128;
        let least = (1 + (1_u128 << self.drown)) * sheets::noise(self.n as u64) / n + 1;
        let largest = ((1 << 56) - 2) / (2 * n);
        let steps = match self.modulus {
            Modulus::Least => least,
            Modulus::Any => least + u128::from(random.next()) % (largest - least + 1),
            Modulus::Largest => largest,
        };
        (2 * n * steps + 1) as u64
    }

    /// A sheet with these numbers, whose polynomials are any.
    pub fn sheet(&self, random: &mut Random) -> Sheet {
        let q = self.modulus(random);
        let repeats = sheets::least_repeats(self.rounds) + self.more;
        let lists = std::array::from_fn(|_| (0..self.n).map(|_| random.below(q)).collect());
        Sheet { numbers: [self.n as u64, q, self.drown, self.rounds, repeats], lists }
    }

    fn short(&self, random: &mut Random, polynomials: usize) -> Vec<u8> {
        let one = random.below(3) as u8;
        (0..polynomials * self.n).map(|_| if self.extreme { one } else { random.below(3) as u8 }).collect()
    }

    /// What the producer's first call is lent for a key that it draws; its outputs hold anything.
    pub fn material(&self, random: &mut Random) -> Lent {
        let mut sheet = self.sheet(random);
        let (n, q) = (self.n, sheet.numbers[1]);
        let ring = Ring { n, q: i128::from(q) };
        let secrets = self.short(random, 14);
        let (s, e) = (ternary(&secrets[..n]), ternary(&secrets[n..2 * n]));
        let b = ring.reduce(ring.sum(&ring.times(&list(&sheet.lists[0]), &s), &e, 2));
        sheet.lists[1] = b.into_iter().map(|x| x as u64).collect();
        let text = sheet.text().into_bytes();
        let z = Setting::read(&text).unwrap_or_else(|refusal| panic!("the sheet is refused {}", refusal.number));
        let half = |random: &mut Random| coefficients(random, n, q, self.extreme);
        let repetitions = |one: &mut dyn FnMut() -> Vec<u8>| (0..z.repeats).flat_map(|_| one()).collect::<Vec<u8>>();
        let slices = vec![
            text,
            secrets,
            half(random),
            half(random),
            self.masks(random, z.bound),
            self.masks(random, z.bound),
            repetitions(&mut || coefficients(random, 42 * n, q, self.extreme)),
            repetitions(&mut || permutation(random, 42 * n)),
            repetitions(&mut || random.bytes(96)),
            (0..self.ballots).flat_map(|j| self.ballot(random, &z, &s, j)).collect(),
        ];
        let outputs = z.message_lengths(self.ballots).into_iter().map(|(_, length)| random.bytes(length)).collect();
        Lent { call: &FIRST, slices, number: 0, outputs, scratch: SCRATCH }
    }

    /// E of one side for every ballot: any sizes up to B, and now and then, or always in an extreme round, B everywhere.
    pub fn masks(&self, random: &mut Random, bound: i128) -> Vec<u8> {
        let mask = |random: &mut Random| match self.extreme {
            true => Kind::Mask.highest(self.n, 0, bound as u64),
            false => Kind::Mask.random(random, self.n, 0, bound as u64),
        };
        (0..self.ballots).flat_map(|_| mask(random)).collect()
    }

    /// In turn an encryption, a ballot with any noise that D allows, and one with noise D everywhere.
    fn ballot(&self, random: &mut Random, z: &Setting, s: &Poly, j: usize) -> Vec<u8> {
        let ring = &z.ring;
        let (u, v) = if j % 3 == 0 {
            let [r, e1, e2] = [0, 1, 2].map(|_| ternary(&self.short(random, 1)));
            let m: Poly = (0..self.n).map(|_| i128::from(random.below(2))).collect();
            (z.key(&r, &e1), ring.sum(&ring.sum(&ring.times(&z.b, &r), &e2, 2), &m, 1))
        } else {
            let u = poly(&coefficients(random, self.n, z.q(), self.extreme));
            let noise = |random: &mut Random| if j % 3 == 1 { random.below(2 * z.noise as u64 + 1) as i128 - z.noise } else { [z.noise, -z.noise][random.below(2) as usize] };
            let v = ring.sum(&ring.times(s, &u), &(0..self.n).map(|_| noise(random)).collect(), 1);
            (u, v)
        };
        [random.bytes(4), encode(ring, vec![u, v])].concat()
    }
}
