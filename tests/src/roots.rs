//! Numbers whose N-th power is -1 modulo q, from the primes of q; and moduli that have some.
use crate::ring::{inverse, times};

pub fn power(x: u64, exponent: u64, q: u64) -> u64 {
    let (mut result, mut square, mut left) = (1 % q, x % q, exponent);
    while left > 0 {
        if left % 2 == 1 {
            result = times(result, square, q);
        }
        square = times(square, square, q);
        left /= 2;
    }
    result
}

pub fn is_root(w: u64, n: u64, q: u64) -> bool {
    w < q && power(w, n, q) == q - 1
}

/// The number that is x modulo m and y modulo k, for m and k without a common factor.
pub fn joined((x, m): (u64, u64), (y, k): (u64, u64)) -> u64 {
    let by = inverse(m % k, k).unwrap_or_else(|| panic!("{m} and {k} have a common factor"));
    x + m * times((y + k - x % k) % k, by, k)
}

/// A modulus as a product of prime powers: each prime, and how often it stands in it.
#[derive(Clone)]
pub struct Factored(pub Vec<(u64, u32)>);

impl Factored {
    pub fn value(&self) -> u64 {
        self.0.iter().map(|(p, k)| p.pow(*k)).product()
    }

    /// How many roots there are: N modulo each prime power, and any of them with any other; none where 2N does not divide p - 1.
    pub fn count(&self, n: u64) -> u64 {
        self.0.iter().map(|(p, _)| if (p - 1) % (2 * n) == 0 { n } else { 0 }).product()
    }

    /// A root, if there is one: g^((p - 1)/2N) modulo p, where g is no square; its power p^(k - 1) modulo p^k; and these joined.
    pub fn root(&self, n: u64) -> Option<u64> {
        let mut whole = (0, 1);
        for (p, k) in &self.0 {
            let first = (2..*p).map(|g| power(g, (p - 1) / (2 * n), *p)).find(|w| is_root(*w, n, *p))?;
            let part = p.pow(*k);
            whole = (joined(whole, (power(first, p.pow(k - 1), part), part)), whole.1 * part);
        }
        Some(whole.0)
    }
}

/// The least prime p with 2N dividing p - 1.
fn least_prime(n: u64) -> u64 {
    let prime = |p: &u64| (2..).take_while(|d| d * d <= *p).all(|d| p % d != 0);
    (1..).map(|k| 2 * n * k + 1).find(prime).unwrap_or_else(|| panic!("no prime for N = {n}"))
}

/// For each N the largest prime below 2^56 that has a root, and the two primes of the largest number below 2^56 that is none and has one.
const LARGEST: [(u64, u64, [u64; 2]); 10] = [
    (4, 72_057_594_037_927_889, [97, 742_861_794_205_441]),
    (8, 72_057_594_037_927_889, [97, 742_861_794_205_441]),
    (16, 72_057_594_037_927_073, [97, 742_861_794_205_441]),
    (32, 72_057_594_037_926_529, [2_113, 34_102_032_199_681]),
    (64, 72_057_594_037_926_529, [257, 280_379_743_337_857]),
    (128, 72_057_594_037_913_089, [184_321, 390_935_346_689]),
    (256, 72_057_594_037_913_089, [184_321, 390_935_346_689]),
    (512, 72_057_594_037_897_217, [2_715_649, 26_534_207_489]),
    (1024, 72_057_594_037_897_217, [2_715_649, 26_534_207_489]),
    (2048, 72_057_594_037_641_217, [2_715_649, 26_534_207_489]),
];

/// Every N with moduli that have roots: the largest prime, the largest that is none, the square and the highest power of the least prime.
pub fn moduli() -> Vec<(u64, Vec<Factored>)> {
    let of = |(n, prime, [p1, p2]): (u64, u64, [u64; 2])| {
        let least = least_prime(n);
        let highest = (2..).take_while(|k| least.checked_pow(*k).is_some_and(|q| q < 1 << 56)).last().unwrap_or(2);
        let factors = [vec![(prime, 1)], vec![(p1, 1), (p2, 1)], vec![(least, 2)], vec![(least, highest)]];
        (n, factors.map(Factored).to_vec())
    };
    LARGEST.into_iter().map(of).collect()
}

/// Small moduli that a sheet takes, with their N. Of the last four none has a root, of the very last not though there are some modulo 17.
pub fn small() -> Vec<(u64, Factored)> {
    let all: [(u64, &[(u64, u32)]); 10] = [
        (4, &[(97, 1)]),
        (4, &[(17, 2)]),
        (4, &[(17, 1), (41, 1)]),
        (8, &[(17, 2)]),
        (8, &[(17, 1), (97, 1)]),
        (16, &[(353, 1)]),
        (4, &[(3, 4)]),
        (4, &[(3, 1), (5, 1), (7, 1)]),
        (8, &[(3, 1), (59, 1)]),
        (4, &[(17, 1), (3, 2)]),
    ];
    all.into_iter().map(|(n, factors)| (n, Factored(factors.to_vec()))).collect()
}
