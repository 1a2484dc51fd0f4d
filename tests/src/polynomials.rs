//! Z_q[X]/(X^N + 1) in the plainest way, over signed 128-bit numbers: what the calls are compared with.
pub type Poly = Vec<i128>;

pub struct Ring {
    pub n: usize,
    pub q: i128,
}

impl Ring {
    pub fn reduce(&self, a: Poly) -> Poly {
        a.into_iter().map(|x| x.rem_euclid(self.q)).collect()
    }

    /// Each coefficient is summed up whole and reduced once, which leaves room for factors of up to 2^57.
    pub fn times(&self, a: &Poly, b: &Poly) -> Poly {
        let mut product = vec![0; self.n];
        let [a, b] = [a, b].map(|f| f.iter().map(|x| i64::try_from(*x).unwrap()).collect::<Vec<_>>());
        for (i, x) in a.iter().enumerate().filter(|(_, x)| **x != 0) {
            let term = |y: &i64| i128::from(*x) * i128::from(*y);
            let (below, wrapped) = b.split_at(self.n - i);
            product[i..].iter_mut().zip(below).for_each(|(sum, y)| *sum += term(y));
            product.iter_mut().zip(wrapped).for_each(|(sum, y)| *sum -= term(y));
        }
        self.reduce(product)
    }

    pub fn sum(&self, a: &Poly, b: &Poly, factor: i128) -> Poly {
        a.iter().zip(b).map(|(x, y)| x + factor * y).collect()
    }

    /// The whole numbers of least size that are congruent to the coefficients.
    pub fn centred(&self, a: Poly) -> Poly {
        self.reduce(a).into_iter().map(|x| if x > (self.q - 1) / 2 { x - self.q } else { x }).collect()
    }

    pub fn vote(&self, a: Poly) -> Vec<u8> {
        self.centred(a).into_iter().map(|x| x.rem_euclid(2) as u8).collect()
    }
}

pub fn ternary(bytes: &[u8]) -> Poly {
    bytes.iter().map(|b| [0, 1, -1][usize::from(*b)]).collect()
}

pub fn words(bytes: &[u8]) -> Vec<u64> {
    bytes.chunks(8).map(|c| u64::from_le_bytes(c.try_into().unwrap())).collect()
}

pub fn poly(bytes: &[u8]) -> Poly {
    words(bytes).into_iter().map(i128::from).collect()
}

pub fn signed(bytes: &[u8]) -> Poly {
    words(bytes).into_iter().map(|w| i128::from(w as i64)).collect()
}

pub fn list(values: &[u64]) -> Poly {
    values.iter().map(|x| i128::from(*x)).collect()
}

pub fn encode(ring: &Ring, polynomials: Vec<Poly>) -> Vec<u8> {
    polynomials.into_iter().flat_map(|a| ring.reduce(a)).flat_map(|x| (x as u64).to_le_bytes()).collect()
}
