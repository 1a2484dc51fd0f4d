//! The calls of encryption, decryption shares, commitment and products: what each is lent, and what it writes by plain 128-bit arithmetic.
use crate::polynomials::{encode, list, poly, signed, ternary, words, Poly, Ring};
use crate::random::Random;
use crate::sheets::Sheet;

/// Declares the C calls with so many slices before the output, and for each a function over slices.
macro_rules! calls {
    ($($name:ident($($input:ident),+) as $safe:ident;)+) => {
        extern "C" {
            $(fn $name(sheet: *const u8, sheet_length: usize, $($input: *const u8, _: usize,)+ out: *mut u8, out_length: usize, scratch: *mut u8, scratch_length: usize) -> u64;)+
        }
        $(pub fn $safe(sheet: &[u8], inputs: &[Vec<u8>], out: &mut [u8], scratch: &mut [u8]) -> u64 {
            let [$($input),+] = inputs else { panic!("the call has other slices") };
            // All slices are live and apart for the call.
            unsafe { $name(sheet.as_ptr(), sheet.len(), $($input.as_ptr(), $input.len(),)+ out.as_mut_ptr(), out.len(), scratch.as_mut_ptr(), scratch.len()) }
        })+
    };
}

calls! {
    jdn_keygen(s, e) as keygen;
    jdn_encrypt(r, e1, e2, m) as encrypt;
    jdn_decrypt(s, ciphertext) as decrypt;
    jdn_split(s, e, s0, e0) as split;
    jdn_share(key_share, u, mask) as share;
    jdn_reconstruct(v, t0, t1) as reconstruct;
    jdn_commitment(m, r) as commitment;
    jdn_product(x, y) as product;
}

extern "C" {
    fn jdn_multiply(
        sheet: *const u8,
        sheet_length: usize,
        x: *const u8,
        x_length: usize,
        y: *const u8,
        y_length: usize,
        root: u64,
        product: *mut u8,
        product_length: usize,
        scratch: *mut u8,
        scratch_length: usize,
    ) -> u64;
}

/// What `product` writes, by transform: it is lent a root as a plain number beside the slices.
pub fn multiply(sheet: &[u8], inputs: &[Vec<u8>], root: u64, out: &mut [u8], scratch: &mut [u8]) -> u64 {
    let [x, y] = inputs else { panic!("the call has other slices") };
    let (sheet, sheet_length) = (sheet.as_ptr(), sheet.len());
    // All slices are live and apart for the call.
    unsafe {
        jdn_multiply(
            sheet, sheet_length, x.as_ptr(), x.len(), y.as_ptr(), y.len(), root, out.as_mut_ptr(), out.len(), scratch.as_mut_ptr(), scratch.len(),
        )
    }
}

/// What a slice of a call holds.
#[derive(Clone, Copy, PartialEq)]
pub enum Kind {
    /// so many times N ternary bytes
    Ternary(usize),
    /// a message: N bytes below p
    Message,
    /// so many polynomials
    Polynomials(usize),
    /// N signed numbers
    Mask,
}

impl Kind {
    pub fn length(self, n: usize) -> usize {
        match self {
            Kind::Ternary(k) => k * n,
            Kind::Message => n,
            Kind::Polynomials(k) => 8 * k * n,
            Kind::Mask => 8 * n,
        }
    }

    pub fn in_range(self, bytes: &[u8], q: u64) -> bool {
        match self {
            Kind::Ternary(_) => bytes.iter().all(|b| *b < 3),
            Kind::Message => bytes.iter().all(|b| *b < 2),
            Kind::Polynomials(_) => words(bytes).iter().all(|x| *x < q),
            Kind::Mask => true,
        }
    }

    /// Bytes in range, now and then all at the end of it.
    pub fn random(self, random: &mut Random, n: usize, q: u64, bound: u64) -> Vec<u8> {
        if random.below(6) == 0 {
            return self.highest(n, q, bound);
        }
        let length = self.length(n);
        match self {
            Kind::Ternary(_) => (0..length).map(|_| random.below(3) as u8).collect(),
            Kind::Message => (0..length).map(|_| random.below(2) as u8).collect(),
            Kind::Polynomials(_) => (0..length / 8).flat_map(|_| random.below(q).to_le_bytes()).collect(),
            Kind::Mask => (0..n)
                .flat_map(|_| {
                    let size = random.below(bound + 1) as i64;
                    (if random.below(2) == 0 { size } else { -size }).to_le_bytes()
                })
                .collect(),
        }
    }

    /// Every byte or number at the end of its range.
    pub fn highest(self, n: usize, q: u64, bound: u64) -> Vec<u8> {
        let length = self.length(n);
        match self {
            Kind::Ternary(_) => vec![2; length],
            Kind::Message => vec![1; length],
            Kind::Polynomials(_) => (q - 1).to_le_bytes().repeat(length / 8),
            Kind::Mask => (0..n).flat_map(|i| (if i % 2 == 0 { bound as i64 } else { -(bound as i64) }).to_le_bytes()).collect(),
        }
    }

    /// The least number past the range, at one place.
    pub fn past(self, bytes: &mut [u8], place: usize, q: u64, bound: u64) {
        match self {
            Kind::Ternary(_) => bytes[place] = 3,
            Kind::Message => bytes[place] = 2,
            Kind::Polynomials(_) => bytes[8 * place..8 * place + 8].copy_from_slice(&q.to_le_bytes()),
            Kind::Mask => bytes[8 * place..8 * place + 8].copy_from_slice(&(bound + 1).to_le_bytes()),
        }
    }
}

pub struct Call {
    pub name: &'static str,
    pub kinds: &'static [Kind],
    /// the output in multiples of N
    pub out: usize,
    pub run: fn(&[u8], &[Vec<u8>], &mut [u8], &mut [u8]) -> u64,
    pub writes: fn(&Ring, &Sheet, &[Vec<u8>]) -> Vec<u8>,
}

const P: i128 = 2;

pub const CALLS: [Call; 8] = [
    Call {
        name: "keygen",
        kinds: &[Kind::Ternary(1), Kind::Ternary(1)],
        out: 8,
        run: keygen,
        writes: |z, t, x| encode(z, vec![z.sum(&z.times(&list(&t.lists[0]), &ternary(&x[0])), &ternary(&x[1]), P)]),
    },
    Call {
        name: "encrypt",
        kinds: &[Kind::Ternary(1), Kind::Ternary(1), Kind::Ternary(1), Kind::Message],
        out: 16,
        run: encrypt,
        writes: |z, t, x| {
            let r = ternary(&x[0]);
            let u = z.sum(&z.times(&list(&t.lists[0]), &r), &ternary(&x[1]), P);
            let v = z.sum(&z.times(&list(&t.lists[1]), &r), &ternary(&x[2]), P);
            encode(z, vec![u, z.sum(&v, &x[3].iter().map(|b| i128::from(*b)).collect(), 1)])
        },
    },
    Call {
        name: "decrypt",
        kinds: &[Kind::Ternary(1), Kind::Polynomials(2)],
        out: 1,
        run: decrypt,
        writes: |z, _, x| {
            let c = poly(&x[1]);
            z.vote(z.sum(&c[z.n..].to_vec(), &z.times(&ternary(&x[0]), &c[..z.n].to_vec()), -1))
        },
    },
    Call {
        name: "split",
        kinds: &[Kind::Ternary(1), Kind::Ternary(1), Kind::Polynomials(1), Kind::Polynomials(1)],
        out: 32,
        run: split,
        writes: |z, t, x| {
            let (s0, e0) = (poly(&x[2]), poly(&x[3]));
            let (s1, e1) = (z.sum(&ternary(&x[0]), &s0, -1), z.sum(&ternary(&x[1]), &e0, -1));
            let key = |s: &Poly, e: &Poly| z.sum(&z.times(&list(&t.lists[0]), s), e, P);
            let keys = [key(&s0, &e0), key(&s1, &e1)];
            encode(z, [vec![s1, e1], keys.to_vec()].concat())
        },
    },
    Call {
        name: "share",
        kinds: &[Kind::Polynomials(1), Kind::Polynomials(1), Kind::Mask],
        out: 8,
        run: share,
        writes: |z, _, x| encode(z, vec![z.sum(&z.times(&poly(&x[0]), &poly(&x[1])), &signed(&x[2]), P)]),
    },
    Call {
        name: "reconstruct",
        kinds: &[Kind::Polynomials(1), Kind::Polynomials(1), Kind::Polynomials(1)],
        out: 1,
        run: reconstruct,
        writes: |z, _, x| z.vote(z.sum(&z.sum(&poly(&x[0]), &poly(&x[1]), -1), &poly(&x[2]), -1)),
    },
    Call {
        name: "commitment",
        kinds: &[Kind::Polynomials(1), Kind::Ternary(3)],
        out: 16,
        run: commitment,
        writes: |z, t, x| {
            let (m, r) = (poly(&x[0]), ternary(&x[1]));
            let [r1, r2, r3] = [0, 1, 2].map(|i| r[i * z.n..(i + 1) * z.n].to_vec());
            let [k1, k2, k3] = [2, 3, 4].map(|i| list(&t.lists[i]));
            let row = z.sum(&z.sum(&r1, &z.times(&k1, &r2), 1), &z.times(&k2, &r3), 1);
            encode(z, vec![row, z.sum(&z.sum(&r2, &z.times(&k3, &r3), 1), &m, 1)])
        },
    },
    PRODUCT,
];

pub const PRODUCT: Call = Call {
    name: "product",
    kinds: &[Kind::Polynomials(1), Kind::Polynomials(1)],
    out: 8,
    run: product,
    writes: |z, _, x| encode(z, vec![z.times(&poly(&x[0]), &poly(&x[1]))]),
};
