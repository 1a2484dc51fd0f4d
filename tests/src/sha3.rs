//! SHA3-256 written from FIPS 202's bit-level text: state array A[x][y][z] of single bits, the step mappings of section 3.2,
//! the constants from the shift register of 3.2.5, the sponge of section 4 with pad10*1.
use crate::random::Random;
use crate::tally::{Comparison, Tally};
use std::sync::OnceLock;

type Bits = [[[bool; 64]; 5]; 5];

fn theta(a: &Bits) -> Bits {
    let parity = |x: usize, z: usize| (0..5).fold(false, |p, y| p ^ a[x][y][z]);
    let mut r = *a;
    for x in 0..5 {
        for z in 0..64 {
            let d = parity((x + 4) % 5, z) ^ parity((x + 1) % 5, (z + 63) % 64);
            for y in 0..5 {
                r[x][y][z] ^= d;
            }
        }
    }
    r
}

fn rho(a: &Bits) -> Bits {
    let mut r = *a;
    let (mut x, mut y) = (1, 0);
    for t in 0..24 {
        let offset = (t + 1) * (t + 2) / 2 % 64;
        for z in 0..64 {
            r[x][y][z] = a[x][y][(z + 64 - offset) % 64];
        }
        (x, y) = (y, (2 * x + 3 * y) % 5);
    }
    r
}

fn pi(a: &Bits) -> Bits {
    let mut r = *a;
    for x in 0..5 {
        for y in 0..5 {
            r[x][y] = a[(x + 3 * y) % 5][x];
        }
    }
    r
}

fn chi(a: &Bits) -> Bits {
    let mut r = *a;
    for x in 0..5 {
        for y in 0..5 {
            for z in 0..64 {
                r[x][y][z] ^= !a[(x + 1) % 5][y][z] & a[(x + 2) % 5][y][z];
            }
        }
    }
    r
}

/// Algorithm 5: bit t of the shift register's output.
fn rc(t: usize) -> bool {
    let mut r: u16 = 1;
    for _ in 0..t % 255 {
        r <<= 1;
        if r & 0x100 != 0 {
            r ^= 0x171;
        }
    }
    r & 1 == 1
}

fn iota(a: &mut Bits, round: usize) {
    for j in 0..=6 {
        a[0][0][(1 << j) - 1] ^= rc(j + 7 * round);
    }
}

fn keccak(bits: &mut [bool; 1600]) {
    let mut a: Bits = [[[false; 64]; 5]; 5];
    for (i, bit) in bits.iter().enumerate() {
        a[i / 64 % 5][i / 320][i % 64] = *bit;
    }
    for round in 0..24 {
        a = chi(&pi(&rho(&theta(&a))));
        iota(&mut a, round);
    }
    for (i, bit) in bits.iter_mut().enumerate() {
        *bit = a[i / 64 % 5][i / 320][i % 64];
    }
}

pub fn sha3_256(message: &[u8]) -> [u8; 32] {
    const RATE: usize = 1088;
    let mut padded: Vec<bool> = message.iter().flat_map(|b| (0..8).map(move |i| b >> i & 1 == 1)).collect();
    padded.extend([false, true, true]);
    while padded.len() % RATE != RATE - 1 {
        padded.push(false);
    }
    padded.push(true);
    let mut state = [false; 1600];
    for block in padded.chunks(RATE) {
        for (s, b) in state.iter_mut().zip(block) {
            *s ^= b;
        }
        keccak(&mut state);
    }
    let mut digest = [0; 32];
    for (i, bit) in state[..256].iter().enumerate() {
        digest[i / 8] |= u8::from(*bit) << (i % 8);
    }
    digest
}

/// By how many places rho moves each lane.
const OFFSETS: [[u32; 5]; 5] = {
    let mut offsets = [[0; 5]; 5];
    let (mut x, mut y, mut t) = (1, 0, 0);
    while t < 24 {
        offsets[x][y] = (t + 1) * (t + 2) / 2 % 64;
        (x, y) = (y, (2 * x + 3 * y) % 5);
        t += 1;
    }
    offsets
};

/// One round on lanes of 64 bits: bit z of a lane is A[x][y][z].
fn round_on_lanes(a: &mut [[u64; 5]; 5], constant: u64) {
    let parity: [u64; 5] = std::array::from_fn(|x| a[x].iter().fold(0, |p, lane| p ^ lane));
    let mixed: [u64; 5] = std::array::from_fn(|x| parity[(x + 4) % 5] ^ parity[(x + 1) % 5].rotate_left(1));
    let turned: [[u64; 5]; 5] = std::array::from_fn(|x| std::array::from_fn(|y| (a[x][y] ^ mixed[x]).rotate_left(OFFSETS[x][y])));
    let moved: [[u64; 5]; 5] = std::array::from_fn(|x| std::array::from_fn(|y| turned[(x + 3 * y) % 5][x]));
    *a = std::array::from_fn(|x| std::array::from_fn(|y| moved[x][y] ^ !moved[(x + 1) % 5][y] & moved[(x + 2) % 5][y]));
    a[0][0] ^= constant;
}

/// The same digest a hundred times as fast, for what is hashed a thousand times: it is tested against the one on single bits.
pub fn sha3_256_on_lanes(message: &[u8]) -> [u8; 32] {
    const RATE: usize = 136;
    static CONSTANTS: OnceLock<[u64; 24]> = OnceLock::new();
    let constant = |round: usize| (0..=6).fold(0, |lane, j| lane | u64::from(rc(j + 7 * round)) << ((1 << j) - 1));
    let constants = *CONSTANTS.get_or_init(|| std::array::from_fn(constant));
    let mut padded = message.to_vec();
    padded.push(6);
    padded.resize(padded.len().next_multiple_of(RATE), 0);
    *padded.last_mut().unwrap() |= 128;
    let mut state = [[0; 5]; 5];
    for block in padded.chunks(RATE) {
        for (i, lane) in block.chunks(8).enumerate() {
            state[i % 5][i / 5] ^= u64::from_le_bytes(lane.try_into().unwrap());
        }
        constants.into_iter().for_each(|constant| round_on_lanes(&mut state, constant));
    }
    let lanes: [[u8; 8]; 4] = std::array::from_fn(|i| state[i][0].to_le_bytes());
    lanes.concat().try_into().unwrap()
}

pub fn hex(bytes: &[u8]) -> String {
    bytes.iter().map(|b| format!("{b:02x}")).collect()
}

/// The independent implementation against the published digests, so that what it is compared with can be trusted.
pub fn run(tally: &mut Tally) {
    let mut c = Comparison::default();
    let published: [(&[u8], &str); 4] = [
        (b"", "a7ffc6f8bf1ed76651c14756a061d662f580ff4de43b49fa82d80a4b80f8434a"),
        (b"abc", "3a985da74fe225b2045c172d6bd390bd855f086e3e9d525b46bfe24511431532"),
        (
            b"abcdbcdecdefdefgefghfghighijhijkijkljklmklmnlmnomnopnopq",
            "41c0dba2a9d6240849100376a8235e2c82e1b9998a999e21db32dd97496d3376",
        ),
        (&[0xA3; 200], "79f38adec5c20307a98ef76e8324afbfd46cfd81b22e3973c65fa1bd9de31787"),
    ];
    for (message, digest) in published {
        c.same(|| format!("{} bytes", message.len()), hex(&sha3_256(message)), digest.to_string());
    }
    c.claim(tally, "the independent SHA3-256 has the published digests");

    let mut c = Comparison::default();
    let mut random = Random(256);
    for length in (0..300).chain([1_377, 10_000]) {
        let message = random.bytes(length);
        c.same(|| format!("{length} bytes"), sha3_256_on_lanes(&message), sha3_256(&message));
    }
    c.claim(tally, "the independent SHA3-256 on lanes is that on bits");
}
