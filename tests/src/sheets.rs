//! Parameter sheets: an independent reader, written from document 01 ("Sheet", "Ring and scheme", refusals 1 to 5) by splitting the text into lines and the
//! lines into numbers; and sheets that are right, at a boundary, or damaged in one place.
use crate::random::Random;

const KEYS: [&str; 10] = ["ring", "modulus", "drown", "rounds", "repeats", "a", "b", "k1", "k2", "k3"];

#[derive(Clone)]
pub struct Sheet {
    pub numbers: [u64; 5],
    pub lists: [Vec<u64>; 5],
}

impl Sheet {
    pub fn text(&self) -> String {
        let number = |i: usize| self.numbers[i].to_string();
        let list = |i: usize| self.lists[i].iter().map(u64::to_string).collect::<Vec<_>>().join(",");
        (0..10).map(|i| format!("{}={}\n", KEYS[i], if i < 5 { number(i) } else { list(i - 5) })).collect()
    }
}

// ---- the independent reader

fn decimal(text: &str) -> Option<u64> {
    let digits = !text.is_empty() && text.len() <= 17 && text.bytes().all(|c| c.is_ascii_digit());
    let plain = text == "0" || !text.starts_with('0');
    if digits && plain {
        text.parse().ok()
    } else {
        None
    }
}

fn form(text: &[u8]) -> Option<Sheet> {
    let text = std::str::from_utf8(text).ok()?;
    let lines: Vec<&str> = text.strip_suffix('\n')?.split('\n').collect();
    if lines.len() != 10 {
        return None;
    }
    let mut rows = Vec::new();
    for (line, key) in lines.iter().zip(KEYS) {
        let value = line.strip_prefix(key)?.strip_prefix('=')?;
        rows.push(value.split(',').map(decimal).collect::<Option<Vec<u64>>>()?);
    }
    if rows[..5].iter().any(|r| r.len() != 1) {
        return None;
    }
    Some(Sheet {
        numbers: std::array::from_fn(|i| rows[i][0]),
        lists: std::array::from_fn(|i| rows[5 + i].clone()),
    })
}

/// The largest m with 3^m ≤ 2^(rounds + m), that is 3^m < 2^(rounds + m), since no power of 3 above 1 is a power of 2.
pub fn least_repeats(rounds: u64) -> u64 {
    let mut power: Vec<u32> = vec![1]; // 3^m, the low 32 bits first
    let mut m = 0;
    loop {
        let mut carry = 0;
        for limb in power.iter_mut() {
            let product = u64::from(*limb) * 3 + carry;
            *limb = product as u32;
            carry = product >> 32;
        }
        if carry > 0 {
            power.push(carry as u32);
        }
        let bits = 32 * power.len() as u64 - u64::from(power[power.len() - 1].leading_zeros());
        if bits > rounds + m + 1 {
            return m;
        }
        m += 1;
    }
}

pub fn noise(n: u64) -> u128 {
    2 * (2 * u128::from(n) + 1) + 1
}

/// What the numbers before a are refused for, 3 before 4.
pub fn judged(numbers: &[u64; 5]) -> Result<(), u64> {
    let [n, q, d, rounds, repeats] = *numbers;
    let ring = (4..=2048).contains(&n) && n.is_power_of_two();
    let modulus = (3..1 << 56).contains(&q);
    let count = (1..=128).contains(&rounds) && repeats <= 256 && least_repeats(rounds) <= repeats;
    if !(ring && modulus && d <= 40 && count) {
        return Err(3);
    }
    if (q - 1) % (2 * n) != 0 || (1 + (1_u128 << d)) * noise(n) >= u128::from((q - 1) / 2) {
        return Err(4);
    }
    Ok(())
}

/// The sheet and its N, D, B, L; or the number of the refusal.
pub fn read(text: &[u8]) -> Result<(Sheet, [u64; 4]), u64> {
    if text.is_empty() || text.len() > 262_144 {
        return Err(1);
    }
    let sheet = form(text).ok_or(2_u64)?;
    judged(&sheet.numbers)?;
    let [n, q, d, ..] = sheet.numbers;
    if sheet.lists.iter().any(|l| l.len() as u64 != n || l.iter().any(|x| *x >= q)) {
        return Err(5);
    }
    Ok((sheet, [n, noise(n) as u64, ((1_u128 << d) * noise(n) / 4) as u64, 14 * n]))
}

// ---- sheets

fn coefficients(random: &mut Random, n: u64, q: u64) -> Vec<u64> {
    (0..n).map(|_| random.below(q)).collect()
}

/// A sheet that is taken.
pub fn right(random: &mut Random, n: u64) -> Sheet {
    let d = random.below(41);
    let least = 2 * (1 + (1_u128 << d)) * noise(n) + 2;
    let steps = (u128::from(random.next()) % 1_000).min(((1 << 56) - 1 - least) / u128::from(2 * n) - 1);
    let q = ((least / u128::from(2 * n) + 1 + steps) * u128::from(2 * n) + 1) as u64;
    with(random, n, q, d)
}

/// A sheet with these numbers.
pub fn with(random: &mut Random, n: u64, q: u64, d: u64) -> Sheet {
    let rounds = 1 + random.below(128);
    let repeats = least_repeats(rounds) + random.below(257 - least_repeats(rounds));
    Sheet {
        numbers: [n, q, d, rounds, repeats],
        lists: std::array::from_fn(|_| coefficients(random, n, q)),
    }
}

/// One of the numbers at the ends of the ranges, or near what it was.
fn boundary(random: &mut Random, was: u64) -> u64 {
    let ends = [
        0, 1, 2, 3, 4, 5, 8, 16, 17, 40, 41, 128, 129, 217, 218, 255, 256, 257, 1024, 2047, 2048, 2049, 4096,
        (1 << 56) - 1, 1 << 56, (1 << 56) + 1, 10_u64.pow(16), 10_u64.pow(17) - 1, 10_u64.pow(17), u64::MAX,
    ];
    match random.below(4) {
        0 => was.wrapping_add(1),
        1 => was.wrapping_sub(1),
        2 => was.wrapping_add(2 * random.below(4096)),
        _ => ends[random.below(ends.len() as u64) as usize],
    }
}

/// A sheet with one thing other than it was, still written as a sheet is.
pub fn changed(random: &mut Random, sheet: &Sheet) -> Vec<u8> {
    let mut s = sheet.clone();
    let list = random.below(5) as usize;
    match random.below(5) {
        0 | 1 => {
            let i = random.below(5) as usize;
            s.numbers[i] = boundary(random, s.numbers[i]);
        }
        2 => {
            let i = random.below(s.lists[list].len() as u64) as usize;
            s.lists[list][i] = if random.below(2) == 0 { s.numbers[1] } else { boundary(random, s.numbers[1]) };
        }
        3 => drop(s.lists[list].pop()),
        _ => s.lists[list].push(0),
    }
    s.text().into_bytes()
}

/// A text with a byte, a line or an end other than it was.
pub fn damaged(random: &mut Random, text: &[u8]) -> Vec<u8> {
    const BYTES: &[u8] = b"0123456789,,==\n\r\0 +-.abkringmodulus\x2f\x3a\xc3";
    let mut t = text.to_vec();
    let at = random.below(t.len() as u64) as usize;
    let byte = BYTES[random.below(BYTES.len() as u64) as usize];
    let lines: Vec<&[u8]> = text.split_inclusive(|c| *c == b'\n').collect();
    let line = random.below(lines.len() as u64) as usize;
    match random.below(10) {
        0 | 1 => t[at] = byte,
        2 => drop(t.remove(at)),
        3 => t.insert(at, byte),
        4 => t.truncate(at),
        5 => t.push(byte),
        6 => t = lines.iter().enumerate().filter(|(i, _)| *i != line).flat_map(|(_, l)| l.to_vec()).collect(),
        7 => t = lines.iter().enumerate().flat_map(|(i, l)| if i == line { l.repeat(2) } else { l.to_vec() }).collect(),
        8 => {
            // a zero before a number
            let starts: Vec<usize> = (1..t.len()).filter(|i| matches!(t[i - 1], b'=' | b',')).collect();
            t.insert(starts[random.below(starts.len() as u64) as usize], b'0');
        }
        _ => t = String::from_utf8_lossy(text).replace('\n', "\r\n").into_bytes(),
    }
    t
}
