//! The calls of encryption, decryption shares, commitment and the plain product against plain 128-bit arithmetic: what each writes, and each
//! refusal in its order.
use crate::calls::{decrypt, encrypt, keygen, reconstruct, share, split, Call, Kind, CALLS};
use crate::polynomials::{signed, words, Ring};
use crate::random::Random;
use crate::scratch::{with_scratch, Scratch, SCRATCH};
use crate::sheets::{self, Sheet};
use crate::tally::{Comparison, Tally};

/// The number, and what the output holds.
pub fn expected(call: &Call, text: &[u8], inputs: &[Vec<u8>], out: &[u8], scratch: usize) -> (u64, Vec<u8>) {
    let (sheet, [n, _, bound, _]) = match sheets::read(text) {
        Err(number) => return (number, out.to_vec()),
        Ok(taken) => taken,
    };
    let (n, q) = (n as usize, sheet.numbers[1]);
    if inputs.iter().zip(call.kinds).any(|(x, k)| x.len() != k.length(n)) || out.len() != call.out * n || scratch != SCRATCH {
        return (1, out.to_vec());
    }
    if inputs.iter().zip(call.kinds).any(|(x, k)| !k.in_range(x, q)) {
        return (5, out.to_vec());
    }
    let over = |x: &Vec<u8>| signed(x).iter().any(|e| e.unsigned_abs() > u128::from(bound));
    if inputs.iter().zip(call.kinds).any(|(x, k)| *k == Kind::Mask && over(x)) {
        return (12, out.to_vec());
    }
    let ring = Ring { n, q: i128::from(q) };
    (0, (call.writes)(&ring, &sheet, inputs))
}

pub fn compare(c: &mut Comparison, call: &Call, text: &[u8], inputs: &[Vec<u8>], out: &[u8], scratch: usize) -> u64 {
    let (number, output) = expected(call, text, inputs, out, scratch);
    let mut written = out.to_vec();
    let (reply, state) = with_scratch(scratch, |room| (call.run)(text, inputs, &mut written, room));
    c.same(|| format!("{}, {} bytes of sheet", call.name, text.len()), (reply, written, state), (number, output, Scratch::after(number, scratch)));
    reply
}

/// One slice longer or shorter, one byte or number out of range, another scratch, or another sheet.
pub fn damage(random: &mut Random, call: &Call, text: &mut Vec<u8>, inputs: &mut [Vec<u8>], out: &mut Vec<u8>, scratch: &mut usize, sheet: &Sheet, bound: u64) {
    let q = sheet.numbers[1];
    let i = random.below(inputs.len() as u64) as usize;
    match random.below(8) {
        0 => inputs[i].push(0),
        1 => drop(inputs[i].pop()),
        2 => out.push(7),
        3 => *scratch = [0, 1, SCRATCH - 1, SCRATCH + 1][random.below(4) as usize],
        4 => *text = if random.below(2) == 0 { sheets::damaged(random, text) } else { sheets::changed(random, sheet) },
        _ => {
            let at = random.below(inputs[i].len() as u64) as usize;
            let word = (at / 8).min((inputs[i].len() / 8).saturating_sub(1)) * 8;
            match call.kinds[i] {
                Kind::Ternary(_) => inputs[i][at] = 3 + random.below(253) as u8,
                Kind::Message => inputs[i][at] = 2 + random.below(254) as u8,
                Kind::Polynomials(_) => inputs[i][word..word + 8].copy_from_slice(&[q, q + 1, u64::MAX][random.below(3) as usize].to_le_bytes()),
                Kind::Mask => {
                    let b = bound as i64;
                    let e = [b, -b, b + 1, -b - 1, i64::MIN, i64::MAX][random.below(6) as usize];
                    inputs[i][word..word + 8].copy_from_slice(&e.to_le_bytes());
                }
            }
        }
    }
}

fn material(random: &mut Random, call: &Call, sheet: &Sheet) -> (Vec<Vec<u8>>, Vec<u8>, u64) {
    let [n, q, d, ..] = sheet.numbers;
    let bound = (((1_u128 << d) * u128::from(2 * (2 * n + 1) + 1)) / 4) as u64;
    let inputs = call.kinds.iter().map(|k| k.random(random, n as usize, q, bound)).collect();
    (inputs, random.bytes(call.out * n as usize), bound)
}

/// Every number of the slices and of the sheet's lists at the end of its range, and then one past it in each slice in turn.
fn ends(c: &mut Comparison, random: &mut Random, call: &Call, n: u64) {
    let mut sheet = sheets::right(random, n);
    let q = sheet.numbers[1];
    sheet.lists = std::array::from_fn(|_| vec![q - 1; n as usize]);
    let text = sheet.text().into_bytes();
    let (_, out, bound) = material(random, call, &sheet);
    let highest: Vec<Vec<u8>> = call.kinds.iter().map(|k| k.highest(n as usize, q, bound)).collect();
    let reply = compare(c, call, &text, &highest, &out, SCRATCH);
    c.same(|| format!("{} at the ends, N = {n}", call.name), reply, 0);
    for (i, kind) in call.kinds.iter().enumerate() {
        let numbers = if matches!(kind, Kind::Polynomials(_) | Kind::Mask) { highest[i].len() / 8 } else { highest[i].len() };
        for place in [0, numbers - 1] {
            let mut inputs = highest.clone();
            kind.past(&mut inputs[i], place, q, bound);
            let reply = compare(c, call, &text, &inputs, &out, SCRATCH);
            c.same(|| format!("{} past the end at {place} of slice {i}", call.name), reply, if *kind == Kind::Mask { 12 } else { 5 });
        }
    }
}

/// Key, ballot, split, shares and votes from one end to the other: decryption and reconstruction give the message.
fn honest(c: &mut Comparison, random: &mut Random, n: u64) {
    let mut sheet = sheets::right(random, n);
    let size = n as usize;
    let q = sheet.numbers[1];
    let mut room = vec![0; SCRATCH];
    let short = |random: &mut Random| Kind::Ternary(1).random(random, size, q, 0);
    let (s, e) = (short(random), short(random));
    let mut b = vec![0; 8 * size];
    let mut replies = vec![keygen(sheet.text().as_bytes(), &[s.clone(), e.clone()], &mut b, &mut room)];
    sheet.lists[1] = words(&b);
    let text = sheet.text().into_bytes();
    let m = Kind::Message.random(random, size, q, 0);
    let mut ballot = vec![0; 16 * size];
    replies.push(encrypt(&text, &[short(random), short(random), short(random), m.clone()], &mut ballot, &mut room));
    let mut vote = vec![9; size];
    replies.push(decrypt(&text, &[s.clone(), ballot.clone()], &mut vote, &mut room));
    let (s0, e0) = (Kind::Polynomials(1).random(random, size, q, 0), Kind::Polynomials(1).random(random, size, q, 0));
    let mut halves = vec![0; 32 * size];
    replies.push(split(&text, &[s, e, s0.clone(), e0], &mut halves, &mut room));
    let (_, _, bound) = material(random, &CALLS[4], &sheet);
    let mut shares = Vec::new();
    for half in [s0, halves[..8 * size].to_vec()] {
        let mask = Kind::Mask.random(random, size, q, bound);
        let mut t = vec![0; 8 * size];
        replies.push(share(&text, &[half, ballot[..8 * size].to_vec(), mask], &mut t, &mut room));
        shares.push(t);
    }
    let mut counted = vec![9; size];
    replies.push(reconstruct(&text, &[ballot[8 * size..].to_vec(), shares[0].clone(), shares[1].clone()], &mut counted, &mut room));
    c.same(|| format!("a ballot at N = {n}"), (replies, vote, counted), (vec![0; 7], m.clone(), m));
}

/// The numbers that each call was refused with.
type Reached = std::collections::BTreeSet<(&'static str, u64)>;

/// What one call writes, and what it refuses where one thing or two are damaged.
fn one(tally: &mut Tally, random: &mut Random, reached: &mut Reached, call: &Call) {
    let mut taken = Comparison::default();
    let mut refused = Comparison::default();
    for round in 0..160 {
        let sheet = sheets::right(random, [4, 8, 16, 64][round % 4]);
        let text = sheet.text().into_bytes();
        let (inputs, out, bound) = material(random, call, &sheet);
        compare(&mut taken, call, &text, &inputs, &out, SCRATCH);
        for _ in 0..4 {
            let (mut text, mut inputs, mut out, mut scratch) = (text.clone(), inputs.clone(), out.clone(), SCRATCH);
            for _ in 0..1 + random.below(2) {
                damage(random, call, &mut text, &mut inputs, &mut out, &mut scratch, &sheet, bound);
            }
            reached.insert((call.name, compare(&mut refused, call, &text, &inputs, &out, scratch)));
        }
    }
    let sheet = sheets::right(random, 2048);
    let (inputs, out, _) = material(random, call, &sheet);
    compare(&mut taken, call, sheet.text().as_bytes(), &inputs, &out, SCRATCH);
    taken.claim(tally, &format!("{}: what is written, N from 4 to 2048", call.name));
    refused.claim(tally, &format!("{}: damaged slices, numbers and sheets", call.name));
}

pub fn run(tally: &mut Tally) {
    let mut random = Random(404);
    let mut reached = Reached::new();
    for call in &CALLS {
        one(tally, &mut random, &mut reached, call);
    }

    let mut c = Comparison::default();
    for call in &CALLS {
        for number in 1..=5 {
            c.same(|| format!("{} refused {number}", call.name), reached.contains(&(call.name, number)), true);
        }
    }
    c.same(|| "share refused 12".into(), reached.contains(&("share", 12)), true);
    c.claim(tally, "the scheme's refusals were reached");

    let mut c = Comparison::default();
    for call in &CALLS {
        for n in [4, 64, 2048] {
            ends(&mut c, &mut random, call, n);
        }
    }
    c.claim(tally, "the scheme's numbers at the ends of their ranges, and past them at the first and the last place");

    let mut c = Comparison::default();
    for round in 0..60 {
        honest(&mut c, &mut random, [4, 8, 32, 128][round % 4]);
    }
    c.claim(tally, "an honest ballot decrypts, and two shares of it reconstruct the vote");
}
