//! What a host can lend that no step left: registers and images with something changed, and steps with a slice or a number other than it should be.
use super::image::{Session, CHECKED, CLAIM, CLOSED_COUNT, CLOSING, COMMITTED, ENTRIES, IMAGE, NUMBERS, PHASE, REGISTER, ROUNDS, SEED, SHEET, USED};
use super::steps::{Host, Step};
use crate::random::Random;
use crate::scratch::SCRATCH;

fn place(random: &mut Random, length: usize) -> usize {
    random.below(length.max(1) as u64) as usize
}

/// A slice of another length than it was.
pub fn length(random: &mut Random, slice: &mut Vec<u8>) {
    let long = slice.len();
    match random.below(6) {
        0 => slice.push(0),
        1 if long > 0 => drop(slice.pop()),
        2 if long > 0 => slice.clear(),
        3 if long > 0 => slice.truncate(long / 2),
        4 => slice.extend([0; 40]),
        _ => slice.resize(2 * long + 1, 0),
    }
}

/// A register of the same length with something changed among the entries used, or another register.
pub fn register(random: &mut Random, host: &mut Host) {
    let used = Session::read(&host.image).map_or(ENTRIES, |session| session.used).clamp(1, ENTRIES);
    let [i, j] = [0, 1].map(|_| 40 * random.below(used) as usize);
    let register = &mut host.register;
    match random.below(12) {
        0 | 1 => register[i + 4] = [0, 1, 2, 3, 255][random.below(5) as usize],
        2 | 3 => register.copy_within(j..j + 4, i),
        4 => register.copy_within(j..j + 40, i),
        5 => register[i + place(random, 40)] ^= 1 << random.below(8),
        6 => register[i + 5..i + 8].copy_from_slice(&random.bytes(3)),
        7 => register[i + 8 + place(random, 32)] ^= 1 << random.below(8),
        8 => {
            // past the entries used
            let at = 40 * used as usize % REGISTER;
            match random.below(2) {
                0 => register.copy_within(i..i + 40, at),
                _ => register[at..at + 40].fill(0xA5),
            }
        }
        9 => register.rotate_left(40),
        10 if random.below(4) == 0 => *register = random.bytes(REGISTER),
        10 => register[i..i + 40].copy_from_slice(&random.bytes(40)),
        _ if random.below(4) == 0 => register.fill(0),
        _ => register.swap(i, j),
    }
}

/// A number at an end of one of the ranges, or near what it was.
fn number(random: &mut Random, was: u64) -> u64 {
    let ends = [0, 1, 2, 3, 4, 5, 8, 40, 41, 128, 129, 256, 257, 2048, 4095, 4096, 4097, 1 << 32, 1 << 56, u64::MAX];
    match random.below(4) {
        0 => was.wrapping_add(1),
        1 => was.wrapping_sub(1),
        2 => was.wrapping_mul(2),
        _ => ends[place(random, ends.len())],
    }
}

/// An image of the same length with a field changed.
pub fn image(random: &mut Random, image: &mut [u8]) {
    let counts = [USED, CLOSED_COUNT, COMMITTED, CHECKED];
    let digests = [SHEET, CLOSING, CLAIM, SEED, ROUNDS, ROUNDS + 32, ROUNDS + 64, ROUNDS + 32 * 127];
    let at = match random.below(5) {
        0 => {
            image[PHASE] = [0, 1, 2, 3, 4, 5, 6, 255][random.below(8) as usize];
            return;
        }
        1 => {
            image[digests[place(random, 8)] + place(random, 32)] ^= 1 << random.below(8);
            return;
        }
        2 => NUMBERS[place(random, 5)],
        _ => counts[place(random, 4)],
    };
    let was = u64::from_le_bytes(image[at..at + 8].try_into().unwrap());
    image[at..at + 8].copy_from_slice(&number(random, was).to_le_bytes());
}

/// A host that lends a register or an image which is wrong in any way.
pub fn host(random: &mut Random, host: &mut Host) {
    match random.below(8) {
        0 => length(random, &mut host.image),
        1 => length(random, &mut host.register),
        2 => host.image = random.bytes(IMAGE),
        3 => host.image[1..].copy_from_slice(&random.bytes(IMAGE - 1)),
        4 => register(random, host),
        _ => image(random, &mut host.image),
    }
}

/// A step with one of its slices or numbers other than it was.
pub fn step(random: &mut Random, step: &mut Step) {
    match step {
        Step::Withdraw { mark } => *mark = [0, 1, u32::MAX, mark.wrapping_add(1), random.next() as u32][place(random, 5)],
        Step::Turnout { enrolled } => *enrolled = [0, 1, 1_000_000, 1_000_001, u64::MAX, random.next()][place(random, 6)],
        Step::Commit { round, .. } | Step::Check { round, .. } | Step::Challenges { round, .. } if random.below(4) == 0 => *round = number(random, *round),
        Step::Check { lent, .. } if random.below(8) == 0 => lent.scratch = [0, 1, SCRATCH - 1, SCRATCH + 1][place(random, 4)],
        _ => slice(random, step),
    }
}

fn slice(random: &mut Random, step: &mut Step) {
    let mut slices = step.slices();
    let chosen = place(random, slices.len());
    let Some(slice) = slices.get_mut(chosen) else { return };
    if slice.is_empty() || random.below(4) == 0 {
        return length(random, slice);
    }
    let (at, long) = (place(random, slice.len()), slice.len());
    match random.below(4) {
        0 => slice[at] = 255,
        1 => slice.swap(at, long - 1),
        _ => slice[at] ^= 1 << random.below(8),
    }
}
