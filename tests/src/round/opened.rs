//! The stretch of the opened side that holds ballot j's share.
use super::material::SMALL;
use super::whole::Whole;
use crate::random::Random;
use crate::tally::{Comparison, Tally};

extern "C" {
    fn jdn_opened_share(side: u64, n: u64, shares0: *const u8, shares0_length: usize, shares1: *const u8, shares1_length: usize, j: u64) -> u64;
}

fn ours(side: u64, n: u64, shares: [&[u8]; 2], j: u64) -> u64 {
    // Both slices are live for the call.
    unsafe { jdn_opened_share(side, n, shares[0].as_ptr(), shares[0].len(), shares[1].as_ptr(), shares[1].len(), j) }
}

/// Its first byte's place and one more; 0 where there is none. The slices' bytes do not matter.
pub fn theirs(side: u64, n: u64, lengths: [usize; 2], j: u64) -> u64 {
    let sizes = [4, 8, 16, 32, 64, 128, 256, 512, 1024, 2048];
    if side > 1 || !sizes.contains(&n) || lengths[0] != lengths[1] {
        return 0;
    }
    let (ballot, length) = (8 * n, lengths[0] as u64);
    if length % ballot == 0 && j < length / ballot { ballot * j + 1 } else { 0 }
}

/// Sides, ring sizes, lengths and ballots in and out of their ranges.
fn ranges(tally: &mut Tally, random: &mut Random) {
    let mut c = Comparison::default();
    let room = random.bytes(8 * 4 * 5000);
    for n in [0, 1, 2, 3, 4, 5, 8, 12, 16, 64, 2047, 2048, 2049, 4096, (1 << 32) + 4, 1 << 60, 1 << 61, u64::MAX] {
        let ballot = if n > 2048 { 32 } else { 8 * n as usize };
        let whole = [0, 1, 2, 5].map(|count| count * ballot);
        let lengths = whole.into_iter().flat_map(|length| [length, length + 1, length + 8, length.saturating_sub(1)]);
        for length in lengths.filter(|length| *length <= room.len()) {
            for other in [length, length + 1, length + ballot, 0].into_iter().filter(|other| *other <= room.len()) {
                for side in [0, 1, 2, 3, 256, 1 << 32, u64::MAX] {
                    for j in [0, 1, 2, 4, 5, 6, 1 << 32, 1 << 58, 1 << 61, u64::MAX] {
                        let reply = ours(side, n, [&room[..length], &room[..other]], j);
                        c.same(|| format!("side {side}, N = {n}, {length} and {other} bytes, ballot {j}"), reply, 256 * theirs(side, n, [length, other], j));
                    }
                }
            }
        }
    }
    for j in [4095, 4096, 4999, 5000] {
        c.same(|| format!("ballot {j} of 5,000"), ours(1, 4, [&room, &room], j), 256 * theirs(1, 4, [room.len(); 2], j));
    }
    // A null pointer with the length 0 is an empty slice.
    let reply = unsafe { jdn_opened_share(0, 4, std::ptr::null(), 0, std::ptr::null(), 0, 0) };
    c.same(|| "null".into(), reply, 0);
    c.claim(tally, "opened share: every side, ring size, length and ballot in and out of range");
}

/// In a round, the stretch is the share of that side and ballot.
fn shares(tally: &mut Tally, random: &mut Random) {
    let mut c = Comparison::default();
    let lent = Whole::honest(&SMALL.material(random)).check(0, &[1, 2, 3]);
    for (side, name) in ["shares0", "shares1"].into_iter().enumerate() {
        for j in 0..SMALL.ballots {
            let reply = ours(side as u64, 4, [&lent["shares0"], &lent["shares1"]], j as u64);
            let place = (reply / 256) as usize;
            let stretch = place.checked_sub(1).and_then(|at| lent[name].get(at..at + 32));
            c.same(|| format!("ballot {j} of {name}"), (reply % 256, stretch), (0, lent[name].chunks(32).nth(j)));
        }
    }
    c.claim(tally, "opened share: the stretch that is named is the ballot's share");
}

pub fn run(tally: &mut Tally, random: &mut Random) {
    ranges(tally, random);
    shares(tally, random);
}
