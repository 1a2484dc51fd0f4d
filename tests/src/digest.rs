//! `jdn_digest` against the independent SHA3-256.
use crate::random::Random;
use crate::sha3::sha3_256;
use crate::tally::{Comparison, Tally};

extern "C" {
    fn jdn_digest(message: *const u8, message_length: usize, out: *mut u8, out_length: usize) -> u64;
}

fn digest(message: &[u8], out: &mut [u8]) -> u64 {
    // Both slices are live and apart for the call.
    unsafe { jdn_digest(message.as_ptr(), message.len(), out.as_mut_ptr(), out.len()) }
}

fn compare(c: &mut Comparison, message: &[u8]) {
    let mut out = [0; 32];
    let reply = digest(message, &mut out);
    c.same(|| format!("{} bytes", message.len()), (reply, out), (0, sha3_256(message)));
}

fn messages(tally: &mut Tally, random: &mut Random) {
    let mut c = Comparison::default();
    for length in 0..=700 {
        compare(&mut c, &random.bytes(length));
    }
    c.claim(tally, "digest: every length from 0 to 700");

    let mut c = Comparison::default();
    for length in [1_360, 4_095, 4_096, 13_599, 13_600, 13_601, 65_537, 300_000] {
        compare(&mut c, &random.bytes(length));
        compare(&mut c, &vec![0xFF; length]);
    }
    c.claim(tally, "digest: long messages");

    // A slice that starts at any address, since lanes are read 8 bytes at a time.
    let mut c = Comparison::default();
    let message = random.bytes(600);
    for start in 0..16 {
        compare(&mut c, &message[start..start + 500]);
    }
    c.claim(tally, "digest: messages at every alignment");
}

fn lengths(tally: &mut Tally, random: &mut Random) {
    let mut c = Comparison::default();
    for length in (0..200).filter(|l| *l != 32) {
        let kept = random.bytes(length);
        let mut out = kept.clone();
        c.same(|| format!("an output of {length} bytes"), (digest(b"abc", &mut out), out), (1, kept));
    }
    c.claim(tally, "digest: an output of another length is refused 1 and left as it was");

    let mut c = Comparison::default();
    let mut out = [0; 32];
    // A null pointer with the length 0 is an empty slice.
    let reply = unsafe { jdn_digest(std::ptr::null(), 0, out.as_mut_ptr(), 32) };
    c.same(|| "a null message".into(), (reply, out), (0, sha3_256(b"")));
    let reply = unsafe { jdn_digest(b"abc".as_ptr(), 3, std::ptr::null_mut(), 0) };
    c.same(|| "a null output".into(), reply, 1);
    c.claim(tally, "digest: null with length 0");
}

pub fn run(tally: &mut Tally) {
    let mut random = Random(202);
    messages(tally, &mut random);
    lengths(tally, &mut random);
}
