//! What is refused of the answer to a challenge, wherever it stands: a check has its answers end to end, the extractor one in each slice.
use super::faults::{add, turn, Faults};
use super::lent::Lent;
use super::setting::Setting;
use crate::stern::answer_length;

/// An answer by its slice and first byte there, with its repetition and challenge, the step of the call's order that tests it and its turn within the step.
#[derive(Clone, Copy)]
pub struct Answer {
    pub slice: &'static str,
    pub at: usize,
    pub repetition: usize,
    pub challenge: u8,
    pub step: u64,
    pub turn: usize,
}

impl Answer {
    fn fault(&self, faults: &mut Faults, number: u64, name: &str, apply: impl Fn(&mut Lent) + 'static) {
        faults.add(self.step, number, self.repetition, &format!("answer {}, {name}", self.challenge), apply);
        if let Some(fault) = faults.0.last_mut() {
            fault.rank[1] = self.turn as u64;
        }
    }

    pub fn all(&self, faults: &mut Faults, z: &Setting) {
        self.ranges(faults, z);
        self.salts(faults, z);
        if self.challenge == 1 { self.balanced(faults, z) } else { self.permuted(faults, z) }
    }

    /// 5.
    fn ranges(&self, faults: &mut Faults, z: &Setting) {
        let n = z.n();
        let (first, last) = if self.challenge == 1 { (42 * n, 378 * n - 8) } else { (168 * n, 504 * n - 8) };
        faults.past(self.slice, self.at + first, z.q());
        faults.past(self.slice, self.at + last, u64::MAX);
        if self.challenge == 1 {
            faults.past_byte(self.slice, self.at, 3);
            faults.past_byte(self.slice, self.at + 42 * n - 1, 255);
        }
    }

    /// 11 by the first and the last byte of the two salts.
    fn salts(&self, faults: &mut Faults, z: &Setting) {
        let end = self.at + answer_length(z.n(), self.challenge);
        for byte in [end - 64, end - 1] {
            let slice = self.slice;
            self.fault(faults, 11, "a salt", move |lent| lent[slice][byte] ^= 128);
        }
    }

    /// 10 and 11 of answer 1.
    fn balanced(&self, faults: &mut Faults, z: &Setting) {
        let (slice, at, n, q) = (self.slice, self.at, z.n(), z.ring.q);
        self.fault(faults, 10, "the first byte of w", move |lent| turn(&mut lent[slice], at));
        self.fault(faults, 10, "the last byte of w", move |lent| turn(&mut lent[slice], at + 42 * n - 1));
        self.fault(faults, 11, "two bytes of w exchanged", move |lent| {
            let w = &mut lent[slice][at..at + 42 * n];
            let other = w.iter().position(|byte| *byte != w[0]).unwrap_or(0);
            w.swap(0, other);
        });
        self.fault(faults, 11, "a number of t", move |lent| add(&mut lent[slice], at + 42 * n, 1, q));
    }

    /// 9 and 11 of answers 2 and 3.
    fn permuted(&self, faults: &mut Faults, z: &Setting) {
        let (slice, at, n, q) = (self.slice, self.at, z.n(), z.ring.q);
        for place in [0, 42 * n - 1] {
            self.fault(faults, 9, "an entry of P twice", move |lent| repeat(&mut lent[slice][at..at + 168 * n], place));
            for past in [42 * n as u32, u32::MAX] {
                self.fault(faults, 9, &format!("{past} in P"), move |lent| lent[slice][at + 4 * place..at + 4 * place + 4].copy_from_slice(&past.to_le_bytes()));
            }
        }
        self.fault(faults, 11, "two entries of P exchanged", move |lent| (0..4).for_each(|k| lent[slice].swap(at + k, at + 4 + k)));
        self.fault(faults, 11, "the first number", move |lent| add(&mut lent[slice], at + 168 * n, 1, q));
        self.fault(faults, 11, "the last number", move |lent| add(&mut lent[slice], at + 504 * n - 8, 1, q));
    }

    /// 11 by one of the digests that the answer opens, or would open if an earlier one did not.
    pub fn digest(&self, faults: &mut Faults, z: &Setting, number: usize) {
        let at = 80 * z.n() + 96 * self.repetition + 32 * (number - 1);
        for byte in [at, at + 31] {
            self.fault(faults, 11, &format!("digest {number}"), move |lent| lent["head"][byte] ^= 1);
        }
    }
}

/// The numbers of the digests that an answer opens.
pub fn opens(challenge: u8) -> [usize; 2] {
    [[2, 3], [1, 3], [1, 2]][usize::from(challenge) - 1]
}

/// Entry `place` of P becomes another that is there already.
pub fn repeat(p: &mut [u8], place: usize) {
    let other = if place == 0 { 1 } else { 0 };
    p.copy_within(4 * other..4 * other + 4, 4 * place);
}
