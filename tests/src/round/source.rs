//! What a round is written from, by an honest producer or another, and what is written from it (document 01, "One round" and "Layouts").
use super::setting::Setting;
use crate::argument::Drawn;
use crate::polynomials::{signed, Poly};

pub struct Source {
    pub setting: Setting,
    /// the halves of the key, side 0 and side 1
    pub s: [Poly; 2],
    pub e: [Poly; 2],
    /// for each side the three r of s_i and those of e_i, in ternary bytes
    pub hides_s: [Vec<u8>; 2],
    pub hides_e: [Vec<u8>; 2],
    /// the unknowns of the shortness argument, and what is drawn for each repetition
    pub unknowns: Vec<u8>,
    pub drawn: Vec<Drawn>,
    /// E of each side
    pub masks: [Vec<u8>; 2],
    pub ballots: Vec<u8>,
}

impl Source {
    pub fn count(&self) -> usize {
        self.ballots.len() / (4 + 16 * self.setting.n())
    }

    /// b0, b1, the committed pairs of s0, s1, e0, e1, and the digests.
    pub fn head(&self) -> Vec<u8> {
        let z = &self.setting;
        let keys = [0, 1].map(|i| z.key(&self.s[i], &self.e[i]));
        let pairs_s = [0, 1].map(|i| z.pair(&self.hides_s[i], &self.s[i]));
        let pairs_e = [0, 1].map(|i| z.pair(&self.hides_e[i], &self.e[i]));
        let digests = self.drawn.iter().flat_map(|drawn| z.argument(&[]).digests(&self.unknowns, drawn)).collect();
        [z.bytes(&keys), pairs_s.concat(), pairs_e.concat(), digests].concat()
    }

    /// t_i = s_i u + p E_i for each ballot.
    pub fn shares(&self, side: usize) -> Vec<u8> {
        let (z, n) = (&self.setting, self.setting.n());
        let share = |j: usize| {
            let mask = signed(&self.masks[side][8 * n * j..8 * n * (j + 1)]);
            z.ring.sum(&z.ring.times(&self.s[side], &z.ballot(&self.ballots, j).0), &mask, 2)
        };
        z.bytes(&(0..self.count()).map(share).collect::<Vec<_>>())
    }

    /// The votes that the shares give.
    pub fn reconstructed(&self) -> Vec<u8> {
        let (z, shares) = (&self.setting, [self.shares(0), self.shares(1)]);
        let vote = |j: usize| {
            let v = z.ballot(&self.ballots, j).1;
            let less = z.ring.sum(&v, &z.polynomial(&shares[0], j), -1);
            z.ring.vote(z.ring.sum(&less, &z.polynomial(&shares[1], j), -1))
        };
        (0..self.count()).flat_map(vote).collect()
    }

    pub fn opening(&self, side: usize) -> Vec<u8> {
        let halves = self.setting.bytes(&[self.s[side].clone(), self.e[side].clone()]);
        [halves, self.hides_s[side].clone(), self.hides_e[side].clone()].concat()
    }

    pub fn answer(&self, repetition: usize, challenge: u8) -> Vec<u8> {
        self.setting.argument(&[]).answer(challenge, &self.unknowns, &self.drawn[repetition])
    }

    pub fn answers(&self, challenges: &[u8]) -> Vec<u8> {
        challenges.iter().enumerate().flat_map(|(i, challenge)| self.answer(i, *challenge)).collect()
    }
}
