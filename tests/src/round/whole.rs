//! A whole round: from what it is written from, what the producer's second call, a check and the extractor are lent.
use super::calls::{CHECK, EXTRACT, SECOND};
use super::lent::Lent;
use super::producer;
use super::setting::Setting;
use super::source::Source;
use crate::random::Random;
use crate::scratch::SCRATCH;

pub struct Whole {
    pub source: Source,
    text: Vec<u8>,
    pub head: Vec<u8>,
    pub shares: [Vec<u8>; 2],
    pub claims: Vec<u8>,
}

impl Whole {
    /// A round whose claims are what its shares give, whoever writes it.
    pub fn new(source: Source, text: Vec<u8>) -> Whole {
        Whole { head: source.head(), shares: [source.shares(0), source.shares(1)], claims: source.reconstructed(), source, text }
    }

    /// The round of an honest producer, from what its first call is lent.
    pub fn honest(lent: &Lent) -> Whole {
        let producer = producer::tested(lent, true, |_, _, _| Vec::new());
        Whole::new(producer.unwrap_or_else(|refusal| panic!("the material is refused {refusal:?}")).source, lent["sheet"].clone())
    }

    pub fn setting(&self) -> &Setting {
        &self.source.setting
    }

    /// One challenge for each repetition.
    pub fn challenges(&self, random: &mut Random) -> Vec<u8> {
        (0..self.setting().repeats).map(|_| 1 + random.below(3) as u8).collect()
    }

    pub fn check(&self, side: usize, challenges: &[u8]) -> Lent {
        let slices = vec![
            self.text.clone(),
            challenges.to_vec(),
            self.source.ballots.clone(),
            self.claims.clone(),
            self.head.clone(),
            self.shares[0].clone(),
            self.shares[1].clone(),
            self.source.opening(side),
            self.source.answers(challenges),
        ];
        Lent { call: &CHECK, slices, number: side as u64, outputs: Vec::new(), scratch: SCRATCH }
    }

    pub fn extract(&self, random: &mut Random, repetition: usize) -> Lent {
        let slices = vec![
            self.text.clone(),
            self.head.clone(),
            self.shares[0].clone(),
            self.shares[1].clone(),
            self.source.ballots.clone(),
            self.claims.clone(),
            self.source.opening(0),
            self.source.opening(1),
            self.source.answer(repetition, 1),
            self.source.answer(repetition, 2),
            self.source.answer(repetition, 3),
        ];
        Lent { call: &EXTRACT, slices, number: repetition as u64, outputs: vec![random.bytes(24 * self.setting().n())], scratch: SCRATCH }
    }
}

/// What the second call is lent beside the material of the first.
pub fn second(random: &mut Random, first: &Lent, whole: &Whole, side: usize, challenges: &[u8]) -> Lent {
    let z = whole.setting();
    let slices = [first.slices.clone(), vec![challenges.to_vec()]].concat();
    let outputs = vec![random.bytes(22 * z.n()), random.bytes(z.answers_length(challenges))];
    Lent { call: &SECOND, slices, number: side as u64, outputs, scratch: SCRATCH }
}
