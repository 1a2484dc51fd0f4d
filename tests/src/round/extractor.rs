//! The extractor, from document 01: the sheet's order, 1, 5, 6; for side 0 and then side 1 7, 8 and by ballot 12, 13; by answer 9, 10, 11; then what it finds.
use super::checker::{adds_up, test_answer, test_ballot, test_half};
use super::lent::{unless, Lent, Outcome, Refusal};
use super::setting::{sized, Setting};
use crate::argument::Argument;
use crate::polynomials::Poly;
use crate::stern::answer_length;

const OPENINGS: [&str; 2] = ["opening0", "opening1"];
const ANSWERS: [(u8, &str); 3] = [(1, "answer1"), (2, "answer2"), (3, "answer3")];

pub fn extract(lent: &Lent) -> Outcome {
    let z = Setting::read(&lent["sheet"])?;
    let count = z.count(&lent["ballots"])?;
    sized(lent, &z.message_lengths(count))?;
    sized(lent, &OPENINGS.map(|name| (name, 22 * z.n())))?;
    sized(lent, &ANSWERS.map(|(challenge, name)| (name, answer_length(z.n(), challenge))))?;
    sized(lent, &[("out", 24 * z.n())])?;
    let argument = z.argument(&lent["head"][16 * z.n()..80 * z.n()]);
    unless(ranged(&z, &argument, lent), 5, 0)?;
    accepted(&z, &argument, lent, count)?;
    let (kind, output) = found(&z, &argument, lent);
    Ok((kind, vec![output]))
}

fn ranged(z: &Setting, argument: &Argument, lent: &Lent) -> bool {
    lent.number < z.repeats as u64
        && z.message_ranged(lent)
        && OPENINGS.iter().all(|name| z.opening_ranged(&lent[name]))
        && ANSWERS.iter().all(|(challenge, name)| argument.ranged(*challenge, &lent[name]))
}

/// The tests of a check, over both openings and all three answers.
fn accepted(z: &Setting, argument: &Argument, lent: &Lent, count: usize) -> Result<(), Refusal> {
    unless(adds_up(z, lent), 6, 0)?;
    for (side, name) in OPENINGS.iter().enumerate() {
        test_half(z, lent, side, &lent[name])?;
        (0..count).try_for_each(|j| test_ballot(z, lent, side, &lent[name], j))?;
    }
    ANSWERS.iter().try_for_each(|(challenge, name)| test_answer(argument, lent, lent.number as usize, *challenge, &lent[name]))
}

/// The kind and the 24N bytes: the lowest digest with two strings, a vector for s before one for e, or the key.
fn found(z: &Setting, argument: &Argument, lent: &Lent) -> (u64, Vec<u8>) {
    let n = z.n();
    let strings: Vec<(usize, Vec<u8>)> = ANSWERS.iter().flat_map(|(challenge, name)| argument.strings(*challenge, &lent[name])).collect();
    for digest in 1..=3 {
        let both: Vec<&Vec<u8>> = strings.iter().filter(|(number, _)| *number == digest).map(|(_, string)| string).collect();
        if both[0] != both[1] {
            return (digest as u64, vec![0; 24 * n]);
        }
    }
    let unknowns = unknowns(z, lent);
    for (kind, opened, extracted) in [(4, 16, 2), (5, 19, 8)] {
        let vector = z.bytes(&less(z, lent, &unknowns, opened, extracted));
        if vector.iter().any(|byte| *byte != 0) {
            return (kind, vector);
        }
    }
    let key = unknowns[..2].iter().flatten().map(|x| x.rem_euclid(3) as u8);
    (6, key.chain(vec![0; 22 * n]).collect())
}

/// What answers 2 and 3 differ by: the extended unknowns, of which the first fourteen polynomials count.
fn unknowns(z: &Setting, lent: &Lent) -> Vec<Poly> {
    let vector = |name: &str| &lent[name][168 * z.n()..280 * z.n()];
    (0..14).map(|i| z.ring.centred(z.ring.sum(&z.polynomial(vector("answer2"), i), &z.polynomial(vector("answer3"), i), -1))).collect()
}

/// The openings' summed r, which start at `opened` times N in each, less the extracted ones, which start at number `extracted`.
fn less(z: &Setting, lent: &Lent, unknowns: &[Poly], opened: usize, extracted: usize) -> Vec<Poly> {
    let n = z.n();
    let [r0, r1] = OPENINGS.map(|name| z.three(&lent[name][opened * n..(opened + 3) * n]));
    (0..3)
        .map(|i| {
            let summed = z.ring.sum(&r0[i], &r1[i], 1);
            z.ring.sum(&z.ring.sum(&summed, &unknowns[extracted + i], -1), &unknowns[extracted + 3 + i], -1)
        })
        .collect()
}
