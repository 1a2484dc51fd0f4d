//! The check of a round, from document 01: the sheet's order, 1, 5, 6, 7, 8; by repetition 9, 10, 11; by ballot 12, 13. Side and challenges are lent.
use super::lent::{unless, Lent, Outcome, Refusal};
use super::setting::{sized, Setting};
use crate::argument::Argument;
use crate::stern::answer_length;

pub fn check(lent: &Lent) -> Outcome {
    let z = Setting::read(&lent["sheet"])?;
    let count = z.count(&lent["ballots"])?;
    sized(lent, &z.message_lengths(count))?;
    sized(lent, &[("challenges", z.repeats), ("opening", 22 * z.n()), ("answers", z.answers_length(&lent["challenges"]))])?;
    unless(ranged(&z, lent), 5, 0)?;
    unless(adds_up(&z, lent), 6, 0)?;
    test_half(&z, lent, lent.number as usize, &lent["opening"])?;
    let argument = z.argument(&lent["head"][16 * z.n()..80 * z.n()]);
    for (i, (challenge, answer)) in answers(&z, lent).into_iter().enumerate() {
        test_answer(&argument, lent, i, challenge, answer)?;
    }
    (0..count).try_for_each(|j| test_ballot(&z, lent, lent.number as usize, &lent["opening"], j))?;
    Ok((0, Vec::new()))
}

/// Each challenge with its answer, which stand end to end.
fn answers<'a>(z: &Setting, lent: &'a Lent) -> Vec<(u8, &'a [u8])> {
    let mut rest = &lent["answers"][..];
    let mut each = Vec::new();
    for challenge in &lent["challenges"] {
        let (answer, after) = rest.split_at(answer_length(z.n(), *challenge));
        each.push((*challenge, answer));
        rest = after;
    }
    each
}

fn ranged(z: &Setting, lent: &Lent) -> bool {
    let argument = z.argument(&[]);
    lent.number < 2
        && lent["challenges"].iter().all(|challenge| (1..=3).contains(challenge))
        && z.message_ranged(lent)
        && z.opening_ranged(&lent["opening"])
        && answers(z, lent).into_iter().all(|(challenge, answer)| argument.ranged(challenge, answer))
}

/// 6: b0 + b1 is b.
pub fn adds_up(z: &Setting, lent: &Lent) -> bool {
    let half = |side: usize| z.polynomial(&lent["head"], side);
    z.ring.reduce(z.ring.sum(&half(0), &half(1), 1)) == z.b
}

/// 7 and 8: the opened b_i, and the opened commitments to s_i and e_i.
pub fn test_half(z: &Setting, lent: &Lent, side: usize, opening: &[u8]) -> Result<(), Refusal> {
    let (n, head) = (z.n(), &lent["head"]);
    let (s, e) = (z.polynomial(opening, 0), z.polynomial(opening, 1));
    unless(z.polynomial(head, side) == z.key(&s, &e), 7, 0)?;
    let pair = |place: usize| &head[16 * n * (1 + place)..16 * n * (2 + place)];
    let opens_s = z.pair(&opening[16 * n..19 * n], &s) == pair(side);
    let opens_e = z.pair(&opening[19 * n..], &e) == pair(2 + side);
    unless(opens_s && opens_e, 8, 0)
}

/// 9, 10, 11 of an answer to one repetition.
pub fn test_answer(argument: &Argument, lent: &Lent, repetition: usize, challenge: u8, answer: &[u8]) -> Result<(), Refusal> {
    let at = 80 * argument.ring.n + 96 * repetition;
    let reply = argument.test(&lent["head"][at..at + 96], challenge, answer, repetition as u32);
    unless(reply == 0, reply % 256, (reply / 256) as usize)
}

/// 12 and 13 of ballot j: the mask worked out from the opened side's share, and the claim.
pub fn test_ballot(z: &Setting, lent: &Lent, side: usize, opening: &[u8], j: usize) -> Result<(), Refusal> {
    let (u, v) = z.ballot(&lent["ballots"], j);
    let shares = ["shares0", "shares1"].map(|name| z.polynomial(&lent[name], j));
    let doubled = z.ring.sum(&shares[side], &z.ring.times(&z.polynomial(opening, 0), &u), -1);
    // 1 / 2 is (q + 1) / 2
    let mask = z.ring.reduce(doubled).into_iter().map(|x| x * ((z.ring.q + 1) / 2)).collect();
    unless(z.within(&z.ring.centred(mask), z.bound), 12, j)?;
    let vote = z.ring.vote(z.ring.sum(&z.ring.sum(&v, &shares[0], -1), &shares[1], -1));
    unless(lent["claims"][z.n() * j..z.n() * (j + 1)] == vote, 13, j)
}
