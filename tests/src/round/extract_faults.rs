//! What the extractor refuses, each number at each place: side 0 with its ballots before side 1 with its own, and then the answers.
use super::answer_faults::Answer;
use super::check_faults::{claim, mask, message_ranges, opened_key, opened_pairs, opening_ranges, shifted, split};
use super::faults::Faults;
use super::lent::Lent;
use super::whole::Whole;

/// The steps of the extractor after the ranges. A side has three: its key, its pairs, its ballots.
const SPLIT: u64 = 3;
const SIDE: [u64; 2] = [4, 7];
const ANSWERS: u64 = 10;

pub fn faults(whole: &Whole, lent: &Lent) -> Faults {
    let (z, count, repetition) = (whole.setting(), whole.source.count(), lent.number as usize);
    let mut faults = Faults::default();
    faults.sheets(lent);
    faults.lengths(lent);
    [z.repeats as u64, 1 << 32, u64::MAX].into_iter().for_each(|past| faults.past_number(past));
    message_ranges(&mut faults, z, count);
    split(&mut faults, z, SPLIT);
    shifted(&mut faults, z, SIDE[0]);
    for (side, opening) in ["opening0", "opening1"].into_iter().enumerate() {
        opening_ranges(&mut faults, z, opening);
        opened_key(&mut faults, z, opening, SIDE[side]);
        opened_pairs(&mut faults, z, side, opening, SIDE[side] + 1);
        (0..count).for_each(|j| mask(&mut faults, whole, side, j, SIDE[side] + 2));
    }
    // a claim is the same for both sides, and the first decides
    (0..count).for_each(|j| claim(&mut faults, z, j, SIDE[0] + 2));
    for (challenge, slice) in [(1, "answer1"), (2, "answer2"), (3, "answer3")] {
        let answer = Answer { slice, at: 0, repetition, challenge, step: ANSWERS, turn: usize::from(challenge) };
        answer.all(&mut faults, z);
        // each digest with the first answer that opens it
        let digests: &[usize] = [&[2, 3][..], &[1], &[]][usize::from(challenge) - 1];
        digests.iter().for_each(|number| answer.digest(&mut faults, z, *number));
    }
    faults
}
