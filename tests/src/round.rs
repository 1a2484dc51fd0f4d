//! One round over the C interface, against an independent producer, checker and extractor.
mod answer_faults;
pub mod calls;
pub mod check_faults;
pub mod checker;
mod damage;
mod extract_faults;
mod extractor;
pub mod faults;
mod forged;
pub mod lent;
pub mod material;
pub mod opened;
mod producer;
mod producer_faults;
mod refusals;
mod rounds;
pub mod setting;
pub mod source;
pub mod whole;

use crate::random::Random;
use crate::tally::Tally;

pub fn run(tally: &mut Tally) {
    let mut random = Random(6);
    opened::run(tally, &mut random);
    rounds::run(tally, &mut random);
    refusals::run(tally, &mut random);
    forged::run(tally, &mut random);
    damage::run(tally, &mut random);
}

/// Rounds and refusals on the smallest ring.
pub fn small(tally: &mut Tally) {
    let mut random = Random(6);
    rounds::small(tally, &mut random);
    refusals::small(tally, &mut random);
}
