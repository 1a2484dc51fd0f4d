//! The calls of a session over the C interface, against an independent session.
mod arrivals;
mod crowded;
mod damaged;
mod early;
mod election;
mod faults;
mod full;
mod history;
mod hostile;
pub mod image;
mod images;
mod library;
mod lists;
pub mod model;
mod refusals;
pub mod steps;
mod walk;
mod whole;

use crate::random::Random;
use crate::scratch::SCRATCH;
use crate::tally::{Comparison, Tally};
use image::{IMAGE, REGISTER};
use steps::Trial;

fn lengths(tally: &mut Tally) {
    let mut c = Comparison::default();
    c.same(|| "image, scratch and register".into(), library::lengths(), [IMAGE, SCRATCH, REGISTER].map(|length| length as u64));
    c.claim(tally, "session: the lengths of image, scratch and register");
}

pub fn run(tally: &mut Tally) {
    let mut random = Random(31);
    let mut trial = Trial::default();
    lengths(tally);
    whole::run(tally, &mut trial, &mut random);
    damaged::run(tally, &mut trial, &mut random);
    full::run(tally, &mut trial, &mut random);
    early::run(tally, &mut trial, &mut random);
    crowded::run(tally, &mut trial, &mut random);
    lists::run(tally, &mut trial, &mut random);
    images::run(tally, &mut trial, &mut random);
    refusals::run(tally, &mut trial, &mut random);
}

/// Elections, early withdrawals and refusals on the smallest ring.
pub fn small(tally: &mut Tally) {
    let mut random = Random(31);
    let mut trial = Trial::default();
    lengths(tally);
    whole::small(tally, &mut trial, &mut random);
    early::small(tally, &mut trial, &mut random);
    refusals::small(tally, &mut trial, &mut random);
}
