//! Every refusal of every call of a session: alone, and together with a second, of which the earlier in the call's order decides. And that no call has others.
use super::faults::{Case, Fault, Faults, STORED};
use super::image::{PHASE, REFUSED};
use super::steps::{Step, Trial};
use super::walk::{Kind, Walk};
use crate::random::Random;
use crate::round::faults::{refused_sheets, Rank};
use crate::round::material::{Modulus, Plan};
use crate::scratch::SCRATCH;
use crate::tally::{Comparison, Tally};
use std::collections::BTreeSet;

/// Document 01's orders; withdraw's is document 02's, L1.
const ORDERS: [(&str, &[u64]); 10] = [
    ("clear", &[1, 2, 3, 4, 5]),
    ("admit", &[31, 1, 5, 32, 33, 35]),
    ("withdraw", &[31, 1, 33, 35]),
    ("close", &[31, 1, 36]),
    ("claim", &[31, 1, 5]),
    ("commit", &[31, 1]),
    ("draw", &[31, 1]),
    ("check", &[31, 1, 2, 3, 4, 5, 16, 6, 7, 8, 9, 10, 11, 12, 13]),
    ("challenges", &[31, 1]),
    ("turnout", &[31, 1, 3]),
];

/// A case that is taken, with these faults in it: the refusal is the first's, and nothing is written, but that a check after 16 ends the session.
fn refused(trial: &mut Trial, base: &Case, first: &Fault, second: Option<&Fault>) {
    let mut case = base.clone();
    // the later first, so that it cannot undo the earlier
    second.iter().for_each(|fault| (fault.apply)(&mut case));
    (first.apply)(&mut case);
    let mut before = case.host.clone();
    let what = || format!("{}{}", first.name, second.map_or(String::new(), |fault| format!(" before {}", fault.name)));
    trial.refused(&mut case.host, &case.step, first.refusal, what);
    if matches!(case.step, Step::Check { .. }) && first.rank[0] > STORED {
        before.image[PHASE] = REFUSED;
    }
    trial.comparison.same(|| format!("{}: what is kept", what()), case.host == before, true);
}

/// Each fault alone; then for any two ranks a fault of each.
fn all(trial: &mut Trial, random: &mut Random, base: &Case, faults: &Faults) {
    let name = base.step.name();
    let left = trial.step(&mut base.host.clone(), &base.step, || "with nothing wrong".into());
    trial.comparison.same(|| format!("{name} with nothing wrong"), left.number(), 0);
    faults.0.iter().for_each(|fault| refused(trial, base, fault, None));
    let ranks: BTreeSet<Rank> = faults.0.iter().map(|fault| fault.rank).collect();
    let mut any = |rank: &Rank| {
        let same: Vec<&Fault> = faults.0.iter().filter(|fault| fault.rank == *rank).collect();
        same[random.below(same.len() as u64) as usize]
    };
    for later in &ranks {
        for earlier in ranks.iter().filter(|rank| *rank < later) {
            refused(trial, base, any(earlier), Some(any(later)));
        }
    }
}

fn plan(n: usize) -> Plan {
    Plan { n, ballots: 6, drown: 3, rounds: 2, more: 0, modulus: Modulus::Any, extreme: false }
}

/// The calls from clear to draw, on the way through an election.
fn before_draw(trial: &mut Trial, random: &mut Random, n: usize) {
    let mut walk = Walk::gathered(trial, random, plan(n));
    let case = |walk: &Walk, step: Step| Case { host: walk.host.clone(), step };
    all(trial, random, &case(&walk, Step::Clear { sheet: walk.election.sheet.clone() }), &Faults::clear(&walk));
    all(trial, random, &case(&walk, Step::Admit { ballot: walk.election.ballots[3].clone() }), &Faults::admit(&walk));
    // a mark that stands, and one that has no entry
    for mark in [2, 3].map(|ballot| walk.election.mark(ballot)) {
        all(trial, random, &case(&walk, Step::Withdraw { mark }), &Faults::withdraw(&walk));
    }
    all(trial, random, &case(&walk, Step::Close), &Faults::close());
    walk.go(trial, random, Kind::Close);
    let claim = walk.step(random, Kind::Claim);
    all(trial, random, &case(&walk, claim), &Faults::claim());
    walk.go(trial, random, Kind::Claim);
    for round in 0..2 {
        all(trial, random, &case(&walk, walk.commit(round)), &Faults::commit(round));
        walk.go(trial, random, Kind::Commit);
    }
    let draw = walk.step(random, Kind::Draw);
    all(trial, random, &case(&walk, draw), &Faults::draw(2));
}

/// The calls that any phase or the drawn one allows.
fn after_draw(trial: &mut Trial, random: &mut Random, n: usize) {
    let mut walk = Walk::drawn(trial, random, plan(n));
    for round in 0..2 {
        let case = Case { host: walk.host.clone(), step: walk.check(round) };
        all(trial, random, &case, &Faults::check(&walk, round, &case));
        walk.go(trial, random, Kind::Check);
        let step = Step::Challenges { round, out: random.bytes(1 + walk.election.setting.repeats) };
        all(trial, random, &Case { host: walk.host.clone(), step }, &Faults::challenges(2));
        let step = Step::Turnout { enrolled: 1 + random.below(1_000_000) };
        all(trial, random, &Case { host: walk.host.clone(), step }, &Faults::turnout());
    }
}

/// Scratch of any length is zeroed where neither 31 nor 1 refuses the check, which of another length only the sheet can bring about.
fn scratches(tally: &mut Tally, trial: &mut Trial, random: &mut Random) {
    let walk = Walk::drawn(trial, random, plan(4));
    let sheets = [refused_sheets(&walk.election.sheet), vec![(1, "the right sheet", walk.election.sheet.clone())]].concat();
    for length in [0, 1, 4095, 4097, SCRATCH - 1, SCRATCH + 1, 2 * SCRATCH] {
        for (number, name, text) in &sheets {
            let mut step = walk.check(0);
            let Step::Check { lent, .. } = &mut step else { panic!("another call") };
            (lent["sheet"], lent.scratch) = (text.clone(), length);
            trial.number(&mut walk.host.clone(), &step, *number, || format!("{name}, scratch of {length}"));
            let mut ended = walk.host.clone();
            ended.image[PHASE] = REFUSED;
            trial.number(&mut ended, &step, 31, || format!("{name}, scratch of {length}, after the end"));
        }
    }
    trial.claim(tally, "session: scratch of any length is zeroed unless 31 or 1 refuses the check");
}

/// The numbers that each call was brought to in all tests of sessions are those of its order, and 0.
fn table(tally: &mut Tally, trial: &Trial) {
    let mut c = Comparison::default();
    for (name, order) in ORDERS {
        let reached: BTreeSet<u64> = trial.replies.keys().filter(|(call, _)| *call == name).map(|(_, number)| *number).collect();
        let asked: BTreeSet<u64> = order.iter().copied().chain([0]).collect();
        order.iter().chain([&0]).for_each(|number| c.same(|| format!("{name} reached {number}"), reached.contains(number), true));
        c.same(|| format!("the replies of {name}"), reached, asked);
    }
    c.claim(tally, "session: every number of every call's order was reached, and no other");
}

/// "Refusal 34 no longer occurs", whatever was lent to whichever call.
fn no_34(tally: &mut Tally, trial: &Trial) {
    let mut c = Comparison::default();
    for ((name, number), count) in &trial.replies {
        c.same(|| format!("{name} gave it {count} times"), *number == 34, false);
    }
    let replies: usize = trial.replies.values().sum();
    c.claim(tally, &format!("session: of {replies} replies none has the number 34"));
}

pub fn run(tally: &mut Tally, trial: &mut Trial, random: &mut Random) {
    for n in [4, 8, 16] {
        before_draw(trial, random, n);
    }
    trial.claim(tally, "session: what the steps up to draw refuse, each number, and of two faults the earlier");
    for n in [4, 8, 16, 4] {
        after_draw(trial, random, n);
    }
    trial.claim(tally, "session: what check, challenges and turnout refuse, each number at each place, and of two faults the earlier");
    scratches(tally, trial, random);
    table(tally, trial);
    no_34(tally, trial);
}

pub fn small(tally: &mut Tally, trial: &mut Trial, random: &mut Random) {
    before_draw(trial, random, 4);
    after_draw(trial, random, 4);
    trial.claim(tally, "session: what the calls refuse, N of 4 alone");
    no_34(tally, trial);
}
