//! Registers that early withdrawals fill, or all but a few entries of them.
use super::early::{crowd, crowd_mark, entered, struck};
use super::election::small;
use super::image::{Session, ENTRIES};
use super::steps::{Host, Step, Trial};
use super::walk::{Kind, Walk};
use crate::random::Random;
use crate::round::lent::Refusal;
use crate::tally::Tally;

/// What is left where 4,096 marks are withdrawn and none of their ballots came.
fn none_stands(trial: &mut Trial, walk: &Walk, host: &mut Host) {
    let what = || "4,096 early withdrawals".to_string();
    for mark in [0, 1, u32::MAX] {
        trial.kept(host, &Step::Withdraw { mark }, 35, what);
        trial.kept(host, &walk.marked(3, mark), 35, what);
    }
    for mark in [0, 1, 2047, 4094, 4095].map(crowd_mark) {
        trial.kept(host, &Step::Withdraw { mark }, 33, what);
        trial.kept(host, &walk.marked(3, mark), 33, what);
    }
    trial.kept(host, &Step::Close, 36, what);
    trial.refused(host, &Step::Turnout { enrolled: 1 }, Refusal { number: 0, place: 0 }, what);
}

/// Each of 4,096 early withdrawals is taken and the next refused 35. They leave what the crowds of the other tests are written as.
fn early_only(tally: &mut Tally, trial: &mut Trial, random: &mut Random) {
    let plan = small(random, 4);
    let mut walk = Walk::cleared(trial, random, plan);
    let (mut host, mut crowded) = (walk.host.clone(), walk.host.clone());
    for entry in 0..ENTRIES {
        trial.taken(&mut host, &Step::Withdraw { mark: crowd_mark(entry) }, || format!("early withdrawal {entry}"));
        let used = Session::read(&host.image).map(|session| session.used);
        trial.comparison.same(|| "entries used".into(), used, Some(entry + 1));
    }
    crowd(&mut crowded, ENTRIES);
    trial.comparison.same(|| "4,096 entries as they are written by hand".into(), host.differs(&crowded), (None, None));
    none_stands(trial, &walk, &mut host);
    walk.host = host;
    walk.go(trial, random, Kind::Clear);
    let step = walk.marked(3, crowd_mark(0));
    trial.taken(&mut walk.host, &step, || "after clear".into());
    trial.claim(tally, "session: 4,096 early withdrawals are taken, the next is refused 35, and close 36");
}

/// A register with one entry free and these ballots standing, at places of a crowd. The mark of ballot j is that of the election.
fn one_free(trial: &mut Trial, walk: &Walk, places: [(usize, u64); 3]) -> Host {
    let mut host = walk.host.clone();
    for (ballot, place) in places {
        crowd(&mut host, place);
        trial.taken(&mut host, &Step::Admit { ballot: walk.election.ballots[ballot].clone() }, || format!("ballot {ballot} at {place}"));
    }
    crowd(&mut host, ENTRIES - 1);
    host
}

/// The last entry goes to an early withdrawal, and from then on one with no entry is refused 35.
fn last_entry(trial: &mut Trial, walk: &Walk, places: [(usize, u64); 3]) {
    let what = || format!("4,095 entries used, ballots at {places:?}");
    let mut host = one_free(trial, walk, places);
    let (last, another) = (walk.election.mark(3), walk.election.mark(4));
    let after = entered(&host, last);
    trial.withdrawn(&mut host, last, &after, what);
    trial.kept(&mut host, &Step::Withdraw { mark: another }, 35, what);
    trial.kept(&mut host, &walk.marked(4, another), 35, what);
    trial.kept(&mut host, &walk.marked(3, last), 33, what);
    for (ballot, place) in places {
        let mark = walk.election.mark(ballot);
        let after = struck(&host, place as usize);
        trial.withdrawn(&mut host, mark, &after, what);
        trial.kept(&mut host, &Step::Withdraw { mark }, 33, what);
        trial.kept(&mut host, &Step::Withdraw { mark: another }, 35, what);
    }
    trial.kept(&mut host, &Step::Close, 36, what);
}

/// The same where the last entry goes to a ballot, which then stands in it.
fn last_ballot(trial: &mut Trial, walk: &Walk, places: [(usize, u64); 3]) {
    let what = || format!("4,096 entries used, ballots at {places:?} and in the last");
    let mut host = one_free(trial, walk, places);
    let mark = walk.election.mark(3);
    trial.taken(&mut host, &walk.marked(3, mark), what);
    trial.kept(&mut host, &Step::Withdraw { mark: walk.election.mark(4) }, 35, what);
    let after = struck(&host, 4095);
    trial.withdrawn(&mut host, mark, &after, what);
    trial.kept(&mut host, &Step::Withdraw { mark }, 33, what);
    trial.taken(&mut host, &Step::Close, what);
    let closed = Session::read(&host.image).map(|session| session.closed);
    trial.comparison.same(|| "ballots closed".into(), closed, Some(3));
}

fn last(tally: &mut Tally, trial: &mut Trial, random: &mut Random) {
    let plan = small(random, 4);
    let walk = Walk::cleared(trial, random, plan);
    for places in [[(0, 0), (1, 1), (2, 2)], [(0, 0), (1, 2048), (2, 4094)], [(2, 4092), (1, 4093), (0, 4094)]] {
        last_entry(trial, &walk, places);
        last_ballot(trial, &walk, places);
    }
    trial.claim(tally, "session: the last entry goes to an early withdrawal, the next is refused 35, standing marks are still withdrawn");
}

pub fn run(tally: &mut Tally, trial: &mut Trial, random: &mut Random) {
    early_only(tally, trial, random);
    last(tally, trial, random);
}
