//! Withdrawals that arrive before their ballot (document 02, L1): the entry that they make, byte by byte, what becomes of the ballot, and
//! the batch in every order of arrival. What they are to leave is written here by hand.
use super::election::{distinct_mark, small as small_plan};
use super::history::History;
use super::image::{Session, PHASE, USED};
use super::steps::{Host, Step, Trial};
use super::walk::Walk;
use crate::random::Random;
use crate::round::faults::{number, put};
use crate::round::lent::Refusal;
use crate::tally::Tally;

// ---- what withdrawals leave, by hand

/// A mark with no entry: one after those used has it, with state 2 and zeros, and one more is used.
pub fn entered(host: &Host, mark: u32) -> Host {
    let mut after = host.clone();
    enter(&mut after, mark);
    after
}

fn enter(host: &mut Host, mark: u32) {
    let used = number(&host.image, USED);
    let entry = &mut host.register[40 * used as usize..][..40];
    entry.fill(0);
    entry[..4].copy_from_slice(&mark.to_le_bytes());
    entry[4] = 2;
    put(&mut host.image, USED, used + 1);
}

/// A mark that stands: state 2 in its entry.
pub fn struck(host: &Host, entry: usize) -> Host {
    let mut after = host.clone();
    after.register[40 * entry + 4] = 2;
    after
}

/// The mark that a crowd gives the entry.
pub fn crowd_mark(entry: u64) -> u32 {
    distinct_mark(1 + entry as usize)
}

/// Early withdrawals of other marks, until so many entries are used. Says which marks.
pub fn crowd(host: &mut Host, entries: u64) -> Vec<u32> {
    let marks: Vec<u32> = (number(&host.image, USED)..entries).map(crowd_mark).collect();
    marks.iter().for_each(|mark| enter(host, *mark));
    marks
}

// ---- the entry

/// The ends of the range, and marks whose four bytes differ.
const MARKS: [u32; 8] = [0, 1, 255, 256, 0x0403_0201, 0x8000_0000, u32::MAX - 1, u32::MAX];

/// An early withdrawal after what is used, over whatever stands there; then its ballot, and the withdrawal again.
fn one_entry(trial: &mut Trial, walk: &Walk, host: &Host, mark: u32, what: &str) {
    let (mut host, what) = (host.clone(), || format!("mark {mark}, {what}"));
    let after = entered(&host, mark);
    trial.withdrawn(&mut host, mark, &after, what);
    trial.kept(&mut host, &walk.marked(3, mark), 33, what);
    trial.kept(&mut host, &Step::Withdraw { mark }, 33, what);
    trial.refused(&mut host, &Step::Turnout { enrolled: 1 }, Refusal { number: 0, place: 0 }, what);
    trial.kept(&mut host, &Step::Close, 36, what);
}

fn entries(tally: &mut Tally, trial: &mut Trial, random: &mut Random, used: &[u64]) {
    let plan = small_plan(random, 4);
    let walk = Walk::cleared(trial, random, plan);
    for used in used.iter().copied() {
        for fill in [0, 1, 2, 0xA5, 0xFF] {
            let mut host = walk.host.clone();
            crowd(&mut host, used);
            host.register[40 * used as usize..].fill(fill);
            for mark in MARKS {
                one_entry(trial, &walk, &host, mark, &format!("{used} entries used, then bytes {fill}"));
            }
        }
    }
    trial.claim(tally, "session: an early withdrawal writes the next entry whole, whatever stood there, and the count, and no other byte");
}

/// A standing mark keeps its digest and whatever the host wrote beside it.
fn state_byte(tally: &mut Tally, trial: &mut Trial, random: &mut Random) {
    for n in [4, 8, 16] {
        let plan = small_plan(random, n);
        let walk = Walk::gathered(trial, random, plan);
        for (entry, fill) in [(0, 0), (0, 0xA5), (2, 1), (2, 0xFF)] {
            let what = || format!("entry {entry}, bytes {fill} beside it");
            let (mark, mut host) = (walk.election.mark(entry), walk.host.clone());
            host.register[40 * entry + 5..40 * entry + 8].fill(fill);
            host.register[160..].fill(fill);
            let after = struck(&host, entry);
            trial.withdrawn(&mut host, mark, &after, what);
            trial.kept(&mut host, &Step::Withdraw { mark }, 33, what);
            trial.kept(&mut host, &walk.marked(3, mark), 33, what);
        }
    }
    trial.claim(tally, "session: the withdrawal of a standing mark writes its state byte and no other byte, and uses no entry");
}

// ---- the ballot that comes late

/// Each thing that is put wrong comes before all that is wrong already: 33 though no entry is free, 5, 1, 31, and the image's length.
fn late(trial: &mut Trial, walk: &Walk, mark: u32) {
    let q = walk.election.setting.q();
    let what = || format!("the late ballot of mark {mark}");
    let (mut host, mut step) = (walk.host.clone(), walk.marked(3, mark));
    trial.kept(&mut host, &step, 33, what);
    put(&mut host.image, USED, 4096);
    trial.kept(&mut host, &step, 33, what);
    put(step.slices().swap_remove(0), 4, q);
    trial.kept(&mut host, &step, 5, what);
    step.slices().swap_remove(0).push(0);
    trial.kept(&mut host, &step, 1, what);
    for phase in 1..=6 {
        host.image[PHASE] = phase;
        trial.kept(&mut host, &step, 31, what);
    }
    host.image.push(0);
    trial.kept(&mut host, &step, 1, what);
}

/// Also in a register of another length.
fn late_ballots(tally: &mut Tally, trial: &mut Trial, random: &mut Random) {
    for n in [4, 8, 16] {
        let plan = small_plan(random, n);
        let walk = Walk::gathered(trial, random, plan);
        // withdrawn after its ballot came, and before
        for mark in [1, 4].map(|ballot| walk.election.mark(ballot)) {
            late(trial, &walk, mark);
            let mut host = walk.host.clone();
            host.register.pop();
            trial.kept(&mut host, &walk.marked(3, mark), 1, || "a register a byte shorter".into());
        }
    }
    trial.claim(tally, "session: a late ballot is refused by 31, 1 and 5 before 33, and by 33 before 35");
}

// ---- turnout

/// Ballots admitted, marks withdrawn early, the enrolled, and the thousandths as worked out by hand.
const TURNOUTS: [(usize, u64, u64, u64); 8] = [
    (0, 1, 1, 0),
    (0, 4096, 1, 0),
    (1, 1, 2, 500),
    (1, 15, 16, 63),
    (3, 13, 16, 188),
    (5, 4091, 16, 313),
    (2, 2, 3, 667),
    (2, 4094, 4096, 0),
];

/// Ballots and early withdrawals by turns, then the other withdrawals: their entries do not stand.
fn turnout(tally: &mut Tally, trial: &mut Trial, random: &mut Random) {
    let plan = small_plan(random, 4);
    let walk = Walk::cleared(trial, random, plan);
    for (ballots, early, enrolled, thousandths) in TURNOUTS {
        let mut host = walk.host.clone();
        for ballot in 0..ballots {
            trial.taken(&mut host, &Step::Withdraw { mark: crowd_mark(9000 + ballot as u64) }, || "between the ballots".into());
            trial.taken(&mut host, &Step::Admit { ballot: walk.election.ballots[ballot].clone() }, || format!("ballot {ballot}"));
        }
        crowd(&mut host, ballots as u64 + early);
        let value = Refusal { number: 0, place: thousandths };
        trial.refused(&mut host, &Step::Turnout { enrolled }, value, || format!("{ballots} of {enrolled}, and {early} withdrawn early"));
    }
    trial.claim(tally, "session: turnout counts the standing entries and none that an early withdrawal made");
}

// ---- every order of arrival

/// The things that come, in the k-th of their orders.
fn order<T: Clone>(things: &[T], mut k: usize) -> Vec<T> {
    let mut left = things.to_vec();
    let one = |count: usize| {
        let next = left.remove(k % count);
        k /= count;
        next
    };
    (1..=things.len()).rev().map(one).collect()
}

/// Four ballots and the withdrawals of two of them: whichever comes first, the other two are closed, in their order.
fn either_order(tally: &mut Tally, trial: &mut Trial, random: &mut Random) {
    let plan = small_plan(random, 4);
    let walk = Walk::cleared(trial, random, plan);
    let admit = |ballot: usize| Step::Admit { ballot: walk.election.ballots[ballot].clone() };
    let withdraw = |ballot: usize| Step::Withdraw { mark: walk.election.mark(ballot) };
    let came = [admit(0), withdraw(0), admit(1), withdraw(1), admit(2), admit(3)];
    for k in 0..720 {
        let (mut host, mut history) = (walk.host.clone(), History::new(&walk.election.sheet));
        for step in order(&came, k).iter().chain([&Step::Close]) {
            let left = trial.step(&mut host, step, || format!("order {k}"));
            history.follow(trial, step, &left, || format!("order {k}"));
        }
        let closed = Session::read(&host.image).map(|session| (session.closed, session.used));
        trial.comparison.same(|| format!("ballots closed and entries used, order {k}"), closed, Some((2, 4)));
    }
    trial.claim(tally, "session: a mark whose withdrawal was taken is out of the batch, in every order of arrival");
}

pub fn run(tally: &mut Tally, trial: &mut Trial, random: &mut Random) {
    entries(tally, trial, random, &[0, 1, 4, 100, 4095]);
    state_byte(tally, trial, random);
    late_ballots(tally, trial, random);
    turnout(tally, trial, random);
    either_order(tally, trial, random);
}

/// The first entry and the last.
pub fn small(tally: &mut Tally, trial: &mut Trial, random: &mut Random) {
    entries(tally, trial, random, &[0, 4095]);
}
