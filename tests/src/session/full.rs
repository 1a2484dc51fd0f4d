//! The register: as many entries as it has, withdrawn marks, several entries with one mark, and turnout at its boundaries.
use super::early::{crowd, struck};
use super::election::{distinct_mark, small};
use super::image::{Session, ACCEPTED, ENTRIES, PHASE, USED};
use super::steps::{Host, Step, Trial};
use super::walk::{Kind, Walk};
use crate::random::Random;
use crate::round::faults::put;
use crate::round::lent::Refusal;
use crate::round::material::{Modulus, Plan};
use crate::tally::Tally;

fn state(host: &mut Host, entry: usize, byte: u8) {
    host.register[40 * entry + 4] = byte;
}

/// An election whose 4,096 ballots are admitted.
fn filled(trial: &mut Trial, random: &mut Random) -> Walk {
    let plan = Plan { n: 4, ballots: 4096, drown: 3, rounds: 1, more: 2, modulus: Modulus::Least, extreme: false };
    let mut walk = Walk::cleared(trial, random, plan);
    for ballot in 0..4096 {
        walk.election.ballots[ballot][..4].copy_from_slice(&distinct_mark(ballot).to_le_bytes());
        let step = Step::Admit { ballot: walk.election.ballots[ballot].clone() };
        trial.taken(&mut walk.host, &step, || format!("ballot {ballot}"));
    }
    walk
}

/// 4,096 ballots are admitted and no more; a mark that is there is refused for that first.
fn full(tally: &mut Tally, trial: &mut Trial, random: &mut Random) {
    let mut walk = filled(trial, random);
    let mut host = walk.host.clone();
    let (standing, withdrawn) = (walk.election.mark(4095), walk.election.mark(17));
    trial.taken(&mut host, &Step::Withdraw { mark: withdrawn }, || "of 4,096".into());
    for (number, mark) in [(35, 1), (35, u32::MAX), (32, standing), (33, withdrawn), (32, 0)] {
        trial.number(&mut host, &walk.marked(0, mark), number, || format!("mark {mark} in a full register"));
    }
    let turnout = Refusal { number: 0, place: 4_095_000 };
    trial.refused(&mut host, &Step::Turnout { enrolled: 1 }, turnout, || "4,095 of 1".into());
    trial.claim(tally, "session: 4,096 entries are admitted, the next is refused 35, and a mark that is there 32 or 33 before that");
    withdrawn_in_full(tally, trial, &walk);
    counted(tally, trial, random, &mut walk);
}

/// Each mark that stands is still withdrawn, wherever it is; only one with no entry finds none free.
fn withdrawn_in_full(tally: &mut Tally, trial: &mut Trial, walk: &Walk) {
    let mut host = walk.host.clone();
    for entry in [4095, 0, 1, 17, 2047, 2048, 4094] {
        let what = || format!("entry {entry} of a full register");
        let withdraw = Step::Withdraw { mark: walk.election.mark(entry) };
        trial.kept(&mut host, &Step::Withdraw { mark: u32::MAX }, 35, what);
        let after = struck(&host, entry);
        trial.withdrawn(&mut host, walk.election.mark(entry), &after, what);
        trial.kept(&mut host, &withdraw, 33, what);
        trial.kept(&mut host, &walk.marked(1, walk.election.mark(entry)), 33, what);
    }
    trial.refused(&mut host, &Step::Turnout { enrolled: 1 }, Refusal { number: 0, place: 4_089_000 }, || "4,089 of 1".into());
    trial.claim(tally, "session: in a full register a standing mark is withdrawn, a withdrawn one refused 33, and one with no entry 35");
}

fn counted(tally: &mut Tally, trial: &mut Trial, random: &mut Random, walk: &mut Walk) {
    for kind in [Kind::Close, Kind::Claim, Kind::Commit, Kind::Draw, Kind::Challenges, Kind::Check, Kind::Turnout] {
        walk.go(trial, random, kind);
    }
    let session = walk.session();
    trial.comparison.same(|| "ballots closed, and the phase".into(), (session.closed, session.phase), (ENTRIES, ACCEPTED));
    trial.claim(tally, "session: 4,096 ballots are closed, claimed and checked");
}

/// Whatever the register holds past the entries used, it is as if it were not there.
fn past_used(tally: &mut Tally, trial: &mut Trial, random: &mut Random) {
    let plan = small(random, 4);
    let walk = Walk::gathered(trial, random, plan);
    for (used, standing) in [(0, 0), (1, 1), (2, 1), (3, 2), (4, 2), (100, 2), (4095, 2)] {
        for fill in [1, 7, 128] {
            let what = || format!("{used} entries used, then bytes {fill}");
            let mut host = walk.host.clone();
            put(&mut host.image, USED, used as u64);
            host.register[40 * used..].fill(fill);
            let mark = u32::from_le_bytes([fill; 4]);
            trial.refused(&mut host, &Step::Turnout { enrolled: 1 }, Refusal { number: 0, place: 1000 * standing }, what);
            trial.number(&mut host.clone(), &Step::Close, if standing == 0 { 36 } else { 0 }, what);
            let mut early = host.clone();
            trial.taken(&mut early, &Step::Withdraw { mark }, what);
            trial.kept(&mut early, &walk.marked(3, mark), 33, what);
            trial.taken(&mut host, &walk.marked(3, mark), what);
            trial.number(&mut host, &walk.marked(4, mark), 32, what);
        }
    }
    trial.claim(tally, "session: entries past those used are not looked at, and the next is written whole");
}

/// In a new register a mark has no entry, and gets one by its ballot or by its withdrawal.
fn new_mark(trial: &mut Trial, walk: &Walk, mark: u32) {
    let (admit, withdraw) = (walk.marked(0, mark), Step::Withdraw { mark });
    let ballot_first = [(36, &Step::Close), (0, &admit), (32, &admit), (0, &withdraw)];
    let withdrawal_first = [(36, &Step::Close), (0, &withdraw)];
    let then = [(33, &admit), (33, &withdraw), (36, &Step::Close)];
    for steps in [[&ballot_first[..], &then].concat(), [&withdrawal_first[..], &then].concat()] {
        let mut host = walk.host.clone();
        for (number, step) in steps {
            trial.number(&mut host, step, number, || format!("mark {mark} in a new register"));
        }
    }
}

/// A blank entry has mark 0, which is a mark as any other, if it is used: it is withdrawn then. An unused one has no mark.
fn mark_zero(tally: &mut Tally, trial: &mut Trial, random: &mut Random) {
    let plan = small(random, 8);
    let walk = Walk::cleared(trial, random, plan);
    [0, u32::MAX].into_iter().for_each(|mark| new_mark(trial, &walk, mark));
    for (used, number) in [(0, 0), (1, 33), (4095, 33), (4096, 33)] {
        let mut host = walk.host.clone();
        put(&mut host.image, USED, used);
        trial.number(&mut host, &Step::Withdraw { mark: 0 }, number, || format!("{used} blank entries"));
        trial.kept(&mut host, &walk.marked(0, 0), 33, || format!("{used} blank entries"));
    }
    trial.claim(tally, "session: marks 0 and 2^32 - 1 have no entry in a new register, and get one by their ballot or their withdrawal");
}

/// A withdrawn mark stays withdrawn, on its ballot and on others, whatever the host writes for its state but 1.
fn stays_withdrawn(trial: &mut Trial, walk: &mut Walk) {
    let mark = walk.election.mark(1);
    for byte in [2, 0, 3, 128, 255] {
        state(&mut walk.host, 1, byte);
        for ballot in [1, 3, 4] {
            let step = walk.marked(ballot, mark);
            trial.number(&mut walk.host, &step, 33, || format!("a mark that was withdrawn, state byte {byte}"));
        }
        trial.number(&mut walk.host, &Step::Withdraw { mark }, 33, || format!("withdrawn twice, state byte {byte}"));
    }
}

/// Until clear, and its ballot is not among those closed.
fn withdrawn(tally: &mut Tally, trial: &mut Trial, random: &mut Random) {
    for n in [4, 8, 16] {
        let plan = small(random, n);
        let mut walk = Walk::gathered(trial, random, plan);
        let mark = walk.election.mark(1);
        stays_withdrawn(trial, &mut walk);
        trial.taken(&mut walk.host, &Step::Withdraw { mark: 77 }, || "a mark whose ballot never comes".into());
        walk.go(trial, random, Kind::Close);
        trial.comparison.same(|| "ballots closed".into(), walk.session().closed, 2);
        walk.go(trial, random, Kind::Clear);
        for mark in [mark, 77] {
            let step = walk.marked(1, mark);
            trial.taken(&mut walk.host, &step, || format!("mark {mark} after clear"));
        }
    }
    trial.claim(tally, "session: a withdrawn mark is refused 33 until clear, and its ballot is in no batch");
}

/// Entries with one mark and these states, in a register with entries free or none: what each call makes of them.
fn one_mark(trial: &mut Trial, walk: &Walk, states: [u8; 3], entries: u64) {
    let mut host = walk.host.clone();
    crowd(&mut host, entries);
    for (entry, byte) in states.into_iter().enumerate() {
        host.register[40 * entry..40 * entry + 4].copy_from_slice(&[9, 0, 0, 0]);
        state(&mut host, entry, byte);
    }
    let what = || format!("one mark, states {states:?}, {entries} entries");
    let (stands, standing) = (states[0] == 1, states.iter().filter(|byte| **byte == 1).count() as u64);
    let admit = walk.marked(3, 9);
    trial.number(&mut host, &admit, if stands { 32 } else { 33 }, what);
    trial.refused(&mut host, &Step::Turnout { enrolled: 1 }, Refusal { number: 0, place: 1000 * standing }, what);
    let mut closed = host.clone();
    trial.number(&mut closed, &Step::Close, if standing == 0 { 36 } else { 0 }, what);
    let count = Session::read(&closed.image).map(|session| session.closed);
    trial.comparison.same(what, count, Some(standing));
    if stands {
        let after = struck(&host, 0);
        trial.withdrawn(&mut host, 9, &after, what);
    }
    trial.kept(&mut host, &Step::Withdraw { mark: 9 }, 33, what);
    trial.kept(&mut host, &admit, 33, what);
}

/// Of several entries with one mark the first decides, so that a withdrawal makes no further one; close and turnout go by each entry.
fn first_decides(tally: &mut Tally, trial: &mut Trial, random: &mut Random) {
    let plan = small(random, 4);
    let walk = Walk::gathered(trial, random, plan);
    for states in [[1, 1, 1], [1, 2, 1], [2, 1, 1], [0, 1, 2], [255, 255, 1], [1, 0, 0], [3, 2, 0]] {
        [4, 4095, 4096].into_iter().for_each(|entries| one_mark(trial, &walk, states, entries));
    }
    trial.claim(tally, "session: of several entries with one mark the first decides, and close and turnout go by each");
}

/// Standing entries, the enrolled, and the thousandths as worked out by hand.
const TURNOUTS: [(u64, u64, u64); 20] = [
    (0, 1, 0),
    (0, 1_000_000, 0),
    (1, 1, 1000),
    (1, 16, 63),
    (3, 16, 188),
    (5, 16, 313),
    (1, 3, 333),
    (2, 3, 667),
    (1, 2000, 1),
    (1, 2001, 0),
    (3, 2000, 2),
    (1, 1999, 1),
    (499, 1_000_000, 0),
    (500, 1_000_000, 1),
    (1499, 1_000_000, 1),
    (1500, 1_000_000, 2),
    (4096, 1_000_000, 4),
    (4096, 1, 4_096_000),
    (4096, 7, 585_143),
    (4095, 4096, 1000),
];

/// So many entries that stand, after others that do not; what is past those used stands too.
fn standing(random: &mut Random, host: &mut Host, standing: u64) {
    let used = [standing, ENTRIES][random.below(2) as usize];
    put(&mut host.image, USED, used);
    for entry in 0..ENTRIES {
        let stands = entry >= used - standing;
        state(host, entry as usize, if stands { 1 } else { [0, 2, 3, 255][entry as usize % 4] });
    }
}

fn turnout(tally: &mut Tally, trial: &mut Trial, random: &mut Random) {
    let plan = small(random, 8);
    let walk = Walk::cleared(trial, random, plan);
    for (count, enrolled, thousandths) in TURNOUTS {
        let mut host = walk.host.clone();
        standing(random, &mut host, count);
        for phase in 0..6 {
            host.image[PHASE] = phase;
            let value = Refusal { number: 0, place: thousandths };
            trial.refused(&mut host, &Step::Turnout { enrolled }, value, || format!("{count} of {enrolled} in phase {phase}"));
        }
        for enrolled in [0, 1_000_001, 1 << 32, u64::MAX] {
            trial.number(&mut host, &Step::Turnout { enrolled }, 3, || format!("{enrolled} enrolled"));
        }
    }
    trial.claim(tally, "session: turnout in thousandths of the enrolled, half up, in any phase");
}

pub fn run(tally: &mut Tally, trial: &mut Trial, random: &mut Random) {
    full(tally, trial, random);
    past_used(tally, trial, random);
    mark_zero(tally, trial, random);
    withdrawn(tally, trial, random);
    first_decides(tally, trial, random);
    turnout(tally, trial, random);
}
