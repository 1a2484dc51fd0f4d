//! Elections with one thing wrong. Where a check is lent other bytes than were lodged it is refused 16 and can be tried again; where what was lodged is wrong, or the
//! opening, or an answer, the session ends refused.
use super::election::{Election, Round};
use super::image::{Session, PHASE, REFUSED};
use super::model::first_message;
use super::steps::{Host, Step, Trial};
use crate::random::Random;
use crate::round::check_faults;
use crate::round::faults::{Fault, RANGES};
use crate::round::lent::{Lent, Refusal};
use crate::round::material::{Modulus, Plan};
use crate::sheets;
use crate::tally::Tally;

/// An election whose seed is known beforehand, so that what each check will be lent is known too.
struct Known {
    election: Election,
    seed: Vec<u8>,
    rounds: Vec<Round>,
    checks: Vec<Lent>,
}

impl Known {
    fn new(random: &mut Random, plan: Plan) -> Known {
        let election = Election::new(random, plan);
        let rounds = election.rounds(random, &election.ballots.concat());
        let seed = random.bytes(32);
        let (sheet, _) = sheets::read(&election.sheet).unwrap_or_else(|number| panic!("the sheet is refused {number}"));
        let mut session = Session::new(sheet.numbers, [0; 32]);
        session.seed.copy_from_slice(&seed);
        let check = |(k, round): (usize, &Round)| {
            let (side, challenges) = session.drawn(k as u64);
            round.whole.check(side as usize, &challenges)
        };
        let checks = rounds.iter().enumerate().map(check).collect();
        Known { election, seed, rounds, checks }
    }

    /// The election up to the draw, with these ballots, claims and first messages.
    fn lodged(&self, trial: &mut Trial, random: &mut Random, checks: &[Lent]) -> Host {
        let mut host = Host::any(random);
        let ballots = checks[0]["ballots"].chunks(4 + 16 * self.election.setting.n());
        let mut steps = vec![Step::Clear { sheet: self.election.sheet.clone() }];
        steps.extend(ballots.map(|ballot| Step::Admit { ballot: ballot.to_vec() }));
        steps.extend([Step::Close, Step::Claim { claims: checks[0]["claims"].clone() }]);
        steps.extend(checks.iter().enumerate().map(|(k, lent)| Step::Commit { round: k as u64, first: first_message(lent) }));
        steps.push(Step::Draw { seed: self.seed.clone() });
        steps.iter().for_each(|step| drop(trial.taken(&mut host, step, || "before the draw".into())));
        host
    }
}

fn check(round: usize, lent: &Lent) -> Step {
    Step::Check { round: round as u64, lent: lent.clone() }
}

// ---- other bytes than were lodged

/// What differs from a stored digest at every `step`-th byte.
fn other_bytes(lent: &Lent, step: usize) -> Vec<(String, Lent)> {
    let mut all = Vec::new();
    for name in ["ballots", "claims", "head", "shares0", "shares1"] {
        for at in (0..lent[name].len()).step_by(step) {
            let mut other = lent.clone();
            other[name][at] ^= 1 << (at % 8);
            all.push((format!("byte {at} of {name}"), other));
        }
    }
    all
}

/// Other sheets that are taken: each number and each list of another value. The lengths stay those of the session.
fn other_sheets(lent: &Lent) -> Vec<(String, Lent)> {
    let (right, _) = sheets::read(&lent["sheet"]).unwrap_or_else(|number| panic!("the sheet is refused {number}"));
    let [n, q, drown, rounds, repeats] = right.numbers;
    // a ring twice as large needs 4N in q - 1
    let doubled = if (q - 1) % (4 * n) == 0 { q } else { q + 2 * n };
    let mut sheets = vec![sheets::Sheet { numbers: [2 * n, doubled, drown, rounds, repeats], lists: right.lists.clone().map(|list| list.repeat(2)) }];
    for (i, value) in [(1, q + 2 * n), (2, drown - 1), (3, rounds - 1), (4, repeats + 1)] {
        let mut other = right.clone();
        other.numbers[i] = value;
        sheets.push(other);
    }
    for list in 0..5 {
        let mut other = right.clone();
        other.lists[list][n as usize - 1] ^= 1;
        sheets.push(other);
    }
    let lend = |sheet: sheets::Sheet| {
        let mut other = lent.clone();
        other["sheet"] = sheet.text().into_bytes();
        (format!("the sheet {:?}", sheet.numbers), other)
    };
    sheets.into_iter().map(lend).collect()
}

/// Slices that belong elsewhere: ballots in another order, the shares of the other side, the first message of another round.
fn misplaced(known: &Known, k: usize) -> Vec<(String, Lent)> {
    let right = &known.checks[k];
    let other = |what: &str, change: &dyn Fn(&mut Lent)| {
        let mut lent = right.clone();
        change(&mut lent);
        (what.to_string(), lent)
    };
    let next = &known.checks[(k + 1) % known.checks.len()];
    vec![
        other("ballots in another order", &|lent| lent["ballots"].rotate_left(4 + 16 * known.election.setting.n())),
        other("shares of the other side", &|lent| (lent["shares0"], lent["shares1"]) = (right["shares1"].clone(), right["shares0"].clone())),
        other("the next round's first message", &|lent| ["head", "shares0", "shares1"].into_iter().for_each(|name| lent[name] = next[name].clone())),
        other("an opening that is wrong too", &|lent| (lent["opening"][0], lent["claims"][0]) = (right["opening"][0] ^ 1, right["claims"][0] ^ 1)),
        other("an answer out of range too", &|lent| {
            lent["answers"].fill(255);
            lent["head"].fill(255);
        }),
    ]
}

/// Each of them is refused 16, the session stays, and the right check is taken afterwards.
fn not_lodged(tally: &mut Tally, trial: &mut Trial, random: &mut Random) {
    let plan = Plan { n: 4, ballots: 2, drown: 3, rounds: 3, more: 0, modulus: Modulus::Any, extreme: false };
    let known = Known::new(random, plan);
    let mut host = known.lodged(trial, random, &known.checks);
    for (k, right) in known.checks.iter().enumerate() {
        let others = [other_bytes(right, [5, 1, 7][k]), other_sheets(right), misplaced(&known, k)].concat();
        for (what, other) in others {
            let before = host.clone();
            trial.number(&mut host, &check(k, &other), 16, || format!("round {k}, {what}"));
            trial.comparison.same(|| format!("round {k}, {what}: what is kept"), host == before, true);
        }
        trial.taken(&mut host, &check(k, right), || format!("round {k}, as it was lodged"));
    }
    trial.claim(tally, "session: a check lent another sheet, ballot, claim or first message than was lodged is refused 16 and can be tried again");
}

// ---- what was lodged is wrong, or what is opened

/// A fault after 16, put into what round k's check is lent, if ballots and claims with it can be lodged and the earlier rounds stay right.
fn faulty(known: &Known, k: usize, fault: &Fault) -> Option<Lent> {
    if fault.rank[0] < RANGES {
        return None;
    }
    let right = &known.checks[k];
    let mut lent = right.clone();
    (fault.apply)(&mut lent);
    let drawn = lent.number == right.number && lent["challenges"] == right["challenges"];
    let lodged = known.election.setting.ballots_ranged(&lent["ballots"]) && lent["claims"].iter().all(|claim| *claim < 2);
    let earlier = k == 0 || (lent["ballots"] == right["ballots"] && lent["claims"] == right["claims"]);
    (drawn && lodged && earlier).then_some(lent)
}

/// The election with this in round k: the rounds before it are taken, it is refused so and ends the session, and every later check is refused 31.
fn ends(trial: &mut Trial, random: &mut Random, known: &Known, k: usize, lent: &Lent, refusal: Refusal, what: &str) {
    let mut checks = known.checks.clone();
    checks[k] = lent.clone();
    for other in checks.iter_mut().filter(|_| k == 0) {
        (other["ballots"], other["claims"]) = (lent["ballots"].clone(), lent["claims"].clone());
    }
    let mut host = known.lodged(trial, random, &checks);
    (0..k).for_each(|i| drop(trial.taken(&mut host, &check(i, &checks[i]), || format!("round {i}, before the fault"))));
    let mut before = host.clone();
    trial.refused(&mut host, &check(k, lent), refusal, || format!("round {k}, {what}"));
    before.image[PHASE] = REFUSED;
    trial.comparison.same(|| format!("round {k}, {what}: ended refused, and nothing else"), host == before, true);
    for (i, right) in known.checks.iter().enumerate() {
        trial.number(&mut host, &check(i, right), 31, || format!("round {i} after the end"));
    }
}

fn wrong_rounds(tally: &mut Tally, trial: &mut Trial, random: &mut Random) {
    for (n, rounds) in [(4, 3), (8, 2)] {
        let plan = Plan { n, ballots: 2, drown: 3, rounds, more: 0, modulus: Modulus::Any, extreme: false };
        let known = Known::new(random, plan);
        for k in 0..rounds as usize {
            let faults = check_faults::faults(&known.rounds[k].whole, &known.checks[k]);
            for fault in &faults.0 {
                if let Some(lent) = faulty(&known, k, fault) {
                    ends(trial, random, &known, k, &lent, fault.refusal, &fault.name);
                }
            }
        }
    }
    trial.claim(tally, "session: a round with something wrong in what was lodged, opened or answered ends the session refused, in every round");
}

pub fn run(tally: &mut Tally, trial: &mut Trial, random: &mut Random) {
    not_lodged(tally, trial, random);
    wrong_rounds(tally, trial, random);
}
