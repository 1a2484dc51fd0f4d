//! Whole elections: every step is taken, the rounds of the library's producer and of the independent one by turns, until the session ends accepted.
use super::election::{small as small_plan, Election, Round};
use super::history::History;
use super::image::ACCEPTED;
use super::steps::{Step, Trial};
use super::walk::{Kind, Walk, KINDS};
use crate::random::Random;
use crate::round::calls::{FIRST, SECOND};
use crate::round::lent::Lent;
use crate::round::material::{Modulus, Plan};
use crate::round::whole::second;
use crate::tally::Tally;

/// The first message of a round and the claims, by the library or not.
fn first(round: &Round, library: bool) -> ([Vec<u8>; 3], Vec<u8>) {
    let whole = &round.whole;
    let [shares0, shares1] = whole.shares.clone();
    if !library {
        return ([whole.head.clone(), shares0, shares1], whole.claims.clone());
    }
    let outputs = (FIRST.over_c)(&round.material).outputs;
    let [head, shares0, shares1, claims] = outputs.try_into().unwrap_or_else(|_| panic!("four outputs"));
    ([head, shares0, shares1], claims)
}

/// What the check of a round is lent for what was drawn, its opening and answers by the library or not.
fn lent(random: &mut Random, round: &Round, library: bool, drawn: &[u8]) -> Lent {
    let (side, challenges) = (usize::from(drawn[0] % 2), &drawn[1..]);
    let mut lent = round.whole.check(side, challenges);
    if library {
        let outputs = (SECOND.over_c)(&second(random, &round.material, &round.whole, side, challenges)).outputs;
        let [opening, answers] = outputs.try_into().unwrap_or_else(|_| panic!("two outputs"));
        (lent["opening"], lent["answers"]) = (opening, answers);
    }
    lent
}

/// What comes, and the number it is answered: all ballots, of which the second is withdrawn before it comes and the fifth after. The last
/// of the small elections has a mark that stands. A mark that no ballot has is withdrawn too.
fn arrivals(election: &Election) -> Vec<(u64, Step)> {
    let withdraw = |mark: u32| (0, Step::Withdraw { mark });
    let mut all = vec![withdraw(election.mark(1))];
    for ballot in 0..election.ballots.len() {
        let twice = (0..ballot).any(|other| election.mark(other) == election.mark(ballot));
        all.push((if ballot == 1 { 33 } else if twice { 32 } else { 0 }, Step::Admit { ballot: election.ballots[ballot].clone() }));
        all.extend((ballot == 2).then(|| withdraw(77)));
        all.extend((ballot == 4).then(|| withdraw(election.mark(4))));
    }
    all
}

/// All that comes, and close: its batch is what the ballots and withdrawals that were taken leave standing.
fn gather(trial: &mut Trial, random: &mut Random, walk: &mut Walk) {
    walk.go(trial, random, Kind::Clear);
    let mut history = History::new(&walk.election.sheet);
    for (number, step) in arrivals(&walk.election) {
        let left = trial.number(&mut walk.host, &step, number, || "before close".into());
        history.follow(trial, &step, &left, || "before close".into());
    }
    let left = walk.go(trial, random, Kind::Close);
    history.follow(trial, &Step::Close, &left, || format!("{:?}", walk.election.plan));
    trial.comparison.same(|| "the ballots of the rounds are those that stand".into(), walk.batch == history.batch().concat(), true);
}

/// Whether a round is written by the library.
fn by_library(k: usize) -> bool {
    k % 2 == 0
}

/// Claims, and the first message of each round.
fn lodge(trial: &mut Trial, walk: &mut Walk) {
    let claims = first(&walk.rounds[0], true).1;
    trial.taken(&mut walk.host, &Step::Claim { claims }, || format!("{:?}", walk.election.plan));
    for (k, round) in walk.rounds.iter().enumerate() {
        let step = Step::Commit { round: k as u64, first: first(round, by_library(k)).0 };
        trial.taken(&mut walk.host, &step, || format!("round {k}, {:?}", walk.election.plan));
    }
}

/// The whole election.
fn count(trial: &mut Trial, random: &mut Random, plan: Plan) -> Walk {
    let mut walk = Walk::new(random, plan);
    gather(trial, random, &mut walk);
    walk.rounds = walk.election.rounds(random, &walk.batch);
    lodge(trial, &mut walk);
    walk.go(trial, random, Kind::Draw);
    for (k, round) in walk.rounds.iter().enumerate() {
        let step = Step::Challenges { round: k as u64, out: random.bytes(1 + walk.election.setting.repeats) };
        let drawn = trial.taken(&mut walk.host, &step, || format!("round {k}, {plan:?}")).out;
        let step = Step::Check { round: k as u64, lent: lent(random, round, by_library(k), &drawn) };
        trial.taken(&mut walk.host, &step, || format!("round {k}, {plan:?}"));
    }
    trial.comparison.same(|| "the last phase".into(), walk.session().phase, ACCEPTED);
    walk
}

/// After the end only clear, turnout and what was drawn are taken.
fn ended(trial: &mut Trial, random: &mut Random, walk: &mut Walk) {
    for kind in KINDS.into_iter().rev() {
        let step = walk.step(random, kind);
        let taken = matches!(kind, Kind::Clear | Kind::Challenges | Kind::Turnout);
        let left = trial.step(&mut walk.host, &step, || "after the end".into());
        trial.comparison.same(|| format!("{kind:?} after the end"), left.number(), if taken { 0 } else { 31 });
    }
    for k in 0..walk.election.plan.rounds {
        let step = walk.check(k);
        trial.number(&mut walk.host, &step, 31, || "newly cleared".into());
    }
}

pub fn run(tally: &mut Tally, trial: &mut Trial, random: &mut Random) {
    for n in [4, 8, 16].repeat(8) {
        let plan = small_plan(random, n);
        let mut walk = count(trial, random, plan);
        ended(trial, random, &mut walk);
    }
    trial.claim(tally, "session: whole elections end accepted, and after the end only clear, turnout and challenges are taken");
    let most = Plan { n: 4, ballots: 2, drown: 1, rounds: 128, more: 0, modulus: Modulus::Any, extreme: false };
    count(trial, random, most);
    trial.claim(tally, "session: an election of 128 rounds of 218 repetitions ends accepted");
    let most = Plan { rounds: 2, more: 253, ..most };
    count(trial, random, most);
    trial.claim(tally, "session: an election of 256 repetitions ends accepted");
    for n in [64, 2048] {
        count(trial, random, Plan { n, ballots: 4, drown: 40, rounds: 2, more: 0, ..most });
    }
    trial.claim(tally, "session: elections of 64 and of 2048 coefficients end accepted");
}

pub fn small(tally: &mut Tally, trial: &mut Trial, random: &mut Random) {
    for rounds in 1..3 {
        let plan = Plan { rounds, ..small_plan(random, 4) };
        let mut walk = count(trial, random, plan);
        ended(trial, random, &mut walk);
    }
    trial.claim(tally, "session: elections of 4 coefficients end accepted, and after the end only clear, turnout and challenges are taken");
}
