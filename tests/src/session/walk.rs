//! A walk through an election: the host's bytes, and for each call a step that is right if the session is where it should be.
use super::election::{Election, Round};
use super::image::{Session, CLAIMED, CLOSED, DRAWN, ENTRIES, GATHERING, IMAGE};
use super::steps::{Host, Left, Step, Trial};
use crate::random::Random;
use crate::round::material::Plan;

#[derive(Clone, Copy, Debug, PartialEq)]
pub enum Kind {
    Clear,
    Admit,
    Withdraw,
    Close,
    Claim,
    Commit,
    Draw,
    Check,
    Challenges,
    Turnout,
}

pub const KINDS: [Kind; 10] =
    [Kind::Clear, Kind::Admit, Kind::Withdraw, Kind::Close, Kind::Claim, Kind::Commit, Kind::Draw, Kind::Check, Kind::Challenges, Kind::Turnout];

/// What may come before close: ballots and withdrawals as often as each other, so that either is the first of a mark.
const GATHERED: [Kind; 12] = {
    use Kind::{Admit as A, Close, Turnout, Withdraw as W};
    [A, A, A, A, A, W, W, W, W, W, Turnout, Close]
};

pub struct Walk {
    pub election: Election,
    pub host: Host,
    /// the ballots that the last close found standing
    pub batch: Vec<u8>,
    pub rounds: Vec<Round>,
}

impl Walk {
    pub fn new(random: &mut Random, plan: Plan) -> Walk {
        let election = Election::new(random, plan);
        Walk { election, host: Host::any(random), batch: Vec::new(), rounds: Vec::new() }
    }

    /// The same, newly cleared.
    pub fn cleared(trial: &mut Trial, random: &mut Random, plan: Plan) -> Walk {
        let mut walk = Walk::new(random, plan);
        walk.go(trial, random, Kind::Clear);
        walk
    }

    /// The session as the host's image has it.
    pub fn session(&self) -> Session {
        Session::read(&self.host.image).unwrap_or_else(|| panic!("the image has not {IMAGE} bytes"))
    }

    /// The rounds for the batch, unless they are written already.
    fn write(&mut self, random: &mut Random) {
        if self.rounds.is_empty() {
            self.rounds = self.election.rounds(random, &self.batch);
        }
    }

    /// Round k, or where the image counts further than the election goes, another.
    pub fn round(&self, k: u64) -> &Round {
        &self.rounds[k as usize % self.rounds.len()]
    }

    /// The step of a kind that is due, or would be if its phase were now.
    pub fn step(&mut self, random: &mut Random, kind: Kind) -> Step {
        let session = self.session();
        if matches!(kind, Kind::Claim | Kind::Commit | Kind::Check) {
            self.write(random);
        }
        match kind {
            Kind::Clear => Step::Clear { sheet: self.election.sheet.clone() },
            Kind::Admit => self.ballot(random),
            Kind::Withdraw => Step::Withdraw { mark: self.mark(random) },
            Kind::Close => Step::Close,
            Kind::Claim => Step::Claim { claims: self.rounds[0].whole.claims.clone() },
            Kind::Commit => self.commit(session.committed),
            Kind::Draw => Step::Draw { seed: random.bytes(32) },
            Kind::Check => self.check(session.checked),
            Kind::Challenges => {
                let round = random.below(session.round_count().clamp(1, 128));
                Step::Challenges { round, out: random.bytes(1 + session.repeats().min(300)) }
            }
            Kind::Turnout => Step::Turnout { enrolled: [1, 2, 3, 16, 2000, 1_000_000, 1 + random.below(1_000_000)][random.below(7) as usize] },
        }
    }

    /// The mark of any entry that is used.
    fn entry(&self, random: &mut Random) -> Option<u32> {
        let used = self.session().used.min(ENTRIES);
        let place = 40 * random.below(used.max(1)) as usize;
        (used > 0).then(|| u32::from_le_bytes(self.host.register[place..place + 4].try_into().unwrap()))
    }

    /// A ballot of the election with another mark.
    pub fn marked(&self, ballot: usize, mark: u32) -> Step {
        let mut ballot = self.election.ballots[ballot].clone();
        ballot[..4].copy_from_slice(&mark.to_le_bytes());
        Step::Admit { ballot }
    }

    /// Any ballot of the election, and now and then one whose mark has an entry already.
    fn ballot(&self, random: &mut Random) -> Step {
        let ballot = self.election.any(random);
        let mark = self.entry(random).filter(|_| random.below(8) == 0);
        self.marked(ballot, mark.unwrap_or(self.election.mark(ballot)))
    }

    /// The mark of any ballot, whether it came or not, and now and then that of an entry or one that no ballot has.
    fn mark(&self, random: &mut Random) -> u32 {
        let ballot = self.election.mark(self.election.any(random));
        match random.below(8) {
            0 => self.entry(random).unwrap_or(ballot),
            1 => random.next() as u32,
            _ => ballot,
        }
    }

    pub fn commit(&self, round: u64) -> Step {
        let whole = &self.round(round).whole;
        let [shares0, shares1] = whole.shares.clone();
        Step::Commit { round, first: [whole.head.clone(), shares0, shares1] }
    }

    /// The check of a round with the opening and the answers for what is drawn.
    pub fn check(&self, round: u64) -> Step {
        let (whole, session) = (&self.round(round).whole, self.session());
        let drawable = session.repeats() <= 256;
        let (side, mut challenges) = if drawable { session.drawn(round) } else { (0, Vec::new()) };
        challenges.resize(whole.setting().repeats, 1);
        Step::Check { round, lent: whole.check(side as usize, &challenges) }
    }

    /// The kinds that may come next in an election.
    pub fn due(&self) -> &'static [Kind] {
        let session = self.session();
        match session.phase {
            GATHERING => &GATHERED,
            CLOSED => &[Kind::Claim],
            CLAIMED if session.committed == session.round_count() => &[Kind::Draw],
            CLAIMED => &[Kind::Commit],
            DRAWN => &[Kind::Check, Kind::Check, Kind::Challenges],
            _ => &[Kind::Clear, Kind::Challenges, Kind::Turnout],
        }
    }

    /// Takes a step. Where it closes the register, the rounds are written anew, for what stands there.
    pub fn take(&mut self, trial: &mut Trial, step: &Step, what: impl Fn() -> String) -> Left {
        let left = trial.step(&mut self.host, step, what);
        if left.number() == 0 && matches!(step, Step::Close) {
            self.batch = self.election.batch(&self.host);
            self.rounds.clear();
        }
        left
    }

    /// Takes the step of a kind, which is not refused.
    pub fn go(&mut self, trial: &mut Trial, random: &mut Random, kind: Kind) -> Left {
        let step = self.step(random, kind);
        let left = self.take(trial, &step, || "in an election".into());
        trial.comparison.same(|| format!("{kind:?} in an election"), left.number(), 0);
        left
    }

    /// A session with ballots admitted, of which one is withdrawn: the first three of the election, and the second of these. The mark of
    /// the fifth is withdrawn before its ballot comes.
    pub fn gathered(trial: &mut Trial, random: &mut Random, plan: Plan) -> Walk {
        let mut walk = Walk::cleared(trial, random, plan);
        for ballot in 0..3 {
            let step = Step::Admit { ballot: walk.election.ballots[ballot].clone() };
            trial.taken(&mut walk.host, &step, || format!("ballot {ballot}"));
        }
        for ballot in [1, 4] {
            let step = Step::Withdraw { mark: walk.election.mark(ballot) };
            trial.taken(&mut walk.host, &step, || format!("the mark of ballot {ballot}"));
        }
        walk
    }

    /// The same, closed, claimed, with all rounds committed and drawn.
    pub fn drawn(trial: &mut Trial, random: &mut Random, plan: Plan) -> Walk {
        let mut walk = Walk::gathered(trial, random, plan);
        walk.go(trial, random, Kind::Close);
        walk.go(trial, random, Kind::Claim);
        (0..walk.election.plan.rounds).for_each(|_| drop(walk.go(trial, random, Kind::Commit)));
        walk.go(trial, random, Kind::Draw);
        walk
    }
}
