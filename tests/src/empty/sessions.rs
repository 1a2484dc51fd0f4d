//! Right cases of a session on document 01's small ring: an election with the example's ballot, step by step through the independent session, and one that a host closed
//! with no ballot.
use super::cases::{scratch, zeroed, Right};
use super::small::{ballot, material, text, MARK, NO_BALLOTS, UNKNOWN, WITHDRAWN};
use crate::random::Random;
use crate::round::whole::Whole;
use crate::session::image::{Session, ACCEPTED};
use crate::session::model;
use crate::session::steps::{Host, Step};

struct Election {
    host: Host,
    what: &'static str,
    rights: Vec<Right>,
}

/// The slices of a step in the header's order: image and register where they are lent, its own, scratch.
fn slices(host: &Host, step: &Step, scratch: Vec<u8>) -> Vec<Vec<u8>> {
    let register = matches!(step, Step::Clear { .. } | Step::Admit { .. } | Step::Withdraw { .. } | Step::Close | Step::Turnout { .. });
    let mut all = vec![host.image.clone()];
    all.extend(register.then(|| host.register.clone()));
    all.extend(step.clone().slices().into_iter().map(|slice| slice.clone()));
    all.extend(matches!(step, Step::Check { .. }).then_some(scratch));
    all
}

impl Election {
    /// The case of a step that is due here, and the host's bytes after it.
    fn right(&mut self, step: &Step) -> Host {
        let left = model::run(&self.host, step);
        assert_eq!(left.number(), 0, "{} is refused", step.name());
        let numbers = match step {
            Step::Withdraw { mark } => vec![u64::from(*mark)],
            Step::Commit { round, .. } | Step::Check { round, .. } | Step::Challenges { round, .. } => vec![*round],
            Step::Turnout { enrolled } => vec![*enrolled],
            _ => Vec::new(),
        };
        let mut after = slices(&left.host, step, zeroed());
        if let Step::Challenges { .. } = step {
            after[1] = left.out.clone();
        }
        let name = format!("jdn_{}", step.name());
        self.rights.push(Right::new(&name, self.what, slices(&self.host, step, scratch()), numbers, left.reply / 256, after));
        left.host
    }

    fn go(&mut self, step: &Step) {
        self.host = self.right(step);
    }

    fn session(&self) -> Session {
        Session::read(&self.host.image).unwrap_or_else(|| panic!("the image has another length"))
    }

    /// Clear, admit, withdraw, turnout and close. The first entry is that of an early withdrawal.
    fn gather(&mut self) {
        self.go(&Step::Clear { sheet: text() });
        self.host = model::run(&self.host, &Step::Withdraw { mark: WITHDRAWN }).host;
        self.go(&Step::Admit { ballot: ballot() });
        self.right(&Step::Withdraw { mark: MARK });
        self.what = " of a mark with no entry";
        self.right(&Step::Withdraw { mark: UNKNOWN });
        self.what = "";
        self.right(&Step::Turnout { enrolled: 16 });
        self.go(&Step::Close);
    }

    /// From claim to check, with a round over so many ballots.
    fn count(&mut self, random: &mut Random, ballots: usize) {
        let whole = Whole::honest(&material(random, ballots));
        let [shares0, shares1] = whole.shares.clone();
        self.go(&Step::Claim { claims: whole.claims.clone() });
        self.go(&Step::Commit { round: 0, first: [whole.head.clone(), shares0, shares1] });
        self.go(&Step::Draw { seed: random.bytes(32) });
        self.right(&Step::Challenges { round: 0, out: random.bytes(2) });
        let (side, challenges) = self.session().drawn(0);
        self.go(&Step::Check { round: 0, lent: whole.check(side as usize, &challenges) });
        assert_eq!(self.session().phase, ACCEPTED);
    }
}

pub fn rights(random: &mut Random) -> Vec<Right> {
    let mut election = Election { host: Host::any(random), what: "", rights: Vec::new() };
    election.gather();
    let mut session = election.session();
    let register = election.host.register.clone();
    election.count(random, 1);

    // a host may write that none was closed; the steps that this leaves without bytes are of interest
    session.closed = 0;
    session.closing = session.closing_digest(&[]);
    let mut none = Election { host: Host { image: session.write(), register }, what: NO_BALLOTS, rights: Vec::new() };
    none.count(random, 0);
    none.rights.retain(|right| right.slices.iter().any(Vec::is_empty));
    [election.rights, none.rights].concat()
}
