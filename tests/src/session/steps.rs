//! The calls of a session: what each is lent, what it leaves, and the comparison of the library with the independent session.
use super::arrivals::{met, Arrival, ARRIVALS};
use super::image::{IMAGE, REGISTER};
use super::{library, model};
use crate::random::Random;
use crate::round::lent::{Lent, Refusal};
use crate::scratch::Scratch;
use crate::tally::{Comparison, Tally};
use std::collections::BTreeMap;

/// What a host keeps between the steps.
#[derive(Clone, PartialEq)]
pub struct Host {
    pub image: Vec<u8>,
    pub register: Vec<u8>,
}

impl Host {
    /// An image and a register that hold anything.
    pub fn any(random: &mut Random) -> Host {
        Host { image: random.bytes(IMAGE), register: random.bytes(REGISTER) }
    }

    /// The first byte of the image and of the register in which two hosts differ.
    pub fn differs(&self, other: &Host) -> (Option<usize>, Option<usize>) {
        (place(&self.image, &other.image), place(&self.register, &other.register))
    }
}

/// A call and what it is lent beside image and register. A check is lent what that of one round is, but for side and challenges, which are not looked at.
#[derive(Clone)]
pub enum Step {
    Clear { sheet: Vec<u8> },
    Admit { ballot: Vec<u8> },
    Withdraw { mark: u32 },
    Close,
    Claim { claims: Vec<u8> },
    Commit { round: u64, first: [Vec<u8>; 3] },
    Draw { seed: Vec<u8> },
    Check { round: u64, lent: Lent },
    Challenges { round: u64, out: Vec<u8> },
    Turnout { enrolled: u64 },
}

impl Step {
    pub fn name(&self) -> &'static str {
        match self {
            Step::Clear { .. } => "clear",
            Step::Admit { .. } => "admit",
            Step::Withdraw { .. } => "withdraw",
            Step::Close => "close",
            Step::Claim { .. } => "claim",
            Step::Commit { .. } => "commit",
            Step::Draw { .. } => "draw",
            Step::Check { .. } => "check",
            Step::Challenges { .. } => "challenges",
            Step::Turnout { .. } => "turnout",
        }
    }

    /// The length of the scratch that is lent.
    pub fn scratch(&self) -> usize {
        if let Step::Check { lent, .. } = self { lent.scratch } else { 0 }
    }

    /// What the output holds before the call.
    pub fn out(&self) -> &[u8] {
        if let Step::Challenges { out, .. } = self { out } else { &[] }
    }

    /// The slices that are lent, but for image, register and scratch.
    pub fn slices(&mut self) -> Vec<&mut Vec<u8>> {
        match self {
            Step::Clear { sheet: one } | Step::Admit { ballot: one } | Step::Claim { claims: one } | Step::Draw { seed: one } => vec![one],
            Step::Challenges { out, .. } => vec![out],
            Step::Commit { first, .. } => first.iter_mut().collect(),
            // the second are the challenges
            Step::Check { lent, .. } => lent.slices.iter_mut().enumerate().filter(|(i, _)| *i != 1).map(|(_, slice)| slice).collect(),
            Step::Withdraw { .. } | Step::Close | Step::Turnout { .. } => Vec::new(),
        }
    }
}

/// What a call leaves.
pub struct Left {
    pub reply: u64,
    pub host: Host,
    pub out: Vec<u8>,
    pub scratch: Scratch,
}

impl Left {
    pub fn number(&self) -> u64 {
        self.reply % 256
    }
}

/// The place of the first byte in which two slices differ.
fn place(a: &[u8], b: &[u8]) -> Option<usize> {
    (a != b).then(|| a.iter().zip(b).position(|(x, y)| x != y).unwrap_or(a.len().min(b.len())))
}

/// How two calls differ in what they leave, in few words.
fn difference(ours: &Left, theirs: &Left) -> Option<String> {
    let words = |left: &Left| format!("number {} value {}", left.number(), left.reply / 256);
    if ours.reply != theirs.reply {
        return Some(format!("ours {}, theirs {}", words(ours), words(theirs)));
    }
    let (image, register) = ours.host.differs(&theirs.host);
    for (name, at) in [("image", image), ("register", register), ("output", place(&ours.out, &theirs.out))] {
        if let Some(at) = at {
            return Some(format!("after {}: the {name} differs at byte {at}", words(ours)));
        }
    }
    (ours.scratch != theirs.scratch).then(|| format!("after {}: scratch is {:?}, theirs {:?}", words(ours), ours.scratch, theirs.scratch))
}

/// The comparisons of a claim and what was met in it, and how often each call replied with each number in all claims.
#[derive(Default)]
pub struct Trial {
    pub comparison: Comparison,
    arrivals: BTreeMap<Arrival, usize>,
    pub replies: BTreeMap<(&'static str, u64), usize>,
}

impl Trial {
    /// Both take the step, and the host keeps what the library leaves.
    pub fn step(&mut self, host: &mut Host, step: &Step, what: impl Fn() -> String) -> Left {
        let ours = library::run(host, step);
        let theirs = model::run(host, step);
        self.comparison.same(|| format!("{}, {}", step.name(), what()), difference(&ours, &theirs), None);
        *self.replies.entry((step.name(), ours.number())).or_default() += 1;
        for arrival in met(host, step, ours.number()) {
            *self.arrivals.entry(arrival).or_default() += 1;
        }
        *host = ours.host.clone();
        ours
    }

    /// The same, and that it is refused so; number 0 stands for a step that is taken, and place for its value.
    pub fn refused(&mut self, host: &mut Host, step: &Step, refusal: Refusal, what: impl Fn() -> String) -> Left {
        let left = self.step(host, step, &what);
        self.comparison.same(|| format!("{}, {}", step.name(), what()), (left.number(), left.reply / 256), (refusal.number, refusal.place));
        left
    }

    pub fn number(&mut self, host: &mut Host, step: &Step, number: u64, what: impl Fn() -> String) -> Left {
        self.refused(host, step, Refusal { number, place: 0 }, what)
    }

    pub fn taken(&mut self, host: &mut Host, step: &Step, what: impl Fn() -> String) -> Left {
        self.number(host, step, 0, what)
    }

    /// A withdrawal that is taken and leaves these bytes in image and register.
    pub fn withdrawn(&mut self, host: &mut Host, mark: u32, after: &Host, what: impl Fn() -> String) {
        self.taken(host, &Step::Withdraw { mark }, &what);
        self.comparison.same(|| format!("the bytes after mark {mark} is withdrawn, {}", what()), host.differs(after), (None, None));
    }

    /// A step that is refused so, and leaves image and register as they were.
    pub fn kept(&mut self, host: &mut Host, step: &Step, number: u64, what: impl Fn() -> String) {
        let before = host.clone();
        self.number(host, step, number, &what);
        self.comparison.same(|| format!("the bytes that {} keeps, {}", step.name(), what()), host.differs(&before), (None, None));
    }

    /// Everything that a withdrawal or a late ballot can meet was met so often in this claim.
    pub fn often(&mut self, least: usize) {
        for arrival in ARRIVALS {
            let count = self.arrivals.get(&arrival).copied().unwrap_or(0);
            self.comparison.same(|| format!("{arrival:?} was met {count} times, and {least} are asked for"), count >= least, true);
        }
    }

    /// Ends a claim. The replies stay.
    pub fn claim(&mut self, tally: &mut Tally, name: &str) {
        self.arrivals.clear();
        std::mem::take(&mut self.comparison).claim(tally, name);
    }
}
