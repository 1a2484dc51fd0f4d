//! What follows from the ballots and withdrawals that were taken since the last clear, with no look at image or register: a mark whose
//! withdrawal was taken is out of the batch, in either order of arrival (document 02, L1). It holds while each step gets what the last one
//! left.
use super::image::{Digest, Session, ENTRIES};
use super::model::thousandths;
use super::steps::{Left, Step, Trial};
use crate::sha3::sha3_256_on_lanes;
use std::collections::BTreeSet;

#[derive(Default)]
pub struct History {
    sheet: Vec<u8>,
    /// the ballots that were admitted, in their order
    admitted: Vec<Vec<u8>>,
    /// the marks whose withdrawal was taken
    withdrawn: BTreeSet<u32>,
    /// the marks of both, each of which has one entry
    entries: BTreeSet<u32>,
}

fn mark_of(ballot: &[u8]) -> u32 {
    u32::from_le_bytes([ballot[0], ballot[1], ballot[2], ballot[3]])
}

impl History {
    /// A session that is newly cleared with a sheet.
    pub fn new(sheet: &[u8]) -> History {
        History { sheet: sheet.to_vec(), ..History::default() }
    }

    /// The ballots that were admitted and not withdrawn.
    pub fn batch(&self) -> Vec<&[u8]> {
        self.admitted.iter().filter(|ballot| !self.withdrawn.contains(&mark_of(ballot))).map(Vec::as_slice).collect()
    }

    fn closing_digest(&self) -> Digest {
        let digests: Vec<u8> = self.batch().into_iter().flat_map(sha3_256_on_lanes).collect();
        sha3_256_on_lanes(&[&sha3_256_on_lanes(&self.sheet)[..], &digests].concat())
    }

    /// The number for a step by its mark or, of close, by the batch. For the other steps it does not matter what came.
    fn number(&self, step: &Step) -> Option<u64> {
        let full = self.entries.len() as u64 == ENTRIES;
        let by_mark = |mark: u32, standing: u64| match () {
            () if self.withdrawn.contains(&mark) => 33,
            () if self.entries.contains(&mark) => standing,
            () if full => 35,
            () => 0,
        };
        match step {
            Step::Admit { ballot } => Some(by_mark(mark_of(ballot), 32)),
            Step::Withdraw { mark } => Some(by_mark(*mark, 0)),
            Step::Close => Some(if self.batch().is_empty() { 36 } else { 0 }),
            _ => None,
        }
    }

    /// Counts in a step that was taken.
    pub fn take(&mut self, step: &Step) {
        match step {
            Step::Clear { sheet } => *self = History::new(sheet),
            Step::Admit { ballot } => {
                self.admitted.push(ballot.clone());
                self.entries.insert(mark_of(ballot));
            }
            Step::Withdraw { mark } => {
                self.withdrawn.insert(*mark);
                self.entries.insert(*mark);
            }
            _ => {}
        }
    }

    /// Holds what a step left against what was taken before it, and counts it in. What 31, 1 or 5 refuses does not depend on what came.
    pub fn follow(&mut self, trial: &mut Trial, step: &Step, left: &Left, what: impl Fn() -> String) {
        if matches!(left.number(), 31 | 1 | 5) {
            return;
        }
        if let Some(number) = self.number(step) {
            trial.comparison.same(|| format!("{}, {}: by what came before", step.name(), what()), left.number(), number);
        }
        if left.number() == 0 {
            self.take(step);
            self.counted(trial, step, left, what);
        }
    }

    /// The turnout, or the batch that was closed.
    fn counted(&self, trial: &mut Trial, step: &Step, left: &Left, what: impl Fn() -> String) {
        let standing = self.batch().len() as u64;
        let name = || format!("{}, {}: the ballots that stand by what came before", step.name(), what());
        match step {
            Step::Turnout { enrolled } => trial.comparison.same(name, left.reply / 256, thousandths(standing, *enrolled)),
            Step::Close => {
                let session = Session::read(&left.host.image).map(|session| (session.used, session.closed, session.closing));
                let batch = (self.entries.len() as u64, standing, self.closing_digest());
                trial.comparison.same(name, session, Some(batch));
            }
            _ => {}
        }
    }
}
