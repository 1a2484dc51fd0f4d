//! One thing wrong with a call of a session, and the refusal that follows: for each call all that it can be refused for.
use super::image::{Session, CHECKED, CLOSED_COUNT, COMMITTED, NUMBERS, PHASE, USED};
use super::model::first_message;
use super::steps::{Host, Step};
use super::walk::Walk;
use crate::round::check_faults;
use crate::round::faults::{self, put, refused_sheets, LENGTHS, RANGES};
use crate::round::lent::Refusal;

/// What a call is lent.
#[derive(Clone)]
pub struct Case {
    pub host: Host,
    pub step: Step,
}

pub struct Fault {
    pub name: String,
    /// where the test stands in the call's order
    pub rank: faults::Rank,
    pub refusal: Refusal,
    pub apply: Box<dyn Fn(&mut Case)>,
}

/// The steps that the orders have in common. What comes after them stands by its number.
const IMAGE: u64 = 0;
const STATE: u64 = 1;
const SHEET: u64 = 2;
const SLICES: u64 = 3;
pub const STORED: u64 = 4;
const AFTER: u64 = 5;

#[derive(Default)]
pub struct Faults(pub Vec<Fault>);

/// The slice of a step that is named by its place.
fn slice(case: &mut Case, place: usize) -> &mut Vec<u8> {
    case.step.slices().swap_remove(place)
}

fn shorten(slice: &mut Vec<u8>) {
    slice.pop();
}

impl Faults {
    fn at(&mut self, rank: faults::Rank, refusal: Refusal, name: &str, apply: impl Fn(&mut Case) + 'static) {
        self.0.push(Fault { name: format!("{name}, {}", refusal.number), rank, refusal, apply: Box::new(apply) });
    }

    fn add(&mut self, step: u64, number: u64, name: &str, apply: impl Fn(&mut Case) + 'static) {
        self.at([step, 0, number], Refusal { number, place: 0 }, name, apply);
    }

    /// 1 before all else.
    fn image(&mut self) {
        self.add(IMAGE, 1, "an empty image", |case| case.host.image.clear());
        self.add(IMAGE, 1, "an image a byte shorter", |case| case.host.image.truncate(4296));
        self.add(IMAGE, 1, "an image a byte longer", |case| case.host.image.push(0));
    }

    /// 31 by another phase than these, or a session that is refused whatever is asked of it.
    fn state(&mut self, phases: &[u8]) {
        for phase in (0..=7).chain([255]).filter(|phase| !phases.contains(phase)) {
            self.add(STATE, 31, &format!("phase {phase}"), move |case| case.host.image[PHASE] = phase);
        }
        let numbers = [(0, 0), (0, 12), (1, 2), (1, 1 << 56), (2, 41), (3, 0), (3, 129), (4, 0), (4, 257)].map(|(i, value)| (NUMBERS[i], value));
        let counts = [(USED, 4097), (USED, u64::MAX), (CLOSED_COUNT, 4097), (COMMITTED, 129), (CHECKED, 129)];
        for (at, value) in numbers.into_iter().chain(counts) {
            self.add(STATE, 31, &format!("{value} at byte {at}"), move |case| put(&mut case.host.image, at, value));
        }
        for at in [COMMITTED, CHECKED] {
            self.add(STATE, 31, &format!("a round more than there are at byte {at}"), move |case| {
                let rounds = faults::number(&case.host.image, NUMBERS[3]);
                put(&mut case.host.image, at, rounds + 1);
            });
        }
        self.add(STATE, 31, "2N does not divide q - 1", |case| {
            let q = faults::number(&case.host.image, NUMBERS[1]);
            put(&mut case.host.image, NUMBERS[1], q + 2);
        });
        self.add(STATE, 31, "q leaves no room for the noise", |case| put(&mut case.host.image, NUMBERS[1], 65));
    }

    /// 31 by a round other than the one due.
    fn round(&mut self, due: u64) {
        for other in [due + 1, due.wrapping_sub(1), due + 256, due + (1 << 16), due + (1 << 32), 128, u64::MAX] {
            self.add(STATE, 31, &format!("round {other}"), move |case| match &mut case.step {
                Step::Commit { round, .. } | Step::Check { round, .. } => *round = other,
                _ => panic!("the call has no round"),
            });
        }
    }

    fn register(&mut self) {
        self.add(SLICES, 1, "an empty register", |case| case.host.register.clear());
        self.add(SLICES, 1, "a register an entry shorter", |case| case.host.register.truncate(163_800));
        self.add(SLICES, 1, "a register a byte shorter", |case| case.host.register.truncate(163_839));
        self.add(SLICES, 1, "a register a byte longer", |case| case.host.register.push(0));
    }

    /// 1 by each slice of the step.
    fn slices(&mut self, count: usize) {
        for place in 0..count {
            self.add(SLICES, 1, &format!("slice {place} a byte shorter"), move |case| shorten(slice(case, place)));
            self.add(SLICES, 1, &format!("slice {place} a byte longer"), move |case| slice(case, place).push(0));
            self.add(SLICES, 1, &format!("slice {place} empty"), move |case| slice(case, place).clear());
        }
    }

    // ---- the calls

    /// Clear's 1 is that of the register's length and the sheet's.
    pub fn clear(walk: &Walk) -> Faults {
        let mut faults = Faults::default();
        faults.image();
        faults.register();
        faults.0.iter_mut().filter(|fault| fault.rank[0] == SLICES).for_each(|fault| fault.rank[0] = SHEET);
        for (number, name, text) in refused_sheets(&walk.election.sheet) {
            faults.add(SHEET, number, name, move |case| *slice(case, 0) = text.clone());
        }
        faults
    }

    /// The register has the first three marks of the election, of which the second is withdrawn, and the fifth, withdrawn early.
    pub fn admit(walk: &Walk) -> Faults {
        let (n, q) = (walk.election.setting.n(), walk.election.setting.q());
        let mut faults = Faults::default();
        faults.image();
        faults.state(&[0]);
        faults.register();
        faults.slices(1);
        for (at, value) in [(4, q), (8 * n - 4, u64::MAX), (4 + 8 * n, q), (16 * n - 4, q + 1)] {
            faults.add(AFTER, 5, &format!("{value} at byte {at}"), move |case| put(slice(case, 0), at, value));
        }
        for (number, ballot) in [(32, 0), (33, 1), (32, 2), (33, 4)] {
            let mark = walk.election.mark(ballot).to_le_bytes();
            faults.add(AFTER, number, &format!("the mark of ballot {ballot}"), move |case| slice(case, 0)[..4].copy_from_slice(&mark));
        }
        faults.add(AFTER, 35, "4,096 entries used", |case| put(&mut case.host.image, USED, 4096));
        faults
    }

    /// In the same register.
    pub fn withdraw(walk: &Walk) -> Faults {
        let mut faults = Faults::default();
        faults.image();
        faults.state(&[0]);
        faults.register();
        for mark in [1, 4].map(|ballot| walk.election.mark(ballot)) {
            faults.add(AFTER, 33, &format!("mark {mark}"), move |case| case.step = Step::Withdraw { mark });
        }
        for mark in [77, u32::MAX - 1] {
            faults.add(AFTER, 35, &format!("mark {mark} with 4,096 entries used"), move |case| {
                put(&mut case.host.image, USED, 4096);
                case.step = Step::Withdraw { mark };
            });
        }
        faults
    }

    pub fn close() -> Faults {
        let mut faults = Faults::default();
        faults.image();
        faults.state(&[0]);
        faults.register();
        for byte in [0, 2, 255] {
            faults.add(AFTER, 36, &format!("state bytes {byte}"), move |case| case.host.register.chunks_mut(40).for_each(|entry| entry[4..5].fill(byte)));
        }
        faults.add(AFTER, 36, "no entries", |case| put(&mut case.host.image, USED, 0));
        faults
    }

    pub fn claim() -> Faults {
        let mut faults = Faults::default();
        faults.image();
        faults.state(&[1]);
        faults.slices(1);
        for claim in [2, 128, 255] {
            faults.add(AFTER, 5, &format!("a first claim {claim}"), move |case| slice(case, 0).iter_mut().take(1).for_each(|byte| *byte = claim));
            faults.add(AFTER, 5, &format!("a last claim {claim}"), move |case| slice(case, 0).iter_mut().rev().take(1).for_each(|byte| *byte = claim));
        }
        faults
    }

    pub fn commit(due: u64) -> Faults {
        let mut faults = Faults::default();
        faults.image();
        faults.state(&[2]);
        faults.round(due);
        faults.slices(3);
        faults
    }

    /// The rounds are all committed.
    pub fn draw(rounds: u64) -> Faults {
        let mut faults = Faults::default();
        faults.image();
        faults.state(&[2]);
        (0..rounds).for_each(|committed| faults.add(STATE, 31, &format!("{committed} rounds committed"), move |case| put(&mut case.host.image, COMMITTED, committed)));
        faults.slices(1);
        faults
    }

    pub fn challenges(rounds: u64) -> Faults {
        let mut faults = Faults::default();
        faults.image();
        faults.state(&[3, 4, 5]);
        for other in [rounds, rounds + 1, 256, 1 << 16, 1 << 32, u64::MAX] {
            faults.add(STATE, 31, &format!("round {other}"), move |case| {
                let Step::Challenges { round, .. } = &mut case.step else { panic!("another call") };
                *round = other;
            });
        }
        faults.slices(1);
        faults
    }

    pub fn turnout() -> Faults {
        let mut faults = Faults::default();
        faults.image();
        faults.state(&[0, 1, 2, 3, 4, 5]);
        faults.register();
        for enrolled in [0, 1_000_001, 1 << 32, u64::MAX] {
            faults.add(AFTER, 3, &format!("{enrolled} enrolled"), move |case| case.step = Step::Turnout { enrolled });
        }
        faults
    }

    /// All that a check of one round is refused for, and between its lengths and its ranges what differs from the stored digests.
    pub fn check(walk: &Walk, round: u64, case: &Case) -> Faults {
        let Step::Check { lent: right, .. } = &case.step else { panic!("another call") };
        let mut faults = Faults::default();
        faults.image();
        faults.state(&[3]);
        faults.round(round);
        for fault in check_faults::faults(&walk.round(round).whole, right).0 {
            let mut lent = right.clone();
            (fault.apply)(&mut lent);
            // side and challenges are not lent here
            if lent.number == right.number && lent["challenges"] == right["challenges"] {
                faults.of_round(fault);
            }
        }
        faults.stored();
        faults
    }

    fn of_round(&mut self, fault: faults::Fault) {
        let [step, place, number] = fault.rank;
        let sealed = step >= RANGES;
        let step = if sealed { AFTER + step } else if step == LENGTHS { SLICES } else { SHEET };
        self.at([step, place, number], fault.refusal, &fault.name, move |case| {
            let Step::Check { lent, .. } = &mut case.step else { panic!("another call") };
            (fault.apply)(lent);
            if sealed {
                seal(case);
            }
        });
    }

    /// 16 by each slice, by each digest of the session, and by its numbers.
    fn stored(&mut self) {
        // of the slices of a check: ballots, claims, head, shares
        for place in 1..6 {
            self.add(STORED, 16, &format!("slice {place}"), move |case| slice(case, place)[0] ^= 1);
        }
        for at in [41, 72, 89, 120, 121, 152] {
            self.add(STORED, 16, &format!("byte {at} of the image"), move |case| case.host.image[at] ^= 128);
        }
        self.add(STORED, 16, "another drown", |case| case.host.image[NUMBERS[2]] -= 1);
        self.add(STORED, 16, "another round's digest", |case| {
            let rounds = &mut case.host.image[201..];
            rounds.rotate_left(32);
        });
    }
}

/// Writes into the image the digests of what a check is lent.
fn seal(case: &mut Case) {
    let Step::Check { round, lent } = &case.step else { panic!("another call") };
    let Some(mut session) = Session::read(&case.host.image) else { panic!("the image has another length") };
    session.closing = session.closing_digest(&session.ballot_digests(&lent["ballots"]));
    session.claim = session.claim_digest(&lent["claims"]);
    session.rounds[*round as usize] = session.round_digest(*round, &first_message(lent));
    case.host.image = session.write();
}
