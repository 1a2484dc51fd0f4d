//! One thing wrong with what a call is lent, and the refusal that follows: alone, and together with a second, of which the earlier in the call's order decides.
use super::lent::{refused, Lent, Refusal};
use crate::random::Random;
use crate::sheets;
use crate::tally::Comparison;

/// Where a test stands in a call's order: its step, the repetition, ballot or answer within the step, and its number.
pub type Rank = [u64; 3];

pub struct Fault {
    pub name: String,
    pub rank: Rank,
    pub refusal: Refusal,
    pub apply: Box<dyn Fn(&mut Lent)>,
}

/// The steps that every call begins with.
pub const SHEET: u64 = 0;
pub const LENGTHS: u64 = 1;
pub const RANGES: u64 = 2;

#[derive(Default)]
pub struct Faults(pub Vec<Fault>);

impl Faults {
    /// A fault in a step, at a place within it that the refusal names if its number has one.
    pub fn add(&mut self, step: u64, number: u64, place: usize, name: &str, apply: impl Fn(&mut Lent) + 'static) {
        let refusal = Refusal { number, place: place as u64 };
        self.0.push(Fault { name: format!("{name}, {number} at {place}"), rank: [step, refusal.place, number], refusal, apply: Box::new(apply) });
    }

    /// A number out of range, at a byte of a slice.
    pub fn past(&mut self, slice: &'static str, at: usize, value: u64) {
        self.add(RANGES, 5, 0, &format!("{slice} with {value} at byte {at}"), move |lent| put(&mut lent[slice], at, value));
    }

    /// A byte out of range.
    pub fn past_byte(&mut self, slice: &'static str, at: usize, value: u8) {
        self.add(RANGES, 5, 0, &format!("{slice} with {value} at byte {at}"), move |lent| lent[slice][at] = value);
    }

    /// The plain number that is lent, out of range.
    pub fn past_number(&mut self, value: u64) {
        self.add(RANGES, 5, 0, &format!("{value} for the number"), move |lent| lent.number = value);
    }

    /// Sheets that are refused, by each number of the sheet's order.
    pub fn sheets(&mut self, lent: &Lent) {
        for (number, name, text) in refused_sheets(&lent["sheet"]) {
            self.add(SHEET, number, 0, name, move |lent| lent["sheet"] = text.clone());
        }
    }

    /// Every slice but the sheet a byte longer, a byte shorter and empty; scratch likewise; a ballot too many.
    pub fn lengths(&mut self, lent: &Lent) {
        for name in lent.call.reads[1..].iter().chain(lent.call.writes).copied() {
            self.add(LENGTHS, 1, 0, &format!("{name} a byte longer"), move |lent| lent[name].push(0));
            self.add(LENGTHS, 1, 0, &format!("{name} a byte shorter"), move |lent| {
                lent[name].pop();
            });
            self.add(LENGTHS, 1, 0, &format!("{name} empty"), move |lent| lent[name].clear());
        }
        for length in [0, lent.scratch - 1, lent.scratch + 1] {
            self.add(LENGTHS, 1, 0, &format!("scratch of {length}"), move |lent| lent.scratch = length);
        }
        self.add(LENGTHS, 1, 0, "a ballot too many", |lent| {
            let half = lent["ballots"].len() / 2;
            lent["ballots"].extend_from_within(..half);
        });
    }

    /// Each fault alone; then, for any two ranks, one fault of each, the later applied first so that it cannot undo the earlier.
    pub fn run(&self, c: &mut Comparison, random: &mut Random, base: &Lent) {
        for fault in &self.0 {
            let mut lent = base.clone();
            (fault.apply)(&mut lent);
            refused(c, &lent, fault.refusal, || fault.name.clone());
        }
        let mut ranks: Vec<Rank> = self.0.iter().map(|fault| fault.rank).collect();
        ranks.sort_unstable();
        ranks.dedup();
        let mut any = |rank: Rank| {
            let same: Vec<&Fault> = self.0.iter().filter(|fault| fault.rank == rank).collect();
            same[random.below(same.len() as u64) as usize]
        };
        for (i, later) in ranks.iter().enumerate() {
            for earlier in &ranks[..i] {
                let both = [any(*later), any(*earlier)];
                let mut lent = base.clone();
                both.iter().for_each(|fault| (fault.apply)(&mut lent));
                refused(c, &lent, both[1].refusal, || format!("{} before {}", both[1].name, both[0].name));
            }
        }
    }
}

/// A sheet with one thing wrong, for each number of the sheet's order: the number, what is wrong, and the text.
pub fn refused_sheets(text: &[u8]) -> Vec<(u64, &'static str, Vec<u8>)> {
    let (right, _) = sheets::read(text).unwrap_or_else(|number| panic!("the sheet is refused {number}"));
    let other = |change: &dyn Fn(&mut sheets::Sheet)| {
        let mut changed = right.clone();
        change(&mut changed);
        changed.text().into_bytes()
    };
    vec![
        (1, "an empty sheet", Vec::new()),
        (1, "a sheet above 262,144 bytes", vec![b'\n'; 262_145]),
        (2, "a sheet without its last line feed", right.text().trim_end().into()),
        (3, "a sheet of no rounds", other(&|s| s.numbers[3] = 0)),
        (4, "a sheet whose 2N does not divide q - 1", other(&|s| s.numbers[1] += 2)),
        (5, "a sheet with a coefficient too many", other(&|s| s.lists[4].push(0))),
        (5, "a sheet with q for a coefficient", other(&|s| s.lists[0][0] = s.numbers[1])),
    ]
}

pub fn number(slice: &[u8], at: usize) -> u64 {
    u64::from_le_bytes(slice[at..at + 8].try_into().unwrap())
}

pub fn put(slice: &mut [u8], at: usize, value: u64) {
    slice[at..at + 8].copy_from_slice(&value.to_le_bytes());
}

/// Adds to the coefficient at a byte, modulo q.
pub fn add(slice: &mut [u8], at: usize, value: i128, q: i128) {
    let sum = (i128::from(number(slice, at)) + value).rem_euclid(q);
    put(slice, at, sum as u64);
}

/// Another ternary byte.
pub fn turn(slice: &mut [u8], at: usize) {
    slice[at] = (slice[at] + 1) % 3;
}
