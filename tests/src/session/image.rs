//! A session and its image (document 01, "Register and session"): which byte is what, and which sessions are refused 31 whatever is asked of them.
use crate::sheets;

pub const IMAGE: usize = 4297;
/// The most entries that a register has, and its length.
pub const ENTRIES: u64 = 4096;
pub const REGISTER: usize = 163_840;

/// The phases.
pub const GATHERING: u8 = 0;
pub const CLOSED: u8 = 1;
pub const CLAIMED: u8 = 2;
pub const DRAWN: u8 = 3;
pub const REFUSED: u8 = 4;
pub const ACCEPTED: u8 = 5;

/// Where each field begins.
pub const PHASE: usize = 0;
pub const NUMBERS: [usize; 5] = [1, 9, 17, 25, 33];
pub const SHEET: usize = 41;
pub const USED: usize = 73;
pub const CLOSED_COUNT: usize = 81;
pub const CLOSING: usize = 89;
pub const CLAIM: usize = 121;
pub const COMMITTED: usize = 153;
pub const SEED: usize = 161;
pub const CHECKED: usize = 193;
pub const ROUNDS: usize = 201;

pub type Digest = [u8; 32];

#[derive(Clone)]
pub struct Session {
    pub phase: u8,
    /// ring, modulus, drown, rounds, repeats
    pub numbers: [u64; 5],
    pub sheet: Digest,
    /// entries used, and ballots that close found standing
    pub used: u64,
    pub closed: u64,
    pub closing: Digest,
    pub claim: Digest,
    /// rounds committed and rounds checked
    pub committed: u64,
    pub checked: u64,
    pub seed: Digest,
    /// a digest for each of 128 rounds
    pub rounds: Vec<Digest>,
}

impl Session {
    /// The session of an image that has the right length.
    pub fn read(image: &[u8]) -> Option<Session> {
        let number = |at: usize| u64::from_le_bytes(image[at..at + 8].try_into().unwrap());
        let digest = |at: usize| image[at..at + 32].try_into().unwrap();
        (image.len() == IMAGE).then(|| Session {
            phase: image[PHASE],
            numbers: NUMBERS.map(number),
            sheet: digest(SHEET),
            used: number(USED),
            closed: number(CLOSED_COUNT),
            closing: digest(CLOSING),
            claim: digest(CLAIM),
            committed: number(COMMITTED),
            checked: number(CHECKED),
            seed: digest(SEED),
            rounds: (0..128).map(|k| digest(ROUNDS + 32 * k)).collect(),
        })
    }

    pub fn write(&self) -> Vec<u8> {
        let mut image = vec![0; IMAGE];
        let mut put = |at: usize, bytes: &[u8]| image[at..at + bytes.len()].copy_from_slice(bytes);
        put(PHASE, &[self.phase]);
        put(NUMBERS[0], &self.numbers.map(u64::to_le_bytes).concat());
        for (at, number) in [(USED, self.used), (CLOSED_COUNT, self.closed), (COMMITTED, self.committed), (CHECKED, self.checked)] {
            put(at, &number.to_le_bytes());
        }
        for (at, digest) in [(SHEET, self.sheet), (CLOSING, self.closing), (CLAIM, self.claim), (SEED, self.seed)] {
            put(at, &digest);
        }
        put(ROUNDS, &self.rounds.concat());
        image
    }

    /// A session newly cleared with a sheet of these numbers and this digest.
    pub fn new(numbers: [u64; 5], sheet: Digest) -> Session {
        let none = [0; 32];
        Session { phase: GATHERING, numbers, sheet, used: 0, closed: 0, closing: none, claim: none, committed: 0, checked: 0, seed: none, rounds: vec![none; 128] }
    }

    pub fn n(&self) -> usize {
        self.numbers[0] as usize
    }

    pub fn round_count(&self) -> u64 {
        self.numbers[3]
    }

    pub fn repeats(&self) -> usize {
        self.numbers[4] as usize
    }

    /// A known phase, no count past its limit, and no numbers that 3 or 4 refuse.
    pub fn valid(&self) -> bool {
        let entries = self.used <= ENTRIES && self.closed <= ENTRIES;
        let rounds = self.committed <= self.round_count() && self.checked <= self.round_count();
        self.phase <= ACCEPTED && entries && rounds && sheets::judged(&self.numbers).is_ok()
    }
}
