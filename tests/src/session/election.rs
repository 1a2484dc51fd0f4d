//! An election to try: a sheet with a key, ballots under it, and rounds of an honest producer for any of the ballots.
use super::image::Session;
use super::steps::Host;
use crate::random::Random;
use crate::round::lent::Lent;
use crate::round::material::{Modulus, Plan};
use crate::round::setting::Setting;
use crate::round::whole::Whole;
use crate::stern::{coefficients, permutation};

pub struct Election {
    pub plan: Plan,
    pub setting: Setting,
    pub sheet: Vec<u8>,
    pub ballots: Vec<Vec<u8>>,
    material: Lent,
}

/// A round, and what its producer was lent for the first message.
pub struct Round {
    pub material: Lent,
    pub whole: Whole,
}

/// The numbers of a small election: the fewest repetitions that its rounds allow.
pub fn small(random: &mut Random, n: usize) -> Plan {
    let modulus = [Modulus::Least, Modulus::Any, Modulus::Largest][random.below(3) as usize];
    let drown = [0, 1, 7, 40][random.below(4) as usize];
    Plan { n, ballots: 6, drown, rounds: 1 + random.below(3), more: 0, modulus, extreme: false }
}

/// Marks of which no two are the same: the factor is odd.
pub fn distinct_mark(i: usize) -> u32 {
    (i as u32).wrapping_mul(0x9E37_79B1)
}

impl Election {
    /// The first mark is 0, the second the largest, and the last is that of the third, on another ballot.
    pub fn new(random: &mut Random, plan: Plan) -> Election {
        let material = plan.material(random);
        let setting = Setting::read(&material["sheet"]).unwrap_or_else(|refusal| panic!("the sheet is refused {}", refusal.number));
        let mut ballots: Vec<Vec<u8>> = material["ballots"].chunks(4 + 16 * plan.n).map(<[u8]>::to_vec).collect();
        for (ballot, mark) in ballots.iter_mut().zip([0, u32::MAX]) {
            ballot[..4].copy_from_slice(&mark.to_le_bytes());
        }
        if let [_, _, third, .., last] = &mut ballots[..] {
            last[..4].copy_from_slice(&third[..4]);
        }
        Election { plan, setting, sheet: material["sheet"].clone(), ballots, material }
    }

    pub fn mark(&self, ballot: usize) -> u32 {
        u32::from_le_bytes(self.ballots[ballot][..4].try_into().unwrap())
    }

    /// Any of the ballots.
    pub fn any(&self, random: &mut Random) -> usize {
        random.below(self.ballots.len() as u64) as usize
    }

    /// The ballots that stand in a register, end to end; for a digest of no ballot the first one.
    pub fn batch(&self, host: &Host) -> Vec<u8> {
        let Some(session) = Session::read(&host.image) else { return Vec::new() };
        let known: Vec<_> = self.ballots.iter().map(|ballot| crate::sha3::sha3_256_on_lanes(ballot)).collect();
        let place = |digest| known.iter().position(|one| *one == digest).unwrap_or(0);
        session.standing(&host.register).into_iter().flat_map(|digest| self.ballots[place(digest)].clone()).collect()
    }

    /// What a producer is lent for a round over these ballots: the key stays, all else is drawn anew.
    pub fn material(&self, random: &mut Random, batch: &[u8]) -> Lent {
        let (z, n, q) = (&self.setting, self.setting.n(), self.setting.q());
        let plan = Plan { ballots: batch.len() / (4 + 16 * n), ..self.plan };
        let mut lent = self.material.clone();
        lent["secrets"][2 * n..].iter_mut().for_each(|byte| *byte = random.below(3) as u8);
        for half in ["s0", "e0"] {
            lent[half] = coefficients(random, n, q, false);
        }
        for masks in ["masks0", "masks1"] {
            lent[masks] = plan.masks(random, z.bound);
        }
        lent["vectors"] = coefficients(random, 42 * n * z.repeats, q, false);
        lent["permutations"] = (0..z.repeats).flat_map(|_| permutation(random, 42 * n)).collect();
        lent["salts"] = random.bytes(96 * z.repeats);
        lent["ballots"] = batch.to_vec();
        for (name, length) in z.message_lengths(plan.ballots) {
            lent[name] = random.bytes(length);
        }
        lent
    }

    /// As many rounds as the sheet asks for.
    pub fn rounds(&self, random: &mut Random, batch: &[u8]) -> Vec<Round> {
        let round = |_| {
            let material = self.material(random, batch);
            let whole = Whole::honest(&material);
            Round { material, whole }
        };
        (0..self.plan.rounds).map(round).collect()
    }
}
