//! The independent session, from document 01 ("Register and session" and both sections on refusals) and document 02, L1: each step tests
//! in its order and writes only where it is taken, but for a check that is refused after 16, which ends the session refused.
use super::image::{Digest, Session, ACCEPTED, CLAIMED, CLOSED, DRAWN, ENTRIES, GATHERING, REFUSED, REGISTER};
use super::steps::{Host, Left, Step};
use crate::polynomials::words;
use crate::round::checker;
use crate::round::lent::{unless, Lent, Refusal};
use crate::scratch::{Scratch, SCRATCH};
use crate::sha3::sha3_256_on_lanes;
use crate::sheets;
use crate::stern::answer_length;

/// The value of a step that is taken.
type Taken = Result<u64, Refusal>;

fn refusal(number: u64) -> Refusal {
    Refusal { number, place: 0 }
}

fn digest(parts: &[&[u8]]) -> Digest {
    sha3_256_on_lanes(&parts.concat())
}

/// What a step leaves. An image of another length is refused 1 before all else.
pub fn run(host: &Host, step: &Step) -> Left {
    let mut left = Left { reply: 0, host: host.clone(), out: step.out().to_vec(), scratch: Scratch::Kept };
    let taken = match Session::read(&host.image) {
        None => Err(refusal(1)),
        Some(mut session) => {
            let taken = session.take(&mut left.host.register, &mut left.out, step);
            left.host.image = session.write();
            taken
        }
    };
    left.reply = taken.map_or_else(Refusal::reply, |value| 256 * value);
    left.scratch = Scratch::after(left.reply % 256, step.scratch());
    left
}

impl Session {
    fn take(&mut self, register: &mut [u8], out: &mut [u8], step: &Step) -> Taken {
        match step {
            Step::Clear { sheet } => self.clear(register, sheet),
            Step::Admit { ballot } => self.admit(register, ballot),
            Step::Withdraw { mark } => self.withdraw(register, *mark),
            Step::Close => self.close(register),
            Step::Claim { claims } => self.lodge_claims(claims),
            Step::Commit { round, first } => self.commit(*round, first),
            Step::Draw { seed } => self.draw(seed),
            Step::Check { round, lent } => self.check(*round, lent),
            Step::Challenges { round, .. } => self.challenges(*round, out),
            Step::Turnout { enrolled } => self.turnout(register, *enrolled),
        }
    }

    /// 31 unless the session is valid and in one of these phases.
    fn in_phase(&self, phases: &[u8]) -> Result<(), Refusal> {
        unless(self.valid() && phases.contains(&self.phase), 31, 0)
    }

    // ---- the register

    /// The entries used, in order of admission.
    fn entries<'a>(&self, register: &'a [u8]) -> impl Iterator<Item = &'a [u8]> {
        register.chunks(40).take(self.used as usize)
    }

    /// Of several entries with one mark the first decides: its place, and whether it stands.
    pub fn find(&self, register: &[u8], mark: &[u8]) -> Option<(usize, bool)> {
        let place = self.entries(register).position(|entry| entry[..4] == *mark)?;
        Some((place, register[40 * place + 4] == 1))
    }

    /// The digests of the standing entries.
    pub fn standing(&self, register: &[u8]) -> Vec<Digest> {
        self.entries(register).filter(|entry| entry[4] == 1).map(|entry| entry[8..].try_into().unwrap()).collect()
    }

    /// Writes an entry after those used, which it then is one of.
    fn enter(&mut self, register: &mut [u8], mark: &[u8], state: u8, digest: &Digest) {
        let entry = [mark, &[state, 0, 0, 0], digest].concat();
        register[40 * self.used as usize..][..40].copy_from_slice(&entry);
        self.used += 1;
    }

    // ---- the digests

    pub fn closing_digest(&self, ballots: &[Digest]) -> Digest {
        digest(&[&self.sheet, &ballots.concat()])
    }

    pub fn claim_digest(&self, claims: &[u8]) -> Digest {
        digest(&[&self.closing, claims])
    }

    pub fn round_digest(&self, round: u64, first: &[Vec<u8>; 3]) -> Digest {
        digest(&[&self.claim, &(round as u16).to_le_bytes(), &first.concat()])
    }

    /// The digest that an entry has for a ballot.
    pub fn ballot_digests(&self, ballots: &[u8]) -> Vec<Digest> {
        ballots.chunks(4 + 16 * self.n()).map(|ballot| digest(&[ballot])).collect()
    }

    /// The side and the challenges of a round.
    pub fn drawn(&self, round: u64) -> (u64, Vec<u8>) {
        let block = |c: u16| digest(&[&self.seed, &(round as u16).to_le_bytes(), &c.to_le_bytes()]);
        let mut stream = (0..=u16::MAX).flat_map(|c| words(&block(c)));
        let side = stream.next().map_or(0, |number| number % 2);
        (side, stream.take(self.repeats()).map(|number| 1 + (number % 3) as u8).collect())
    }

    // ---- the steps

    fn clear(&mut self, register: &mut [u8], sheet: &[u8]) -> Taken {
        unless(register.len() == REGISTER, 1, 0)?;
        let (read, _) = sheets::read(sheet).map_err(refusal)?;
        *self = Session::new(read.numbers, digest(&[sheet]));
        register.fill(0);
        Ok(0)
    }

    fn admit(&mut self, register: &mut [u8], ballot: &[u8]) -> Taken {
        self.in_phase(&[GATHERING])?;
        unless(register.len() == REGISTER && ballot.len() == 4 + 16 * self.n(), 1, 0)?;
        let (mark, coefficients) = ballot.split_at(4);
        unless(words(coefficients).into_iter().all(|x| x < self.numbers[1]), 5, 0)?;
        let found = self.find(register, mark);
        unless(found.is_none_or(|(_, stands)| !stands), 32, 0)?;
        unless(found.is_none(), 33, 0)?;
        unless(self.used < ENTRIES, 35, 0)?;
        self.enter(register, mark, 1, &digest(&[ballot]));
        Ok(0)
    }

    /// A mark with no entry gets a withdrawn one, with zeros for the digest: its ballot may still come. 35 is for such a mark only.
    fn withdraw(&mut self, register: &mut [u8], mark: u32) -> Taken {
        self.in_phase(&[GATHERING])?;
        unless(register.len() == REGISTER, 1, 0)?;
        let mark = mark.to_le_bytes();
        let found = self.find(register, &mark);
        unless(found.is_none_or(|(_, stands)| stands), 33, 0)?;
        unless(found.is_some() || self.used < ENTRIES, 35, 0)?;
        match found {
            Some((place, _)) => register[40 * place + 4] = 2,
            None => self.enter(register, &mark, 2, &[0; 32]),
        }
        Ok(0)
    }

    fn close(&mut self, register: &[u8]) -> Taken {
        self.in_phase(&[GATHERING])?;
        unless(register.len() == REGISTER, 1, 0)?;
        let standing = self.standing(register);
        unless(!standing.is_empty(), 36, 0)?;
        self.closing = self.closing_digest(&standing);
        self.closed = standing.len() as u64;
        self.phase = CLOSED;
        Ok(0)
    }

    fn lodge_claims(&mut self, claims: &[u8]) -> Taken {
        self.in_phase(&[CLOSED])?;
        unless(claims.len() == self.n() * self.closed as usize, 1, 0)?;
        unless(claims.iter().all(|claim| *claim < 2), 5, 0)?;
        self.claim = self.claim_digest(claims);
        self.phase = CLAIMED;
        Ok(0)
    }

    fn first_lengths(&self) -> [usize; 3] {
        let shares = 8 * self.n() * self.closed as usize;
        [80 * self.n() + 96 * self.repeats(), shares, shares]
    }

    fn commit(&mut self, round: u64, first: &[Vec<u8>; 3]) -> Taken {
        self.in_phase(&[CLAIMED])?;
        unless(round == self.committed && round < self.round_count(), 31, 0)?;
        unless(first.each_ref().map(Vec::len) == self.first_lengths(), 1, 0)?;
        self.rounds[round as usize] = self.round_digest(round, first);
        self.committed += 1;
        Ok(0)
    }

    fn draw(&mut self, seed: &[u8]) -> Taken {
        self.in_phase(&[CLAIMED])?;
        unless(self.committed == self.round_count(), 31, 0)?;
        self.seed = seed.try_into().map_err(|_| refusal(1))?;
        self.phase = DRAWN;
        Ok(0)
    }

    fn challenges(&self, round: u64, out: &mut [u8]) -> Taken {
        self.in_phase(&[DRAWN, REFUSED, ACCEPTED])?;
        unless(round < self.round_count(), 31, 0)?;
        unless(out.len() == 1 + self.repeats(), 1, 0)?;
        let (side, challenges) = self.drawn(round);
        out[0] = side as u8;
        out[1..].copy_from_slice(&challenges);
        Ok(0)
    }

    fn turnout(&self, register: &[u8], enrolled: u64) -> Taken {
        unless(self.valid(), 31, 0)?;
        unless(register.len() == REGISTER, 1, 0)?;
        unless((1..=1_000_000).contains(&enrolled), 3, 0)?;
        Ok(thousandths(self.standing(register).len() as u64, enrolled))
    }

    // ---- the check of a round

    fn check(&mut self, round: u64, lent: &Lent) -> Taken {
        self.in_phase(&[DRAWN])?;
        unless(round == self.checked && round < self.round_count(), 31, 0)?;
        let (sheet, _) = sheets::read(&lent["sheet"]).map_err(refusal)?;
        let (side, challenges) = self.drawn(round);
        unless(self.check_sized(lent, &challenges), 1, 0)?;
        unless(sheet.numbers == self.numbers && self.stored(round, lent), 16, 0)?;
        let mut drawn = lent.clone();
        drawn.number = side;
        drawn["challenges"] = challenges;
        if let Err(refusal) = checker::check(&drawn) {
            self.phase = REFUSED;
            return Err(refusal);
        }
        self.checked += 1;
        if self.checked == self.round_count() {
            self.phase = ACCEPTED;
        }
        Ok(0)
    }

    /// The lengths by the session's numbers and its closed count.
    fn check_sized(&self, lent: &Lent, challenges: &[u8]) -> bool {
        let (n, closed) = (self.n(), self.closed as usize);
        let answers = challenges.iter().map(|challenge| answer_length(n, *challenge)).sum();
        let [head, shares, _] = self.first_lengths();
        let ours = [("ballots", (4 + 16 * n) * closed), ("claims", n * closed), ("opening", 22 * n), ("answers", answers)];
        let first = [("head", head), ("shares0", shares), ("shares1", shares)];
        ours.iter().chain(&first).all(|(name, length)| lent[name].len() == *length) && lent.scratch == SCRATCH
    }

    /// Whether sheet, ballots, claims and first message are those of the stored digests.
    fn stored(&self, round: u64, lent: &Lent) -> bool {
        digest(&[&lent["sheet"]]) == self.sheet
            && self.closing_digest(&self.ballot_digests(&lent["ballots"])) == self.closing
            && self.claim_digest(&lent["claims"]) == self.claim
            && self.round_digest(round, &first_message(lent)) == self.rounds[round as usize]
    }
}

/// So many of the enrolled, half up: the whole part of thousandths + 1/2.
pub fn thousandths(standing: u64, enrolled: u64) -> u64 {
    (2000 * standing + enrolled) / (2 * enrolled)
}

/// The three slices of a first message.
pub fn first_message(lent: &Lent) -> [Vec<u8>; 3] {
    ["head", "shares0", "shares1"].map(|name| lent[name].clone())
}
