//! The calls of a session over C.
use super::steps::{Host, Left, Step};
use crate::round::calls::{first, first_mut};
use crate::round::lent::Lent;
use crate::scratch::{with_scratch, Scratch};

type In = *const u8;
type Out = *mut u8;

extern "C" {
    fn jdn_image_length() -> u64;
    fn jdn_scratch_length() -> u64;
    fn jdn_register_length() -> u64;
    fn jdn_clear(image: Out, _: usize, register: Out, _: usize, sheet: In, _: usize) -> u64;
    fn jdn_admit(image: Out, _: usize, register: Out, _: usize, ballot: In, _: usize) -> u64;
    fn jdn_withdraw(image: Out, _: usize, register: Out, _: usize, mark: u32) -> u64;
    fn jdn_close(image: Out, _: usize, register: In, _: usize) -> u64;
    fn jdn_claim(image: Out, _: usize, claims: In, _: usize) -> u64;
    fn jdn_commit(image: Out, _: usize, round: u64, head: In, _: usize, shares0: In, _: usize, shares1: In, _: usize) -> u64;
    fn jdn_draw(image: Out, _: usize, seed: In, _: usize) -> u64;
    fn jdn_check(
        image: Out, _: usize, sheet: In, _: usize, ballots: In, _: usize, claims: In, _: usize, round: u64, head: In, _: usize, shares0: In, _: usize,
        shares1: In, _: usize, opening: In, _: usize, answers: In, _: usize, scratch: Out, _: usize,
    ) -> u64;
    fn jdn_challenges(image: In, _: usize, round: u64, out: Out, _: usize) -> u64;
    fn jdn_turnout(image: In, _: usize, register: In, _: usize, enrolled: u64) -> u64;
}

/// The lengths of image, scratch and register that the library names.
pub fn lengths() -> [u64; 3] {
    // The calls are lent nothing.
    unsafe { [jdn_image_length(), jdn_scratch_length(), jdn_register_length()] }
}

pub fn run(host: &Host, step: &Step) -> Left {
    let Host { mut image, mut register } = host.clone();
    let mut out = step.out().to_vec();
    let (i, r) = ((first_mut(&mut image), image.len()), (first_mut(&mut register), register.len()));
    let lent = |slice: &[u8]| (first(slice), slice.len());
    let mut scratch = Scratch::Kept;
    // All slices are live and apart for the call; an empty one is null.
    let reply = unsafe {
        match step {
            Step::Clear { sheet } => jdn_clear(i.0, i.1, r.0, r.1, lent(sheet).0, sheet.len()),
            Step::Admit { ballot } => jdn_admit(i.0, i.1, r.0, r.1, lent(ballot).0, ballot.len()),
            Step::Withdraw { mark } => jdn_withdraw(i.0, i.1, r.0, r.1, *mark),
            Step::Close => jdn_close(i.0, i.1, r.0, r.1),
            Step::Claim { claims } => jdn_claim(i.0, i.1, lent(claims).0, claims.len()),
            Step::Commit { round, first } => {
                let [head, shares0, shares1] = first.each_ref().map(|slice| lent(slice));
                jdn_commit(i.0, i.1, *round, head.0, head.1, shares0.0, shares0.1, shares1.0, shares1.1)
            }
            Step::Draw { seed } => jdn_draw(i.0, i.1, lent(seed).0, seed.len()),
            Step::Check { round, lent } => {
                let (reply, left) = with_scratch(lent.scratch, |room| check(i, *round, lent, room));
                scratch = left;
                reply
            }
            Step::Challenges { round, .. } => jdn_challenges(i.0, i.1, *round, first_mut(&mut out), out.len()),
            Step::Turnout { enrolled } => jdn_turnout(i.0, i.1, r.0, r.1, *enrolled),
        }
    };
    Left { reply, host: Host { image, register }, out, scratch }
}

fn check(image: (Out, usize), round: u64, lent: &Lent, room: &mut [u8]) -> u64 {
    let names = ["sheet", "ballots", "claims", "head", "shares0", "shares1", "opening", "answers"];
    let [t, b, c, h, s, o, p, a] = names.map(|name| (first(&lent[name]), lent[name].len()));
    // All slices are live and apart for the call; an empty one is null.
    unsafe {
        jdn_check(
            image.0, image.1, t.0, t.1, b.0, b.1, c.0, c.1, round, h.0, h.1, s.0, s.1, o.0, o.1, p.0, p.1, a.0, a.1, first_mut(room), room.len(),
        )
    }
}
