//! Right cases on document 01's small ring, from its own numbers: the digest, the sheet, the scheme, and a round with the example's ballot or with none.
use super::cases::{scratch, zeroed, Right, Taken};
use super::lent::Lent;
use super::library::Call;
use crate::calls;
use crate::polynomials::{words, Ring};
use crate::random::Random;
use crate::round::lent;
use crate::round::material::{Modulus, Plan};
use crate::round::opened::theirs;
use crate::round::whole::{second, Whole};
use crate::sha3::sha3_256;
use crate::sheet::document as sheet;
use crate::tally::{Comparison, Tally};
use std::rc::Rc;

pub const NO_BALLOTS: &str = " with no ballots";

/// s = 1 - X^2, e = X; r = X, e' = 0, e'' = 1, m.
const S: [u8; 4] = [1, 0, 2, 0];
const E: [u8; 4] = [0, 1, 0, 0];
const R: [u8; 4] = [0, 1, 0, 0];
const E1: [u8; 4] = [0; 4];
const E2: [u8; 4] = [1, 0, 0, 0];
const M: [u8; 4] = [1, 0, 1, 1];
/// u, v, s0, t0 and t1.
const U: [i64; 4] = [0, 3, 5, 0];
const V: [i64; 4] = [8, 3, 8, 95];
const S0: [i64; 4] = [10, 20, 30, 40];
const T0: [i64; 4] = [29, 16, 13, 95];
const T1: [i64; 4] = [81, 74, 0, 90];
/// The masks of both sides.
const MASKS: [[i64; 4]; 2] = [[4, -4, 0, 1], [0, -1, 4, -4]];
/// 33^4 is -1 modulo 97.
pub const ROOT: u64 = 33;
pub const MARK: u32 = 7;
/// A mark that no ballot has and no entry, and one whose withdrawal was taken before its ballot came.
pub const UNKNOWN: u32 = 8;
pub const WITHDRAWN: u32 = 9;

pub fn text() -> Vec<u8> {
    sheet().text().into_bytes()
}

fn numbers(values: [i64; 4]) -> Vec<u8> {
    values.map(i64::to_le_bytes).concat()
}

/// The example's ballot.
pub fn ballot() -> Vec<u8> {
    [MARK.to_le_bytes().to_vec(), numbers(U), numbers(V)].concat()
}

// ---- digest and sheet

fn digest(random: &mut Random) -> Right {
    let taken = |lent: &Lent| Taken { value: 0, written: vec![("out", sha3_256(lent.slices[0].lent()).to_vec())] };
    Right { call: Call::named("jdn_digest"), what: "", slices: vec![random.bytes(136), random.bytes(32)], numbers: Vec::new(), taken: Rc::new(taken) }
}

fn read(random: &mut Random) -> Right {
    let out: Vec<u8> = [4_u64, 19, 4, 56].map(u64::to_le_bytes).concat();
    Right::new("jdn_sheet", "", vec![text(), random.bytes(32)], Vec::new(), 0, vec![text(), out])
}

// ---- the scheme

/// A call of the scheme, lent these slices beside the sheet.
fn scheme(random: &mut Random, name: &str, inputs: &[&[u8]]) -> Right {
    let call = calls::CALLS.iter().find(|call| call.name == name).unwrap_or_else(|| panic!("the scheme has no {name}"));
    let inputs: Vec<Vec<u8>> = inputs.iter().map(|slice| slice.to_vec()).collect();
    let out = (call.writes)(&Ring { n: 4, q: 97 }, &sheet(), &inputs);
    let all = |out: Vec<u8>, scratch: Vec<u8>| [vec![text()], inputs.clone(), vec![out, scratch]].concat();
    let kept = random.bytes(out.len());
    Right::new(&format!("jdn_{name}"), "", all(kept, scratch()), Vec::new(), 0, all(out, zeroed()))
}

fn schemes(random: &mut Random) -> Vec<Right> {
    let [u, v, s0, t0, t1] = [U, V, S0, T0, T1].map(numbers);
    let ciphertext = [u.clone(), v.clone()].concat();
    let r: Vec<u8> = [R, S, E2].concat();
    vec![
        scheme(random, "keygen", &[&S, &E]),
        scheme(random, "encrypt", &[&R, &E1, &E2, &M]),
        scheme(random, "decrypt", &[&S, &ciphertext]),
        scheme(random, "split", &[&S, &E, &s0, &u]),
        scheme(random, "share", &[&s0, &u, &numbers(MASKS[0])]),
        scheme(random, "reconstruct", &[&v, &t0, &t1]),
        scheme(random, "commitment", &[&s0, &r]),
        scheme(random, "product", &[&s0, &v]),
        by_transform(scheme(random, "product", &[&s0, &v])),
    ]
}

/// The product by transform is lent the root beside what the plain one is lent, and leaves the same.
fn by_transform(plain: Right) -> Right {
    Right { call: Call::named("jdn_multiply"), numbers: vec![ROOT], ..plain }
}

// ---- a round

/// What the producer's first call is lent. The plan's numbers are below 81, and so below the sheet's modulus; its mask bound is the sheet's.
pub fn material(random: &mut Random, ballots: usize) -> lent::Lent {
    let plan = Plan { n: 4, ballots, drown: 0, rounds: 1, more: 0, modulus: Modulus::Least, extreme: false };
    let mut lent = plan.material(random);
    lent["sheet"] = text();
    lent["secrets"][..8].copy_from_slice(&[S, E].concat());
    lent["s0"] = numbers(S0);
    if ballots > 0 {
        (lent["masks0"], lent["masks1"], lent["ballots"]) = (numbers(MASKS[0]), numbers(MASKS[1]), ballot());
    }
    lent
}

/// A call of a round, with what the independent one leaves.
fn round(name: &str, what: &'static str, lent: &lent::Lent, numbers: Vec<u64>) -> Right {
    let (value, outputs) = (lent.call.independent)(lent).unwrap_or_else(|refusal| panic!("{name} is refused {refusal:?}"));
    let all = |outputs: &[Vec<u8>], scratch: Vec<u8>| [lent.slices.clone(), outputs.to_vec(), vec![scratch]].concat();
    Right::new(name, what, all(&lent.outputs, scratch()), numbers, value, all(&outputs, zeroed()))
}

fn rounds(random: &mut Random, ballots: usize, what: &'static str) -> Vec<Right> {
    let first = material(random, ballots);
    let whole = Whole::honest(&first);
    let asked = second(random, &first, &whole, 1, &[2]);
    let extract = whole.extract(random, 0);
    vec![
        round("jdn_produce_first", what, &first, Vec::new()),
        round("jdn_produce_second", what, &asked, vec![1]),
        round("jdn_extract", what, &extract, vec![0]),
    ]
}

/// Ballot 1 of two, of side 1.
fn opened() -> Right {
    let shares = [numbers(T0), numbers(T1)].concat();
    let taken = |lent: &Lent| Taken { value: theirs(1, 4, [lent.slices[0].length, lent.slices[1].length], 1), written: Vec::new() };
    Right { call: Call::named("jdn_opened_share"), what: "", slices: vec![shares.clone(), shares], numbers: vec![1, 4, 1], taken: Rc::new(taken) }
}

pub fn rights(random: &mut Random) -> Vec<Right> {
    let ring = [vec![digest(random), read(random)], schemes(random)].concat();
    [ring, rounds(random, 1, ""), rounds(random, 0, NO_BALLOTS), vec![opened()]].concat()
}

/// The right cases have the numbers that document 01 works out by hand.
pub fn document(tally: &mut Tally, rights: &[Right]) {
    let mut c = Comparison::default();
    let output = |name: &str, out: &str| rights.iter().find(|right| right.call.name == name).map_or(Vec::new(), |right| right.output(out));
    c.same(|| "A".into(), words(&output("jdn_keygen", "b")), vec![3, 7, 94, 92]);
    c.same(|| "B".into(), output("jdn_encrypt", "ciphertext"), [numbers(U), numbers(V)].concat());
    c.same(|| "C".into(), output("jdn_decrypt", "vote"), M.to_vec());
    c.same(|| "D".into(), words(&output("jdn_split", "out")[..32]), vec![88, 77, 66, 57]);
    c.same(|| "E".into(), output("jdn_share", "t"), numbers(T0));
    c.same(|| "E and F of the round".into(), ["shares0", "shares1"].map(|out| output("jdn_produce_first", out)), [T0, T1].map(numbers));
    c.same(|| "G".into(), ["jdn_reconstruct", "jdn_produce_first"].map(|name| output(name, if name == "jdn_reconstruct" { "vote" } else { "claims" })), [M, M].map(|m| m.to_vec()));
    let value = |name: &str| rights.iter().filter(|right| right.call.name == name).map(|right| (right.taken)(&right.lent()).value).collect::<Vec<_>>();
    c.same(|| "K".into(), value("jdn_turnout"), vec![63]);
    c.claim(tally, "empty: the right cases are document 01's small ring");
}
