//! What is expected of each call, from document 01's orders and document 02's for withdraw and multiply: in which step each slice's length
//! is looked at, and what else can be wrong before and after.
use super::lent::{Lent, Slice, Way};
use super::small::{ROOT, UNKNOWN, WITHDRAWN};
use crate::round::faults::{put, refused_sheets};
use crate::session::image::{PHASE, USED};

/// A step of a call's order.
#[derive(Clone, Copy)]
pub enum Step {
    /// 1 where one of these has another length than it should
    Lengths(&'static [&'static str]),
    /// 31
    State,
    /// the sheet's own order: 1 where it is empty or too long, then 2 to 5
    Sheet,
    /// 37
    Root,
    /// what comes after the lengths, and after the root
    Rest,
}

use Step::{Lengths, Rest, Root, Sheet, State};

/// A slice that no step names may have any length.
pub struct Order {
    pub call: &'static str,
    pub steps: &'static [Step],
}

const fn order(call: &'static str, steps: &'static [Step]) -> Order {
    Order { call, steps }
}

const IMAGE: Step = Lengths(&["image"]);

pub static ORDERS: [Order; 25] = [
    order("jdn_digest", &[Lengths(&["out"])]),
    order("jdn_sheet", &[Lengths(&["out"]), Sheet]),
    order("jdn_keygen", &[Sheet, Lengths(&["s", "e", "b", "scratch"]), Rest]),
    order("jdn_encrypt", &[Sheet, Lengths(&["r", "e1", "e2", "m", "ciphertext", "scratch"]), Rest]),
    order("jdn_decrypt", &[Sheet, Lengths(&["s", "ciphertext", "vote", "scratch"]), Rest]),
    order("jdn_split", &[Sheet, Lengths(&["s", "e", "s0", "e0", "out", "scratch"]), Rest]),
    order("jdn_share", &[Sheet, Lengths(&["key_share", "u", "mask", "t", "scratch"]), Rest]),
    order("jdn_reconstruct", &[Sheet, Lengths(&["v", "t0", "t1", "vote", "scratch"]), Rest]),
    order("jdn_commitment", &[Sheet, Lengths(&["m", "r", "pair", "scratch"]), Rest]),
    order("jdn_multiply", &[Sheet, Lengths(&["x", "y", "product", "scratch"]), Root, Rest]),
    order("jdn_product", &[Sheet, Lengths(&["x", "y", "product", "scratch"]), Rest]),
    order("jdn_produce_first", &[
        Sheet,
        Lengths(&["secrets", "s0", "e0", "masks0", "masks1", "vectors", "permutations", "salts", "ballots", "head", "shares0", "shares1", "claims", "scratch"]),
        Rest,
    ]),
    order("jdn_produce_second", &[
        Sheet,
        Lengths(&["secrets", "s0", "e0", "masks0", "masks1", "vectors", "permutations", "salts", "ballots", "challenges", "opening", "answers", "scratch"]),
        Rest,
    ]),
    order("jdn_extract", &[
        Sheet,
        Lengths(&["head", "shares0", "shares1", "ballots", "claims", "opening0", "opening1", "answer1", "answer2", "answer3", "out", "scratch"]),
        Rest,
    ]),
    order("jdn_opened_share", &[]),
    order("jdn_clear", &[IMAGE, Lengths(&["reg"]), Sheet]),
    order("jdn_admit", &[IMAGE, State, Lengths(&["reg", "ballot"]), Rest]),
    order("jdn_withdraw", &[IMAGE, State, Lengths(&["reg"]), Rest]),
    order("jdn_close", &[IMAGE, State, Lengths(&["reg"]), Rest]),
    order("jdn_claim", &[IMAGE, State, Lengths(&["claims"]), Rest]),
    order("jdn_commit", &[IMAGE, State, Lengths(&["head", "shares0", "shares1"])]),
    order("jdn_draw", &[IMAGE, State, Lengths(&["seed"])]),
    order("jdn_check", &[IMAGE, State, Sheet, Lengths(&["ballots", "claims", "head", "shares0", "shares1", "opening", "answers", "scratch"]), Rest]),
    order("jdn_challenges", &[IMAGE, State, Lengths(&["out"])]),
    order("jdn_turnout", &[IMAGE, State, Lengths(&["reg"]), Rest]),
];

/// A refusal: the place of its step in the order, and its number. Of several the least decides.
pub type Rank = (usize, u64);

impl Order {
    pub fn of(call: &str) -> &'static Order {
        ORDERS.iter().find(|order| order.call == call).unwrap_or_else(|| panic!("{call} has no order"))
    }

    fn place(&self, is: impl Fn(&Step) -> bool) -> Option<usize> {
        self.steps.iter().position(is)
    }

    /// What a slice is refused for that is lent this way and should have had so many bytes. A sheet without its last line feed, or with a byte more, is wrong in form.
    pub fn length(&self, name: &str, right: usize, way: Way) -> Option<Rank> {
        let empty = matches!(way, Way::Null | Way::Nowhere | Way::Before);
        if name == "sheet" {
            return self.place(|step| matches!(step, Sheet)).map(|place| (place, if empty { 1 } else { 2 }));
        }
        let place = self.place(|step| matches!(step, Lengths(names) if names.contains(&name)))?;
        (!(empty && right == 0)).then_some((place, 1))
    }
}

/// Something else that is wrong, in a slice or in a number.
pub struct Other {
    pub name: String,
    pub rank: Rank,
    /// the slice, where its length would not tell any more whether it is wrong
    pub whole: Option<&'static str>,
    pub apply: Box<dyn Fn(&mut Lent)>,
}

/// After the lengths: for each call a byte of a slice or a plain number, and the refusal.
const BYTES: [(&str, &str, usize, u8, u64); 18] = [
    ("jdn_keygen", "s", 0, 3, 5),
    ("jdn_encrypt", "m", 3, 2, 5),
    ("jdn_decrypt", "ciphertext", 0, 97, 5),
    ("jdn_split", "e0", 24, 97, 5),
    ("jdn_share", "u", 0, 97, 5),
    ("jdn_share", "mask", 0, 5, 12),
    ("jdn_reconstruct", "t1", 24, 97, 5),
    ("jdn_commitment", "r", 11, 3, 5),
    ("jdn_multiply", "x", 0, 97, 5),
    ("jdn_multiply", "y", 24, 97, 5),
    ("jdn_product", "y", 24, 97, 5),
    ("jdn_produce_first", "secrets", 55, 3, 5),
    ("jdn_produce_second", "vectors", 0, 97, 5),
    ("jdn_admit", "ballot", 4, 97, 5),
    ("jdn_admit", "ballot", 0, WITHDRAWN as u8, 33),
    ("jdn_close", "reg", 44, 2, 36),
    ("jdn_claim", "claims", 0, 2, 5),
    ("jdn_check", "head", 0, 97, 16),
];
const NUMBERS: [(&str, &str, u64, u64); 4] = [
    ("jdn_produce_second", "side", 2, 5),
    ("jdn_extract", "repetition", 1, 5),
    ("jdn_withdraw", "mark", WITHDRAWN as u64, 33),
    ("jdn_turnout", "enrolled", 0, 3),
];

/// All that is tried beside lengths with what is lent.
pub fn others(order: &Order, lent: &mut Lent) -> Vec<Other> {
    let mut all = Vec::new();
    if let Some(place) = order.place(|step| matches!(step, State)) {
        for (name, at, bytes) in [("an unknown phase", PHASE, vec![6]), ("4,097 entries used", USED, 4097_u64.to_le_bytes().to_vec())] {
            let apply = move |lent: &mut Lent| lent.slice("image").bytes[at..at + bytes.len()].copy_from_slice(&bytes);
            all.push(Other { name: name.into(), rank: (place, 31), whole: None, apply: Box::new(apply) });
        }
    }
    if let Some(place) = order.place(|step| matches!(step, Sheet)) {
        let longest = (2, "a sheet of 262,144 bytes", vec![b'\n'; 262_144]);
        for (number, name, text) in refused_sheets(&lent.slice("sheet").bytes).into_iter().chain([longest]) {
            let apply = move |lent: &mut Lent| *lent.slice("sheet") = Slice::right("sheet", text.clone());
            all.push(Other { name: name.into(), rank: (place, number), whole: Some("sheet"), apply: Box::new(apply) });
        }
    }
    if let Some(place) = order.place(|step| matches!(step, Root)) {
        all.extend(roots(place));
    }
    if let Some(place) = order.place(|step| matches!(step, Rest)) {
        all.extend(rest(order.call, lent, place));
    }
    all
}

/// Numbers that are no root modulo 97, and one of them beside a coefficient out of range, which comes later.
fn roots(place: usize) -> Vec<Other> {
    let root = |value: u64, beside: bool| {
        let apply = move |lent: &mut Lent| {
            lent.set_number("root", value);
            if beside {
                lent.slice("x").bytes[0] = 97;
            }
        };
        let name = format!("root {value}{}", if beside { " and 97 at byte 0 of x" } else { "" });
        Other { name, rank: (place, 37), whole: None, apply: Box::new(apply) }
    };
    [1, 97 + ROOT, u64::MAX].into_iter().map(|value| root(value, false)).chain([root(1, true)]).collect()
}

fn rest(call: &str, lent: &mut Lent, place: usize) -> Vec<Other> {
    let mut all = Vec::new();
    // a slice of no bytes has none that could be wrong
    for (_, slice, at, value, number) in BYTES.into_iter().filter(|of| of.0 == call && lent.length(of.1) > 0) {
        let apply = move |lent: &mut Lent| lent.slice(slice).bytes[at] = value;
        all.push(Other { name: format!("{value} at byte {at} of {slice}"), rank: (place, number), whole: None, apply: Box::new(apply) });
    }
    for (_, name, value, number) in NUMBERS.into_iter().filter(|of| of.0 == call) {
        let apply = move |lent: &mut Lent| lent.set_number(name, value);
        all.push(Other { name: format!("{name} {value}"), rank: (place, number), whole: None, apply: Box::new(apply) });
    }
    if call == "jdn_withdraw" {
        let apply = |lent: &mut Lent| {
            put(&mut lent.slice("image").bytes, USED, 4096);
            lent.set_number("mark", u64::from(UNKNOWN));
        };
        let name = format!("mark {UNKNOWN} and 4,096 entries used");
        all.push(Other { name, rank: (place, 35), whole: None, apply: Box::new(apply) });
    }
    all
}
