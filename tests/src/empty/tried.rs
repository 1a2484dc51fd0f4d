//! The trials of one case: each slice by itself in every way, all at once, all but one, and each of these with something else wrong.
use super::cases::{Right, Taken};
use super::lent::{Lent, Slice, Way, EMPTY, NEAR};
use super::orders::{others, Order, Other, Rank};
use crate::tally::{Comparison, Tally};

/// The bytes that a slice should hold after a call. Scratch is zeroed by every call that neither 31 nor 1 refuses.
fn kept(slice: &Slice, number: u64, taken: Option<&Taken>) -> Vec<u8> {
    let mut bytes = slice.bytes.clone();
    let written = taken.and_then(|taken| taken.written.iter().find(|(name, _)| *name == slice.name));
    match written {
        Some((_, left)) if slice.length > 0 => bytes[..slice.length].copy_from_slice(left),
        None if slice.name == "scratch" && number != 1 && number != 31 => bytes[..slice.length].fill(0),
        _ => {}
    }
    bytes
}

/// How what the call did differs from what is expected, in few words.
fn difference(right: &Right, lent: &Lent, refusal: Option<Rank>) -> Option<String> {
    let mut ours = lent.clone();
    let reply = (right.call.over_c)(&mut ours);
    let taken = refusal.is_none().then(|| (right.taken)(lent));
    let number = refusal.map_or(0, |rank| rank.1);
    let expected = taken.as_ref().map_or(number, |taken| 256 * taken.value);
    if reply != expected {
        return Some(format!("ours number {} value {}, theirs number {} value {}", reply % 256, reply / 256, expected % 256, expected / 256));
    }
    for (slice, after) in lent.slices.iter().zip(&ours.slices) {
        let kept = kept(slice, number, taken.as_ref());
        if after.bytes != kept {
            let at = after.bytes.iter().zip(&kept).position(|(a, b)| a != b);
            return Some(format!("after number {number}: {} differs at {at:?}", slice.name));
        }
    }
    None
}

/// What is lent, and the refusals that it calls for.
#[derive(Clone)]
struct Trial {
    lent: Lent,
    ranks: Vec<Rank>,
}

impl Trial {
    fn lend(&mut self, order: &Order, name: &'static str, way: Way) {
        let slice = self.lent.slice(name);
        self.ranks.extend(order.length(name, slice.length, way));
        slice.lend(way);
    }

    fn compare(&self, c: &mut Comparison, right: &Right, what: impl Fn() -> String) {
        let refusal = self.ranks.iter().min().copied();
        c.same(|| format!("{}, {}", right.call.name, what()), difference(right, &self.lent, refusal), None);
    }
}

struct Trials<'a> {
    right: &'a Right,
    order: &'static Order,
    base: Trial,
    /// what is wrong beside the lengths
    beside: Option<&'a Other>,
}

impl<'a> Trials<'a> {
    fn new(right: &'a Right, beside: Option<&'a Other>) -> Trials<'a> {
        let mut base = Trial { lent: right.lent(), ranks: Vec::new() };
        if let Some(other) = beside {
            (other.apply)(&mut base.lent);
            base.ranks.push(other.rank);
        }
        Trials { right, order: Order::of(right.call.name), base, beside }
    }

    fn as_it_is(&self, c: &mut Comparison) {
        self.base.compare(c, self.right, || self.what("every length right"));
    }

    fn what(&self, ways: &str) -> String {
        let beside = self.beside.map_or(String::new(), |other| format!(", with {}", other.name));
        format!("{ways}{beside}")
    }

    /// Whether the slice can be lent this way. One that is exchanged whole stays as it is.
    fn lendable(&self, name: &str, way: Way) -> bool {
        let long = self.base.lent.slices.iter().any(|slice| slice.name == name && slice.length > 0);
        let exchanged = self.beside.is_some_and(|other| other.whole == Some(name));
        !exchanged && (long || matches!(way, Way::Null | Way::Nowhere | Way::Before | Way::Longer))
    }

    fn by_itself(&self, c: &mut Comparison, ways: &[Way]) {
        for name in self.right.call.slices() {
            for way in ways.iter().copied().filter(|way| self.lendable(name, *way)) {
                let mut trial = self.base.clone();
                trial.lend(self.order, name, way);
                trial.compare(c, self.right, || self.what(&format!("{name} lent {way:?}")));
            }
        }
    }

    /// All slices that should have no bytes, which is no fault.
    fn none_due(&self, c: &mut Comparison) {
        let names: Vec<&'static str> = self.base.lent.slices.iter().filter(|slice| slice.length == 0).map(|slice| slice.name).collect();
        for way in EMPTY.into_iter().filter(|_| !names.is_empty()) {
            let mut trial = self.base.clone();
            names.iter().for_each(|name| trial.lend(self.order, name, way));
            c.same(|| format!("{}, {names:?} lent {way:?} are no fault", self.right.call.name), trial.ranks.len(), self.base.ranks.len());
            trial.compare(c, self.right, || self.what(&format!("{names:?} lent {way:?}")));
        }
    }

    /// All slices, and all but each in turn.
    fn together(&self, c: &mut Comparison, ways: &[Way]) {
        let names = self.right.call.slices();
        for way in ways.iter().copied() {
            for but in names.iter().copied().map(Some).chain([None]) {
                let mut trial = self.base.clone();
                for name in names.iter().copied().filter(|name| Some(*name) != but && self.lendable(name, way)) {
                    trial.lend(self.order, name, way);
                }
                trial.compare(c, self.right, || self.what(&format!("all but {but:?} lent {way:?}")));
            }
        }
    }
}

pub fn run(tally: &mut Tally, right: &Right) {
    let name = format!("{}{}", right.call.name, right.what);
    let plain = Trials::new(right, None);
    let mut c = Comparison::default();
    plain.as_it_is(&mut c);
    plain.by_itself(&mut c, &EMPTY);
    plain.together(&mut c, &EMPTY);
    plain.none_due(&mut c);
    c.claim(tally, &format!("empty: {name}: slices of no bytes, null or not, by themselves and together"));

    let mut c = Comparison::default();
    plain.by_itself(&mut c, &NEAR);
    plain.together(&mut c, &[Way::Longer]);
    c.claim(tally, &format!("empty: {name}: slices a byte shorter or longer"));

    let mut c = Comparison::default();
    let others = others(plain.order, &mut right.lent());
    for other in &others {
        let trials = Trials::new(right, Some(other));
        trials.as_it_is(&mut c);
        trials.by_itself(&mut c, &EMPTY);
        trials.by_itself(&mut c, &NEAR);
        trials.together(&mut c, &EMPTY);
    }
    if !others.is_empty() {
        c.claim(tally, &format!("empty: {name}: the same with something else wrong, of which the earlier decides"));
    }
}
