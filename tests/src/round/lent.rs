//! What a call of a round is lent and what it leaves, each slice under its name in the header, so that one comparison and one way to damage serve all calls.
use crate::scratch::Scratch;
use crate::tally::Comparison;
use std::ops::{Index, IndexMut};

/// A call over C and its independent counterpart.
pub struct Call {
    pub name: &'static str,
    /// the slices that it reads, the sheet first
    pub reads: &'static [&'static str],
    /// the slices that it writes, but for scratch
    pub writes: &'static [&'static str],
    pub over_c: fn(&Lent) -> Left,
    pub independent: fn(&Lent) -> Outcome,
}

/// What a call is lent: slices to read and to write in the order of their names, the plain number among them (a side or a repetition), scratch of some length.
#[derive(Clone)]
pub struct Lent {
    pub call: &'static Call,
    pub slices: Vec<Vec<u8>>,
    pub number: u64,
    pub outputs: Vec<Vec<u8>>,
    pub scratch: usize,
}

/// What a call leaves.
pub struct Left {
    pub reply: u64,
    pub outputs: Vec<Vec<u8>>,
    pub scratch: Scratch,
}

/// A refusal has document 01's number and a place.
#[derive(Clone, Copy, Debug, PartialEq)]
pub struct Refusal {
    pub number: u64,
    pub place: u64,
}

/// A call that is taken carries a value and has written its outputs.
pub type Outcome = Result<(u64, Vec<Vec<u8>>), Refusal>;

/// The refusal where a test does not hold.
pub fn unless(holds: bool, number: u64, place: usize) -> Result<(), Refusal> {
    if holds { Ok(()) } else { Err(Refusal { number, place: place as u64 }) }
}

impl Refusal {
    pub fn reply(self) -> u64 {
        self.number + 256 * self.place
    }
}

impl Lent {
    fn place(&self, name: &str) -> (bool, usize) {
        let find = |names: &[&str]| names.iter().position(|known| *known == name);
        match find(self.call.reads) {
            Some(i) => (true, i),
            None => (false, find(self.call.writes).unwrap_or_else(|| panic!("{} is lent no {name}", self.call.name))),
        }
    }

    /// The reply, outputs and scratch that document 01 asks for.
    fn expected(&self) -> Left {
        match (self.call.independent)(self) {
            Ok((value, outputs)) => Left { reply: 256 * value, outputs, scratch: Scratch::after(0, self.scratch) },
            Err(refusal) => Left { reply: refusal.reply(), outputs: self.outputs.clone(), scratch: Scratch::after(refusal.number, self.scratch) },
        }
    }
}

impl Index<&str> for Lent {
    type Output = Vec<u8>;

    fn index(&self, name: &str) -> &Vec<u8> {
        match self.place(name) {
            (true, i) => &self.slices[i],
            (false, i) => &self.outputs[i],
        }
    }
}

impl IndexMut<&str> for Lent {
    fn index_mut(&mut self, name: &str) -> &mut Vec<u8> {
        match self.place(name) {
            (true, i) => &mut self.slices[i],
            (false, i) => &mut self.outputs[i],
        }
    }
}

/// How two calls differ in what they leave, in few words: outputs can be long.
fn difference(call: &Call, ours: &Left, theirs: &Left) -> Option<String> {
    let words = |reply: u64| format!("number {} value {}", reply % 256, reply / 256);
    if ours.reply != theirs.reply {
        return Some(format!("ours {}, theirs {}", words(ours.reply), words(theirs.reply)));
    }
    let mut outputs = call.writes.iter().zip(ours.outputs.iter().zip(&theirs.outputs));
    if let Some((name, (a, b))) = outputs.find(|(_, (a, b))| a != b) {
        let at = a.iter().zip(b).position(|(x, y)| x != y);
        return Some(format!("after {}: {name} differs at {at:?}", words(ours.reply)));
    }
    (ours.scratch != theirs.scratch).then(|| format!("after {}: scratch is {:?}", words(ours.reply), ours.scratch))
}

/// The library and the independent implementation, on the same slices: the reply of the library.
pub fn compare(c: &mut Comparison, lent: &Lent, what: impl Fn() -> String) -> u64 {
    let ours = (lent.call.over_c)(lent);
    let theirs = lent.expected();
    c.same(|| format!("{}, {}", lent.call.name, what()), difference(lent.call, &ours, &theirs), None);
    ours.reply
}

/// The same, and that the call is refused so.
pub fn refused(c: &mut Comparison, lent: &Lent, refusal: Refusal, what: impl Fn() -> String) {
    let reply = compare(c, lent, &what);
    c.same(|| format!("{}, {}", lent.call.name, what()), (reply % 256, reply / 256), (refusal.number, refusal.place));
}

/// The same, and that the call is taken with this value.
pub fn taken(c: &mut Comparison, lent: &Lent, value: u64, what: impl Fn() -> String) {
    refused(c, lent, Refusal { number: 0, place: value }, what);
}
