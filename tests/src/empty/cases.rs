//! A case that is taken, and what a call that is lent it leaves.
use super::lent::{Lent, Slice};
use super::library::Call;
use crate::scratch::SCRATCH;
use std::rc::Rc;

/// What a call that is taken carries and writes, for what it is lent.
pub struct Taken {
    pub value: u64,
    pub written: Vec<(&'static str, Vec<u8>)>,
}

#[derive(Clone)]
pub struct Right {
    pub call: &'static Call,
    /// what sets it apart from other cases of the call
    pub what: &'static str,
    pub slices: Vec<Vec<u8>>,
    pub numbers: Vec<u64>,
    pub taken: Rc<dyn Fn(&Lent) -> Taken>,
}

impl Right {
    /// A case whose call carries this value and leaves the slices so.
    pub fn new(name: &str, what: &'static str, slices: Vec<Vec<u8>>, numbers: Vec<u64>, value: u64, left: Vec<Vec<u8>>) -> Right {
        let call = Call::named(name);
        let names = call.slices();
        assert_eq!((names.len(), names.len(), call.numbers().len()), (slices.len(), left.len(), numbers.len()), "{name} is lent other slices or numbers");
        let taken = move |_: &Lent| Taken { value, written: names.iter().copied().zip(left.clone()).collect() };
        Right { call, what, slices, numbers, taken: Rc::new(taken) }
    }

    pub fn lent(&self) -> Lent {
        let slices = self.call.slices().into_iter().zip(&self.slices).map(|(name, bytes)| Slice::right(name, bytes.clone())).collect();
        Lent { call: self.call, slices, numbers: self.numbers.clone() }
    }

    /// The output that a call has written in this case, where it is taken.
    pub fn output(&self, name: &str) -> Vec<u8> {
        let taken = (self.taken)(&self.lent());
        taken.written.into_iter().find(|(slice, _)| *slice == name).map_or(Vec::new(), |(_, bytes)| bytes)
    }
}

/// Scratch as it is lent, and as a call that is taken leaves it.
pub fn scratch() -> Vec<u8> {
    vec![0xA5; SCRATCH]
}

pub fn zeroed() -> Vec<u8> {
    vec![0; SCRATCH]
}
