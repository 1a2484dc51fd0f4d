//! Scratch as a call is lent it and leaves it.

pub const SCRATCH: usize = 1_048_576;

const FULL: [u8; 4096] = [0xA5; 4096];
const ZEROS: [u8; 4096] = [0; 4096];

#[derive(Clone, Copy, Debug, PartialEq)]
pub enum Scratch {
    Kept,
    Zeroed,
    Other,
}

impl Scratch {
    /// What document 01 asks for after a refusal with this number (0: none). Of an empty one nothing can be said, and it counts as kept.
    pub fn after(number: u64, length: usize) -> Scratch {
        if number == 1 || number == 31 || length == 0 { Scratch::Kept } else { Scratch::Zeroed }
    }
}

/// Lends scratch that holds one byte everywhere, and says what became of it.
pub fn with_scratch(length: usize, call: impl FnOnce(&mut [u8]) -> u64) -> (u64, Scratch) {
    let mut scratch = vec![FULL[0]; length];
    let reply = call(&mut scratch);
    let holds = |what: &[u8]| scratch.chunks(what.len()).all(|part| *part == what[..part.len()]);
    let state = match () {
        () if holds(&FULL) => Scratch::Kept,
        () if holds(&ZEROS) => Scratch::Zeroed,
        () => Scratch::Other,
    };
    (reply, state)
}
