//! What a call is lent: each slice under its name in the header, by a pointer and a length that are chosen apart.
use super::library::Call;
use std::ptr;

/// How a slice is lent that should have been lent as it is.
#[derive(Clone, Copy, Debug, PartialEq)]
pub enum Way {
    /// no bytes, at null
    Null,
    /// no bytes, at an address where nothing can be read
    Nowhere,
    /// no bytes, at an address where bytes stand, which stay
    Before,
    /// without its last byte, which stands behind and stays
    Shorter,
    /// without its last byte, and with nothing behind
    Cut,
    /// with a byte more
    Longer,
}

pub const EMPTY: [Way; 3] = [Way::Null, Way::Nowhere, Way::Before];
pub const NEAR: [Way; 3] = [Way::Shorter, Way::Cut, Way::Longer];

#[derive(Clone, Copy, PartialEq)]
enum Pointer {
    Bytes,
    Null,
    Nowhere,
}

/// Bytes in memory, and how many of them are lent.
#[derive(Clone)]
pub struct Slice {
    pub name: &'static str,
    pub bytes: Vec<u8>,
    pub length: usize,
    pointer: Pointer,
}

impl Slice {
    pub fn right(name: &'static str, bytes: Vec<u8>) -> Slice {
        Slice { name, length: bytes.len(), bytes, pointer: Pointer::Bytes }
    }

    /// The bytes that are lent.
    pub fn lent(&self) -> &[u8] {
        &self.bytes[..self.length]
    }

    pub fn lend(&mut self, way: Way) {
        match way {
            Way::Null => (self.length, self.pointer) = (0, Pointer::Null),
            Way::Nowhere => (self.length, self.pointer) = (0, Pointer::Nowhere),
            Way::Before => {
                // where the right slice has no bytes, some stand there all the same
                self.bytes.resize(self.bytes.len().max(8), 0x5A);
                self.length = 0;
            }
            Way::Shorter => self.length -= 1,
            Way::Cut => {
                self.bytes.pop();
                self.length -= 1;
            }
            Way::Longer => {
                self.bytes.push(0);
                self.length += 1;
            }
        }
    }
}

#[derive(Clone)]
pub struct Lent {
    pub call: &'static Call,
    /// in the header's order, as the numbers are
    pub slices: Vec<Slice>,
    pub numbers: Vec<u64>,
}

impl Lent {
    pub fn slice(&mut self, name: &str) -> &mut Slice {
        let call = self.call.name;
        self.slices.iter_mut().find(|slice| slice.name == name).unwrap_or_else(|| panic!("{call} is lent no {name}"))
    }

    pub fn length(&mut self, name: &str) -> usize {
        self.slice(name).length
    }

    pub fn pointer(&mut self, name: &str) -> *mut u8 {
        let slice = self.slice(name);
        match slice.pointer {
            Pointer::Bytes => slice.bytes.as_mut_ptr(),
            Pointer::Null => ptr::null_mut(),
            Pointer::Nowhere => ptr::without_provenance_mut(1),
        }
    }

    fn place(&self, name: &str) -> usize {
        self.call.numbers().iter().position(|known| *known == name).unwrap_or_else(|| panic!("{} has no {name}", self.call.name))
    }

    pub fn number(&self, name: &str) -> u64 {
        self.numbers[self.place(name)]
    }

    pub fn set_number(&mut self, name: &str, value: u64) {
        let place = self.place(name);
        self.numbers[place] = value;
    }
}
