//! The calls of a round over C: the producer's two, the check of a round with side and challenges lent, and the extractor.
use super::lent::{Call, Left, Lent};
use super::{checker, extractor, producer};
use crate::scratch::with_scratch;
use std::ptr;

/// A slice's first byte, or null where it has none.
pub fn first(slice: &[u8]) -> *const u8 {
    if slice.is_empty() { ptr::null() } else { slice.as_ptr() }
}

pub fn first_mut(slice: &mut [u8]) -> *mut u8 {
    if slice.is_empty() { ptr::null_mut() } else { slice.as_mut_ptr() }
}

/// Declares a C call by the names of its slices, those that stand before a plain number and those after it, and a function over what is lent. Scratch comes last.
macro_rules! over_c {
    ($($safe:ident = $name:ident($($before:ident)+ $(; $number:ident; $($after:ident)+)? => $($out:ident)*);)+) => {
        extern "C" {
            $(fn $name(
                $($before: *const u8, _: usize,)+ $($number: u64, $($after: *const u8, _: usize,)+)?
                $($out: *mut u8, _: usize,)* scratch: *mut u8, scratch_length: usize,
            ) -> u64;)+
        }
        $(fn $safe(lent: &Lent) -> Left {
            let [$($before,)+ $($($after,)+)?] = &lent.slices[..] else { panic!("the call reads other slices") };
            let mut outputs = lent.outputs.clone();
            let [$($out,)*] = &mut outputs[..] else { panic!("the call writes other slices") };
            // All slices are live and apart for the call.
            let (reply, scratch) = with_scratch(lent.scratch, |room| unsafe {
                $name(
                    $(first($before), $before.len(),)+ $({ let $number = lent.number; $number }, $(first($after), $after.len(),)+)?
                    $(first_mut($out), $out.len(),)* first_mut(room), room.len(),
                )
            });
            Left { reply, outputs, scratch }
        })+
    };
}

over_c! {
    produce_first = jdn_produce_first(sheet secrets s0 e0 masks0 masks1 vectors permutations salts ballots => head shares0 shares1 claims);
    produce_second = jdn_produce_second(
        sheet secrets s0 e0 masks0 masks1 vectors permutations salts ballots; side; challenges => opening answers
    );
    check = test_check_round(sheet; side; challenges ballots claims head shares0 shares1 opening answers => );
    extract = jdn_extract(sheet head shares0 shares1 ballots claims opening0 opening1; repetition; answer1 answer2 answer3 => out);
}

pub static FIRST: Call = Call {
    name: "produce_first",
    reads: &["sheet", "secrets", "s0", "e0", "masks0", "masks1", "vectors", "permutations", "salts", "ballots"],
    writes: &["head", "shares0", "shares1", "claims"],
    over_c: produce_first,
    independent: producer::first,
};

pub static SECOND: Call = Call {
    name: "produce_second",
    reads: &["sheet", "secrets", "s0", "e0", "masks0", "masks1", "vectors", "permutations", "salts", "ballots", "challenges"],
    writes: &["opening", "answers"],
    over_c: produce_second,
    independent: producer::second,
};

pub static CHECK: Call = Call {
    name: "test_check_round",
    reads: &["sheet", "challenges", "ballots", "claims", "head", "shares0", "shares1", "opening", "answers"],
    writes: &[],
    over_c: check,
    independent: checker::check,
};

pub static EXTRACT: Call = Call {
    name: "extract",
    reads: &["sheet", "head", "shares0", "shares1", "ballots", "claims", "opening0", "opening1", "answer1", "answer2", "answer3"],
    writes: &["out"],
    over_c: extract,
    independent: extractor::extract,
};
