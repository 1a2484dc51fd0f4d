//! The library's calls over C, each slice by a pointer and a length as it is lent. Three more calls are lent nothing.
use super::lent::Lent;

/// What a call is lent, in the header's order.
#[derive(Clone, Copy, Debug, PartialEq)]
pub enum Parameter {
    Read(&'static str),
    Written(&'static str),
    Number(&'static str),
}

pub struct Call {
    pub name: &'static str,
    pub parameters: &'static [Parameter],
    pub over_c: fn(&mut Lent) -> u64,
}

impl Call {
    pub fn named(name: &str) -> &'static Call {
        CALLS.iter().find(|call| call.name == name).unwrap_or_else(|| panic!("there is no {name}"))
    }

    /// The names of the slices.
    pub fn slices(&self) -> Vec<&'static str> {
        let slice = |parameter: &Parameter| match *parameter {
            Parameter::Read(name) | Parameter::Written(name) => Some(name),
            Parameter::Number(_) => None,
        };
        self.parameters.iter().filter_map(slice).collect()
    }

    pub fn numbers(&self) -> Vec<&'static str> {
        let number = |parameter: &Parameter| if let Parameter::Number(name) = *parameter { Some(name) } else { None };
        self.parameters.iter().filter_map(number).collect()
    }
}

/// Declares the C calls by what they are lent, and lists them.
macro_rules! calls {
    ($($name:ident($($(read $read:ident)? $(write $write:ident)? $(number $number:ident: $type:ident)?),+);)+) => {
        extern "C" {
            $(fn $name($($($read: *const u8, _: usize,)? $($write: *mut u8, _: usize,)? $($number: $type,)?)+) -> u64;)+
        }
        pub static CALLS: [Call; 25] = [$(Call {
            name: stringify!($name),
            parameters: &[$($(Parameter::Read(stringify!($read)))? $(Parameter::Written(stringify!($write)))? $(Parameter::Number(stringify!($number)))?),+],
            // Every slice with a length has that many bytes, live and apart from the others for the call.
            over_c: |lent| unsafe {
                $name($(
                    $(lent.pointer(stringify!($read)), lent.length(stringify!($read)),)?
                    $(lent.pointer(stringify!($write)), lent.length(stringify!($write)),)?
                    $(lent.number(stringify!($number)) as $type,)?
                )+)
            },
        }),+];
    };
}

calls! {
    jdn_digest(read message, write out);
    jdn_sheet(read sheet, write out);
    jdn_keygen(read sheet, read s, read e, write b, write scratch);
    jdn_encrypt(read sheet, read r, read e1, read e2, read m, write ciphertext, write scratch);
    jdn_decrypt(read sheet, read s, read ciphertext, write vote, write scratch);
    jdn_split(read sheet, read s, read e, read s0, read e0, write out, write scratch);
    jdn_share(read sheet, read key_share, read u, read mask, write t, write scratch);
    jdn_reconstruct(read sheet, read v, read t0, read t1, write vote, write scratch);
    jdn_commitment(read sheet, read m, read r, write pair, write scratch);
    jdn_multiply(read sheet, read x, read y, number root: u64, write product, write scratch);
    jdn_product(read sheet, read x, read y, write product, write scratch);
    jdn_produce_first(
        read sheet, read secrets, read s0, read e0, read masks0, read masks1, read vectors, read permutations, read salts, read ballots,
        write head, write shares0, write shares1, write claims, write scratch
    );
    jdn_produce_second(
        read sheet, read secrets, read s0, read e0, read masks0, read masks1, read vectors, read permutations, read salts, read ballots,
        number side: u64, read challenges, write opening, write answers, write scratch
    );
    jdn_extract(
        read sheet, read head, read shares0, read shares1, read ballots, read claims, read opening0, read opening1,
        number repetition: u64, read answer1, read answer2, read answer3, write out, write scratch
    );
    jdn_opened_share(number side: u64, number n: u64, read shares0, read shares1, number j: u64);
    jdn_clear(write image, write reg, read sheet);
    jdn_admit(write image, write reg, read ballot);
    jdn_withdraw(write image, write reg, number mark: u32);
    jdn_close(write image, read reg);
    jdn_claim(write image, read claims);
    jdn_commit(write image, number round: u64, read head, read shares0, read shares1);
    jdn_draw(write image, read seed);
    jdn_check(
        write image, read sheet, read ballots, read claims, number round: u64, read head, read shares0, read shares1, read opening, read answers, write scratch
    );
    jdn_challenges(read image, number round: u64, write out);
    jdn_turnout(read image, read reg, number enrolled: u64);
}
