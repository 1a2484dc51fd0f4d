//! Every call of the library with slices of no bytes, null or not, and with slices a byte too short or too long: each by itself, all at once, and together with something
//! else that is wrong. The replies are those of document 01's orders, and every byte that is lent stays, but for what a call that is taken writes and for scratch.
mod cases;
mod header;
mod lent;
mod library;
mod orders;
mod sessions;
mod small;
mod tried;

use crate::random::Random;
use crate::tally::{Comparison, Tally};
use cases::Right;
use library::CALLS;

/// Each call has a right case.
fn covered(tally: &mut Tally, rights: &[Right]) {
    let mut c = Comparison::default();
    for call in &CALLS {
        c.same(|| format!("{} is tried", call.name), rights.iter().any(|right| right.call.name == call.name), true);
        c.same(|| format!("{} has an order", call.name), orders::ORDERS.iter().filter(|order| order.call == call.name).count(), 1);
    }
    c.claim(tally, "empty: every call that is lent a slice is tried, by its order");
}

pub fn run(tally: &mut Tally) {
    let mut random = Random(26);
    header::run(tally);
    let rights = [small::rights(&mut random), sessions::rights(&mut random)].concat();
    covered(tally, &rights);
    small::document(tally, &rights);
    for right in &rights {
        tried::run(tally, right);
    }
}
