//! Compares the library, over its C interface, with independent implementations, and the documents with the tree. The last line is `N passed, M failed`.
//!
//! Without arguments all parts run; with names of parts, these alone.
mod argument;
mod calls;
mod digest;
mod documents;
mod empty;
mod polynomials;
mod products;
mod random;
mod reading;
mod ring;
mod roots;
mod round;
mod scheme;
mod scratch;
mod session;
mod sha3;
mod sheet;
mod sheets;
mod stern;
mod stern_refusals;
mod tally;
mod transforms;

use tally::Tally;

type Part = (&'static str, fn(&mut Tally));

const PARTS: [Part; 12] = [
    ("documents", documents::run),
    ("reading", reading::run),
    ("sha3", sha3::run),
    ("digest", digest::run),
    ("ring", ring::run),
    ("sheet", sheet::run),
    ("scheme", scheme::run),
    ("products", products::run),
    ("stern", stern::run),
    ("empty", empty::run),
    ("round", round::run),
    ("session", session::run),
];

/// A little of the long parts, for a run under a slow checker of memory. They run only where they are named.
const SMALL: [Part; 2] = [("small_round", round::small), ("small_session", session::small)];

fn main() {
    let asked: Vec<String> = std::env::args().skip(1).collect();
    let find = |name: &String| PARTS.iter().chain(&SMALL).find(|part| part.0 == name);
    if let Some(unknown) = asked.iter().find(|name| find(name).is_none()) {
        let known: Vec<&str> = PARTS.iter().chain(&SMALL).map(|part| part.0).collect();
        eprintln!("there is no part {unknown}; the parts are {}", known.join(", "));
        std::process::exit(2);
    }
    let parts: Vec<&Part> = if asked.is_empty() { PARTS.iter().collect() } else { asked.iter().filter_map(find).collect() };
    let mut tally = Tally::default();
    parts.iter().for_each(|part| part.1(&mut tally));
    std::process::exit(tally.finish());
}
