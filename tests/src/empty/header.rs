//! The calls that are tried here are those of the header, and are lent what it says.
use super::library::{Call, Parameter, CALLS};
use crate::tally::{Comparison, Tally};

const HEADER: &str = include_str!("../../../include/jackdawnail.h");

/// The calls that are lent nothing. What they answer is compared with the sessions.
const LENGTHS: [&str; 3] = ["jdn_image_length", "jdn_scratch_length", "jdn_register_length"];

/// A call as the header declares it: the name and, one after another, what it is lent.
fn declared() -> Vec<(String, Vec<String>)> {
    let declaration = |text: &str| {
        let (name, rest) = text.split_once('(').unwrap_or_else(|| panic!("no declaration: {text}"));
        let (lent, _) = rest.split_once(");").unwrap_or_else(|| panic!("no end: {text}"));
        let words = |one: &str| one.split_whitespace().collect::<Vec<_>>().join(" ");
        (format!("jdn_{name}"), lent.split(',').map(words).filter(|one| one != "void").collect())
    };
    HEADER.split("uint64_t jdn_").skip(1).map(declaration).collect()
}

/// The same of a call that is tried here.
fn tried(call: &Call) -> (String, Vec<String>) {
    let parameter = |parameter: &Parameter| match *parameter {
        Parameter::Read(name) => format!("JDN_IN({name})"),
        Parameter::Written(name) => format!("JDN_OUT({name})"),
        Parameter::Number("mark") => "uint32_t mark".into(),
        Parameter::Number(name) => format!("uint64_t {name}"),
    };
    (call.name.into(), call.parameters.iter().map(parameter).collect())
}

pub fn run(tally: &mut Tally) {
    let mut c = Comparison::default();
    let ours = declared();
    c.same(|| "the header's calls".into(), ours.len(), 28);
    let theirs: Vec<_> = CALLS.iter().map(tried).chain(LENGTHS.map(|name| (name.into(), Vec::new()))).collect();
    c.same(|| "the calls here".into(), theirs.len(), 28);
    for call in &ours {
        c.same(|| format!("{} and what it is lent", call.0), Some(call), theirs.iter().find(|other| other.0 == call.0));
    }
    c.claim(tally, "empty: the header's 28 calls are the ones tried here, and three that are lent nothing");
}
