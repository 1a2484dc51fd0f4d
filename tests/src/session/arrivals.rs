//! What a withdrawal can meet, and a ballot that comes after it (document 02, L1), so that random steps can be counted by it.
use super::image::{Session, ENTRIES, REGISTER};
use super::steps::{Host, Step};

#[derive(Clone, Copy, Debug, PartialEq, Eq, PartialOrd, Ord)]
pub enum Arrival {
    /// a withdrawal makes an entry for a mark that has none
    Early,
    /// a ballot comes after such a withdrawal and is refused 33
    LateBallot,
    /// a second withdrawal comes after it and is refused 33
    EarlyAgain,
    /// a withdrawal of a mark that has no entry, in a full register, is refused 35
    NoneFree,
    /// a standing mark is withdrawn in a full register
    StandingInFull,
    /// a withdrawn mark is refused 33 in a full register
    WithdrawnInFull,
}

pub const ARRIVALS: [Arrival; 6] = [
    Arrival::Early,
    Arrival::LateBallot,
    Arrival::EarlyAgain,
    Arrival::NoneFree,
    Arrival::StandingInFull,
    Arrival::WithdrawnInFull,
];

/// What the register has for a mark.
struct Found {
    entry: bool,
    stands: bool,
    /// withdrawn before its ballot came
    early: bool,
    full: bool,
}

/// Nothing where no step would look at the register.
fn found(host: &Host, mark: &[u8]) -> Option<Found> {
    let session = Session::read(&host.image).filter(|session| session.used <= ENTRIES && host.register.len() == REGISTER)?;
    let full = session.used == ENTRIES;
    Some(match session.find(&host.register, mark) {
        None => Found { entry: false, stands: false, early: false, full },
        Some((_, true)) => Found { entry: true, stands: true, early: false, full },
        Some((place, false)) => Found { entry: true, stands: false, early: host.register[40 * place + 8..][..32] == [0; 32], full },
    })
}

/// What a step with this reply met; a second withdrawal can meet two things.
pub fn met(host: &Host, step: &Step, number: u64) -> Vec<Arrival> {
    let mark = match step {
        Step::Withdraw { mark } => mark.to_le_bytes().to_vec(),
        Step::Admit { ballot } if ballot.len() >= 4 => ballot[..4].to_vec(),
        _ => return Vec::new(),
    };
    let Some(found) = found(host, &mark) else { return Vec::new() };
    if let Step::Admit { .. } = step {
        return if found.early && number == 33 { vec![Arrival::LateBallot] } else { Vec::new() };
    }
    let cases = [
        (Arrival::Early, !found.entry && !found.full && number == 0),
        (Arrival::EarlyAgain, found.early && number == 33),
        (Arrival::NoneFree, !found.entry && found.full && number == 35),
        (Arrival::StandingInFull, found.stands && found.full && number == 0),
        (Arrival::WithdrawnInFull, found.entry && !found.stands && found.full && number == 33),
    ];
    cases.into_iter().filter(|case| case.1).map(|case| case.0).collect()
}
