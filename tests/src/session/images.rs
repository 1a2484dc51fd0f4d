//! Images that no step left: sessions at every point of an election with each field changed, lent to every call.
use super::election::small;
use super::hostile;
use super::image::{CHECKED, CLAIM, CLOSED_COUNT, CLOSING, COMMITTED, NUMBERS, PHASE, ROUNDS, SEED, SHEET, USED};
use super::steps::{Host, Step, Trial};
use super::walk::{Kind, Walk, KINDS};
use crate::random::Random;
use crate::round::faults::turn;
use crate::round::material::Plan;
use crate::tally::Tally;

/// A point of an election: the host's bytes there, a step of each kind, and the withdrawal of a mark that no ballot has.
struct Point {
    host: Host,
    steps: Vec<Step>,
}

fn point(random: &mut Random, walk: &mut Walk) -> Point {
    let early = Step::Withdraw { mark: random.next() as u32 };
    Point { host: walk.host.clone(), steps: KINDS.into_iter().map(|kind| walk.step(random, kind)).chain([early]).collect() }
}

/// From a register with four entries through both ends: a check that is refused, and the last that is taken.
fn points(trial: &mut Trial, random: &mut Random, plan: Plan) -> Vec<Point> {
    let mut walk = Walk::gathered(trial, random, plan);
    let mut points = vec![point(random, &mut walk)];
    let rounds = plan.rounds as usize;
    let rest = [vec![Kind::Close, Kind::Claim], vec![Kind::Commit; rounds], vec![Kind::Draw], vec![Kind::Check; rounds]].concat();
    for kind in rest {
        walk.go(trial, random, kind);
        points.push(point(random, &mut walk));
    }
    let mut refused = walk;
    refused.host = points[rounds + 3].host.clone();
    let mut step = refused.check(0);
    if let Step::Check { lent, .. } = &mut step {
        turn(&mut lent["opening"], 16 * plan.n);
    }
    refused.take(trial, &step, || "another r in the opening".into());
    points.push(point(random, &mut refused));
    points
}

/// A field's first byte, and what is written there.
type Change = (usize, Vec<u8>);

/// What each field is changed to: the ends of its range, what lies past them, and numbers that look like others if they are cut short.
fn changes(host: &Host) -> Vec<Change> {
    let was = |at: usize| u64::from_le_bytes(host.image[at..at + 8].try_into().unwrap());
    let [n, q, _, rounds, repeats] = NUMBERS.map(was);
    let number = |at: usize, values: &[u64]| values.iter().map(move |value| (at, value.to_le_bytes().to_vec())).collect::<Vec<Change>>();
    let entries = [0, 1, 2, 3, 4, 4095, 4096, 4097, 1 << 12 << 8, 1 << 32, u64::MAX];
    let counted = |at: usize| [0, 1, 2, 3, 4, rounds, rounds + 1, 127, 128, 129, 256, was(at) + (1 << 16), was(at) + (1 << 32), u64::MAX];
    let mut all: Vec<Change> = (0..=9).chain([127, 128, 255]).map(|phase| (PHASE, vec![phase])).collect();
    all.extend(number(NUMBERS[0], &[0, 1, 2, 3, 4, 5, 8, 12, 16, 1024, 2048, 4096, n + (1 << 32), u64::MAX]));
    all.extend(number(NUMBERS[1], &[0, 1, 2, 3, q + 1, q + 2, q + 2 * n, q - 2 * n, (1 << 56) - 1, 1 << 56, q + (1 << 56), u64::MAX]));
    all.extend(number(NUMBERS[2], &[0, 1, 39, 40, 41, 64, 128, 1 << 32, u64::MAX]));
    all.extend(number(NUMBERS[3], &[0, 1, 2, 3, 4, 128, 129, rounds + 256, rounds + (1 << 32), u64::MAX]));
    all.extend(number(NUMBERS[4], &[0, repeats - 1, repeats + 1, 255, 256, 257, repeats + (1 << 32), u64::MAX]));
    [USED, CLOSED_COUNT].into_iter().for_each(|at| all.extend(number(at, &entries)));
    [COMMITTED, CHECKED].into_iter().for_each(|at| all.extend(number(at, &counted(at))));
    for at in [SHEET, CLOSING, CLAIM, SEED, ROUNDS, ROUNDS + 32, ROUNDS + 64, ROUNDS + 32 * 127] {
        all.extend([at, at + 31].map(|byte| (byte, vec![host.image[byte] ^ 1])));
    }
    all
}

fn changed(host: &Host, (at, bytes): &Change) -> Host {
    let mut other = host.clone();
    other.image[*at..at + bytes.len()].copy_from_slice(bytes);
    other
}

/// Each change at each point, lent to each call. Clear is taken from any session.
fn fields(tally: &mut Tally, trial: &mut Trial, points: &[Point]) {
    for (i, point) in points.iter().enumerate() {
        for change in changes(&point.host) {
            for step in &point.steps {
                let mut host = changed(&point.host, &change);
                let left = trial.step(&mut host, step, || format!("point {i}, {:?} at byte {}", change.1, change.0));
                let cleared = left.number() == 0 || !matches!(step, Step::Clear { .. });
                trial.comparison.same(|| "clear from any session".into(), cleared, true);
            }
        }
    }
    trial.claim(tally, "session: every call with each field of the image changed, at each point of an election");
}

fn some_fields(tally: &mut Tally, trial: &mut Trial, random: &mut Random, points: &[Point]) {
    for _ in 0..3000 {
        let point = &points[random.below(points.len() as u64) as usize];
        let step = &point.steps[random.below(point.steps.len() as u64) as usize];
        let mut host = point.host.clone();
        (0..2 + random.below(2)).for_each(|_| hostile::image(random, &mut host.image));
        trial.step(&mut host, step, || "some fields changed".into());
    }
    trial.claim(tally, "session: images with two or three fields changed");
}

/// An image of another length is refused 1 before all else, whatever the rest is.
fn lengths(tally: &mut Tally, trial: &mut Trial, random: &mut Random, points: &[Point]) {
    for point in points {
        for (i, length) in [0, 1, 41, 4096, 4296, 4298, 8594].into_iter().enumerate() {
            for step in &point.steps {
                let (mut host, mut step) = (point.host.clone(), step.clone());
                host.image.resize(length, 0);
                if i % 2 == 1 {
                    hostile::step(random, &mut step);
                    hostile::length(random, &mut host.register);
                }
                trial.number(&mut host, &step, 1, || format!("an image of {length} bytes"));
            }
        }
    }
    trial.claim(tally, "session: an image of another length is refused 1 before all else, and nothing is written");
}

pub fn run(tally: &mut Tally, trial: &mut Trial, random: &mut Random) {
    let plan = Plan { rounds: 2, ..small(random, 4) };
    let points = points(trial, random, plan);
    fields(tally, trial, &points);
    some_fields(tally, trial, random, &points);
    lengths(tally, trial, random, &points);
}
