//! Lists of steps, each given what the last one left or what a host wrote in between: after every step reply, image, register, output and
//! scratch are the same. Where no host wrote, replies and batch also follow from the steps that were taken.
use super::early::crowd;
use super::election::small;
use super::history::History;
use super::hostile;
use super::image::{ACCEPTED, ENTRIES, IMAGE, REFUSED};
use super::steps::{Step, Trial};
use super::walk::{Kind, Walk, KINDS};
use crate::random::Random;
use crate::tally::Tally;
use std::collections::BTreeSet;

/// How often the lists of a claim meet each case of an early withdrawal or of a full register, at least.
const OFTEN: usize = 20;

/// How often in a thousand steps something is other than in an election.
struct Hostility {
    /// a step of any kind
    order: u64,
    /// a slice or number of the step
    steps: u64,
    /// the register, from then on
    registers: u64,
    /// image or register, for a step that is not kept
    asides: u64,
    /// the image, from then on
    images: u64,
}

fn one(random: &mut Random, kinds: &[Kind]) -> Kind {
    kinds[random.below(kinds.len() as u64) as usize]
}

fn happens(random: &mut Random, in_a_thousand: u64) -> bool {
    random.below(1000) < in_a_thousand
}

impl Hostility {
    /// Whether the host keeps other bytes than the last step left.
    fn writes(&self) -> bool {
        self.registers > 0 || self.images > 0
    }
}

/// A list under way, and what was taken of it.
struct List<'a> {
    walk: Walk,
    history: History,
    hostility: &'a Hostility,
}

impl List<'_> {
    /// Over an election of its own, from any session.
    fn new<'a>(trial: &mut Trial, random: &mut Random, number: usize, hostility: &'a Hostility) -> List<'a> {
        let plan = small(random, [4, 4, 8, 16][number / 2 % 4]);
        let walk = Walk::new(random, plan);
        let mut list = List { walk, history: History::default(), hostility };
        let clear = list.walk.step(random, Kind::Clear);
        list.take(trial, &clear, &format!("list {number}, from any session"));
        if number % 2 == 1 {
            list.crowd(trial, random);
        }
        list
    }

    /// Some ballots, and then early withdrawals as the host would keep them, until all entries are used but a few.
    fn crowd(&mut self, trial: &mut Trial, random: &mut Random) {
        for ballot in 0..random.below(6) as usize {
            let step = Step::Admit { ballot: self.walk.election.ballots[ballot].clone() };
            self.take(trial, &step, "before the crowd");
        }
        for mark in crowd(&mut self.walk.host, ENTRIES - random.below(3)) {
            self.history.take(&Step::Withdraw { mark });
        }
    }

    /// One step, and what comes before it.
    fn advance(&mut self, trial: &mut Trial, random: &mut Random, what: &str) {
        let (walk, hostility) = (&mut self.walk, self.hostility);
        if happens(random, hostility.registers) {
            hostile::register(random, &mut walk.host);
        }
        if happens(random, hostility.images) {
            hostile::image(random, &mut walk.host.image);
        }
        let stuck = !walk.session().valid() && random.below(2) == 0;
        let any = happens(random, hostility.order);
        let kind = if stuck { Kind::Clear } else { one(random, if any { &KINDS } else { walk.due() }) };
        let mut step = walk.step(random, kind);
        if happens(random, hostility.asides) {
            let mut lent = walk.host.clone();
            hostile::host(random, &mut lent);
            trial.step(&mut lent, &step, || format!("{what}, with an image or a register of another's"));
        }
        if happens(random, hostility.steps) {
            hostile::step(random, &mut step);
        }
        self.take(trial, &step, what);
    }

    /// Where the host writes nothing, what the step leaves follows from what was taken.
    fn take(&mut self, trial: &mut Trial, step: &Step, what: &str) {
        let left = self.walk.take(trial, step, || what.into());
        if !self.hostility.writes() {
            self.history.follow(trial, step, &left, || what.into());
        }
    }
}

/// A list of 60 steps. Says in which phases it stood.
fn list(trial: &mut Trial, random: &mut Random, number: usize, hostility: &Hostility) -> BTreeSet<u8> {
    let mut list = List::new(trial, random, number, hostility);
    let mut phases = BTreeSet::new();
    for i in 0..60 {
        list.advance(trial, random, &format!("list {number}, step {i}"));
        phases.insert(list.walk.session().phase);
    }
    phases
}

/// So many lists, which meet all that a withdrawal or a late ballot can.
fn lists(trial: &mut Trial, random: &mut Random, count: usize, hostility: &Hostility) -> BTreeSet<u8> {
    let phases = (0..count).flat_map(|number| list(trial, random, number, hostility)).collect();
    trial.often(OFTEN);
    phases
}

/// The phases of a list that goes through an election to either end.
fn ends(trial: &mut Trial, phases: &BTreeSet<u8>) {
    for phase in 0..=ACCEPTED {
        trial.comparison.same(|| format!("phase {phase} was reached"), phases.contains(&phase), true);
    }
}

fn walks(tally: &mut Tally, trial: &mut Trial, random: &mut Random) {
    let mut phases = lists(trial, random, 160, &Hostility { order: 0, steps: 0, registers: 0, asides: 0, images: 0 });
    trial.comparison.same(|| "no honest list is refused".into(), phases.contains(&REFUSED), false);
    phases.insert(REFUSED);
    ends(trial, &phases);
    trial.claim(tally, "session: lists of steps through elections, one step as due after another");

    let phases = lists(trial, random, 160, &Hostility { order: 150, steps: 80, registers: 0, asides: 0, images: 0 });
    ends(trial, &phases);
    trial.claim(tally, "session: lists with steps out of turn and steps that are wrong in a slice or a number");

    let phases = lists(trial, random, 160, &Hostility { order: 60, steps: 40, registers: 150, asides: 100, images: 0 });
    ends(trial, &phases);
    trial.claim(tally, "session: lists with registers that the host wrote");

    let phases = lists(trial, random, 240, &Hostility { order: 100, steps: 50, registers: 50, asides: 200, images: 60 });
    trial.comparison.same(|| "a phase that is unknown".into(), phases.iter().any(|phase| *phase > ACCEPTED), true);
    ends(trial, &phases);
    trial.claim(tally, "session: lists with images that the host wrote");
}

/// Images that hold anything, and any with a known phase.
fn anything(tally: &mut Tally, trial: &mut Trial, random: &mut Random) {
    let plan = small(random, 4);
    let mut walk = Walk::drawn(trial, random, plan);
    for i in 0..300 {
        let step = walk.step(random, KINDS[i % 10]);
        let mut lent = walk.host.clone();
        lent.image = random.bytes(IMAGE);
        if i % 3 > 0 {
            lent.image[0] %= 6;
        }
        trial.step(&mut lent, &step, || "an image that holds anything".into());
    }
    trial.claim(tally, "session: every call with images that hold anything");
}

pub fn run(tally: &mut Tally, trial: &mut Trial, random: &mut Random) {
    walks(tally, trial, random);
    anything(tally, trial, random);
}
