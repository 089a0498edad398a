//! Counts what the compared calls of a kind reached, and names what they did not.

use super::burst_labels;
use super::groups::{only_broken, owned, pair_labels, Groups, PAIR_NAMES, REFUSAL_NAMES};
use super::kind::{CallOf, Kind, SideOf, What};
pub use super::lists::*;

/// What the coverage of a kind counts.
pub trait Covered: Kind {
    /// An empty name stands for what cannot be.
    const VERDICTS: [&'static str; 5];
    /// The arrival's rules, by name.
    const RULES: &'static [&'static str];
    /// Where several queues are counted apart, their names.
    const QUEUES: &'static [&'static str] = &[];
    /// The refusals that fresh, arrivals, departures and ticks can get.
    const APPLY: [&'static [usize]; 4];
    /// Pairs of them that cannot apply to one call together.
    const APART: [&'static [(usize, usize)]; 4];
    /// The last probability of each band, and its divisor.
    const BANDS: &'static [(u64, i64)];
    /// Whether the ends of the bands are counted.
    const BAND_ENDS: bool = false;
    /// What a long run can tell beyond its single calls.
    const RUN_EVENTS: (&'static str, &'static [&'static str]);
    /// The labels of `burst_labels::LABELS` that cannot be reached.
    const NO_BURST: &'static [&'static str];

    /// The conditions by name; an empty one cannot be the only one that is broken.
    fn conditions() -> Vec<String>;
    /// Which of them hold before a call, if they are asked.
    fn holding(before: &SideOf<Self>, call: &CallOf<Self>) -> Option<Vec<bool>>;
    /// The label of the only condition that is broken.
    fn condition_label(broken: usize) -> usize {
        broken
    }
    fn rule(before: &SideOf<Self>, call: &CallOf<Self>, after: &SideOf<Self>) -> usize;
    /// The place of the queue among `QUEUES`.
    fn queue(_: &Self::To) -> usize {
        0
    }
    /// The probabilities that a tick changes by a step, and that step.
    fn steps(before: &SideOf<Self>, call: &CallOf<Self>) -> Vec<(u64, i64)>;
    /// More groups of labels that are counted by the kind itself, and the labels that a call reached, by
    /// their groups and places.
    fn more_groups() -> Vec<(&'static str, (bool, bool), Vec<String>)> {
        Vec::new()
    }
    fn more(_: &CallOf<Self>, _after: &SideOf<Self>) -> Vec<(usize, usize)> {
        Vec::new()
    }
    fn lists() -> Vec<List<Self>>;
    /// A side and calls on it by which the names of the lists are asked for: fresh, an arrival, a
    /// departure, a tick.
    fn sample() -> (SideOf<Self>, [CallOf<Self>; 4]);
}

const VERDICT: usize = 0;
const RULE: usize = 1;
const CONDITION: usize = 2;
const STEP_UP: usize = 3;
const STEP_DOWN: usize = 4;
const RUN_EVENT: usize = 5;
const BURST: usize = 6;
const BAND_FIRST: usize = 7;
const BAND_LAST: usize = 8;
const REFUSALS: usize = 9; // and 10, 11, 12: fresh, arrival, departure, tick
const PAIRS: usize = 13; // and 14, 15, 16
const LISTS: usize = 17; // and the following: the kind's lists, then its other groups

pub struct Coverage<K: Covered> {
    pub calls: u64,
    groups: Groups,
    lists: Vec<List<K>>,
}

/// The names, for each queue where these are counted apart.
pub fn by_queue<K: Covered>(names: &[&str]) -> Vec<String> {
    if K::QUEUES.is_empty() {
        return owned(names);
    }
    let of = |queue: &&str| -> Vec<String> {
        names.iter().map(|name| format!("{queue}: {name}")).collect()
    };
    K::QUEUES.iter().flat_map(of).collect()
}

/// A label for each refusal that applies, of each queue; fresh is for all. Runs from fresh give neither
/// 2 nor 9.
fn refusal_labels<K: Covered>(kind: usize, runs: bool) -> Vec<String> {
    let given = |n: usize| K::APPLY[kind].contains(&n) && (!runs || (n != 2 && n != 9));
    let label = |place: usize| match (place % 11, place / 11) {
        (n, _) if !given(n) => String::new(),
        (n, 0) if K::QUEUES.is_empty() => n.to_string(),
        (n, queue) if kind > 0 || queue == 0 => format!("{n}, {}", K::QUEUES[queue]),
        _ => String::new(),
    };
    (0..11 * K::QUEUES.len().max(1)).map(label).collect()
}

fn first_of_band<K: Covered>(band: usize) -> u64 {
    if band == 0 {
        0
    } else {
        K::BANDS[band - 1].0 + 1
    }
}

/// The names in a list, taken from a sample call.
fn list_labels<K: Covered>(list: &List<K>) -> Vec<String> {
    let (mut side, [fresh, arrival, departure, tick]) = K::sample();
    side.call_model::<K>(&arrival);
    let call = match list.about {
        About::Fresh => fresh,
        About::Arrivals | About::WrongArrivals | About::All => arrival,
        About::Ticks => tick,
        _ => departure,
    };
    let before = side.clone();
    side.call_model::<K>(&call);
    let found = (list.find)(&before, &call, &side);
    found.into_iter().map(|(label, _)| label.to_string()).collect()
}

impl<K: Covered> Coverage<K> {
    /// Counts for the long runs, or for the single calls.
    pub fn new(runs: bool) -> Self {
        let mut groups = Groups::default();
        let bands: Vec<String> = K::BANDS.iter().map(|band| format!("k {}", band.1)).collect();
        groups.add("verdict", BOTH, by_queue::<K>(&K::VERDICTS));
        groups.add("arrival rule", BOTH, by_queue::<K>(K::RULES));
        groups.add("only this condition broken", SINGLE, K::conditions());
        groups.add("band with a step above zero", BOTH, bands.clone());
        groups.add("band with a step below zero", BOTH, bands);
        groups.add(K::RUN_EVENTS.0, (true, false), owned(K::RUN_EVENTS.1));
        groups.add("burst", SINGLE, burst_labels::labels::<K>());
        let ends = 0..if K::BAND_ENDS { K::BANDS.len() } else { 0 };
        let first = ends.clone().map(|band| first_of_band::<K>(band).to_string()).collect();
        groups.add("probability at the first of a band", SINGLE, first);
        let last = ends.map(|band| K::BANDS[band].0.to_string()).collect();
        groups.add("probability at the last of a band", SINGLE, last);
        for (kind, name) in REFUSAL_NAMES.into_iter().enumerate() {
            groups.add(name, BOTH, refusal_labels::<K>(kind, runs));
        }
        for (kind, name) in PAIR_NAMES.into_iter().enumerate() {
            groups.add(name, SINGLE, pair_labels(K::APPLY[kind], K::APART[kind], 11));
        }
        let lists = K::lists();
        for list in &lists {
            groups.add(list.name, list.needed, list_labels(list));
        }
        for (name, needed, labels) in K::more_groups() {
            groups.add(name, needed, labels);
        }
        Coverage { calls: 0, groups, lists }
    }

    /// Counts one call that was compared.
    pub fn note(&mut self, before: &SideOf<K>, call: &CallOf<K>, after: &SideOf<K>) {
        self.calls += 1;
        self.note_refusals(before, call, after);
        if after.answer < 100 {
            self.note_accepted(before, call, after);
        }
        for (place, list) in self.lists.iter().enumerate() {
            if list.about.holds::<K>(call, after) {
                let found = (list.find)(before, call, after).into_iter();
                let happened: Vec<bool> = found.map(|(_, happened)| happened).collect();
                self.groups.hits(LISTS + place, &happened);
            }
        }
        for (group, label) in K::more(call, after) {
            self.groups.hit(LISTS + self.lists.len() + group, label);
        }
    }

    /// Counts one of the run's events.
    pub fn note_run_event(&mut self, label: usize) {
        self.groups.hit(RUN_EVENT, label);
    }

    /// Counts one of `burst_labels::LABELS`.
    pub fn note_burst(&mut self, label: usize) {
        self.groups.hit(BURST, label);
    }

    fn note_refusals(&mut self, before: &SideOf<K>, call: &CallOf<K>, after: &SideOf<K>) {
        let (kind, applying) = (call.place(), K::applying(before, call));
        if (101..=110).contains(&after.answer) {
            let place = 11 * K::queue(&call.to) + after.answer as usize - 100;
            self.groups.hit(REFUSALS + kind, place);
        }
        self.groups.hit_pairs(PAIRS + kind, &applying);
        if kind > 0 {
            let broken = K::holding(before, call).and_then(|holding| only_broken(&holding));
            if let Some(broken) = broken {
                self.groups.hit(CONDITION, K::condition_label(broken));
            }
        }
    }

    fn note_accepted(&mut self, before: &SideOf<K>, call: &CallOf<K>, after: &SideOf<K>) {
        let queue = K::queue(&call.to);
        match call.what {
            What::Arrival(_) => {
                self.groups.hit(VERDICT, 5 * queue + after.answer as usize);
                let rule = K::rule(before, call, after);
                self.groups.hit(RULE, K::RULES.len() * queue + rule);
            }
            What::Tick(_) => {
                for (probability, step) in K::steps(before, call) {
                    self.note_step(probability, step);
                }
            }
            _ => {}
        }
    }

    fn note_step(&mut self, probability: u64, step: i64) {
        let band = K::BANDS.iter().position(|&(last, _)| probability <= last);
        let band = band.unwrap_or(K::BANDS.len() - 1);
        match step {
            1.. => self.groups.hit(STEP_UP, band),
            0 => {}
            _ => self.groups.hit(STEP_DOWN, band),
        }
        if K::BAND_ENDS && probability == first_of_band::<K>(band) {
            self.groups.hit(BAND_FIRST, band);
        }
        if K::BAND_ENDS && probability == K::BANDS[band].0 {
            self.groups.hit(BAND_LAST, band);
        }
    }

    /// What was needed and not reached.
    pub fn missing(&self, runs: bool) -> Vec<String> {
        self.groups.missing(runs)
    }

    pub fn print(&self, runs: bool, all: bool) {
        self.groups.print(runs, all);
    }
}
