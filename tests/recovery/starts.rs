//! Probabilities, as intervals, and what a tick on an empty queue makes of them.

use crate::model::{self, State, BANDS, TICK_PERIOD, WHOLE};

/// What an empty queue is told by.
#[derive(Clone, Copy)]
pub struct Settings {
    pub target: u64,
    pub profile: u64,
}

/// An empty active queue with this probability and old delay.
pub fn empty(settings: Settings, probability: u64, old_delay: u64) -> State {
    let Settings { target, profile } = settings;
    let unset = State { buffer: 1, slots: 1, active: 1, ..State::default() };
    State { target, profile, probability, old_delay, ..unset }
}

/// The probability after one tick.
fn after(settings: Settings, probability: u64, old_delay: u64) -> u64 {
    let mut state = empty(settings, probability, old_delay);
    model::tick(&mut state, TICK_PERIOD).expect("a punctual tick is accepted");
    state.probability
}

/// Probabilities that a queue may have: intervals, both ends included, in order.
pub struct Starts(Vec<(u64, u64)>);

impl Starts {
    pub fn all() -> Self {
        Starts(vec![(0, WHOLE)])
    }

    pub fn most(&self) -> u64 {
        self.0.last().map_or(0, |&(_, most)| most)
    }

    /// Whether all probabilities up to the most are among these.
    pub fn has_all_below(&self) -> bool {
        self.0 == [(0, self.most())]
    }

    /// The intervals cut at the ends of the bands.
    fn cut(&self) -> impl Iterator<Item = (u64, u64)> + '_ {
        self.0.iter().flat_map(|&(low, high)| {
            BANDS.iter().enumerate().filter_map(move |(i, &(end, _))| {
                let begin = if i == 0 { 0 } else { BANDS[i - 1].0 + 1 };
                let part = (low.max(begin), high.min(end));
                (part.0 <= part.1).then_some(part)
            })
        })
    }

    /// After one tick. Within a band the probabilities fall by the same step, and rule 5 leaves of
    /// neighbours neighbours or equals: an interval stays one.
    pub fn ticked(&self, settings: Settings, old_delay: u64) -> Self {
        let next = |p| after(settings, p, old_delay);
        let mut images: Vec<_> = self.cut().map(|(low, high)| (next(low), next(high))).collect();
        images.sort_unstable();
        let mut joined: Vec<(u64, u64)> = Vec::new();
        for (low, high) in images {
            match joined.last_mut() {
                Some(last) if low <= last.1 + 1 => last.1 = last.1.max(high),
                _ => joined.push((low, high)),
            }
        }
        Starts(joined)
    }

    /// One of these of which a tick makes `p`.
    pub fn before(&self, settings: Settings, old_delay: u64, p: u64) -> u64 {
        let next = |q| after(settings, q, old_delay);
        let (mut low, mut high) = self
            .cut()
            .find(|&(low, high)| next(low) <= p && p <= next(high))
            .expect("it came from one of these");
        while low < high {
            let middle = low + (high - low) / 2;
            if next(middle) < p {
                low = middle + 1;
            } else {
                high = middle;
            }
        }
        low
    }
}
