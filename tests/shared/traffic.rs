//! The traffic of a long run: its phases, and when packets come and go.

use super::random::Random;

#[derive(Clone, Copy, PartialEq)]
pub enum Phase {
    /// More arrives than can leave.
    Overload,
    /// Nothing arrives.
    Idle,
    /// Many packets at one clock, then a pause.
    Burst,
    /// About as much arrives as leaves.
    Balanced,
    /// Less arrives than can leave: the queue is short, and often empty.
    Light,
    /// Nothing arrives and the queue leaves faster.
    Draining,
    /// The queue leaves at once, and many ticks find it empty.
    Quiet,
}

/// The phases to choose from, some of them more often than others.
pub const PHASES: [Phase; 12] = [
    Phase::Overload,
    Phase::Overload,
    Phase::Overload,
    Phase::Idle,
    Phase::Burst,
    Phase::Burst,
    Phase::Balanced,
    Phase::Balanced,
    Phase::Light,
    Phase::Light,
    Phase::Draining,
    Phase::Quiet,
];

/// The phases of a run in which nearly always more arrives than leaves.
pub const EAGER: [Phase; 5] =
    [Phase::Overload, Phase::Overload, Phase::Overload, Phase::Burst, Phase::Draining];

/// Departures take `ns_per_byte` for each byte of the head.
#[derive(Clone, Copy)]
pub struct Traffic {
    pub ns_per_byte: u64,
    pub sizes: (u64, u64),
    /// Whether u is always the greatest: early verdicts then come from the sum alone.
    pub lucky: bool,
}

impl Traffic {
    /// The time until the next packet arrives; none arrives in three of the phases.
    pub fn arrival_gap(&self, r: &mut Random, phase: Phase) -> Option<u64> {
        let mean = (self.sizes.0 + self.sizes.1) / 2 * self.ns_per_byte / 1_000;
        match phase {
            Phase::Overload => Some(mean * r.range(10, 70) / 100),
            Phase::Balanced => Some(mean * r.range(60, 140) / 100),
            Phase::Light => Some(mean * r.range(150, 1_500) / 100),
            Phase::Burst if r.one_in(30) => Some(mean * r.range(10, 60)),
            Phase::Burst => Some(0),
            Phase::Idle | Phase::Draining | Phase::Quiet => None,
        }
    }

    /// The time until the head has left.
    pub fn departure_gap(&self, size: u64, phase: Phase) -> u64 {
        let time = size * self.ns_per_byte / 1_000;
        match phase {
            Phase::Draining => time / 4,
            Phase::Quiet => 0,
            _ => time,
        }
    }

    pub fn size(&self, r: &mut Random) -> u32 {
        r.range(self.sizes.0, self.sizes.1) as u32
    }

    pub fn u(&self, r: &mut Random) -> u32 {
        let any = r.number() as u32;
        let u = r.pick(&[any, any, any, any, any, any, any, 0, u32::MAX]);
        if self.lucky {
            u32::MAX
        } else {
            u
        }
    }
}
