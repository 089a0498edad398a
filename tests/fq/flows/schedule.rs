//! The lists, both in one ring: the old one from `first` on, then the new one; and choosing (20, 26).

use super::{Record, FLOWS, LEAST, LOOKS, QUANTUM};

/// Lists and deficits, apart from what else a record holds.
#[derive(Clone, Copy, PartialEq, Eq)]
pub struct Schedule {
    pub first: u64,
    pub old: u64,
    pub listed: u64,
    pub order: [u64; FLOWS],
    pub deficits: [i64; FLOWS],
}

/// What a look at the head finds (26).
#[derive(Clone, Copy, PartialEq, Eq)]
pub enum Look {
    /// a: the deficit is negative.
    Owes,
    /// b: the flow holds no packet.
    Empty,
    /// c
    Chosen,
}

/// A choice: the flow, the moves before it, and the lists and deficits that they leave.
#[derive(Clone, Copy)]
pub struct Choice {
    pub flow: usize,
    pub schedule: Schedule,
    /// The moves of a flow that owes from the new list and from the old one, of an empty flow from the
    /// new list and from the old one.
    pub moves: [u64; 4],
}

impl Choice {
    pub fn total(&self) -> u64 {
        self.moves.iter().sum()
    }
}

fn at(place: u64) -> usize {
    place as usize % FLOWS
}

impl Schedule {
    pub fn of(r: &Record) -> Schedule {
        let c = &r.common;
        let deficits = std::array::from_fn(|flow| r.deficit(flow));
        Schedule { first: c.first, old: c.old, listed: c.listed, order: r.order, deficits }
    }

    pub fn keep(&self, r: &mut Record) {
        (r.common.first, r.common.old, r.common.listed) = (self.first, self.old, self.listed);
        r.order = self.order;
        r.deficits = self.deficits.map(|deficit| (deficit - LEAST) as u32);
    }

    /// A flow that is in neither list goes to the end of the new one, with one quantum (25).
    pub fn enlist(&mut self, flow: usize) {
        let listed = (0..self.listed).any(|i| self.order[at(self.first + i)] == flow as u64);
        if !listed {
            self.order[at(self.first + self.listed)] = flow as u64;
            self.listed += 1;
            self.deficits[flow] = QUANTUM;
        }
    }

    pub fn new_is_empty(&self) -> bool {
        self.listed == self.old
    }

    /// The head of the new list, or of the old one where the new is empty.
    fn head(&self) -> usize {
        let place = if self.new_is_empty() { self.first } else { self.first + self.old };
        self.order[at(place)] as usize
    }

    fn look(&self, holds: &[bool; FLOWS]) -> (usize, Look) {
        let flow = self.head();
        let found = match self.deficits[flow] {
            ..=-1 => Look::Owes,
            _ if !holds[flow] => Look::Empty,
            _ => Look::Chosen,
        };
        (flow, found)
    }

    /// The head of the list that is looked at goes to the end of the old one.
    fn to_old_end(&mut self, flow: usize) {
        if self.new_is_empty() {
            self.order[at(self.first + self.listed)] = flow as u64;
            self.first = at(self.first + 1) as u64;
        } else {
            self.old += 1;
        }
    }

    /// The old list's head leaves.
    fn drop_head(&mut self) {
        self.first = at(self.first + 1) as u64;
        self.old -= 1;
        self.listed -= 1;
    }

    fn move_on(&mut self, flow: usize, found: Look) {
        match found {
            Look::Owes => {
                self.deficits[flow] += QUANTUM;
                self.to_old_end(flow);
            }
            _ if self.new_is_empty() => self.drop_head(),
            _ => self.to_old_end(flow),
        }
    }
}

/// The flow that is served next; flow 0 with both lists empty or after the most looks, which no
/// accepted departure meets.
pub fn choose(r: &Record) -> Choice {
    let holds = r.flows.map(|flow| flow.count > 0);
    let mut choice = Choice { flow: 0, schedule: Schedule::of(r), moves: [0; 4] };
    for _ in 0..LOOKS {
        if choice.schedule.listed == 0 {
            break;
        }
        let (flow, found) = choice.schedule.look(&holds);
        if found == Look::Chosen {
            choice.flow = flow;
            break;
        }
        let from_old = usize::from(choice.schedule.new_is_empty());
        choice.moves[2 * usize::from(found == Look::Empty) + from_old] += 1;
        choice.schedule.move_on(flow, found);
    }
    choice
}
