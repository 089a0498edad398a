//! Counts what the compared calls reached, and names what they did not.

pub use crate::shared::groups::owned;
use crate::shared::groups::Groups;

/// The groups of one part of the comparison. Every label must be reached.
pub struct Coverage {
    pub calls: u64,
    groups: Groups,
}

impl Coverage {
    pub fn new(list: Vec<(&'static str, Vec<String>)>) -> Coverage {
        let mut groups = Groups::default();
        for (name, labels) in list {
            groups.add(name, (true, true), labels);
        }
        Coverage { calls: 0, groups }
    }

    pub fn hit(&mut self, group: usize, label: usize) {
        self.groups.hit(group, label);
    }

    /// Counts each label whose condition holds.
    pub fn hits(&mut self, group: usize, holding: &[bool]) {
        self.groups.hits(group, holding);
    }

    /// Counts the label where its condition alone holds.
    pub fn hit_alone(&mut self, group: usize, holding: &[bool]) {
        if holding.iter().filter(|&&holds| holds).count() == 1 {
            self.hits(group, holding);
        }
    }

    pub fn missing(&self) -> Vec<String> {
        self.groups.missing(true)
    }

    pub fn print(&self, all: bool) {
        self.groups.print(true, all);
    }
}
