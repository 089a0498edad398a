//! What must be reached, in groups of labels, each counted.

/// One kind of thing that is counted.
struct Group {
    name: &'static str,
    /// An empty label stands for what cannot be.
    labels: Vec<String>,
    counts: Vec<u64>,
    /// Whether the long runs must reach every label, and whether the single calls must.
    needed: (bool, bool),
}

#[derive(Default)]
pub struct Groups(Vec<Group>);

pub const REFUSAL_NAMES: [&str; 4] =
    ["refusal of fresh", "refusal of arrival", "refusal of departure", "refusal of tick"];

pub const PAIR_NAMES: [&str; 4] = [
    "pair of refusals, fresh",
    "pair of refusals, arrival",
    "pair of refusals, departure",
    "pair of refusals, tick",
];

/// A label for each two of these refusals, below `limit`, that are not apart.
pub fn pair_labels(apply: &[usize], apart: &[(usize, usize)], limit: usize) -> Vec<String> {
    let mut labels = vec![String::new(); limit * limit];
    for &low in apply {
        for &high in apply.iter().filter(|&&high| high > low && !apart.contains(&(low, high))) {
            labels[low * limit + high] = format!("{low} and {high}");
        }
    }
    labels
}

/// The place of the only condition that does not hold, if it is one alone.
pub fn only_broken(conditions: &[bool]) -> Option<usize> {
    let mut broken = (0..conditions.len()).filter(|&place| !conditions[place]);
    match (broken.next(), broken.next()) {
        (place, None) => place,
        _ => None,
    }
}

pub fn owned(list: &[&str]) -> Vec<String> {
    list.iter().map(|label| label.to_string()).collect()
}

impl Groups {
    pub fn add(&mut self, name: &'static str, needed: (bool, bool), labels: Vec<String>) {
        let counts = vec![0; labels.len()];
        self.0.push(Group { name, labels, counts, needed });
    }

    pub fn hit(&mut self, group: usize, label: usize) {
        self.0[group].counts[label] += 1;
    }

    /// Counts each label whose condition holds.
    pub fn hits(&mut self, group: usize, holding: &[bool]) {
        let Group { name, labels, counts, .. } = &mut self.0[group];
        assert!(labels.len() == holding.len(), "group '{name}' has other labels");
        for (count, &holds) in counts.iter_mut().zip(holding) {
            *count += u64::from(holds);
        }
    }

    /// Counts each two refusals that apply to one call.
    pub fn hit_pairs(&mut self, group: usize, applying: &[bool]) {
        let numbers: Vec<usize> = (0..applying.len()).filter(|&n| applying[n]).collect();
        for (place, low) in numbers.iter().enumerate() {
            for high in &numbers[place + 1..] {
                self.hit(group, low * applying.len() + high);
            }
        }
    }

    /// What was needed and not reached.
    pub fn missing(&self, runs: bool) -> Vec<String> {
        let mut missing = Vec::new();
        for group in self.0.iter().filter(|group| group.is_needed(runs)) {
            for (label, count) in group.labels.iter().zip(&group.counts) {
                if !label.is_empty() && *count == 0 {
                    missing.push(format!("{} {label}", group.name));
                }
            }
        }
        missing
    }

    /// One line for each group: how many of its labels were reached, and the rarest of them.
    pub fn print(&self, runs: bool, all: bool) {
        for group in self.0.iter().filter(|group| group.is_needed(runs)) {
            group.print(all);
        }
    }
}

impl Group {
    fn is_needed(&self, runs: bool) -> bool {
        if runs {
            self.needed.0
        } else {
            self.needed.1
        }
    }

    fn print(&self, all: bool) {
        let named = self.labels.iter().zip(&self.counts).filter(|(label, _)| !label.is_empty());
        let named: Vec<(&String, &u64)> = named.collect();
        let reached = named.iter().filter(|(_, count)| **count > 0).count();
        let rarest = named.iter().min_by_key(|(_, count)| **count);
        if let Some((label, count)) = rarest {
            let name = self.name;
            let total = named.len();
            println!("  {name:<38} {reached:>3} of {total:>3}   rarest: {label} ({count})");
        }
        for (label, count) in named.into_iter().filter(|_| all) {
            println!("      {label:<60} {count:>9}");
        }
    }
}
