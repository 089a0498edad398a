//! The labels of the ends of the fields' ranges, in the order in which they are run.

use super::edges::{record_edges, settings_edges, Edge, KINDS};
use super::model::{RECORD_FIELDS, SETTINGS_FIELDS};

fn labels(name: &str, edges: Vec<Edge>) -> Vec<String> {
    let word = |allowed| if allowed { "accepted" } else { "refused" };
    let label = |&(value, allowed): &Edge| format!("{name} {value} {}", word(allowed));
    edges.iter().map(label).collect()
}

pub fn of_settings() -> Vec<String> {
    let fields = SETTINGS_FIELDS.iter().enumerate();
    fields.flat_map(|(field, name)| labels(name, settings_edges(field))).collect()
}

pub fn of_records() -> Vec<String> {
    let mut all = Vec::new();
    for kind in KINDS {
        for (field, name) in RECORD_FIELDS.iter().enumerate() {
            all.extend(labels(&format!("{} {name}", kind as char), record_edges(kind, field)));
        }
    }
    all
}
