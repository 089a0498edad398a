//! Lists of names, each about some calls.

use super::kind::{CallOf, Kind, SideOf};

/// Names, each with whether it happened.
pub type Found = Vec<(&'static str, bool)>;

/// The calls that a list is about.
#[derive(Clone, Copy, PartialEq)]
pub enum About {
    /// Accepted calls.
    Fresh,
    Arrivals,
    Departures,
    Ticks,
    /// Accepted calls of all kinds but fresh.
    Accepted,
    /// Refused by 9.
    WrongArrivals,
    WrongDepartures,
    /// Refused by 6 or 9.
    RefusedDepartures,
    /// All calls but fresh on well-formed records.
    Sound,
    /// All calls whatever.
    All,
}

/// A list of names, and the calls that it is about.
pub struct List<K: Kind> {
    pub name: &'static str,
    pub about: About,
    /// Whether the long runs must reach every label, and whether the single calls must.
    pub needed: (bool, bool),
    pub find: fn(&SideOf<K>, &CallOf<K>, &SideOf<K>) -> Found,
}

/// A list, by its four parts.
pub fn list<K: Kind>(
    name: &'static str,
    about: About,
    needed: (bool, bool),
    find: fn(&SideOf<K>, &CallOf<K>, &SideOf<K>) -> Found,
) -> List<K> {
    List { name, about, needed, find }
}

/// The arrival's rules of a queue in shared tables, by name.
pub const QUEUE_RULES: &[&str] = &[
    "1 bytes",
    "2 slots",
    "3 allowance",
    "4 short delay",
    "5 small queue",
    "6 sum below 0.85",
    "6 sum of 8.5",
    "6 u below the probability",
    "7 otherwise",
];

pub const BOTH: (bool, bool) = (true, true);
pub const SINGLE: (bool, bool) = (false, true);

impl About {
    pub fn holds<K: Kind>(self, call: &CallOf<K>, after: &SideOf<K>) -> bool {
        let accepted = after.answer < 100;
        match (self, call.place()) {
            (About::All, _) => true,
            (About::Sound, place) => place > 0 && after.well_formed,
            (About::Accepted, place) => place > 0 && accepted,
            (About::Fresh, 0) | (About::Arrivals, 1) => accepted,
            (About::Departures, 2) | (About::Ticks, 3) => accepted,
            (About::WrongArrivals, 1) | (About::WrongDepartures, 2) => after.answer == 109,
            (About::RefusedDepartures, 2) => after.answer == 106 || after.answer == 109,
            _ => false,
        }
    }
}
