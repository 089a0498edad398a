//! Prints a call and what model and library made of it, field by field.

use super::kind::{CallOf, Kind, SideOf, STOPPED};
use super::pair::Difference;
use std::fmt::Display;

pub const VERDICTS: [&str; 5] =
    ["enqueued", "marked", "dropped, bytes", "dropped, slots", "dropped, early"];

/// The answer to a kind of call in words.
pub fn answer_name(place: usize, answer: u32) -> String {
    match (place, answer) {
        (_, STOPPED) => "stopped".to_string(),
        (1, 0..=4) => VERDICTS[answer as usize].to_string(),
        (_, 0) => "accepted".to_string(),
        (_, 101..=110) => format!("refused {}", answer - 100),
        _ => format!("unknown answer {answer}"),
    }
}

/// Every word of a record, by its name.
pub fn fields<K: Kind>(state: &K::State) -> Vec<(String, u64)> {
    K::fields().into_iter().zip(K::words(state).as_ref().iter().copied()).collect()
}

/// The record before a call but for words that are 0, and the elements of the tables that the call may use.
pub fn print_before<K: Kind>(before: &SideOf<K>, call: &CallOf<K>) {
    println!("call: {call:?}");
    println!("before, and 0 where nothing stands:");
    for (name, word) in fields::<K>(&before.state).into_iter().filter(|(_, word)| *word != 0) {
        println!("  {name:<24} {word}");
    }
    let mut places = K::places(&before.state);
    places.retain(|&place| place < before.handles.len().min(before.sizes.len()) as u64);
    places.sort_unstable();
    places.dedup();
    for place in places.into_iter().map(|place| place as usize) {
        let (handle, size) = (before.handles[place], before.sizes[place]);
        println!("  tables at {place}: handle {handle}, word of sizes {size:#x}");
    }
}

pub fn print<K: Kind>(difference: &Difference<K>) {
    let Difference { before, call, model, library } = difference;
    let name = |side: &SideOf<K>| answer_name(call.place(), side.answer);
    print_before::<K>(before, call);
    println!("{:<24} {:>22} {:>22}", "after", "model", "library");
    line("answer", name(model), name(library));
    line("well formed", model.well_formed, library.well_formed);
    line("flow of the sender", model.flow, library.flow);
    line("flow that left", model.packet.flow, library.packet.flow);
    line("packet handle", model.packet.handle, library.packet.handle);
    line("packet size", model.packet.size, library.packet.size);
    let was = fields::<K>(&before.state);
    let now = fields::<K>(&model.state).into_iter().zip(fields::<K>(&library.state));
    for ((_, was), ((name, model), (_, library))) in was.into_iter().zip(now) {
        if model != was || library != was {
            line(&name, model, library);
        }
    }
    table("handles", &before.handles, &model.handles, &library.handles);
    table("sizes", &before.sizes, &model.sizes, &library.sizes);
}

fn line(name: &str, model: impl Display, library: impl Display) {
    let (model, library) = (model.to_string(), library.to_string());
    let note = if model == library { "" } else { "  <- differs" };
    println!("  {name:<22} {model:>22} {library:>22}{note}");
}

/// The elements that either side changed, at most eight of them.
fn table(name: &str, before: &[u32], model: &[u32], library: &[u32]) {
    let changed = |&i: &usize| model[i] != before[i] || library[i] != before[i];
    for i in (0..before.len()).filter(changed).take(8) {
        line(&format!("{name}[{i}]"), model[i], library[i]);
    }
}
