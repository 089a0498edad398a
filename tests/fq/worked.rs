//! The worked cases of docs/SHARED-TABLES.md for the flows, read from the page itself: the library and
//! the model must give what it says.

use crate::flows::hash::{flow_of, hash, Key};
use crate::flows::schedule::choose;
use crate::flows::{Record, Settings, COMMON_FIELDS, FLOW_FIELDS};
use crate::kind::{fresh_call, library_flow, Call, Flows, Side, NOBODY};
use crate::model::store::word;
use crate::shared::kind::{Arriving, Lent, What};
use crate::shared::lend::Lender;
use crate::shared::pair;
use crate::shared::pair::Pair;
use crate::shared::script::answer_word;

type Failure = pair::Failure<Flows>;

const PAGE: &str = include_str!("../../docs/SHARED-TABLES.md");

/// How many cases the page has; a mistake in reading it could skip some.
const CASES: u64 = 8;

struct Case<'a> {
    title: &'static str,
    pair: Pair<'a, Flows>,
}

/// All cases; gives the number of steps that were checked.
pub fn run(lender: &mut Lender) -> Result<u64, Failure> {
    let block = PAGE.split("```\n").find(|block| block.starts_with("8.1.")).unwrap_or("");
    let (mut cases, mut checks) = (0, 0);
    let nobody = Side::new(Record::zero(), Vec::new(), Vec::new());
    let mut case = Case { title: "", pair: Pair::new(&nobody, lender) };
    for line in block.lines() {
        if line.starts_with("8.") {
            case.title = line;
            cases += 1;
            continue;
        }
        for step in line.split(" | ") {
            case.step(step)?;
            checks += 1;
        }
    }
    match cases == CASES && checks > CASES {
        true => Ok(checks),
        false => Err(Failure::Broken(format!("the page has {cases} worked cases, not {CASES}"))),
    }
}

fn number(text: &str) -> u64 {
    text.parse().expect("a number on the page")
}

/// A word written size>link.
fn word_of(text: &str) -> u32 {
    let (size, link) = text.split_once('>').expect("size>link on the page");
    word(number(size) as u32, number(link))
}

/// V, or 12 bytes 0 and the number behind K.
fn key_of(name: &str) -> Key {
    if name == "V" {
        return [10, 0, 0, 1, 10, 0, 0, 2, 0x13, 0x88, 0, 80, 17];
    }
    let last = name.strip_prefix('K').map(number).expect("a key on the page");
    let mut key = [0; 13];
    key[12] = last as u8;
    key
}

/// What stands before a place in brackets, and the place.
fn placed(text: &str) -> (&str, Option<usize>) {
    match text.strip_suffix(']').and_then(|text| text.split_once('[')) {
        Some((name, place)) => (name, Some(number(place) as usize)),
        None => (text, None),
    }
}

/// The elements of a place, or all.
fn elements<T>(list: &mut [T], place: Option<usize>) -> &mut [T] {
    match place {
        Some(place) => &mut list[place..=place],
        None => list,
    }
}

/// Changes one side by hand.
fn change(side: &mut Side, what: &str, value: &str) {
    let r = &mut side.state;
    if let Some((flow, field)) = what.split_once('.') {
        let at = FLOW_FIELDS.iter().position(|name| *name == field).expect("a field on the page");
        let flows: Vec<usize> = placed(flow).1.map_or((0..64).collect(), |flow| vec![flow]);
        flows.iter().for_each(|flow| r.flow_words_mut()[12 * flow + at] = number(value));
        return;
    }
    match placed(what) {
        ("sizes", place) => elements(&mut side.sizes, place).fill(word_of(value)),
        ("deficits", place) => elements(&mut r.deficits, place).fill(number(value) as u32),
        ("order", None) if value == "0 to 63" => r.order = std::array::from_fn(|i| i as u64),
        ("order", place) => elements(&mut r.order, place).fill(number(value)),
        (name, _) => {
            let at =
                COMMON_FIELDS.iter().position(|field| *field == name).expect("a field on the page");
            r.common.words_mut()[at] = number(value);
        }
    }
}

impl Case<'_> {
    fn step(&mut self, step: &'static str) -> Result<(), Failure> {
        if let Some((changes, call)) =
            step.strip_prefix("with ").and_then(|step| step.rsplit_once(", "))
        {
            return self.with(changes, call);
        }
        if let Some((what, value)) = step.split_once(" := ") {
            self.change(what, value);
            return Ok(());
        }
        let (call, wanted) = step.split_once(": ").expect("call: answer on the page");
        let found = match call.strip_prefix("key ") {
            Some(key) => key_answer(&key_of(key)),
            None => {
                let call = self.call(call);
                self.pair.call(&call)?;
                self.answer(&call, wanted.contains(';'))
            }
        };
        if found == wanted {
            return Ok(());
        }
        Err(Failure::Broken(format!("{} '{step}' gives '{found}'", self.title)))
    }

    fn change(&mut self, what: &str, value: &str) {
        self.pair.change(|side| change(side, what, value));
    }

    /// A call on a changed record, which is what it was afterwards.
    fn with(&mut self, changes: &str, call: &'static str) -> Result<(), Failure> {
        let before = self.pair.model.clone();
        for (what, value) in changes.split(", ").filter_map(|change| change.split_once(" := ")) {
            self.change(what, value);
        }
        self.step(call)?;
        self.pair.model = before.clone();
        self.pair.library = before;
        Ok(())
    }

    fn call(&mut self, text: &str) -> Call {
        let words: Vec<&str> = text.split(' ').collect();
        let lent = Lent::both(self.pair.model.sizes.len());
        match words[..] {
            ["fresh", buffer, slots] => self.fresh(number(buffer), number(slots)),
            ["a", clock, key, handle, size] => {
                let (handle, size) = (number(handle) as u32, number(size) as u32);
                let packet = Arriving { handle, size, ecn: false, u: 0 };
                Call::arrival(key_of(key), lent, number(clock), packet)
            }
            ["d", clock] => Call::departure(NOBODY, lent, number(clock)),
            ["t", clock] => Call::tick(NOBODY, number(clock), 0),
            _ => panic!("'{text}' is no call"),
        }
    }

    /// Tables of zeros for the slots, and the call.
    fn fresh(&mut self, buffer: u64, slots: u64) -> Call {
        for side in [&mut self.pair.model, &mut self.pair.library] {
            side.handles = vec![0; slots as usize];
            side.sizes = vec![0; slots as usize];
        }
        fresh_call(Settings { target: 15_000, buffer, slots, salt: 0, clock: 0 })
    }

    /// The library's answer as the page writes it, with lists and store if `all`.
    fn answer(&self, call: &Call, all: bool) -> String {
        let Pair { before, library, .. } = &self.pair;
        let mut text = answer_text(call, library);
        if !all {
            return text;
        }
        if matches!(call.what, What::Departure) && library.answer == 0 {
            text += &format!("; {} moves", choose(&before.state).total());
        }
        let c = &library.state.common;
        text + &format!("; {}; {} {} {}", lists_text(&library.state), c.used, c.freed, c.spare)
    }
}

/// The hash of the model, and the library's flows.
fn key_answer(key: &Key) -> String {
    let flows = [0, 5, u32::MAX].map(|salt| {
        let flow = library_flow(key.as_ptr(), salt);
        assert!(flow as usize == flow_of(key, salt), "the library has another flow for {key:?}");
        flow.to_string()
    });
    format!("{}; {}", hash(key), flows.join(" "))
}

fn answer_text(call: &Call, after: &Side) -> String {
    let packet = after.packet;
    match (&call.what, after.answer) {
        (What::Arrival(_), 0) => {
            format!("enqueued at {}", after.state.flows[after.flow as usize].tail)
        }
        (What::Departure, 0) => {
            format!("flow {}, {} {}", packet.flow, packet.handle, packet.size)
        }
        _ => answer_word(call.place(), after.answer),
    }
}

/// The new list and the old one, each flow with its deficit.
fn lists_text(r: &Record) -> String {
    let c = &r.common;
    let text = |from: u64, to: u64| {
        let flows = (from..to).map(|i| r.order[((c.first + i) % 64) as usize] as usize);
        let named: Vec<String> = flows.map(|flow| format!("{flow}({})", r.deficit(flow))).collect();
        if named.is_empty() {
            "-".to_string()
        } else {
            named.join(" ")
        }
    };
    format!("new {} old {}", text(c.old, c.listed), text(0, c.old))
}
