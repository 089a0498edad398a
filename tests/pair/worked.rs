//! The page's worked cases, read from the page and run on both sides. What stands there is checked
//! as well, so a misreading that model and library share would show here.

use crate::kind::{fresh_call, Call, Side, Two};
use crate::model::store::{link_of, size_of, word};
use crate::model::{Records, Settings};
use crate::shared::kind::{Arriving, Lent};
use crate::shared::lend::Lender;
use crate::shared::pair;
use crate::shared::pair::Pair;
use crate::shared::script::answer_word;

type Failure = pair::Failure<Two>;

const PAGE: &str = include_str!("../../docs/SHARED-TABLES.md");

/// The steps of all cases, and how many there must be.
const CASES: usize = 8;

struct Case<'a> {
    title: &'a str,
    pair: Pair<'a, Two>,
    checks: u64,
}

/// All cases; gives the number of steps that were checked.
pub fn run(lender: &mut Lender) -> Result<u64, Failure> {
    let block = PAGE.split("```\n").nth(1).unwrap_or("");
    let (mut cases, mut checks) = (0, 0);
    let nobody = Side::new(Records::default(), Vec::new(), Vec::new());
    let mut case = Case { title: "", pair: Pair::new(&nobody, lender), checks: 0 };
    for line in block.lines() {
        if line.starts_with("7.") {
            case.title = line;
            cases += 1;
            continue;
        }
        for step in line.split(" | ") {
            case.step(step)?;
            checks += 1;
        }
    }
    match cases == CASES && case.checks > 0 {
        true => Ok(checks),
        false => Err(Failure::Broken(format!("the page has {cases} worked cases, not {CASES}"))),
    }
}

fn numbers(text: &str) -> Vec<u64> {
    text.split_whitespace().map(|word| word.parse().expect("a number on the page")).collect()
}

/// A word written size>link.
fn word_of(text: &str) -> u32 {
    let (size, link) = text.split_once('>').expect("size>link on the page");
    word(size.parse().expect("a size"), link.parse().expect("a link"))
}

impl Case<'_> {
    fn step(&mut self, step: &str) -> Result<(), Failure> {
        if let Some((what, value)) = step.split_once(" := ") {
            self.change(what, value);
            return Ok(());
        }
        let (call, wanted) = step.split_once(": ").expect("call: answer on the page");
        let call = self.call(call);
        self.pair.call(&call)?;
        let found = self.answer(&call, wanted.contains(';'));
        self.checks += 1;
        if found == wanted {
            return Ok(());
        }
        let title = self.title;
        Err(Failure::Broken(format!("{title} '{step}' gives '{found}'")))
    }

    /// Changes both sides by hand.
    fn change(&mut self, what: &str, value: &str) {
        for side in [&mut self.pair.model, &mut self.pair.library] {
            let place = what.strip_prefix("sizes[").and_then(|rest| rest.strip_suffix(']'));
            match (what, place) {
                (_, Some(place)) => {
                    side.sizes[place.parse::<usize>().expect("a place")] = word_of(value)
                }
                ("slots", _) => side.state.shared.slots = numbers(value)[0],
                ("old_delay1", _) => side.state.queues[1].old_delay = numbers(value)[0],
                _ => panic!("'{what}' cannot be changed"),
            }
        }
    }

    fn call(&mut self, text: &str) -> Call {
        let (name, rest) = text.split_once(' ').expect("a call on the page");
        let fields = numbers(rest);
        let lent = Lent::both(self.pair.model.sizes.len());
        let queue = usize::from(name.ends_with('1'));
        match &name[..1] {
            "f" => self.fresh(&fields),
            "a" => {
                let (handle, size) = (fields[1] as u32, fields[2] as u32);
                Call::arrival(queue, lent, fields[0], Arriving { handle, size, ecn: false, u: 0 })
            }
            "d" => Call::departure(queue, lent, fields[0]),
            _ => Call::tick(queue, fields[0], 0),
        }
    }

    /// Tables of zeros for the slots, and the call.
    fn fresh(&mut self, fields: &[u64]) -> Call {
        let clock = |queue: usize| fields.get(3 + queue).copied().unwrap_or(0);
        let settings = |queue: usize| Settings {
            target: 15_000,
            buffer: 64_000,
            reserve: fields[1 + queue],
            clock: clock(queue),
        };
        for side in [&mut self.pair.model, &mut self.pair.library] {
            side.handles = vec![0; fields[0] as usize];
            side.sizes = vec![0; fields[0] as usize];
        }
        fresh_call(fields[0], [settings(0), settings(1)])
    }

    /// The library's answer as the page writes it, with records and table if `all`.
    fn answer(&self, call: &Call, all: bool) -> String {
        let Pair { before, library, .. } = &self.pair;
        let mut text = answer_word(call.place(), library.answer);
        let q = |side: &Side| side.state.queues[call.to];
        if text == "enqueued" {
            text += &format!(" at {}", q(library).tail);
        } else if text == "departed" {
            let (handle, size) = (library.packet.handle, library.packet.size);
            text += &format!(" {handle} {size} from {}", q(before).head);
        }
        if !all {
            return text;
        }
        let s = library.state.shared;
        let [first, second] =
            library.state.queues.map(|q| format!("{}:{}-{}", q.count, q.head, q.tail));
        let words: Vec<String> = library
            .sizes
            .iter()
            .map(|&word| format!("{}>{}", size_of(word), link_of(word)))
            .collect();
        format!("{text}; {first} {second}; {} {} {}; {}", s.used, s.freed, s.spare, words.join(" "))
    }
}
