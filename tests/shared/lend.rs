//! Memory for the library: the side's own, or memory that stands beside pages that nobody may touch.
//! What a call only reads is read-only during it, and the record while it is asked whether it is well
//! formed.

use super::area::{Area, READ, READ_WRITE};
use super::bursts::{Burst, UNANSWERED};
use super::kind::{CallOf, Kind, Packet, SideOf, Tables, What};
use std::ptr::{null, null_mut};
use std::slice::{from_raw_parts, from_raw_parts_mut};

/// What stands in a packet before a call: it shows that nothing was written.
const UNWRITTEN: [u32; 3] = [0xA5A5_5A5A; 3];

/// What a call is lent.
pub struct Memory {
    /// Where the parts of the record begin.
    pub parts: [*mut u64; 4],
    pub argument: *const u8,
    pub handles: *mut u32,
    pub handles_len: usize,
    pub sizes: *mut u32,
    pub sizes_len: usize,
    pub packet: *mut u32,
}

impl Memory {
    fn nothing() -> Memory {
        Memory {
            parts: [null_mut(); 4],
            argument: null(),
            handles: null_mut(),
            handles_len: 0,
            sizes: null_mut(),
            sizes_len: 0,
            packet: null_mut(),
        }
    }
}

/// Lends memory to the library.
pub struct Lender(Option<Guarded>);

impl Lender {
    /// Lends the memory of the side itself.
    pub fn own() -> Lender {
        Lender(None)
    }

    /// Lends memory right before pages that nobody may touch, or right after them.
    pub fn guarded(at_end: bool) -> Lender {
        Lender(Some(Guarded::new(at_end)))
    }

    /// Runs the call by the library.
    pub fn call<K: Kind>(&mut self, side: &mut SideOf<K>, call: &CallOf<K>) {
        let mut words = K::words(&side.state);
        let mut packet = UNWRITTEN;
        let state = side.state;
        let tables = side.lend(call.lent).1;
        let (formed, flow, answer) = match &mut self.0 {
            None => {
                let mut memory = own::<K>(words.as_mut(), tables);
                (memory.argument, memory.packet) =
                    (K::argument(&call.to).as_ptr(), packet.as_mut_ptr());
                let formed = K::formed(&memory, &call.to);
                (formed, flow::<K>(&memory, call, &state), K::library(&memory, call))
            }
            Some(guarded) => guarded.call::<K>(words.as_mut(), &state, tables, call, &mut packet),
        };
        side.state = K::state_of(&words);
        (side.well_formed, side.flow, side.answer) = (formed, flow, answer);
        side.packet = match (&call.what, packet) {
            (What::Departure, [flow, handle, size]) if K::FLOW_LEAVES => {
                Packet { flow, handle, size }
            }
            (What::Departure, [handle, size, _]) => Packet { flow: 0, handle, size },
            _ => Packet::default(),
        };
    }

    /// Runs a burst: its answer and the words of its calls' answers.
    pub fn burst<K: Kind>(
        &mut self,
        side: &mut SideOf<K>,
        burst: &Burst<K::To>,
    ) -> (u32, Vec<u64>) {
        let mut words = K::words(&side.state);
        let tables = side.lend(burst.lent).1;
        let said = match &mut self.0 {
            None => {
                let memory = own::<K>(words.as_mut(), tables);
                let mut answers = vec![UNANSWERED; burst.answers];
                (K::burst(&memory, &burst.to, &burst.calls, &mut answers), answers)
            }
            Some(guarded) => guarded.burst::<K>(words.as_mut(), tables, burst),
        };
        side.state = K::state_of(&words);
        said
    }
}

/// The flow that the library finds for an arrival.
fn flow<K: Kind>(memory: &Memory, call: &CallOf<K>, state: &K::State) -> u32 {
    match call.what {
        What::Arrival(_) => K::flow(memory.argument, state),
        _ => 0,
    }
}

/// The words of the record in their own memory, and the tables.
fn own<K: Kind>(words: &mut [u64], (handles, sizes): Tables) -> Memory {
    let mut memory = Memory::nothing();
    let mut rest = words;
    for (part, &length) in memory.parts.iter_mut().zip(K::PARTS) {
        let (first, others) = rest.split_at_mut(length);
        (*part, rest) = (first.as_mut_ptr(), others);
    }
    (memory.handles, memory.handles_len) = (handles.as_mut_ptr(), handles.len());
    (memory.sizes, memory.sizes_len) = (sizes.as_mut_ptr(), sizes.len());
    memory
}

/// Memory beside guarded pages for each thing that a call is lent.
struct Guarded {
    at_end: bool,
    parts: [Area; 4],
    argument: Area,
    packet: Area,
    handles: Area,
    sizes: Area,
    calls: Area,
    answers: Area,
}

/// The most bytes of a small thing, and of a table.
const SMALL: usize = 1 << 16;
const TABLE: usize = 5 << 16;

impl Guarded {
    fn new(at_end: bool) -> Guarded {
        let small = || Area::new(SMALL, at_end);
        Guarded {
            at_end,
            parts: [small(), small(), small(), small()],
            argument: small(),
            packet: small(),
            handles: Area::new(TABLE, at_end),
            sizes: Area::new(TABLE, at_end),
            calls: small(),
            answers: small(),
        }
    }

    /// Puts the words that the call may touch into place; the rest of a part lies on guarded pages.
    fn record<K: Kind>(&mut self, words: &[u64], to: &K::To) -> Memory {
        let (mut memory, mut begin) = (Memory::nothing(), 0);
        for (part, &length) in K::PARTS.iter().enumerate() {
            let open = K::open(part, to, self.at_end);
            self.parts[part].lend(&words[begin + open.start..begin + open.end]);
            memory.parts[part] = self.parts[part].write::<u64>().wrapping_sub(open.start);
            begin += length;
        }
        memory
    }

    /// Fetches the words back.
    fn fetch<K: Kind>(&self, words: &mut [u64], to: &K::To) {
        let mut begin = 0;
        for (part, &length) in K::PARTS.iter().enumerate() {
            let open = K::open(part, to, self.at_end);
            words[begin + open.start..begin + open.end].copy_from_slice(self.parts[part].content());
            begin += length;
        }
    }

    fn lend(&mut self, memory: &mut Memory, (handles, sizes): &Tables) {
        self.handles.lend(handles);
        self.sizes.lend(sizes);
        (memory.handles, memory.handles_len) = (self.handles.write(), handles.len());
        (memory.sizes, memory.sizes_len) = (self.sizes.write(), sizes.len());
    }

    fn fetch_tables(&self, (handles, sizes): Tables) {
        handles.copy_from_slice(self.handles.content());
        sizes.copy_from_slice(self.sizes.content());
    }

    /// The access to everything that the call only reads.
    fn access<K: Kind>(&mut self, call: &CallOf<K>, access: i32) {
        K::only_read(call).iter().for_each(|&part| self.parts[part].set_access(access));
        self.argument.set_access(access);
        if let What::Departure = call.what {
            self.handles.set_access(access);
            if K::SIZES_ARE_READ {
                self.sizes.set_access(access);
            }
        }
    }

    fn formed<K: Kind>(&mut self, memory: &Memory, to: &K::To) -> bool {
        let parts = &mut self.parts[..K::PARTS.len()];
        parts.iter_mut().for_each(|part| part.set_access(READ));
        let formed = K::formed(memory, to);
        parts.iter_mut().for_each(|part| part.set_access(READ_WRITE));
        formed
    }

    fn call<K: Kind>(
        &mut self,
        words: &mut [u64],
        state: &K::State,
        tables: Tables,
        call: &CallOf<K>,
        packet: &mut [u32; 3],
    ) -> (bool, u32, u32) {
        let mut memory = self.record::<K>(words, &call.to);
        let formed = self.formed::<K>(&memory, &call.to);
        self.argument.lend(K::argument(&call.to));
        memory.argument = self.argument.write();
        let numbers = if K::FLOW_LEAVES { 3 } else { 2 };
        self.packet.lend(&packet[..numbers]);
        memory.packet = self.packet.write();
        if call.has_tables() {
            self.lend(&mut memory, &tables);
        }
        self.access::<K>(call, READ);
        let flow = flow::<K>(&memory, call, state);
        let answer = K::library(&memory, call);
        self.access::<K>(call, READ_WRITE);
        packet[..numbers].copy_from_slice(self.packet.content());
        if call.has_tables() {
            self.fetch_tables(tables);
        }
        self.fetch::<K>(words, &call.to);
        (formed, flow, answer)
    }

    /// The calls are read-only during a burst.
    fn burst<K: Kind>(
        &mut self,
        words: &mut [u64],
        tables: Tables,
        burst: &Burst<K::To>,
    ) -> (u32, Vec<u64>) {
        let mut memory = self.record::<K>(words, &burst.to);
        self.lend(&mut memory, &tables);
        self.calls.lend(&burst.calls);
        self.answers.lend(&vec![UNANSWERED; burst.answers]);
        // Safety: both stand as long as the call, and have these lengths.
        let calls = unsafe { from_raw_parts(self.calls.read(), burst.calls.len()) };
        let answers = unsafe { from_raw_parts_mut(self.answers.write(), burst.answers) };
        let answer = K::burst(&memory, &burst.to, calls, answers);
        self.fetch_tables(tables);
        self.fetch::<K>(words, &burst.to);
        (answer, answers.to_vec())
    }
}
