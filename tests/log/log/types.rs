//! The records of the log's C interface, in the order of the C header.

use crate::shared::area::Plain;

#[repr(C)]
#[derive(Clone, Copy, PartialEq, Eq, Default, Debug)]
pub struct Settings {
    pub target: u64,
    pub buffer: u32,
    pub slots: u32,
    pub clock: u64,
    pub profile: u8,
    pub unused: [u8; 7],
}

#[repr(C)]
#[derive(Clone, Copy, PartialEq, Eq, Default, Debug)]
pub struct Record {
    pub kind: u8,
    pub ecn: u8,
    pub unused: u16,
    pub handle: u32,
    pub clock: u64,
    pub size: u32,
    pub u: u32,
    pub verdict: u32,
    pub bytes: u32,
    pub probability: u64,
}

/// The writer's state.
#[repr(C)]
#[derive(Clone, Copy, PartialEq, Eq, Default, Debug)]
pub struct State {
    pub offset: u32,
    pub count: u32,
}

/// A part of lent bytes.
#[repr(C)]
#[derive(Clone, Copy, PartialEq, Eq, Default, Debug)]
pub struct Part {
    pub from: u64,
    pub length: u64,
}

impl Plain for Settings {}
impl Plain for Record {}
impl Plain for State {}
impl Plain for Part {}

pub const ARRIVAL: u8 = b'a';
pub const DEPARTURE: u8 = b'd';
pub const TICK: u8 = b't';
