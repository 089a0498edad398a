//! A plain model of the queue, written from the document of rules and its change requests alone.
//!
//! A state may hold any number in any field: the refusals are found with wide arithmetic, and the
//! rules run only on a well-formed state. A refused call changes nothing.

pub const CLOCK_MAX: u64 = 1 << 48;
pub const WHOLE: u64 = 1 << 32;
pub const TIME_MAX: u64 = 10_000_000;
pub const TARGET: (u64, u64) = (1_000, 100_000);
pub const BUFFER: (u64, u64) = (1, 16_777_216);
pub const SLOTS: (u64, u64) = (1, 65_536);
pub const SIZE_MAX: u32 = 65_535;
pub const TICK_PERIOD: u64 = 15_000;
pub const FULL_ALLOWANCE: u64 = 150_000;
pub const RATE_THRESHOLD: u64 = 16_384;
pub const SMALL_QUEUE: u64 = 3_000;
/// The first drop probability not below one tenth: from here on nothing is marked.
pub const TENTH: u64 = 429_496_730;
/// 8.5: the accumulated probability stays below it, and a sum that reaches it is early.
pub const FORCED: u64 = 36_507_222_016;
/// The two profiles.
pub const PLAIN: u64 = 0;
pub const CALM: u64 = 1;
/// The greatest step of the calm profile, from one tenth on.
pub const CALM_STEP: i64 = 85_899_345;

/// Each band of the drop probability: its last value, and the divisor k.
pub const BANDS: [(u64, i64); 7] = [
    (4_294, 2_048),
    (42_949, 512),
    (429_496, 128),
    (4_294_967, 32),
    (42_949_672, 8),
    (429_496_729, 2),
    (WHOLE, 1),
];

/// The state record. `measuring` is a word: 0 if no measurement runs, any other if one runs.
/// `active` likewise: 0 if the queue is inactive, any other if it is active.
#[derive(Clone, Copy, PartialEq, Eq, Default, Debug)]
pub struct State {
    pub target: u64,
    pub buffer: u64,
    pub slots: u64,
    pub clock: u64,
    pub last: u64,
    pub probability: u64,
    pub old_delay: u64,
    pub allowance: u64,
    pub accumulated: u64,
    pub average: u64,
    pub measuring: u64,
    pub start: u64,
    pub counted: u64,
    pub count: u64,
    pub bytes: u64,
    pub first: u64,
    pub verdicts: [u64; 5],
    pub profile: u64,
    pub active: u64,
}

/// The arguments of an arrival, without its clock.
#[derive(Clone, Copy, Debug)]
pub struct Arriving {
    pub handle: u32,
    pub size: u32,
    pub ecn: bool,
    pub u: u32,
}

/// The places of the five verdicts in the counts.
pub const ENQUEUED: usize = 0;
pub const MARKED: usize = 1;
pub const DROPPED_BYTES: usize = 2;
pub const DROPPED_SLOTS: usize = 3;
pub const DROPPED_EARLY: usize = 4;

/// Which of the refusals 1 to 9 apply to a call.
pub type Refusals = [bool; 10];

/// The conditions that make a state well formed, in the order of `conditions`.
pub const CONDITIONS: [&str; 24] = [
    "target in range",
    "buffer in range",
    "slots in range",
    "last tick <= clock",
    "clock <= 2^48",
    "probability in range",
    "old delay in range",
    "allowance in range",
    "average in range",
    "first < slots",
    "count <= slots",
    "count <= bytes",
    "bytes <= 65,535 x count",
    "bytes <= buffer",
    "start <= clock",
    "counted < 16,384",
    "start 0 if none runs",
    "counted 0 if none runs",
    "none runs on an empty queue",
    "accumulated < 8.5",
    "profile 0 or 1",
    "calm if inactive",
    "probability 0 if inactive",
    "sum of counts <= 2^48",
];

fn within(value: u64, (least, most): (u64, u64)) -> bool {
    least <= value && value <= most
}

pub fn verdict_sum(s: &State) -> u128 {
    s.verdicts.iter().map(|&count| u128::from(count)).sum()
}

/// Whether each of `CONDITIONS` holds.
pub fn conditions(s: &State) -> [bool; 24] {
    let runs = s.measuring != 0;
    let active = s.active != 0;
    [
        within(s.target, TARGET),
        within(s.buffer, BUFFER),
        within(s.slots, SLOTS),
        s.last <= s.clock,
        s.clock <= CLOCK_MAX,
        s.probability <= WHOLE,
        s.old_delay <= TIME_MAX,
        s.allowance <= FULL_ALLOWANCE,
        s.average <= TIME_MAX,
        s.first < s.slots,
        s.count <= s.slots,
        s.count <= s.bytes,
        u128::from(s.bytes) <= u128::from(SIZE_MAX) * u128::from(s.count),
        s.bytes <= s.buffer,
        s.start <= s.clock,
        s.counted < RATE_THRESHOLD,
        runs || s.start == 0,
        runs || s.counted == 0,
        !runs || s.count > 0,
        s.accumulated < FORCED,
        s.profile == PLAIN || s.profile == CALM,
        active || s.profile == CALM,
        active || s.probability == 0,
        verdict_sum(s) <= u128::from(CLOCK_MAX),
    ]
}

pub fn well_formed(s: &State) -> bool {
    conditions(s).iter().all(|&holds| holds)
}

/// Refusal 3.
fn wrong_tables(s: &State, handles: usize, sizes: usize) -> bool {
    handles as u64 != s.slots || sizes as u64 != s.slots
}

/// Refusal 4.
fn wrong_clock(s: &State, clock: u64) -> bool {
    clock < s.clock || clock > CLOCK_MAX
}

/// Refusal 9. It needs a head: a packet that is counted, and its place within the table.
fn wrong_head(s: &State, sizes: &[u32]) -> bool {
    if s.count == 0 || s.first >= sizes.len() as u64 {
        return false;
    }
    let size = sizes[s.first as usize];
    let count = i128::from(s.count) - 1;
    let bytes = i128::from(s.bytes) - i128::from(size);
    let too_few = bytes < count;
    let too_many = bytes > i128::from(SIZE_MAX) * count;
    size == 0 || size > SIZE_MAX || too_few || too_many
}

/// What a fresh call asks for.
#[derive(Clone, Copy, Debug)]
pub struct Asked {
    pub target: u64,
    pub buffer: u64,
    pub slots: u64,
    pub profile: u64,
    pub clock: u64,
}

pub fn fresh_refusals(asked: &Asked) -> Refusals {
    let mut applying = Refusals::default();
    let in_range = within(asked.target, TARGET)
        && within(asked.buffer, BUFFER)
        && within(asked.slots, SLOTS)
        && (asked.profile == PLAIN || asked.profile == CALM);
    applying[1] = !in_range || asked.clock > CLOCK_MAX;
    applying
}

pub fn arrival_refusals(s: &State, tables: (usize, usize), clock: u64, size: u32) -> Refusals {
    let mut applying = Refusals::default();
    applying[2] = !well_formed(s);
    applying[3] = wrong_tables(s, tables.0, tables.1);
    applying[4] = wrong_clock(s, clock);
    applying[7] = size == 0 || size > SIZE_MAX;
    applying[8] = verdict_sum(s) == u128::from(CLOCK_MAX);
    applying
}

pub fn departure_refusals(s: &State, handles: usize, sizes: &[u32], clock: u64) -> Refusals {
    let mut applying = Refusals::default();
    applying[2] = !well_formed(s);
    applying[3] = wrong_tables(s, handles, sizes.len());
    applying[4] = wrong_clock(s, clock);
    applying[6] = s.count == 0;
    applying[9] = wrong_head(s, sizes);
    applying
}

pub fn tick_refusals(s: &State, clock: u64) -> Refusals {
    let mut applying = Refusals::default();
    applying[2] = !well_formed(s);
    applying[4] = wrong_clock(s, clock);
    applying[5] = u128::from(clock) < u128::from(s.last) + u128::from(TICK_PERIOD);
    applying
}

/// Where several apply, the lowest number is given.
fn lowest(applying: Refusals) -> Result<(), u32> {
    match applying.iter().position(|&applies| applies) {
        Some(number) => Err(number as u32),
        None => Ok(()),
    }
}

/// An accepted call sets the clock. The words `measuring` and `active` stay as they are where they
/// say so already.
fn accept(s: &mut State, clock: u64) {
    s.clock = clock;
}

/// A fresh state, or the number of the refusal and an all-zero record. A calm queue is inactive.
pub fn fresh(asked: &Asked) -> (Result<(), u32>, State) {
    let answer = lowest(fresh_refusals(asked));
    if answer.is_err() {
        return (answer, State::default());
    }
    let Asked { target, buffer, slots, profile, clock } = *asked;
    let state = State {
        target,
        buffer,
        slots,
        clock,
        last: clock,
        allowance: FULL_ALLOWANCE,
        profile,
        active: u64::from(profile == PLAIN),
        ..State::default()
    };
    (answer, state)
}

/// Whether more than a third of the buffer is queued.
pub fn above_third(s: &State) -> bool {
    3 * s.bytes > s.buffer
}

/// The state in which the rules of an accepted arrival run: an inactive queue above a third of its
/// buffer turns active and begins anew.
pub fn begun(s: &State) -> State {
    if s.active != 0 || !above_third(s) {
        return *s;
    }
    let mut begun = State { active: 1, allowance: FULL_ALLOWANCE, ..*s };
    (begun.probability, begun.old_delay, begun.average, begun.accumulated) = (0, 0, 0, 0);
    stop_measurement(&mut begun);
    begun
}

/// The rules that decide on an arrival, in their order. An inactive queue has rules 1 and 2 alone;
/// the two of the sum stand between the document's rules 5 and 6.
#[derive(Clone, Copy, PartialEq, Eq, PartialOrd, Ord, Debug)]
pub enum Rule {
    Bytes,
    Slots,
    Inactive,
    Allowance,
    ShortDelay,
    SmallQueue,
    LowSum,
    HighSum,
    Random,
    Otherwise,
}

/// The probabilities added up, that of this arrival among them.
pub fn sum(s: &State) -> u64 {
    s.accumulated + s.probability
}

/// The first rule that holds in the state in which they run.
pub fn deciding_rule(s: &State, packet: &Arriving) -> Rule {
    let rules = [
        (s.bytes + u64::from(packet.size) > s.buffer, Rule::Bytes),
        (s.count == s.slots, Rule::Slots),
        (s.active == 0, Rule::Inactive),
        (s.allowance > 0, Rule::Allowance),
        (2 * s.old_delay < s.target && 5 * s.probability < WHOLE, Rule::ShortDelay),
        (s.bytes <= SMALL_QUEUE, Rule::SmallQueue),
        (20 * sum(s) < 17 * WHOLE, Rule::LowSum),
        (sum(s) >= FORCED, Rule::HighSum),
        (u64::from(packet.u) < s.probability, Rule::Random),
    ];
    rules.iter().find(|(holds, _)| *holds).map_or(Rule::Otherwise, |(_, rule)| *rule)
}

/// An early packet is marked if it is ECN-capable and the drop probability is below one tenth.
fn verdict(rule: Rule, s: &State, packet: &Arriving) -> usize {
    match rule {
        Rule::Bytes => DROPPED_BYTES,
        Rule::Slots => DROPPED_SLOTS,
        Rule::HighSum | Rule::Random if packet.ecn && s.probability < TENTH => MARKED,
        Rule::HighSum | Rule::Random => DROPPED_EARLY,
        _ => ENQUEUED,
    }
}

/// The accumulated probability after an arrival: as it was where one of rules 1 to 5 decided or the
/// queue is inactive, 0 after an early verdict.
fn accumulate(s: &mut State, rule: Rule, verdict: usize) {
    if rule > Rule::SmallQueue {
        s.accumulated = sum(s);
    }
    if verdict == MARKED || verdict == DROPPED_EARLY {
        s.accumulated = 0;
    }
}

/// The verdict on a packet that arrives, or the number of the refusal.
pub fn arrival(
    s: &mut State,
    handles: &mut [u32],
    sizes: &mut [u32],
    clock: u64,
    packet: &Arriving,
) -> Result<usize, u32> {
    lowest(arrival_refusals(s, (handles.len(), sizes.len()), clock, packet.size))?;
    accept(s, clock);
    *s = begun(s);
    let rule = deciding_rule(s, packet);
    let verdict = verdict(rule, s, packet);
    accumulate(s, rule, verdict);
    s.verdicts[verdict] += 1;
    if verdict == ENQUEUED || verdict == MARKED {
        let tail = ((s.first + s.count) % s.slots) as usize;
        handles[tail] = packet.handle;
        sizes[tail] = packet.size;
        s.count += 1;
        s.bytes += u64::from(packet.size);
    }
    Ok(verdict)
}

/// The handle and size of the head that leaves, or the number of the refusal.
pub fn departure(
    s: &mut State,
    handles: &[u32],
    sizes: &[u32],
    clock: u64,
) -> Result<(u32, u32), u32> {
    lowest(departure_refusals(s, handles.len(), sizes, clock))?;
    accept(s, clock);
    let word = s.measuring;
    let head = s.first as usize;
    let size = u64::from(sizes[head]);
    s.first = (s.first + 1) % s.slots;
    s.count -= 1;
    s.bytes -= size;
    if s.measuring != 0 {
        s.counted += size;
        if s.counted >= RATE_THRESHOLD {
            end_measurement(s);
        } else if s.count == 0 {
            stop_measurement(s); // given up: no sample across an empty queue
        }
    }
    if s.measuring == 0 && s.bytes >= RATE_THRESHOLD {
        s.measuring = if word == 0 { 1 } else { word };
        s.start = clock;
        s.counted = 0;
    }
    Ok((handles[head], sizes[head]))
}

/// The sample of a measurement that ends now, at least 1 and at most 10,000,000.
fn sample(s: &State) -> u64 {
    (s.clock - s.start).clamp(1, TIME_MAX)
}

fn end_measurement(s: &mut State) {
    let sample = sample(s);
    let mixed = (sample + 3 * s.average) / 4;
    s.average = if s.average == 0 { sample } else { mixed };
    stop_measurement(s);
}

/// None runs now.
fn stop_measurement(s: &mut State) {
    s.measuring = 0;
    s.start = 0;
    s.counted = 0;
}

/// Tick rule 1: the queueing delay.
pub fn queueing_delay(s: &State) -> u64 {
    let delay = s.bytes * s.average / RATE_THRESHOLD;
    delay.min(TIME_MAX)
}

/// Tick rule 3: the band of a drop probability, 0 to 6.
pub fn band(probability: u64) -> usize {
    BANDS.iter().position(|&(last, _)| probability <= last).unwrap_or(6)
}

/// Tick rules 2 to 4: the signed step of the drop probability. Division is toward zero.
pub fn step(s: &State, delay: u64) -> i64 {
    let (delay, old, target) = (delay as i64, s.old_delay as i64, s.target as i64);
    let x = (delay - target) + 10 * (delay - old);
    let k = BANDS[band(s.probability)].1;
    x * 8_388_608 / (15_625 * k)
}

/// Whether the calm profile cuts a step.
pub fn is_capped(s: &State, step: i64) -> bool {
    s.profile == CALM && s.probability >= TENTH && step > CALM_STEP
}

/// Tick rules 2 to 4 with the cap of the calm profile: the step that the drop probability takes.
pub fn step_taken(s: &State, delay: u64) -> i64 {
    let step = step(s, delay);
    if is_capped(s, step) {
        CALM_STEP
    } else {
        step
    }
}

/// The periodic update, or the number of the refusal.
pub fn tick(s: &mut State, clock: u64) -> Result<(), u32> {
    lowest(tick_refusals(s, clock))?;
    accept(s, clock);
    if s.active == 0 {
        s.last = clock;
        return Ok(());
    }
    let delay = queueing_delay(s); // rule 1
    let mut p = s.probability as i64 + step_taken(s, delay); // rules 2 to 4
    if delay == 0 && s.old_delay == 0 && p > 0 {
        p -= p / 64; // rule 5
    }
    s.probability = p.clamp(0, WHOLE as i64) as u64; // rule 6
    s.allowance = s.allowance.saturating_sub(TICK_PERIOD); // rule 7
    if s.probability == 0 && 2 * delay < s.target && 2 * s.old_delay < s.target {
        s.allowance = FULL_ALLOWANCE; // rule 8
        if s.profile == CALM && !above_third(s) {
            s.active = 0;
        }
    }
    s.old_delay = delay; // rule 9
    s.last = clock;
    Ok(())
}
