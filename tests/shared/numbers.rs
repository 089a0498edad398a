//! Random numbers at, beside and far outside the ends of ranges, and the arguments that every kind of
//! queue's calls have.

use super::random::Random;

pub const CLOCK_MAX: u64 = 1 << 48;
const SIZE_MAX: u64 = 65_535;

/// How many elements of each table are lent to a call.
#[derive(Clone, Copy, Debug)]
pub struct Lent {
    pub handles: usize,
    pub sizes: usize,
}

impl Lent {
    pub fn both(length: usize) -> Lent {
        Lent { handles: length, sizes: length }
    }

    /// Of tables of this length: the slots, or a wrong length for one table or for both.
    pub fn random(r: &mut Random, longest: usize, slots: u64, wrong: bool) -> Lent {
        let slots = slots.min(longest as u64) as usize;
        if !wrong {
            return Lent::both(slots);
        }
        let shorter = slots.saturating_sub(1);
        let longer = (slots + 1).min(longest);
        let other = r.pick(&[0, shorter, shorter, longer, longer, longest]);
        let both = r.pick(&[0, shorter, longer]);
        match r.range(0, 3) {
            0 => Lent { handles: other, sizes: slots },
            1 => Lent { handles: slots, sizes: other },
            2 => Lent::both(both),
            _ => Lent { handles: shorter, sizes: longer },
        }
    }

    /// One of the tables, or both, a slot too short, a slot too long, or empty.
    pub fn wrong(r: &mut Random, slots: usize) -> Lent {
        let wrong = r.pick(&[0, slots - 1, slots + 1]);
        let (handles, sizes) = r.pick(&[(wrong, slots), (slots, wrong), (wrong, wrong)]);
        Lent { handles, sizes }
    }
}

/// A clock before this one or above 2^48; if `early`, one that is too soon for a tick as well.
pub fn wrong_clock(r: &mut Random, clock: u64, early: bool) -> u64 {
    let back = clock.wrapping_sub(1);
    if early {
        return r.pick(&[back, CLOCK_MAX + 1]);
    }
    let any = r.range(0, back.min(CLOCK_MAX));
    let other = if clock > 0 { any } else { u64::MAX };
    r.pick(&[back, back, other, CLOCK_MAX + 1, CLOCK_MAX + 1, 1 << 63, u64::MAX])
}

/// The clock of a tick that is due then: too soon, exactly when due, or later, about `clock`.
pub fn tick_clock(r: &mut Random, due: u64, least: u64, clock: u64, early: bool) -> u64 {
    if early {
        let any = r.range(least, due - 1);
        return r.pick(&[due - 1, due - 1, least, any]).max(least).min(CLOCK_MAX);
    }
    r.pick(&[due, due, due.saturating_add(1), clock.max(due)]).max(least).min(CLOCK_MAX)
}

/// A stored size that refusal 9 is about, of a queue with this count and these bytes.
pub fn wrong_size(r: &mut Random, count: u64, bytes: u64) -> u32 {
    let others = count - 1;
    let too_large = (bytes - others + 1).min(SIZE_MAX + 1) as u32;
    let too_small = bytes.saturating_sub(SIZE_MAX * others + 1).min(SIZE_MAX) as u32;
    let below_zero = (bytes + 1).min(SIZE_MAX) as u32;
    r.pick(&[0, 65_536, u32::MAX, 1 << 16, too_large, too_large, too_small, too_small, below_zero])
}

/// None, one, two or more of the refusals of the list. Never 6 with 9.
pub fn wanted<const N: usize>(r: &mut Random, list: &[usize]) -> [bool; N] {
    let mut wanted = [false; N];
    for _ in 0..r.pick(&[0, 0, 1, 1, 2, 2, 3]) {
        wanted[r.pick(list)] = true;
    }
    wanted[9] &= !wanted[6];
    wanted
}

/// Five numbers with the given sum.
pub fn split(r: &mut Random, sum: u64) -> [u64; 5] {
    let mut parts = [0; 5];
    let mut left = sum;
    for part in parts.iter_mut().take(4) {
        *part = if r.one_in(3) { 0 } else { r.spread(0, left) };
        left -= *part;
    }
    parts[4] = left;
    let turn = r.range(0, 4) as usize;
    parts.rotate_left(turn);
    parts
}

/// Five counts whose sum is above 2^48.
pub fn too_many(r: &mut Random) -> [u64; 5] {
    let mut counts = split(r, CLOCK_MAX + 1);
    let place = r.range(0, 4) as usize;
    match r.range(0, 3) {
        0 => counts[place] = u64::MAX,
        1 => {
            // A sum that is small if it wraps round at 2^64.
            counts = [1, 0, 2, 0, 0];
            counts[place] = u64::MAX - r.range(0, 2);
        }
        2 => counts = [1 << 63, 1 << 63, 0, r.range(0, 9), 0],
        _ => {}
    }
    counts
}

/// Numbers at, beside and far from both ends of a range.
fn around((least, most): (u64, u64)) -> Vec<u64> {
    let far = [(1 << 32) + 1_500, 1 << 63, u64::MAX];
    let mut list = vec![0, least.saturating_sub(1), least, least + 1, most - 1, most, most + 1];
    list.extend(far);
    list.dedup();
    list
}

/// Sound numbers, but for one or two of them, which are at, beside and far from the ends of their ranges.
pub fn around_ends<const N: usize, E>(
    ranges: [(u64, u64); N],
    sound: [u64; N],
    mut run: impl FnMut([u64; N]) -> Result<(), E>,
) -> Result<(), E> {
    let places = ranges.map(around);
    for (first, firsts) in places.iter().enumerate() {
        for (second, seconds) in places.iter().enumerate().skip(first) {
            for &one in firsts {
                for &other in seconds {
                    let mut words = sound;
                    words[first] = one;
                    words[second] = other;
                    run(words)?;
                }
            }
        }
    }
    Ok(())
}

/// A number far outside most ranges, or one that looks in range if its high bits are lost.
pub fn wild(r: &mut Random, value: u64) -> u64 {
    let any = r.number();
    let high = r.pick(&[1 << 32, 1 << 40, 1 << 49, 1 << 63]);
    r.pick(&[u64::MAX, u64::MAX - 1, 1 << 63, (1 << 63) - 1, value | high, value | high, any])
}

/// A number just outside a range, or far outside.
pub fn outside(r: &mut Random, value: u64, (least, most): (u64, u64)) -> u64 {
    let far = wild(r, value).max(most + 1);
    r.pick(&[least.saturating_sub(1), most + 1, most + 1, far])
}

pub fn above(r: &mut Random, value: u64, most: u64) -> u64 {
    outside(r, value, (most + 2, most))
}
