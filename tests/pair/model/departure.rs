//! Departure: the head leaves, and the rate is measured (17).

use super::numbers::*;
use super::refusals::{departure_refusals, lowest};
use super::store;
use super::{Queue, Records};

/// The handle and size of the head that leaves, or the number of the refusal.
pub fn departure(
    r: &mut Records,
    queue: usize,
    (handles, sizes): (&[u32], &mut [u32]),
    clock: u64,
) -> Result<(u32, u32), u32> {
    lowest(departure_refusals(r, queue, (handles, sizes), clock))?;
    let q = &mut r.queues[queue];
    let packet = store::leave(&mut r.shared, q, handles, sizes);
    q.clock = clock;
    measure(q, u64::from(packet.1));
    Ok(packet)
}

/// The departure rate. A measurement that starts where another has just ended keeps its word.
pub fn measure(q: &mut Queue, size: u64) {
    let word = q.measuring;
    if q.measuring != 0 {
        q.counted += size;
        if q.counted >= RATE_THRESHOLD {
            q.average = next_average(q.average, sample(q));
            stop(q);
        } else if q.count == 0 {
            stop(q); // given up: no sample across an empty queue
        }
    }
    if q.measuring == 0 && q.bytes >= RATE_THRESHOLD {
        q.measuring = if word == 0 { 1 } else { word };
        q.start = q.clock;
        q.counted = 0;
    }
}

/// The sample of a measurement that ends now, at least 1 and at most 10,000,000.
fn sample(q: &Queue) -> u64 {
    (q.clock - q.start).clamp(1, TIME_MAX)
}

fn next_average(average: u64, sample: u64) -> u64 {
    match average {
        0 => sample,
        _ => (sample + 3 * average) / 4,
    }
}

/// None runs now.
fn stop(q: &mut Queue) {
    q.measuring = 0;
    q.start = 0;
    q.counted = 0;
}
