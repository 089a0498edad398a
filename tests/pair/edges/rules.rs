//! What happens to the called queue by the document's rules: the queue before the call and after it.

use crate::model::numbers::*;
use crate::model::tick::{queueing_delay, step};
use crate::model::Queue;
use crate::shared::coverage::Found;
use crate::shared::kind::Arriving;
use crate::states::LOW_SUM;

#[rustfmt::skip]
pub fn arrival([q, now]: &[Queue; 2], packet: &Arriving, answer: u32) -> Found {
    let early = answer == 1 || answer == 4;
    vec![
        ("early packet dropped though ECN-capable", answer == 4 && packet.ecn),
        ("early verdict clears the sum", early && q.accumulated > 0 && now.accumulated == 0),
        ("sum raised and enqueued", answer == 0 && now.accumulated > q.accumulated),
        ("sum kept by rules 1 to 5", !early && q.accumulated > 0 && now.accumulated == q.accumulated && q.probability > 0),
        ("packet fills the buffer", answer < 2 && now.bytes == q.buffer),
        ("clock 2^48 accepted", now.clock == CLOCK_MAX),
        ("dropped packet moves the clock", answer >= 2 && now.clock > q.clock),
    ]
}

#[rustfmt::skip]
pub fn arrival_edges([q, _]: &[Queue; 2], packet: &Arriving, answer: u32) -> Found {
    let open = answer != 2 && answer != 3 && q.allowance == 0;
    let late = open && !(2 * q.old_delay < q.target && 5 * q.probability < WHOLE);
    let asked = late && q.bytes > SMALL_QUEUE;
    let sum = q.accumulated + q.probability;
    let drawn = asked && (LOW_SUM..FORCED).contains(&sum);
    let u = u64::from(packet.u);
    vec![
        ("one byte too many", answer == 2 && q.bytes + u64::from(packet.size) == q.buffer + 1),
        ("allowance 1", answer == 0 && q.allowance == 1),
        ("2 x old delay = target - 1", open && 2 * q.old_delay + 1 == q.target),
        ("2 x old delay = target", open && 2 * q.old_delay == q.target),
        ("2 x old delay = target + 1", open && 2 * q.old_delay == q.target + 1),
        ("probability just below a fifth", open && 2 * q.old_delay < q.target && q.probability == 858_993_459),
        ("probability just above a fifth", open && 2 * q.old_delay < q.target && q.probability == 858_993_460),
        ("bytes 3,000", late && q.bytes == 3_000),
        ("bytes 3,001", late && q.bytes == 3_001),
        ("sum just below 0.85", asked && sum == LOW_SUM - 1),
        ("sum 0.85", asked && sum == LOW_SUM),
        ("sum just below 8.5", asked && sum == FORCED - 1),
        ("sum 8.5", asked && sum == FORCED),
        ("u one below the probability", drawn && u + 1 == q.probability),
        ("u equal to the probability", drawn && u == q.probability),
        ("probability 0, u 0", drawn && q.probability == 0 && u == 0),
        ("probability 2^32, greatest u", drawn && q.probability == WHOLE && packet.u == u32::MAX),
        ("marked just below one tenth", answer == 1 && q.probability == TENTH - 1),
        ("dropped at one tenth, ECN-capable", answer == 4 && q.probability == TENTH && packet.ecn),
    ]
}

#[rustfmt::skip]
pub fn departure([q, now]: &[Queue; 2], size: u32) -> Found {
    let (ran, runs) = (q.measuring != 0, now.measuring != 0);
    let ended = ran && now.average != q.average;
    let counted = q.counted + u64::from(size);
    let end = ran && counted >= RATE_THRESHOLD;
    vec![
        ("measurement starts", !ran && runs),
        ("measurement goes on", ran && runs && now.counted > 0),
        ("first average", ended && q.average == 0),
        ("average of old and new", ended && q.average > 0),
        ("measurement ends and the next starts", end && runs),
        ("measurement ends, none starts", end && !runs),
        ("sample of at most 1", end && now.clock - q.start <= 1),
        ("sample of 10,000,000 and more", end && now.clock - q.start >= TIME_MAX),
        ("clock 2^48 accepted", now.clock == CLOCK_MAX),
    ]
}

#[rustfmt::skip]
pub fn departure_edges([q, now]: &[Queue; 2], size: u32) -> Found {
    let counted = q.counted + u64::from(size);
    let ran = q.measuring != 0;
    vec![
        ("counted 16,383", ran && now.counted == 16_383),
        ("counted just 16,384", ran && counted == RATE_THRESHOLD),
        ("last packet ends the measurement", ran && now.count == 0 && counted >= RATE_THRESHOLD),
        ("last packet, counted 16,383: given up", ran && now.count == 0 && counted == 16_383),
        ("given up on an empty queue", ran && now.count == 0 && counted < 16_383),
        ("bytes left 16,383, none starts", !ran && now.bytes == 16_383),
        ("bytes left 16,384, one starts", !ran && now.bytes == RATE_THRESHOLD),
        ("sample 0 becomes 1", ran && counted >= RATE_THRESHOLD && q.average == 0 && now.clock == q.start),
        ("sample 10,000,001", ran && counted >= RATE_THRESHOLD && now.clock - q.start == TIME_MAX + 1),
        ("a word other than 1 stays", q.measuring > 1 && now.measuring == q.measuring),
        ("a word other than 1 stays from end to start", q.measuring > 1 && now.measuring == q.measuring
            && now.counted == 0 && counted >= RATE_THRESHOLD),
        ("bytes left = count left", now.count > 0 && now.bytes == now.count),
        ("bytes left = 65,535 x count left", now.count > 0 && now.bytes == 65_535 * now.count),
    ]
}

#[rustfmt::skip]
pub fn tick([q, now]: &[Queue; 2]) -> Found {
    let delay = queueing_delay(q);
    let stepped = q.probability as i64 + step(q, delay);
    let decays = delay == 0 && q.old_delay == 0;
    vec![
        ("tick exactly when due", now.clock == q.last + TICK_PERIOD),
        ("late tick", now.clock > q.last + TICK_PERIOD),
        ("clock 2^48 accepted", now.clock == CLOCK_MAX),
        ("delay limited to 10,000,000", q.bytes * q.average / RATE_THRESHOLD > TIME_MAX),
        ("probability decays", decays && stepped > 63),
        ("probability limited to 0", stepped < 0 && now.probability == 0 && q.probability > 0),
        ("probability limited to 2^32", stepped > WHOLE as i64),
        ("allowance falls", now.allowance < q.allowance && now.allowance > 0),
        ("allowance ends", q.allowance > 0 && now.allowance == 0),
        ("allowance filled", now.allowance == FULL_ALLOWANCE && q.allowance < FULL_ALLOWANCE),
        ("not filled, probability 0, delay too long", now.probability == 0 && now.allowance < FULL_ALLOWANCE),
        ("sum kept", q.accumulated > 0 && now.accumulated == q.accumulated),
        ("measurement kept", q.measuring != 0),
    ]
}
