//! What happens at an accepted arrival.

use crate::kind::{arriving, Side};
use crate::model::numbers::*;
use crate::model::{self, State};
use crate::shared::coverage::Found;
use crate::shared::kind::Arriving;

/// What single calls and long runs must both reach.
#[rustfmt::skip]
pub fn events(before: &State, packet: &Arriving, after: &Side) -> Found {
    let (s, now) = (before, &after.state);
    let slots = s.settings.slots;
    let enqueued = after.answer == 0;
    let early = after.answer == 4;
    let was = |activity: u64| s.activity == activity;
    let cleared = s.accumulated > 0 && now.accumulated == 0;
    vec![
        ("tail written below the head", enqueued && s.first + s.count >= slots),
        ("last slot taken", enqueued && now.count == slots),
        ("queue of one slot", slots == 1),
        ("queue of 65,536 slots", slots == 65_536),
        ("clock 2^48 accepted", now.clock == CLOCK_MAX),
        ("inactive stays inactive", was(INACTIVE) && now.activity == INACTIVE),
        ("inactive becomes quiescent", was(INACTIVE) && now.activity == QUIESCENT),
        ("quiescent stays quiescent", was(QUIESCENT) && now.activity == QUIESCENT),
        ("quiescent becomes active", was(QUIESCENT) && now.activity == ACTIVE),
        ("active, dropped early, no allowance", was(ACTIVE) && early && now.allowance == 0),
        ("enqueued by the allowance, u below the scaled", s.allowance > 0 && enqueued
            && u64::from(packet.u) < model::scaled(s.probability, packet.size)),
        ("sum cleared by dropped bytes", after.answer == 2 && cleared),
        ("sum cleared by dropped slots", after.answer == 3 && cleared),
        ("sum cleared by dropped early", early && cleared),
        ("sum cleared by probability 0", enqueued && s.probability == 0 && cleared),
        ("sum raised and enqueued", enqueued && now.accumulated > s.accumulated),
        ("scaled at its limit", s.allowance == 0 && now.accumulated > 0
            && s.probability * u64::from(packet.size) / 1_024 > LOW),
    ]
}

/// Both sides of the edges of rules 1 to 6.
#[rustfmt::skip]
pub fn early_edges(before: &State, packet: &Arriving, after: &Side) -> Found {
    let (s, now) = (before, &after.state);
    let rule = model::decide(&mut s.clone(), &arriving(packet)).rule;
    let room = s.settings.buffer - s.bytes;
    let size = u64::from(packet.size);
    let third = 3 * s.bytes;
    let buffer = s.settings.buffer;
    let open = s.allowance == 0 && rule > 3;
    let idle = open && s.activity == INACTIVE;
    let sum = s.accumulated;
    let moved = now.activity == QUIESCENT;
    vec![
        ("packet fills the buffer", rule > 1 && size == room),
        ("packet is one byte too large", rule == 1 && size == room + 1),
        ("rule 1 ahead of rule 2", rule == 1 && s.count == s.settings.slots),
        ("rule 1 in an allowance, sum cleared", rule == 1 && s.allowance > 0 && sum > 0),
        ("rule 1 leaves inactive, a third full", rule == 1 && s.activity == INACTIVE && third >= buffer),
        ("rule 1 leaves quiescent", rule == 1 && s.activity == QUIESCENT),
        ("rule 2 in an allowance, sum cleared", rule == 2 && s.allowance > 0 && sum > 0),
        ("rule 2 leaves inactive, a third full", rule == 2 && s.activity == INACTIVE && third >= buffer),
        ("rule 2 leaves quiescent", rule == 2 && s.activity == QUIESCENT),
        ("one slot left", rule > 2 && s.count + 1 == s.settings.slots),
        ("allowance 1", rule == 3 && s.allowance == 1),
        ("allowance, probability 0, sum kept", rule == 3 && s.probability == 0 && sum > 0),
        ("probability 0 clears the sum, rule 5", rule == 5 && s.probability == 0 && sum > 0),
        ("probability 1 leaves the sum, rule 5", rule == 5 && s.probability == 1 && sum > 0),
        ("probability 0 clears the sum, rule 9", rule == 9 && s.probability == 0 && sum > 0),
        ("probability 0 clears the sum, rule 10", rule == 10 && s.probability == 0 && sum > 0),
        ("probability 0 clears a sum of 8.5, rule 11", rule == 11 && s.probability == 0 && sum == HIGH),
        ("inactive, 3 x bytes = buffer - 1", idle && third + 1 == buffer && rule == 5),
        ("inactive, 3 x bytes = buffer - 2", idle && third + 2 == buffer && rule == 5),
        ("inactive, 3 x bytes = buffer", idle && third == buffer && rule > 5),
        ("inactive, 3 x bytes = buffer + 1", idle && third == buffer + 1 && rule > 5),
        ("inactive below a third, probability 2^32", rule == 5 && s.probability == WHOLE),
        ("quiescent below a third goes on", open && s.activity == QUIESCENT && third < buffer && rule > 5),
        ("active below a third goes on", open && s.activity == ACTIVE && third < buffer && rule > 5),
        ("made quiescent, enqueued by rule 9", idle && rule == 9 && moved),
        ("made quiescent, enqueued by rule 10", idle && rule == 10 && moved),
        ("made quiescent, enqueued by rule 11", idle && rule == 11 && moved),
        ("made quiescent, enqueued by rule 14", idle && rule == 14 && moved),
        ("inactive made active by rule 12", idle && rule == 12 && now.allowance == FULL_ALLOWANCE),
        ("inactive made active by rule 13", idle && rule == 13 && now.allowance == FULL_ALLOWANCE),
        ("quiescent made active by rule 12", s.activity == QUIESCENT && rule == 12 && now.activity == ACTIVE),
        ("quiescent made active by rule 13", s.activity == QUIESCENT && rule == 13 && now.activity == ACTIVE),
        ("active dropped by rule 12, no allowance", s.activity == ACTIVE && rule == 12 && now.allowance == 0),
    ]
}

/// Both sides of the edges of rules 7 to 14.
#[rustfmt::skip]
pub fn late_edges(before: &State, packet: &Arriving, after: &Side) -> Found {
    let s = before;
    let model::Decision { rule, scaled, sum } = model::decide(&mut s.clone(), &arriving(packet));
    let (target, p, u) = (s.settings.target, s.probability, u64::from(packet.u));
    let product = p * u64::from(packet.size);
    let unlimited = product / 1_024;
    let open = rule >= 9;
    let drop_otherwise = sum >= HIGH || (sum >= LOW && u < scaled);
    let asked = rule >= 11;
    let kept = after.state.accumulated == sum.min(HIGH);
    vec![
        ("scaled 0 of a probability above 0", open && p > 0 && scaled == 0),
        ("scaled rounded down", open && product % 1_024 != 0),
        ("scaled exact", open && p > 0 && product % 1_024 == 0),
        ("scaled one below its limit", open && unlimited + 1 == LOW),
        ("scaled just its limit", open && unlimited == LOW),
        ("scaled limited by one", open && unlimited == LOW + 1),
        ("scaled 0.85 of the largest packet", open && packet.size == 65_535 && scaled == LOW),
        ("sum one below 8.5", open && sum == HIGH - 1),
        ("sum of 8.5", open && sum == HIGH),
        ("sum stops, one above 8.5", open && sum == HIGH + 1),
        ("greatest sum stops", open && sum == HIGH + LOW),
        ("sum kept by rule 9", rule == 9 && kept && scaled > 0),
        ("sum stops by rule 9", rule == 9 && kept && sum > HIGH),
        ("sum kept by rule 10", rule == 10 && kept && scaled > 0),
        ("sum stops by rule 10", rule == 10 && kept && sum > HIGH),
        ("2 x old delay = target - 1", rule == 9 && 2 * s.old_delay + 1 == target),
        ("2 x old delay = target - 2", rule == 9 && 2 * s.old_delay + 2 == target),
        ("2 x old delay = target", rule > 9 && 5 * p < WHOLE && 2 * s.old_delay == target),
        ("2 x old delay = target + 1", rule > 9 && 5 * p < WHOLE && 2 * s.old_delay == target + 1),
        ("5 x probability = 2^32 - 1", rule == 9 && p == 858_993_459),
        ("5 x probability = 2^32 + 4", rule > 9 && 2 * s.old_delay < target && p == 858_993_460),
        ("rule 9 enqueues what else were dropped", rule == 9 && s.bytes > SMALL_QUEUE && drop_otherwise),
        ("bytes 2,048", rule == 10 && s.bytes == 2_048),
        ("bytes 2,049", rule > 10 && s.bytes == 2_049),
        ("rule 10 enqueues what else were dropped", rule == 10 && drop_otherwise),
        ("sum 3,650,722,200, u below the scaled", rule == 11 && sum == LOW - 1 && u < scaled),
        ("sum 3,650,722,201, u below the scaled", rule == 13 && sum == LOW),
        ("sum 3,650,722,201, u not below it", rule == 14 && sum == LOW),
        ("sum 36,507,222,015, u below the scaled", rule == 13 && sum == HIGH - 1),
        ("sum 36,507,222,015, u not below it", rule == 14 && sum == HIGH - 1),
        ("sum 36,507,222,016, u not below the scaled", rule == 12 && sum == HIGH && u >= scaled),
        ("sum above 8.5, u 2^32 - 1", rule == 12 && sum > HIGH && u == 4_294_967_295),
        ("u = scaled - 1", rule == 13 && u + 1 == scaled),
        ("u = scaled", rule == 14 && u == scaled),
        ("scaled 0, u 0", rule == 14 && scaled == 0 && u == 0),
        ("scaled 0.85, u one below", rule == 13 && scaled == LOW && u + 1 == LOW),
        ("scaled 0.85, u the same", asked && rule == 14 && scaled == LOW && u == LOW),
        ("probability 0, u 0", rule == 11 && p == 0 && u == 0),
    ]
}
