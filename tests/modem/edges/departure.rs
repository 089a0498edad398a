//! What happens at a departure.

use crate::kind::Side;
use crate::model::State;
use crate::shared::coverage::Found;

/// What single calls and long runs must both reach, at accepted departures.
pub fn events(before: &State, after: &State) -> Found {
    vec![
        ("head goes from the last place to 0", after.first == 0 && before.settings.slots > 1),
        ("queue of one slot", before.settings.slots == 1 && after.first == 0),
        ("queue left empty", after.count == 0),
        ("a packet stays", after.count > 0),
        ("allowance kept", after.allowance > 0 && after.allowance == before.allowance),
        ("sum kept", after.accumulated > 0 && after.accumulated == before.accumulated),
        ("reset time kept", after.reset > 0 && after.reset == before.reset),
    ]
}

/// Heads that just may leave.
pub fn edges(after: &State) -> Found {
    let stays = after.count > 0;
    vec![
        ("head leaves bytes = count", stays && after.bytes == after.count),
        ("head leaves bytes = 65,535 x count", stays && after.bytes == 65_535 * after.count),
    ]
}

/// Why a head was refused.
pub fn wrong_head(before: &Side) -> Found {
    let s = &before.state;
    let size = u64::from(before.sizes.get(s.first as usize).copied().unwrap_or(1));
    let plain = (1..=65_535).contains(&size);
    let count = s.count.saturating_sub(1);
    let left = s.bytes.checked_sub(size);
    vec![
        ("head of size 0", size == 0),
        ("head of size 65,536", size == 65_536),
        ("head above 65,536", size > 65_536),
        ("bytes would be below 0", plain && left.is_none()),
        ("bytes would be below count", plain && left.map_or(false, |bytes| bytes < count)),
        (
            "bytes would be above 65,535 x count",
            plain && left.map_or(false, |bytes| bytes > 65_535 * count),
        ),
    ]
}
