//! Queues as chains in one pair of tables: each word of sizes has a size and the link to the next.

use super::shadow::Packets;

fn size_of(word: u32) -> u32 {
    word & 0xffff
}

fn link_of(word: u32) -> usize {
    (word >> 16) as usize
}

/// The places of a queue's first packet and its last.
pub type Ends = (u64, u64);

/// Each place below `used` is in exactly one chain, which holds the packets that are queued and ends at
/// its tail, or among the freed, whose size is 0.
pub fn stored<'a>(
    queues: impl Iterator<Item = (&'a Packets, Ends)>,
    (used, freed, spare): (u64, u64, u64),
    handles: &[u32],
    sizes: &[u32],
) -> Result<(), String> {
    let mut seen = vec![false; used as usize];
    for (packets, (head, tail)) in queues {
        let (mut place, mut last) = (head as usize, tail as usize);
        for &packet in packets.all() {
            let word = sizes[place];
            if std::mem::replace(&mut seen[place], true) {
                return Err("a slot is twice in the chains".into());
            }
            if (handles[place], size_of(word)) != packet {
                return Err("a queue's chain in the tables is not what was admitted".into());
            }
            (last, place) = (place, link_of(word));
        }
        if last as u64 != tail {
            return Err("a chain does not end at its tail".into());
        }
    }
    let mut place = freed as usize;
    for _ in 0..spare {
        if std::mem::replace(&mut seen[place], true) || size_of(sizes[place]) != 0 {
            return Err("the freed slots are not a chain of their own".into());
        }
        place = link_of(sizes[place]);
    }
    match seen.iter().all(|&seen| seen) {
        true => Ok(()),
        false => Err("a slot that was taken is in no chain".into()),
    }
}
