//! A call of the library, remembered by its name and two of its numbers.

use crate::shared::stop;

fn print(call: &&str, numbers: &[u64; 2]) {
    println!("call: {call}, numbers {} and {}", numbers[0], numbers[1]);
}

pub fn watched<T>(call: &'static str, numbers: [u64; 2], run: impl FnOnce() -> T) -> T {
    stop::watched(print, &call, &numbers, run)
}
