//! Where the library stops the whole program (a fault or an abort), this prints the call at which
//! it did so, and ends the program with 1.

use crate::NAME;
use std::mem::transmute;
use std::ptr::null_mut;
use std::sync::atomic::{AtomicPtr, Ordering::SeqCst};
use std::sync::Mutex;

const ILLEGAL: i32 = 4;
const ABORT: i32 = 6;
const BUS: i32 = 7;
const ARITHMETIC: i32 = 8;
const SEGMENT: i32 = 11;

extern "C" {
    fn signal(number: i32, handler: extern "C" fn(i32)) -> usize;
    fn _exit(code: i32) -> !;
}

/// Prints a call, from what it was given before and from its arguments.
type Print<Before, Call> = fn(&Before, &Call);

static PLACE: Mutex<String> = Mutex::new(String::new());
static PRINT: AtomicPtr<()> = AtomicPtr::new(null_mut());
static BEFORE: AtomicPtr<()> = AtomicPtr::new(null_mut());
static CALL: AtomicPtr<()> = AtomicPtr::new(null_mut());

/// Remembers which part of which seed runs.
pub fn set_place(place: &str) {
    if let Ok(mut remembered) = PLACE.lock() {
        *remembered = place.to_string();
    }
}

/// Runs a call of the library, and remembers meanwhile how it is printed.
pub fn watched<Before, Call, T>(
    print: Print<Before, Call>,
    before: &Before,
    call: &Call,
    run: impl FnOnce() -> T,
) -> T {
    PRINT.store(print as *mut (), SeqCst);
    BEFORE.store(before as *const Before as *mut (), SeqCst);
    CALL.store(call as *const Call as *mut (), SeqCst);
    let result = run();
    CALL.store(null_mut(), SeqCst);
    result
}

pub fn install() {
    for number in [ILLEGAL, ABORT, BUS, ARITHMETIC, SEGMENT] {
        unsafe { signal(number, stopped) };
    }
}

/// Runs in the place where the library stopped; the library holds no memory or lock of ours.
extern "C" fn stopped(number: i32) {
    let call = CALL.load(SeqCst);
    if call.is_null() {
        println!("{NAME}: stopped by signal {number}, outside the library");
    } else {
        let reason = match number {
            BUS | SEGMENT => "read or wrote outside what was lent, or wrote to what is only read",
            _ => "stopped the program",
        };
        let place = PLACE.try_lock().map(|place| place.clone()).unwrap_or_default();
        println!("{NAME}: difference in {place}: the library {reason} (signal {number})");
        // Both stand as long as the call is watched, and are of the types that the function takes.
        unsafe {
            let print: fn(*const (), *const ()) = transmute(PRINT.load(SeqCst));
            print(BEFORE.load(SeqCst), call);
        }
    }
    unsafe { _exit(1) }
}
