//! Where the source faults: its panic is caught, and gives what it says.

use std::panic::{self, AssertUnwindSafe};

/// The message, if there is a fault; nothing is printed.
pub fn fault<T>(f: impl FnOnce() -> T) -> Option<String> {
    let said = panic::take_hook();
    panic::set_hook(Box::new(|_| {}));
    let fault = panic::catch_unwind(AssertUnwindSafe(f)).err();
    panic::set_hook(said);
    fault.map(|payload| match payload.downcast::<String>() {
        Ok(message) => *message,
        Err(payload) => payload.downcast_ref::<&str>().map_or(String::new(), |message| message.to_string()),
    })
}
