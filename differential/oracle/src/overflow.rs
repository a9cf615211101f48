//! The one panic of the Rust that is caught: a decrease whose product is above the rate.

use std::panic::{self, AssertUnwindSafe, PanicHookInfo};
use std::sync::Mutex;

/// What the last panic said.
static TOLD: Mutex<String> = Mutex::new(String::new());

/// Whether `step` ends in that panic; its message is not printed. Any other panic goes on.
pub fn caught(step: impl FnOnce()) -> bool {
    let hook = panic::take_hook();
    panic::set_hook(Box::new(listen));
    let ended = panic::catch_unwind(AssertUnwindSafe(step));
    panic::set_hook(hook);
    if ended.is_ok() {
        return false;
    }
    let told = TOLD.lock().expect("nothing panics while it is held");
    assert!(is_decrease(&told), "{told}");
    true
}

fn listen(panic: &PanicHookInfo) {
    *TOLD.lock().expect("nothing panics while it is held") = panic.to_string();
}

/// The file and the words of the subtraction in a decrease.
fn is_decrease(told: &str) -> bool {
    told.contains("congestion/rate_controller.rs:")
        && told.ends_with("attempt to subtract with overflow")
}
