//! Whether a comparison finds a wrong implementation out.

use std::panic::{catch_unwind, AssertUnwindSafe};

/// Whether a comparison panics with one of these messages. It must not panic with another.
pub fn is_found(messages: &[&str], compared: impl FnOnce()) -> bool {
    match catch_unwind(AssertUnwindSafe(compared)) {
        Ok(()) => false,
        Err(told) => {
            let told = told.downcast_ref::<String>();
            let told = told.expect("it is told what differs");
            let known = messages.iter().any(|message| told.starts_with(message));
            assert!(known, "{told}");
            true
        }
    }
}
