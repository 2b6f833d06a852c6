//! The switch that the edited text asks; it starts as published.

use std::cell::Cell;

thread_local! {
    static PREVIOUS: Cell<bool> = const { Cell::new(true) };
}

/// Whether `full_pixel_me` sees the reference slot's grid; true as published.
pub fn previous_present() -> bool {
    PREVIOUS.get()
}

/// Runs `body` with the switch set, then puts it back (also on a panic).
pub fn with_previous<R>(present: bool, body: impl FnOnce() -> R) -> R {
    struct Back(bool);
    impl Drop for Back {
        fn drop(&mut self) {
            PREVIOUS.set(self.0);
        }
    }
    let _back = Back(PREVIOUS.replace(present));
    body()
}
