//! Stands for the pauses of the crate `crossbeam_utils`.
use std::cell::Cell;

/// A pause that grows.
pub struct Backoff(Cell<u32>);

impl Backoff {
    pub fn new() -> Backoff {
        Backoff(Cell::new(0))
    }

    pub fn spin(&self) {
        let step = self.0.get();
        for _ in 0..1u32 << step.min(6) {
            std::hint::spin_loop();
        }
        self.0.set((step + 1).min(7));
    }
}
