//! The table's size, which is the command's affair: a job is tried in larger and larger tables while too few slots are all that is wrong.

use flaskbloom::{Refusal, RefusedAt};

pub const SMALLEST: usize = 16;
pub const LARGEST: usize = 65_536;

/// What the job gives in the first table that has room, from about twice `vertices` slots on; only the largest may say 8.
pub fn growing<T>(vertices: usize, mut job: impl FnMut(usize) -> Result<T, RefusedAt>) -> Result<T, RefusedAt> {
    let mut slots = vertices.saturating_mul(2).clamp(SMALLEST, LARGEST).next_power_of_two();
    loop {
        match job(slots) {
            Err(RefusedAt { refusal: Refusal::TooFewSlots, .. }) if slots < LARGEST => slots *= 2,
            done => return done,
        }
    }
}
