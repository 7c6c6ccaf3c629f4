// SPDX-License-Identifier: MIT OR Apache-2.0
//! Random numbers, by which a client samples. Each thread has a generator of its own, so that no lock is taken.
use std::cell::Cell;
use std::collections::hash_map::RandomState;
use std::hash::{BuildHasher, Hasher};

thread_local! {
    static STATE: Cell<u64> = Cell::new(RandomState::new().build_hasher().finish() | 1);
}

/// Returns a random number of 64 bits, by the generator xorshift64*.
fn draw() -> u64 {
    STATE.with(|state| {
        let mut bits = state.get();
        bits ^= bits >> 12;
        bits ^= bits << 25;
        bits ^= bits >> 27;
        state.set(bits);
        bits.wrapping_mul(0x2545_F491_4F6C_DD1D)
    })
}

/// Returns true with this chance, and otherwise false.
pub(crate) fn passes(chance: f64) -> bool {
    ((draw() >> 11) as f64) < chance * (1u64 << 53) as f64
}
