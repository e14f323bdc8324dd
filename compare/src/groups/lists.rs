//! Lists of vectors, sent and received.
use crate::calls::{Calls, Outcome};
use crate::lists::{any, list, list_after_lock};

/// Many short lists: legal, nearly legal, wild.
pub fn short(calls: &mut Calls) -> Outcome {
    for n in 0..16_000 {
        let strays = [0, 0, 20, 200, 1000][n % 5];
        let length = 4 * calls.random.below(48);
        let start = calls.random.start_state();
        let vectors = match n % 7 {
            0 => (0..length).flat_map(|_| any(&mut calls.random)).collect(),
            1..=3 => list(calls.edition, length, strays, &mut calls.random),
            _ => list_after_lock(calls.edition, length, strays, &mut calls.random),
        };
        calls.both_ways(&vectors, start)?;
    }
    Ok(())
}

/// A few long ones, the longest that is taken among them.
pub fn long(calls: &mut Calls) -> Outcome {
    for (length, strays) in [(100_000, 0), (100_000, 50), (20_000, 0), (20_000, 5), (99_996, 1)] {
        let vectors = list_after_lock(calls.edition, length, strays, &mut calls.random);
        let start = calls.random.start_state();
        calls.both_ways(&vectors, start)?;
    }
    Ok(())
}
