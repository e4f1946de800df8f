//! One step of the proved library, held against the second program's.

use crate::{settled, step, UNTOLD};
use second::verifier::{self, State, STATE};

/// The second program's step over a state in bytes: the verdict, and what is told. Bytes that are no state: 1, and nothing is told.
fn second_step(log: &[u8], bytes: &mut [u8; STATE], cache: &mut [u8]) -> (u32, [u64; 2]) {
    let Some(state) = State::from_bytes(bytes) else {
        return (1, [UNTOLD; 2]);
    };
    let (verdict, next, used) = verifier::step(log, &state, cache);
    *bytes = next.bytes();
    let answers = verdict == 0 && [6, 7].contains(&log[0]);
    (verdict, [used as u64, if answers { state.epoch } else { 0 }])
}

fn second_settled(bytes: &[u8; STATE], epoch: u64) -> (u32, u8) {
    match State::from_bytes(bytes) {
        Some(state) if state.well() => (0, u8::from((1..=state.settled()).contains(&epoch))),
        _ => (1, 0xaa),
    }
}

/// One step on both sides: verdict, what is told, state, every byte of the cache, and which epochs are settled afterwards.
pub fn compare_step(log: &[u8], state: &mut [u8; STATE], cache: &mut [u8]) -> u32 {
    let (mut other, mut other_cache) = (*state, cache.to_vec());
    let expected = second_step(log, &mut other, &mut other_cache);
    assert_eq!(step(log, state, cache), expected, "{log:02x?}");
    assert_eq!(*state, other, "the state after {} on {log:02x?}", expected.0);
    assert!(cache == other_cache, "the cache after {} on {log:02x?}", expected.0);
    let current = u64::from_be_bytes(state[24..32].try_into().unwrap());
    for epoch in [0, 1, current.wrapping_sub(2), current.wrapping_sub(1), current] {
        assert_eq!(settled(state, epoch), second_settled(state, epoch), "epoch {epoch} of {state:02x?}");
    }
    expected.0
}
