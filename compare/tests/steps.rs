//! Opening and one step of the proved library against the second program: verdict, state, bytes used, every byte of the cache.

use compare::host::Host;
use compare::steps::compare_step;
use compare::{seed, Inputs};
use second::verifier::{self, State, SLOT, STATE};

#[test]
fn opening_agrees() {
    for length in [0, 191, 192, 383, 384, 385, 576, 768, 12_287, 12_288, 12_289, 12_480] {
        let key: [u8; 16] = Inputs(length as u64).bytes(16).try_into().unwrap();
        let (mut cache, mut state) = (vec![0xaa; length], [0xaa; STATE]);
        let mut other = cache.clone();
        let (verdict, expected) = verifier::open(&key, &mut other);
        assert_eq!((compare::open(&key, &mut cache, &mut state), state), (verdict, expected.bytes()), "{length}");
        assert_eq!(cache, other);
        assert_eq!(verdict, if length % SLOT == 0 && (384..=12_288).contains(&length) { 0 } else { 28 });
    }
}

/// 200,000 steps at 2, 3, 4, 9 and 64 slots: entries that a host proposes, whole and damaged, on states and caches that are the verifier's
/// own, damaged or merely odd.
#[test]
fn two_hundred_thousand_steps() {
    let (mut met, seed) = ([0u32; 31], seed(100));
    for slots in [2, 3, 4, 9, 64] {
        let mut inputs = Inputs(seed + slots as u64);
        let (mut state, mut cache, mut host) = ([0; STATE], vec![0; slots * SLOT], Host::default());
        for turn in 0..40_000 {
            if turn % 400 == 0 {
                host = Host::default();
                let key = inputs.bytes(16).try_into().unwrap();
                assert_eq!(compare::open(&key, &mut cache, &mut state), 0);
            }
            let now = State::from_bytes(&state).unwrap();
            let mut log = host.entry(&mut inputs, &now, &cache).bytes();
            match inputs.below(24) {
                0 => {
                    let place = inputs.below(log.len());
                    log[place] ^= 1 << inputs.below(8);
                }
                1 => log.truncate(inputs.below(log.len())),
                2 => log.extend([1, 2, 3]),
                _ => {}
            }
            if inputs.below(30) == 0 {
                // on a damaged or odd copy, and then go on with the verifier's own
                let (mut bad_state, mut bad_cache) = (state, cache.clone());
                match inputs.below(5) {
                    0 => bad_state[inputs.below(STATE)] ^= 1 << inputs.below(8),
                    1 => {
                        let place = inputs.below(bad_cache.len());
                        bad_cache[place] ^= 1 << inputs.below(8);
                    }
                    2 => bad_cache.truncate(inputs.below(bad_cache.len())),
                    3 => bad_state[32 + 8 * inputs.below(2)..][..8].copy_from_slice(&[999_999u64, 1_000_000, 1_000_000, 1_000_001][inputs.below(4)].to_be_bytes()),
                    _ => bad_state[24..32].copy_from_slice(&[0u64, 1, 2, 1_000_000, 1_000_001][inputs.below(5)].to_be_bytes()),
                }
                met[compare_step(&log, &mut bad_state, &mut bad_cache) as usize] += 1;
                met[compare_step(&log, &mut bad_state, &mut bad_cache) as usize] += 1;
            }
            met[compare_step(&log, &mut state, &mut cache) as usize] += 1;
        }
    }
    println!("verdicts: {:?}", met.iter().enumerate().filter(|(_, n)| **n > 0).collect::<Vec<_>>());
    assert!(met.iter().sum::<u32>() >= 200_000);
    for verdict in (0..=28).filter(|v| ![21, 27].contains(v)) {
        assert!(met[verdict] >= 20, "verdict {verdict} was met {} times", met[verdict]);
    }
}
