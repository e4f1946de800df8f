//! Long histories at every slot count: what a host writes, honest, wrong and damaged, on a state and a cache that are fed back from step to step
//! and are damaged between steps. Bounded in count and in time.

use compare::host::Host;
use compare::steps::compare_step;
use compare::{seed, Inputs};
use second::verifier::{State, SLOT, STATE};
use std::time::{Duration, Instant};

const STEPS: usize = 4_000;
const LONGEST: Duration = Duration::from_secs(120);

#[test]
fn every_slot_count() {
    let (begin, seed) = (Instant::now(), seed(12));
    let (mut met, mut damaged, mut counts) = ([0u32; 31], 0, 0);
    for slots in 2..=64 {
        if begin.elapsed() > LONGEST {
            println!("stopped before {slots} slots, after {LONGEST:?}");
            break;
        }
        counts += 1;
        let mut inputs = Inputs(seed ^ (slots as u64) << 32);
        let (mut state, mut cache, mut host) = ([0; STATE], vec![0; slots * SLOT], Host::default());
        let mut fresh = true;
        for turn in 0..STEPS {
            if fresh || turn % 300 == 0 {
                host = Host::default();
                assert_eq!(compare::open(&inputs.bytes(16).try_into().unwrap(), &mut cache, &mut state), 0);
                fresh = false;
            }
            let mut log = match State::from_bytes(&state) {
                Some(now) => host.entry(&mut inputs, &now, &cache).bytes(),
                None => vec![9, 0, 0],
            };
            match inputs.below(30) {
                0 => {
                    let place = inputs.below(log.len());
                    log[place] ^= 1 << inputs.below(8);
                }
                1 => log.truncate(inputs.below(log.len())),
                _ => {}
            }
            let verdict = compare_step(&log, &mut state, &mut cache);
            met[verdict as usize] += 1;
            // the damage stays, and the next steps go on from it; where all is refused with 1, it is opened anew a few steps later
            fresh = verdict == 1 && inputs.below(4) == 0;
            match inputs.below(60) {
                0 => state[inputs.below(STATE)] ^= 1 << inputs.below(8),
                1 => {
                    let place = inputs.below(cache.len());
                    cache[place] ^= 1 << inputs.below(8);
                }
                2 => {
                    // one slot over another
                    let (from, to) = (inputs.below(slots), inputs.below(slots));
                    cache.copy_within(from * SLOT..(from + 1) * SLOT, to * SLOT);
                }
                3 => state[81 + 8 * inputs.below(2)..][..8].copy_from_slice(&[0u64, 1, 999_999, 1_000_000][inputs.below(4)].to_be_bytes()),
                _ => continue,
            }
            damaged += 1;
        }
    }
    println!("{counts} slot counts, {} steps, {damaged} damages, verdicts: {:?}", met.iter().sum::<u32>(), met.iter().enumerate().filter(|(_, n)| **n > 0).collect::<Vec<_>>());
    assert!(met[0] > 20_000 && met[1] > 5_000 && damaged > 5_000, "{met:?} {damaged}");
}
