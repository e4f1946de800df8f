//! Runs of the proved library against the second program's: whole logs that a host writes, some cut or damaged, on good and bad caches.

use compare::host::Host;
use compare::{seed, Inputs, UNTOLD};
use second::verifier::{self, State, SLOT, STATE};

/// A log that a host writes from fresh, watching the verifier.
fn log(inputs: &mut Inputs, set: &[u8; 16], slots: usize, entries: usize) -> Vec<u8> {
    let (mut cache, mut host, mut log) = (vec![0; slots * SLOT], Host::default(), Vec::new());
    let (_, mut state) = verifier::open(set, &mut cache);
    for _ in 0..entries {
        let bytes = host.entry(inputs, &state, &cache).bytes();
        state = verifier::step(&bytes, &state, &mut cache).1;
        log.extend(bytes);
    }
    log
}

#[test]
fn two_thousand_runs() {
    let mut inputs = Inputs(seed(8));
    let (mut settled, mut stopped) = (0, 0);
    for turn in 0..2_000 {
        let slots = [2, 3, 4, 9, 64][turn % 5];
        let set: [u8; 16] = inputs.bytes(16).try_into().unwrap();
        let entries = inputs.below(120);
        let mut bytes = log(&mut inputs, &set, slots, entries);
        if !bytes.is_empty() {
            match turn % 4 {
                0 => bytes.truncate(inputs.below(bytes.len())),
                1 => {
                    let place = inputs.below(bytes.len());
                    bytes[place] ^= 1 << inputs.below(8);
                }
                _ => {}
            }
        }
        let (mut state, mut cache) = ([0; STATE], vec![0; slots * SLOT]);
        assert_eq!(compare::open(&set, &mut cache, &mut state), 0);
        if turn % 50 == 0 {
            cache[inputs.below(SLOT)] ^= 1;
        }
        if turn % 61 == 0 {
            cache.pop();
        }
        let (mut other, start) = (cache.clone(), State::from_bytes(&state).unwrap());
        let (ran, _) = verifier::run(&bytes, &start, &mut other);
        assert_eq!(compare::run(&bytes, &mut state, &mut cache), (0, [ran.settled, ran.met, ran.accepted, ran.used]), "turn {turn}");
        assert_eq!(state, ran.state.bytes());
        assert!(cache == other);
        settled += u32::from(ran.settled > 0);
        stopped += u32::from(ran.used < bytes.len() as u64);
    }
    println!("{settled} runs with a settled epoch, {stopped} that stopped early");
    assert!(settled > 300 && stopped > 300);
}

#[test]
fn no_state_no_run() {
    let (mut state, mut cache) = ([0; STATE], vec![0xaa; 4 * SLOT]);
    state[80] = 2;
    let before = state;
    assert_eq!(compare::run(&[9, 0, 0], &mut state, &mut cache), (1, [UNTOLD; 4]));
    assert_eq!(compare::step(&[9, 0, 0], &mut state, &mut cache), (1, [UNTOLD; 2]));
    assert_eq!(compare::settled(&state, 1), (1, 0xaa));
    assert_eq!((state, cache), (before, vec![0xaa; 4 * SLOT]));
}
