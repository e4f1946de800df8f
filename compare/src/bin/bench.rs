//! Entries: the proved run and the second program's, on the same log.
//!   bench                  a line for each case: its name, then the time of one entry in ns of each, the least of several turns
//!   bench WHO CASE COUNT   so many runs of one (0 proved, 1 the second program), for a count of instructions; prints the entries of a run
//! Each case is a log of one kind of work, all of it accepted; a run decides well-formedness once.

use compare::honest::Honest;
use compare::Inputs;
use second::codec::{Entry, Key, Value};
use second::verifier::{self, State, SLOT};
use std::hint::black_box;
use std::time::Instant;

const TURNS: usize = 15;

/// Entries of a log of one kind.
const N: usize = 2_000;

struct Case {
    name: String,
    state: State,
    cache: Vec<u8>,
    log: Vec<u8>,
}

impl Case {
    fn proved(&self) -> u64 {
        let (mut state, mut cache) = (self.state.bytes(), self.cache.clone());
        compare::run(black_box(&self.log), &mut state, &mut cache).1[2]
    }

    fn second(&self) -> u64 {
        verifier::run(black_box(&self.log), &self.state, &mut self.cache.clone()).0.accepted
    }
}

/// Z is held in slot 1, and every further slot but the last holds a node, one below the other, to the right.
fn held(slots: usize) -> (State, Vec<u8>) {
    let mut cache = vec![0; slots * SLOT];
    let (_, mut state) = verifier::open(&[3; 16], &mut cache);
    let mut tell = |entry: Entry| {
        let (verdict, next, _) = verifier::step(&entry.bytes(), &state, &mut cache);
        assert_eq!(verdict, 0, "{entry:?}");
        state = next;
    };
    tell(Entry::AddTree { s: 1, p: 0, key: Key::data([0; 32]), value: Value::None });
    for i in 2..slots - 1 {
        let mut bits = [0; 32];
        for bit in 0..i - 1 {
            bits[bit / 8] |= 0x80 >> (bit % 8);
        }
        let p = if i == 2 { 0 } else { i - 1 };
        tell(Entry::AddTree { s: i as u16, p: p as u16, key: Key { len: i as u16 - 1, bits }, value: Value::BARE_NODE });
    }
    (state, cache)
}

fn repeated(entries: &[Entry], times: usize) -> Vec<u8> {
    entries.iter().flat_map(Entry::bytes).collect::<Vec<u8>>().repeat(times)
}

fn cases() -> Vec<Case> {
    let mut all = Vec::new();
    for slots in [4, 64] {
        let (state, cache) = held(slots);
        let (z, epoch, last) = (Key::data([0; 32]), state.epoch, slots as u16 - 1);
        let mut case = |name: &str, log: Vec<u8>| all.push(Case { name: format!("{name}, {slots} slots"), state, cache: cache.clone(), log });
        case("get", repeated(&[Entry::Get { s: 1, key: z, value: Value::None }], N));
        case("put", repeated(&[Entry::Put { s: 1, key: z, value: Value::Fingerprint([9; 32]) }], N));
        case("absence", repeated(&[Entry::Absent { p: last - 1, key: Key::data([0xff; 32]) }], N));
        let add = |s| Entry::AddTree { s, p: 0, key: z, value: Value::None };
        let evict = |s| Entry::EvictTree { s, p: 0 };
        case("evict to tree, add from tree", repeated(&[evict(1), add(last), evict(last), add(1)], N / 4));
        let mut deferred = vec![Entry::EvictTreeDeferred { s: 1, p: 0 }];
        for time in 1..N as u64 / 2 {
            deferred.push(Entry::AddDeferred { s: 1, epoch, time, key: z, value: Value::None });
            deferred.push(Entry::EvictDeferred { s: 1 });
        }
        case("deferred add, deferred evict", repeated(&deferred, 1));
    }
    let (mut inputs, set, mut cache) = (Inputs(11), [5; 16], vec![0; 4 * SLOT]);
    let mut host = Honest::new(&set);
    for _ in 0..40 {
        host.day_more(&mut inputs);
    }
    let (_, state) = verifier::open(&set, &mut cache);
    all.push(Case { name: "a long honest log, 4 slots".into(), state, cache, log: host.log });
    all
}

fn least(mut work: impl FnMut() -> u64) -> f64 {
    let time = |_| {
        let begin = Instant::now();
        let accepted = work();
        begin.elapsed().as_secs_f64() * 1e9 / accepted as f64
    };
    (0..TURNS).map(time).fold(f64::MAX, f64::min)
}

fn main() {
    let given: Vec<usize> = std::env::args().skip(1).map(|word| word.parse().expect("a number")).collect();
    let cases = cases();
    if let [who, case, count] = given[..] {
        let entries = verifier::run(&cases[case].log, &cases[case].state, &mut cases[case].cache.clone()).0.accepted;
        for _ in 0..count {
            black_box(if who == 0 { cases[case].proved() } else { cases[case].second() });
        }
        println!("{entries}");
        return;
    }
    for case in &cases {
        println!("{}\t{:.1}\t{:.1}", case.name, least(|| case.proved()), least(|| case.second()));
    }
}
