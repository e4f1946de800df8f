//! The program's listing against the second program's: honest logs, hostile ones, and the edges of log and key.

use compare::honest::Honest;
use compare::host::Host;
use compare::{seed, Inputs};
use second::verifier::{self, SLOT};
use std::io::Write;
use std::path::{Path, PathBuf};
use std::process::{Command, Stdio};

/// A folder of its own for the program to run in.
fn room(name: &str) -> PathBuf {
    let room = Path::new(env!("CARGO_TARGET_TMPDIR")).join(name);
    std::fs::create_dir_all(&room).unwrap();
    room
}

fn program(room: &Path, log: &[u8]) -> String {
    let lister = Path::new(env!("CARGO_MANIFEST_DIR")).join("../target/bin/lister").canonicalize().expect("./build builds it");
    let mut child = Command::new(lister).current_dir(room).stdin(Stdio::piped()).stdout(Stdio::piped()).spawn().unwrap();
    // a log that is too long may be left unread
    let _ = child.stdin.take().unwrap().write_all(log);
    let done = child.wait_with_output().unwrap();
    assert!(done.status.success());
    String::from_utf8(done.stdout).unwrap()
}

/// A log that a hostile host writes: now and then an odd entry, a cut or a flipped bit.
fn hostile(inputs: &mut Inputs, set: &[u8; 16]) -> Vec<u8> {
    let (mut cache, mut host, mut log) = (vec![0; 4 * SLOT], Host::default(), Vec::new());
    let (_, mut state) = verifier::open(set, &mut cache);
    for _ in 0..inputs.below(240) {
        let mut bytes = host.entry(inputs, &state, &cache).bytes();
        if inputs.below(25) == 0 {
            // in the body where there is one, so that the log stays in step
            let place = 3 + inputs.below(bytes.len().saturating_sub(3).max(1));
            let place = place.min(bytes.len() - 1);
            bytes[place] ^= 1 << inputs.below(8);
        }
        state = verifier::step(&bytes, &state, &mut cache).1;
        log.extend(bytes);
    }
    if inputs.below(4) == 0 && !log.is_empty() {
        log.truncate(inputs.below(log.len()));
    }
    log
}

#[test]
fn two_thousand_listings() {
    let room = room("listings");
    let mut inputs = Inputs(seed(9));
    let (mut met, mut settled) = ([0u32; 31], 0);
    for turn in 0..2_000 {
        let set: [u8; 16] = inputs.bytes(16).try_into().unwrap();
        std::fs::write(room.join("set.key"), set).unwrap();
        let log = if turn % 2 == 0 { Honest::day(&mut inputs, &set) } else { hostile(&mut inputs, &set) };
        let expected = verifier::listing(&set, &log);
        assert_eq!(program(&room, &log), expected, "turn {turn}");
        for line in expected.lines().filter(|l| l.starts_with(|c: char| c.is_ascii_digit())) {
            met[line.split(' ').nth(2).unwrap().parse::<usize>().unwrap()] += 1;
        }
        settled += u32::from(turn % 2 == 0 && !expected.contains("settled 0"));
    }
    println!("verdicts: {:?}; honest logs with a settled epoch: {settled}", met.iter().enumerate().filter(|(_, n)| **n > 0).collect::<Vec<_>>());
    assert!(settled > 500);
    // 1, 20, 21, 27, 28 and the rest are not reached from fresh by a log of this size
    for verdict in (0..=26).filter(|v| ![1, 20, 21].contains(v)) {
        assert!(met[verdict] >= 20, "verdict {verdict} was met {} times", met[verdict]);
    }
}

#[test]
fn edges() {
    let room = room("edges");
    let key = room.join("set.key");
    let _ = std::fs::remove_file(&key);
    assert_eq!(program(&room, b"\x09\0\0"), "bad key\n");
    for (length, log) in [(0, 0), (15, 3), (17, 3), (17, 65_537)] {
        std::fs::write(&key, vec![1; length]).unwrap();
        assert_eq!(program(&room, &vec![9; log]), "bad key\n");
    }
    std::fs::write(&key, [1; 16]).unwrap();
    let mut inputs = Inputs(10);
    for length in [0, 1, 2, 65_535, 65_536] {
        let zeros = vec![0; length];
        assert_eq!(program(&room, &zeros), verifier::listing(&[1; 16], &zeros), "{length}");
        let log = inputs.bytes(length);
        assert_eq!(program(&room, &log), verifier::listing(&[1; 16], &log), "{length}");
    }
    assert_eq!(program(&room, &vec![0; 65_537]), "log too long\n");
}
