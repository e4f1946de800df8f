//! The proved library as its users call it (`rust/`), in the forms that are held against the second program, and the means to make inputs.

pub mod honest;
pub mod host;
pub mod steps;

use second::codec::{Key, Value};
use second::verifier::STATE;
use thiraduan::call::{self, Fields};

// What is lent is not zero before a call, so that a byte left unwritten shows.

pub fn digest(message: &[u8]) -> (u32, [u8; 32]) {
    let mut out = [0xaa; 32];
    (call::digest(message, &mut out), out)
}

pub fn term_key(code: &[u8], term: &[u8]) -> (u32, [u8; 32]) {
    let mut out = [0xaa; 32];
    (call::term_key(code, term, &mut out), out)
}

pub fn has_fingerprint(sealed: &[u8], fingerprint: &[u8; 32]) -> (u32, bool) {
    let mut yes = 0xaa;
    let verdict = call::fingerprint(sealed, fingerprint, &mut yes);
    assert!(yes < 2);
    (verdict, yes == 1)
}

pub fn tag(key: &[u8; 16], message: &[u8]) -> (u32, [u8; 16]) {
    let mut out = [0xaa; 16];
    (call::tag(key, message, &mut out), out)
}

pub fn expand(key: &[u8; 16]) -> [u8; 176] {
    let mut out = [0xaa; 176];
    call::expand(key, &mut out);
    out
}

pub fn tag_with(expanded: &[u8; 176], message: &[u8]) -> (u32, [u8; 16]) {
    let mut out = [0xaa; 16];
    (call::tag_with(expanded, message, &mut out), out)
}

pub fn encrypt(expanded: &[u8; 176], block: &[u8; 16]) -> [u8; 16] {
    let mut out = [0xaa; 16];
    call::encrypt(expanded, block, &mut out);
    out
}

/// What fields hold before a read, and still hold after a refused one.
pub const UNREAD: Fields = Fields { numbers: [0xaa; 5], key: [0xaa; 34], value: [0xaa; 137] };

/// The verdict on the entry at the start of a log, the bytes used, and the entry's fields.
pub fn read(log: &[u8]) -> (u32, usize, Fields) {
    let (mut used, mut fields) = (u64::MAX, UNREAD);
    let verdict = call::read(log, &mut used, &mut fields);
    (verdict, used as usize, fields)
}

/// The entry of these fields, written to the front of a buffer: the verdict, and how many bytes.
pub fn write(fields: &Fields, out: &mut [u8]) -> (u32, usize) {
    let mut used = u64::MAX;
    let verdict = call::write(fields, out, &mut used);
    (verdict, used as usize)
}

pub fn key_field(key: &Key) -> [u8; 34] {
    let mut bytes = Vec::new();
    key.encode(&mut bytes);
    bytes.try_into().unwrap()
}

/// A value and zeros behind it.
pub fn value_field(value: &Value) -> [u8; 137] {
    let mut bytes = value.bytes();
    bytes.resize(137, 0);
    bytes.try_into().unwrap()
}

/// Opening: the verdict; the state's bytes and the cache are written.
pub fn open(key: &[u8; 16], cache: &mut [u8], state: &mut [u8; STATE]) -> u32 {
    call::open(key, cache, state)
}

/// What is told before a step or a run, and still told where bytes are no state.
pub const UNTOLD: u64 = u64::MAX;

/// One step: the verdict, the bytes used and the epoch of the answer; the state's bytes and the cache are written.
pub fn step(log: &[u8], state: &mut [u8; STATE], cache: &mut [u8]) -> (u32, [u64; 2]) {
    let mut told = [UNTOLD; 2];
    (call::step(log, state, cache, &mut told), told)
}

/// A run: 0 or 1, and settled, met, accepted, used; the state's bytes and the cache are written.
pub fn run(log: &[u8], state: &mut [u8; STATE], cache: &mut [u8]) -> (u32, [u64; 4]) {
    let mut told = [UNTOLD; 4];
    (call::run(log, state, cache, &mut told), told)
}

/// Whether an epoch is settled: 0 and 0 or 1, or 1 and nothing written.
pub fn settled(state: &[u8; STATE], epoch: u64) -> (u32, u8) {
    let mut yes = 0xaa;
    (call::settled(state, epoch, &mut yes), yes)
}

/// The seed of a test: its own, or that of the variable SEED. It is printed.
pub fn seed(own: u64) -> u64 {
    let seed = std::env::var("SEED").map_or(own, |s| s.parse().expect("SEED is a number"));
    println!("seed {seed}");
    seed
}

/// A generator of inputs (splitmix64): the same seed gives the same inputs.
pub struct Inputs(pub u64);

impl Inputs {
    pub fn next(&mut self) -> u64 {
        self.0 = self.0.wrapping_add(0x9e37_79b9_7f4a_7c15);
        let mut z = self.0;
        z = (z ^ (z >> 30)).wrapping_mul(0xbf58_476d_1ce4_e5b9);
        z = (z ^ (z >> 27)).wrapping_mul(0x94d0_49bb_1331_11eb);
        z ^ (z >> 31)
    }

    /// A number below `bound`.
    pub fn below(&mut self, bound: usize) -> usize {
        (self.next() % bound as u64) as usize
    }

    pub fn bytes(&mut self, length: usize) -> Vec<u8> {
        (0..length).map(|_| self.next() as u8).collect()
    }
}
