//! Safe Rust over the proved static library `libthiraduan.a`; the standard library alone.
//!
//! A [`Verifier`] keeps the trusted state and cache. It is fed a log that an untrusted host wrote and accepts or refuses each entry, by number. An
//! accepted get or absence is an [`Answer`], marked with its epoch: provisional until [`Verifier::settled`] says yes for that epoch.
//! [`call`] has the same calls as the C header has them.

use std::fmt;

pub mod call;

/// A state's bytes; docs/protocol.md has their layout.
pub const STATE_BYTES: usize = 129;

/// A cache is 2 to 64 slots of so many bytes.
pub const SLOT_BYTES: usize = 192;

/// No entry is longer.
pub const ENTRY_BYTES: usize = 192;

/// A refusal, by its number.
#[derive(Clone, Copy, PartialEq, Eq, Debug)]
pub struct Refused(pub u32);

impl Refused {
    pub fn meaning(self) -> &'static str {
        match self.0 {
            1 => "cache or state not well formed",
            2 => "wrong tag, body length or content",
            3 => "fewer bytes than head and body need",
            4 => "slot number not below the slot count",
            5 => "slot taken",
            6 => "slot empty",
            7 => "key already in the cache",
            8 => "kind of value, key and slot do not fit",
            9 => "slot holds another key",
            10 => "p is no proper ancestor",
            11 => "p's link is empty or names another key",
            12 => "other branch",
            13 => "marked deferred",
            14 => "digest differs",
            15 => "not a first value",
            16 => "wrong origin",
            17 => "s is slot 0",
            18 => "epoch not open",
            19 => "time out of range",
            20 => "count at 1,000,000",
            21 => "epoch at 1,000,000",
            22 => "advance with an old epoch open, or close with none",
            23 => "counts differ",
            24 => "sums differ",
            25 => "value differs",
            26 => "absence not shown",
            27 => "buffer shorter than the entry",
            28 => "no cache has that length",
            29 => "bad code or term",
            30 => "message over 65,536 bytes",
            _ => "no verdict",
        }
    }
}

impl fmt::Display for Refused {
    fn fmt(&self, f: &mut fmt::Formatter) -> fmt::Result {
        write!(f, "refused with {}: {}", self.0, self.meaning())
    }
}

impl std::error::Error for Refused {}

fn unless_refused<T>(verdict: u32, answer: T) -> Result<T, Refused> {
    if verdict == 0 {
        Ok(answer)
    } else {
        Err(Refused(verdict))
    }
}

/// The SHA-256 of up to 65,536 bytes.
pub fn digest(message: &[u8]) -> Result<[u8; 32], Refused> {
    let mut out = [0; 32];
    unless_refused(call::digest(message, &mut out), out)
}

/// The AES-CMAC of up to 65,536 bytes.
pub fn tag(key: &[u8; 16], message: &[u8]) -> Result<[u8; 16], Refused> {
    let mut out = [0; 16];
    unless_refused(call::tag(key, message, &mut out), out)
}

/// The data key of a term in a language.
pub fn term_key(code: &str, term: &str) -> Result<[u8; 32], Refused> {
    let mut out = [0; 32];
    unless_refused(call::term_key(code.as_bytes(), term.as_bytes(), &mut out), out)
}

/// Whether a sealed entry has a fingerprint.
pub fn has_fingerprint(sealed: &[u8], fingerprint: &[u8; 32]) -> Result<bool, Refused> {
    let mut yes = 0;
    unless_refused(call::fingerprint(sealed, fingerprint, &mut yes), yes == 1)
}

/// A key as entries have it: a length in bits and 32 bytes.
#[derive(Clone, Copy, PartialEq, Eq, Debug)]
pub struct Key(pub [u8; 34]);

impl Key {
    pub const ROOT: Key = Key([0; 34]);

    pub fn data(bytes: &[u8; 32]) -> Key {
        let mut key = [0; 34];
        key[0] = 1;
        key[2..].copy_from_slice(bytes);
        Key(key)
    }

    /// The 32 bytes of a data key.
    pub fn as_data(&self) -> Option<[u8; 32]> {
        (self.0[..2] == [1, 0]).then(|| self.0[2..].try_into().unwrap())
    }
}

/// A value as entries have it, then zeros.
#[derive(Clone, Copy, PartialEq, Eq, Debug)]
pub struct Value(pub [u8; 137]);

impl Value {
    pub const NONE: Value = Value([0; 137]);

    pub fn fingerprint(of: &[u8; 32]) -> Value {
        let mut value = [0; 137];
        value[0] = 1;
        value[1..33].copy_from_slice(of);
        Value(value)
    }

    pub fn as_fingerprint(&self) -> Option<[u8; 32]> {
        (self.0[0] == 1).then(|| self.0[1..33].try_into().unwrap())
    }
}

/// An entry's fields. What an entry of its tag does not have is zero, [`Key::ROOT`], [`Value::NONE`].
#[derive(Clone, Copy, PartialEq, Eq, Debug)]
pub struct Entry {
    pub tag: u8,
    pub s: u16,
    pub p: u16,
    pub epoch: u64,
    pub time: u64,
    pub key: Key,
    pub value: Value,
}

impl Entry {
    const fn bare(tag: u8) -> Entry {
        Entry { tag, s: 0, p: 0, epoch: 0, time: 0, key: Key::ROOT, value: Value::NONE }
    }

    pub const ADVANCE: Entry = Entry::bare(9);

    pub const CLOSE: Entry = Entry::bare(10);

    pub fn add_from_tree(s: u16, p: u16, key: Key, value: Value) -> Entry {
        Entry { s, p, key, value, ..Entry::bare(1) }
    }

    pub fn add_deferred(s: u16, epoch: u64, time: u64, key: Key, value: Value) -> Entry {
        Entry { s, epoch, time, key, value, ..Entry::bare(2) }
    }

    pub fn evict_to_tree(s: u16, p: u16) -> Entry {
        Entry { s, p, ..Entry::bare(3) }
    }

    pub fn evict_deferred(s: u16) -> Entry {
        Entry { s, ..Entry::bare(4) }
    }

    pub fn evict_tree_record_deferred(s: u16, p: u16) -> Entry {
        Entry { s, p, ..Entry::bare(5) }
    }

    pub fn get(s: u16, key: Key, value: Value) -> Entry {
        Entry { s, key, value, ..Entry::bare(6) }
    }

    pub fn absent(p: u16, key: Key) -> Entry {
        Entry { p, key, ..Entry::bare(7) }
    }

    pub fn put(s: u16, key: Key, value: Value) -> Entry {
        Entry { s, key, value, ..Entry::bare(8) }
    }

    /// The entry at the start of a log, and its whole length.
    pub fn read(log: &[u8]) -> Result<(Entry, usize), Refused> {
        let (mut used, mut fields) = (0, call::Fields::ZERO);
        let verdict = call::read(log, &mut used, &mut fields);
        let [tag, s, p, epoch, time] = fields.numbers;
        let entry = Entry { tag: tag as u8, s: s as u16, p: p as u16, epoch, time, key: Key(fields.key), value: Value(fields.value) };
        unless_refused(verdict, (entry, used as usize))
    }

    /// Its bytes to the start of a buffer, and how many.
    pub fn write(&self, out: &mut [u8]) -> Result<usize, Refused> {
        let numbers = [self.tag.into(), self.s.into(), self.p.into(), self.epoch, self.time];
        let mut used = 0;
        let verdict = call::write(&call::Fields { numbers, key: self.key.0, value: self.value.0 }, out, &mut used);
        unless_refused(verdict, used as usize)
    }
}

/// What an accepted get or absence says: the fingerprint under a data key, or none, as of an epoch.
#[derive(Clone, Copy, PartialEq, Eq, Debug)]
pub struct Answer {
    pub key: [u8; 32],
    pub fingerprint: Option<[u8; 32]>,
    pub epoch: u64,
}

/// What a step came to.
#[derive(Clone, Copy, PartialEq, Eq, Debug)]
pub struct Stepped {
    pub verdict: u32,
    /// The entry's whole length, or 0 where the verdict is 28, 1 or 3.
    pub used: usize,
    pub answer: Option<Answer>,
}

/// What a run came to.
#[derive(Clone, Copy, PartialEq, Eq, Debug)]
pub struct Ran {
    pub settled: u64,
    pub met: u64,
    pub accepted: u64,
    pub used: usize,
}

/// The trusted state and cache. Whoever keeps their bytes elsewhere must keep them from the host.
#[derive(Clone, PartialEq, Eq, Debug)]
pub struct Verifier {
    state: [u8; STATE_BYTES],
    cache: Vec<u8>,
}

impl Verifier {
    /// Fresh, with 2 to 64 slots.
    pub fn open(set_key: &[u8; 16], slots: usize) -> Result<Verifier, Refused> {
        // one slot more than fits is refused as any larger number is
        let (mut state, mut cache) = ([0; STATE_BYTES], vec![0; slots.min(65) * SLOT_BYTES]);
        unless_refused(call::open(set_key, &mut cache, &mut state), ())?;
        Ok(Verifier { state, cache })
    }

    /// From bytes that were kept. Bytes that are no state or no cache are refused at each call, with 1 or 28.
    pub fn resume(state: [u8; STATE_BYTES], cache: Vec<u8>) -> Verifier {
        Verifier { state, cache }
    }

    pub fn state(&self) -> &[u8; STATE_BYTES] {
        &self.state
    }

    pub fn cache(&self) -> &[u8] {
        &self.cache
    }

    /// The entry at the start of a log.
    pub fn step(&mut self, log: &[u8]) -> Stepped {
        let mut told = [0; 2];
        let verdict = call::step(log, &mut self.state, &mut self.cache, &mut told);
        let [used, epoch] = told;
        let answered = if epoch == 0 { None } else { Entry::read(log).ok() };
        let answer = answered.and_then(|(entry, _)| {
            Some(Answer { key: entry.key.as_data()?, fingerprint: entry.value.as_fingerprint(), epoch })
        });
        Stepped { verdict, used: used as usize, answer }
    }

    /// The entries of a log, to its end or to an entry that it cuts off.
    pub fn run(&mut self, log: &[u8]) -> Result<Ran, Refused> {
        let mut told = [0; 4];
        let verdict = call::run(log, &mut self.state, &mut self.cache, &mut told);
        let [settled, met, accepted, used] = told;
        unless_refused(verdict, Ran { settled, met, accepted, used: used as usize })
    }

    /// Whether an epoch is settled, so that its answers are no longer provisional.
    pub fn settled(&self, epoch: u64) -> Result<bool, Refused> {
        let mut yes = 0;
        unless_refused(call::settled(&self.state, epoch, &mut yes), yes == 1)
    }
}
