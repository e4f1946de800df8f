//! The trusted state, opening, one step and a run, from document 01 ("The trusted state", "The ten entries", "Verdict numbers").

use crate::cmac::cmac;
use crate::codec::{self, Entry, Input, Key, Message, Side, Value};
use crate::sha256::digest;

pub const SLOT: usize = 192;
pub const LIMIT: u64 = 1_000_000;
/// How many bytes a state takes where it is handed over: set key, clock, epoch, tally, whether an old epoch is open, its tally.
pub const STATE: usize = 129;

#[derive(Clone, Copy, Debug, Default, PartialEq, Eq)]
pub struct Tally {
    pub adds: u64,
    pub evicts: u64,
    pub add_sum: [u8; 16],
    pub evict_sum: [u8; 16],
}

#[derive(Clone, Copy, Debug, PartialEq, Eq)]
pub struct State {
    pub set: [u8; 16],
    pub clock: u64,
    pub epoch: u64,
    pub tally: Tally,
    pub old: Option<Tally>,
}

impl Tally {
    fn well(&self) -> bool {
        self.adds <= LIMIT && self.evicts <= LIMIT
    }

    fn bytes(&self) -> Vec<u8> {
        [&self.adds.to_be_bytes()[..], &self.evicts.to_be_bytes(), &self.add_sum, &self.evict_sum].concat()
    }

    fn from_bytes(b: &[u8]) -> Tally {
        Tally {
            adds: u64::from_be_bytes(b[0..8].try_into().unwrap()),
            evicts: u64::from_be_bytes(b[8..16].try_into().unwrap()),
            add_sum: b[16..32].try_into().unwrap(),
            evict_sum: b[32..48].try_into().unwrap(),
        }
    }
}

impl State {
    pub const ZERO: State = State {
        set: [0; 16],
        clock: 0,
        epoch: 0,
        tally: Tally { adds: 0, evicts: 0, add_sum: [0; 16], evict_sum: [0; 16] },
        old: None,
    };

    pub fn well(&self) -> bool {
        let old = match self.old {
            None => true,
            Some(tally) => self.epoch != 1 && tally.well(),
        };
        (1..=LIMIT).contains(&self.epoch) && old && self.tally.well() && self.clock <= LIMIT * (self.epoch - 1) + self.tally.evicts
    }

    /// Current less 1, or less 2 with an old epoch open.
    pub fn settled(&self) -> u64 {
        self.epoch.saturating_sub(if self.old.is_some() { 2 } else { 1 })
    }

    pub fn bytes(&self) -> [u8; STATE] {
        let mut out = Vec::with_capacity(STATE);
        out.extend_from_slice(&self.set);
        out.extend_from_slice(&self.clock.to_be_bytes());
        out.extend_from_slice(&self.epoch.to_be_bytes());
        out.extend_from_slice(&self.tally.bytes());
        out.push(u8::from(self.old.is_some()));
        out.extend_from_slice(&self.old.unwrap_or_default().bytes());
        out.try_into().unwrap()
    }

    /// None where the bytes are no state: a flag that is neither 0 nor 1, or a tally of no old epoch that is not zero.
    pub fn from_bytes(b: &[u8; STATE]) -> Option<State> {
        let tally = Tally::from_bytes(&b[81..129]);
        let old = match b[80] {
            0 if tally == Tally::default() => None,
            1 => Some(tally),
            _ => return None,
        };
        Some(State {
            set: b[0..16].try_into().unwrap(),
            clock: u64::from_be_bytes(b[16..24].try_into().unwrap()),
            epoch: u64::from_be_bytes(b[24..32].try_into().unwrap()),
            tally: Tally::from_bytes(&b[32..80]),
            old,
        })
    }
}

fn well_length(cache: &[u8]) -> bool {
    (2 * SLOT..=64 * SLOT).contains(&cache.len()) && cache.len() % SLOT == 0
}

/// What a slot holds.
#[derive(Clone, Debug, PartialEq, Eq)]
enum Slot {
    Free,
    Full { origin: u8, key: Key, value: Value },
}

const TREE: u8 = 1;
const DEFERRED: u8 = 2;

/// None where the bytes are no slot.
fn slot(cache: &[u8], i: usize) -> Option<Slot> {
    let bytes = &cache[i * SLOT..(i + 1) * SLOT];
    if bytes[0] == 0 {
        return bytes.iter().all(|&b| b == 0).then_some(Slot::Free);
    }
    if bytes[0] > DEFERRED {
        return None;
    }
    let mut input = Input::new(&bytes[1..]);
    let key = Key::decode(&mut input)?;
    let value = Value::decode(&mut input)?;
    if !input.rest().iter().all(|&b| b == 0) || key.is_data() == value.is_node() {
        return None;
    }
    Some(Slot::Full { origin: bytes[0], key, value })
}

/// The record in slot i, if there is one: origin, key, value.
pub fn held(cache: &[u8], i: usize) -> Option<(u8, Key, Value)> {
    match slot(cache, i)? {
        Slot::Free => None,
        Slot::Full { origin, key, value } => Some((origin, key, value)),
    }
}

fn put_slot(cache: &mut [u8], i: usize, origin: u8, key: &Key, value: &Value) {
    let mut bytes = vec![origin];
    key.encode(&mut bytes);
    value.encode(&mut bytes);
    bytes.resize(SLOT, 0);
    cache[i * SLOT..(i + 1) * SLOT].copy_from_slice(&bytes);
}

fn free_slot(cache: &mut [u8], i: usize) {
    cache[i * SLOT..(i + 1) * SLOT].fill(0);
}

fn well_cache(cache: &[u8]) -> bool {
    let mut keys = Vec::new();
    for i in 0..cache.len() / SLOT {
        match slot(cache, i) {
            None => return false,
            Some(Slot::Free) if i == 0 => return false,
            Some(Slot::Free) => {}
            Some(Slot::Full { origin, key, .. }) => {
                if i == 0 && (origin != TREE || key != Key::ROOT) || keys.contains(&key) {
                    return false;
                }
                keys.push(key);
            }
        }
    }
    true
}

pub fn well_formed(state: &State, cache: &[u8]) -> bool {
    state.well() && well_cache(cache)
}

/// Opening: 0 and a fresh state, or 28 and a state of zeros with the cache untouched.
pub fn open(set: &[u8; 16], cache: &mut [u8]) -> (u32, State) {
    if !well_length(cache) {
        return (28, State::ZERO);
    }
    cache.fill(0);
    put_slot(cache, 0, TREE, &Key::ROOT, &Value::BARE_NODE);
    (0, State { set: *set, epoch: 1, ..State::ZERO })
}

fn above(a: &Key, b: &Key) -> bool {
    a.len < b.len && (0..a.len).all(|i| a.bit(i) == b.bit(i))
}

/// The right side?
fn toward(a: &Key, b: &Key) -> bool {
    b.bit(a.len)
}

fn first(value: &Value) -> bool {
    *value == Value::None || *value == Value::BARE_NODE
}

fn fits(key: &Key, value: &Value) -> bool {
    key.is_data() != value.is_node()
}

fn with_side(node: &Value, right: bool, side: Side) -> Value {
    match node {
        Value::Node { left, .. } if right => Value::Node { left: left.clone(), right: side },
        Value::Node { right, .. } => Value::Node { left: side, right: right.clone() },
        _ => unreachable!("asked of a node only"),
    }
}

fn xor(sum: &mut [u8; 16], tag: [u8; 16]) {
    for (a, b) in sum.iter_mut().zip(tag) {
        *a ^= b;
    }
}

type Checked = Result<(), u32>;

/// The verifier at work on one entry: nothing is written until every check has passed.
struct Work<'a> {
    state: State,
    cache: &'a mut [u8],
}

impl Work<'_> {
    fn in_range(&self, i: u16) -> Result<usize, u32> {
        if (i as usize) < self.cache.len() / SLOT {
            Ok(i as usize)
        } else {
            Err(4)
        }
    }

    fn record(&self, i: usize) -> Result<(u8, Key, Value), u32> {
        match slot(self.cache, i) {
            Some(Slot::Full { origin, key, value }) => Ok((origin, key, value)),
            Some(Slot::Free) => Err(6),
            None => Err(1),
        }
    }

    fn free(&self, i: usize) -> Checked {
        match slot(self.cache, i) {
            Some(Slot::Free) => Ok(()),
            Some(_) => Err(5),
            None => Err(1),
        }
    }

    fn not_held(&self, wanted: &Key) -> Checked {
        for i in 0..self.cache.len() / SLOT {
            if let Some(Slot::Full { key, .. }) = slot(self.cache, i) {
                if key == *wanted {
                    return Err(7);
                }
            }
        }
        Ok(())
    }

    fn test(good: bool, verdict: u32) -> Checked {
        if good {
            Ok(())
        } else {
            Err(verdict)
        }
    }

    /// p's side toward the key, where p is a node (8) and a proper ancestor (10).
    fn side_of(p: &(u8, Key, Value), key: &Key) -> Result<(bool, Side), u32> {
        let Value::Node { left, right } = &p.2 else { return Err(8) };
        Self::test(above(&p.1, key), 10)?;
        let to_right = toward(&p.1, key);
        Ok((to_right, if to_right { right.clone() } else { left.clone() }))
    }

    fn add_tree(&mut self, s: u16, p: u16, key: &Key, value: &Value) -> Checked {
        let (s, p) = (self.in_range(s)?, self.in_range(p)?);
        self.free(s)?;
        let node = self.record(p)?;
        self.not_held(key)?;
        Self::test(fits(key, value), 8)?;
        let (right, side) = Self::side_of(&node, key)?;
        let stored = match &side {
            Side::Link { key: linked, digest: expected, mark } if linked == key => {
                Self::test(!mark, 13)?;
                Self::test(digest(&value.bytes()) == *expected, 14)?;
                put_slot(self.cache, s, TREE, key, value);
                return Ok(());
            }
            Side::Link { key: linked, .. } => {
                Self::test(above(key, linked), 12)?;
                Self::test(first(value), 15)?;
                with_side(&Value::BARE_NODE, toward(key, linked), side.clone())
            }
            Side::Empty => {
                Self::test(first(value), 15)?;
                value.clone()
            }
        };
        let link = Side::Link { key: *key, digest: digest(&stored.bytes()), mark: false };
        put_slot(self.cache, p, node.0, &node.1, &with_side(&node.2, right, link));
        put_slot(self.cache, s, TREE, key, &stored);
        Ok(())
    }

    fn tag(&self, epoch: u64, time: u64, key: &Key, value: &Value) -> [u8; 16] {
        cmac(&self.state.set, &Message { epoch, time, key: *key, value: value.clone() }.bytes())
    }

    fn add_deferred(&mut self, s: u16, epoch: u64, time: u64, key: &Key, value: &Value) -> Checked {
        let s = self.in_range(s)?;
        self.free(s)?;
        self.not_held(key)?;
        Self::test(fits(key, value), 8)?;
        let current = epoch == self.state.epoch;
        Self::test(current || self.state.old.is_some() && epoch == self.state.epoch - 1, 18)?;
        Self::test((1..=self.state.clock).contains(&time), 19)?;
        let tag = self.tag(epoch, time, key, value);
        let tally = if current { &mut self.state.tally } else { self.state.old.as_mut().unwrap() };
        Self::test(tally.adds < LIMIT, 20)?;
        tally.adds += 1;
        xor(&mut tally.add_sum, tag);
        put_slot(self.cache, s, DEFERRED, key, value);
        Ok(())
    }

    /// The clock rises by one; the message of the new time goes into the current evicts.
    fn evict_message(&mut self, key: &Key, value: &Value) -> Checked {
        Self::test(self.state.tally.evicts < LIMIT, 20)?;
        self.state.clock += 1;
        let tag = self.tag(self.state.epoch, self.state.clock, key, value);
        self.state.tally.evicts += 1;
        xor(&mut self.state.tally.evict_sum, tag);
        Ok(())
    }

    fn evict(&mut self, s: u16, p: u16, deferring: bool) -> Checked {
        let (s, p) = (self.in_range(s)?, self.in_range(p)?);
        Self::test(s != 0, 17)?;
        let (origin, key, value) = self.record(s)?;
        let node = self.record(p)?;
        let (right, side) = Self::side_of(&node, &key)?;
        let link = match side {
            Side::Link { key: linked, digest: held, .. } if linked == key => {
                if deferring {
                    Self::test(origin == TREE, 16)?;
                    self.evict_message(&key, &value)?;
                    Side::Link { key, digest: held, mark: true }
                } else {
                    Side::Link { key, digest: digest(&value.bytes()), mark: false }
                }
            }
            _ => return Err(11),
        };
        put_slot(self.cache, p, node.0, &node.1, &with_side(&node.2, right, link));
        free_slot(self.cache, s);
        Ok(())
    }

    fn evict_deferred(&mut self, s: u16) -> Checked {
        let s = self.in_range(s)?;
        Self::test(s != 0, 17)?;
        let (origin, key, value) = self.record(s)?;
        Self::test(origin == DEFERRED, 16)?;
        self.evict_message(&key, &value)?;
        free_slot(self.cache, s);
        Ok(())
    }

    /// The data record in slot s, where it has the key (8, 9).
    fn data(&self, s: u16, key: &Key, value: &Value) -> Result<(usize, u8, Value), u32> {
        let s = self.in_range(s)?;
        let (origin, held, old) = self.record(s)?;
        Self::test(!value.is_node() && !old.is_node(), 8)?;
        Self::test(held == *key, 9)?;
        Ok((s, origin, old))
    }

    fn absent(&self, p: u16, key: &Key) -> Checked {
        let p = self.in_range(p)?;
        let node = self.record(p)?;
        match Self::side_of(&node, key)?.1 {
            Side::Link { key: linked, .. } if linked == *key || above(&linked, key) => Err(26),
            _ => Ok(()),
        }
    }

    fn advance(&mut self) -> Checked {
        Self::test(self.state.old.is_none(), 22)?;
        Self::test(self.state.epoch < LIMIT, 21)?;
        self.state.old = Some(std::mem::take(&mut self.state.tally));
        self.state.epoch += 1;
        Ok(())
    }

    fn close(&mut self) -> Checked {
        let Some(old) = self.state.old else { return Err(22) };
        Self::test(old.adds == old.evicts, 23)?;
        Self::test(old.add_sum == old.evict_sum, 24)?;
        self.state.old = None;
        Ok(())
    }

    fn entry(&mut self, entry: &Entry) -> Checked {
        match entry {
            Entry::AddTree { s, p, key, value } => self.add_tree(*s, *p, key, value),
            Entry::AddDeferred { s, epoch, time, key, value } => self.add_deferred(*s, *epoch, *time, key, value),
            Entry::EvictTree { s, p } => self.evict(*s, *p, false),
            Entry::EvictDeferred { s } => self.evict_deferred(*s),
            Entry::EvictTreeDeferred { s, p } => self.evict(*s, *p, true),
            Entry::Get { s, key, value } => {
                let (_, _, old) = self.data(*s, key, value)?;
                Self::test(old == *value, 25)
            }
            Entry::Absent { p, key } => self.absent(*p, key),
            Entry::Put { s, key, value } => {
                let (s, origin, _) = self.data(*s, key, value)?;
                put_slot(self.cache, s, origin, key, value);
                Ok(())
            }
            Entry::Advance => self.advance(),
            Entry::Close => self.close(),
        }
    }
}

/// A step on a state and a cache that are well formed: verdict, next state, bytes used.
pub fn step_well(log: &[u8], state: &State, cache: &mut [u8]) -> (u32, State, usize) {
    match codec::read(log) {
        Err((verdict, used)) => (verdict.into(), *state, used),
        Ok((entry, used)) => {
            let mut work = Work { state: *state, cache };
            match work.entry(&entry) {
                Ok(()) => (0, work.state, used),
                Err(verdict) => (verdict, *state, used),
            }
        }
    }
}

/// One step: 28, 1, 3, 2, then the table.
pub fn step(log: &[u8], state: &State, cache: &mut [u8]) -> (u32, State, usize) {
    if !well_length(cache) {
        return (28, *state, 0);
    }
    if !well_formed(state, cache) {
        return (1, *state, 0);
    }
    step_well(log, state, cache)
}

/// What a run returns.
#[derive(Clone, Copy, Debug, PartialEq, Eq)]
pub struct Ran {
    pub state: State,
    pub settled: u64,
    pub met: u64,
    pub accepted: u64,
    pub used: u64,
}

/// One entry that a run met: its tag byte, its verdict, the current epoch after it.
#[derive(Clone, Copy, Debug, PartialEq, Eq)]
pub struct Met {
    pub tag: u8,
    pub verdict: u32,
    pub epoch: u64,
}

/// A run: continues after a refusal, stops at the end of the log or at 28, 1 or 3; the entry it stops at counts as met.
pub fn run(log: &[u8], state: &State, cache: &mut [u8]) -> (Ran, Vec<Met>) {
    let sound = well_length(cache) && well_formed(state, cache);
    let mut ran = Ran { state: *state, settled: 0, met: 0, accepted: 0, used: 0 };
    let mut all = Vec::new();
    let mut rest = log;
    while !rest.is_empty() {
        let (verdict, next, used) = if sound { step_well(rest, &ran.state, cache) } else { step(rest, &ran.state, cache) };
        ran.state = next;
        ran.met += 1;
        all.push(Met { tag: rest[0], verdict, epoch: next.epoch });
        if matches!(verdict, 28 | 1 | 3) {
            break;
        }
        ran.accepted += u64::from(verdict == 0);
        ran.used += used as u64;
        rest = &rest[used..];
    }
    if sound {
        ran.settled = ran.state.settled();
    }
    (ran, all)
}

/// The program's listing of a log with four slots.
pub fn listing(set: &[u8; 16], log: &[u8]) -> String {
    let mut cache = vec![0; 4 * SLOT];
    let (_, state) = open(set, &mut cache);
    let (ran, all) = run(log, &state, &mut cache);
    let mut out = String::from("slots 4\n");
    for (i, met) in all.iter().enumerate() {
        out += &format!("{} {} {} {}\n", i + 1, met.tag, met.verdict, met.epoch);
    }
    out + &format!("settled {} bytes {}\n", ran.settled, ran.used)
}

#[cfg(test)]
mod tests {
    use super::*;

    fn z() -> Key {
        Key::data([0; 32])
    }

    fn fresh() -> (State, Vec<u8>) {
        let mut cache = vec![0xaa; 4 * SLOT];
        let (verdict, state) = open(&[7; 16], &mut cache);
        assert_eq!(verdict, 0);
        (state, cache)
    }

    fn play(entries: &[Entry]) -> (Vec<u32>, State, Vec<u8>) {
        let (mut state, mut cache) = fresh();
        let mut verdicts = Vec::new();
        for entry in entries {
            let bytes = entry.bytes();
            let (verdict, next, used) = step(&bytes, &state, &mut cache);
            assert_eq!(used, bytes.len());
            verdicts.push(verdict);
            state = next;
        }
        (verdicts, state, cache)
    }

    /// The listing of document 01.
    #[test]
    fn the_listing() {
        let log = [&[9, 0, 0, 10, 0, 0, 10, 0, 0, 7, 0, 0x22][..], &[0; 34]].concat();
        assert_eq!(listing(&[1; 16], &log), "slots 4\n1 9 0 2\n2 10 0 2\n3 10 22 2\n4 7 0 2\nsettled 1 bytes 46\n");
        assert_eq!(listing(&[1; 16], &[]), "slots 4\nsettled 0 bytes 0\n");
    }

    /// M1 to M12 of document 01.
    #[test]
    fn marked_examples() {
        use Entry::*;
        let add = |s, value| AddTree { s, p: 0, key: z(), value };
        let m2 = || add(1, Value::None);
        let f = Value::Fingerprint([9; 32]);
        let m6 = || vec![m2(), EvictDeferred { s: 1 }, EvictTreeDeferred { s: 1, p: 0 }];
        let defer = |epoch, time| AddDeferred { s: 1, epoch, time, key: z(), value: Value::None };
        let after = |mut first: Vec<Entry>, more: Vec<Entry>| {
            first.extend(more);
            first
        };
        assert_eq!(play(&[Absent { p: 0, key: z() }]).0, [0]);
        let (verdicts, _, cache) = play(&[m2()]);
        assert_eq!(verdicts, [0]);
        let Some(Slot::Full { value: Value::Node { left: Side::Link { key, .. }, right: Side::Empty }, .. }) = slot(&cache, 0) else { panic!() };
        assert_eq!(key, z());
        assert_eq!(play(&[add(1, f.clone())]).0, [15]);
        assert_eq!(play(&[m2(), add(2, Value::None)]).0, [0, 7]);
        let get = |value| Get { s: 1, key: z(), value };
        assert_eq!(play(&[m2(), Put { s: 1, key: z(), value: f.clone() }, get(f.clone()), get(Value::None)]).0, [0, 0, 0, 25]);
        let (verdicts, state, _) = play(&m6());
        assert_eq!((verdicts, state.clock), (vec![0, 16, 0], 1));
        assert_eq!(play(&after(m6(), vec![m2()])).0, [0, 16, 0, 13]);
        assert_eq!(play(&after(m6(), vec![defer(1, 2), defer(1, 0), defer(2, 1), defer(1, 1)])).0, [0, 16, 0, 19, 19, 18, 0]);
        assert_eq!(play(&after(m6(), vec![Advance, Close])).0, [0, 16, 0, 0, 23]);
        let mut bits = [0; 32];
        bits[0] = 0x80;
        let (b, c, one) = (Key::data([0xff; 32]), Key::data(bits), Key { len: 1, bits });
        let under = |s, p, key, value| AddTree { s, p, key, value };
        let (verdicts, _, cache) =
            play(&[under(1, 0, b, Value::None), under(2, 0, c, Value::None), under(2, 0, one, Value::BARE_NODE), under(3, 2, c, Value::None)]);
        assert_eq!(verdicts, [0, 12, 0, 0]);
        let Some(Slot::Full { value: Value::Node { left: Side::Link { key: left, .. }, right: Side::Link { key: right, .. } }, .. }) = slot(&cache, 2) else {
            panic!()
        };
        assert_eq!((left, right), (c, b));
        assert_eq!(play(&[EvictTree { s: 0, p: 0 }, EvictDeferred { s: 0 }, EvictTreeDeferred { s: 0, p: 0 }]).0, [17, 17, 17]);
        assert_eq!(play(&[Advance, Advance]).0, [0, 22]);
    }
}
