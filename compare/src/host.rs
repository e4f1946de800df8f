//! A host that proposes entries: mostly what an honest one would write, often a little wrong, now and then hostile.

use crate::Inputs;
use second::codec::{Entry, Key, Message, Side, Value};
use second::verifier::{held, State, SLOT};

/// What a host remembers: the values that it saw leave to the tree, and the messages that it saw leave deferred.
#[derive(Default)]
pub struct Host {
    values: Vec<(Key, Value)>,
    messages: Vec<Message>,
}

/// A few data keys, close together and far apart, so that they meet often.
fn data(inputs: &mut Inputs) -> Key {
    let mut bits = [0; 32];
    bits[0] = [0x00, 0x80, 0xff, 0xc0, 0x40][inputs.below(5)];
    bits[31] = inputs.below(2) as u8;
    Key::data(bits)
}

/// A prefix of a data key: a node key, or the data key itself.
fn any_key(inputs: &mut Inputs) -> Key {
    let whole = data(inputs);
    let len = [0, 1, 1, 2, 2, 3, 7, 255, 256, 256, 256][inputs.below(11)];
    let mut bits = whole.bits;
    for i in len..256 {
        bits[i / 8] &= !(0x80 >> (i % 8));
    }
    Key { len: len as u16, bits }
}

fn fingerprint(inputs: &mut Inputs) -> Value {
    match inputs.below(3) {
        0 => Value::None,
        n => Value::Fingerprint([n as u8; 32]),
    }
}

fn above(a: &Key, b: &Key) -> bool {
    a.len < b.len && (0..a.len).all(|i| a.bit(i) == b.bit(i))
}

impl Host {
    /// The deepest held node above a key, which is where an honest host would hang it.
    fn parent(cache: &[u8], key: &Key) -> u16 {
        (0..cache.len() / SLOT)
            .filter_map(|i| held(cache, i).map(|(_, k, _)| (i, k)))
            .filter(|(_, k)| above(k, key))
            .max_by_key(|(_, k)| k.len)
            .map_or(0, |(i, _)| i as u16)
    }

    fn slot(inputs: &mut Inputs, cache: &[u8], full: bool) -> u16 {
        let count = cache.len() / SLOT;
        let fitting: Vec<usize> = (0..count).filter(|&i| held(cache, i).is_some() == full).collect();
        if fitting.is_empty() || inputs.below(12) == 0 {
            return inputs.below(count + 2) as u16;
        }
        fitting[inputs.below(fitting.len())] as u16
    }

    /// The value that p's link wants of a key: a first one, or the one that was seen to leave.
    fn value(&self, inputs: &mut Inputs, key: &Key) -> Value {
        let seen = self.values.iter().rev().find(|(k, _)| k == key);
        match (seen, inputs.below(10)) {
            (Some((_, value)), 0..=7) => *value,
            (_, 8) => fingerprint(inputs),
            _ if key.is_data() => Value::None,
            _ => Value::BARE_NODE,
        }
    }

    /// The next entry to propose on a cache and a state.
    pub fn entry(&mut self, inputs: &mut Inputs, state: &State, cache: &[u8]) -> Entry {
        match inputs.below(100) {
            0..=27 => {
                let key = any_key(inputs);
                let p = if inputs.below(8) == 0 { Self::slot(inputs, cache, true) } else { Self::parent(cache, &key) };
                Entry::AddTree { s: Self::slot(inputs, cache, false), p, key, value: self.value(inputs, &key) }
            }
            28..=43 => {
                let s = Self::slot(inputs, cache, false);
                let Some(message) = (!self.messages.is_empty()).then(|| self.messages[inputs.below(self.messages.len())]) else {
                    return Entry::AddDeferred { s, epoch: state.epoch, time: state.clock, key: any_key(inputs), value: Value::None };
                };
                let epoch = message.epoch + inputs.below(20) as u64 / 19;
                let time = message.time + inputs.below(20) as u64 / 19;
                if inputs.below(8) != 0 {
                    self.messages.retain(|m| *m != message);
                }
                Entry::AddDeferred { s, epoch, time, key: message.key, value: message.value }
            }
            44..=65 => {
                let s = Self::slot(inputs, cache, true);
                let Some((origin, key, value)) = (usize::from(s) < cache.len() / SLOT).then(|| held(cache, s.into())).flatten() else {
                    return Entry::EvictDeferred { s };
                };
                let p = if inputs.below(10) == 0 { Self::slot(inputs, cache, true) } else { Self::parent(cache, &key) };
                let deferring = inputs.below(2) == 0;
                if deferring {
                    self.messages.push(Message { epoch: state.epoch, time: state.clock + 1, key, value });
                } else {
                    self.values.push((key, value));
                }
                match (deferring, if inputs.below(12) == 0 { 3 - origin } else { origin }) {
                    (false, _) => Entry::EvictTree { s, p },
                    (true, 2) => Entry::EvictDeferred { s },
                    (true, _) => Entry::EvictTreeDeferred { s, p },
                }
            }
            66..=85 => {
                let s = Self::slot(inputs, cache, true);
                let record = (usize::from(s) < cache.len() / SLOT).then(|| held(cache, s.into())).flatten();
                let (key, value) = match record {
                    Some((_, key, value)) if inputs.below(6) != 0 => (Key::data(key.bits), value),
                    _ => (data(inputs), fingerprint(inputs)),
                };
                match inputs.below(3) {
                    0 => Entry::Put { s, key, value: if inputs.below(9) == 0 { value } else { fingerprint(inputs) } },
                    1 => Entry::Get { s, key, value: if inputs.below(4) == 0 { fingerprint(inputs) } else { value } },
                    _ => {
                        let key = data(inputs);
                        Entry::Absent { p: Self::parent(cache, &key), key }
                    }
                }
            }
            86..=91 => Entry::Advance,
            92..=97 => Entry::Close,
            _ => Entry::Put {
                s: Self::slot(inputs, cache, true),
                key: data(inputs),
                value: Value::Node { left: Side::Empty, right: Side::Link { key: data(inputs), digest: [1; 32], mark: true } },
            },
        }
    }
}
