//! An honest host with four slots: it brings in what a get or put needs, asks, and evicts nodes to the tree and the data record deferred.
//! Before a close it carries the old epoch's records over. The verifier accepts its every entry.

use crate::Inputs;
use second::codec::{Entry, Key, Message, Side, Value};
use second::verifier::{held, open, step, State, SLOT};
use std::collections::HashMap;

pub struct Honest {
    state: State,
    cache: Vec<u8>,
    /// What left to the tree, and what left deferred and was not added again.
    values: HashMap<Key, Value>,
    messages: HashMap<Key, Message>,
    pub log: Vec<u8>,
}

/// Keys whose tree is at most three records deep below the root.
fn data(inputs: &mut Inputs) -> Key {
    let mut bits = [7; 32];
    bits[0] = [0x00, 0x40, 0x80, 0xc0, 0xe0][inputs.below(5)];
    Key::data(bits)
}

fn above(a: &Key, b: &Key) -> bool {
    a.len < b.len && (0..a.len).all(|i| a.bit(i) == b.bit(i))
}

/// The node key of the bits that two keys share.
fn shared(a: &Key, b: &Key) -> Key {
    let len = (0..a.len.min(b.len)).find(|&i| a.bit(i) != b.bit(i)).unwrap_or(a.len.min(b.len));
    let mut bits = [0; 32];
    for i in (0..len).filter(|&i| a.bit(i)) {
        bits[usize::from(i / 8)] |= 0x80 >> (i % 8);
    }
    Key { len, bits }
}

impl Honest {
    pub fn new(set: &[u8; 16]) -> Honest {
        let mut cache = vec![0; 4 * SLOT];
        let (_, state) = open(set, &mut cache);
        Honest { state, cache, values: HashMap::new(), messages: HashMap::new(), log: Vec::new() }
    }

    fn tell(&mut self, entry: Entry) {
        let bytes = entry.bytes();
        let (verdict, state, _) = step(&bytes, &self.state, &mut self.cache);
        assert_eq!(verdict, 0, "{entry:?}");
        self.state = state;
        self.log.extend(bytes);
    }

    fn side(&self, p: u16, key: &Key) -> Side {
        let Some((_, k, Value::Node { left, right })) = held(&self.cache, p.into()) else { panic!("p holds a node") };
        if key.bit(k.len) {
            right
        } else {
            left
        }
    }

    /// The record of a linked key, into slot s.
    fn bring(&mut self, s: u16, p: u16, key: Key) {
        if let Some(m) = self.messages.remove(&key) {
            self.tell(Entry::AddDeferred { s, epoch: m.epoch, time: m.time, key, value: m.value });
        } else {
            let value = self.values[&key];
            self.tell(Entry::AddTree { s, p, key, value });
        }
    }

    /// A get of a key, or a put of a value to it.
    pub fn ask(&mut self, key: Key, put: Option<Value>) {
        let mut path = vec![0u16];
        let last = loop {
            let (p, s) = (*path.last().unwrap(), path.len() as u16);
            match self.side(p, &key) {
                Side::Link { key: linked, .. } if linked == key => {
                    self.bring(s, p, key);
                    break Some(s);
                }
                Side::Link { key: linked, .. } if above(&linked, &key) => {
                    self.bring(s, p, linked);
                    path.push(s);
                }
                side => {
                    if put.is_none() {
                        self.tell(Entry::Absent { p, key });
                        break None;
                    }
                    if let Side::Link { key: linked, .. } = side {
                        self.tell(Entry::AddTree { s, p, key: shared(&key, &linked), value: Value::BARE_NODE });
                        path.push(s);
                        continue;
                    }
                    self.tell(Entry::AddTree { s, p, key, value: Value::None });
                    break Some(s);
                }
            }
        };
        if let Some(s) = last {
            if let Some(value) = put {
                self.tell(Entry::Put { s, key, value });
            }
            let (origin, _, value) = held(&self.cache, s.into()).unwrap();
            self.tell(Entry::Get { s, key, value });
            self.messages.insert(key, Message { epoch: self.state.epoch, time: self.state.clock + 1, key, value });
            self.tell(if origin == 2 { Entry::EvictDeferred { s } } else { Entry::EvictTreeDeferred { s, p: *path.last().unwrap() } });
        }
        while path.len() > 1 {
            let s = path.pop().unwrap();
            let (_, key, value) = held(&self.cache, s.into()).unwrap();
            self.values.insert(key, value);
            self.tell(Entry::EvictTree { s, p: *path.last().unwrap() });
        }
    }

    /// The current epoch ends, its records are carried over, and it is closed.
    pub fn settle(&mut self) {
        self.tell(Entry::Advance);
        let mut old: Vec<Message> = self.messages.values().copied().filter(|m| m.epoch < self.state.epoch).collect();
        old.sort_by_key(|m| m.time);
        for m in old {
            self.tell(Entry::AddDeferred { s: 1, epoch: m.epoch, time: m.time, key: m.key, value: m.value });
            self.messages.insert(m.key, Message { epoch: self.state.epoch, time: self.state.clock + 1, ..m });
            self.tell(Entry::EvictDeferred { s: 1 });
        }
        self.tell(Entry::Close);
    }

    /// A log of some gets and puts in each of some epochs.
    pub fn day(inputs: &mut Inputs, set: &[u8; 16]) -> Vec<u8> {
        let mut host = Honest::new(set);
        for _ in 0..inputs.below(4) {
            host.day_more(inputs);
        }
        host.log
    }

    /// One epoch more, closed.
    pub fn day_more(&mut self, inputs: &mut Inputs) {
        for _ in 0..inputs.below(25) {
            let put = (inputs.below(2) == 0).then(|| match inputs.below(4) {
                0 => Value::None,
                n => Value::Fingerprint([n as u8; 32]),
            });
            self.ask(data(inputs), put);
        }
        self.settle();
    }
}
