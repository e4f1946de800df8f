//! Keys, values, messages and log entries as bytes: read, and written.
//!
//! Written from document 01 alone, so that the verifier's reader and writer can be compared with it.
//! All numbers are high byte first.

pub const MALFORMED: u8 = 2;
pub const SHORT: u8 = 3;
pub const NO_ROOM: u8 = 27;

/// The widest length of a key in bits: that of a data key.
pub const WIDEST: u16 = 256;
pub const KEY_BYTES: usize = 34;
pub const HEAD_BYTES: usize = 3;
pub const MESSAGE_BYTES: usize = 187;

/// A string of 0 to 256 bits, bit 0 the top bit of the first byte.
#[derive(Clone, Copy, Debug, PartialEq, Eq, Hash)]
pub struct Key {
    pub len: u16,
    pub bits: [u8; 32],
}

#[derive(Clone, Copy, Debug, PartialEq, Eq, Hash)]
pub enum Side {
    Empty,
    Link { key: Key, digest: [u8; 32], mark: bool },
}

#[derive(Clone, Copy, Debug, PartialEq, Eq, Hash)]
pub enum Value {
    None,
    Fingerprint([u8; 32]),
    Node { left: Side, right: Side },
}

#[derive(Clone, Copy, Debug, PartialEq, Eq, Hash)]
pub struct Message {
    pub epoch: u64,
    pub time: u64,
    pub key: Key,
    pub value: Value,
}

/// The ten entries. `s` is the record's slot, `p` its ancestor's.
#[derive(Clone, Copy, Debug, PartialEq, Eq, Hash)]
pub enum Entry {
    AddTree { s: u16, p: u16, key: Key, value: Value },
    AddDeferred { s: u16, epoch: u64, time: u64, key: Key, value: Value },
    EvictTree { s: u16, p: u16 },
    EvictDeferred { s: u16 },
    EvictTreeDeferred { s: u16, p: u16 },
    Get { s: u16, key: Key, value: Value },
    Absent { p: u16, key: Key },
    Put { s: u16, key: Key, value: Value },
    Advance,
    Close,
}

impl Key {
    pub const ROOT: Key = Key { len: 0, bits: [0; 32] };

    pub fn data(bits: [u8; 32]) -> Key {
        Key { len: WIDEST, bits }
    }

    pub fn is_data(&self) -> bool {
        self.len == WIDEST
    }

    pub fn bit(&self, i: u16) -> bool {
        let i = usize::from(i);
        self.bits[i / 8] >> (7 - i % 8) & 1 == 1
    }

    /// At most 256 bits long, every bit past the length zero.
    pub fn is_well(&self) -> bool {
        self.len <= WIDEST && (self.len..WIDEST).all(|i| !self.bit(i))
    }

    pub fn encode(&self, out: &mut Vec<u8>) {
        out.extend_from_slice(&self.len.to_be_bytes());
        out.extend_from_slice(&self.bits);
    }

    pub fn decode(input: &mut Input) -> Option<Key> {
        let key = Key { len: input.two()?, bits: input.thirty_two()? };
        key.is_well().then_some(key)
    }

    /// The 32 bytes of a data key, which stand without a length in entries 6, 7 and 8.
    fn decode_data(input: &mut Input) -> Option<Key> {
        input.thirty_two().map(Key::data)
    }
}

impl Side {
    pub fn is_well(&self) -> bool {
        match self {
            Side::Empty => true,
            Side::Link { key, .. } => key.len > 0 && key.is_well(),
        }
    }

    fn encode(&self, out: &mut Vec<u8>) {
        match self {
            Side::Empty => out.push(0),
            Side::Link { key, digest, mark } => {
                out.push(1);
                key.encode(out);
                out.extend_from_slice(digest);
                out.push(u8::from(*mark));
            }
        }
    }

    fn decode(input: &mut Input) -> Option<Side> {
        match input.one()? {
            0 => Some(Side::Empty),
            1 => {
                let key = Key::decode(input)?;
                let digest = input.thirty_two()?;
                let mark = match input.one()? {
                    0 => false,
                    1 => true,
                    _ => return None,
                };
                (key.len > 0).then_some(Side::Link { key, digest, mark })
            }
            _ => None,
        }
    }
}

impl Value {
    pub const BARE_NODE: Value = Value::Node { left: Side::Empty, right: Side::Empty };

    pub fn is_node(&self) -> bool {
        matches!(self, Value::Node { .. })
    }

    /// Every link's key is well formed and not the root.
    pub fn is_well(&self) -> bool {
        match self {
            Value::Node { left, right } => left.is_well() && right.is_well(),
            _ => true,
        }
    }

    pub fn encode(&self, out: &mut Vec<u8>) {
        match self {
            Value::None => out.push(0),
            Value::Fingerprint(print) => encode_fingerprint(print, out),
            Value::Node { left, right } => {
                out.push(2);
                left.encode(out);
                right.encode(out);
            }
        }
    }

    pub fn bytes(&self) -> Vec<u8> {
        let mut out = Vec::new();
        self.encode(&mut out);
        out
    }

    pub fn decode(input: &mut Input) -> Option<Value> {
        match input.one()? {
            0 => Some(Value::None),
            1 => decode_fingerprint(input),
            2 => {
                let left = Side::decode(input)?;
                let right = Side::decode(input)?;
                Some(Value::Node { left, right })
            }
            _ => None,
        }
    }
}

fn encode_fingerprint(print: &[u8; 32], out: &mut Vec<u8>) {
    out.push(1);
    out.extend_from_slice(print);
}

fn decode_fingerprint(input: &mut Input) -> Option<Value> {
    input.thirty_two().map(Value::Fingerprint)
}

impl Message {
    pub fn encode(&self, out: &mut Vec<u8>) {
        out.extend_from_slice(&self.epoch.to_be_bytes());
        out.extend_from_slice(&self.time.to_be_bytes());
        self.key.encode(out);
        self.value.encode(out);
    }

    pub fn bytes(&self) -> Vec<u8> {
        let mut out = Vec::new();
        self.encode(&mut out);
        out
    }

    pub fn decode(input: &mut Input) -> Option<Message> {
        Some(Message { epoch: input.eight()?, time: input.eight()?, key: Key::decode(input)?, value: Value::decode(input)? })
    }
}

impl Entry {
    pub fn tag(&self) -> u8 {
        match self {
            Entry::AddTree { .. } => 1,
            Entry::AddDeferred { .. } => 2,
            Entry::EvictTree { .. } => 3,
            Entry::EvictDeferred { .. } => 4,
            Entry::EvictTreeDeferred { .. } => 5,
            Entry::Get { .. } => 6,
            Entry::Absent { .. } => 7,
            Entry::Put { .. } => 8,
            Entry::Advance => 9,
            Entry::Close => 10,
        }
    }

    /// Whether the entry's bytes are read back as the entry.
    pub fn is_well(&self) -> bool {
        match self {
            Entry::AddTree { key, value, .. } | Entry::AddDeferred { key, value, .. } => key.is_well() && value.is_well(),
            Entry::Get { key, value, .. } | Entry::Put { key, value, .. } => key.is_data() && value.is_well(),
            Entry::Absent { key, .. } => key.is_data(),
            _ => true,
        }
    }

    fn body(&self) -> Vec<u8> {
        let mut out = Vec::new();
        match self {
            Entry::AddTree { s, p, key, value } => {
                put_slot(*s, &mut out);
                put_slot(*p, &mut out);
                key.encode(&mut out);
                value.encode(&mut out);
            }
            Entry::AddDeferred { s, epoch, time, key, value } => {
                put_slot(*s, &mut out);
                Message { epoch: *epoch, time: *time, key: *key, value: *value }.encode(&mut out);
            }
            Entry::EvictTree { s, p } | Entry::EvictTreeDeferred { s, p } => {
                put_slot(*s, &mut out);
                put_slot(*p, &mut out);
            }
            Entry::EvictDeferred { s } => put_slot(*s, &mut out),
            Entry::Get { s, key, value } | Entry::Put { s, key, value } => {
                put_slot(*s, &mut out);
                out.extend_from_slice(&key.bits);
                value.encode(&mut out);
            }
            Entry::Absent { p, key } => {
                put_slot(*p, &mut out);
                out.extend_from_slice(&key.bits);
            }
            Entry::Advance | Entry::Close => {}
        }
        out
    }

    pub fn bytes(&self) -> Vec<u8> {
        let body = self.body();
        let mut out = vec![self.tag()];
        out.extend_from_slice(&(body.len() as u16).to_be_bytes());
        out.extend_from_slice(&body);
        out
    }

    fn decode(tag: u8, body: &[u8]) -> Option<Entry> {
        let mut rest = Input::new(body);
        let input = &mut rest;
        let entry = match tag {
            1 => Entry::AddTree { s: input.two()?, p: input.two()?, key: Key::decode(input)?, value: Value::decode(input)? },
            2 => {
                let s = input.two()?;
                let Message { epoch, time, key, value } = Message::decode(input)?;
                Entry::AddDeferred { s, epoch, time, key, value }
            }
            3 => Entry::EvictTree { s: input.two()?, p: input.two()? },
            4 => Entry::EvictDeferred { s: input.two()? },
            5 => Entry::EvictTreeDeferred { s: input.two()?, p: input.two()? },
            6 => Entry::Get { s: input.two()?, key: Key::decode_data(input)?, value: Value::decode(input)? },
            7 => Entry::Absent { p: input.two()?, key: Key::decode_data(input)? },
            8 => Entry::Put { s: input.two()?, key: Key::decode_data(input)?, value: Value::decode(input)? },
            9 => Entry::Advance,
            10 => Entry::Close,
            _ => return None,
        };
        rest.is_done().then_some(entry)
    }
}

fn put_slot(slot: u16, out: &mut Vec<u8>) {
    out.extend_from_slice(&slot.to_be_bytes());
}

/// The entry at the start of a log and its whole length; else 3 with 0 bytes used, or 2 with the whole length.
pub fn read(log: &[u8]) -> Result<(Entry, usize), (u8, usize)> {
    if log.len() < HEAD_BYTES {
        return Err((SHORT, 0));
    }
    let used = HEAD_BYTES + usize::from(u16::from_be_bytes([log[1], log[2]]));
    let body = log.get(HEAD_BYTES..used).ok_or((SHORT, 0))?;
    match Entry::decode(log[0], body) {
        Some(entry) => Ok((entry, used)),
        None => Err((MALFORMED, used)),
    }
}

/// Writes an entry at the buffer's start and says how many bytes; 2, then 27, and nothing written.
pub fn write(e: &Entry, out: &mut [u8]) -> Result<usize, u8> {
    if !e.is_well() {
        return Err(MALFORMED);
    }
    let bytes = e.bytes();
    let room = out.get_mut(..bytes.len()).ok_or(NO_ROOM)?;
    room.copy_from_slice(&bytes);
    Ok(bytes.len())
}

/// Bytes still to be read.
pub struct Input<'a> {
    rest: &'a [u8],
}

impl<'a> Input<'a> {
    pub fn new(bytes: &'a [u8]) -> Input<'a> {
        Input { rest: bytes }
    }

    pub fn is_done(&self) -> bool {
        self.rest.is_empty()
    }

    pub fn rest(&self) -> &'a [u8] {
        self.rest
    }

    fn take<const N: usize>(&mut self) -> Option<[u8; N]> {
        let (front, rest) = self.rest.split_first_chunk::<N>()?;
        self.rest = rest;
        Some(*front)
    }

    fn one(&mut self) -> Option<u8> {
        self.take::<1>().map(|b| b[0])
    }

    fn two(&mut self) -> Option<u16> {
        self.take().map(u16::from_be_bytes)
    }

    fn eight(&mut self) -> Option<u64> {
        self.take().map(u64::from_be_bytes)
    }

    fn thirty_two(&mut self) -> Option<[u8; 32]> {
        self.take()
    }
}

#[cfg(test)]
mod tests {
    use super::*;

    fn node_key(len: u16, first: u8) -> Key {
        let mut bits = [0; 32];
        bits[0] = first;
        Key { len, bits }
    }

    fn link(key: Key, mark: bool) -> Side {
        Side::Link { key, digest: [0xD5; 32], mark }
    }

    fn values() -> Vec<Value> {
        let ones = Key::data([0xFF; 32]);
        vec![
            Value::None,
            Value::Fingerprint([7; 32]),
            Value::BARE_NODE,
            Value::Node { left: link(node_key(1, 0), true), right: Side::Empty },
            Value::Node { left: Side::Empty, right: link(ones, false) },
            Value::Node { left: link(node_key(3, 0x60), false), right: link(ones, true) },
        ]
    }

    fn entries() -> Vec<Entry> {
        let mut all = vec![
            Entry::EvictTree { s: 0x0102, p: 0xFFFF },
            Entry::EvictDeferred { s: 63 },
            Entry::EvictTreeDeferred { s: 1, p: 0 },
            Entry::Absent { p: 0, key: Key::data([0; 32]) },
            Entry::Advance,
            Entry::Close,
        ];
        for value in values() {
            let data = Key::data([0xA5; 32]);
            for key in [data, Key::ROOT, node_key(9, 0x80)] {
                all.push(Entry::AddTree { s: 1, p: 2, key, value });
                all.push(Entry::AddDeferred { s: 1, epoch: 3, time: u64::MAX, key, value });
            }
            all.push(Entry::Get { s: 5, key: data, value });
            all.push(Entry::Put { s: 6, key: data, value });
        }
        all
    }

    fn read_whole(bytes: &[u8]) -> Option<Entry> {
        match read(bytes) {
            Ok((e, n)) if n == bytes.len() => Some(e),
            Err((MALFORMED, n)) if n == bytes.len() => None,
            other => panic!("{other:?}"),
        }
    }

    fn entry(tag: u8, body: &[u8]) -> Vec<u8> {
        let mut out = vec![tag];
        out.extend_from_slice(&(body.len() as u16).to_be_bytes());
        out.extend_from_slice(body);
        out
    }

    fn joined(parts: &[&[u8]]) -> Vec<u8> {
        parts.concat()
    }

    #[test]
    fn values_take_1_33_3_70_or_137_bytes() {
        let lengths: Vec<usize> = values().iter().map(|v| v.bytes().len()).collect();
        assert_eq!(lengths, [1, 33, 3, 70, 70, 137]);
    }

    #[test]
    fn a_message_takes_at_most_187_bytes() {
        for value in values() {
            let m = Message { epoch: 1, time: 2, key: Key::ROOT, value };
            assert_eq!(m.bytes().len(), 50 + value.bytes().len());
            assert!(m.bytes().len() <= MESSAGE_BYTES);
            let bytes = m.bytes();
            let mut input = Input::new(&bytes);
            assert_eq!(Message::decode(&mut input), Some(m));
            assert!(input.is_done());
        }
    }

    #[test]
    fn the_listing_of_document_01() {
        let mut log = vec![9, 0, 0, 10, 0, 0, 10, 0, 0, 7, 0, 0x22];
        log.extend_from_slice(&[0; 34]);
        assert_eq!(log.len(), 46);
        assert_eq!(read(&log), Ok((Entry::Advance, 3)));
        assert_eq!(read(&log[3..]), Ok((Entry::Close, 3)));
        assert_eq!(read(&log[9..]), Ok((Entry::Absent { p: 0, key: Key::data([0; 32]) }, 37)));
        assert_eq!(read(&log[46..]), Err((SHORT, 0)));
    }

    #[test]
    fn bytes_by_hand() {
        let put = joined(&[&[8, 0, 35], &[0, 5], &[0xAA; 32], &[0]]);
        assert_eq!(read(&put), Ok((Entry::Put { s: 5, key: Key::data([0xAA; 32]), value: Value::None }, 38)));
        let node = joined(&[&[1, 0, 41], &[0, 2], &[1, 0], &[0, 1, 0x80], &[0; 31], &[2, 0, 0]]);
        let wanted = Entry::AddTree { s: 2, p: 256, key: node_key(1, 0x80), value: Value::BARE_NODE };
        assert_eq!(read(&node), Ok((wanted, 44)));
        let right = joined(&[&[0, 1], &[2, 0, 1], &[1, 0], &[0xFF; 32], &[9; 32], &[1]]);
        let body = joined(&[&[0, 7], &[0, 0, 0, 0, 0, 0, 0, 1], &[0, 0, 0, 0, 0, 0, 2, 0], &[0; 34], &right[2..]]);
        let link = Side::Link { key: Key::data([0xFF; 32]), digest: [9; 32], mark: true };
        let value = Value::Node { left: Side::Empty, right: link };
        let wanted = Entry::AddDeferred { s: 7, epoch: 1, time: 512, key: Key::ROOT, value };
        assert_eq!(read_whole(&entry(2, &body)), Some(wanted));
    }

    #[test]
    fn written_and_read_back_whatever_follows() {
        for e in entries() {
            let mut out = [0xEE; 256];
            let n = write(&e, &mut out).unwrap();
            assert_eq!(&out[..n], &e.bytes()[..]);
            assert!(out[n..].iter().all(|b| *b == 0xEE));
            assert_eq!(read(&out), Ok((e, n)));
            assert_eq!(read(&out[..n]), Ok((e, n)));
            for cut in 0..n {
                assert_eq!(read(&out[..cut]), Err((SHORT, 0)));
            }
        }
    }

    #[test]
    fn what_is_read_is_written_as_the_same_bytes() {
        for e in entries() {
            let bytes = e.bytes();
            for at in 0..bytes.len() {
                for change in [1u8, 2, 3, 0x80, 0xFF] {
                    let mut hurt = bytes.clone();
                    hurt[at] ^= change;
                    match read(&hurt) {
                        Ok((other, n)) => assert_eq!(other.bytes(), &hurt[..n]),
                        Err((MALFORMED, n)) => assert_eq!(n, HEAD_BYTES + usize::from(hurt[1]) * 256 + usize::from(hurt[2])),
                        Err(refusal) => assert_eq!(refusal, (SHORT, 0)),
                    }
                }
            }
        }
    }

    #[test]
    fn a_body_of_another_length_is_malformed() {
        for e in entries() {
            let body = e.body();
            assert_eq!(read_whole(&entry(e.tag(), &joined(&[&body, &[0]]))), None, "{e:?}");
            if !body.is_empty() {
                assert_eq!(read_whole(&entry(e.tag(), &body[..body.len() - 1])), None, "{e:?}");
            }
        }
    }

    #[test]
    fn content_that_is_malformed() {
        let get = |value: &[u8]| read_whole(&entry(6, &joined(&[&[0; 34], value])));
        assert!(get(&[0]).is_some());
        assert!(get(&[2, 0, 0]).is_some(), "a node's value is for the step to refuse");
        assert_eq!(get(&[3]), None);
        let side = |len: [u8; 2], first: u8, last: u8, mark: u8| joined(&[&[1], &len, &[first], &[0; 30], &[last], &[4; 32], &[mark]]);
        let left = |side: &[u8]| get(&joined(&[&[2], side, &[0]]));
        assert!(left(&side([0, 1], 0x80, 0, 0)).is_some());
        assert!(left(&side([1, 0], 0xFF, 0xFF, 1)).is_some());
        assert_eq!(left(&side([0, 1], 0x80, 0, 2)), None, "mark 2");
        assert_eq!(left(&side([0, 0], 0, 0, 0)), None, "a link to the root");
        assert_eq!(left(&side([0, 1], 0xC0, 0, 0)), None, "a bit past the length");
        assert_eq!(left(&side([0, 255], 0, 1, 0)), None, "the last bit past the length");
        assert_eq!(left(&side([1, 1], 0, 0, 0)), None, "length 257");
        assert_eq!(left(&[2]), None, "a side that begins with 2");
    }

    #[test]
    fn unknown_tags_and_absurd_lengths() {
        assert_eq!(read(&[0, 0, 0]), Err((MALFORMED, 3)));
        assert_eq!(read(&[11, 0, 1, 5, 9]), Err((MALFORMED, 4)));
        assert_eq!(read(&[255, 0, 1]), Err((SHORT, 0)));
        assert_eq!(read(&[9, 0xFF, 0xFF, 1]), Err((SHORT, 0)));
        let mut long = vec![9, 0xFF, 0xFF];
        long.resize(3 + 65535, 0);
        assert_eq!(read(&long), Err((MALFORMED, 65538)));
        for log in [&[][..], &[9], &[9, 0]] {
            assert_eq!(read(log), Err((SHORT, 0)));
        }
    }

    #[test]
    fn the_writer_refuses_2_then_27_and_writes_nothing() {
        let root_link = Value::Node { left: Side::Empty, right: link(Key::ROOT, false) };
        let unclean = node_key(1, 0xC0);
        let bad = [
            Entry::AddTree { s: 0, p: 0, key: unclean, value: Value::None },
            Entry::AddTree { s: 0, p: 0, key: Key { len: 257, bits: [0; 32] }, value: Value::None },
            Entry::AddDeferred { s: 0, epoch: 1, time: 1, key: Key::ROOT, value: root_link },
            Entry::Get { s: 0, key: node_key(8, 1), value: Value::None },
            Entry::Put { s: 0, key: Key::data([0; 32]), value: root_link },
            Entry::Absent { p: 0, key: Key::ROOT },
        ];
        for e in bad {
            let mut out = [0xEE; 300];
            assert_eq!(write(&e, &mut out), Err(MALFORMED));
            assert_eq!(write(&e, &mut []), Err(MALFORMED));
            assert_eq!(out, [0xEE; 300]);
        }
        for e in entries() {
            let n = e.bytes().len();
            let mut out = vec![0xEE; n - 1];
            assert_eq!(write(&e, &mut out), Err(NO_ROOM));
            assert!(out.iter().all(|b| *b == 0xEE));
            assert_eq!(write(&e, &mut vec![0; n]), Ok(n));
        }
    }
}
