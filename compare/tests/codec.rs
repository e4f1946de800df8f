//! The reader and the writer of entries against the second program's: random entries, whole, damaged and cut, and random bytes.

use compare::{key_field, seed, value_field, Inputs, UNREAD};
use second::codec::{self, Entry, Input, Key, Side, Value};
use thiraduan::call::Fields;

fn key(inputs: &mut Inputs) -> Key {
    let len = [0, 1, 7, 8, 63, 64, 65, 128, 200, 255, 256][inputs.below(11)];
    let mut bits: [u8; 32] = inputs.bytes(32).try_into().unwrap();
    for i in len..256 {
        bits[i / 8] &= !(0x80 >> (i % 8));
    }
    Key { len: len as u16, bits }
}

fn side(inputs: &mut Inputs) -> Side {
    if inputs.below(2) == 0 {
        return Side::Empty;
    }
    let mut key = key(inputs);
    if key.len == 0 {
        key.len = 1;
    }
    Side::Link { key, digest: inputs.bytes(32).try_into().unwrap(), mark: inputs.below(2) == 0 }
}

fn value(inputs: &mut Inputs) -> Value {
    match inputs.below(3) {
        0 => Value::None,
        1 => Value::Fingerprint(inputs.bytes(32).try_into().unwrap()),
        _ => Value::Node { left: side(inputs), right: side(inputs) },
    }
}

fn entry(inputs: &mut Inputs) -> Entry {
    let (s, p) = (inputs.next() as u16, inputs.next() as u16);
    let data = Key::data(inputs.bytes(32).try_into().unwrap());
    match inputs.below(10) {
        0 => Entry::AddTree { s, p, key: key(inputs), value: value(inputs) },
        1 => Entry::AddDeferred { s, epoch: inputs.next(), time: inputs.next(), key: key(inputs), value: value(inputs) },
        2 => Entry::EvictTree { s, p },
        3 => Entry::EvictDeferred { s },
        4 => Entry::EvictTreeDeferred { s, p },
        5 => Entry::Get { s, key: data, value: value(inputs) },
        6 => Entry::Absent { p, key: data },
        7 => Entry::Put { s, key: data, value: value(inputs) },
        8 => Entry::Advance,
        _ => Entry::Close,
    }
}

/// Bytes that are an entry, or nearly one, or nothing like one.
fn input(inputs: &mut Inputs) -> Vec<u8> {
    let mut bytes = entry(inputs).bytes();
    match inputs.below(6) {
        0 => {}
        1 => {
            let more = inputs.below(5);
            bytes.extend(inputs.bytes(more));
        }
        2 => bytes.truncate(inputs.below(bytes.len() + 1)),
        3 => {
            let place = inputs.below(bytes.len());
            bytes[place] ^= 1 << inputs.below(8);
        }
        4 => {
            // the body one byte longer or shorter, and its length told so
            let body = bytes.len() - 3;
            let told = if inputs.below(2) == 0 { body + 1 } else { body.saturating_sub(1) };
            bytes.resize(3 + told, 0);
            bytes[1..3].copy_from_slice(&(told as u16).to_be_bytes());
        }
        _ => {
            let length = inputs.below(60);
            bytes = inputs.bytes(length);
            if length > 2 {
                bytes[0] %= 12;
                bytes[1] = 0;
                bytes[2] %= 64;
            }
        }
    }
    bytes
}

/// The fields of an entry; what it does not have is zero.
fn fields(entry: &Entry) -> Fields {
    let (s, p, epoch, time, key, value) = match *entry {
        Entry::AddTree { s, p, key, value } => (s, p, 0, 0, key, value),
        Entry::AddDeferred { s, epoch, time, key, value } => (s, 0, epoch, time, key, value),
        Entry::EvictTree { s, p } | Entry::EvictTreeDeferred { s, p } => (s, p, 0, 0, Key::ROOT, Value::None),
        Entry::EvictDeferred { s } => (s, 0, 0, 0, Key::ROOT, Value::None),
        Entry::Get { s, key, value } | Entry::Put { s, key, value } => (s, 0, 0, 0, key, value),
        Entry::Absent { p, key } => (0, p, 0, 0, key, Value::None),
        Entry::Advance | Entry::Close => (0, 0, 0, 0, Key::ROOT, Value::None),
    };
    Fields { numbers: [entry.tag().into(), s.into(), p.into(), epoch, time], key: key_field(&key), value: value_field(&value) }
}

/// The entry of fields, if they are one: what an entry of its tag does not have is not looked at beyond its form.
fn entry_of(fields: &Fields) -> Option<Entry> {
    let [tag, s, p, epoch, time] = fields.numbers;
    let (s, p) = (u16::try_from(s).ok()?, u16::try_from(p).ok()?);
    let key = Key::decode(&mut Input::new(&fields.key))?;
    let mut input = Input::new(&fields.value);
    let value = Value::decode(&mut input)?;
    if input.rest().iter().any(|&b| b != 0) {
        return None;
    }
    Some(match tag {
        1 => Entry::AddTree { s, p, key, value },
        2 => Entry::AddDeferred { s, epoch, time, key, value },
        3 => Entry::EvictTree { s, p },
        4 => Entry::EvictDeferred { s },
        5 => Entry::EvictTreeDeferred { s, p },
        6 => Entry::Get { s, key, value },
        7 => Entry::Absent { p, key },
        8 => Entry::Put { s, key, value },
        9 => Entry::Advance,
        10 => Entry::Close,
        _ => return None,
    })
}

#[test]
fn a_hundred_thousand_byte_strings() {
    let mut inputs = Inputs(seed(7));
    let mut met = [0u32; 4];
    for _ in 0..100_000 {
        let bytes = input(&mut inputs);
        let (verdict, used, read) = compare::read(&bytes);
        match codec::read(&bytes) {
            Err((number, length)) => {
                assert_eq!((verdict, used, read), (number.into(), length, UNREAD), "{bytes:02x?}");
                met[number as usize] += 1;
            }
            Ok((entry, length)) => {
                assert_eq!((verdict, used, read), (0, length, fields(&entry)), "{bytes:02x?}");
                let mut out = vec![0xaa; inputs.below(220)];
                let mut expected = out.clone();
                let written = compare::write(&read, &mut out);
                match codec::write(&entry, &mut expected) {
                    Ok(n) => {
                        assert_eq!((written, n), ((0, n), length));
                        assert_eq!(out[..n], bytes[..n], "the bytes come back");
                        met[0] += 1;
                    }
                    Err(number) => {
                        assert_eq!((written, number), ((27, 0), 27));
                        met[1] += 1;
                    }
                }
                assert_eq!(out, expected);
            }
        }
    }
    println!("written {}, no room {}, malformed {}, short {}", met[0], met[1], met[2], met[3]);
    assert!(met.iter().all(|&n| n > 2_000), "{met:?}");
}

/// Fields that no reader gave: damaged, out of range, of other tags.
#[test]
fn fifty_thousand_fields() {
    let mut inputs = Inputs(seed(13));
    let mut met = [0u32; 3];
    for _ in 0..50_000 {
        let mut fields = fields(&entry(&mut inputs));
        match inputs.below(8) {
            0 => fields.numbers[0] = inputs.below(13) as u64,
            1 => fields.numbers[inputs.below(3)] = [255, 256, 257, 65_535, 65_536, u64::MAX][inputs.below(6)],
            2 => fields.key[inputs.below(34)] ^= 1 << inputs.below(8),
            3 => fields.value[inputs.below(137)] ^= 1 << inputs.below(8),
            4 => fields.key = key_field(&key(&mut inputs)),
            _ => {}
        }
        let mut out = vec![0xaa; 150 + inputs.below(60)];
        let mut expected = out.clone();
        let wanted = match entry_of(&fields).map_or(Err(2), |entry| codec::write(&entry, &mut expected)) {
            Ok(n) => (0, n),
            Err(number) => (number.into(), 0),
        };
        assert_eq!(compare::write(&fields, &mut out), wanted, "{fields:02x?}");
        assert_eq!(out, expected);
        met[[0, 2, 27].iter().position(|&v| v == wanted.0).unwrap()] += 1;
    }
    println!("written {}, no entry {}, no room {}", met[0], met[1], met[2]);
    assert!(met.iter().all(|&n| n > 500), "{met:?}");
}
