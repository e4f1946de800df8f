//! SHA-256, from FIPS 180-4. The constants are computed from the primes that the standard names.

use std::sync::OnceLock;

/// The longest message that the public calls take.
pub const LONGEST: usize = 65_536;

fn primes(count: usize) -> Vec<u64> {
    let mut found: Vec<u64> = Vec::new();
    let mut n = 2;
    while found.len() < count {
        if found.iter().all(|p| n % p != 0) {
            found.push(n);
        }
        n += 1;
    }
    found
}

/// The first 32 bits of the fractional part of the root of n: the largest x with x^power <= n * 2^(32 * power), without its
/// whole part.
fn root_bits(n: u64, power: u32) -> u32 {
    let mut low: u128 = 0;
    let mut high: u128 = 1 << 37;
    let fits = |x: u128| -> bool {
        // x < 2^37 and power <= 3, so neither side passes 128 bits
        let mut value = x;
        for _ in 1..power {
            value *= x;
        }
        value <= (n as u128) << (32 * power)
    };
    while high - low > 1 {
        let middle = (low + high) / 2;
        if fits(middle) {
            low = middle;
        } else {
            high = middle;
        }
    }
    (low & 0xffff_ffff) as u32
}

fn round_constants() -> Vec<u32> {
    primes(64).into_iter().map(|p| root_bits(p, 3)).collect()
}

fn initial() -> Vec<u32> {
    primes(8).into_iter().map(|p| root_bits(p, 2)).collect()
}

pub struct Sha256 {
    constants: Vec<u32>,
    initial: Vec<u32>,
}

impl Default for Sha256 {
    fn default() -> Self {
        Self::new()
    }
}

impl Sha256 {
    pub fn new() -> Self {
        Sha256 { constants: round_constants(), initial: initial() }
    }

    pub fn digest(&self, message: &[u8]) -> [u8; 32] {
        let mut padded = message.to_vec();
        padded.push(0x80);
        while padded.len() % 64 != 56 {
            padded.push(0);
        }
        padded.extend_from_slice(&(message.len() as u64 * 8).to_be_bytes());
        let mut hash = self.initial.clone();
        for block in padded.chunks(64) {
            self.work(&mut hash, block);
        }
        let mut out = [0; 32];
        for (place, word) in out.chunks_mut(4).zip(&hash) {
            place.copy_from_slice(&word.to_be_bytes());
        }
        out
    }

    fn work(&self, hash: &mut [u32], block: &[u8]) {
        let mut w: Vec<u32> = block.chunks(4).map(|b| u32::from_be_bytes(b.try_into().unwrap())).collect();
        for t in 16..64 {
            let small0 = w[t - 15].rotate_right(7) ^ w[t - 15].rotate_right(18) ^ (w[t - 15] >> 3);
            let small1 = w[t - 2].rotate_right(17) ^ w[t - 2].rotate_right(19) ^ (w[t - 2] >> 10);
            w.push(small1.wrapping_add(w[t - 7]).wrapping_add(small0).wrapping_add(w[t - 16]));
        }
        let mut v: Vec<u32> = hash.to_vec();
        for t in 0..64 {
            let (a, b, c, e, f, g) = (v[0], v[1], v[2], v[4], v[5], v[6]);
            let big1 = e.rotate_right(6) ^ e.rotate_right(11) ^ e.rotate_right(25);
            let t1 = v[7].wrapping_add(big1).wrapping_add((e & f) ^ (!e & g)).wrapping_add(self.constants[t]).wrapping_add(w[t]);
            let big0 = a.rotate_right(2) ^ a.rotate_right(13) ^ a.rotate_right(22);
            let t2 = big0.wrapping_add((a & b) ^ (a & c) ^ (b & c));
            v.rotate_right(1);
            v[4] = v[4].wrapping_add(t1);
            v[0] = t1.wrapping_add(t2);
        }
        for (old, new) in hash.iter_mut().zip(v) {
            *old = old.wrapping_add(new);
        }
    }
}

/// The digest of a message of any length.
pub fn digest(message: &[u8]) -> [u8; 32] {
    static SHA: OnceLock<Sha256> = OnceLock::new();
    SHA.get_or_init(Sha256::new).digest(message)
}

/// The public digest call: 0 and the digest, or 30 and zero bytes.
pub fn digest_call(message: &[u8]) -> (u32, [u8; 32]) {
    if message.len() > LONGEST {
        return (30, [0; 32]);
    }
    (0, digest(message))
}

#[cfg(test)]
mod tests {
    use super::*;

    fn hex(bytes: &[u8]) -> String {
        bytes.iter().map(|b| format!("{b:02x}")).collect()
    }

    /// FIPS 180-4's published examples, the empty message, and its constants' ends.
    #[test]
    fn published() {
        let sha = Sha256::new();
        assert_eq!((sha.constants[0], sha.constants[63]), (0x428a2f98, 0xc67178f2));
        assert_eq!((sha.initial[0], sha.initial[7]), (0x6a09e667, 0x5be0cd19));
        for (message, digest) in [
            ("", "e3b0c44298fc1c149afbf4c8996fb92427ae41e4649b934ca495991b7852b855"),
            ("abc", "ba7816bf8f01cfea414140de5dae2223b00361a396177a9cb410ff61f20015ad"),
            (
                "abcdbcdecdefdefgefghfghighijhijkijkljklmklmnlmnomnopnopq",
                "248d6a61d20638b8e5c026930c3e6039a33ce45964ff2167f6ecedd419db06c1",
            ),
            (
                "abcdefghbcdefghicdefghijdefghijkefghijklfghijklmghijklmnhijklmnoijklmnopjklmnopqklmnopqrlmnopqrsmnopqrstnopqrstu",
                "cf5b16a778af8380036ce59e7b0492370b249b11e8f07a51afac45037afee9d1",
            ),
        ] {
            assert_eq!(hex(&sha.digest(message.as_bytes())), digest);
        }
        let million = vec![b'a'; 1_000_000];
        assert_eq!(hex(&sha.digest(&million)), "cdc76e5c9914fb9281a1c7e284d73e67f1809a48a497200e046d39ccc7112cd0");
    }
}
