//! AES-CMAC after RFC 4493, step by step.
use crate::aes;

/// Section 2.2, const_Rb: what is added where a doubled block loses its highest bit.
const RB: u128 = 0x87;

/// Section 2.3: one subkey from the block before it.
fn doubled(block: u128) -> u128 {
    if block >> 127 == 0 {
        block << 1
    } else {
        block << 1 ^ RB
    }
}

/// Section 2.3: K1 and K2.
fn subkeys(expanded: &[u8; 176]) -> (u128, u128) {
    let l = u128::from_be_bytes(aes::encrypt(expanded, &[0; 16]));
    (doubled(l), doubled(doubled(l)))
}

/// Section 2.4: the block of at most fifteen bytes with a one bit and zero bits after it.
fn padded(rest: &[u8]) -> u128 {
    let mut block = [0; 16];
    block[..rest.len()].copy_from_slice(rest);
    block[rest.len()] = 0x80;
    u128::from_be_bytes(block)
}

fn whole(block: &[u8]) -> u128 {
    u128::from_be_bytes(block.try_into().expect("sixteen bytes"))
}

/// Section 2.4: the tag of a message.
pub fn cmac(key: &[u8; 16], m: &[u8]) -> [u8; 16] {
    let expanded = aes::expand(key);
    let (k1, k2) = subkeys(&expanded);
    let n = m.len().div_ceil(16).max(1);
    let (before, last) = m.split_at(16 * (n - 1));
    let last = if last.len() == 16 {
        whole(last) ^ k1
    } else {
        padded(last) ^ k2
    };
    let x = before.chunks_exact(16).fold(0, |x, block| {
        u128::from_be_bytes(aes::encrypt(&expanded, &(x ^ whole(block)).to_be_bytes()))
    });
    aes::encrypt(&expanded, &(last ^ x).to_be_bytes())
}

/// The longest message of the tag call (document 01).
const LONGEST: usize = 65_536;

/// The public tag call: 0 and the tag, or 30 and zero bytes.
pub fn tag_call(key: &[u8; 16], m: &[u8]) -> (u32, [u8; 16]) {
    if m.len() > LONGEST {
        return (30, [0; 16]);
    }
    (0, cmac(key, m))
}

#[cfg(test)]
mod tests {
    use super::*;

    const KEY: u128 = 0x2b7e151628aed2a6abf7158809cf4f3c;

    fn message() -> Vec<u8> {
        [
            0x6bc1bee22e409f96e93d7e117393172au128,
            0xae2d8a571e03ac9c9eb76fac45af8e51,
            0x30c81c46a35ce411e5fbc1191a0a52ef,
            0xf69f2445df4f9b17ad2b417be66c3710,
        ]
        .iter()
        .flat_map(|block| block.to_be_bytes())
        .collect()
    }

    #[test]
    fn rfc_4493_subkeys() {
        let (k1, k2) = subkeys(&aes::expand(&KEY.to_be_bytes()));
        assert_eq!(k1, 0xfbeed618357133667c85e08f7236a8de);
        assert_eq!(k2, 0xf7ddac306ae266ccf90bc11ee46d513b);
    }

    #[test]
    fn rfc_4493_examples() {
        let tags = [
            (0, 0xbb1d6929e95937287fa37d129b756746u128),
            (16, 0x070a16b46b4d4144f79bdd9dd04a287c),
            (40, 0xdfa66747de9ae63030ca32611497c827),
            (64, 0x51f0bebf7e3b9d92fc49741779363cfe),
        ];
        for (n, tag) in tags {
            assert_eq!(
                cmac(&KEY.to_be_bytes(), &message()[..n]),
                tag.to_be_bytes(),
                "{n} bytes"
            );
        }
    }
}
