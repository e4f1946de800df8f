//! AES-128 after FIPS 197, byte by byte, as the document's figures have it. Slow on purpose: every step can be
//! held against its section.

/// The state of section 3.4: `state[r][c]` is row r, column c.
type State = [[u8; 4]; 4];

/// Section 4.2.1: multiplication by x, modulo x^8 + x^4 + x^3 + x + 1.
fn xtime(b: u8) -> u8 {
    let doubled = b << 1;
    if b & 0x80 != 0 {
        doubled ^ 0x1b
    } else {
        doubled
    }
}

/// Section 4.2: multiplication in GF(2^8).
fn multiply(a: u8, b: u8) -> u8 {
    let mut sum = 0;
    let mut power = a;
    for i in 0..8 {
        if b >> i & 1 == 1 {
            sum ^= power;
        }
        power = xtime(power);
    }
    sum
}

/// Section 4.2: the b with a times b equal to {01}; {00} for {00}.
fn inverse(a: u8) -> u8 {
    (0..=255).find(|&b| multiply(a, b) == 1).unwrap_or(0)
}

/// Section 5.1.1, equation 5.1: b'_i = b_i + b_(i+4) + b_(i+5) + b_(i+6) + b_(i+7) + c_i, indices modulo 8.
fn affine(b: u8) -> u8 {
    let bit = |i: u32| b >> (i % 8) & 1;
    (0..8).fold(0, |out, i| {
        let sum = bit(i) ^ bit(i + 4) ^ bit(i + 5) ^ bit(i + 6) ^ bit(i + 7) ^ (0x63 >> i & 1);
        out | sum << i
    })
}

/// Section 5.1.1: the S-box, computed once.
fn sbox() -> &'static [u8; 256] {
    static TABLE: std::sync::OnceLock<[u8; 256]> = std::sync::OnceLock::new();
    TABLE.get_or_init(|| std::array::from_fn(|b| affine(inverse(b as u8))))
}

fn sub_bytes(s: &mut State) {
    for row in s.iter_mut() {
        for b in row.iter_mut() {
            *b = sbox()[*b as usize];
        }
    }
}

/// Section 5.1.2: row r moves left by r.
fn shift_rows(s: &mut State) {
    for (r, row) in s.iter_mut().enumerate() {
        row.rotate_left(r);
    }
}

/// Section 5.1.3, equation 5.6.
fn mix_columns(s: &mut State) {
    const MATRIX: [[u8; 4]; 4] = [[2, 3, 1, 1], [1, 2, 3, 1], [1, 1, 2, 3], [3, 1, 1, 2]];
    for c in 0..4 {
        let column = [s[0][c], s[1][c], s[2][c], s[3][c]];
        for (r, factors) in MATRIX.iter().enumerate() {
            s[r][c] = (0..4).fold(0, |sum, i| sum ^ multiply(factors[i], column[i]));
        }
    }
}

/// Section 5.1.4: the words of one round, a word for each column.
fn add_round_key(s: &mut State, expanded: &[u8; 176], round: usize) {
    for c in 0..4 {
        for r in 0..4 {
            s[r][c] ^= expanded[16 * round + 4 * c + r];
        }
    }
}

/// Section 5.2: the key expansion, 44 words of four bytes.
pub fn expand(key: &[u8; 16]) -> [u8; 176] {
    let mut words = [[0u8; 4]; 44];
    for (i, word) in words.iter_mut().take(4).enumerate() {
        word.copy_from_slice(&key[4 * i..4 * i + 4]);
    }
    let mut rcon = 1;
    for i in 4..44 {
        let mut temp = words[i - 1];
        if i % 4 == 0 {
            temp.rotate_left(1);
            temp = temp.map(|b| sbox()[b as usize]);
            temp[0] ^= rcon;
            rcon = xtime(rcon);
        }
        words[i] = std::array::from_fn(|j| words[i - 4][j] ^ temp[j]);
    }
    std::array::from_fn(|i| words[i / 4][i % 4])
}

/// Section 5.1: the cipher on one block.
pub fn encrypt(expanded: &[u8; 176], block: &[u8; 16]) -> [u8; 16] {
    let mut s: State = std::array::from_fn(|r| std::array::from_fn(|c| block[r + 4 * c]));
    add_round_key(&mut s, expanded, 0);
    for round in 1..10 {
        sub_bytes(&mut s);
        shift_rows(&mut s);
        mix_columns(&mut s);
        add_round_key(&mut s, expanded, round);
    }
    sub_bytes(&mut s);
    shift_rows(&mut s);
    add_round_key(&mut s, expanded, 10);
    std::array::from_fn(|i| s[i % 4][i / 4])
}

#[cfg(test)]
mod tests {
    use super::*;

    fn bytes<const N: usize>(hex: &str) -> [u8; N] {
        assert_eq!(hex.len(), 2 * N);
        std::array::from_fn(|i| u8::from_str_radix(&hex[2 * i..2 * i + 2], 16).unwrap())
    }

    #[test]
    fn field() {
        assert_eq!(multiply(0x57, 0x83), 0xc1);
        assert_eq!(multiply(0x57, 0x13), 0xfe);
        assert_eq!(sbox()[0x00], 0x63);
        assert_eq!(sbox()[0x53], 0xed);
        assert_eq!(sbox()[0xff], 0x16);
    }

    #[test]
    fn appendix_a1() {
        let expanded = expand(&bytes("2b7e151628aed2a6abf7158809cf4f3c"));
        assert_eq!(expanded[16..20], bytes::<4>("a0fafe17"));
        assert_eq!(expanded[32..36], bytes::<4>("f2c295f2"));
        assert_eq!(
            expanded[160..176],
            bytes::<16>("d014f9a8c9ee2589e13f0cc8b6630ca6")
        );
    }

    #[test]
    fn appendix_b() {
        let expanded = expand(&bytes("2b7e151628aed2a6abf7158809cf4f3c"));
        let out = encrypt(&expanded, &bytes("3243f6a8885a308d313198a2e0370734"));
        assert_eq!(out, bytes("3925841d02dc09fbdc118597196a0b32"));
    }

    #[test]
    fn appendix_c1() {
        let expanded = expand(&bytes("000102030405060708090a0b0c0d0e0f"));
        let out = encrypt(&expanded, &bytes("00112233445566778899aabbccddeeff"));
        assert_eq!(out, bytes("69c4e0d86a7b0430d8cdb78070b4c55a"));
    }
}
