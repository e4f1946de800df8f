//! Term keys and the fingerprint test, from document 01.

use crate::sha256::{digest, LONGEST};

/// 0 and the SHA-256 of the code followed by the term, or 29 and zero bytes.
pub fn term_key(code: &[u8], term: &[u8]) -> (u32, [u8; 32]) {
    let good_code = (2..=8).contains(&code.len()) && code.iter().all(|b| b.is_ascii_lowercase());
    let good_term = (1..=255).contains(&term.len());
    if !good_code || !good_term {
        return (29, [0; 32]);
    }
    (0, digest(&[code, term].concat()))
}

/// Whether a sealed entry has a fingerprint: (0, yes), (0, no) or (30, no).
pub fn has_fingerprint(sealed: &[u8], fingerprint: &[u8; 32]) -> (u32, bool) {
    if sealed.len() > LONGEST {
        return (30, false);
    }
    (0, digest(sealed) == *fingerprint)
}
