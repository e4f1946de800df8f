//! What the examples share: the office's set key, and its sealed entries. Sealing is another box's work; here they can be read.

// an example uses a part of it
#![allow(dead_code)]

use std::io::Read;

pub const SET_KEY: [u8; 16] = *b"an office's key!";

/// The verifier's slots.
pub const SLOTS: usize = 4;

pub const SEALED: [(&str, &str); 3] = [("Dichtring", "sealing ring"), ("Welle", "shaft"), ("Dichtring", "gasket ring")];

pub fn key(term: &str) -> [u8; 32] {
    thiraduan::term_key("de", term).expect("a term of 1 to 255 bytes")
}

/// The sealed entry that a fingerprint names, as the host hands it over: believed because it has the fingerprint.
pub fn unsealed(fingerprint: &[u8; 32]) -> &'static str {
    let sealed = SEALED.iter().find(|(_, sealed)| thiraduan::has_fingerprint(sealed.as_bytes(), fingerprint) == Ok(true));
    sealed.map_or("(the host does not hand over what it was asked for)", |(_, sealed)| sealed)
}

/// The host's log, from standard input.
pub fn log() -> Vec<u8> {
    let mut log = Vec::new();
    std::io::stdin().read_to_end(&mut log).expect("a log on standard input");
    log
}
