//! The host's side: a log of two epochs over two terms, with every kind of entry, to standard output. Nothing here is trusted.

mod office;

use office::{key, SEALED};
use std::io::Write;
use thiraduan::{digest, Entry, Key, Value, ENTRY_BYTES};

fn main() {
    let [ring, shaft, revised] = SEALED.map(|(_, sealed)| Value::fingerprint(&digest(sealed.as_bytes()).unwrap()));
    let [dichtring, welle, nabe] = ["Dichtring", "Welle", "Nabe"].map(|term| Key::data(&key(term)));
    let log = [
        // epoch 1: each record comes from the tree, is put and asked for, and leaves deferred, at times 1 and 2
        Entry::add_from_tree(1, 0, dichtring, Value::NONE),
        Entry::put(1, dichtring, ring),
        Entry::get(1, dichtring, ring),
        Entry::evict_tree_record_deferred(1, 0),
        Entry::add_from_tree(1, 0, welle, Value::NONE),
        Entry::put(1, welle, shaft),
        Entry::get(1, welle, shaft),
        Entry::evict_tree_record_deferred(1, 0),
        Entry::ADVANCE,
        // epoch 2: one comes back, is revised, and the host tries the old value all the same; the other goes back to the tree
        Entry::add_deferred(1, 1, 1, dichtring, ring),
        Entry::put(1, dichtring, revised),
        Entry::get(1, dichtring, ring),
        Entry::get(1, dichtring, revised),
        Entry::evict_deferred(1),
        Entry::add_deferred(1, 1, 2, welle, shaft),
        Entry::evict_to_tree(1, 0),
        Entry::CLOSE,
        Entry::absent(0, nabe),
    ];
    let mut out = std::io::stdout();
    for entry in log {
        let mut bytes = [0; ENTRY_BYTES];
        let used = entry.write(&mut bytes).expect("an entry");
        out.write_all(&bytes[..used]).expect("room for the log");
    }
}
