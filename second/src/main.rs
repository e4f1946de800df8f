//! What the second program writes, to be compared with what the proved programs write.

use second::sha256::digest_call;
use std::io::Write;

/// The lines of the program `vectors`: length, verdict, digest.
fn vectors(out: &mut impl Write) -> std::io::Result<()> {
    let pattern: Vec<u8> = (0..65_537u64).map(|i| (7 * i + 3) as u8).collect();
    let mut messages: Vec<&[u8]> = vec![
        b"abc",
        b"abcdbcdecdefdefgefghfghighijhijkijkljklmklmnlmnomnopnopq",
        b"abcdefghbcdefghicdefghijdefghijkefghijklfghijklmghijklmnhijklmnoijklmnopjklmnopqklmnopqrlmnopqrsmnopqrstnopqrstu",
    ];
    for length in [0, 55, 56, 63, 64, 119, 120, 65_535, 65_536, 65_537] {
        messages.push(&pattern[..length]);
    }
    for message in messages {
        let (verdict, digest) = digest_call(message);
        write!(out, "{} {} ", message.len(), verdict)?;
        for byte in digest {
            write!(out, "{byte:02x}")?;
        }
        writeln!(out)?;
    }
    Ok(())
}

fn main() -> std::io::Result<()> {
    let mut out = std::io::stdout().lock();
    match std::env::args().nth(1).as_deref() {
        Some("vectors") => vectors(&mut out),
        _ => {
            eprintln!("usage: second vectors");
            std::process::exit(2);
        }
    }
}
