//! A live subtitler's look-up: every answer is shown at once, provisional. It can't wait for an epoch to close.

mod office;

use thiraduan::{Refused, Verifier};

fn main() -> Result<(), Refused> {
    let log = office::log();
    let mut verifier = Verifier::open(&office::SET_KEY, office::SLOTS)?;
    let mut at = 0;
    while at < log.len() {
        let stepped = verifier.step(&log[at..]);
        if let Some(answer) = stepped.answer {
            let term = ["Dichtring", "Welle", "Nabe"].into_iter().find(|term| office::key(term) == answer.key).unwrap_or("?");
            let meaning = answer.fingerprint.map_or("not in the glossary", |fingerprint| office::unsealed(&fingerprint));
            println!("{term}: {meaning}  (epoch {}, provisional)", answer.epoch);
        } else if stepped.verdict != 0 {
            println!("entry at byte {at} {}", Refused(stepped.verdict));
        }
        if stepped.used == 0 {
            break;
        }
        at += stepped.used;
    }
    Ok(())
}
