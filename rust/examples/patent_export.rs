//! A patent translator's export: settled answers only, and a word on what is still open.

mod office;

use thiraduan::{Refused, Verifier};

fn main() -> Result<(), Refused> {
    let log = office::log();
    let mut verifier = Verifier::open(&office::SET_KEY, office::SLOTS)?;
    let (mut at, mut answers) = (0, Vec::new());
    while at < log.len() {
        let stepped = verifier.step(&log[at..]);
        answers.extend(stepped.answer);
        if stepped.used == 0 {
            break;
        }
        at += stepped.used;
    }
    for term in ["Dichtring", "Welle", "Nabe"] {
        let mut settled = None;
        let mut open = None;
        for answer in answers.iter().filter(|answer| answer.key == office::key(term)) {
            if verifier.settled(answer.epoch)? {
                settled = Some(answer);
            } else {
                open = Some(answer);
            }
        }
        if let Some(answer) = settled {
            let meaning = answer.fingerprint.map_or("not in the glossary", |fingerprint| office::unsealed(&fingerprint));
            println!("{term}: {meaning}  (settled with epoch {})", answer.epoch);
        }
        if let Some(answer) = open {
            println!("{term}: an answer of epoch {} is left out, that epoch is still open", answer.epoch);
        }
    }
    Ok(())
}
