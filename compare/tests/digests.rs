//! Digests, term keys and fingerprints of the proved library against the second program's.

use compare::Inputs;

#[test]
fn digests_agree() {
    let mut inputs = Inputs(1);
    for length in (0..=300).chain([65_535, 65_536, 65_537, 100_000]) {
        let message = inputs.bytes(length);
        assert_eq!(compare::digest(&message), second::sha256::digest_call(&message), "length {length}");
    }
}

#[test]
fn term_keys_agree() {
    let mut inputs = Inputs(2);
    let mut met = [0; 2];
    for _ in 0..4_000 {
        // around the bounds of length, and around a to z
        let code: Vec<u8> = (0..inputs.below(11)).map(|_| [97 + inputs.below(26) as u8, 96, 123][inputs.below(40).saturating_sub(37)]).collect();
        let length = [0, 1, 2, 254, 255, 256, 300][inputs.below(7)];
        let term = inputs.bytes(length);
        let answer = compare::term_key(&code, &term);
        assert_eq!(answer, second::term::term_key(&code, &term), "{code:?} {length}");
        met[usize::from(answer.0 == 0)] += 1;
    }
    assert!(met[0] > 100 && met[1] > 100, "{met:?}");
}

#[test]
fn fingerprints_agree() {
    let mut inputs = Inputs(3);
    for length in [0, 1, 33, 4_096, 65_536, 65_537] {
        let sealed = inputs.bytes(length);
        let mut fingerprint = second::sha256::digest(&sealed);
        assert_eq!(compare::has_fingerprint(&sealed, &fingerprint), second::term::has_fingerprint(&sealed, &fingerprint));
        assert_eq!(compare::has_fingerprint(&sealed, &fingerprint).1, length <= 65_536);
        fingerprint[inputs.below(32)] ^= 1 << inputs.below(8);
        assert_eq!(compare::has_fingerprint(&sealed, &fingerprint), second::term::has_fingerprint(&sealed, &fingerprint));
        assert!(!compare::has_fingerprint(&sealed, &fingerprint).1);
    }
}
