//! Tags, expanded keys and blocks of the proved library against the second program's.

use compare::Inputs;

fn array<const N: usize>(inputs: &mut Inputs) -> [u8; N] {
    inputs.bytes(N).try_into().unwrap()
}

/// A thousand messages of each length from 0 to 200.
#[test]
fn tags_agree() {
    let mut inputs = Inputs(4);
    for length in 0..=200 {
        let key = array(&mut inputs);
        let expanded = compare::expand(&key);
        assert_eq!(expanded, second::aes::expand(&key));
        for _ in 0..1_000 {
            let message = inputs.bytes(length);
            let expected = (0, second::cmac::cmac(&key, &message));
            assert_eq!(compare::tag_with(&expanded, &message), expected, "length {length}");
        }
        let message = inputs.bytes(length);
        assert_eq!(compare::tag(&key, &message), (0, second::cmac::cmac(&key, &message)));
    }
}

#[test]
fn the_longest_tags_agree() {
    let mut inputs = Inputs(5);
    let key = array(&mut inputs);
    for length in [65_520, 65_535, 65_536] {
        let message = inputs.bytes(length);
        assert_eq!(compare::tag(&key, &message), (0, second::cmac::cmac(&key, &message)));
    }
    let message = inputs.bytes(65_537);
    assert_eq!(compare::tag(&key, &message), (30, [0; 16]));
    assert_eq!(compare::tag_with(&compare::expand(&key), &message), (30, [0; 16]));
}

/// Under any 176 bytes, a key's expansion or not.
#[test]
fn blocks_agree() {
    let mut inputs = Inputs(6);
    for turn in 0..2_000 {
        let expanded = if turn % 2 == 0 { second::aes::expand(&array(&mut inputs)) } else { array(&mut inputs) };
        let block = array(&mut inputs);
        assert_eq!(compare::encrypt(&expanded, &block), second::aes::encrypt(&expanded, &block));
    }
}
