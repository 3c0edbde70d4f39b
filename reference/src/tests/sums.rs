//! The inputs for the checksum have what a program that takes eight bytes at a time can get wrong.

use std::collections::BTreeSet;

use crate::program::sums::inputs;

const SEEDS: [u64; 5] = [0, 1, 2, 77, u64::MAX];
/// How many a comparison takes.
const COUNT: u64 = 10_000;
/// Every list begins with the lengths 0 to 272 and 4,088 to 4,104.
const FIRST: usize = 273 + 17;

fn all_modulo_eight(numbers: impl Iterator<Item = usize>) -> bool {
    numbers.map(|number| number % 8).collect::<BTreeSet<_>>().len() == 8
}

/// The place and the value of the only byte that isn't zero, if it is in a whole group of eight.
fn lone_byte(bytes: &[u8]) -> Option<(usize, u8)> {
    let mut nonzero = bytes.iter().copied().enumerate().filter(|(_, byte)| *byte != 0);
    let lone = nonzero.next().filter(|(place, _)| *place < bytes.len() / 8 * 8)?;
    nonzero.next().is_none().then_some(lone)
}

#[test]
fn the_first_have_every_length() {
    for seed in SEEDS {
        let list = inputs(seed, COUNT);
        assert_eq!(list.len(), 10_000);
        let lengths: Vec<usize> = list[..FIRST].iter().map(Vec::len).collect();
        assert_eq!(lengths[..273], (0..=272).collect::<Vec<_>>(), "seed {seed}");
        assert_eq!(lengths[273..], (4_088..=4_104).collect::<Vec<_>>(), "seed {seed}");
        // A wrong order of the bytes doesn't show if all are equal.
        let varied = |bytes: &Vec<u8>| bytes.iter().any(|byte| *byte != bytes[0]);
        assert!(list[8..FIRST].iter().all(varied), "seed {seed}");
    }
}

#[test]
fn the_others_have_every_length_modulo_eight() {
    for seed in SEEDS {
        let list = inputs(seed, COUNT);
        let lengths = list[FIRST..].iter().map(Vec::len);
        assert!(all_modulo_eight(lengths.clone().filter(|length| *length < 100)), "seed {seed}");
        assert!(all_modulo_eight(lengths.clone().filter(|length| *length >= 1_000)), "seed {seed}");
        assert!(lengths.max() <= Some(5_000), "seed {seed}");
    }
}

#[test]
fn lone_bytes_have_every_place_modulo_eight_and_every_value() {
    let mut values = BTreeSet::new();
    for seed in SEEDS {
        let list = inputs(seed, COUNT);
        let lone: Vec<(usize, u8)> = list.iter().filter_map(|bytes| lone_byte(bytes)).collect();
        assert!(all_modulo_eight(lone.iter().map(|(place, _)| *place)), "seed {seed}");
        values.extend(lone.iter().map(|(_, value)| *value));
    }
    assert_eq!(values, (1..=255).collect());
}
