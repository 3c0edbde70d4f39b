//! Perms: which of them are the mode, which are refused with 33, where that comes in the order, how it is printed and
//! counted.

use super::*;
use crate::generator::records::head;
use crate::player::mount::mount;
use crate::player::play::play;
use crate::player::types::Row;
use crate::program::perms::{Perms, CASE_NAMES};
use crate::program::tally::Tally;

/// The sheet's mount with these features and this perm, and `change` in its super block.
fn input_of(features: u8, perm: u32, change: impl Fn(&mut [u8])) -> Input {
    let mut input = sheet_input();
    input.super_block[88] = features;
    input.super_block[104..108].copy_from_slice(&perm.to_le_bytes());
    change(&mut input.super_block);
    stamp(&mut input.super_block);
    input
}

/// The mode of that mount, or the number it is refused with.
fn mode(features: u8, perm: u32) -> Result<u32, u32> {
    mount_volume(&input_of(features, perm, |_| {})).map(|volume| volume.mount.mode).map_err(Refusal::number)
}

/// Above 0777: each bit above the nine, alone and with all nine; and several, up to all of them.
fn stray_perms() -> impl Iterator<Item = u32> {
    let bits = (9..32).flat_map(|bit| [1 << bit, 1 << bit | 0o777]);
    bits.chain([0o1001, 0o7777, 0xFFFF, 0x8000_01A0, 0xFFFF_0000, u32::MAX - 0o777, u32::MAX - 1, u32::MAX])
}

#[test]
fn a_perm_in_use_up_to_0777_is_the_mode() {
    for perm in 0..=0o777 {
        assert_eq!(mode(8, perm), Ok(perm), "perm {perm:o}");
    }
    for features in 8..16 {
        for perm in [0, 1, 0o640, 0o776, 0o777] {
            assert_eq!(mode(features, perm), Ok(perm), "features {features}, perm {perm:o}");
        }
    }
}

#[test]
fn a_perm_in_use_above_0777_is_refused() {
    assert_eq!(mode(8, 0o1000), Err(33));
    for features in 8..16 {
        for perm in stray_perms() {
            assert_eq!(mode(features, perm), Err(33), "features {features}, perm {perm:o}");
        }
    }
}

#[test]
fn a_perm_that_is_not_in_use_is_anything() {
    for features in 0..8 {
        for perm in [0, 1, 0o640, 0o776, 0o777].into_iter().chain(stray_perms()) {
            assert_eq!(mode(features, perm), Ok(0o640), "features {features}, perm {perm:o}");
        }
    }
}

/// The numbers of a mount in the order of its checks: 20 to 30, and 33 "checked after 25 and before 26".
const ORDER: [u32; 12] = [20, 21, 22, 23, 24, 25, 33, 26, 27, 28, 29, 30];

/// The answer to the sheet's mount with the faults of these numbers, 25 by the id at `id_at` with its feature bit.
fn answer_with(faults: &[u32], id_at: usize, id_bit: u8) -> u32 {
    let mut input = sheet_input();
    for fault in faults {
        match fault {
            20 => input.block = 1024,
            27 => input.options = b"errors=".to_vec(),
            28 => input.report[0] = 1,
            29 => input.report[16] = 1,
            _ => assert!([21, 22, 23, 24, 25, 33, 26, 30].contains(fault), "its place is below"),
        }
    }
    spoil_super_block(&mut input.super_block, faults, id_at, id_bit);
    let mut rows = [[Row::EMPTY; 2]; 2];
    let [cnv, seq] = &mut rows;
    let lent = if faults.contains(&30) { 1 } else { 2 };
    let result = mount(&input, &mut cnv[..lent], &mut seq[..lent]);
    assert!(result.is_ok() || rows == [[Row::EMPTY; 2]; 2], "a refused mount fills no row");
    result.map_or_else(Refusal::number, |_| 0)
}

/// Every set of faults that a mount can have: the one that is checked first is given.
#[test]
fn the_first_check_of_every_set_of_faults() {
    for (id_at, id_bit) in [(96, 2), (100, 4)] {
        for set in 0..1u32 << ORDER.len() {
            let in_set = |place: &usize| set >> place & 1 == 1;
            let faults: Vec<u32> = (0..ORDER.len()).filter(in_set).map(|place| ORDER[place]).collect();
            let first = faults.first().copied().unwrap_or(0);
            assert_eq!(answer_with(&faults, id_at, id_bit), first, "{faults:?}");
        }
    }
}

/// The lines of a tape with that mount and a record behind it.
fn lines(input: &Input) -> Vec<String> {
    let tape = [&head(input)[..], b"OK\x01\x00\x00\x00\x00"].concat();
    play(&tape).into_iter().map(|line| line.text).collect()
}

#[test]
fn answer_33_stands_alone_and_stops_the_tape() {
    assert_eq!(lines(&input_of(8, 0o1000, |_| {})), ["MO 33"]);
    assert_eq!(lines(&input_of(8, 0o777, |_| {})), ["MO 0 2 2", "OK 1 0 8"]);
    assert_eq!(lines(&input_of(7, 0o1000, |_| {})), ["MO 0 1 2", "OK 1 0 8"]);
}

fn counted(features: u8, perm: u32, change: impl Fn(&mut [u8])) -> [u64; 4] {
    let mut perms = Perms::default();
    perms.count_tape(&head(&input_of(features, perm, change)));
    perms.counts
}

#[test]
fn perms_are_counted() {
    let nothing = |_: &mut [u8]| {};
    let ids = |bytes: &mut [u8]| bytes[96..104].fill(0xFF);
    let tail = |bytes: &mut [u8]| bytes[108] = 1;
    let both = |bytes: &mut [u8]| {
        ids(bytes);
        tail(bytes);
    };
    assert_eq!([counted(10, 0o1000, ids), counted(12, u32::MAX, both)], [[1, 0, 0, 0]; 2]);
    assert_eq!([counted(8, 0o1000, tail), counted(8, u32::MAX, both)], [[0, 1, 0, 0]; 2]);
    assert_eq!([counted(0, 0o1000, nothing), counted(7, u32::MAX, nothing)], [[0, 0, 1, 0]; 2]);
    assert_eq!([counted(8, 0o777, nothing), counted(15, 0o777, nothing)], [[0, 0, 0, 1]; 2]);
    // 33 without another fault, 25 and 26 without a stray perm in use, 24, and mounts with other perms.
    for other in [
        counted(8, 0o1000, nothing),
        counted(10, 0o777, ids),
        counted(2, 0o1000, both),
        counted(8, 0o777, tail),
        counted(0, 0o1000, tail),
        counted(26, 0o1000, both),
        counted(8, 0o776, nothing),
        counted(0, 0o777, nothing),
    ] {
        assert_eq!(other, [0; 4]);
    }
    let mut perms = Perms::default();
    perms.count_tape(&head(&input_of(8, 0o777, nothing))[..4000]);
    assert_eq!(perms, Perms::default(), "a cut tape has no mount");
}

#[test]
fn missing_perms_are_named() {
    let mut tally = Tally::default();
    let named = |tally: &Tally| CASE_NAMES.map(|name| tally.missing().contains(&name.to_string()));
    assert_eq!(named(&tally), [true; 4]);
    assert!(tally.missing().contains(&"MO 33".to_string()));
    tally.count_line("MO 33");
    tally.perms.counts = [3, 0, 5, 7];
    assert_eq!(named(&tally), [false, true, false, false]);
    assert!(!tally.missing().contains(&"MO 33".to_string()));
    let mut sum = tally.clone();
    sum.add(&tally);
    assert!(sum.summary().contains(", perms 6/0/10/14, pointers "), "{}", sum.summary());
}
