//! The counts of pointers that a player may fall for, on tapes made for each of them.

use super::*;
use crate::generator::records::{encode, head};
use crate::player::tape::{CallRecord, Record, Verb};
use crate::program::counter::Counter;
use crate::program::pointers::{Pointers, CASES};

/// Start, length and capacity of the sheet's zone 3, which has 4096 bytes at mount.
const S: u64 = 1572864;
const L: u64 = 524288;
const C: u64 = 393216;

/// The counts of a tape with the sheet's disk, but for zone 3, and one call that fails with each of these records.
fn counts(options: &str, third: Zone, verb: Verb, records: &[[u8; 64]]) -> [u64; CASES] {
    let mut zones = sheet_zones();
    zones[3] = third;
    // No file has the first of these, and no call goes to the other one's.
    zones[0] = zone(0, L, 5, 2, 14, C);
    zones[4] = zone(S + L, L, 5, 2, 14, C);
    let mut tape = head(&input_with(0, options, &zones));
    let offset = if verb == Verb::Write { 4096 } else { 0 };
    encode(&Record::Call(CallRecord { verb, kind: 1, number: 0, offset, length: 4096 }), &mut tape);
    records.iter().for_each(|record| encode(&Record::Failed(seq(0), record), &mut tape));
    let mut pointers = Pointers::default();
    pointers.count_tape(&tape);
    pointers.counts
}

fn third(pointer: u64, condition: u8) -> Zone {
    zone(S, L, pointer, 2, condition, C)
}

/// A mount with a call on seq/0 and no completion.
fn mounted(third: Zone) -> [u64; CASES] {
    counts("errors=repair", third, Verb::Flush, &[])
}

/// A call on the sheet's own zone 3 that fails with these records of it.
fn failed(verb: Verb, records: &[Zone]) -> [u64; CASES] {
    let records: Vec<_> = records.iter().map(record).collect();
    counts("errors=zone-ro", third(S + 8, 2), verb, &records)
}

#[test]
fn pointers_at_mount() {
    assert_eq!(mounted(third(S + 8, 2)), [0; CASES]);
    assert_eq!(mounted(third(S + C, 14)), [0; CASES]);
    assert_eq!(mounted(third(0, 13)), [0; CASES]);
    for pointer in [0, S, S + C - 8, S + L, u64::MAX] {
        assert_eq!(mounted(third(pointer, 14)), [1, 0, 0, 0, 0, 0, 0, 0, 0]);
    }
    assert_eq!(mounted(third(S + C, 3)), [0, 0, 0, 0, 0, 1, 0, 0, 0]);
    // A write at 4096 into a full file is answered 5 or 6, which it would be with many a wrong size.
    assert_eq!(counts("", third(0, 14), Verb::Write, &[]), [0; CASES]);
}

/// The conventional file of the same number, and a file that isn't there, don't have the zone's pointer.
#[test]
fn calls_on_other_files() {
    let mut zones = sheet_zones();
    zones[3] = third(0, 14);
    for (kind, number, count) in [(0, 0, 0), (1, 0, 1), (1, 1, 0), (1, 2, 0), (2, 0, 0)] {
        let mut tape = head(&input_with(0, "", &zones));
        let call = CallRecord { verb: Verb::Read, kind, number, offset: 0, length: 4096 };
        encode(&Record::Call(call), &mut tape);
        let mut pointers = Pointers::default();
        pointers.count_tape(&tape);
        assert_eq!(pointers.counts, [count, 0, 0, 0, 0, 0, 0, 0, 0], "kind {kind} number {number}");
    }
}

/// Counted only where the pointer alone is bad.
#[test]
fn pointers_past_the_capacity_at_mount() {
    assert_eq!(mounted(third(S + L, 1)), [0, 0, 0, 0, 0, 0, 0, 1, 0]);
    assert_eq!(mounted(third(S + L, 4)), [0, 0, 0, 0, 0, 0, 0, 1, 0]);
    assert_eq!(mounted(third(S + C + 8, 4)), [0; CASES]);
    assert_eq!(mounted(zone(S, L, S + L, 2, 1, C + 1)), [0; CASES]);
    assert_eq!(mounted(zone(S + 8, L, S + 8 + L, 2, 1, C)), [0; CASES]);
    assert_eq!(mounted(zone(S, L, S + L, 4, 1, C)), [0; CASES]);
}

#[test]
fn pointers_in_records() {
    assert_eq!(failed(Verb::Write, &[third(S + 8, 2)]), [0; CASES]);
    assert_eq!(failed(Verb::Write, &[third(S + C, 14)]), [0; CASES]);
    assert_eq!(failed(Verb::Write, &[third(0, 14)]), [0, 1, 0, 0, 0, 0, 0, 0, 0]);
    assert_eq!(failed(Verb::Flush, &[third(S + 8, 14)]), [0, 1, 0, 0, 0, 0, 0, 0, 0]);
    assert_eq!(failed(Verb::Write, &[third(S + C, 2)]), [0, 0, 0, 0, 0, 0, 1, 0, 0]);
    // The first leaves the command outstanding, so that the second is digested; the third comes too late.
    let refused_first = [third(S + L, 2), third(0, 14), third(0, 14)];
    assert_eq!(failed(Verb::Write, &refused_first), [0, 1, 0, 0, 0, 0, 0, 0, 1]);
    let bad_otherwise = [zone(S + 8, L, S + 8 + L, 2, 2, C), zone(S, L, S + L, 2, 2, C - 8), third(S + 4, 2)];
    assert_eq!(failed(Verb::Write, &bad_otherwise), [0; CASES]);
}

#[test]
fn pointers_in_failed_reads() {
    assert_eq!(failed(Verb::Read, &[third(0, 14)]), [0, 1, 0, 1, 0, 0, 0, 0, 0]);
    assert_eq!(failed(Verb::Read, &[third(S + 8, 14)]), [0, 1, 0, 1, 1, 0, 0, 0, 0]);
    assert_eq!(failed(Verb::Read, &[third(S + C, 14)]), [0; CASES]);
    for (options, seen) in [("", 1), ("errors=zone-ro", 1), ("errors=zone-offline", 1), ("errors=repair", 0)]
    {
        let again = counts(options, third(S + C, 14), Verb::Read, &[record(&third(0, 14))]);
        assert_eq!(again, [0, 1, seen, 0, 0, 0, 0, 0, 0], "{options}");
    }
}

#[test]
fn counts_are_added() {
    let mut sum = Pointers { counts: [1, 2, 3, 4, 5, 6, 7, 8, 9] };
    sum.add(&Pointers { counts: [10, 20, 30, 40, 50, 60, 70, 80, 90] });
    assert_eq!(sum.counts, [11, 22, 33, 44, 55, 66, 77, 88, 99]);
}

/// A tape without a mount has none of them.
#[test]
fn broken_tapes() {
    let tape = head(&sheet_input());
    for length in [0, 1, 100, tape.len() - 1] {
        let mut pointers = Pointers::default();
        pointers.count_tape(&tape[..length]);
        assert_eq!(pointers, Pointers::default());
    }
}
