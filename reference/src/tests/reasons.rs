//! The reasons of 29 and 9: each alone, each before all that come after it, and how they are printed and counted.

use super::*;
use crate::generator::faults::REASONS;
use crate::generator::records::{encode, head};
use crate::player::play::play;
use crate::player::tape::{CallRecord, Record, Verb};
use crate::player::types::{Access, Condition, Held, Reason};
use crate::program::counter::Counter;
use crate::program::reasons::Reasons;
use crate::program::tally::Tally;

/// Start, length and capacity of the sheet's zone 3, whose block has 8 sectors.
const S: u64 = 1572864;
const L: u64 = 524288;
const C: u64 = 393216;
/// No zone ends beyond this sector.
const LIMIT: u64 = 1 << 40;

/// The values of 29 for these zones; none if they are taken.
fn refused(zones: &[Zone]) -> Vec<u64> {
    match mount_volume(&input_with(0, "", zones)) {
        Ok(_) => Vec::new(),
        Err(refusal) => {
            assert_eq!(refusal.number(), 29);
            refusal.values()
        }
    }
}

/// The reason for which this zone is bad as zone 3; 0 if it is good.
fn reason(third: Zone) -> u64 {
    let mut zones = sheet_zones();
    zones.truncate(4);
    zones[3] = third;
    match refused(&zones)[..] {
        [] => 0,
        [number, reason] => {
            assert_eq!(number, 3);
            reason
        }
        _ => panic!("29 has two values"),
    }
}

/// The reason for which the busy file's record of this zone is refused with 9; 0 if it is taken.
fn record_reason(volume: &Volume, zone: &Zone) -> u64 {
    let mut trial = volume.clone();
    let [of] = volume.all_outstanding()[..] else { panic!("one file is busy") };
    match trial.fail(of.kind, of.number, &record(zone), true) {
        Ok(_) => 0,
        Err(refusal) => {
            assert_eq!((refusal.number(), refusal.values().len()), (9, 1));
            assert_eq!(&trial, volume, "9 changes nothing");
            refusal.values()[0]
        }
    }
}

/// The sheet with a write to seq/0 outstanding.
fn writing_seq() -> Volume {
    let mut volume = sheet();
    volume.call(&write(SEQ, 0, 4096, 8192)).unwrap();
    volume
}

/// The sheet with a read of seq/0 outstanding, whose zone became read-only before.
fn reading_read_only_seq() -> Volume {
    let mut volume = sheet();
    (volume.seq[0].condition, volume.seq[0].access) = (Condition::ReadOnly, Access::Read);
    volume.call(&read(SEQ, 0, 0, 4096)).unwrap();
    volume
}

/// The sheet with a write to cnv/1 outstanding, which is zone 2: sectors 1048576 to 1572864.
fn writing_cnv() -> Volume {
    let mut volume = sheet();
    volume.call(&write(CNV, 1, 0, 8192)).unwrap();
    volume
}

/// Which of the reasons 1 to 9 a zone has the fault of.
pub struct Faults(u64);

impl Faults {
    /// All sets of these reasons that aren't empty.
    pub fn sets(reasons: std::ops::RangeInclusive<u64>) -> impl Iterator<Item = Faults> {
        let (first, last) = (*reasons.start(), *reasons.end());
        (1..1u64 << (last - first + 1)).map(move |set| Faults(set << first))
    }

    pub fn has(&self, reason: u64) -> bool {
        self.0 >> reason & 1 == 1
    }

    pub fn lowest(&self) -> u64 {
        u64::from(self.0.trailing_zeros())
    }

    /// A length with the faults 2 and 4, if they are in the set, wherever the zone starts.
    pub fn length(&self) -> u64 {
        (if self.has(4) { LIMIT + 8 } else { L }) + u64::from(self.has(2))
    }
}

#[test]
fn numbers_of_reasons() {
    for (number, reason) in (0..).zip([Reason::NoRecord].into_iter().chain(REASONS)) {
        assert_eq!(reason.number(), number);
        assert_eq!(Refusal::RecordMismatch(reason).values(), [number]);
        assert_eq!(Refusal::BadZone { zone: 1022, reason }.values(), [1022, number]);
    }
    for refusal in [Refusal::NoSuchFile, Refusal::ReportHeader, Refusal::Impossible, Refusal::TooFewRows] {
        assert_eq!(refusal.values(), []);
    }
}

#[test]
fn reason_1_start() {
    for start in [0, 1, S - 8, S - 1, S + 1, S + 8, S + L, LIMIT, u64::MAX] {
        assert_eq!(reason(zone(start, L, S + 8, 2, 2, C)), 1, "start {start}");
    }
    for start in [1, 8, u64::MAX] {
        let mut zones = sheet_zones();
        zones[0].start = start;
        assert_eq!(refused(&zones), [0, 1]);
    }
}

#[test]
fn reason_2_length() {
    for length in [0, 1, 4, L - 1, L + 1, L + 4, LIMIT + 1, u64::MAX] {
        assert_eq!(reason(zone(S, length, S + 8, 2, 2, C)), 2, "length {length}");
        assert_eq!(reason(zone(S, length, S, 1, 0, length)), 2, "length {length}");
    }
}

#[test]
fn reason_3_capacity() {
    for capacity in [0, 1, 4, C - 1, C + 1, L + 8, u64::MAX - 7, u64::MAX] {
        assert_eq!(reason(zone(S, L, S + 8, 2, 2, capacity)), 3, "capacity {capacity}");
        assert_eq!(reason(zone(S, L, S + 8, 4, 2, capacity)), 3, "capacity {capacity} of an unknown type");
    }
    // Whole blocks within the length are bad for a conventional zone alone.
    for capacity in [8, C, L - 8] {
        assert_eq!(reason(zone(S, L, S, 1, 0, capacity)), 3, "capacity {capacity}");
        assert_eq!(reason(zone(S, L, S, 3, 1, capacity)), 0, "capacity {capacity}");
        assert_eq!(reason(zone(S, L, S, 0, 0, capacity)), 5, "capacity {capacity}");
    }
}

#[test]
fn reason_4_end() {
    for length in [LIMIT - S + 8, LIMIT, S.wrapping_neg(), 0u64.wrapping_sub(8), 1 << 63] {
        assert_eq!(reason(zone(S, length, S + 8, 2, 2, C)), 4, "length {length}");
        assert_eq!(reason(zone(S, length, S + 8, 2, 2, length)), 4, "length {length}");
        assert_eq!(reason(zone(S, length, S, 1, 0, length)), 4, "length {length}");
    }
    assert_eq!(reason(zone(S, LIMIT - S, S + 8, 2, 2, C)), 0);
}

/// Whatever its condition and its pointer are.
#[test]
fn reason_5_type() {
    for kind in [0, 4, 5, 128, 255] {
        for condition in 0..=255 {
            for pointer in [0, S, S + 1, S + 8, S + C + 8, u64::MAX] {
                assert_eq!(reason(zone(S, L, pointer, kind, condition, C)), 5, "type {kind}");
            }
        }
    }
}

#[test]
fn reason_6_condition() {
    for condition in 0..=255 {
        for pointer in [0, S, u64::MAX] {
            let conventional = if [0, 13, 15].contains(&condition) { 0 } else { 6 };
            assert_eq!(reason(zone(S, L, pointer, 1, condition, L)), conventional, "condition {condition}");
        }
        let sequential = if [1, 2, 3, 4, 13, 14, 15].contains(&condition) { 0 } else { 6 };
        for kind in [2, 3] {
            assert_eq!(reason(zone(S, L, S, kind, condition, C)), sequential, "condition {condition}");
        }
    }
}

#[test]
fn reason_7_pointer() {
    for pointer in [0, S - 8, S - 1, S + 1, S + 4, S + C - 1, S + C + 1, S + C + 8, S + L, u64::MAX] {
        for kind in [2, 3] {
            for condition in [1, 2, 3, 4] {
                assert_eq!(reason(zone(S, L, pointer, kind, condition, C)), 7, "pointer {pointer}");
            }
            for condition in [13, 14, 15] {
                assert_eq!(reason(zone(S, L, pointer, kind, condition, C)), 0, "pointer {pointer}");
            }
            for condition in [0, 5, 12, 16] {
                assert_eq!(reason(zone(S, L, pointer, kind, condition, C)), 6, "pointer {pointer}");
            }
        }
    }
}

/// Every set of faults that a sequential zone of a report can have: the lowest is given.
#[test]
fn the_first_reason_of_a_zone() {
    for faults in Faults::sets(1..=7) {
        let zone = zone(
            if faults.has(1) { S + 8 } else { S },
            faults.length(),
            if faults.has(7) { S - 8 } else { S + 8 },
            if faults.has(5) { 4 } else { 2 },
            if faults.has(6) { 5 } else { 2 },
            if faults.has(3) { C + 1 } else { C },
        );
        assert_eq!(reason(zone), faults.lowest(), "{zone:?}");
    }
}

/// The same of a conventional zone, whose capacity is whole blocks and less than the length.
#[test]
fn the_first_reason_of_a_conventional_zone() {
    for faults in
        Faults::sets(1..=4).chain([Faults(1 << 6), Faults(1 << 6 | 1 << 4), Faults(1 << 6 | 1 << 3)])
    {
        let length = faults.length();
        let zone = zone(
            if faults.has(1) { S + 8 } else { S },
            length,
            0,
            1,
            if faults.has(6) { 14 } else { 0 },
            if faults.has(3) { C } else { length },
        );
        assert_eq!(reason(zone), faults.lowest(), "{zone:?}");
    }
}

/// Without its flag the capacity is the length: it has the length's fault, which comes first, and no other.
#[test]
fn a_capacity_that_is_not_given_is_no_reason() {
    for (capacity, length, values) in
        [(0, L, vec![]), (u64::MAX, L, vec![]), (C, L + 1, vec![3, 2]), (C, 0, vec![3, 2])]
    {
        let mut zones = sheet_zones();
        zones.truncate(4);
        zones[3] = zone(S, length, S, 2, 1, capacity);
        let input = Input { report: report(0, &zones), ..sheet_input() };
        let refused = mount_volume(&input).map_or_else(Refusal::values, |_| Vec::new());
        assert_eq!(refused, values);
    }
}

/// Each zone is bad for one reason; the later the zone, the lower the reason, and the other way round.
#[test]
fn the_lowest_zone_is_given() {
    let bad_for = |zones: &mut Vec<Zone>, number: usize, reason: u64| {
        let zone = &mut zones[number];
        match reason {
            1 => zone.start += 8,
            3 => zone.capacity += 4,
            5 => zone.kind = 9,
            6 => zone.condition = 5,
            _ => panic!("no such fault here"),
        }
    };
    for reasons in [[6, 5, 3, 1], [1, 3, 5, 6], [5, 5, 5, 5]] {
        for first in 0..4 {
            let mut zones = sheet_zones();
            (first..4).for_each(|number| bad_for(&mut zones, number, reasons[number]));
            assert_eq!(refused(&zones), [first as u64, reasons[first]]);
        }
    }
    // The length of zone 3 is good, but the next zone doesn't start where it ends.
    let mut zones = sheet_zones();
    zones[3].length += 8;
    zones[4].condition = 5;
    assert_eq!(refused(&zones), [4, 1]);
    // An end past the limit is the zone's own fault, and a start there the next one's.
    zones[3].length = LIMIT;
    assert_eq!(refused(&zones), [3, 4]);
}

/// Every set of faults that a sequential file's record can have; the file's zone became read-only before.
#[test]
fn the_first_reason_of_a_sequential_files_record() {
    let volume = reading_read_only_seq();
    for faults in Faults::sets(2..=9) {
        let start = if faults.has(8) { S - 8 } else { S };
        // A pointer counts only with a better condition, and any other that is bad is better too.
        let condition = if faults.has(6) {
            0
        } else if faults.has(7) || faults.has(9) {
            2
        } else {
            13
        };
        let zone = zone(
            start,
            faults.length(),
            if faults.has(7) { start + 4 } else { start + 8 },
            if faults.has(5) { 0 } else { 3 },
            condition,
            if faults.has(3) { 0 } else { C },
        );
        assert_eq!(record_reason(&volume, &zone), faults.lowest(), "{zone:?}");
    }
    assert_eq!(record_reason(&volume, &zone(S, L, 0, 3, 13, C)), 0);
}

/// The same of a conventional file's, which no condition is too good for.
#[test]
fn the_first_reason_of_a_conventional_files_record() {
    let mut volume = writing_cnv();
    (volume.cnv[1].condition, volume.cnv[1].access) = (Condition::ReadOnly, Access::Read);
    volume.cnv[1].held = Held::Nothing;
    volume.call(&read(CNV, 1, 0, 4096)).unwrap();
    for faults in Faults::sets(2..=8) {
        let length = faults.length();
        // A pointer counts in a sequential zone alone, which isn't the file's.
        let (kind, condition) = if faults.has(7) { (2, 1) } else { (1, 0) };
        let zone = zone(
            if faults.has(8) { 1048576 - 8 } else { 1048576 },
            length,
            u64::MAX,
            if faults.has(5) { 4 } else { kind },
            if faults.has(6) { 7 } else { condition },
            if faults.has(3) { length - 1 } else { length },
        );
        assert_eq!(record_reason(&volume, &zone), faults.lowest(), "{zone:?}");
    }
    assert_eq!(record_reason(&volume, &zone(1048576, L, u64::MAX, 1, 0, L)), 0);
}

/// Its start is no reason by itself: a good zone in another place is another zone.
#[test]
fn reason_8_not_this_files_zone() {
    let seq = [
        zone(0, L, 8, 2, 2, C),
        zone(S + 8, L, S + 8, 2, 2, C),
        zone(S - 1, L, S, 2, 2, C),
        zone(S, L, S, 2, 2, C - 8),
        zone(S, L, S, 2, 2, C + 8),
        zone(S, L, S, 2, 13, L),
        zone(S, C, S, 1, 0, C),
        zone(S, C, S, 1, 15, C),
        zone(2097152, L, 2097152, 2, 1, C),
    ];
    for zone in seq {
        assert_eq!(record_reason(&writing_seq(), &zone), 8, "{zone:?}");
    }
    let cnv = [
        zone(1048576 - 8, 8, 0, 1, 0, 8),
        zone(1048576 - 8, L, 0, 1, 0, L),
        zone(1048576 - 1, 8, 0, 1, 0, 8),
        zone(1048576, L + 8, 0, 1, 0, L + 8),
        zone(S - 7, 8, 0, 1, 0, 8),
        zone(S, 8, 0, 1, 0, 8),
        zone(1048576, L, 1048576, 2, 1, L),
        zone(1048576, L, 0, 3, 13, C),
    ];
    for zone in cnv {
        assert_eq!(record_reason(&writing_cnv(), &zone), 8, "{zone:?}");
    }
    // Any part of the file may be its zone.
    assert_eq!(record_reason(&writing_cnv(), &zone(1048577, 8, 0, 1, 0, 8)), 0);
}

/// The pointer itself is on a block, however far it is from a start that isn't.
#[test]
fn a_pointer_off_the_block_comes_before_another_zone() {
    for (start, pointer, reason) in
        [(S + 1, S + 8, 8), (S + 1, S + 9, 7), (S + 4, S + 12, 7), (S + 4, S + 16, 8)]
    {
        let zone = zone(start, L, pointer, 2, 2, C);
        assert_eq!(record_reason(&writing_seq(), &zone), reason, "{zone:?}");
    }
}

#[test]
fn reason_9_a_better_condition() {
    for (condition, answer) in [(1, 9), (2, 9), (3, 9), (4, 9), (14, 9), (13, 0), (15, 0), (0, 6), (5, 6)] {
        let zone = zone(S, L, S + 8, 2, condition, C);
        assert_eq!(record_reason(&reading_read_only_seq(), &zone), answer, "condition {condition}");
    }
    for condition in [1, 2, 3, 4, 13, 14, 15] {
        assert_eq!(record_reason(&writing_seq(), &zone(S, L, S + 8, 2, condition, C)), 0);
    }
}

/// It has no field to name. That nothing is outstanding, or an impossible mount, comes before it.
#[test]
fn a_record_of_another_length_has_reason_0() {
    let mut bytes = record(&zone(S, L, S + 8, 2, 2, C)).to_vec();
    bytes.push(0);
    for length in [0, 1, 63, 65] {
        let mut volume = writing_seq();
        let before = volume.clone();
        let refusal = volume.fail(SEQ, 0, &bytes[..length], true).unwrap_err();
        assert_eq!((refusal.number(), refusal.values()), (9, vec![0]), "{length} bytes");
        assert_eq!(volume, before);
        assert_eq!(sheet().fail(SEQ, 0, &bytes[..length], true), Err(Refusal::NothingOutstanding));
        volume.seq[0].size += 1;
        assert_eq!(volume.fail(SEQ, 0, &bytes[..length], true), Err(Refusal::Impossible));
    }
    assert_eq!(writing_seq().fail(SEQ, 0, &bytes[..64], true), Ok(4096));
}

/// A tape on which a write to seq/0 fails with these records.
fn tape_with(zones: &[Zone], records: &[Zone]) -> Vec<u8> {
    let mut tape = head(&input_with(0, "errors=zone-ro", zones));
    let call = CallRecord { verb: Verb::Write, kind: 1, number: 0, offset: 4096, length: 8192 };
    encode(&Record::Call(call), &mut tape);
    records.iter().for_each(|zone| encode(&Record::Failed(seq(0), &record(zone)), &mut tape));
    tape
}

fn lines(tape: &[u8]) -> Vec<String> {
    play(tape).into_iter().map(|line| line.text).collect()
}

#[test]
fn the_reason_stands_last_on_the_line() {
    let mut zones = sheet_zones();
    zones[4].pointer += 1;
    assert_eq!(lines(&tape_with(&zones, &[])), ["MO 29 4 7"]);
    zones[1].start = 0;
    assert_eq!(lines(&tape_with(&zones, &[])), ["MO 29 1 1"]);
    let records = [
        zone(S, 0, 0, 0, 0, 0),
        zone(S, L, S, 1, 0, C),
        zone(S, L, S, 2, 0, C),
        zone(S + 8, L, S + 8, 2, 2, C),
        zone(S, L, S + 16, 2, 2, C),
        zone(S, L, S, 2, 0, C),
    ];
    let expected = [
        "MO 0 2 2",
        "WR 0 W 805310464 8192",
        "NO 1 0 9 2",
        "NO 1 0 9 3",
        "NO 1 0 9 6",
        "NO 1 0 9 8",
        "NO 1 0 7 8192",
        "NO 1 0 8",
    ];
    assert_eq!(lines(&tape_with(&sheet_zones(), &records)), expected);
}

fn counted(tape: &[u8]) -> Reasons {
    let mut reasons = Reasons::default();
    reasons.count_tape(tape);
    reasons
}

/// What is counted for a mount with this zone 3, by reason.
fn counted_zone(third: Zone) -> Reasons {
    let mut zones = sheet_zones();
    zones[3] = third;
    counted(&tape_with(&zones, &[]))
}

/// Counts with one at this reason, and whether it came with the next one.
fn one_zone(reason: usize, before_next: bool, lower_behind: bool) -> Reasons {
    let mut expected = Reasons::default();
    expected.zones.given[reason] = 1;
    expected.zones.before_next[reason] = u64::from(before_next);
    expected.lower_behind = u64::from(lower_behind);
    expected
}

#[test]
fn reasons_of_zones_are_counted() {
    assert_eq!(counted_zone(sheet_zones()[3]), Reasons::default());
    // With another start or length, the next zone doesn't start where this one ends.
    let cases = [
        (zone(S + 8, L, S + 8, 2, 2, C), one_zone(1, false, false)),
        (zone(S + 8, 0, S + 8, 2, 2, C), one_zone(1, true, false)),
        (zone(S, L + 1, S, 2, 2, C), one_zone(2, false, true)),
        (zone(S, 0, S, 2, 2, C), one_zone(2, true, true)),
        (zone(S, L, S, 1, 0, C), one_zone(3, false, false)),
        (zone(S, LIMIT, S, 1, 0, C), one_zone(3, true, true)),
        (zone(S, LIMIT, S, 2, 2, C), one_zone(4, false, true)),
        (zone(S, LIMIT, S, 4, 2, C), one_zone(4, true, true)),
        (zone(S, L, S, 4, 2, C), one_zone(5, false, false)),
        (zone(S, L, S, 4, 0, C), one_zone(5, false, false)),
        (zone(S, L, S, 4, 5, C), one_zone(5, true, false)),
        (zone(S, L, S, 2, 0, C), one_zone(6, false, false)),
        (zone(S, L, 0, 2, 0, C), one_zone(6, true, false)),
        (zone(S, L, 0, 1, 5, L), one_zone(6, false, false)),
        (zone(S, L, 0, 2, 4, C), one_zone(7, false, false)),
    ];
    for (third, expected) in cases {
        assert_eq!(counted_zone(third), expected, "{third:?}");
    }
}

/// A zone behind the one that is given counts by its own first reason.
#[test]
fn lower_reasons_behind_are_counted() {
    let mut zones = sheet_zones();
    zones[1].condition = 5;
    for (kind, length, lower) in [(2, L, 0), (4, L, 1), (2, L + 1, 1)] {
        zones[4] = zone(2097152, length, 2097152, kind, 5, C);
        assert_eq!(counted(&tape_with(&zones, &[])), one_zone(6, false, lower == 1));
    }
    // One before it is good.
    zones = sheet_zones();
    zones[4].pointer = 0;
    assert_eq!(counted(&tape_with(&zones, &[])), one_zone(7, false, false));
}

#[test]
fn reasons_of_records_are_counted() {
    let bad = [
        (zone(S, L + 1, S, 2, 2, C), 2, 0),
        (zone(S, 0, S, 2, 2, C), 2, 1),
        (zone(S, L, S, 2, 2, 0), 3, 0),
        (zone(S, LIMIT, S, 2, 2, 0), 3, 1),
        (zone(LIMIT, L, LIMIT, 2, 2, C), 4, 0),
        (zone(S, LIMIT, S, 255, 2, C), 4, 1),
        (zone(S, L, 0, 4, 14, C), 5, 0),
        (zone(S, L, 0, 4, 255, C), 5, 1),
        (zone(S, L, S, 2, 5, C), 6, 0),
        (zone(S, L, S + 4, 2, 5, C), 6, 1),
        (zone(S, L, S + 4, 2, 1, C), 7, 0),
        (zone(S, L, S + 4, 2, 1, C - 8), 7, 1),
        (zone(S, L, S, 2, 1, C - 8), 8, 0),
    ];
    for (zone, reason, before_next) in bad {
        let mut expected = Reasons::default();
        expected.records.given[reason] = 1;
        expected.records.before_next[reason] = before_next;
        assert_eq!(counted(&tape_with(&sheet_zones(), &[zone])), expected, "{zone:?}");
    }
}

/// After a record with condition 13 the file can be read, and no record may be better.
#[test]
fn better_conditions_are_counted() {
    let mut tape = tape_with(&sheet_zones(), &[zone(S, L, S, 2, 13, C)]);
    let call = CallRecord { verb: Verb::Read, kind: 1, number: 0, offset: 0, length: 4096 };
    encode(&Record::Call(call), &mut tape);
    let records = [zone(S + 8, L, S + 8, 2, 13, C), zone(S + 8, L, S + 8, 2, 2, C), zone(S, L, S, 2, 14, C)];
    records.iter().for_each(|zone| encode(&Record::Failed(seq(0), &record(zone)), &mut tape));
    let mut expected = Reasons::default();
    (expected.records.given[8], expected.records.before_next[8]) = (2, 1);
    expected.records.given[9] = 1;
    assert_eq!(counted(&tape), expected);
    assert_eq!(lines(&tape)[4..], ["NO 1 0 9 8", "NO 1 0 9 8", "NO 1 0 9 9"]);
}

#[test]
fn missing_reasons_are_named() {
    let mut tally = Tally::default();
    let all = tally.reasons.missing();
    // 7 and 8 reasons, 6 and 7 pairs, and the later zone.
    assert_eq!(all.len(), 7 + 8 + 6 + 7 + 1);
    for name in
        ["29 with reason 1", "29 with reason 6 before 7", "9 with reason 2", "9 with reason 8 before 9"]
    {
        assert!(all.contains(&name.to_string()), "{name}");
    }
    assert!(all.iter().all(|name| tally.missing().contains(name)));
    tally.reasons.zones.given = [0, 1, 2, 3, 4, 5, 6, 7, 0, 0];
    tally.reasons.zones.before_next = [0, 11, 12, 13, 0, 15, 16, 0, 0, 0];
    tally.reasons.records.given = [0, 0, 2, 3, 4, 5, 6, 7, 8, 0];
    tally.reasons.records.before_next = [0, 0, 22, 23, 24, 25, 26, 27, 28, 0];
    let missing =
        ["29 with reason 4 before 5", "9 with reason 9", "29 before a lower reason of a later zone"];
    assert_eq!(tally.reasons.missing(), missing);
    tally.reasons.lower_behind = 3;
    let mut sum = tally.clone();
    sum.add(&tally);
    let text = ", reasons of 29 2/4/6/8/10/12/14, of 9 4/6/8/10/12/14/16/0, before the next one 22/24/26/0/30/32 and 44/46/48/50/52/54/56, before a lower one of a later zone 6";
    assert!(sum.summary().ends_with(text), "{}", sum.summary());
}
