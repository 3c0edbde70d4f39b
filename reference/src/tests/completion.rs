//! Completions: numbers 7 to 10 and the recovery table.

use super::*;
use crate::player::types::{Access, Command, Condition, Held, Operation, Reason, Row};

const OPTIONS: [&str; 4] = ["errors=remount-ro", "errors=zone-ro", "errors=zone-offline", "errors=repair"];

/// Answer 9 with a reason.
fn mismatch(reason: Reason) -> Result<u64, Refusal> {
    Err(Refusal::RecordMismatch(reason))
}

/// Zone 3 of the sheet with this pointer and condition.
fn sequential(pointer: u64, condition: u8) -> [u8; 64] {
    record(&zone(1572864, 524288, pointer, 2, condition, 393216))
}

/// The second file's zone.
fn conventional(condition: u8) -> [u8; 64] {
    record(&zone(1048576, 524288, 0, 1, condition, 524288))
}

#[test]
fn nothing_outstanding() {
    assert_eq!(sheet().succeed(SEQ, 0), Err(Refusal::NothingOutstanding));
    assert_eq!(sheet().fail(SEQ, 0, &[], true), Err(Refusal::NothingOutstanding));
}

#[test]
fn success() {
    let cases = [
        (write(SEQ, 0, 4096, 8192), 8192, 12288),
        (truncate(SEQ, 0, 0), 0, 0),
        (truncate(SEQ, 0, 201326592), 0, 201326592),
        (read(SEQ, 0, 1, 20), 20, 4096),
        (flush(SEQ, 0), 0, 4096),
    ];
    for (call, count, size) in cases {
        let mut volume = sheet();
        volume.call(&call).unwrap();
        assert_eq!(volume.succeed(SEQ, 0), Ok(count));
        assert_eq!(volume.seq[0], Row { size, ..sheet().seq[0] });
    }
    let mut volume = sheet();
    volume.call(&write(CNV, 1, 0, 5)).unwrap();
    assert_eq!(volume.succeed(CNV, 1), Ok(5));
    assert_eq!(volume.cnv[1], sheet().cnv[1]);
}

/// The whole table, for a failed write of which one block landed, in zone 3 and in the second cnv file.
#[test]
fn recovery_table() {
    let (w, r, n) = (Access::Write, Access::Read, Access::None);
    let full = 268435456;
    // Size and access of the seq file, then size of the cnv file, by healthy, read-only, offline.
    let table = [
        [(8192, w, full), (4096, r, full), (0, n, 0)],
        [(8192, r, full), (4096, r, full), (0, n, 0)],
        [(0, n, 0), (0, n, 0), (0, n, 0)],
        [(8192, w, full), (4096, r, full), (0, n, 0)],
    ];
    let conditions = [Condition::Healthy, Condition::ReadOnly, Condition::Offline];
    for (options, cells) in OPTIONS.iter().zip(table) {
        for ((size, access, cnv_size), (index, condition)) in
            cells.into_iter().zip(conditions.into_iter().enumerate())
        {
            let mut volume = sheet_under(options);
            let before = volume.clone();
            volume.call(&write(SEQ, 0, 4096, 8192)).unwrap();
            assert_eq!(volume.fail(SEQ, 0, &sequential(1572880, [2, 13, 15][index]), true), Ok(size));
            assert_eq!(
                volume.seq[0],
                Row { size, access, condition, ..before.seq[0] },
                "{options} {condition:?}"
            );
            assert_eq!(volume.mount.read_only, *options == "errors=remount-ro");
            assert_eq!((&volume.cnv, volume.seq[1]), (&before.cnv, before.seq[1]));

            let mut volume = sheet_under(options);
            volume.call(&write(CNV, 1, 4096, 8192)).unwrap();
            assert_eq!(volume.fail(CNV, 1, &conventional([0, 13, 15][index]), true), Ok(cnv_size));
            assert_eq!(volume.cnv[1], Row { size: cnv_size, access, condition, ..before.cnv[1] });
        }
    }
}

#[test]
fn failed_read_that_finds_all_well_recovers_nothing() {
    for options in OPTIONS {
        let mut volume = sheet_under(options);
        let before = volume.clone();
        volume.call(&read(SEQ, 0, 0, 4096)).unwrap();
        assert_eq!(volume.fail(SEQ, 0, &sequential(1572872, 2), true), Ok(4096));
        assert_eq!(volume, before);
        volume.call(&read(CNV, 1, 0, 4096)).unwrap();
        assert_eq!(volume.fail(CNV, 1, &conventional(0), true), Ok(268435456));
        assert_eq!(volume, before);
    }
}

#[test]
fn failed_read_that_finds_something_recovers() {
    let mut volume = sheet();
    volume.call(&read(SEQ, 0, 0, 4096)).unwrap();
    assert_eq!(volume.fail(SEQ, 0, &sequential(1572864, 1), true), Ok(0));
    let mut volume = sheet_under("");
    volume.call(&read(SEQ, 0, 0, 4096)).unwrap();
    assert_eq!(volume.fail(SEQ, 0, &sequential(0, 13), true), Ok(4096));
    assert!(volume.mount.read_only);
    assert_eq!(volume.seq[0].access, Access::Read);
}

#[test]
fn access_never_rises() {
    let mut volume = sheet();
    volume.seq[0].access = Access::Read;
    volume.call(&read(SEQ, 0, 0, 4096)).unwrap();
    assert_eq!(volume.fail(SEQ, 0, &sequential(1572864, 1), true), Ok(0));
    assert_eq!(volume.seq[0].access, Access::Read);
}

#[test]
fn records_that_do_not_fit() {
    const S: u64 = 1572864;
    let mut volume = sheet();
    volume.call(&write(SEQ, 0, 4096, 8192)).unwrap();
    let before = volume.clone();
    let bad = [
        (zone(S + 8, 524288, S + 8, 2, 2, 393216), Reason::OtherZone),
        (zone(S, 524288, S + 8, 2, 2, 393208), Reason::OtherZone),
        (zone(S, 524288, S + 8, 1, 0, 524288), Reason::OtherZone),
        (zone(S, 524288, S + 4, 2, 2, 393216), Reason::Pointer),
        (zone(S, 524288, S + 8, 2, 14, 393208), Reason::OtherZone),
        (zone(S + 8, 524288, S + 8, 2, 14, 393216), Reason::OtherZone),
        (zone(S, 393208, S + 393216, 2, 14, 393216), Reason::Capacity),
        (zone(S, 524288, S + 8, 1, 14, 524288), Reason::Condition),
        (zone(S, 524288, S + 8, 2, 0, 393216), Reason::Condition),
        (zone(S, 393208, S + 8, 2, 2, 393216), Reason::Capacity),
        (zone(S, 1 << 40, S + 8, 2, 2, 393216), Reason::End),
    ];
    for (zone, reason) in bad {
        assert_eq!(volume.fail(SEQ, 0, &record(&zone), true), mismatch(reason), "{zone:?}");
    }
    assert_eq!(volume.fail(SEQ, 0, &sequential(1572880, 2)[..63], true), mismatch(Reason::NoRecord));
    // Without the flag the capacity is the length, which isn't the row's.
    assert_eq!(volume.fail(SEQ, 0, &sequential(1572880, 2), false), mismatch(Reason::OtherZone));
    assert_eq!(volume, before);
}

/// Pointers that no zone with one of the conditions 1 to 4 has. The fifth is the zone's end, past its capacity.
const BAD_POINTERS: [u64; 6] = [0, 1572864 - 8, 1572864 + 4, 1572864 + 393224, 1572864 + 524288, u64::MAX];
/// The start of zone 3, its size at mount, a block before its capacity's end, and that end.
const GOOD_POINTERS: [u64; 4] = [1572864, 1572872, 1966072, 1966080];

#[test]
fn a_bad_pointer_does_not_fit_unless_the_zone_is_full() {
    for pointer in BAD_POINTERS {
        for condition in 1..=4 {
            let mut volume = sheet();
            volume.call(&write(SEQ, 0, 4096, 8192)).unwrap();
            let before = volume.clone();
            let answer = volume.fail(SEQ, 0, &sequential(pointer, condition), true);
            assert_eq!(answer, mismatch(Reason::Pointer), "pointer {pointer} condition {condition}");
            assert_eq!(volume, before);
            assert_eq!(
                volume.fail(SEQ, 0, &sequential(pointer, 14), true),
                Ok(201326592),
                "pointer {pointer}"
            );
        }
    }
}

#[test]
fn a_good_pointer_counts_unless_the_zone_is_full() {
    for (pointer, size) in GOOD_POINTERS.into_iter().zip([0, 4096, 201322496, 201326592]) {
        for condition in 1..=4 {
            let mut volume = sheet();
            volume.call(&write(SEQ, 0, 4096, 8192)).unwrap();
            assert_eq!(volume.clone().fail(SEQ, 0, &sequential(pointer, condition), true), Ok(size));
            assert_eq!(volume.fail(SEQ, 0, &sequential(pointer, 14), true), Ok(201326592));
        }
    }
}

/// Every command but a read, under every option: by the table's column for a healthy zone.
#[test]
fn a_full_record_recovers_to_the_capacity() {
    let calls = [write(SEQ, 0, 4096, 8192), truncate(SEQ, 0, 0), truncate(SEQ, 0, 201326592), flush(SEQ, 0)];
    let cells = [
        (201326592, Access::Write),
        (201326592, Access::Read),
        (0, Access::None),
        (201326592, Access::Write),
    ];
    for (options, (size, access)) in OPTIONS.into_iter().zip(cells) {
        for call in calls {
            for pointer in [BAD_POINTERS.as_slice(), &GOOD_POINTERS].concat() {
                for kind in [2, 3] {
                    let mut volume = sheet_under(options);
                    let before = volume.clone();
                    volume.call(&call).unwrap();
                    let full = record(&zone(1572864, 524288, pointer, kind, 14, 393216));
                    assert_eq!(
                        volume.fail(SEQ, 0, &full, true),
                        Ok(size),
                        "{options} {call:?} pointer {pointer}"
                    );
                    assert_eq!(volume.seq[0], Row { size, access, ..before.seq[0] });
                    assert_eq!(volume.mount.read_only, options == "errors=remount-ro");
                    assert_eq!(volume.seq[1], before.seq[1]);
                }
            }
        }
    }
}

/// Zone 3 is full at mount with another pointer than the record has; the size is the capacity by both.
#[test]
fn a_failed_read_of_a_full_file_that_is_full_recovers_nothing() {
    for options in OPTIONS {
        for (at_mount, in_record) in [(0, u64::MAX), (1966080, 0), (1572864, 1966072), (1572872, 1572872)] {
            let mut zones = sheet_zones();
            zones[3] = zone(1572864, 524288, at_mount, 2, 14, 393216);
            let mut volume = mount_volume(&input_with(0, options, &zones)).unwrap();
            let before = volume.clone();
            volume.call(&read(SEQ, 0, 0, 4096)).unwrap();
            assert_eq!(volume.fail(SEQ, 0, &sequential(in_record, 14), true), Ok(201326592));
            assert_eq!(volume, before, "{options}, pointers {at_mount} and {in_record}");
        }
    }
}

/// The file has 4096 bytes, and the record's pointer stands there or elsewhere: full means the capacity.
#[test]
fn a_failed_read_of_a_shorter_file_whose_zone_is_full_recovers() {
    for pointer in [1572872, 0, 1572864, 1966080, u64::MAX] {
        let mut volume = sheet_under("errors=zone-ro");
        volume.call(&read(SEQ, 0, 0, 4096)).unwrap();
        assert_eq!(volume.fail(SEQ, 0, &sequential(pointer, 14), true), Ok(201326592), "pointer {pointer}");
        assert_eq!((volume.seq[0].size, volume.seq[0].access), (201326592, Access::Read));
        let mut volume = sheet_under("errors=remount-ro");
        volume.call(&read(SEQ, 0, 0, 4096)).unwrap();
        assert_eq!(volume.fail(SEQ, 0, &sequential(pointer, 14), true), Ok(201326592));
        assert!(volume.mount.read_only);
    }
}

/// A full file whose zone says one of 1 to 4: at the capacity's end all is well, a block before something is lost.
#[test]
fn a_failed_read_of_a_full_file_whose_zone_has_its_pointer() {
    for condition in 1..=4 {
        for (pointer, size, access) in
            [(1966080, 201326592, Access::Write), (1966072, 201322496, Access::Read)]
        {
            let mut zones = sheet_zones();
            zones[3] = zone(1572864, 524288, 0, 2, 14, 393216);
            let mut volume = mount_volume(&input_with(0, "errors=zone-ro", &zones)).unwrap();
            volume.call(&read(SEQ, 0, 0, 4096)).unwrap();
            assert_eq!(volume.fail(SEQ, 0, &sequential(pointer, condition), true), Ok(size));
            assert_eq!(volume.seq[0].access, access);
        }
    }
}

/// A full zone is as healthy as any: it can't come after a worse one.
#[test]
fn a_full_record_does_not_better_a_zone() {
    let mut volume = sheet();
    volume.seq[0].condition = Condition::ReadOnly;
    volume.seq[0].access = Access::Read;
    volume.call(&read(SEQ, 0, 0, 4096)).unwrap();
    assert_eq!(volume.fail(SEQ, 0, &sequential(0, 14), true), mismatch(Reason::BetterCondition));
}

#[test]
fn conventional_records_lie_within_the_file() {
    let mut volume = mount_volume(&input_with(1, "", &sheet_zones())).unwrap();
    volume.call(&write(CNV, 0, 0, 5)).unwrap();
    for (start, length) in [(0, 524288), (524288 - 8, 16), (1048576, 524296), (1572864, 8)] {
        let zone = zone(start, length, 0, 1, 0, length);
        assert_eq!(volume.fail(CNV, 0, &record(&zone), true), mismatch(Reason::OtherZone), "{zone:?}");
    }
    let past_every_disk = zone(u64::MAX - 7, 16, 0, 1, 0, 16);
    assert_eq!(volume.fail(CNV, 0, &record(&past_every_disk), true), mismatch(Reason::End));
    for (start, length) in [(524288, 1048576), (1572856, 8), (524289, 8)] {
        let zone = zone(start, length, 0, 1, 13, length);
        assert_eq!(volume.clone().fail(CNV, 0, &record(&zone), true), Ok(536870912), "{zone:?}");
    }
}

#[test]
fn a_sequential_zone_does_not_get_better() {
    let mut volume = sheet();
    volume.seq[0].condition = Condition::ReadOnly;
    volume.seq[0].access = Access::Read;
    volume.call(&read(SEQ, 0, 0, 4096)).unwrap();
    assert_eq!(volume.fail(SEQ, 0, &sequential(1572872, 2), true), mismatch(Reason::BetterCondition));
    assert_eq!(volume.fail(SEQ, 0, &sequential(1572872, 13), true), Ok(4096));
    assert_eq!(volume.seq[0].condition, Condition::ReadOnly);
}

/// A held command that no call would issue: number 10, before the record is looked at.
#[test]
fn impossible_held_commands() {
    let held = |number, operation, address, length| {
        let mut volume = sheet();
        volume.seq[number as usize].held = Held::Command(Command { operation, address, length });
        let before = volume.clone();
        let answers = (volume.succeed(SEQ, number), volume.fail(SEQ, number, &[], true));
        if answers.0.is_err() {
            assert_eq!(volume, before);
        }
        answers
    };
    let impossible = (Err(Refusal::Impossible), Err(Refusal::Impossible));
    const A: u64 = 805306368;
    assert_eq!(held(0, Operation::Flush, A, 4096), impossible);
    assert_eq!(held(0, Operation::Flush, A + 512, 0), impossible);
    assert_eq!(held(0, Operation::Flush, A - 512, 0), impossible);
    assert_eq!(held(0, Operation::Read, A, 4097), impossible);
    assert_eq!(held(0, Operation::Read, A, 0), impossible);
    assert_eq!(held(0, Operation::Write, A, 4096), impossible);
    assert_eq!(held(0, Operation::Write, A + 4096, 201326592), impossible);
    assert_eq!(held(1, Operation::Reset, 1073741824, 0), impossible);
    assert_eq!(held(1, Operation::Finish, A, 0), impossible);
    assert_eq!(held(0, Operation::Read, A + 4095, 1).0, Ok(1));
    assert_eq!(held(0, Operation::Finish, A, 0).0, Ok(0));
}
