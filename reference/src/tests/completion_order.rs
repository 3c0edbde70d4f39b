//! Completions with several files busy: which file they concern, in which order they check, and what they leave alone.

use super::*;
use crate::player::types::{Access, Command, Condition, Held, Operation, Policy, Reason, Row};

/// Zone 3 of the sheet, which is seq/0, after one block of a write at its size has landed.
fn landed() -> [u8; 64] {
    record(&zone(1572864, 524288, 1572880, 2, 2, 393216))
}

/// The same of zone 4, which is seq/1.
fn landed_in_second() -> [u8; 64] {
    record(&zone(2097152, 524288, 2097160, 2, 2, 393216))
}

/// Both sequential files and one conventional file have writes outstanding.
fn three_busy(options: &str) -> Volume {
    let mut volume = sheet_under(options);
    for call in [write(SEQ, 0, 4096, 8192), write(SEQ, 1, 0, 8192), write(CNV, 1, 0, 5)] {
        volume.call(&call).unwrap();
    }
    volume
}

/// The number that a completion is answered; it may be of a kind that no file has. A refusal must change nothing.
fn answer(volume: &Volume, named: &Named, failed: Option<&[u8]>) -> u32 {
    let mut trial = volume.clone();
    let (answer, taken) = match failed {
        None => (trial.recorded_success(named), 0),
        Some(record) => (trial.recorded_failure(named, record), 7),
    };
    if answer.is_err() {
        assert_eq!(&trial, volume, "a refused completion changes nothing");
    }
    answer.map_or_else(Refusal::number, |_| taken)
}

/// What can be wrong, in the order of the checks, and the number of each.
const FAULTS: [(&str, u32); 6] =
    [("counts", 10), ("file", 1), ("idle", 8), ("row", 10), ("command", 10), ("record", 9)];

/// Every set of faults, each put in by all of its ways: the first in the order is answered. The three that are answered
/// 10 can be told from each other by what comes between.
#[test]
fn the_order_of_the_checks() {
    for set in 0..1u32 << FAULTS.len() {
        let has = |fault: &str| {
            FAULTS.iter().zip(0..).any(|((name, _), bit)| *name == fault && set >> bit & 1 == 1)
        };
        let first = FAULTS.iter().find(|(name, _)| has(name)).map(|(_, number)| *number);
        for way in 0..3 {
            let volume = spoilt(&has, way);
            let absent = [seq(2), seq(u32::MAX), Named { kind: 2, number: 0 }][way];
            let named = if has("file") { absent } else { seq(0) };
            let other = landed_in_second();
            let records: [&[u8]; 3] = [&[], &[0; 64], &other];
            let good = landed();
            let record = if has("record") { records[way] } else { &good };
            assert_eq!(answer(&volume, &named, Some(record)), first.unwrap_or(7), "set {set:b} way {way}");
            // A good completion has no record to look at.
            let without_record = first.filter(|&number| number != 9).unwrap_or(0);
            assert_eq!(answer(&volume, &named, None), without_record, "set {set:b} way {way}");
        }
    }
}

fn spoilt(has: &impl Fn(&str) -> bool, way: usize) -> Volume {
    let mut volume = three_busy("errors=repair");
    if has("command") {
        volume.seq[0].held = [
            Held::of_words([8, 805310464, 8192]),
            Held::of_words([2, 805310464, 8191]),
            Held::of_words([3, 805306368, 1]),
        ][way];
    }
    if has("idle") {
        volume.seq[0].held = Held::Nothing;
    }
    if has("row") {
        let broken: [fn(&mut Row); 3] =
            [|row| row.size += 1, |row| row.start = 0, |row| row.condition = Condition::Offline];
        broken[way](&mut volume.seq[0]);
    }
    if has("counts") {
        let broken: [fn(&mut Volume); 3] = [
            |volume| volume.mount.block = 1024,
            |volume| volume.mount.cnv_files = 65_536,
            |volume| volume.seq.truncate(1),
        ];
        broken[way](&mut volume);
    }
    volume
}

/// A row that was never a file's isn't there, whatever it holds.
#[test]
fn rows_past_the_files_are_not_there() {
    let mut volume = three_busy("");
    volume.seq[2] = Row { start: 2621440, ..volume.seq[1] };
    assert_eq!((answer(&volume, &seq(2), None), answer(&volume, &seq(2), Some(&landed()))), (1, 1));
    volume.mount.seq_files = 1;
    assert_eq!((answer(&volume, &seq(1), None), answer(&volume, &seq(0), None)), (1, 0));
}

/// A word that is no command's is outstanding for 8, and impossible.
#[test]
fn words_that_are_no_command() {
    for word in [8, 9, 255, 1 << 32, (1 << 32) + 2, u64::MAX] {
        let mut volume = sheet();
        volume.seq[0].held = Held::of_words([word, 805310464, 8192]);
        assert_eq!((answer(&volume, &seq(0), None), answer(&volume, &seq(0), Some(&landed()))), (10, 10));
        assert_eq!((answer(&volume, &seq(1), None), answer(&volume, &cnv(0), None)), (8, 8));
    }
}

/// What other rows hold, and whether they break their rules, isn't looked at.
#[test]
fn other_rows_do_not_matter() {
    let mut volume = three_busy("errors=repair");
    volume.seq[1] = Row { size: 1, held: Held::of_words([9, 9, 9]), ..volume.seq[1] };
    volume.cnv[1].held = Held::of_words([5, 0, 7]);
    assert_eq!((answer(&volume, &seq(0), None), answer(&volume, &seq(0), Some(&landed()))), (0, 7));
}

/// Of three commands, each completion ends the one of its own file and moves no other row.
#[test]
fn a_completion_concerns_its_own_file() {
    let before = three_busy("errors=repair");
    let mut volume = before.clone();
    assert_eq!(volume.succeed(SEQ, 1), Ok(8192));
    let mut expected = before.clone();
    expected.seq[1] = Row { size: 8192, ..before.seq[1].idle() };
    expected.account.active = 2;
    assert!(volume == expected);
    assert_eq!(volume.fail(SEQ, 0, &landed(), true), Ok(8192));
    expected.seq[0] = Row { size: 8192, ..before.seq[0].idle() };
    assert_eq!(volume, expected);
    assert_eq!(volume.succeed(SEQ, 1), Err(Refusal::NothingOutstanding));
    assert_eq!(volume.fail(SEQ, 0, &landed(), true), Err(Refusal::NothingOutstanding));
    assert_eq!(volume.succeed(CNV, 1), Ok(5));
    expected.cnv[1].held = Held::Nothing;
    assert_eq!(volume, expected);
    assert_eq!(expected.seq[0].held.words(), [0, 0, 0]);
}

/// A failed read that finds all well changes nothing but that its command has gone.
#[test]
fn a_harmless_failure_ends_the_command() {
    let mut volume = three_busy("errors=remount-ro");
    volume.seq[0].held = Held::Nothing;
    let idle = volume.clone();
    volume.call(&read(SEQ, 0, 0, 4096)).unwrap();
    assert_ne!(volume, idle);
    let well = record(&zone(1572864, 524288, 1572872, 2, 2, 393216));
    assert_eq!(volume.fail(SEQ, 0, &well, true), Ok(4096));
    assert_eq!(volume, idle);
}

/// The record of another busy file doesn't fit, and both stay outstanding.
#[test]
fn a_record_of_another_busy_file() {
    let mut volume = three_busy("errors=repair");
    let before = volume.clone();
    let mismatch = Err(Refusal::RecordMismatch(Reason::OtherZone));
    assert_eq!(volume.fail(SEQ, 0, &landed_in_second(), true), mismatch);
    assert_eq!(volume.fail(SEQ, 1, &landed(), true), mismatch);
    assert_eq!(volume.fail(CNV, 1, &landed(), true), mismatch);
    assert_eq!(volume, before);
}

/// A recovery under remount-ro sets the mark and leaves the other commands; a write then still moves its size.
#[test]
fn commands_of_other_files_outlive_a_remount() {
    let mut volume = three_busy("errors=remount-ro");
    let before = volume.clone();
    assert_eq!(volume.fail(SEQ, 1, &landed_in_second(), true), Ok(4096));
    let mut expected = before.clone();
    expected.mount.read_only = true;
    expected.account.active = 2;
    expected.seq[1] = Row { size: 4096, ..before.seq[1].idle() };
    assert_eq!(volume, expected);
    assert_eq!(number(volume.call(&flush(SEQ, 1))), 3);
    assert_eq!(number(volume.call(&flush(SEQ, 0))), 2);
    assert_eq!(volume.succeed(SEQ, 0), Ok(8192));
    expected.seq[0] = Row { size: 12288, ..before.seq[0].idle() };
    assert_eq!(volume.succeed(CNV, 1), Ok(5));
    expected.cnv[1].held = Held::Nothing;
    assert_eq!(volume, expected);
}

/// A second failure on a mount that is read-only recovers as the first did, and the mark stays.
#[test]
fn a_failure_on_a_read_only_mount() {
    let mut volume = three_busy("errors=remount-ro");
    assert_eq!(volume.fail(SEQ, 1, &landed_in_second(), true), Ok(4096));
    assert_eq!(volume.fail(SEQ, 0, &landed(), true), Ok(8192));
    assert_eq!((volume.seq[0].size, volume.seq[0].held), (8192, Held::Nothing));
    assert!(volume.mount.read_only);
}

/// No other option marks the mount, whatever else is outstanding.
#[test]
fn only_remount_ro_sets_the_mark() {
    for options in ["errors=zone-ro", "errors=zone-offline", "errors=repair"] {
        let mut volume = three_busy(options);
        let before = volume.clone();
        volume.fail(SEQ, 1, &landed_in_second(), true).unwrap();
        assert_eq!((&volume.mount, &volume.cnv, volume.seq[0]), (&before.mount, &before.cnv, before.seq[0]));
    }
}

/// Every command that a call issues, on a mount that has become read-only under any option: the test doesn't look at the
/// mark, though no call would be answered 0 there.
#[test]
fn the_mark_does_not_matter() {
    let calls = [
        (write(SEQ, 0, 4096, 8192), 12288),
        (truncate(SEQ, 0, 0), 0),
        (truncate(SEQ, 0, 201326592), 201326592),
        (flush(SEQ, 0), 4096),
    ];
    for policy in [Policy::RemountReadOnly, Policy::ZoneReadOnly, Policy::ZoneOffline, Policy::Repair] {
        for (call, size) in calls {
            let mut volume = sheet();
            volume.mount.policy = policy;
            volume.call(&call).unwrap();
            volume.mount.read_only = true;
            assert_eq!(number(volume.call(&call)), 2);
            assert_eq!(answer(&volume, &seq(0), Some(&landed())), 7, "{call:?}");
            assert!(volume.succeed(SEQ, 0).is_ok(), "{call:?}");
            assert_eq!((volume.seq[0].size, volume.mount.read_only), (size, true));
            assert_eq!(number(volume.call(&call)), 3);
        }
    }
}

/// It looks at all else as before: with less access no call issues the command.
#[test]
fn the_row_of_a_held_command_matters() {
    for read_only in [false, true] {
        for (call, least) in [
            (write(SEQ, 0, 4096, 8192), Access::Write),
            (truncate(SEQ, 0, 0), Access::Write),
            (flush(SEQ, 0), Access::Write),
            (read(SEQ, 0, 0, 4096), Access::Read),
        ] {
            let mut volume = sheet();
            volume.call(&call).unwrap();
            (volume.mount.read_only, volume.seq[0].access) = (read_only, Access::Read);
            let expected = if least == Access::Read { 0 } else { 10 };
            assert_eq!(answer(&volume, &seq(0), None), expected, "{call:?}");
            (volume.seq[0].access, volume.seq[0].size) = (Access::None, 0);
            assert_eq!(answer(&volume, &seq(0), None), 10, "{call:?}");
        }
        let mut volume = sheet();
        let reset = Command { operation: Operation::Reset, address: 268435456, length: 0 };
        (volume.mount.read_only, volume.cnv[0].held) = (read_only, Held::Command(reset));
        assert_eq!(answer(&volume, &cnv(0), None), 10, "a conventional file isn't reset");
    }
}
