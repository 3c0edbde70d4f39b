//! Opening by hand: what an open and a close are answered, what they move, and what the account says. The 10s are in
//! `accounts`.

use super::*;
use crate::player::calls::Reply::{Done, Issued};
use crate::player::types::{Access, Account, Command, Condition, Held, Operation, Row};

/// The sheet's disk with two more zones. seq/0 is begun, seq/1 is empty, seq/2 is full, seq/3 is empty.
pub fn zones() -> Vec<Zone> {
    let mut zones = sheet_zones();
    zones.push(zone(2621440, 524288, 0, 2, 14, 393216));
    zones.push(zone(3145728, 524288, 3145728, 2, 1, 393216));
    zones
}

/// Byte addresses of the four files.
pub const ADDRESSES: [u64; 4] = [805306368, 1073741824, 1342177280, 1610612736];
pub const CAPACITY: u64 = 201326592;

pub fn limited(options: &str, open_limit: u32, active_limit: u32) -> Volume {
    let input = Input { open_limit, active_limit, ..input_with(0, options, &zones()) };
    mount_volume(&input).unwrap()
}

pub fn by_hand() -> Volume {
    limited("errors=repair,explicit-open", 0, 0)
}

fn command(operation: Operation, number: u32) -> Command {
    Command { operation, address: ADDRESSES[number as usize], length: 0 }
}

fn issued(operation: Operation, number: u32) -> Result<Reply, Refusal> {
    Ok(Issued(command(operation, number)))
}

/// Open and active.
fn counts(volume: &Volume) -> (u32, u32) {
    (volume.account.open, volume.account.active)
}

fn opens(volume: &Volume) -> [u64; 4] {
    [0, 1, 2, 3].map(|number| volume.seq[number].opens)
}

/// Opens or closes, and completes what that commands.
fn done(volume: &mut Volume, call: &Call) {
    if let Ok(Issued(_)) = volume.call(call) {
        assert_eq!(volume.succeed(call.kind, call.number), Ok(0));
    }
}

/// A healthy record of a file's zone with so much written.
fn healthy(number: u32, bytes: u64) -> [u8; 64] {
    let start = ADDRESSES[number as usize] / 512;
    record(&zone(start, 524288, start + bytes / 512, 2, 2, 393216))
}

fn ill(number: u32, condition: u8) -> [u8; 64] {
    let start = ADDRESSES[number as usize] / 512;
    record(&zone(start, 524288, 0, 2, condition, 393216))
}

/// "The first open of a file that isn't full commands a zone open .. others are answered 0."
#[test]
fn opens_with_the_option() {
    let mut volume = by_hand();
    assert_eq!((counts(&volume), opens(&volume)), ((0, 1), [0; 4]));
    assert_eq!(volume.call(&open(SEQ, 0)), issued(Operation::Open, 0));
    assert_eq!((counts(&volume), opens(&volume)), ((1, 1), [1, 0, 0, 0]), "begun, so it was active");
    assert_eq!(volume.seq[0].held, Held::Command(command(Operation::Open, 0)));
    assert_eq!(volume.call(&open(SEQ, 1)), issued(Operation::Open, 1));
    assert_eq!((counts(&volume), opens(&volume)), ((2, 2), [1, 1, 0, 0]), "empty, so it becomes active");
    assert_eq!(volume.call(&open(SEQ, 2)), Ok(Done(0)));
    assert_eq!((counts(&volume), opens(&volume)), ((3, 2), [1, 1, 1, 0]), "full, so it doesn't");
    assert_eq!(volume.seq[2].held, Held::Nothing);
    // The file is busy until its open is done.
    for call in [open(SEQ, 0), close(SEQ, 0), write(SEQ, 0, 4096, 4096), read(SEQ, 0, 0, 0)] {
        assert_eq!(number(volume.call(&call)), 2);
    }
    let before = volume.clone();
    assert_eq!((volume.succeed(SEQ, 0), volume.succeed(SEQ, 1)), (Ok(0), Ok(0)));
    let mut expected = before;
    (expected.seq[0].held, expected.seq[1].held) = (Held::Nothing, Held::Nothing);
    assert!(volume == expected, "a good open moves nothing but what is held");
    for (file, expected) in [(0, [2, 1, 1, 0]), (1, [2, 2, 1, 0]), (2, [2, 2, 2, 0])] {
        assert_eq!(volume.call(&open(SEQ, file)), Ok(Done(0)));
        assert_eq!((counts(&volume), opens(&volume)), ((3, 2), expected));
    }
}

/// "The last close of one neither empty nor full a zone close; others are answered 0."
#[test]
fn closes_with_the_option() {
    let mut volume = by_hand();
    for file in [0, 1, 2] {
        done(&mut volume, &open(SEQ, file));
        done(&mut volume, &open(SEQ, file));
        assert_eq!(volume.call(&close(SEQ, file)), Ok(Done(0)), "not the last");
    }
    assert_eq!((counts(&volume), opens(&volume)), ((3, 2), [1, 1, 1, 0]));
    assert_eq!(volume.call(&close(SEQ, 0)), issued(Operation::Close, 0));
    assert_eq!((counts(&volume), opens(&volume)), ((2, 2), [0, 1, 1, 0]), "still begun, so active");
    assert_eq!(volume.seq[0].held, Held::Command(command(Operation::Close, 0)));
    assert_eq!(volume.call(&close(SEQ, 1)), Ok(Done(0)));
    assert_eq!((counts(&volume), opens(&volume)), ((1, 1), [0, 0, 1, 0]), "empty, so active no more");
    assert_eq!(volume.call(&close(SEQ, 2)), Ok(Done(0)));
    assert_eq!((counts(&volume), opens(&volume)), ((0, 1), [0, 0, 0, 0]));
    let before = volume.clone();
    assert_eq!(volume.succeed(SEQ, 0), Ok(0));
    let mut expected = before;
    expected.seq[0].held = Held::Nothing;
    assert!(volume == expected, "a good close moves nothing but what is held");
    for file in 0..4 {
        assert_eq!(number(volume.call(&close(SEQ, file))), 13);
        assert!(volume == expected);
    }
}

/// An open that follows a close commands again: the file had no open.
#[test]
fn opening_again() {
    let mut volume = by_hand();
    for _ in 0..3 {
        assert_eq!(volume.call(&open(SEQ, 0)), issued(Operation::Open, 0));
        assert_eq!(volume.succeed(SEQ, 0), Ok(0));
        assert_eq!(volume.call(&close(SEQ, 0)), issued(Operation::Close, 0));
        assert_eq!(volume.succeed(SEQ, 0), Ok(0));
    }
    assert_eq!((counts(&volume), opens(&volume)), ((0, 1), [0; 4]));
}

/// "Without the option they only count and command nothing."
#[test]
fn without_the_option() {
    let mut volume = limited("errors=repair", 1, 1);
    for file in [0, 1, 2, 3, 1] {
        assert_eq!(volume.call(&open(SEQ, file)), Ok(Done(0)), "no limit either");
    }
    assert_eq!((counts(&volume), opens(&volume)), ((4, 1), [1, 2, 1, 1]), "an open one isn't active by that");
    assert!(volume.all_outstanding().is_empty());
    for (file, answer) in [(0, 0), (1, 0), (1, 0), (1, 13), (2, 0), (2, 13), (3, 0), (0, 13)] {
        let reply = volume.call(&close(SEQ, file));
        assert!(matches!(reply, Ok(Done(0)) | Err(_)));
        assert_eq!(number(reply), answer);
    }
    assert_eq!((counts(&volume), opens(&volume)), ((0, 1), [0; 4]));
    assert_eq!(number(volume.call(&write(SEQ, 1, 0, 4096))), 0, "no open is needed");
    volume.succeed(SEQ, 1).unwrap();
    assert_eq!(counts(&volume), (0, 2));
}

/// "On cnv both are answered 0 after 2": whatever the mount, the access and the opens are, and nothing moves.
#[test]
fn conventional_files() {
    for options in ["", "explicit-open"] {
        for call in [open(CNV, 0), close(CNV, 0)] {
            let changes: [fn(&mut Volume); 6] = [
                |_| {},
                |volume| volume.mount.read_only = true,
                |volume| volume.cnv[0].access = Access::Read,
                |volume| (volume.cnv[0].access, volume.cnv[0].size) = (Access::None, 0),
                |volume| volume.cnv[0].opens = 65_535,
                |volume| volume.cnv[0].opens = u64::MAX,
            ];
            for change in changes {
                let mut volume = limited(options, 1, 1);
                change(&mut volume);
                let before = volume.clone();
                assert_eq!(volume.call(&call), Ok(Done(0)));
                assert!(volume == before);
            }
            let mut volume = limited(options, 0, 0);
            volume.call(&flush(CNV, 0)).unwrap();
            assert_eq!(number(volume.call(&call)), 2);
            assert_eq!(number(volume.call(&Call { number: 2, ..call })), 1);
            volume.cnv[0].start = 0;
            assert_eq!(number(volume.call(&call)), 10);
        }
    }
}

/// A conventional file is written without an open, and a sequential one read, truncated and flushed.
#[test]
fn what_needs_no_open() {
    let mut volume = by_hand();
    assert_eq!(number(volume.call(&write(CNV, 0, 7, 9))), 0);
    for call in [read(SEQ, 0, 0, 4096), truncate(SEQ, 1, CAPACITY), truncate(SEQ, 2, 0), flush(SEQ, 3)] {
        assert!(matches!(volume.call(&call), Ok(Issued(_))), "{call:?}");
    }
    assert_eq!((counts(&volume), opens(&volume)), ((0, 1), [0; 4]));
}

/// Every set of faults that an open of an empty file can meet: the first in the order is answered, and nothing moves.
#[test]
fn the_order_of_an_open() {
    type Fault = (u32, fn(&mut Volume));
    let faults: [Fault; 8] = [
        (10, |volume| volume.mount.block = 1024),
        (1, |volume| (volume.mount.seq_files, volume.account.active) = (1, 1)),
        (10, |volume| volume.seq[1].start = 0),
        (2, |volume| volume.seq[1].held = Held::of_words([5, ADDRESSES[1], 0])),
        (3, |volume| volume.mount.read_only = true),
        (4, |volume| volume.seq[1].access = Access::Read),
        (11, |volume| (volume.account.open, volume.account.open_limit) = (1, 1)),
        (12, |volume| (volume.account.active, volume.account.active_limit) = (1, 1)),
    ];
    for set in 0..1u32 << faults.len() {
        let mut volume = by_hand();
        let in_set = |place: &usize| set >> place & 1 == 1;
        let chosen: Vec<Fault> = (0..faults.len()).filter(in_set).map(|place| faults[place]).collect();
        chosen.iter().for_each(|(_, put)| put(&mut volume));
        let before = volume.clone();
        let first = chosen.first().map_or(0, |(number, _)| *number);
        assert_eq!(number(volume.call(&open(SEQ, 1))), first, "set {set:b}");
        assert!(first == 0 || volume == before, "set {set:b}");
    }
}

/// 14 stands behind 2 and 3; no limit is looked at with it, as the open raises no count. With less access than write opens
/// are 10, so 4 never meets it.
#[test]
fn the_order_of_a_65536th_open() {
    for options in ["errors=repair", "errors=repair,explicit-open"] {
        let many = |opens: u64| {
            let mut volume = limited(options, 1, 1);
            (volume.seq[0].opens, volume.account.open) = (opens, 1);
            volume
        };
        for opens in [1, 2, 65_533, 65_534] {
            let mut volume = many(opens);
            assert_eq!(volume.call(&open(SEQ, 0)), Ok(Done(0)), "{opens}");
            assert_eq!((volume.seq[0].opens, counts(&volume)), (opens + 1, (1, 1)));
        }
        for opens in [65_535, 65_536, 1 << 32, u64::MAX] {
            let volume = many(opens);
            let answer = |change: fn(&mut Volume)| {
                let mut trial = volume.clone();
                change(&mut trial);
                let before = trial.clone();
                let answer = number(trial.call(&open(SEQ, 0)));
                assert!(trial == before);
                answer
            };
            assert_eq!(answer(|_| {}), 14);
            assert_eq!(answer(|volume| volume.account.active_limit = 0), 14);
            assert_eq!(answer(|volume| volume.mount.read_only = true), 3);
            assert_eq!(answer(|volume| volume.seq[0].held = Held::of_words([9, 9, 9])), 2);
            assert_eq!(answer(|volume| volume.seq[0].access = Access::Read), 10);
            let mut volume = volume;
            assert_eq!(volume.call(&close(SEQ, 0)), Ok(Done(0)), "a close is still taken");
            assert_eq!(volume.seq[0].opens, opens - 1);
        }
    }
}

/// One by one, with the option and without.
#[test]
fn so_many_opens_of_one_file() {
    for options in ["", "explicit-open"] {
        let mut volume = limited(options, 0, 0);
        done(&mut volume, &open(SEQ, 1));
        for _ in 1..65_535 {
            assert_eq!(volume.call(&open(SEQ, 1)), Ok(Done(0)));
        }
        assert_eq!(volume.seq[1].opens, 65_535);
        assert_eq!(volume.call(&open(SEQ, 1)), Err(Refusal::TooManyOpens));
        assert_eq!(volume.call(&open(SEQ, 2)), Ok(Done(0)), "another file has its own");
        assert_eq!(volume.call(&close(SEQ, 1)), Ok(Done(0)));
        assert_eq!(volume.call(&open(SEQ, 1)), Ok(Done(0)));
        assert_eq!(volume.call(&open(SEQ, 1)), Err(Refusal::TooManyOpens));
        assert_eq!(counts(&volume), (2, 1 + u32::from(options == "explicit-open")));
    }
}

/// Every set of faults that a close can meet. The mount is read-only and the file can't be written all the while: it
/// "skips 3 and 4".
#[test]
fn the_order_of_a_close() {
    type Fault = (u32, fn(&mut Volume));
    let faults: [Fault; 4] = [
        (10, |volume| volume.account.open = 5),
        (1, |volume| (volume.mount.seq_files, volume.account.active) = (1, 1)),
        (10, |volume| volume.seq[1].capacity = 0),
        (2, |volume| volume.seq[1].held = Held::of_words([5, ADDRESSES[1], 0])),
    ];
    for set in 0..1u32 << faults.len() {
        let mut volume = by_hand();
        (volume.mount.read_only, volume.seq[1].access) = (true, Access::None);
        let in_set = |place: &usize| set >> place & 1 == 1;
        let chosen: Vec<Fault> = (0..faults.len()).filter(in_set).map(|place| faults[place]).collect();
        chosen.iter().for_each(|(_, put)| put(&mut volume));
        let before = volume.clone();
        let first = chosen.first().map_or(13, |(number, _)| *number);
        assert_eq!(number(volume.call(&close(SEQ, 1))), first, "set {set:b}");
        assert!(volume == before, "set {set:b}");
    }
}

#[test]
fn a_close_on_a_read_only_mount() {
    let mut volume = by_hand();
    (0..3).for_each(|file| done(&mut volume, &open(SEQ, file)));
    volume.mount.read_only = true;
    assert_eq!(volume.call(&close(SEQ, 0)), issued(Operation::Close, 0));
    assert_eq!(volume.succeed(SEQ, 0), Ok(0));
    assert_eq!((volume.call(&close(SEQ, 1)), volume.call(&close(SEQ, 2))), (Ok(Done(0)), Ok(Done(0))));
    assert_eq!(counts(&volume), (0, 1));
}

/// "With the option so does a seq write to a file not open, after 4 and before 5": every set of faults.
#[test]
fn the_order_of_a_write() {
    for set in 0..16u32 {
        let has = |bit: u32| set >> bit & 1 == 1;
        for shut in [false, true] {
            let mut volume = by_hand();
            if !shut {
                done(&mut volume, &open(SEQ, 0));
            }
            volume.mount.read_only = has(0);
            if has(1) {
                (volume.seq[0].access, volume.seq[0].opens) = (Access::Read, 0);
            }
            let offset = if has(3) { 4097 } else { 4096 };
            let length = if has(2) { CAPACITY } else { 4096 };
            let numbers = [(has(0), 3), (has(1), 4), (shut, 13), (has(2), 5), (has(3), 6)];
            let first = numbers.iter().find(|(is, _)| *is).map_or(0, |(_, number)| *number);
            assert_eq!(number(volume.call(&write(SEQ, 0, offset, length))), first, "set {set:b} shut {shut}");
        }
    }
    assert_eq!(number(by_hand().call(&write(SEQ, 0, 4096, 0))), 13, "also where nothing would be written");
}

/// "An open that would raise the open count above its limit answers 11", and no other call.
#[test]
fn the_open_limit() {
    for limit in [1, 2, 3] {
        let mut volume = limited("errors=repair,explicit-open", limit, 0);
        for file in 0..limit {
            done(&mut volume, &open(SEQ, file));
        }
        assert_eq!(volume.account.open, limit);
        let before = volume.clone();
        for file in limit..4 {
            assert_eq!(volume.call(&open(SEQ, file)), Err(Refusal::OpenLimit));
            assert!(volume == before);
        }
        assert_eq!(volume.call(&open(SEQ, 0)), Ok(Done(0)), "a further open raises nothing");
        done(&mut volume, &close(SEQ, 0));
        done(&mut volume, &close(SEQ, 0));
        assert_eq!(number(volume.call(&open(SEQ, 3))), 0, "there is room again");
        assert_eq!(volume.account.open, limit);
    }
    // 0 means none, and the largest is never met.
    for limit in [0, 4, u32::MAX] {
        let mut volume = limited("errors=repair,explicit-open", limit, 0);
        (0..4).for_each(|file| assert_eq!(number(volume.call(&open(SEQ, file))), 0));
    }
    // A full file counts as open too.
    let mut volume = limited("errors=repair,explicit-open", 1, 0);
    assert_eq!(volume.call(&open(SEQ, 2)), Ok(Done(0)));
    assert_eq!(volume.call(&open(SEQ, 0)), Err(Refusal::OpenLimit));
}

/// ".. the active count 12": of an empty file alone, as others are active already or don't become so.
#[test]
fn the_active_limit() {
    let mut volume = limited("errors=repair,explicit-open", 0, 2);
    done(&mut volume, &open(SEQ, 1));
    assert_eq!(counts(&volume), (1, 2));
    let before = volume.clone();
    assert_eq!(volume.call(&open(SEQ, 3)), Err(Refusal::ActiveLimit));
    assert!(volume == before);
    for file in [0, 1, 2] {
        assert_eq!(number(volume.call(&open(SEQ, file))), 0);
    }
    volume.succeed(SEQ, 0).unwrap();
    done(&mut volume, &close(SEQ, 1));
    assert_eq!(volume.call(&open(SEQ, 3)), Err(Refusal::ActiveLimit), "one open is left");
    done(&mut volume, &close(SEQ, 1));
    assert_eq!(counts(&volume), (2, 1));
    assert_eq!(number(volume.call(&open(SEQ, 3))), 0);
    assert_eq!(counts(&volume), (3, 2));
}

/// A mount may lie above its limit, and the begun files can still be opened.
#[test]
fn a_mount_above_the_active_limit() {
    let mut zones = zones();
    zones[6] = zone(3145728, 524288, 3145736, 2, 4, 393216);
    let input = Input { active_limit: 1, ..input_with(0, "errors=repair,explicit-open", &zones) };
    let mut volume = mount_volume(&input).unwrap();
    assert_eq!(counts(&volume), (0, 2));
    assert_eq!(volume.call(&open(SEQ, 1)), Err(Refusal::ActiveLimit));
    assert_eq!(volume.call(&open(SEQ, 0)), issued(Operation::Open, 0));
    assert_eq!(volume.call(&open(SEQ, 3)), issued(Operation::Open, 3));
    assert_eq!(volume.call(&truncate(SEQ, 2, 0)), issued(Operation::Reset, 2));
    assert_eq!(counts(&volume), (2, 2));
}

/// 11 comes before 12.
#[test]
fn both_limits() {
    let mut volume = limited("errors=repair,explicit-open", 1, 1);
    assert_eq!(volume.call(&open(SEQ, 1)), Err(Refusal::ActiveLimit));
    done(&mut volume, &open(SEQ, 0));
    assert_eq!(volume.call(&open(SEQ, 1)), Err(Refusal::OpenLimit));
    volume.account.open_limit = 2;
    assert_eq!(volume.call(&open(SEQ, 1)), Err(Refusal::ActiveLimit));
    assert_eq!(volume.call(&open(SEQ, 2)), Ok(Done(0)));
}

/// Writes, resets and finishes move the active count as they are done, and look at no limit.
#[test]
fn the_account_follows_the_completions() {
    let mut volume = limited("errors=repair,explicit-open", 0, 1);
    let mut step = |call: Call, expected: (u32, u32)| {
        let reply = volume.call(&call).unwrap();
        if let Issued(_) = reply {
            volume.succeed(call.kind, call.number).unwrap();
        }
        assert_eq!(counts(&volume), expected, "{call:?}");
    };
    step(open(SEQ, 2), (1, 1));
    // "A reset of a full open file makes it active", above the limit.
    step(truncate(SEQ, 2, 0), (1, 2));
    step(write(SEQ, 2, 0, 4096), (1, 2));
    step(open(SEQ, 0), (2, 2));
    step(truncate(SEQ, 0, CAPACITY), (2, 1));
    step(close(SEQ, 0), (1, 1));
    step(truncate(SEQ, 0, 0), (1, 1));
    step(truncate(SEQ, 2, 0), (1, 1));
    step(write(SEQ, 2, 0, CAPACITY), (1, 0));
    step(truncate(SEQ, 2, 0), (1, 1));
    step(close(SEQ, 2), (0, 0));
    step(truncate(SEQ, 1, CAPACITY), (0, 0));
    step(open(SEQ, 1), (1, 0));
    step(truncate(SEQ, 1, 0), (1, 1));
    step(truncate(SEQ, 1, CAPACITY), (1, 0));
    step(close(SEQ, 1), (0, 0));
    step(read(SEQ, 1, 0, 4096), (0, 0));
    step(flush(SEQ, 0), (0, 0));
    step(write(CNV, 0, 0, 1), (0, 0));
}

/// Without the option a file is active by what is written in it alone.
#[test]
fn active_without_the_option() {
    let mut volume = limited("errors=repair", 0, 1);
    let mut step = |call: Call, expected: (u32, u32)| {
        if let Issued(_) = volume.call(&call).unwrap() {
            volume.succeed(call.kind, call.number).unwrap();
        }
        assert_eq!(counts(&volume), expected, "{call:?}");
    };
    step(open(SEQ, 1), (1, 1));
    step(write(SEQ, 1, 0, 4096), (1, 2));
    step(truncate(SEQ, 1, 0), (1, 1));
    step(open(SEQ, 2), (2, 1));
    step(truncate(SEQ, 2, 0), (2, 1));
    step(write(SEQ, 2, 0, 8192), (2, 2));
    step(truncate(SEQ, 2, CAPACITY), (2, 1));
}

/// "A failed open" leaves no opens, under each policy and with each condition, and recovers as any command does.
#[test]
fn a_failed_open() {
    type After = (u64, Condition, Access);
    let cases: [(&str, [After; 3]); 4] = [
        (
            "remount-ro",
            [
                (8192, Condition::Healthy, Access::Write),
                (4096, Condition::ReadOnly, Access::Read),
                (0, Condition::Offline, Access::None),
            ],
        ),
        (
            "zone-ro",
            [
                (8192, Condition::Healthy, Access::Read),
                (4096, Condition::ReadOnly, Access::Read),
                (0, Condition::Offline, Access::None),
            ],
        ),
        (
            "zone-offline",
            [
                (0, Condition::Healthy, Access::None),
                (0, Condition::ReadOnly, Access::None),
                (0, Condition::Offline, Access::None),
            ],
        ),
        (
            "repair",
            [
                (8192, Condition::Healthy, Access::Write),
                (4096, Condition::ReadOnly, Access::Read),
                (0, Condition::Offline, Access::None),
            ],
        ),
    ];
    for (policy, afters) in cases {
        for (record, (size, condition, access)) in
            [healthy(0, 8192), ill(0, 13), ill(0, 15)].iter().zip(afters)
        {
            let mut volume = limited(&format!("explicit-open,errors={policy}"), 0, 0);
            let before = volume.clone();
            volume.call(&open(SEQ, 0)).unwrap();
            assert_eq!(volume.fail(SEQ, 0, record, true), Ok(size));
            let mut expected = before;
            expected.seq[0] = Row { size, condition, access, ..expected.seq[0] };
            expected.mount.read_only = policy == "remount-ro";
            expected.account.active = u32::from(access == Access::Write);
            assert!(volume == expected, "{policy} {condition:?}");
        }
    }
}

/// The same of an empty file, which isn't active any more.
#[test]
fn a_failed_open_of_an_empty_file() {
    let mut volume = by_hand();
    volume.call(&open(SEQ, 1)).unwrap();
    assert_eq!(counts(&volume), (1, 2));
    assert_eq!(volume.fail(SEQ, 1, &healthy(1, 0), true), Ok(0));
    assert_eq!((counts(&volume), opens(&volume)), ((0, 1), [0; 4]));
    assert_eq!(number(volume.call(&write(SEQ, 1, 0, 4096))), 13);
    assert_eq!(number(volume.call(&close(SEQ, 1))), 13);
    assert_eq!(volume.call(&open(SEQ, 1)), issued(Operation::Open, 1), "it can be opened again");
}

/// A record that doesn't fit is 9, and the open stays outstanding with its count.
#[test]
fn a_failed_open_with_a_wrong_record() {
    let mut volume = by_hand();
    volume.call(&open(SEQ, 1)).unwrap();
    let before = volume.clone();
    assert_eq!(volume.fail(SEQ, 1, &healthy(0, 0), true).map_err(Refusal::number), Err(9));
    assert!(volume == before);
}

/// Neither is a read, so they recover where all is as it was too.
#[test]
fn failed_opens_and_closes_always_recover() {
    for call in [open(SEQ, 0), close(SEQ, 0)] {
        for (options, read_only, access) in
            [("errors=remount-ro", true, Access::Write), ("errors=zone-ro", false, Access::Read)]
        {
            let mut volume = limited(&format!("{options},explicit-open"), 0, 0);
            if call.request == Request::Close {
                done(&mut volume, &open(SEQ, 0));
            }
            volume.call(&call).unwrap();
            assert_eq!(volume.fail(SEQ, 0, &healthy(0, 4096), true), Ok(4096));
            assert_eq!((volume.mount.read_only, volume.seq[0].access), (read_only, access));
            assert_eq!((volume.seq[0].opens, volume.seq[0].size), (0, 4096));
        }
    }
}

/// The file isn't open from the close on, "whatever becomes of that command".
#[test]
fn a_failed_close() {
    let cases =
        [(healthy(0, 4096), 4096, 1), (healthy(0, 0), 0, 0), (ill(0, 13), 4096, 0), (ill(0, 15), 0, 0)];
    for (record, size, active) in cases {
        let mut volume = by_hand();
        done(&mut volume, &open(SEQ, 0));
        volume.call(&close(SEQ, 0)).unwrap();
        assert_eq!((counts(&volume), opens(&volume)), ((0, 1), [0; 4]));
        assert_eq!(volume.fail(SEQ, 0, &record, true), Ok(size));
        assert_eq!((counts(&volume), opens(&volume)), ((0, active), [0; 4]));
    }
}

/// "A file is open .. until .. the loss of write access", by the failure of any command.
#[test]
fn opens_are_lost_with_the_write_access() {
    let calls = [
        read(SEQ, 0, 0, 4096),
        write(SEQ, 0, 4096, 4096),
        truncate(SEQ, 0, 0),
        truncate(SEQ, 0, CAPACITY),
        flush(SEQ, 0),
    ];
    for options in ["errors=zone-ro", "errors=zone-ro,explicit-open"] {
        for call in calls {
            let mut volume = limited(options, 0, 0);
            (0..3).for_each(|_| done(&mut volume, &open(SEQ, 0)));
            done(&mut volume, &open(SEQ, 2));
            assert_eq!((counts(&volume), opens(&volume)), ((2, 1), [3, 0, 1, 0]));
            volume.call(&call).unwrap();
            volume.fail(SEQ, 0, &healthy(0, 8192), true).unwrap();
            assert_eq!((counts(&volume), opens(&volume)), ((1, 0), [0, 0, 1, 0]), "{call:?}");
            assert_eq!(number(volume.call(&close(SEQ, 0))), 13);
            assert_eq!(number(volume.call(&open(SEQ, 0))), 4);
        }
    }
}

/// They stay where the access does: under repair and remount-ro with a healthy zone, and after a harmless read.
#[test]
fn opens_that_are_not_lost() {
    for options in ["errors=repair,explicit-open", "errors=remount-ro,explicit-open"] {
        let mut volume = limited(options, 0, 0);
        (0..3).for_each(|_| done(&mut volume, &open(SEQ, 0)));
        volume.call(&write(SEQ, 0, 4096, 4096)).unwrap();
        volume.fail(SEQ, 0, &healthy(0, 4096), true).unwrap();
        assert_eq!((counts(&volume), opens(&volume)), ((1, 1), [3, 0, 0, 0]));
    }
    let mut volume = limited("errors=zone-ro,explicit-open", 0, 0);
    (0..3).for_each(|_| done(&mut volume, &open(SEQ, 0)));
    volume.call(&read(SEQ, 0, 0, 4096)).unwrap();
    volume.fail(SEQ, 0, &healthy(0, 4096), true).unwrap();
    assert_eq!((counts(&volume), opens(&volume)), ((1, 1), [3, 0, 0, 0]));
}

/// A failure may fill an open file, or empty it.
#[test]
fn a_failure_moves_the_active_count() {
    for (bytes, expected) in [(CAPACITY, (1, 0)), (0, (1, 1)), (8192, (1, 1))] {
        let mut volume = by_hand();
        done(&mut volume, &open(SEQ, 0));
        volume.call(&flush(SEQ, 0)).unwrap();
        volume.fail(SEQ, 0, &healthy(0, bytes), true).unwrap();
        assert_eq!(counts(&volume), expected, "{bytes}");
    }
    let mut volume = by_hand();
    volume.call(&flush(SEQ, 0)).unwrap();
    volume.fail(SEQ, 0, &healthy(0, 0), true).unwrap();
    assert_eq!(counts(&volume), (0, 0), "empty and not open");
}

/// A lent conventional row's opens count nowhere, but go with its write access as others do.
#[test]
fn opens_of_a_conventional_row_that_loses_access() {
    let failed = record(&zone(524288, 524288, 0, 1, 0, 524288));
    for (options, left) in [("errors=repair", 7), ("errors=zone-ro", 0), ("errors=zone-offline", 0)] {
        let mut volume = limited(options, 0, 0);
        volume.cnv[0].opens = 7;
        volume.call(&write(CNV, 0, 0, 5)).unwrap();
        volume.fail(CNV, 0, &failed, true).unwrap();
        assert_eq!((volume.cnv[0].opens, counts(&volume)), (left, (0, 1)));
        assert_eq!(number(volume.call(&close(CNV, 0))), 0);
    }
}

/// What the account has beside its two numbers never moves.
#[test]
fn limits_stay() {
    let mut volume = limited("errors=repair,explicit-open", 3, 9);
    done(&mut volume, &open(SEQ, 1));
    volume.call(&write(SEQ, 1, 0, 4096)).unwrap();
    volume.succeed(SEQ, 1).unwrap();
    volume.call(&close(SEQ, 1)).unwrap();
    volume.fail(SEQ, 1, &ill(1, 13), true).unwrap();
    assert_eq!(volume.account, Account { open: 0, active: 1, open_limit: 3, active_limit: 9 });
}
