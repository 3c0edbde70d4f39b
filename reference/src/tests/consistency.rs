//! The consistency check on runs whose every number is written down.

use super::*;
use crate::disk::consistency::Run;
use crate::disk::model::{Choice, Leaves, Mishap};
use crate::disk::truth::Shown;
use crate::generator::random::Random;
use crate::generator::truthful;
use crate::player::tape::{CallRecord, Verb};
use crate::player::types::{Access, Command, Condition, Held, Operation, Row};

/// Makes something wrong of something right.
type Change<T> = fn(&mut T);

const WELL: Choice = Choice { fail: false, landed_blocks: 0, mishap: None, leaves: Leaves::AsThePointerSays };

fn failing(landed_blocks: u64, mishap: Option<Mishap>) -> Choice {
    Choice { fail: true, landed_blocks, mishap, ..WELL }
}

fn begin(options: &str) -> Run {
    Run::begin(&input_with(0, options, &sheet_zones())).unwrap()
}

fn issue_and_do(run: &mut Run, call: &Call, choice: &Choice) {
    run.call(call).unwrap();
    assert!(run.doing(call.kind, call.number, choice, own).unwrap().is_some());
}

/// A zone in the disk's own bytes.
fn own(zone: &Zone) -> Shown {
    Shown::with_capacity_given(record(zone))
}

/// Size, condition and access of seq/0.
fn first(run: &Run) -> (u64, Condition, Access) {
    let Row { size, condition, access, .. } = run.volume.seq[0];
    (size, condition, access)
}

#[test]
fn a_recovered_file_under_zone_offline() {
    let mut run = begin("errors=zone-offline");
    issue_and_do(&mut run, &write(SEQ, 0, 4096, 8192), &failing(1, None));
    assert_eq!(first(&run), (0, Condition::Healthy, Access::None));
    assert_eq!(run.disk.zones[3].pointer, 1572880);
    assert_eq!(run.compared.exceptions, [1, 0, 0]);
}

#[test]
fn a_zone_that_became_read_only() {
    for options in ["errors=remount-ro", "errors=zone-ro", "errors=repair"] {
        let mut run = begin(options);
        issue_and_do(&mut run, &write(SEQ, 0, 4096, 8192), &failing(2, Some(Mishap::BecomesReadOnly)));
        assert_eq!(first(&run), (4096, Condition::ReadOnly, Access::Read));
        assert_eq!(run.compared.exceptions, [0, 1, 0]);
    }
}

#[test]
fn a_recovered_file_under_zone_ro() {
    let mut run = begin("errors=zone-ro");
    issue_and_do(&mut run, &write(SEQ, 0, 4096, 8192), &failing(1, None));
    assert_eq!(first(&run), (8192, Condition::Healthy, Access::Read));
    assert_eq!(run.compared.exceptions, [0, 0, 1]);
}

#[test]
fn a_repaired_file_equals_the_fresh_one() {
    let mut run = begin("errors=repair");
    run.mishap(3, Mishap::Fall { blocks: 9 }).unwrap();
    assert_eq!(first(&run), (4096, Condition::Healthy, Access::Write));
    issue_and_do(&mut run, &flush(SEQ, 0), &WELL);
    assert_eq!(first(&run), (0, Condition::Healthy, Access::Write));
    issue_and_do(&mut run, &write(SEQ, 0, 0, 12288), &WELL);
    assert_eq!(first(&run), (12288, Condition::Healthy, Access::Write));
    assert_eq!(run.compared.exceptions, [0, 0, 0]);
}

/// Neither a good read nor a stray completion makes a file quiet: nothing is compared until one that does.
#[test]
fn what_makes_a_file_quiet() {
    let mut run = begin("errors=repair");
    run.mishap(3, Mishap::Fall { blocks: 1 }).unwrap();
    let rows = run.compared.rows;
    issue_and_do(&mut run, &read(SEQ, 0, 0, 4096), &WELL);
    run.stray_completion(&seq(0), None).unwrap();
    // Three states, each with seq/1 alone.
    assert_eq!(run.compared.rows, rows + 3);
    issue_and_do(&mut run, &read(SEQ, 0, 0, 4096), &failing(0, None));
    // Two more, the second with both.
    assert_eq!(run.compared.rows, rows + 6);
    assert_eq!(first(&run), (0, Condition::Healthy, Access::Write));
}

/// The check notices a player that keeps a wrong size, access or condition, or moves another row.
#[test]
fn the_check_can_fail() {
    let wrong: [fn(&mut Volume); 4] = [
        |volume| volume.seq[0].size = 0,
        |volume| volume.seq[1].access = Access::Read,
        |volume| volume.seq[1].condition = Condition::ReadOnly,
        |volume| volume.seq[0].capacity -= 4096,
    ];
    for change in wrong {
        let mut run = begin("errors=repair");
        change(&mut run.volume);
        let complaint = run.mishap(0, Mishap::BecomesOffline).unwrap_err();
        assert!(complaint.starts_with("consistency: seq/"), "{complaint}");
    }
    let mut run = begin("errors=repair");
    run.disk.zones[4].pointer += 1;
    assert!(run.mishap(0, Mishap::BecomesOffline).unwrap_err().contains("refused with 29"));
}

#[test]
fn mishaps() {
    let mut run = begin("errors=repair");
    assert!(!run.disk.suffer(4, Mishap::Fall { blocks: 1 }), "nothing to fall back from");
    assert!(run.disk.suffer(3, Mishap::Fall { blocks: 1 }));
    assert_eq!((run.disk.zones[3].pointer, run.disk.zones[3].condition), (1572864, 1));
    assert!(run.disk.suffer(3, Mishap::BecomesOffline));
    assert!(!run.disk.suffer(3, Mishap::BecomesReadOnly), "nothing betters a zone");
    assert_eq!(run.disk.zones[3].condition, 15);
}

/// A failed write of which one block landed, shown in all bytes that are true of the zone then.
#[test]
fn every_true_record_leaves_the_same_row() {
    for (options, access) in [("errors=repair", Access::Write), ("errors=zone-ro", Access::Read)] {
        for (kind, condition) in [(2, 1), (2, 2), (2, 3), (2, 4), (3, 1), (3, 2), (3, 3), (3, 4)] {
            let mut run = begin(options);
            run.call(&write(SEQ, 0, 4096, 8192)).unwrap();
            let show = |zone: &Zone| own(&Zone { kind, condition, ..*zone });
            assert!(run.doing(SEQ, 0, &failing(1, None), show).unwrap().is_some());
            assert_eq!(first(&run), (8192, Condition::Healthy, access));
            let other_bytes = [u64::from(kind != 2), u64::from(condition != 2), 0, 0, 0];
            assert_eq!(run.compared.records, other_bytes);
        }
    }
}

/// A failed read that finds all well, told in any of these bytes, recovers nothing.
#[test]
fn every_true_record_of_a_zone_that_is_well() {
    for (kind, condition) in [(2, 1), (2, 2), (2, 3), (2, 4), (3, 1), (3, 2), (3, 3), (3, 4)] {
        let mut run = begin("errors=zone-offline");
        let before = run.volume.clone();
        run.call(&read(SEQ, 0, 0, 4096)).unwrap();
        let show = |zone: &Zone| own(&Zone { kind, condition, ..*zone });
        assert!(run.doing(SEQ, 0, &failing(0, None), show).unwrap().is_some());
        assert_eq!(run.volume, before);
    }
}

/// Without a capacity the length is taken for it, whatever stands in the field.
#[test]
fn a_conventional_record_without_a_capacity() {
    for capacity in [0, 1, 524288, u64::MAX] {
        let mut run = begin("errors=zone-ro");
        run.call(&write(CNV, 1, 4096, 8192)).unwrap();
        let show = |zone: &Zone| Shown { capacity_given: false, ..own(&Zone { capacity, ..*zone }) };
        assert!(run.doing(CNV, 1, &failing(1, None), show).unwrap().is_some());
        assert_eq!((run.volume.cnv[1].size, run.volume.cnv[1].access), (268435456, Access::Read));
        assert_eq!(run.compared.records, [0, 0, 0, 1, 0]);
    }
}

/// Fresh mounts from reports in any bytes that are true, while a zone is written, becomes full, and falls back.
#[test]
fn every_true_report_gives_the_same_rows() {
    let mut random = Random::new(3, 4);
    let mut run = begin("errors=repair").showing(move |zones| truthful::report(&mut random, zones));
    for _ in 0..50 {
        issue_and_do(&mut run, &truncate(SEQ, 0, 0), &WELL);
        issue_and_do(&mut run, &write(SEQ, 0, 0, 8192), &WELL);
        issue_and_do(&mut run, &truncate(SEQ, 0, 201326592), &WELL);
        run.mishap(3, Mishap::Fall { blocks: 1 }).unwrap();
        issue_and_do(&mut run, &flush(SEQ, 0), &WELL);
    }
    assert_eq!(first(&run), (201326592 - 4096, Condition::Healthy, Access::Write));
    // Each command has a state after its call and one after its completion.
    assert_eq!(run.compared.states, 1 + 50 * (4 * 2 + 1));
}

/// Where the pointer of zone 3 stands while the zone is full.
const FULL_END: u64 = 1572864 + 393216;
/// What a full zone may show as its pointer: among them the start, and what would be good with another condition.
const ANY_POINTERS: [u64; 8] = [0, 1, 1572856, 1572864, FULL_END - 8, FULL_END, 1572864 + 524288, u64::MAX];

/// The sheet's disk with zone 3 like this at mount.
fn begin_with(options: &str, pointer: u64, condition: u8) -> Run {
    let mut zones = sheet_zones();
    zones[3] = Zone { pointer, condition, ..zones[3] };
    Run::begin(&input_with(0, options, &zones)).unwrap()
}

/// Pointer and condition of zone 3 as the disk has it.
fn zone_3(run: &Run) -> (u64, u8) {
    (run.disk.zones[3].pointer, run.disk.zones[3].condition)
}

/// Whatever the first report says of a full zone's pointer, it stands at the end, and a mishap moves it from there.
#[test]
fn a_full_zone_falls_from_its_end() {
    for pointer in ANY_POINTERS {
        let mut run = begin_with("errors=repair", pointer, 14);
        assert_eq!(zone_3(&run), (FULL_END, 14));
        assert_eq!(first(&run), (201326592, Condition::Healthy, Access::Write));
        run.mishap(3, Mishap::Fall { blocks: 2 }).unwrap();
        assert_eq!(zone_3(&run), (FULL_END - 16, 2));
        issue_and_do(&mut run, &flush(SEQ, 0), &WELL);
        assert_eq!(first(&run), (201326592 - 8192, Condition::Healthy, Access::Write));
        run.mishap(3, Mishap::Fall { blocks: u64::MAX }).unwrap();
        assert_eq!(zone_3(&run), (1572864, 1));
    }
}

#[test]
fn another_zone_falls_from_its_pointer() {
    for (pointer, condition) in [(FULL_END, 1), (FULL_END, 4), (FULL_END - 8, 2), (1572872, 3)] {
        let mut run = begin_with("errors=repair", pointer, condition);
        assert_eq!(zone_3(&run), (pointer, condition));
        assert!(run.disk.suffer(3, Mishap::Fall { blocks: 1 }));
        assert_eq!(zone_3(&run).0, pointer - 8);
    }
}

/// A full zone is reset and written again, finished, and becomes full by a write, with any pointer at mount.
#[test]
fn a_full_zone_in_use() {
    for pointer in ANY_POINTERS {
        let mut run = begin_with("errors=repair", pointer, 14);
        issue_and_do(&mut run, &read(SEQ, 0, 201326592 - 4096, 4096), &WELL);
        issue_and_do(&mut run, &truncate(SEQ, 0, 0), &WELL);
        assert_eq!(zone_3(&run), (1572864, 1));
        issue_and_do(&mut run, &write(SEQ, 0, 0, 201326592), &WELL);
        assert_eq!(zone_3(&run), (FULL_END, 14));
        issue_and_do(&mut run, &truncate(SEQ, 0, 0), &WELL);
        issue_and_do(&mut run, &truncate(SEQ, 0, 201326592), &WELL);
        assert_eq!(zone_3(&run), (FULL_END, 14));
        assert_eq!(first(&run), (201326592, Condition::Healthy, Access::Write));
        assert_eq!(run.compared.exceptions, [0, 0, 0]);
    }
}

/// A write that fails with all of it landed: the record says full, with any pointer.
#[test]
fn every_true_record_of_a_zone_that_became_full() {
    for (options, size, access) in [
        ("errors=repair", 201326592, Access::Write),
        ("errors=remount-ro", 201326592, Access::Write),
        ("errors=zone-ro", 201326592, Access::Read),
        ("errors=zone-offline", 0, Access::None),
    ] {
        for pointer in ANY_POINTERS {
            let mut run = begin(options);
            run.call(&write(SEQ, 0, 4096, 201322496)).unwrap();
            let show = |zone: &Zone| own(&Zone { pointer, ..*zone });
            assert!(run.doing(SEQ, 0, &failing(49151, None), show).unwrap().is_some());
            assert_eq!(zone_3(&run), (FULL_END, 14));
            assert_eq!(first(&run), (size, Condition::Healthy, access));
            let other = u64::from(pointer != FULL_END);
            assert_eq!(run.compared.records, [0, 0, other, 0, other]);
        }
    }
}

/// A failed read of a full zone, told with any pointer, recovers nothing, whatever pointer the mount had.
#[test]
fn every_true_record_of_a_full_zone_that_is_well() {
    for options in ["errors=zone-offline", "errors=zone-ro", "errors=remount-ro", "errors=repair"] {
        for (at_mount, pointer) in ANY_POINTERS.into_iter().zip(ANY_POINTERS.into_iter().rev()) {
            let mut run = begin_with(options, at_mount, 14);
            let before = run.volume.clone();
            run.call(&read(SEQ, 0, 0, 4096)).unwrap();
            let show = |zone: &Zone| own(&Zone { pointer, ..*zone });
            assert!(run.doing(SEQ, 0, &failing(0, None), show).unwrap().is_some());
            assert_eq!(run.volume, before);
            assert_eq!(run.compared.exceptions, [0, 0, 0]);
        }
    }
}

/// Fresh mounts from reports that say full with any pointer.
#[test]
fn every_true_report_of_a_full_zone() {
    for pointer in ANY_POINTERS {
        let mut run = begin_with("errors=zone-ro", 0, 14).showing(move |zones| {
            let mut shown = zones.to_vec();
            shown[3].pointer = if shown[3].condition == 14 { pointer } else { shown[3].pointer };
            report(1, &shown)
        });
        let (reports, rows) = (run.compared.reports, run.compared.rows);
        run.mishap(0, Mishap::BecomesOffline).unwrap();
        let other = u64::from(pointer != FULL_END);
        assert_eq!(
            (run.compared.reports[2] - reports[2], run.compared.reports[4] - reports[4]),
            (other, other)
        );
        assert_eq!(run.compared.rows, rows + 2);
        run.mishap(3, Mishap::Fall { blocks: 1 }).unwrap();
        issue_and_do(&mut run, &flush(SEQ, 0), &WELL);
        assert_eq!(first(&run), (201326592 - 4096, Condition::Healthy, Access::Read));
        assert_eq!(run.compared.exceptions, [0, 0, 1]);
    }
}

/// A zone at its end may also say 1 to 4, but then its pointer must be there.
#[test]
fn a_full_zone_that_says_another_condition_has_its_pointer() {
    for condition in 1..=4 {
        for pointer in [FULL_END, FULL_END - 8, 1572864] {
            let mut run = begin_with("errors=repair", 0, 14);
            run.call(&read(SEQ, 0, 0, 4096)).unwrap();
            let show = |zone: &Zone| own(&Zone { pointer, condition, ..*zone });
            let done = run.doing(SEQ, 0, &failing(0, None), show);
            if pointer == FULL_END {
                assert!(done.unwrap().is_some());
            } else {
                let complaint = done.unwrap_err();
                assert!(complaint.contains("which isn't true"), "{complaint}");
            }
        }
    }
}

#[test]
fn an_untrue_record_is_noticed() {
    let untrue: [fn(&mut Zone); 5] = [
        |zone| zone.pointer += 8,
        |zone| zone.condition = 13,
        |zone| zone.condition = 14,
        |zone| (zone.condition, zone.pointer) = (14, FULL_END),
        |zone| zone.capacity -= 8,
    ];
    for change in untrue {
        let mut run = begin("errors=repair");
        run.call(&write(SEQ, 0, 4096, 8192)).unwrap();
        let show = |zone: &Zone| {
            let mut shown = *zone;
            change(&mut shown);
            own(&shown)
        };
        let complaint = run.doing(SEQ, 0, &failing(1, None), show).unwrap_err();
        assert!(complaint.starts_with("consistency: zone 3 is Zone"), "{complaint}");
        assert!(complaint.contains("which isn't true"), "{complaint}");
    }
}

#[test]
fn an_untrue_report_is_noticed() {
    let untrue: [(Change<Vec<Zone>>, &str); 6] = [
        (|zones| zones[3].pointer += 8, "zone 3 is Zone"),
        (|zones| zones[4].condition = 15, "zone 4 is Zone"),
        (|zones| zones[1].condition = 13, "zone 1 is Zone"),
        (|zones| zones[3].condition = 14, "zone 3 is Zone"),
        (|zones| (zones[4].condition, zones[4].pointer) = (14, 2097152 + 393216), "zone 4 is Zone"),
        (|zones| zones.truncate(4), "the fresh mount's report has another number of zones"),
    ];
    for (change, expected) in untrue {
        let mut run = begin("errors=repair").showing(move |zones| {
            let mut shown = zones.to_vec();
            change(&mut shown);
            report(1, &shown)
        });
        let complaint = run.mishap(0, Mishap::BecomesOffline).unwrap_err();
        assert!(complaint.starts_with(&format!("consistency: {expected}")), "{complaint}");
    }
}

/// A kind byte that no file has is answered 1, also while a file is busy, and moves nothing.
#[test]
fn kinds_that_no_file_has() {
    let mut run = begin("errors=repair");
    for outstanding in [false, true] {
        if outstanding {
            run.call(&flush(SEQ, 0)).unwrap();
        }
        let before = run.volume.clone();
        for verb in [Verb::Read, Verb::Write, Verb::Truncate, Verb::Flush] {
            for kind in [2, 3, 255] {
                let record = CallRecord { verb, kind, number: 0, offset: 0, length: 0 };
                run.recorded_call(&record).unwrap();
                assert_eq!(number(run.volume.recorded_call(&record)), 1);
                assert_eq!(run.volume, before);
            }
        }
    }
    run.recorded_call(&CallRecord { verb: Verb::Flush, kind: 1, number: 1, offset: 0, length: 0 }).unwrap();
}

/// Calls that a player with a wrong table or count answers 10, or 1 though the file is there.
#[test]
fn answers_that_no_call_of_a_run_has() {
    let wrong: [(Change<Volume>, &str); 8] = [
        (|volume| volume.seq[0].size += 1, "a call on an idle file is answered 10"),
        (|volume| volume.mount.block = 8192, "a call on an idle file is answered 10"),
        (|volume| volume.mount.seq_files = 0, "a call on an idle file is answered 10"),
        (
            |volume| (volume.mount.seq_files, volume.account.active) = (0, 0),
            "a call on an idle file is answered 1",
        ),
        (|volume| volume.account.active = 3, "a call on an idle file is answered 10"),
        (|volume| volume.account.active = 0, "a call on an idle file is answered 10"),
        (|volume| volume.cnv.clear(), "a call on an idle file is answered 10"),
        (|volume| volume.seq[0].held = FLUSH, "a call on an idle file is answered 2"),
    ];
    for (change, expected) in wrong {
        let mut run = begin("errors=repair");
        change(&mut run.volume);
        let complaint = run.call(&read(SEQ, 0, 0, 1)).unwrap_err();
        assert!(complaint.starts_with(&format!("consistency: {expected}\n")), "{complaint}");
    }
    let mut run = begin("errors=repair");
    run.volume.mount.seq_files = 3;
    let complaint = run.call(&read(SEQ, 2, 0, 1)).unwrap_err();
    assert!(complaint.contains("a file that isn't there is answered 10"), "{complaint}");
    run.volume.mount.seq_files = 65_536;
    let unknown = CallRecord { verb: Verb::Read, kind: 2, number: 0, offset: 0, length: 0 };
    let complaint = run.recorded_call(&unknown).unwrap_err();
    assert!(complaint.contains("a file that isn't there is answered 10"), "{complaint}");
}

/// What a flush of seq/0 leaves, and a command that no call issues.
const FLUSH: Held = Held::Command(Command { operation: Operation::Flush, address: 805306368, length: 0 });
const FLUSH_WITH_LENGTH: Held =
    Held::Command(Command { operation: Operation::Flush, address: 805306368, length: 1 });

/// Completions that a player answers 10, 9 or 8 because it held something else than it should, or another row.
#[test]
fn answers_that_no_completion_of_a_run_has() {
    let wrong: [(Change<Volume>, Choice, &str); 5] = [
        (|volume| volume.seq[0].held = FLUSH_WITH_LENGTH, WELL, "10 and not 0"),
        (|volume| volume.seq[0].held = Held::of_words([6, 805310464, 8192]), WELL, "10 and not 0"),
        (|volume| volume.seq[0].held = Held::Nothing, WELL, "8 and not 0"),
        (|volume| volume.seq[0].size += 4096, failing(0, None), "10 and not 7"),
        (|volume| volume.seq[0].capacity += 4096, failing(0, None), "9 and not 7"),
    ];
    for (change, choice, expected) in wrong {
        let mut run = begin("errors=repair");
        run.call(&write(SEQ, 0, 4096, 8192)).unwrap();
        change(&mut run.volume);
        let complaint = run.doing(SEQ, 0, &choice, own).unwrap_err();
        let expected = format!("consistency: a truthful completion is answered {expected}\n");
        assert!(complaint.starts_with(&expected), "{complaint}");
    }
}

/// A call on a busy file that a player takes, as it looks for the command elsewhere or has lost it.
#[test]
fn a_busy_file_that_is_taken_for_an_idle_one() {
    let mut run = begin("errors=repair");
    run.call(&write(SEQ, 0, 4096, 8192)).unwrap();
    run.volume.seq[0].held = Held::Nothing;
    let complaint = run.call(&read(SEQ, 0, 0, 1)).unwrap_err();
    assert!(complaint.starts_with("consistency: a call on a busy file is answered 0\n"), "{complaint}");
}

/// Stray completions name an idle file, a number that isn't there, or a kind that isn't, with other files busy or not.
#[test]
fn stray_completions() {
    let mut run = begin("errors=repair");
    let noise = own(&run.disk.zones[3]);
    for busy in [false, true] {
        if busy {
            run.call(&write(SEQ, 0, 4096, 8192)).unwrap();
            run.call(&flush(CNV, 1)).unwrap();
        }
        let before = run.volume.clone();
        let (states, entries) = (run.compared.states, 2 * 6);
        for named in [
            seq(1),
            cnv(0),
            seq(2),
            cnv(u32::MAX),
            Named { kind: 2, number: 0 },
            Named { kind: 255, number: 1 },
        ] {
            assert_eq!(run.stray_completion(&named, None), Ok(()), "{named:?}");
            assert_eq!(run.stray_completion(&named, Some(&noise)), Ok(()), "{named:?}");
        }
        assert_eq!((&run.volume, run.compared.states), (&before, states + entries));
    }
    let complaint = run.stray_completion(&seq(0), None).unwrap_err();
    assert!(complaint.starts_with("consistency: a stray completion names a busy file\n"), "{complaint}");
    run.volume.seq[1].held = Held::of_words([5, 1073741824, 0]);
    let complaint = run.stray_completion(&seq(1), None).unwrap_err();
    assert!(
        complaint.starts_with("consistency: a stray completion is answered 0 and not 8\n"),
        "{complaint}"
    );
}

/// A record that isn't the disk's comes only where it is refused, and leaves the command outstanding.
#[test]
fn untrue_completions() {
    let mut run = begin("errors=repair");
    run.call(&write(SEQ, 0, 4096, 8192)).unwrap();
    let before = run.volume.clone();
    let zone = run.disk.zones[3];
    let landed = own(&Zone { pointer: zone.pointer + 16, ..zone });
    assert_eq!(run.untrue_completion(&seq(0), &landed), Ok(false));
    assert_eq!(run.untrue_completion(&seq(0), &own(&Zone { pointer: zone.pointer + 1, ..zone })), Ok(true));
    // Another file's record, as true as it is of that.
    assert_eq!(run.untrue_completion(&seq(0), &own(&run.disk.zones[4])), Ok(true));
    assert_eq!(run.volume, before);
    run.volume.mount.block = 1024;
    let complaint = run.untrue_completion(&seq(0), &own(&zone)).unwrap_err();
    assert!(
        complaint.starts_with("consistency: an untrue completion is answered 10 and not 9"),
        "{complaint}"
    );
}

#[test]
fn completions_on_copies_that_no_run_has() {
    let mut run = begin("errors=repair");
    run.call(&write(SEQ, 0, 4096, 8192)).unwrap();
    let possible = run.volume.clone();
    let shown = own(&run.disk.zones[3]);
    for failed in [None, Some(&shown)] {
        let spoilt = Volume { seq: Vec::new(), ..possible.clone() };
        assert_eq!(run.impossible_completion(&spoilt, &seq(0), failed), Ok(()));
        let complaint = run.impossible_completion(&possible, &seq(0), failed).unwrap_err();
        assert!(complaint.contains("a completion on a copy that no run has is answered"), "{complaint}");
    }
    assert_eq!((run.volume, run.compared.impossible), (possible, 4));
}

/// Three files at once, done in the order of issue and in every other one.
#[test]
fn commands_are_done_in_any_order() {
    let calls = [write(SEQ, 0, 4096, 8192), truncate(SEQ, 1, 201326592), write(CNV, 1, 0, 4096)];
    for order in [[0, 1, 2], [0, 2, 1], [1, 0, 2], [1, 2, 0], [2, 0, 1], [2, 1, 0]] {
        let mut run = begin("errors=repair");
        calls.iter().for_each(|call| run.call(call).unwrap());
        let issued: Vec<(FileKind, u32)> = run.outstanding().iter().map(|of| (of.kind, of.number)).collect();
        assert_eq!(issued, [(SEQ, 0), (SEQ, 1), (CNV, 1)]);
        for place in order {
            let Call { kind, number, .. } = calls[place];
            assert!(run.is_busy(kind, number));
            assert_eq!(run.doing(kind, number, &WELL, own), Ok(Some(None)));
            assert!(!run.is_busy(kind, number));
            assert_eq!(run.doing(kind, number, &WELL, own), Ok(None), "nothing is left to do");
        }
        assert!(run.outstanding().is_empty());
        assert_eq!((run.volume.seq[0].size, run.volume.seq[1].size), (12288, 201326592));
    }
}

/// A file with nothing outstanding is compared while others are busy, and a busy one isn't.
#[test]
fn idle_files_are_compared_beside_busy_ones() {
    let mut run = begin("errors=repair");
    assert_eq!((run.compared.rows, run.compared.rows_beside), (2, 0));
    run.call(&write(SEQ, 0, 4096, 8192)).unwrap();
    assert_eq!((run.compared.rows, run.compared.rows_beside), (3, 1));
    issue_and_do(&mut run, &write(SEQ, 1, 0, 4096), &WELL);
    assert_eq!((run.compared.rows, run.compared.rows_beside), (4, 2));
    assert_eq!(run.volume.seq[1].size, 4096);
    run.volume.seq[0].size = 8192;
    run.mishap(0, Mishap::BecomesReadOnly).unwrap();
    run.volume.seq[1].size = 0;
    let complaint = run.mishap(0, Mishap::BecomesOffline).unwrap_err();
    assert!(complaint.starts_with("consistency: seq/1 is "), "{complaint}");
}

/// A mishap befalls the zone of a command that isn't done yet, and then that of another file.
#[test]
fn mishaps_while_commands_are_outstanding() {
    let mut run = begin("errors=repair");
    run.call(&write(SEQ, 0, 4096, 8192)).unwrap();
    run.call(&flush(SEQ, 1)).unwrap();
    run.mishap(3, Mishap::Fall { blocks: 1 }).unwrap();
    run.mishap(4, Mishap::BecomesReadOnly).unwrap();
    // Both must fail, whatever the disk would choose: the pointer isn't there any more, and the other isn't quiet.
    assert!(run.doing(SEQ, 1, &WELL, own).unwrap().unwrap().is_some());
    assert!(run.is_busy(SEQ, 0));
    assert!(run.doing(SEQ, 0, &WELL, own).unwrap().unwrap().is_some());
    assert_eq!(first(&run), (0, Condition::Healthy, Access::Write));
    assert_eq!((run.volume.seq[1].condition, run.volume.seq[1].access), (Condition::ReadOnly, Access::Read));
}

/// Commands of every sort that are outstanding when another file's failure makes the mount read-only: they are done well,
/// sizes move with the disk, and the check holds.
#[test]
fn commands_outlive_a_remount() {
    let cases = [
        (write(SEQ, 0, 4096, 8192), 12288),
        (truncate(SEQ, 0, 0), 0),
        (truncate(SEQ, 0, 201326592), 201326592),
        (flush(SEQ, 0), 4096),
        (read(SEQ, 0, 0, 4096), 4096),
    ];
    for (call, size) in cases {
        let mut run = begin("errors=remount-ro");
        run.call(&call).unwrap();
        issue_and_do(&mut run, &write(SEQ, 1, 0, 8192), &failing(1, None));
        assert!(run.volume.mount.read_only);
        assert!(run.is_busy(SEQ, 0));
        assert_eq!(run.doing(SEQ, 0, &WELL, own), Ok(Some(None)), "{call:?}");
        assert_eq!(first(&run), (size, Condition::Healthy, Access::Write));
        assert_eq!(run.compared.exceptions, [0, 0, 0]);
        assert_eq!(run.volume.seq[1].size, 4096);
    }
}

/// The same where the second one fails too, on a mount that is read-only by then.
#[test]
fn a_failure_after_a_remount() {
    for (choice, expected) in [
        (failing(1, None), (8192, Condition::Healthy, Access::Write)),
        (failing(0, Some(Mishap::BecomesReadOnly)), (4096, Condition::ReadOnly, Access::Read)),
        (failing(2, Some(Mishap::BecomesOffline)), (0, Condition::Offline, Access::None)),
    ] {
        let mut run = begin("errors=remount-ro");
        run.call(&write(SEQ, 0, 4096, 8192)).unwrap();
        issue_and_do(&mut run, &flush(CNV, 0), &failing(0, None));
        assert!(run.volume.mount.read_only);
        assert!(run.doing(SEQ, 0, &choice, own).unwrap().unwrap().is_some());
        assert_eq!(first(&run), expected);
    }
}

/// "On the disk open and close move no pointer .. and may leave condition 3 or 4", or that of the pointer. A write after that
/// leaves the pointer's again.
#[test]
fn what_opens_and_closes_leave_on_the_disk() {
    let leaves = [(Leaves::AsThePointerSays, 2, 1), (Leaves::ExplicitlyOpen, 3, 3), (Leaves::Closed, 4, 4)];
    for (leaves, begun, empty) in leaves {
        let mut run = begin("errors=repair,explicit-open");
        let choice = Choice { leaves, ..WELL };
        issue_and_do(&mut run, &open(SEQ, 0), &choice);
        issue_and_do(&mut run, &open(SEQ, 1), &choice);
        assert_eq!((run.disk.zones[3].pointer, run.disk.zones[3].condition), (1572872, begun));
        assert_eq!((run.disk.zones[4].pointer, run.disk.zones[4].condition), (2097152, empty));
        issue_and_do(&mut run, &write(SEQ, 0, 4096, 4096), &WELL);
        assert_eq!((run.disk.zones[3].pointer, run.disk.zones[3].condition), (1572880, 2));
        issue_and_do(&mut run, &close(SEQ, 0), &choice);
        assert_eq!((run.disk.zones[3].pointer, run.disk.zones[3].condition), (1572880, begun));
        issue_and_do(&mut run, &truncate(SEQ, 0, 0), &WELL);
        assert_eq!((run.disk.zones[3].pointer, run.disk.zones[3].condition), (1572864, 1));
        assert_eq!(run.volume.account.open, 1);
        assert_eq!(run.compared.failures, 0);
    }
}

/// A fall of no block is no mishap, so it leaves the condition as it is.
#[test]
fn a_fall_of_nothing_leaves_an_open_zone_open() {
    let mut run = begin("errors=repair,explicit-open");
    issue_and_do(&mut run, &open(SEQ, 1), &Choice { leaves: Leaves::ExplicitlyOpen, ..WELL });
    assert!(!run.disk.suffer(4, Mishap::Fall { blocks: 3 }));
    assert_eq!(run.disk.zones[4].condition, 3);
}

/// They "fail on an unhealthy zone", whatever the disk would choose, and may fail on any.
#[test]
fn opens_and_closes_that_fail() {
    for mishap in [Mishap::BecomesReadOnly, Mishap::BecomesOffline] {
        let mut run = begin("errors=repair,explicit-open");
        issue_and_do(&mut run, &open(SEQ, 0), &WELL);
        run.mishap(3, mishap).unwrap();
        run.mishap(4, mishap).unwrap();
        issue_and_do(&mut run, &close(SEQ, 0), &WELL);
        issue_and_do(&mut run, &open(SEQ, 1), &WELL);
        assert_eq!(run.compared.failures, 2);
        assert_eq!((run.volume.account.open, run.volume.account.active), (0, 0));
    }
    let mut run = begin("errors=zone-ro,explicit-open");
    issue_and_do(&mut run, &open(SEQ, 0), &failing(0, Some(Mishap::Fall { blocks: 1 })));
    assert_eq!(first(&run), (0, Condition::Healthy, Access::Read));
    issue_and_do(&mut run, &open(SEQ, 1), &failing(0, None));
    assert_eq!(run.volume.seq[1].access, Access::Read);
    assert_eq!(run.compared.exceptions, [0, 0, 4]);
}

/// "Done well" they "count as a good read", so they make no file quiet; a failed one does.
#[test]
fn good_opens_and_closes_make_nothing_quiet() {
    let mut run = begin("errors=repair,explicit-open");
    run.mishap(3, Mishap::Fall { blocks: 1 }).unwrap();
    let rows = run.compared.rows;
    issue_and_do(&mut run, &open(SEQ, 0), &WELL);
    issue_and_do(&mut run, &close(SEQ, 0), &WELL);
    // Four states, each with seq/1 alone.
    assert_eq!((run.compared.rows, first(&run).0), (rows + 4, 4096));
    issue_and_do(&mut run, &open(SEQ, 0), &failing(0, None));
    // Two more, the second with both.
    assert_eq!((run.compared.rows, first(&run).0), (rows + 7, 0));
}

/// A flush fails after a mishap, whatever opens were done since.
#[test]
fn a_flush_after_a_mishap_and_an_open() {
    let mut run = begin("errors=repair,explicit-open");
    run.mishap(3, Mishap::Fall { blocks: 1 }).unwrap();
    issue_and_do(&mut run, &open(SEQ, 0), &WELL);
    issue_and_do(&mut run, &flush(SEQ, 0), &WELL);
    assert_eq!((run.compared.failures, first(&run).0, run.volume.seq[0].opens), (1, 0, 1));
}

/// The check notices an account that isn't true, and opens that don't follow from the answers.
#[test]
fn wrong_accounts_and_opens_are_noticed() {
    let wrong: [(Change<Volume>, &str); 7] = [
        (|volume| volume.account.open = 0, "consistency: the account is "),
        (|volume| volume.account.open = 2, "consistency: the account is "),
        (|volume| volume.account.active = 1, "consistency: the account is "),
        (|volume| volume.seq[1].opens = 2, "consistency: seq/1 is "),
        (|volume| volume.seq[0].opens = 1, "consistency: seq/0 is "),
        (|volume| volume.cnv[0].opens = 1, "consistency: Conventional file 0 has 1 opens and not 0"),
        (|volume| volume.seq[1].opens = 0, "consistency: seq/1 is "),
    ];
    for (change, expected) in wrong {
        let mut run = begin("errors=repair,explicit-open");
        issue_and_do(&mut run, &open(SEQ, 1), &WELL);
        change(&mut run.volume);
        let complaint = run.mishap(0, Mishap::BecomesOffline).unwrap_err();
        assert!(complaint.starts_with(expected), "{complaint}");
    }
    // Of a busy file the row isn't compared, but its opens are.
    let mut run = begin("errors=repair,explicit-open");
    run.call(&open(SEQ, 1)).unwrap();
    run.volume.seq[1].opens = 2;
    let complaint = run.mishap(0, Mishap::BecomesOffline).unwrap_err();
    assert!(complaint.starts_with("consistency: Sequential file 1 has 2 opens and not 1"), "{complaint}");
}

/// Opens and closes between other calls, with failures that end them: rows and account hold all the while.
#[test]
fn a_run_with_opens() {
    let input = Input { open_limit: 1, ..input_with(0, "errors=remount-ro,explicit-open", &sheet_zones()) };
    let mut run = Run::begin(&input).unwrap();
    run.call(&write(SEQ, 1, 0, 4096)).unwrap();
    issue_and_do(&mut run, &open(SEQ, 1), &WELL);
    run.call(&open(SEQ, 0)).unwrap();
    assert_eq!((run.volume.seq[0].opens, run.volume.account.open, run.volume.account.active), (0, 1, 2));
    issue_and_do(&mut run, &write(SEQ, 1, 0, 8192), &WELL);
    run.call(&close(SEQ, 1)).unwrap();
    issue_and_do(&mut run, &open(SEQ, 0), &failing(0, None));
    assert!(run.volume.mount.read_only && run.is_busy(SEQ, 1));
    assert!(run.doing(SEQ, 1, &WELL, own).unwrap().is_some());
    run.call(&open(SEQ, 1)).unwrap();
    run.call(&close(SEQ, 1)).unwrap();
    assert_eq!((run.volume.account.open, run.volume.account.active), (0, 2));
    assert_eq!(run.compared.accounts, run.compared.states);
}
