//! The counts of files that are busy at the same time, on tapes made for each case.

use super::*;
use crate::generator::records::{encode, head};
use crate::player::tape::{CallRecord, Record};
use crate::program::busy::{Busy, CASES, CASE_NAMES};
use crate::program::tally::Tally;

/// A record of a tape.
enum On {
    Call(Call),
    Good(Named),
    Failed(Named, Zone),
}

use On::{Call as Ask, Failed, Good};

/// Zones 3 and 4 of the sheet, healthy and with a block less than their files would have after the writes below.
fn third() -> Zone {
    zone(1572864, 524288, 1572864, 2, 1, 393216)
}

fn fourth() -> Zone {
    zone(2097152, 524288, 2097152, 2, 1, 393216)
}

fn counted(options: &str, records: &[On]) -> Busy {
    let mut tape = head(&input_with(0, options, &sheet_zones()));
    for on in records {
        match on {
            Ask(call) => encode(&Record::Call(CallRecord::of(call)), &mut tape),
            Good(named) => encode(&Record::Good(*named), &mut tape),
            Failed(named, zone) => encode(&Record::Failed(*named, &record(zone)), &mut tape),
        }
    }
    let mut busy = Busy::default();
    busy.count_tape(&tape);
    busy
}

/// The numbers of the cases, from 1, and how often each came; those that didn't come aren't there.
fn cases(records: &[On]) -> Vec<(usize, u64)> {
    (1..).zip(counted("errors=remount-ro", records).counts).filter(|(_, count)| *count > 0).collect()
}

#[test]
fn one_file_alone() {
    let write_0 = || Ask(write(SEQ, 0, 4096, 4096));
    assert_eq!(cases(&[write_0(), Good(seq(0)), Ask(flush(SEQ, 1)), Good(seq(1))]), []);
    // 2, 8 and 9 with nothing else outstanding.
    let alone = [Good(seq(0)), write_0(), write_0(), Failed(seq(0), fourth()), Good(seq(0)), Good(seq(0))];
    assert_eq!(cases(&alone), []);
    // A failure that marks the mount.
    assert_eq!(cases(&[write_0(), Failed(seq(0), third()), Ask(flush(SEQ, 1))]), []);
}

#[test]
fn calls_beside_a_busy_file() {
    let start = || Ask(write(SEQ, 0, 4096, 4096));
    assert_eq!(cases(&[start(), Ask(flush(SEQ, 1))]), [(1, 1)]);
    assert_eq!(cases(&[start(), Ask(read(SEQ, 1, 0, 1))]), [(1, 1)], "answered at once");
    assert_eq!(cases(&[start(), Ask(read(SEQ, 2, 0, 1)), Ask(write(SEQ, 1, 1, 1))]), [], "refused");
    assert_eq!(cases(&[start(), Ask(flush(CNV, 0)), Ask(flush(SEQ, 0))]), [(1, 1), (2, 1)]);
    assert_eq!(cases(&[start(), Ask(flush(CNV, 0)), Ask(flush(CNV, 1))]), [(1, 2), (3, 1)]);
    let four = [start(), Ask(flush(CNV, 0)), Ask(flush(CNV, 1)), Ask(flush(SEQ, 1))];
    assert_eq!(cases(&four), [(1, 3), (3, 2)]);
}

#[test]
fn completions_beside_a_busy_file() {
    let start = || [Ask(write(SEQ, 0, 4096, 4096)), Ask(flush(SEQ, 1))];
    let after = |records: Vec<On>| cases(&start().into_iter().chain(records).collect::<Vec<_>>());
    assert_eq!(after(vec![Good(seq(0)), Good(seq(1))]), [(1, 1)]);
    assert_eq!(after(vec![Good(seq(1)), Good(seq(0))]), [(1, 1), (4, 1)]);
    // The file has gone back to the end of the order.
    let again = vec![Good(seq(0)), Ask(flush(SEQ, 0)), Good(seq(0))];
    assert_eq!(after(again), [(1, 2), (4, 1)]);
    assert_eq!(after(vec![Good(cnv(0)), Failed(cnv(1), third())]), [(1, 1), (5, 2)]);
    let nowhere = vec![Good(seq(2)), Failed(cnv(u32::MAX), third()), Good(Named { kind: 2, number: 0 })];
    assert_eq!(after(nowhere), [(1, 1), (6, 2), (7, 1)]);
    assert_eq!(after(vec![Failed(seq(0), fourth())]), [(1, 1), (8, 1)]);
    // Zone 2 is a file that has nothing outstanding.
    assert_eq!(after(vec![Failed(seq(0), sheet_zones()[2])]), [(1, 1)]);
    assert_eq!(after(vec![Failed(seq(0), Zone { pointer: 1, ..fourth() })]), [(1, 1)], "9 for its own fault");
}

/// Cases 10 to 14 are of commands that were issued before the mount became read-only, which is case 9.
#[test]
fn completions_after_a_remount() {
    let calls = [
        (write(SEQ, 0, 4096, 4096), 10),
        (write(CNV, 0, 0, 1), 11),
        (truncate(SEQ, 0, 0), 12),
        (truncate(SEQ, 0, 201326592), 13),
        (flush(SEQ, 0), 14),
        (flush(CNV, 0), 14),
    ];
    let named = |call: &Call| Named::of(call.kind, call.number);
    for (call, case) in calls {
        let remount = || [Ask(call), Ask(flush(SEQ, 1)), Failed(seq(1), fourth())];
        let expected = [(1, 1), (4, 1), (9, 1)];
        assert_eq!(cases(&remount()), expected);
        let done: Vec<On> = remount().into_iter().chain([Good(named(&call))]).collect();
        assert_eq!(cases(&done), [&expected[..], &[(case, 1)]].concat(), "{call:?}");
    }
    let failed = [Ask(flush(SEQ, 0)), Ask(flush(SEQ, 1)), Failed(seq(1), fourth()), Failed(seq(0), third())];
    assert_eq!(cases(&failed), [(1, 1), (4, 1), (9, 1), (15, 1)]);
    // Reads are issued and done on any mount.
    let reads = [
        Ask(read(SEQ, 0, 0, 1)),
        Ask(flush(SEQ, 1)),
        Failed(seq(1), fourth()),
        Good(seq(0)),
        Ask(read(SEQ, 0, 0, 1)),
        Good(seq(0)),
    ];
    assert_eq!(cases(&reads), [(1, 1), (4, 1), (9, 1)]);
}

/// Cases 16 and 17: opens and closes that are done well after the remount, of which a close could still be commanded.
#[test]
fn opens_and_closes_after_a_remount() {
    let marks = || [Ask(flush(SEQ, 1)), Failed(seq(1), fourth())];
    let opened = || [Ask(open(SEQ, 0)), Good(seq(0))];
    let cases = |records: Vec<On>| counted("explicit-open", &records).counts[8..].to_vec();
    let after_open: Vec<On> = [Ask(open(SEQ, 0))].into_iter().chain(marks()).chain([Good(seq(0))]).collect();
    assert_eq!(cases(after_open), [1, 0, 0, 0, 0, 0, 0, 1, 0]);
    let close = || [Ask(close(SEQ, 0))];
    let after_close = opened().into_iter().chain(close()).chain(marks()).chain([Good(seq(0))]).collect();
    assert_eq!(cases(after_close), [1, 0, 0, 0, 0, 0, 0, 0, 1]);
    let closed_later = opened().into_iter().chain(marks()).chain(close()).chain([Good(seq(0))]).collect();
    assert_eq!(cases(closed_later), [0; 9]);
}

#[test]
fn tapes_without_a_mount_have_none() {
    let tape = head(&sheet_input());
    for length in [0, 1, 100, tape.len() - 1] {
        let mut busy = Busy::default();
        busy.count_tape(&tape[..length]);
        assert_eq!(busy, Busy::default());
    }
    let mut refused = tape;
    refused[2] = 1;
    let mut busy = Busy::default();
    busy.count_tape(&refused);
    assert_eq!(busy, Busy::default());
}

#[test]
fn missing_cases_are_named() {
    let mut tally = Tally::default();
    let named = |tally: &Tally| CASE_NAMES.map(|name| tally.missing().contains(&name.to_string()));
    assert_eq!(named(&tally), [true; CASES]);
    for answer in ["OK 1", "NO 1", "a row compared while another file is busy"] {
        assert!(tally.missing().contains(&answer.to_string()), "{answer}");
    }
    tally.busy.counts = [1, 2, 3, 4, 5, 6, 7, 8, 0, 10, 11, 12, 13, 14, 15, 16, 17];
    let mut expected = [false; CASES];
    expected[8] = true;
    assert_eq!(named(&tally), expected);
    tally.count_line("OK 1 5 1");
    tally.count_line("NO 2 0 1");
    tally.compared.rows_beside = 4;
    for answer in ["OK 1", "NO 1", "a row compared while another file is busy"] {
        assert!(!tally.missing().contains(&answer.to_string()), "{answer}");
    }
    let mut sum = tally.clone();
    sum.add(&tally);
    let text = sum.summary();
    assert!(text.contains(", busy files 2/4/6/8/10/12/14/16/0/20/22/24/26/28/30/32/34, openings "), "{text}");
    assert!(text.contains(", those beside a busy file 8, "), "{text}");
}
