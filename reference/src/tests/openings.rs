//! The counts of what came of opens and closes, on tapes made for each case.

use super::opening::{zones, ADDRESSES, CAPACITY};
use super::*;
use crate::generator::records::{encode, head};
use crate::player::tape::{CallRecord, Record};
use crate::program::openings::{Openings, CASES, CASE_NAMES};
use crate::program::tally::Tally;

/// A record of a tape, after the mount.
enum On {
    Ask(Call),
    Good(u32),
    Failed(u32, u8),
}

use On::{Ask, Failed, Good};

const BY_HAND: &str = "errors=repair,explicit-open";

/// The zone of a sequential file with a block written, or ill.
fn zone_of(number: u32, condition: u8) -> [u8; 64] {
    let start = ADDRESSES[number as usize] / 512;
    record(&zone(start, 524288, start + 8, 2, condition, 393216))
}

/// The numbers of the cases, from 1, and how often each came; those that didn't come aren't there.
fn cases(options: &str, limits: (u32, u32), records: Vec<On>) -> Vec<(usize, u64)> {
    let (open_limit, active_limit) = limits;
    let mut tape = head(&Input { open_limit, active_limit, ..input_with(0, options, &zones()) });
    for on in records {
        match on {
            Ask(call) => encode(&Record::Call(CallRecord::of(&call)), &mut tape),
            Good(number) => encode(&Record::Good(seq(number)), &mut tape),
            Failed(number, condition) => {
                encode(&Record::Failed(seq(number), &zone_of(number, condition)), &mut tape)
            }
        }
    }
    let mut openings = Openings::default();
    openings.count_tape(&tape);
    (1..).zip(openings.counts).filter(|(_, count)| *count > 0).collect()
}

fn unlimited(records: Vec<On>) -> Vec<(usize, u64)> {
    cases(BY_HAND, (0, 0), records)
}

#[test]
fn opens_and_closes() {
    let opened = |number| [Ask(open(SEQ, number)), Good(number)];
    assert_eq!(unlimited(Vec::from(opened(0))), [(1, 1)]);
    let further = opened(0).into_iter().chain([Ask(open(SEQ, 0)), Ask(close(SEQ, 0))]).collect();
    assert_eq!(unlimited(further), [(1, 1), (2, 1), (7, 1)]);
    assert_eq!(unlimited(vec![Ask(open(SEQ, 2)), Ask(close(SEQ, 2))]), [(3, 1), (6, 1)]);
    let closed = opened(0).into_iter().chain([Ask(close(SEQ, 0)), Good(0)]).collect();
    assert_eq!(unlimited(closed), [(1, 1), (4, 1)]);
    let empty = opened(1).into_iter().chain([Ask(close(SEQ, 1))]).collect();
    assert_eq!(unlimited(empty), [(1, 1), (5, 1)]);
    let resets = vec![Ask(open(SEQ, 2)), Ask(truncate(SEQ, 2, 0)), Good(2)];
    assert_eq!(unlimited(resets), [(3, 1), (22, 1)]);
    assert_eq!(unlimited(vec![Ask(truncate(SEQ, 2, 0)), Good(2)]), []);
    let above = vec![Ask(open(SEQ, 2)), Ask(truncate(SEQ, 2, 0)), Good(2), Ask(open(SEQ, 1))];
    assert_eq!(cases(BY_HAND, (0, 1), above), [(3, 1), (17, 1), (21, 1), (22, 1), (23, 1)]);
    // Busy, or not there.
    assert_eq!(
        unlimited(vec![Ask(flush(SEQ, 0)), Ask(open(SEQ, 0)), Ask(close(SEQ, 4)), Ask(open(CNV, 7))]),
        []
    );
}

#[test]
fn failures_and_losses() {
    let failed = vec![Ask(open(SEQ, 0)), Failed(0, 2), Ask(close(SEQ, 0))];
    assert_eq!(unlimited(failed), [(1, 1), (8, 1), (11, 1)]);
    let close_failed = vec![Ask(open(SEQ, 0)), Good(0), Ask(close(SEQ, 0)), Failed(0, 2), Ask(close(SEQ, 0))];
    assert_eq!(unlimited(close_failed), [(1, 1), (4, 1), (9, 1), (12, 1)]);
    let lost = || vec![Ask(open(SEQ, 0)), Good(0), Ask(flush(SEQ, 0)), Failed(0, 13), Ask(close(SEQ, 0))];
    assert_eq!(unlimited(lost()), [(1, 1), (10, 1), (11, 1)]);
    let kept = vec![Ask(open(SEQ, 0)), Good(0), Ask(flush(SEQ, 0)), Failed(0, 2), Ask(close(SEQ, 1))];
    assert_eq!(unlimited(kept), [(1, 1), (12, 1)]);
    // A file that is opened again isn't lost any more.
    let again = vec![
        Ask(open(SEQ, 0)),
        Failed(0, 2),
        Ask(open(SEQ, 0)),
        Good(0),
        Ask(close(SEQ, 0)),
        Good(0),
        Ask(close(SEQ, 0)),
    ];
    assert_eq!(unlimited(again), [(1, 2), (4, 1), (8, 1), (12, 1)]);
    // Refused completions count nothing.
    assert_eq!(unlimited(vec![Ask(open(SEQ, 0)), Failed(1, 2), Good(1)]), [(1, 1)]);
}

#[test]
fn writes_to_files_that_are_not_open() {
    let writes = |offset, length| unlimited(vec![Ask(write(SEQ, 0, offset, length))]);
    assert_eq!(writes(4096, 4096), [(13, 1)]);
    assert_eq!(writes(4096, CAPACITY), [(13, 1), (14, 1)]);
    assert_eq!(writes(0, 4096), [(13, 1), (15, 1)]);
    assert_eq!(cases("", (0, 0), vec![Ask(write(SEQ, 0, 0, CAPACITY + 1))]), []);
}

#[test]
fn limits() {
    let opens = |files: &[u32]| files.iter().map(|&file| Ask(open(SEQ, file))).collect::<Vec<On>>();
    assert_eq!(cases(BY_HAND, (1, 0), opens(&[0, 1])), [(1, 1), (16, 1), (19, 1)]);
    assert_eq!(cases(BY_HAND, (1, 1), opens(&[0, 1])), [(1, 1), (16, 1), (18, 1), (19, 1)]);
    assert_eq!(cases(BY_HAND, (0, 1), opens(&[1])), [(17, 1)], "met by the mount");
    assert_eq!(cases(BY_HAND, (0, 2), opens(&[1, 3])), [(1, 1), (17, 1), (20, 1)]);
    assert_eq!(cases("", (1, 1), opens(&[0, 1])), [(32, 1)]);
    let closes = vec![Ask(open(SEQ, 0)), Ask(open(SEQ, 0)), Ask(close(SEQ, 0)), Ask(close(SEQ, 0))];
    assert_eq!(cases("", (0, 0), closes), [(31, 1)]);
}

#[test]
fn refusals_before_the_limits() {
    let options = "errors=remount-ro,explicit-open";
    let marked = || vec![Ask(open(SEQ, 0)), Good(0), Ask(flush(SEQ, 3)), Failed(3, 2)];
    let then = |call: Call| marked().into_iter().chain([Ask(call)]).collect::<Vec<On>>();
    assert_eq!(cases(options, (1, 0), then(open(SEQ, 1))), [(1, 1), (24, 1)]);
    assert_eq!(cases(options, (0, 0), then(open(SEQ, 1))), [(1, 1)]);
    assert_eq!(cases(options, (0, 0), then(close(SEQ, 0))), [(1, 1), (4, 1), (27, 1)]);
    assert_eq!(cases(options, (0, 0), then(close(CNV, 0))), [(1, 1), (29, 1), (30, 1)]);
    let lost = |limit| {
        let records = vec![Ask(open(SEQ, 0)), Ask(flush(SEQ, 3)), Failed(3, 13), Ask(open(SEQ, 3))];
        cases(BY_HAND, (limit, 0), records)
    };
    assert_eq!((lost(0), lost(1)), (vec![(1, 1)], vec![(1, 1), (25, 1)]));
}

#[test]
fn conventional_files_and_too_many_opens() {
    assert_eq!(unlimited(vec![Ask(open(CNV, 0)), Ask(close(CNV, 1)), Ask(open(CNV, 1))]), [(28, 2), (29, 1)]);
    let opens = (0..65_537).map(|_| Ask(open(SEQ, 2))).collect();
    assert_eq!(unlimited(opens), [(2, 65_534), (3, 1), (26, 2)]);
}

#[test]
fn missing_cases_are_named() {
    let mut tally = Tally::default();
    let named = |tally: &Tally| CASE_NAMES.map(|name| tally.missing().contains(&name.to_string()));
    assert_eq!(named(&tally), [true; CASES]);
    for answer in ["OP O", "OP D", "OP 11", "OP 12", "OP 14", "CL C", "CL D", "CL 13", "WR 13"] {
        assert!(tally.missing().contains(&answer.to_string()), "{answer}");
    }
    tally.openings.counts = [1; CASES];
    tally.openings.counts[25] = 0;
    let mut expected = [false; CASES];
    expected[25] = true;
    assert_eq!(named(&tally), expected);
    tally.count_line("OP 0 O 805306368 0");
    tally.count_line("CL 0 D 0");
    tally.count_line("WR 13");
    for answer in ["OP O", "CL D", "WR 13"] {
        assert!(!tally.missing().contains(&answer.to_string()), "{answer}");
    }
    let other = tally.clone();
    tally.add(&other);
    assert!(tally.summary().contains(", openings 2/2/2/2/2/"), "{}", tally.summary());
    let wild = "an account compared in a run with any completions".to_string();
    assert!(tally.missing().contains(&wild));
    tally.compared.accounts = 1;
    assert!(!tally.missing().contains(&wild) && tally.summary().contains(", accounts 1, "));
}
