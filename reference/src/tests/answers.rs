//! Which answers a run may have, on answers that are made up here.

use super::*;
use crate::disk::answers::{call_fault, call_moved, completion_fault, limit_fault, Found};
use crate::player::calls::Reply::{Done, Issued};
use crate::player::tape::{CallRecord, Verb};
use crate::player::types::{Command, Held, Operation, Reason};

/// The refusal with each number that a call or a completion can have.
const REFUSALS: [Refusal; 13] = [
    Refusal::NoSuchFile,
    Refusal::Outstanding,
    Refusal::ReadOnlyMount,
    Refusal::Access,
    Refusal::BeyondCapacity,
    Refusal::NotAppending,
    Refusal::NothingOutstanding,
    Refusal::RecordMismatch(Reason::OtherZone),
    Refusal::Impossible,
    Refusal::OpenLimit,
    Refusal::ActiveLimit,
    Refusal::NotOpen,
    Refusal::TooManyOpens,
];

/// What each call can be refused with on a file that is there and isn't busy.
#[test]
fn calls_on_an_idle_file() {
    let verbs: [(Verb, &[u32]); 6] = [
        (Verb::Read, &[4, 5]),
        (Verb::Write, &[3, 4, 5, 6, 13]),
        (Verb::Truncate, &[3, 4]),
        (Verb::Flush, &[3, 4]),
        (Verb::Open, &[3, 4, 11, 12, 14]),
        (Verb::Close, &[13]),
    ];
    for (verb, numbers) in verbs {
        assert_eq!(call_fault(Found::Idle, verb, &Ok(Done(0))), None);
        for refusal in REFUSALS {
            let number = refusal.number();
            let fault = call_fault(Found::Idle, verb, &Err(refusal));
            if numbers.contains(&number) {
                assert_eq!(fault, None);
            } else {
                assert_eq!(fault, Some(format!("a call on an idle file is answered {number}")));
            }
        }
    }
}

/// Limits may be in the way of a call that would be answered, and nothing else comes of them.
#[test]
fn limits_are_in_the_way_of_good_opens_alone() {
    let answers = REFUSALS.into_iter().map(Err).chain([Ok(Done(0)), Ok(FLUSH)]);
    for answer in answers {
        let limited = [11, 12].contains(&number(answer));
        assert_eq!(limit_fault(&answer, &answer).is_some(), limited, "{answer:?}");
        assert_eq!(limit_fault(&answer, &Ok(Done(1))).is_none(), limited, "{answer:?}");
    }
    let fault = "a call is answered 0, and 3 without limits".to_string();
    assert_eq!(limit_fault(&Ok(Done(0)), &Err(Refusal::ReadOnlyMount)), Some(fault));
}

/// 2, and nothing else: it comes before all that looks at the arguments.
#[test]
fn calls_on_a_busy_file() {
    assert_eq!(call_fault(Found::Busy, Verb::Flush, &Err(Refusal::Outstanding)), None);
    let others = REFUSALS.into_iter().filter(|&refusal| refusal != Refusal::Outstanding).map(Err);
    for answer in others.chain([Ok(Done(0)), Ok(FLUSH)]) {
        let number = number(answer);
        let expected = format!("a call on a busy file is answered {number}");
        assert_eq!(call_fault(Found::Busy, Verb::Flush, &answer), Some(expected));
    }
}

#[test]
fn calls_on_a_file_that_is_not_there() {
    assert_eq!(call_fault(Found::NoFile, Verb::Flush, &Err(Refusal::NoSuchFile)), None);
    for answer in [Ok(Done(0)), Err(Refusal::Outstanding), Err(Refusal::Impossible)] {
        let fault = call_fault(Found::NoFile, Verb::Flush, &answer).unwrap();
        let number = number(answer);
        assert_eq!(fault, format!("a call on a file that isn't there is answered {number}"));
    }
}

/// The command of a flush of seq/0.
const FLUSH: Reply = Issued(Command { operation: Operation::Flush, address: 805306368, length: 0 });

fn flushing(number: u32) -> CallRecord {
    CallRecord::of(&flush(SEQ, number))
}

/// Ways in which a volume may differ from the sheet with nothing outstanding.
const CHANGES: [fn(&mut Volume); 10] = [
    |volume| volume.mount.read_only = true,
    |volume| volume.seq[0].size = 0,
    |volume| volume.cnv[1].start += 8,
    |volume| volume.seq[1021].start = 1,
    |volume| volume.seq[1].held = Held::of_words([5, 1073741824, 0]),
    |volume| volume.cnv[0].held = Held::of_words([9, 0, 0]),
    |volume| volume.seq[0].opens = 1,
    |volume| volume.account.open = 1,
    |volume| volume.account.active = 0,
    |volume| volume.account.active_limit = 7,
];

#[test]
fn only_an_issued_command_moves_something() {
    let idle = sheet();
    let mut busy = sheet();
    busy.call(&flush(SEQ, 0)).unwrap();
    assert_eq!(call_moved(&flushing(0), &Ok(FLUSH), &idle, &busy), None);
    let beside = Some("a call moved something beside the command in its row".to_string());
    assert_eq!(call_moved(&flushing(0), &Ok(FLUSH), &idle, &idle), beside);
    assert_eq!(call_moved(&flushing(1), &Ok(FLUSH), &idle, &busy), beside);
    let at_once = Some("a call that was answered at once moved something".to_string());
    assert_eq!(call_moved(&flushing(0), &Ok(Done(0)), &idle, &idle), None);
    assert_eq!(call_moved(&flushing(0), &Ok(Done(0)), &idle, &busy), at_once);
    for change in CHANGES {
        let (mut after_busy, mut after_idle) = (busy.clone(), idle.clone());
        change(&mut after_busy);
        change(&mut after_idle);
        assert_eq!(call_moved(&flushing(0), &Ok(FLUSH), &idle, &after_busy), beside);
        assert_eq!(call_moved(&flushing(0), &Ok(Done(0)), &idle, &after_idle), at_once);
        for refusal in REFUSALS {
            let refused = format!("a refused call (answered {}) moved something", refusal.number());
            assert_eq!(call_moved(&flushing(0), &Err(refusal), &idle, &idle), None);
            assert_eq!(call_moved(&flushing(0), &Err(refusal), &idle, &after_idle), Some(refused));
        }
    }
}

/// Beside the command, if there is one, the opens of the file's row and what follows from them in the account.
#[test]
fn an_open_and_a_close_move_the_opens() {
    let idle = sheet_under("explicit-open");
    let steps = [open(SEQ, 1), open(SEQ, 0), close(SEQ, 1), open(CNV, 0), close(CNV, 1)];
    let mut before = idle;
    for call in steps {
        let mut after = before.clone();
        let answer = after.call(&call);
        assert!(answer.is_ok());
        let record = CallRecord::of(&call);
        assert_eq!(call_moved(&record, &answer, &before, &after), None, "{call:?}");
        for change in CHANGES {
            let mut changed = after.clone();
            change(&mut changed);
            if changed != after {
                assert!(call_moved(&record, &answer, &before, &changed).is_some(), "{call:?}");
            }
        }
        // Without the open or close nothing else may have moved it.
        if call.kind == SEQ {
            assert!(call_moved(&flushing(call.number), &answer, &before, &after).is_some(), "{call:?}");
        }
        before = Volume { seq: after.seq.iter().map(|row| row.idle()).collect(), ..after };
    }
}

#[test]
fn a_digested_completion_leaves_nothing_outstanding_on_its_file() {
    let idle = sheet();
    let mut busy = sheet();
    busy.call(&flush(SEQ, 0)).unwrap();
    for answer in [0, 7] {
        assert_eq!(completion_fault(&seq(0), answer, answer, &busy, &idle), None);
        let left = format!("is answered {answer} and leaves the file's command outstanding");
        assert_eq!(completion_fault(&seq(0), answer, answer, &busy, &busy), Some(left));
        // Another file's stays, as it must.
        assert_eq!(completion_fault(&seq(1), answer, answer, &busy, &busy), None);
    }
}

#[test]
fn a_refused_completion_moves_nothing() {
    let mut busy = sheet();
    busy.call(&flush(SEQ, 0)).unwrap();
    let lost: fn(&mut Volume) = |volume| volume.seq[0].held = Held::Nothing;
    for answer in [1, 8, 9, 10] {
        assert_eq!(completion_fault(&seq(0), answer, answer, &busy, &busy), None);
        for change in CHANGES.into_iter().chain([lost]) {
            let mut after = busy.clone();
            change(&mut after);
            let moved = format!("is answered {answer} and moved something");
            assert_eq!(completion_fault(&seq(0), answer, answer, &busy, &after), Some(moved));
        }
    }
}

#[test]
fn a_completion_has_one_answer() {
    let idle = sheet();
    let answers = [0, 1, 7, 8, 9, 10];
    for must_be in answers {
        for answer in answers.into_iter().filter(|&answer| answer != must_be) {
            let other = format!("is answered {answer} and not {must_be}");
            assert_eq!(completion_fault(&seq(0), must_be, answer, &idle, &idle), Some(other));
        }
    }
}
