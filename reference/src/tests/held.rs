//! What a row holds: its words, which calls store it, and which calls it keeps out.

use super::*;
use crate::player::calls::Reply::{Done, Issued};
use crate::player::mount::mount;
use crate::player::tape::{CallRecord, Verb};
use crate::player::types::{Access, Command, Held, Operation, Outstanding, Row};

/// Words that aren't 0: commands that calls issue or don't, and none.
const ANYTHING_HELD: [[u64; 3]; 8] = [
    [1, 805306368, 4096],
    [2, 805310464, 8192],
    [5, 805306368, 0],
    [3, 7, 9],
    [1, u64::MAX, u64::MAX],
    [6, 0, 0],
    [8, 805306368, 4096],
    [u64::MAX, u64::MAX, u64::MAX],
];

fn command(operation: Operation, address: u64, length: u64) -> Command {
    Command { operation, address, length }
}

#[test]
fn words_of_what_is_held() {
    let codes = [
        (Operation::Read, 0),
        (Operation::Write, 1),
        (Operation::Reset, 2),
        (Operation::Finish, 3),
        (Operation::Flush, 4),
        (Operation::Open, 5),
        (Operation::Close, 6),
    ];
    for (operation, code) in codes {
        let held = Held::Command(command(operation, 17, 19));
        assert_eq!(held.words(), [1 + code, 17, 19]);
        assert_eq!(Held::of_words([1 + code, 17, 19]), held);
        assert_eq!((held.is_outstanding(), held.command()), (true, Some(command(operation, 17, 19))));
    }
    for word in [8, 9, 1 << 32, u64::MAX] {
        let held = Held::of_words([word, 17, 19]);
        assert_eq!(held, Held::NoCommand { word, address: 17, length: 19 });
        assert_eq!((held.is_outstanding(), held.command(), held.words()), (true, None, [word, 17, 19]));
    }
}

/// Address and length aren't looked at then, and a stored row has 0 there.
#[test]
fn words_of_nothing() {
    for words in [[0, 0, 0], [0, 1, 0], [0, 0, 1], [0, u64::MAX, u64::MAX]] {
        let held = Held::of_words(words);
        assert_eq!((held, held.is_outstanding(), held.command()), (Held::Nothing, false, None));
        assert_eq!(held.words(), [0, 0, 0]);
    }
}

/// Whatever the lent rows held; those past the files keep it.
#[test]
fn a_mount_stores_rows_that_hold_nothing() {
    for words in ANYTHING_HELD {
        let lent = Row { held: Held::of_words(words), ..Row::EMPTY };
        let (mut cnv, mut seq) = (vec![lent; 4], vec![lent; 3]);
        mount(&sheet_input(), &mut cnv, &mut seq).unwrap();
        assert!(cnv[..2].iter().chain(&seq[..2]).all(|row| row.held.words() == [0, 0, 0]));
        assert!(cnv[2..].iter().chain(&seq[2..]).all(|row| *row == lent));
    }
}

/// Each command is stored in the row of its file, and nothing else changes.
#[test]
fn an_issued_command_is_stored_in_its_row() {
    let calls = [
        (read(SEQ, 0, 5, 10), [1, 805306373, 10]),
        (write(SEQ, 0, 4096, 8192), [2, 805310464, 8192]),
        (truncate(SEQ, 0, 0), [3, 805306368, 0]),
        (truncate(SEQ, 0, 201326592), [4, 805306368, 0]),
        (flush(SEQ, 0), [5, 805306368, 0]),
        (write(SEQ, 1, 0, 4096), [2, 1073741824, 4096]),
        (write(CNV, 1, 3, 5), [2, 536870915, 5]),
        (flush(CNV, 0), [5, 268435456, 0]),
    ];
    for (call, words) in calls {
        let mut volume = sheet();
        assert!(matches!(volume.call(&call), Ok(Issued(_))));
        let mut expected = sheet();
        expected.row_mut(call.kind, call.number).held = Held::of_words(words);
        assert_eq!(volume, expected, "{call:?}");
    }
}

/// Refused with 1 to 6, or answered at once; the file that is named, and others, may be busy.
#[test]
fn other_answers_store_nothing() {
    let mut volume = sheet();
    volume.call(&write(SEQ, 1, 0, 4096)).unwrap();
    volume.cnv[1].access = Access::Read;
    let before = volume.clone();
    let cases = [
        (write(SEQ, 2, 0, 4096), 1),
        (read(SEQ, 1, 0, 0), 2),
        (flush(SEQ, 1), 2),
        (flush(CNV, 1), 4),
        (write(SEQ, 0, 4096, 201326592), 5),
        (write(SEQ, 0, 0, 4096), 6),
        (read(SEQ, 0, 4096, 1), 0),
        (write(SEQ, 0, 4096, 0), 0),
        (write(CNV, 0, 0, 0), 0),
    ];
    for (call, answer) in cases {
        assert_eq!(number(volume.call(&call)), answer, "{call:?}");
        assert_eq!(volume, before, "{call:?}");
    }
    volume.mount.read_only = true;
    assert_eq!(number(volume.call(&flush(SEQ, 0))), 3);
    assert_eq!(volume, Volume { mount: volume.mount.clone(), ..before });
}

/// Calls of every sort, with arguments that are answered otherwise if the file isn't busy.
fn calls_on(kind: FileKind, number: u32) -> [Call; 5] {
    [
        read(kind, number, 0, 0),
        read(kind, number, u64::MAX, 1),
        write(kind, number, 1, 1),
        truncate(kind, number, 3),
        flush(kind, number),
    ]
}

#[test]
fn a_busy_file_answers_2_and_the_others_do_not() {
    let files = [(CNV, 0), (CNV, 1), (SEQ, 0), (SEQ, 1)];
    for (busy_kind, busy_number) in files {
        let mut volume = sheet();
        volume.call(&flush(busy_kind, busy_number)).unwrap();
        for (kind, file) in files {
            let busy = (kind, file) == (busy_kind, busy_number);
            for call in calls_on(kind, file) {
                let answer = number(volume.clone().call(&call));
                assert_eq!(answer == 2, busy, "{call:?} while {busy_kind:?} {busy_number} is busy");
                assert!(busy || answer == number(sheet().call(&call)), "{call:?}");
            }
        }
    }
}

#[test]
fn all_files_may_be_busy_at_once() {
    let mut volume = sheet();
    for call in [flush(SEQ, 1), write(CNV, 0, 0, 1), read(SEQ, 0, 0, 4096), flush(CNV, 1)] {
        assert!(matches!(volume.call(&call), Ok(Issued(_))), "{call:?}");
    }
    let outstanding = |kind, number, operation, address, length| Outstanding {
        kind,
        number,
        command: command(operation, address, length),
    };
    let all = [
        outstanding(CNV, 0, Operation::Write, 268435456, 1),
        outstanding(CNV, 1, Operation::Flush, 536870912, 0),
        outstanding(SEQ, 0, Operation::Read, 805306368, 4096),
        outstanding(SEQ, 1, Operation::Flush, 1073741824, 0),
    ];
    assert_eq!(volume.all_outstanding(), all);
    assert_eq!(volume.outstanding(SEQ, 0), Some(all[2]));
    assert_eq!((volume.outstanding(SEQ, 2), sheet().all_outstanding()), (None, Vec::new()));
}

/// Calls don't examine it: whatever isn't 0 is outstanding, on its own file and on no other.
#[test]
fn calls_do_not_examine_what_is_held() {
    for words in ANYTHING_HELD {
        let mut volume = sheet();
        volume.seq[0].held = Held::of_words(words);
        let before = volume.clone();
        for call in calls_on(SEQ, 0) {
            assert_eq!(number(volume.call(&call)), 2, "{words:?} {call:?}");
        }
        assert_eq!(volume.call(&read(SEQ, 1, 0, 1)), Ok(Done(0)), "{words:?}");
        assert_eq!(volume, before);
        assert!(matches!(volume.call(&flush(CNV, 0)), Ok(Issued(_))), "{words:?}");
    }
}

/// 10 for the counts, 1, 10 for the row, and only then 2.
#[test]
fn what_comes_before_2() {
    for words in ANYTHING_HELD {
        let mut volume = sheet();
        volume.seq[0].held = Held::of_words(words);
        volume.seq[0].size += 1;
        assert_eq!(number(volume.call(&flush(SEQ, 0))), 10);
        assert_eq!(number(volume.call(&flush(SEQ, 2))), 1);
        volume.mount.block = 1024;
        assert_eq!(number(volume.call(&flush(SEQ, 2))), 10);
        let kind_2 = CallRecord { verb: Verb::Flush, kind: 2, number: 0, offset: 0, length: 0 };
        assert_eq!(number(volume.recorded_call(&kind_2)), 10);
        volume.mount.block = 4096;
        assert_eq!(number(volume.recorded_call(&kind_2)), 1);
    }
}

#[test]
fn finding_and_showing_take_anything_held() {
    for words in ANYTHING_HELD {
        let mut volume = sheet();
        volume.seq[1].held = Held::of_words(words);
        assert_eq!(volume.find(b"seq/1"), Ok((SEQ, 1)));
        assert_eq!(volume.show(SEQ, 1), Ok((volume.seq[1], 0o640)));
        assert_eq!(volume.show(SEQ, 0), Ok((sheet().seq[0], 0o640)));
        volume.seq[1].size = 1;
        assert_eq!(volume.show(SEQ, 1), Err(Refusal::Impossible));
    }
}
