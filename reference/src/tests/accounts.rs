//! The 10s of opening by hand: accounts that no mount has, opens that no row has, and held opens and closes that no call
//! issues.

use super::opening::{by_hand, limited, ADDRESSES, CAPACITY};
use super::*;
use crate::player::tape::{CallRecord, Verb};
use crate::player::types::{Access, Account, Command, Held, Operation};

/// Makes something wrong of something right.
type Change = fn(&mut Volume);

/// A read that can be answered at once, a read that isn't there, and the same of shown rows and names.
fn looked_at(volume: &Volume, kind: FileKind, file: u32) -> [u32; 3] {
    let call = number(volume.clone().call(&read(kind, file, 0, 0)));
    let shown = volume.show(kind, file).map_or_else(Refusal::number, |_| 0);
    let name = format!("{}/{file}", if kind == SEQ { "seq" } else { "cnv" });
    let found = volume.find(name.as_bytes()).map_or_else(Refusal::number, |_| 0);
    [call, shown, found]
}

/// What completions are answered, good and failed with a record that fits no file.
fn completed(volume: &Volume, file: u32) -> [u32; 2] {
    let good = volume.clone().succeed(SEQ, file).map_or_else(Refusal::number, |_| 0);
    let failed = volume.clone().fail(SEQ, file, &[0; 64], true).map_or_else(Refusal::number, |_| 7);
    [good, failed]
}

/// "An account above the seq file count (before 1)": 4 is not above, 5 is.
#[test]
fn accounts_above_the_files() {
    let cases: [(u32, u32, bool); 8] = [
        (4, 4, true),
        (0, 4, true),
        (4, 1, true),
        (5, 1, false),
        (0, 5, false),
        (5, 5, false),
        (u32::MAX, 1, false),
        (1, u32::MAX, false),
    ];
    for options in ["", "explicit-open"] {
        for (open, active, fits) in cases {
            let mut volume = limited(options, 0, 0);
            volume.account = Account { open, active, ..volume.account };
            let or_10 = |number: u32| if fits { number } else { 10 };
            for (kind, file, number) in [(SEQ, 0, 0), (SEQ, 3, 0), (CNV, 0, 0), (SEQ, 4, 1), (CNV, 9, 1)] {
                assert_eq!(looked_at(&volume, kind, file), [or_10(number); 3], "{open} {active}");
            }
            assert_eq!(volume.find(b"seq/x").map_err(Refusal::number), Err(or_10(1)));
            assert_eq!((completed(&volume, 0), completed(&volume, 7)), ([or_10(8); 2], [or_10(1); 2]));
            // A kind that no file has, on a tape.
            let record = CallRecord { verb: Verb::Open, kind: 2, number: 0, offset: 0, length: 0 };
            assert_eq!(number(volume.recorded_call(&record)), or_10(1));
        }
    }
    // The limits are no part of it.
    let mut volume = limited("explicit-open", u32::MAX, u32::MAX);
    assert_eq!(looked_at(&volume, SEQ, 0), [0; 3]);
    (volume.mount.seq_files, volume.account.active) = (0, 0);
    assert_eq!(looked_at(&volume, CNV, 0), [0; 3]);
    volume.account.open = 1;
    assert_eq!(looked_at(&volume, CNV, 0), [10; 3]);
}

/// ".. 0 in what the named row counts in": it comes with the row, after 1 and before 2.
#[test]
fn accounts_of_nothing_that_the_row_counts_in() {
    let open_first: Change = |volume| volume.seq[0].opens = 1;
    // Each with the option's answer and the one without it.
    let cases: [(Change, Change, u32, u32, u32); 8] = [
        (open_first, |volume| volume.account.open = 0, 0, 10, 10),
        (open_first, |volume| volume.account.open = 1, 0, 0, 0),
        (|_| {}, |volume| volume.account.active = 0, 0, 10, 10),
        (|_| {}, |volume| volume.account.active = 0, 1, 0, 0),
        (
            |volume| volume.seq[1].opens = 3,
            |volume| (volume.account.open, volume.account.active) = (1, 0),
            1,
            10,
            0,
        ),
        (
            |volume| volume.seq[2].opens = 3,
            |volume| (volume.account.open, volume.account.active) = (1, 0),
            2,
            0,
            0,
        ),
        (
            |volume| volume.seq[2].opens = 3,
            |volume| (volume.account.open, volume.account.active) = (0, 4),
            2,
            10,
            10,
        ),
        // Other rows aren't looked at.
        (open_first, |volume| (volume.account.open, volume.account.active) = (0, 0), 3, 0, 0),
    ];
    for (options, with) in [("explicit-open", true), ("", false)] {
        for (place, (row, account, file, with_option, without)) in cases.into_iter().enumerate() {
            let mut volume = limited(options, 0, 0);
            row(&mut volume);
            account(&mut volume);
            let expected = if with { with_option } else { without };
            assert_eq!(looked_at(&volume, SEQ, file), [expected; 3], "case {place}");
            assert_eq!(looked_at(&volume, CNV, 0), [0; 3], "case {place}");
            assert_eq!(looked_at(&volume, SEQ, 4), [1; 3], "case {place}");
            assert_eq!(completed(&volume, file), [8; 2], "8 comes before the row, case {place}");
            volume.seq[file as usize].held = Held::of_words([5, ADDRESSES[file as usize], 0]);
            let call = number(volume.clone().call(&flush(SEQ, file)));
            assert_eq!(call, if expected == 10 { 10 } else { 2 }, "case {place}");
            let of_completions = if expected == 10 { [10, 10] } else { [0, 9] };
            assert_eq!(completed(&volume, file), of_completions, "case {place}");
        }
    }
}

/// Of a row that isn't active nothing is asked, whatever is written in it.
#[test]
fn rows_that_are_not_active() {
    let changes: [Change; 3] = [
        |volume| volume.seq[0].access = Access::Read,
        |volume| volume.seq[0].size = CAPACITY,
        |volume| volume.seq[0].size = 0,
    ];
    for change in changes {
        let mut volume = by_hand();
        volume.account.active = 0;
        assert_eq!(looked_at(&volume, SEQ, 0), [10; 3]);
        change(&mut volume);
        assert_eq!(looked_at(&volume, SEQ, 0), [0; 3]);
    }
}

/// "Opens in a row without write access", of either kind: after 1 and before 2. With it, a cnv row's count nowhere.
#[test]
fn opens_without_write_access() {
    for kind in [SEQ, CNV] {
        for opens in [1, 2, 65_535, 65_536, u64::MAX] {
            let mut volume = by_hand();
            (volume.account.open, volume.row_mut(kind, 0).opens) = (u32::from(kind == SEQ), opens);
            assert_eq!(looked_at(&volume, kind, 0), [0; 3]);
            volume.row_mut(kind, 0).access = Access::Read;
            assert_eq!(looked_at(&volume, kind, 0), [10; 3]);
            (volume.row_mut(kind, 0).access, volume.row_mut(kind, 0).size) = (Access::None, 0);
            assert_eq!(looked_at(&volume, kind, 0), [10; 3]);
            assert_eq!(looked_at(&volume, kind, 1), [0; 3]);
            volume.row_mut(kind, 0).opens = 0;
            assert_eq!(looked_at(&volume, kind, 0)[1..], [0; 2]);
        }
    }
    let mut volume = by_hand();
    volume.call(&read(SEQ, 0, 0, 4096)).unwrap();
    (volume.account.open, volume.seq[0].access, volume.seq[0].opens) = (1, Access::Read, 1);
    assert_eq!(completed(&volume, 0), [10; 2]);
    volume.seq[0].opens = 0;
    assert_eq!(completed(&volume, 0), [0, 9]);
}

/// "An account that is given wrong may come out wrong", and the next call says so.
#[test]
fn a_wrong_account_comes_out_wrong() {
    let mut volume = by_hand();
    (volume.account.open, volume.account.active) = (4, 4);
    assert_eq!(number(volume.call(&open(SEQ, 1))), 0);
    assert_eq!((volume.account.open, volume.account.active), (5, 5));
    assert_eq!(looked_at(&volume, SEQ, 0), [10; 3]);
    assert_eq!(completed(&volume, 1), [10; 2]);
    // By a completion too.
    let mut volume = by_hand();
    (volume.seq[2].opens, volume.account.open, volume.account.active) = (1, 1, 4);
    volume.call(&truncate(SEQ, 2, 0)).unwrap();
    assert_eq!(volume.succeed(SEQ, 2), Ok(0));
    assert_eq!((volume.account.active, looked_at(&volume, CNV, 0)), (5, [10; 3]));
    // Too low a number stays too low.
    let mut volume = by_hand();
    (volume.seq[0].opens, volume.seq[1].opens, volume.account.open) = (1, 1, 1);
    assert_eq!(number(volume.call(&close(SEQ, 1))), 0);
    assert_eq!((volume.account.open, looked_at(&volume, SEQ, 0)), (0, [10; 3]));
}

fn held(operation: Operation, file: u32, length: u64) -> Held {
    Held::Command(Command { operation, address: ADDRESSES[file as usize], length })
}

/// A volume whose files hold this, with so many opens, and an account that covers any of them.
fn holding(options: &str, operation: Operation, file: u32, opens: u64) -> Volume {
    let mut volume = limited(options, 0, 0);
    (volume.account.open, volume.account.active) = (4, 4);
    let row = &mut volume.seq[file as usize];
    (row.held, row.opens) = (held(operation, file, 0), opens);
    volume
}

/// "10 takes a held open or close as its file stood before that call": one open less, or one more.
#[test]
fn opens_of_a_held_open_or_close() {
    let numbers = [0, 1, 2, 3, 65_534, 65_535, 65_536, u64::MAX - 1, u64::MAX];
    for opens in numbers {
        let expected = |good: bool| if good { [0, 9] } else { [10, 10] };
        for file in 0..4 {
            // Begun and empty files are opened, begun ones closed.
            let (may_open, may_close) = (file != 2, file == 0);
            let option = "errors=repair,explicit-open";
            let opened = holding(option, Operation::Open, file, opens);
            assert_eq!(completed(&opened, file), expected(may_open && opens == 1), "open {file} {opens}");
            let closed = holding(option, Operation::Close, file, opens);
            assert_eq!(completed(&closed, file), expected(may_close && opens == 0), "close {file} {opens}");
            for operation in [Operation::Open, Operation::Close] {
                let volume = holding("errors=repair", operation, file, opens);
                assert_eq!(completed(&volume, file), [10, 10], "without the option");
            }
        }
    }
}

/// "For other held commands the row's opens are as they are", and a write needs one under the option.
#[test]
fn opens_of_other_held_commands() {
    for opens in [0, 1, 2, 65_535, 65_536, u64::MAX] {
        for (options, must_be_open) in [("errors=repair", false), ("errors=repair,explicit-open", true)] {
            for operation in [Operation::Reset, Operation::Finish, Operation::Flush] {
                let volume = holding(options, operation, 0, opens);
                assert_eq!(completed(&volume, 0), [0, 9], "{operation:?} {opens}");
            }
            let mut volume = holding(options, Operation::Read, 0, opens);
            volume.seq[0].held = held(Operation::Read, 0, 4096);
            assert_eq!(completed(&volume, 0), [0, 9], "{opens}");
            let address = ADDRESSES[0] + 4096;
            volume.seq[0].held =
                Held::Command(Command { operation: Operation::Write, address, length: 8192 });
            let expected = if must_be_open && opens == 0 { [10, 10] } else { [0, 9] };
            assert_eq!(completed(&volume, 0), expected, "{opens}");
        }
    }
}

/// Another address or length, or a file that is in another state than it can have been in.
#[test]
fn held_opens_and_closes_that_no_call_issues() {
    for (operation, opens) in [(Operation::Open, 1), (Operation::Close, 0)] {
        let good = holding("explicit-open", operation, 0, opens);
        assert_eq!(completed(&good, 0), [0, 9]);
        let changes: [Change; 6] = [
            |volume| volume.seq[0].held = volume.seq[1].held,
            |volume| volume.seq[0].size = CAPACITY,
            |volume| volume.seq[0].capacity = 4096,
            // Without write access an open one is impossible, and there is nothing to close.
            |volume| volume.seq[0].access = Access::Read,
            |volume| (volume.seq[0].access, volume.seq[0].size) = (Access::None, 0),
            |volume| volume.mount.explicit_open = false,
        ];
        for (place, change) in changes.into_iter().enumerate() {
            let mut volume = good.clone();
            volume.seq[1].held = held(operation, 1, 0);
            change(&mut volume);
            assert_eq!(completed(&volume, 0), [10, 10], "{operation:?} change {place}");
        }
        for (address, length) in
            [(ADDRESSES[0] + 4096, 0), (ADDRESSES[0] - 1, 0), (0, 0), (ADDRESSES[0], 1), (ADDRESSES[0], 4096)]
        {
            let mut volume = good.clone();
            volume.seq[0].held = Held::Command(Command { operation, address, length });
            assert_eq!(completed(&volume, 0), [10, 10], "{operation:?} {address} {length}");
        }
        let mut empty = good.clone();
        empty.seq[0].size = 0;
        let expected = if operation == Operation::Open { [0, 9] } else { [10, 10] };
        assert_eq!(completed(&empty, 0), expected, "{operation:?}");
    }
}

/// "Account and limits aside", and the mark.
#[test]
fn what_a_held_open_or_close_is_not_tested_against() {
    let changes: [Change; 5] = [
        |volume| volume.mount.read_only = true,
        |volume| (volume.account.open_limit, volume.account.active_limit) = (1, 1),
        |volume| (volume.account.open, volume.account.open_limit) = (4, 2),
        |volume| (volume.account.active, volume.account.active_limit) = (4, 1),
        |volume| (volume.account.open, volume.account.active) = (1, 1),
    ];
    for (operation, opens) in [(Operation::Open, 1), (Operation::Close, 0)] {
        for change in changes {
            let mut volume = holding("explicit-open", operation, 0, opens);
            change(&mut volume);
            assert_eq!(completed(&volume, 0), [0, 9], "{operation:?}");
        }
    }
    // A file with a held close isn't open, and one with a held open is.
    let mut closed = holding("explicit-open", Operation::Close, 0, 0);
    closed.account.open = 0;
    assert_eq!(completed(&closed, 0), [0, 9]);
    let mut opened = holding("explicit-open", Operation::Open, 0, 1);
    opened.account.open = 0;
    assert_eq!(completed(&opened, 0), [10, 10]);
    let mut empty = holding("explicit-open", Operation::Open, 1, 1);
    empty.account.active = 0;
    assert_eq!(completed(&empty, 1), [10, 10]);
}

/// No call on a conventional file commands either.
#[test]
fn held_opens_and_closes_of_a_conventional_file() {
    for operation in [Operation::Open, Operation::Close] {
        for opens in [0, 1, 2, u64::MAX] {
            let mut volume = by_hand();
            volume.cnv[0].opens = opens;
            volume.cnv[0].held = Held::Command(Command { operation, address: 268435456, length: 0 });
            assert_eq!(volume.succeed(CNV, 0), Err(Refusal::Impossible));
        }
    }
}
