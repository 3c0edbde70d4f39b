//! The tape: broken ones, kinds that no file has, and how differences are shown.

use super::*;
use crate::generator::records::{encode, head};
use crate::player::play::play;
use crate::player::tape::{CallRecord, Record, Verb};
use crate::program::compare::compare_output;
use crate::program::describe::describe;

fn sheet_head() -> Vec<u8> {
    head(&input_with(0, "", &sheet_zones()))
}

fn lines(tape: &[u8]) -> Vec<String> {
    play(tape).into_iter().map(|line| line.text).collect()
}

#[test]
fn every_cut_of_the_mount_is_broken() {
    let head = sheet_head();
    for length in 0..head.len() {
        assert_eq!(lines(&head[..length]), ["?? 40"], "{length} bytes");
    }
    assert_eq!(lines(&head), ["MO 0 2 2"]);
}

/// A completion of seq/1, and the line that it has with nothing outstanding.
const IDLE: (&[u8], &str) = (b"OK\x01\x01\x00\x00\x00", "OK 1 1 8");

#[test]
fn broken_after_the_mount() {
    let tails: [&[u8]; 10] = [
        b"O",
        b"ok",
        b"??",
        b"NO",
        b"NO123",
        b"BK\0\x10",
        b"MO\0\0\0\0\0\0\0\0\0",
        b"ZR",
        b"RD\x01",
        b"OK\x01",
    ];
    for tail in tails {
        let tape = [sheet_head().as_slice(), IDLE.0, tail].concat();
        assert_eq!(lines(&tape), ["MO 0 2 2", IDLE.1, "?? 40"], "{}", tail.escape_ascii());
    }
}

/// Each cut of a good and of a failed completion, with a command outstanding that a whole one completes.
#[test]
fn every_cut_of_a_completion_is_broken() {
    let mut busy = sheet_head();
    busy.extend_from_slice(b"FL\x01\x00\x00\x00\x00");
    busy.extend_from_slice(&[0; 16]);
    let start = lines(&busy);
    assert_eq!(start, ["MO 0 2 2", "FL 0 S 805306368 0"]);
    let good = b"OK\x01\x00\x00\x00\x00".to_vec();
    let zone = record(&zone(1572864, 524288, 1572872, 2, 2, 393216));
    let failed = [b"NO\x01\x00\x00\x00\x00".as_slice(), &zone].concat();
    assert_eq!((good.len(), failed.len()), (2 + 5, 2 + 5 + 64));
    for (completion, answer) in [(good, "OK 1 0 0 0"), (failed, "NO 1 0 7 4096")] {
        for length in 1..completion.len() {
            let cut = [busy.as_slice(), &completion[..length]].concat();
            assert_eq!(lines(&cut)[2..], ["?? 40"], "{length} bytes of {answer}");
        }
        // The next record begins right behind it.
        let whole = [busy.as_slice(), &completion, IDLE.0].concat();
        assert_eq!(lines(&whole)[2..], [answer, IDLE.1]);
    }
}

#[test]
fn a_refused_mount_stops_the_tape() {
    let mut tape = sheet_head();
    tape[2] = 1;
    tape.extend_from_slice(IDLE.0);
    assert_eq!(lines(&tape), ["MO 20"]);
}

#[test]
fn a_report_without_a_possible_count_is_only_a_header() {
    for count in [0, 1024, 65_536, u32::MAX] {
        let mut report = vec![0; 16];
        report[8..12].copy_from_slice(&count.to_le_bytes());
        let input = Input { block: 512, report, ..sheet_input() };
        assert_eq!(lines(&head(&input)), ["MO 28"]);
    }
}

/// 1,023 zones are read; behind the header of 1,024 the zones are no record's, though a mount elsewhere takes as many.
#[test]
fn a_tape_keeps_to_its_own_most_zones() {
    let zones: Vec<Zone> = (0..1024).map(|number| zone(number * 8, 8, 0, 1, 0, 8)).collect();
    assert_eq!(lines(&head(&input_with(0, "", &zones[..1023]))), ["MO 0 1022 0"]);
    assert_eq!(lines(&head(&input_with(0, "", &zones))), ["?? 40"]);
}

#[test]
fn bad_zone_is_named() {
    let mut zones = sheet_zones();
    zones[2].length = 8;
    zones[4].kind = 9;
    assert_eq!(lines(&head(&input_with(0, "", &zones))), ["MO 29 2 3"]);
}

/// Mark by mark as bytes, so that the layout of a call stands here once more.
#[test]
fn bytes_of_calls() {
    let mut tape = sheet_head();
    tape.extend_from_slice(
        b"RD\x01\x00\x00\x00\x00\x01\x00\x00\x00\x00\x00\x00\x00\x05\x00\x00\x00\x00\x00\x00\x00",
    );
    tape.extend_from_slice(
        b"FL\x02\x00\x00\x00\x00\x01\x00\x00\x00\x00\x00\x00\x00\x05\x00\x00\x00\x00\x00\x00\x00",
    );
    tape.extend_from_slice(
        b"WR\x00\x01\x00\x00\x00\x01\x00\x00\x00\x00\x00\x00\x00\x05\x00\x00\x00\x00\x00\x00\x00",
    );
    tape.extend_from_slice(b"NO\x01\x00\x00\x00\x00");
    tape.extend_from_slice(&record(&zone(1572864, 524288, 1572880, 3, 4, 393216)));
    tape.extend_from_slice(b"OK\x01\x00\x00\x00\x00");
    tape.extend_from_slice(
        b"TR\x01\x01\x00\x00\x00\x01\x00\x00\x00\x00\x00\x00\x00\x00\x00\x00\x00\x00\x00\x00\x00",
    );
    tape.extend_from_slice(b"OK\x00\x01\x00\x00\x00");
    let expected = [
        "MO 0 2 2",
        "RD 0 R 805306369 5",
        "FL 1",
        "WR 0 W 536870913 5",
        "NO 1 0 7 8192",
        "OK 1 0 8",
        "TR 3",
        "OK 0 1 0 5",
    ];
    assert_eq!(lines(&tape), expected);
}

/// Kind and number stand on the line as the record has them, also those that no file has.
#[test]
fn lines_of_completions_name_the_file() {
    let zone = record(&zone(1572864, 524288, 1572864, 2, 1, 393216));
    let files: [(&[u8; 5], &str); 7] = [
        (b"\x01\x05\x00\x00\x00", "1 5 1"),
        (b"\x02\x00\x00\x00\x00", "2 0 1"),
        (b"\xFF\xFF\xFF\xFF\xFF", "255 4294967295 1"),
        (b"\x00\x02\x01\x00\x00", "0 258 1"),
        (b"\x00\x00\x00\x00\x01", "0 16777216 1"),
        (b"\x01\x01\x00\x00\x00", "1 1 8"),
        (b"\x00\x01\x00\x00\x00", "0 1 8"),
    ];
    for (bytes, text) in files {
        let good = [b"OK".as_slice(), bytes].concat();
        let failed = [b"NO".as_slice(), bytes, &zone].concat();
        let tape = [sheet_head(), good, failed].concat();
        assert_eq!(lines(&tape)[1..], [format!("OK {text}"), format!("NO {text}")]);
    }
}

/// 9's reason stands last, behind the file and the answer.
#[test]
fn a_reason_stands_behind_the_file() {
    let mut tape = sheet_head();
    encode(&Record::Call(CallRecord::of(&flush(SEQ, 0))), &mut tape);
    encode(&Record::Failed(seq(0), &record(&zone(8, 8, 8, 2, 2, 8))), &mut tape);
    assert_eq!(lines(&tape)[2..], ["NO 1 0 9 8"]);
}

#[test]
fn a_tape_as_text_names_the_files_of_completions() {
    let zone = record(&zone(8, 16, 24, 2, 13, 8));
    let mut tape = Vec::new();
    encode(&Record::Good(cnv(7)), &mut tape);
    encode(&Record::Failed(seq(0), &zone), &mut tape);
    encode(&Record::Good(Named { kind: 2, number: 4294967295 }), &mut tape);
    let text: Vec<String> = describe(&tape).into_iter().map(|record| record.text).collect();
    let expected = [
        "OK cnv/7",
        "NO seq/0 start 8 length 16 pointer 24 type 2 condition 13 capacity 8",
        "OK kind 2 /4294967295",
    ];
    assert_eq!(text, expected);
}

#[test]
fn differences_are_shown() {
    let mut tape = sheet_head();
    let call = CallRecord { verb: Verb::Write, kind: 1, number: 0, offset: 4096, length: 8192 };
    encode(&Record::Call(call), &mut tape);
    let ours = play(&tape);
    assert_eq!(compare_output(&tape, &ours, b"MO 0 2 2\nWR 0 W 805310464 8192\n"), Ok(()));
    for other in [
        "MO 0 2 2\nWR 6\n",
        "MO 0 2 2\n",
        "MO 0 2 2\nWR 0 W 805310464 8192",
        "MO 0 2 2\nWR 0 W 805310464 8192\n\n",
    ] {
        let shown = compare_output(&tape, &ours, other.as_bytes()).unwrap_err();
        assert!(shown.contains("WR seq/0 offset 4096 length 8192"), "{shown}");
        let place = if other.ends_with("\n\n") { "line 3 differs" } else { "line 2 differs" };
        assert!(shown.starts_with(place), "{shown}");
    }
}

/// MO's bytes: length byte, options, and two limits little-endian, open first, with the option or without.
#[test]
fn bytes_of_the_limits() {
    for options in ["", "errors=repair", "explicit-open"] {
        let input = Input {
            open_limit: 0x04030201,
            active_limit: 0x80000007,
            ..input_with(0, options, &sheet_zones())
        };
        let tape = head(&input);
        let mut expected = b"MO".to_vec();
        expected.push(options.len() as u8);
        expected.extend_from_slice(options.as_bytes());
        expected.extend_from_slice(b"\x01\x02\x03\x04\x07\x00\x00\x80");
        assert!(tape.ends_with(&expected), "{options}");
        // As the tapes were before there were limits.
        assert_eq!(lines(&tape[..tape.len() - 8]), ["?? 40"]);
        assert_eq!(lines(&tape), ["MO 0 2 2"]);
        let text: Vec<String> = describe(&tape).into_iter().map(|record| record.text).collect();
        assert_eq!(text[3], format!("MO \"{options}\" limits open 67305985 active 2147483655"));
    }
}

/// The limits are those of the tape, open first.
#[test]
fn limits_on_a_tape() {
    let opens = [seq(0), seq(1)].map(|Named { number, .. }| Record::Call(CallRecord::of(&open(SEQ, number))));
    let printed = |open_limit: u32, active_limit: u32| {
        let input = Input {
            open_limit,
            active_limit,
            ..input_with(0, "errors=repair,explicit-open", &sheet_zones())
        };
        let mut tape = head(&input);
        opens.iter().for_each(|record| encode(record, &mut tape));
        lines(&tape)[1..].to_vec()
    };
    let (first, second) = ("OP 0 O 805306368 0", "OP 0 O 1073741824 0");
    assert_eq!(printed(0, 0), [first, second]);
    assert_eq!(printed(1, 0), [first, "OP 11"]);
    assert_eq!(printed(0, 1), [first, "OP 12"]);
    assert_eq!(printed(1, 1), [first, "OP 11"]);
    assert_eq!(printed(2, 2), [first, second]);
}

/// "OP and CL (letters O, C) look like FL": the fields that aren't used are noise.
#[test]
fn bytes_of_opens_and_closes() {
    let record =
        |mark: &str, kind: u8, number: u8| [mark.as_bytes(), &[kind, number, 0, 0, 0], &[0xA5; 16]].concat();
    let good = |number: u8| [b"OK\x01".as_slice(), &[number, 0, 0, 0]].concat();
    let mut tape = head(&input_with(0, "explicit-open", &sheet_zones()));
    let records = [
        record("CL", 1, 0),
        record("OP", 1, 0),
        record("OP", 1, 0),
        good(0),
        record("OP", 1, 0),
        record("CL", 1, 0),
        record("CL", 1, 0),
        good(0),
        record("CL", 1, 0),
        record("OP", 1, 1),
        good(1),
        record("CL", 1, 1),
        record("OP", 0, 1),
        record("CL", 0, 1),
        record("OP", 0, 2),
        record("CL", 2, 0),
        record("OP", 1, 7),
    ];
    records.iter().for_each(|record| tape.extend_from_slice(record));
    let expected = [
        "MO 0 2 2",
        "CL 13",
        "OP 0 O 805306368 0",
        "OP 2",
        "OK 1 0 0 0",
        "OP 0 D 0",
        "CL 0 D 0",
        "CL 0 C 805306368 0",
        "OK 1 0 0 0",
        "CL 13",
        "OP 0 O 1073741824 0",
        "OK 1 1 0 0",
        "CL 0 D 0",
        "OP 0 D 0",
        "CL 0 D 0",
        "OP 1",
        "CL 1",
        "OP 1",
    ];
    assert_eq!(lines(&tape), expected);
    let text: Vec<String> = describe(&tape).into_iter().map(|record| record.text).collect();
    assert_eq!((text[4].as_str(), text[5].as_str(), text[16].as_str()), ("CL seq/0", "OP seq/0", "OP cnv/1"));
    for mark in ["OP", "CL"] {
        let record = record(mark, 1, 0);
        assert_eq!(record.len(), 23);
        for length in 1..23 {
            let tape = [sheet_head().as_slice(), &record[..length]].concat();
            assert_eq!(lines(&tape), ["MO 0 2 2", "?? 40"], "{length} bytes of {mark}");
        }
    }
}

/// A failed open, with the size that the record gives.
#[test]
fn a_failed_open_on_a_tape() {
    let mut tape = head(&input_with(0, "errors=repair,explicit-open", &sheet_zones()));
    let zone = record(&zone(1572864, 524288, 1572880, 2, 3, 393216));
    encode(&Record::Call(CallRecord::of(&open(SEQ, 0))), &mut tape);
    encode(&Record::Failed(seq(0), &zone), &mut tape);
    encode(&Record::Call(CallRecord::of(&write(SEQ, 0, 8192, 4096))), &mut tape);
    encode(&Record::Call(CallRecord::of(&close(SEQ, 0))), &mut tape);
    assert_eq!(lines(&tape)[1..], ["OP 0 O 805306368 0", "NO 1 0 7 8192", "WR 13", "CL 13"]);
}
