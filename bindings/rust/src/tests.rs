//! The crate against `include/zonefs.h`, and what its own types promise.

use std::collections::BTreeMap;

use crate::words::{ACCOUNT_WORDS, ANSWER_WORDS, CONSTANTS, FUNCTIONS, MOUNT_WORDS, PIECES_WORDS, ROW_WORDS};
use crate::{codes, reason, refusal};
use crate::{format, super_fields, Format, Formatted, SuperFields};
use crate::{Account, Command, CommandKind, FileId, FileKind, MountValue, Policy, Reason, Refusal};
use crate::{Pieces, PiecesSource, RowWords, Source, Volume};

/// The header without its comments.
fn header() -> String {
    let path = concat!(env!("CARGO_MANIFEST_DIR"), "/../../include/zonefs.h");
    let text = std::fs::read_to_string(path).expect("the header is there");
    let after_comment = |piece: &str| piece.split_once("*/").expect("a comment ends").1.to_string();
    let mut pieces = text.split("/*");
    let first = pieces.next().unwrap_or_default().to_string();
    first + &pieces.map(after_comment).collect::<Vec<_>>().join(" ")
}

/// Each constant of the header, without ZONEFS_.
fn header_constants() -> BTreeMap<String, u64> {
    let text = header().replace(['=', ',', '{', '}', ';'], " ");
    let words: Vec<&str> = text.split_whitespace().collect();
    let constant =
        |pair: &[&str]| Some((pair[0].strip_prefix("ZONEFS_")?.to_string(), pair[1].parse().ok()?));
    words.windows(2).filter_map(constant).collect()
}

#[test]
fn constants_are_the_headers() {
    let ours: BTreeMap<&str, u64> =
        [CONSTANTS, codes::CODES, reason::REASONS, refusal::NUMBERS].into_iter().flatten().copied().collect();
    let theirs = header_constants();
    for (name, value) in &theirs {
        assert_eq!(ours.get(name.as_str()), Some(value), "ZONEFS_{name}");
    }
    assert!(theirs.len() > 110, "only {} constants were found", theirs.len());
}

/// A type of the header as Rust writes it.
fn rust_type(c_type: &str) -> &'static str {
    match c_type.trim() {
        "const uint8_t *" => "*const u8",
        "uint8_t *" => "*mut u8",
        "const uint64_t *" => "*const u64",
        "uint64_t *" => "*mut u64",
        "uint64_t" => "u64",
        "uint32_t" => "u32",
        "size_t" => "usize",
        other => panic!("{other}"),
    }
}

/// A parameter of the header: name and type, but a length, which has no name of its own in Rust, by its type alone.
fn header_parameter(parameter: &str) -> String {
    let name = parameter.rsplit([' ', '*']).next().expect("a name");
    match rust_type(parameter.trim_end_matches(name)) {
        "usize" => "usize".to_string(),
        plain => format!("{name}: {plain}"),
    }
}

/// Name, parameters and result of each function of the header.
fn header_functions() -> BTreeMap<String, (Vec<String>, String)> {
    let text = header();
    let mut functions = BTreeMap::new();
    for (front, parameters) in text.split(';').filter_map(|piece| piece.split_once('(')) {
        let (result, name) = front.trim().rsplit_once(' ').expect("a result and a name");
        let result = rust_type(result.lines().last().unwrap_or_default());
        let parameters = parameters.trim_end_matches(')').split(',');
        let parameters = parameters.map(|parameter| header_parameter(parameter.trim())).collect();
        functions.insert(name.to_string(), (parameters, result.to_string()));
    }
    functions
}

/// A parameter of ours as the archive takes it.
fn archive_parameters(parameter: &str) -> Vec<String> {
    let plain: String = parameter.split_whitespace().collect();
    let (name, kind) = plain.split_once(':').expect("a name and a type");
    let pointer = match kind {
        "&[u8]" => "*const u8",
        "&mut[u8]" => "*mut u8",
        "&[u64]" => "*const u64",
        "&mut[u64]" => "*mut u64",
        number => return vec![format!("{name}: {number}")],
    };
    vec![format!("{name}: {pointer}"), "usize".to_string()]
}

/// The linker sees names of functions only: nothing else would notice two parameters in the wrong order.
#[test]
fn functions_are_the_headers() {
    let ours: BTreeMap<String, _> = FUNCTIONS
        .iter()
        .map(|(name, parameters, result)| {
            let parameters = parameters.iter().flat_map(|parameter| archive_parameters(parameter)).collect();
            (name.to_string(), (parameters, result.to_string()))
        })
        .collect();
    assert_eq!(ours, header_functions());
    assert!(ours.len() >= 17, "only {} functions were found", ours.len());
}

#[test]
fn refusals_have_the_papers_numbers_and_keep_their_values() {
    let answer = [2, 77, 6, 0, 0, 0, 0];
    let numbers: Vec<u64> =
        (0..=100).filter(|&number| Refusal::from_answer(number, &answer).is_some()).collect();
    let expected: Vec<u64> = (1..=14).chain(20..=30).chain([33, 34]).collect();
    assert_eq!(numbers, expected);
    for number in numbers {
        assert_eq!(Refusal::from_answer(number, &answer).map(Refusal::number), Some(number));
    }
    assert_eq!(Refusal::from_answer(7, &answer), Some(Refusal::Failed { size: 77 }));
    assert_eq!(
        Refusal::from_answer(29, &answer),
        Some(Refusal::BadZone { zone: 77, reason: Reason::Condition })
    );
    assert_eq!(
        Refusal::from_answer(9, &[1, 8, 0, 0, 0, 0, 0]),
        Some(Refusal::BadRecord { reason: Reason::OtherZone })
    );
    assert_eq!(
        Refusal::from_answer(9, &[0; ANSWER_WORDS]),
        Some(Refusal::BadRecord { reason: Reason::NoRecord })
    );
    let bare = |number: u64| Refusal::from_answer(number, &[0; ANSWER_WORDS]);
    assert_eq!([bare(11), bare(12)], [Some(Refusal::OpenLimit), Some(Refusal::ActiveLimit)]);
    assert_eq!([bare(13), bare(14)], [Some(Refusal::NotOpen), Some(Refusal::TooManyOpens)]);
    assert_eq!(Refusal::from_answer(30, &[0; ANSWER_WORDS]), Some(Refusal::TooFewRows));
    assert_eq!(Refusal::from_answer(33, &[0; ANSWER_WORDS]), Some(Refusal::SuperPerm));
    assert_eq!(Refusal::from_answer(34, &[0; ANSWER_WORDS]), Some(Refusal::LabelLength));
}

#[test]
fn refusals_are_errors_with_a_text() {
    let bad_zone = Refusal::BadZone { zone: 3, reason: Reason::Pointer };
    let error: Box<dyn std::error::Error> = Box::new(bad_zone);
    assert_eq!(error.to_string(), "29: zone 3 of the report is bad: its write pointer");
    assert_eq!(
        Refusal::BadRecord { reason: Reason::OtherZone }.to_string(),
        "9: the zone record doesn't fit the file, so the command stays outstanding: it isn't of the file's zone"
    );
    assert_eq!(
        Refusal::Failed { size: 8192 }.to_string(),
        "7: the disk failed the command, and the file has 8192 bytes now"
    );
    assert_eq!(Refusal::Busy.to_string(), "2: the file has a command outstanding");
    assert_eq!(Refusal::NothingOutstanding.to_string(), "8: the file has nothing outstanding");
    assert_eq!(Refusal::OpenLimit.to_string(), "11: as many files are open as may be");
    assert_eq!(Refusal::NotOpen.to_string(), "13: the file is not open");
    assert_eq!(Refusal::LabelLength.to_string(), "34: the label is longer than 64 bytes");
}

/// A reason that has no name here keeps its code, so that nothing of an answer is lost.
#[test]
fn reasons_keep_their_code() {
    let named: Vec<u64> = (0..100).filter(|&code| Reason::from_code(code) != Reason::Other(code)).collect();
    assert_eq!(named, [0, 1, 2, 3, 4, 5, 6, 7, 8, 9]);
    for code in (0..100).chain([u64::MAX]) {
        assert_eq!(Reason::from_code(code).code(), code);
    }
    assert_eq!(Reason::from_code(3), Reason::Capacity);
    assert_eq!(Reason::from_code(12).to_string(), "reason 12");
    let unknown = Refusal::from_answer(29, &[2, 5, 12, 0, 0, 0, 0]);
    assert_eq!(unknown, Some(Refusal::BadZone { zone: 5, reason: Reason::Other(12) }));
}

#[test]
fn names_and_codes() {
    assert_eq!(FileId::cnv(0).to_string(), "cnv/0");
    assert_eq!(FileId::seq(12).to_string(), "seq/12");
    assert_eq!(FileKind::from_code(1), Some(FileKind::Sequential));
    assert_eq!(FileKind::from_code(2), None);
    assert_eq!(Policy::from_code(Policy::Repair.code()), Some(Policy::Repair));
}

/// Words hold no mount value where one of them is out of its range.
#[test]
fn mount_values() {
    let words = [4096, 2, 3, 4, 5, 0o640, 3, 0x0706_0504_0302_0100, 0x0F0E_0D0C_0B0A_0908, 1, 0];
    let value = MountValue::from_words(&words).expect("a mount value");
    assert_eq!((value.cnv_files, value.seq_files, value.policy), (2, 3, Policy::Repair));
    assert!(value.read_only && !value.explicit_open);
    assert_eq!(value.uuid, [0, 1, 2, 3, 4, 5, 6, 7, 8, 9, 10, 11, 12, 13, 14, 15]);
    let most = [u64::MAX, 1 << 32, 1 << 32, 1 << 32, 1 << 32, 1 << 32, 4, 0, 0, 2, 2];
    for at in (1..MOUNT_WORDS).filter(|&at| most[at] != 0) {
        let mut wrong = words;
        wrong[at] = most[at];
        assert_eq!(MountValue::from_words(&wrong), None, "word {at}");
        wrong[at] -= 1;
        assert!(MountValue::from_words(&wrong).is_some(), "word {at}");
    }
}

#[test]
fn accounts() {
    let words = [1, 2, 3, u64::from(u32::MAX)];
    let account = Account { open: 1, active: 2, open_limit: 3, active_limit: u32::MAX };
    assert_eq!(Account::from_words(&words), Some(account));
    for at in 0..ACCOUNT_WORDS {
        let mut wide = words;
        wide[at] = 1 << 32;
        assert_eq!(Account::from_words(&wide), None, "word {at}");
    }
}

/// Of a row that holds nothing the words after that don't count; one that holds no command is no idle one.
#[test]
fn rows_hold_a_command_or_nothing() {
    let row = |held: u64| [64, 32768, 4096, 0, 2, held, 36864, 8192, 1];
    assert_eq!(Command::of_row(&row(0)), Ok(None));
    let kinds = [
        CommandKind::Read,
        CommandKind::Write,
        CommandKind::Reset,
        CommandKind::Finish,
        CommandKind::Flush,
        CommandKind::Open,
        CommandKind::Close,
    ];
    for (held, kind) in (1..).zip(kinds) {
        let command = Command { kind, address: 36864, length: 8192 };
        assert_eq!(Command::of_row(&row(held)), Ok(Some(command)));
    }
    for held in [8, 9, 1 << 32, u64::MAX] {
        assert_eq!(Command::of_row(&row(held)), Err(Refusal::Impossible));
    }
}

/// A sequential zone of 64 sectors at the start of the disk: condition and pointer.
fn first_zone(condition: u8, pointer: u8) -> [u8; 64] {
    let mut record = [0; 64];
    (record[8], record[16], record[24], record[25]) = (64, pointer, 2, condition);
    record
}

/// Values of which no two are the same, with all features.
fn wanted(record: &[u8]) -> Format<'_> {
    Format {
        block: 4096,
        label: b"drawer 7",
        uuid: [0xE0, 1, 2, 3, 4, 5, 6, 7, 8, 9, 10, 11, 12, 13, 14, 0xEF],
        features: 15,
        owner: 0x0102_0304,
        group: 0x0506_0708,
        mode: 0o604,
        record,
        capacity_given: false,
    }
}

/// The layout is the scope paper's, put together here by its offsets.
#[test]
fn formatted_blocks_have_the_papers_layout() {
    let record = first_zone(1, 0);
    let mut super_block = [0xA5; 4096];
    assert_eq!(format(&wanted(&record), &mut super_block), Ok(Formatted { finish: true }));
    let mut expected = [0; 4096];
    let mut put = |at: usize, bytes: &[u8]| expected[at..at + bytes.len()].copy_from_slice(bytes);
    put(0, b"SFOZ");
    put(8, b"drawer 7");
    put(72, &[0xE0, 1, 2, 3, 4, 5, 6, 7, 8, 9, 10, 11, 12, 13, 14, 0xEF]);
    put(88, &[15, 0, 0, 0, 0, 0, 0, 0]);
    put(96, &[4, 3, 2, 1]);
    put(100, &[8, 7, 6, 5]);
    put(104, &[0o204, 1, 0, 0]); // 0604 is 256 and 0204
    let sum = crate::checksum(&expected);
    expected[4..8].copy_from_slice(&sum.to_le_bytes());
    assert_eq!(super_block, expected);
}

#[test]
fn fields_are_those_of_the_format() {
    let record = first_zone(14, 9);
    let Format { uuid, features, owner, group, mode, .. } = wanted(&record);
    let mut label = [0; 64];
    label[..8].copy_from_slice(b"drawer 7");
    let mut super_block = [0xA5; 4096];
    assert_eq!(format(&wanted(&record), &mut super_block), Ok(Formatted { finish: false }));
    let fields = SuperFields { label, uuid, features, owner, group, mode };
    assert_eq!(super_fields(&super_block), Ok(fields));
    assert_eq!(fields.label_text(), b"drawer 7");
    super_block[4095] = 1;
    assert_eq!(super_fields(&super_block), Err(Refusal::SuperChecksum));
}

/// A label may hold zeros, and only those at its end go.
#[test]
fn labels_lose_only_the_zeros_at_their_end() {
    let fields =
        |label: [u8; 64]| SuperFields { label, uuid: [0; 16], features: 0, owner: 0, group: 0, mode: 0 };
    assert_eq!(fields([0; 64]).label_text(), b"");
    assert_eq!(fields([b'x'; 64]).label_text(), [b'x'; 64]);
    let mut label = [0; 64];
    label[2] = b'x';
    assert_eq!(fields(label).label_text(), b"\0\0x");
}

#[test]
fn refused_formats_leave_the_block() {
    let record = first_zone(1, 8);
    let good = wanted(&record);
    let (long, bad) = ([0; 65], first_zone(1, 7));
    let bad_zone = |reason: Reason| Refusal::BadZone { zone: 0, reason };
    let cases = [
        (Format { block: 1024, ..good }, Refusal::BadBlock),
        (Format { features: 16, ..good }, Refusal::SuperFeatures),
        (Format { owner: u32::MAX, ..good }, Refusal::SuperOwner),
        (Format { group: u32::MAX, ..good }, Refusal::SuperOwner),
        (Format { mode: 0o1000, ..good }, Refusal::SuperPerm),
        (Format { label: &long, ..good }, Refusal::LabelLength),
        (Format { record: &bad, ..good }, bad_zone(Reason::Pointer)),
        (Format { record: &record[1..], ..good }, bad_zone(Reason::NoRecord)),
        (Format { capacity_given: true, ..good }, bad_zone(Reason::Capacity)),
    ];
    for (wanted, refusal) in cases {
        let mut super_block = [0xA5; 4096];
        assert_eq!(format(&wanted, &mut super_block), Err(refusal));
        assert_eq!(super_block, [0xA5; 4096], "{refusal}");
    }
    assert_eq!(format(&good, &mut [0; 4095]), Err(Refusal::SuperLength));
}

/// Fills a table, to see which rows are written.
const UNTOUCHED: RowWords = [0xA5; ROW_WORDS];

/// Seven zones of 64 sectors, blocks of 4,096 bytes: three conventional ones, of which the first is no file, a sequential one with one block, a
/// full one, and two conventional ones. With aggregation the files are two runs of two zones, and two seq files.
fn seven_zones() -> Vec<u8> {
    let zones = [(1, 0, 0), (1, 0, 0), (1, 0, 0), (2, 2, 8), (2, 14, 0), (1, 0, 0), (1, 0, 0)];
    let mut report = vec![0; 16];
    report[8] = 7;
    for (start, (kind, condition, written)) in (0_u64..).step_by(64).zip(zones) {
        let mut record = [0; 64];
        record[..8].copy_from_slice(&start.to_le_bytes());
        record[8] = 64;
        record[16..24].copy_from_slice(&(start + written).to_le_bytes());
        (record[24], record[25]) = (kind, condition);
        report.extend(record);
    }
    report
}

/// A super block with these features, and otherwise the values of [`wanted`].
fn super_block(features: u64) -> [u8; 4096] {
    let mut made = [0; 4096];
    let record = first_zone(1, 0);
    assert!(format(&Format { features, ..wanted(&record) }, &mut made).is_ok());
    made
}

fn begin(super_block: &[u8]) -> Result<Pieces, Refusal> {
    let options = b"errors=repair,explicit-open";
    Pieces::begin(&PiecesSource { block: 4096, super_block, options, open_limit: 3, active_limit: 4 })
}

/// The mount of the whole report, with room for so many files of each kind.
fn whole(super_block: &[u8], report: &[u8], rows: (usize, usize)) -> Result<Volume<Vec<RowWords>>, Refusal> {
    let options = b"errors=repair,explicit-open";
    let source = Source { block: 4096, super_block, options, report, open_limit: 3, active_limit: 4 };
    Volume::mount(&source, vec![UNTOUCHED; rows.0], vec![UNTOUCHED; rows.1])
}

/// The mount in pieces of these bytes, with room for five files of each kind.
fn in_pieces<'a>(
    super_block: &[u8],
    pieces: impl IntoIterator<Item = &'a [u8]>,
) -> Result<Volume<Vec<RowWords>>, Refusal> {
    let (mut cnv, mut seq) = (vec![UNTOUCHED; 5], vec![UNTOUCHED; 5]);
    let mut mount = begin(super_block)?;
    for bytes in pieces {
        mount.piece(bytes, &mut cnv, &mut seq)?;
    }
    mount.end(cnv, seq)
}

/// With every cut in two, and in pieces of every length up to more than a record, it is the same volume, rows past the files included.
#[test]
fn pieces_give_the_whole_volume() {
    let report = seven_zones();
    for features in [0, 1] {
        let super_block = super_block(features);
        let expected = whole(&super_block, &report, (5, 5)).expect("a good report");
        let value = expected.value().expect("a mount value");
        assert_eq!((value.cnv_files, value.seq_files), if features == 0 { (4, 2) } else { (2, 2) });
        for cut in 0..=report.len() {
            let (front, back) = report.split_at(cut);
            assert_eq!(in_pieces(&super_block, [front, back]).as_ref(), Ok(&expected), "cut at {cut}");
        }
        for length in 1..=130 {
            let volume = in_pieces(&super_block, report.chunks(length));
            assert_eq!(volume.as_ref(), Ok(&expected), "pieces of {length}");
        }
    }
    let volume = in_pieces(&super_block(1), [&report[..]]).expect("a good report");
    assert_eq!(volume.table(FileKind::Conventional)[1], [320, 65536, 65536, 0, 2, 0, 0, 0, 0]);
    assert_eq!(volume.table(FileKind::Sequential)[0], [192, 32768, 4096, 0, 2, 0, 0, 0, 0]);
    let account = Account { open: 0, active: 1, open_limit: 3, active_limit: 4 };
    assert_eq!(volume.account(), Some(account));
}

/// A report of [`seven_zones`] with bytes set, and what becomes of it with aggregation: room for the files, the refusal, after how many bytes it comes,
/// and how many files of each kind are stored by then.
struct Fault {
    set: Vec<(usize, u8)>,
    rows: (usize, usize),
    refusal: Refusal,
    bytes: usize,
    stored: (usize, usize),
}

/// Where a zone's record ends.
const fn behind(zone: usize) -> usize {
    16 + 64 * (zone + 1)
}

/// Feeds one byte at a time; then the rest, and the end, are refused alike and change nothing.
fn check_fault(fault: &Fault) {
    let &Fault { ref set, rows, refusal, bytes, stored } = fault;
    let what = format!("{refusal}, after {bytes} bytes");
    let (super_block, mut report) = (super_block(1), seven_zones());
    let good = whole(&super_block, &report, (2, 2)).expect("a good report");
    set.iter().for_each(|&(at, byte)| report[at] = byte);
    report.push(0);
    let (mut cnv, mut seq) = (vec![UNTOUCHED; rows.0], vec![UNTOUCHED; rows.1]);
    let mut mount = begin(&super_block).expect("a good beginning");
    for &byte in &report[..bytes - 1] {
        assert_eq!(mount.piece(&[byte], &mut cnv, &mut seq), Ok(()), "{what}");
    }
    assert_eq!(mount.piece(&report[bytes - 1..bytes], &mut cnv, &mut seq), Err(refusal));
    for (table, kind, stored) in
        [(&cnv, FileKind::Conventional, stored.0), (&seq, FileKind::Sequential, stored.1)]
    {
        assert_eq!(table[..stored], good.table(kind)[..stored], "{what}");
        assert!(table[stored..].iter().all(|row| *row == UNTOUCHED), "{what}");
    }
    let (words, left) = (*mount.words(), (cnv.clone(), seq.clone()));
    assert_eq!(mount.end(vec![UNTOUCHED], vec![UNTOUCHED]), Err(refusal));
    for further in [&report[..], &report[bytes..], &[]] {
        assert_eq!(mount.piece(further, &mut [UNTOUCHED; 9], &mut [UNTOUCHED; 9]), Err(refusal), "{what}");
        assert_eq!(mount.piece(further, &mut cnv, &mut seq), Err(refusal), "{what}");
    }
    assert_eq!((mount.words(), (cnv, seq)), (&words, left), "{what}");
}

#[test]
fn first_faults_come_at_their_byte() {
    const ROOM: (usize, usize) = (4, 4);
    let report = |set, bytes, stored| Fault { set, rows: ROOM, refusal: Refusal::BadReport, bytes, stored };
    let zone = |zone, at, byte, reason, stored| {
        let (set, bytes) = (vec![(behind(zone) - 64 + at, byte)], behind(zone));
        Fault { set, rows: ROOM, refusal: Refusal::BadZone { zone: zone as u64, reason }, bytes, stored }
    };
    let no_row = |rows, zone, stored| {
        let (set, bytes) = (Vec::new(), behind(zone));
        Fault { set, rows, refusal: Refusal::TooFewRows, bytes, stored }
    };
    let faults = [
        report(vec![(0, 1)], 16, (0, 0)),
        report(vec![(7, 1)], 16, (0, 0)),
        report(vec![(8, 0)], 16, (0, 0)),
        report(vec![(8, 1), (10, 1)], 16, (0, 0)), // 65,537 zones
        report(vec![(11, 1)], 16, (0, 0)),
        report(vec![(12, 2)], 16, (0, 0)),
        report(vec![], behind(6) + 1, (2, 2)),
        zone(0, 25, 14, Reason::Condition, (0, 0)),
        zone(2, 0, 1, Reason::Start, (0, 0)),
        zone(3, 24, 9, Reason::Type, (0, 0)),
        zone(4, 25, 0, Reason::Condition, (1, 1)),
        zone(6, 8, 63, Reason::Length, (1, 2)),
        no_row((0, 4), 1, (0, 0)),
        no_row((4, 0), 3, (1, 0)),
        no_row((4, 1), 4, (1, 1)),
        no_row((1, 4), 5, (1, 2)),
    ];
    faults.iter().for_each(check_fault);
}

/// Missing bytes are no fault before the end, and there is no way on afterwards, not even with them.
#[test]
fn ends_that_come_too_early() {
    let (super_block, report) = (super_block(0), seven_zones());
    for length in 0..report.len() {
        let (mut cnv, mut seq) = ([UNTOUCHED; 4], [UNTOUCHED; 4]);
        let mut mount = begin(&super_block).expect("a good beginning");
        assert_eq!(mount.piece(&report[..length], &mut cnv, &mut seq), Ok(()));
        let left = (cnv, seq);
        assert_eq!(mount.end(vec![], vec![]), Err(Refusal::BadReport), "after {length} bytes");
        assert_eq!(mount.piece(&report[length..], &mut cnv, &mut seq), Err(Refusal::BadReport));
        assert_eq!(mount.end(vec![], vec![]), Err(Refusal::BadReport), "after {length} bytes, again");
        assert_eq!((cnv, seq), left);
    }
}

/// An end leaves what it has ended: a second gives the same, no bytes are taken, and one more is too many.
#[test]
fn ends_that_come_twice() {
    let (super_block, report) = (super_block(1), seven_zones());
    let (mut cnv, mut seq) = (vec![UNTOUCHED; 2], vec![UNTOUCHED; 2]);
    let mut mount = begin(&super_block).expect("a good beginning");
    assert_eq!(mount.piece(&report, &mut cnv, &mut seq), Ok(()));
    let first = mount.end(cnv.clone(), seq.clone());
    assert_eq!(first, whole(&super_block, &report, (2, 2)));
    assert_eq!(mount.piece(&[], &mut cnv, &mut seq), Ok(()));
    assert_eq!(mount.end(cnv.clone(), seq.clone()), first);
    assert_eq!(mount.piece(&[0], &mut cnv, &mut seq), Err(Refusal::BadReport));
    assert_eq!(mount.end(cnv, seq), Err(Refusal::BadReport));
}

/// The tables may be others from piece to piece: a row is stored in those that are lent when its file is finished, or the answer is 30.
#[test]
fn tables_that_are_shorter_later() {
    let (super_block, report) = (super_block(1), seven_zones());
    let mut mount = begin(&super_block).expect("a good beginning");
    let mut cnv = [UNTOUCHED];
    assert_eq!(mount.piece(&report[..behind(2)], &mut cnv, &mut []), Ok(()));
    let mut later = mount.clone();
    let mut seq = [UNTOUCHED; 2];
    assert_eq!(mount.piece(&report[behind(2)..], &mut [], &mut seq), Err(Refusal::TooFewRows));
    assert_eq!((cnv, seq), ([UNTOUCHED], [UNTOUCHED; 2]));
    let mut other = [UNTOUCHED; 2];
    assert_eq!(later.piece(&report[behind(2)..], &mut other, &mut seq), Ok(()));
    let good = whole(&super_block, &report, (2, 2)).expect("a good report");
    assert_eq!(other, good.table(FileKind::Conventional));
    assert_eq!(seq, good.table(FileKind::Sequential));
    assert_eq!(cnv, [UNTOUCHED]);
}

/// What is refused before the report is refused at the beginning, by the same number.
#[test]
fn refused_beginnings_are_those_of_the_whole_mount() {
    let (good, report) = (super_block(15), seven_zones());
    let signed = |from: usize, bytes: &[u8]| {
        let mut changed = good;
        changed[from..from + bytes.len()].copy_from_slice(bytes);
        changed[4..8].fill(0);
        let sum = crate::checksum(&changed);
        changed[4..8].copy_from_slice(&sum.to_le_bytes());
        changed
    };
    let unsigned = |at: usize| {
        let mut changed = good;
        changed[at] ^= 1;
        changed
    };
    let cases: [(u64, &[u8], &[u8], u64); 12] = [
        (1024, &good, b"", 20),
        (4096, &good[1..], b"", 21),
        (4096, &unsigned(0), b"", 22),
        (4096, &unsigned(7), b"", 23),
        (4096, &signed(89, &[1]), b"", 24),
        (4096, &signed(96, &[255; 4]), b"", 25),
        (4096, &signed(104, &[0, 2]), b"", 33),
        (4096, &signed(4095, &[1]), b"", 26),
        (4096, &good, b"errors=none", 27),
        (1024, &unsigned(0), b"errors=none", 20),
        (4096, &signed(89, &[1]), b"errors=none", 24),
        (512, &good, b"errors=repair", 0),
    ];
    for (block, super_block, options, number) in cases {
        let begun =
            Pieces::begin(&PiecesSource { block, super_block, options, open_limit: 0, active_limit: 0 });
        let source = Source { block, super_block, options, report: &report, open_limit: 0, active_limit: 0 };
        let mounted = Volume::mount(&source, vec![UNTOUCHED; 4], vec![UNTOUCHED; 4]);
        assert_eq!(begun.map(|_| ()).map_err(Refusal::number).err().unwrap_or(0), number);
        assert_eq!(mounted.map(|_| ()).map_err(Refusal::number).err().unwrap_or(0), number);
    }
}

/// Words that hold no mount that was begun.
#[test]
fn pieces_of_no_mount() {
    let mut none = Pieces::from_words([0; PIECES_WORDS]);
    let mut table = [UNTOUCHED];
    assert_eq!(none.piece(&seven_zones(), &mut table, &mut [UNTOUCHED]), Err(Refusal::Impossible));
    assert_eq!(none.end(vec![], vec![]), Err(Refusal::Impossible));
    assert_eq!((none.words(), table), (&[0; PIECES_WORDS], [UNTOUCHED]));
    let begun = begin(&super_block(0)).expect("a good beginning");
    assert_eq!(Pieces::from_words(*begun.words()), begun);
}
