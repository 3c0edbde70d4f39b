//! Super blocks made and read: the words against the reference, the types against the words, and what one function promises of another.

use reference::generator::format::{format_case, super_case, FormatCase};
use reference::generator::random::Random;
use reference::player::format as theirs;
use reference::player::types::Refusal;
use reference::program::formats::Formats;
use zonefs::words::{self, ANSWER_WORDS, LABEL_BYTES, UUID_BYTES};
use zonefs::{Format, Source, SuperFields, Volume, EMPTY_ROW};

use crate::events::{answer_after, refused};
use crate::typed;

const FORMATS: u64 = 20_000;
const BLOCKS_READ: u64 = 5_000;
const OTHER_LENGTHS: u64 = 2_000;

fn any_bytes(random: &mut Random, count: usize) -> Vec<u8> {
    let mut bytes = vec![0; count];
    random.fill(&mut bytes);
    bytes
}

fn any_words(random: &mut Random, count: usize) -> Vec<u64> {
    (0..count).map(|_| random.word()).collect()
}

/// Answer words of any content, at times more than are needed.
fn any_answer(random: &mut Random) -> Vec<u64> {
    let more = random.below(3) as usize;
    any_words(random, ANSWER_WORDS + more)
}

/// The formatter on words, with this uuid instead of the case's.
fn ask_format(case: &FormatCase, uuid: &[u8], given: u32, lent: &mut [u8], answer: &mut [u64]) -> u64 {
    let FormatCase { block, label, features, owner, group, mode, record, .. } = case;
    words::format(*block, lent, label, uuid, *features, *owner, *group, *mode, record, given, answer)
}

/// Asks both, and compares everything. Gives the block, if one was made.
fn check_format(random: &mut Random, case: &FormatCase, tally: &mut Formats) -> Option<Vec<u8>> {
    let mut answer = any_answer(random);
    let (before, mut block) = (answer.clone(), case.lent.clone());
    // Any number but 0 says that the capacity is given.
    let given = if case.given { random.pick(&[1, 1, 2, 1 << 31, u32::MAX]) } else { 0 };
    let number = ask_format(case, &case.uuid, given, &mut block, &mut answer);
    let mut expected_block = case.lent.clone();
    let expected = theirs::format(&case.input(), &mut expected_block);
    let (expected_number, values) = expected.map_or_else(refused, |finish| (0, vec![u64::from(finish)]));
    assert_eq!(number, expected_number, "{case:?}");
    assert_eq!(answer, answer_after(&before, &values), "{case:?}");
    assert!(block == expected_block, "other bytes: {case:?}");
    assert!(number == 0 || block == case.lent, "a refusal writes: {case:?}");
    typed::check_format(case, (number, values), &block);
    tally.count_format(case, &expected);
    (number == 0).then_some(block)
}

/// What is lent to the reading of a super block.
#[derive(Clone, Debug, PartialEq, Eq)]
struct Room {
    label: Vec<u8>,
    uuid: Vec<u8>,
    answer: Vec<u64>,
}

impl Room {
    fn ask(&mut self, block: &[u8]) -> u64 {
        words::super_fields(block, &mut self.label, &mut self.uuid, &mut self.answer)
    }
}

/// Asks both, and compares everything. Gives what the reference has.
fn check_fields(random: &mut Random, block: &[u8]) -> Result<theirs::SuperFields, Refusal> {
    let mut room = Room {
        label: any_bytes(random, LABEL_BYTES),
        uuid: any_bytes(random, UUID_BYTES),
        answer: any_answer(random),
    };
    let mut expected = room.clone();
    let number = room.ask(block);
    let fields = theirs::super_fields(block);
    let (expected_number, values) = match fields {
        Ok(fields) => {
            expected.label = fields.label.to_vec();
            expected.uuid = fields.uuid.to_vec();
            let [owner, group, mode] = [fields.owner, fields.group, fields.mode].map(u64::from);
            (0, vec![fields.features, owner, group, mode])
        }
        Err(refusal) => refused(refusal),
    };
    expected.answer = answer_after(&expected.answer, &values);
    assert_eq!((number, &room), (expected_number, &expected));
    typed::check_fields(block, (number, values), &room.label, &room.uuid);
    fields
}

/// An accepted block, read and formatted again over other bytes, is the same.
fn check_again(random: &mut Random, block: &[u8]) {
    let fields = zonefs::super_fields(block).expect("an accepted block");
    let mut again = any_bytes(random, block.len());
    let wanted = Format {
        block: random.pick(&[512, 4096]),
        label: &fields.label,
        uuid: fields.uuid,
        features: fields.features,
        owner: fields.owner,
        group: fields.group,
        mode: fields.mode,
        record: &small_zone(0),
        capacity_given: false,
    };
    assert_eq!(zonefs::format(&wanted, &mut again).map(|done| done.finish), Ok(false));
    assert!(again == block, "formatted again it has other bytes: {fields:?}");
}

/// One of four zones of 64 sectors: three conventional, and an empty sequential one.
fn small_zone(zone: u8) -> [u8; words::ZONE_BYTES] {
    let mut record = [0; words::ZONE_BYTES];
    let (kind, condition) = if zone < 3 { (1, 0) } else { (2, 1) };
    record[words::RECORD_START] = zone * 64;
    record[words::RECORD_LENGTH] = 64;
    record[words::RECORD_POINTER] = zone * 64;
    record[words::RECORD_TYPE] = kind;
    record[words::RECORD_CONDITION] = condition;
    record
}

fn report(records: &[&[u8]], given: bool) -> Vec<u8> {
    let mut bytes = vec![0; words::HEADER_BYTES];
    bytes[words::REPORT_COUNT] = records.len() as u8;
    bytes[words::REPORT_FLAGS] = u8::from(given);
    bytes.extend(records.concat());
    bytes
}

/// A formatted block mounts with this report, with exactly the values given, those without their bit ignored.
fn check_mount(case: &FormatCase, block: &[u8], report: &[u8], files: [u32; 2]) {
    let (options, open_limit, active_limit) = (&b""[..], 0, 0);
    let source = Source { block: case.block, super_block: block, options, report, open_limit, active_limit };
    let mounted = Volume::mount(&source, [EMPTY_ROW; 2], [EMPTY_ROW; 2]);
    let value = mounted.ok().and_then(|volume| volume.value()).expect("the block mounts");
    assert_eq!([value.cnv_files, value.seq_files], files, "{case:?}");
    let used =
        |bit: u64, given: u32, otherwise: u32| if case.features & bit != 0 { given } else { otherwise };
    assert_eq!((value.block, value.uuid), (case.block, case.uuid), "{case:?}");
    assert_eq!(value.owner, used(words::FEATURE_UID, case.owner, 0), "{case:?}");
    assert_eq!(value.group, used(words::FEATURE_GID, case.group, 0), "{case:?}");
    assert_eq!(value.mode, used(words::FEATURE_PERM, case.mode, 0o640), "{case:?}");
}

/// What holds of each block that was formatted.
fn check_made(random: &mut Random, case: &FormatCase, block: &[u8]) {
    // The record was checked as a report's first, so that it is one by itself. It gives no file.
    check_mount(case, block, &report(&[&case.record], case.given), [0, 0]);
    let zones = [0, 1, 2, 3].map(small_zone);
    let cnv_files = if case.features & words::FEATURE_AGGREGATE != 0 { 1 } else { 2 };
    check_mount(case, block, &report(&zones.each_ref().map(|zone| &zone[..]), false), [cnv_files, 1]);

    let FormatCase { uuid, features, owner, group, mode, .. } = *case;
    let mut label = [0; LABEL_BYTES];
    label[..case.label.len()].copy_from_slice(&case.label);
    let given = SuperFields { label, uuid, features, owner, group, mode };
    assert_eq!(zonefs::super_fields(block), Ok(given));
    assert!(check_fields(random, block).is_ok(), "a block that was made isn't accepted: {case:?}");
    check_again(random, block);
}

fn make_blocks(tally: &mut Formats) {
    for index in 0..FORMATS {
        let mut random = Random::new(10, index);
        let case = format_case(11, index);
        if let Some(block) = check_format(&mut random, &case, tally) {
            check_made(&mut random, &case, &block);
        }
    }
}

fn read_blocks(tally: &mut Formats) {
    for index in 0..BLOCKS_READ {
        let mut random = Random::new(12, index);
        let block = super_case(13, index);
        let fields = check_fields(&mut random, &block);
        tally.count_super(&block, &fields);
        if fields.is_ok() {
            check_again(&mut random, &block);
        }
    }
}

#[test]
fn formats_give_the_same() {
    let mut tally = Formats::default();
    make_blocks(&mut tally);
    read_blocks(&mut tally);
    assert_eq!(tally.missing(), [""; 0], "the cases never led to these");
    println!(
        "formats: {tally}; each block made was mounted, read and made again; all as the reference has them"
    );
}

/// A length that isn't this one.
fn other_length(random: &mut Random, length: usize) -> usize {
    random.pick(&[0, 1, length / 2, length - 1, length + 1, 2 * length])
}

/// Right lengths but for those whose bit is set: label, uuid, answer words.
fn room_with(random: &mut Random, wrong: u64) -> Room {
    let length = |random: &mut Random, bit: u64, right: usize| match wrong & bit {
        0 => right,
        _ => other_length(random, right),
    };
    let (label, uuid) = (length(random, 1, LABEL_BYTES), length(random, 2, UUID_BYTES));
    let answer = if wrong & 4 != 0 { random.below(ANSWER_WORDS as u64) as usize } else { ANSWER_WORDS };
    Room { label: any_bytes(random, label), uuid: any_bytes(random, uuid), answer: any_words(random, answer) }
}

/// 10 comes before anything else is looked at, whatever the rest is.
#[test]
fn other_lengths_write_nothing() {
    for index in 0..OTHER_LENGTHS {
        let mut random = Random::new(14, index);
        let wrong = random.between(1, 7);
        let mut room = room_with(&mut random, wrong);
        let before = room.clone();
        assert_eq!(room.ask(&super_case(15, index)), 10);
        assert_eq!(room, before);

        // The formatter takes a label of any length.
        let wrong = random.pick(&[2, 4, 6]);
        let Room { uuid, mut answer, .. } = room_with(&mut random, wrong);
        let case = format_case(16, index);
        let (mut block, answer_before) = (case.lent.clone(), answer.clone());
        assert_eq!(ask_format(&case, &uuid, u32::from(case.given), &mut block, &mut answer), 10);
        assert!(block == case.lent && answer == answer_before, "10 writes: {case:?}");
    }
}
