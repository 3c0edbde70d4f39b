//! Formatting: the bytes that are written, every refusal and their order, whether zone 0 must be finished, what a mount
//! makes of the block; reading one; and the cases for a comparison with their counts.

use std::collections::BTreeSet;

use super::reasons::Faults;
use super::*;
use crate::generator::format::{format_case, super_case, FormatCase};
use crate::generator::random::Random;
use crate::generator::shape;
use crate::player::format::{format, super_fields, SuperFields};
use crate::program::formats::{Formats, EDGES, EDGE_NAMES};
use crate::program::reasons::Counts;

/// Length and capacity of a zone 0, whose block has 8 sectors.
const L: u64 = 524288;
const C: u64 = 393216;
/// No zone ends beyond this sector.
const LIMIT: u64 = 1 << 40;

/// All in use, on a disk that begins with a conventional zone, whose pointer means nothing.
fn good() -> FormatCase {
    FormatCase {
        block: 4096,
        lent: vec![0xA5; 4096],
        label: b"north shelf".to_vec(),
        uuid: *b"0123456789abcdef",
        features: 15,
        owner: 0x0102_0304,
        group: 0x0506_0708,
        mode: 0o751,
        record: record(&zone(0, L, u64::MAX, 1, 0, L)).to_vec(),
        given: true,
    }
}

fn changed(change: impl Fn(&mut FormatCase)) -> FormatCase {
    let mut case = good();
    change(&mut case);
    case
}

fn with_label(label: &[u8]) -> FormatCase {
    changed(|case| case.label = label.to_vec())
}

fn with_ids(features: u64, owner: u32, group: u32) -> FormatCase {
    changed(|case| (case.features, case.owner, case.group) = (features, owner, group))
}

fn with_mode(features: u64, mode: u32) -> FormatCase {
    changed(|case| (case.features, case.mode) = (features, mode))
}

fn with_lent(length: usize) -> FormatCase {
    changed(|case| case.lent.resize(length, 0xA5))
}

fn with_zone(zone: Zone) -> FormatCase {
    changed(|case| case.record = record(&zone).to_vec())
}

/// The answer and its values. A refusal must leave the lent block as it was.
fn answer(case: &FormatCase) -> Vec<u64> {
    let mut lent = case.lent.clone();
    match format(&case.input(), &mut lent) {
        Ok(finish) => vec![0, u64::from(finish)],
        Err(refusal) => {
            assert!(lent == case.lent, "{refusal:?} writes nothing");
            [vec![u64::from(refusal.number())], refusal.values()].concat()
        }
    }
}

fn written(case: &FormatCase) -> Vec<u8> {
    let mut lent = case.lent.clone();
    format(&case.input(), &mut lent).unwrap();
    lent
}

/// The checksum of these bytes is 0x6E095F9F, by another program's CRC-32 with its last inversion undone.
#[test]
fn every_byte_has_its_place() {
    let mut expected = vec![0; 4096];
    expected[..8].copy_from_slice(&[0x53, 0x46, 0x4F, 0x5A, 0x9F, 0x5F, 0x09, 0x6E]);
    expected[8..19].copy_from_slice(b"north shelf");
    expected[72..88].copy_from_slice(b"0123456789abcdef");
    expected[88..96].copy_from_slice(&[15, 0, 0, 0, 0, 0, 0, 0]);
    expected[96..108].copy_from_slice(&[4, 3, 2, 1, 8, 7, 6, 5, 0xE9, 1, 0, 0]);
    for byte in [0, 1, 0xA5, 0xFF] {
        let case = changed(|case| case.lent.fill(byte));
        assert!(written(&case) == expected, "a lent block full of {byte}");
    }
}

/// A shorter label is filled up with zeros. Those within a label are some of its bytes.
#[test]
fn labels() {
    for length in 0..=64 {
        for byte in [b'x', 0, 0xFF] {
            let label = [vec![byte; length / 2], vec![0xC3; length - length / 2]].concat();
            let block = written(&with_label(&label));
            assert_eq!(block[8..8 + length], label);
            assert!(block[8 + length..72].iter().all(|&byte| byte == 0), "{length} bytes");
            assert_eq!(block[72..88], *b"0123456789abcdef");
        }
    }
    for length in [65, 66, 127, 128, 255, 256, 257, 320, 4096, 65_536, 65_600] {
        for byte in [0, b'x'] {
            assert_eq!(answer(&with_label(&vec![byte; length])), [34], "{length} bytes");
        }
    }
}

#[test]
fn blocks_and_lengths() {
    for block in [0, 1, 511, 513, 1024, 4095, 4097, 8192, 1 << 16 | 512, 1 << 32 | 4096, u64::MAX] {
        assert_eq!(answer(&changed(|case| case.block = block)), [20], "block {block}");
    }
    assert_eq!(answer(&changed(|case| case.block = 512)), [0, 0]);
    for length in [0, 1, 107, 108, 512, 4095, 4097, 8192] {
        assert_eq!(answer(&with_lent(length)), [21], "{length} bytes");
    }
}

#[test]
fn features_and_ids() {
    for bit in 4..64 {
        for low in [0, 15] {
            assert_eq!(answer(&changed(|case| case.features = 1 << bit | low)), [24], "bit {bit}");
        }
    }
    for features in 0..16 {
        for (owner, group) in [(u32::MAX, 7), (7, u32::MAX), (u32::MAX, u32::MAX), (u32::MAX - 1, 0)] {
            let bad = (features & 2 != 0 && owner == u32::MAX) || (features & 4 != 0 && group == u32::MAX);
            let expected = if bad { vec![25] } else { vec![0, 0] };
            let answer = answer(&with_ids(features, owner, group));
            assert_eq!(answer, expected, "features {features}, owner {owner}, group {group}");
        }
    }
}

/// "With feature bit 3, a perm above 0777 (octal)" is refused; without it the mode goes in as it is.
#[test]
fn modes() {
    let stray = (9..32).map(|bit| 1 << bit | 0o640).chain([0o1000, u32::MAX]);
    for mode in [0, 0o640, 0o776, 0o777].into_iter().chain(stray) {
        for features in 0..16 {
            let case = with_mode(features, mode);
            if features & 8 != 0 && mode > 0o777 {
                assert_eq!(answer(&case), [33], "features {features}, mode {mode:o}");
            } else {
                assert_eq!(written(&case)[104..108], mode.to_le_bytes(), "features {features}");
            }
        }
    }
}

/// Zone 0 with the faults of these reasons.
fn faulty_zone(faults: &Faults) -> Zone {
    zone(
        if faults.has(1) { 8 } else { 0 },
        faults.length(),
        if faults.has(7) { 4 } else { 8 },
        if faults.has(5) { 4 } else { 2 },
        if faults.has(6) { 5 } else { 2 },
        if faults.has(3) { C + 1 } else { C },
    )
}

/// 29 says zone 0 and the first of the reasons, as of a report's first zone: it starts at 0.
#[test]
fn reasons_of_the_record() {
    for faults in Faults::sets(1..=7) {
        let zone = faulty_zone(&faults);
        assert_eq!(answer(&with_zone(zone)), [29, 0, faults.lowest()], "{zone:?}");
    }
    for start in [1, 8, L, LIMIT, u64::MAX] {
        assert_eq!(answer(&with_zone(zone(start, L, start, 2, 1, C))), [29, 0, 1], "start {start}");
    }
    assert_eq!(answer(&with_zone(zone(0, LIMIT, 8, 2, 2, C))), [0, 1]);
    assert_eq!(answer(&with_zone(zone(0, LIMIT, 0, 1, 0, LIMIT))), [0, 0]);
}

#[test]
fn a_record_of_another_length_has_reason_0() {
    for start in [0, 8] {
        let mut bytes = record(&zone(start, L, 8, 2, 2, C)).to_vec();
        bytes.resize(128, 0);
        for length in [0, 1, 8, 26, 40, 63, 65, 128] {
            let case = changed(|case| case.record = bytes[..length].to_vec());
            assert_eq!(answer(&case), [29, 0, 0], "{length} bytes");
        }
    }
}

/// The formatter's numbers in the order of its checks, as K6 has them, with K8's 33 "before 34".
const ORDER: [u64; 7] = [20, 21, 24, 25, 33, 34, 29];

/// Records with every set of reasons' faults and of two wrong lengths, each with its reason.
fn bad_records() -> Vec<(Vec<u8>, u64)> {
    let bad = |faults: Faults| (record(&faulty_zone(&faults)).to_vec(), faults.lowest());
    let cut = [(good().record[..63].to_vec(), 0), ([&good().record[..], &[0]].concat(), 0)];
    Faults::sets(1..=7).map(bad).chain(cut).collect()
}

/// A case with the faults of these numbers, 25 by the ids that have these feature bits.
fn case_with(faults: &[u64], id_bits: u64, bad_record: &[u8]) -> FormatCase {
    changed(|case| {
        case.features = 1;
        for fault in faults {
            match fault {
                20 => case.block = 1024,
                21 => case.lent.truncate(4095),
                24 => case.features |= 16,
                25 => {
                    case.features |= id_bits;
                    (case.owner, case.group) = (u32::MAX, u32::MAX);
                }
                33 => {
                    case.features |= 8;
                    case.mode = 0o1000;
                }
                34 => case.label = vec![b'x'; 65],
                _ => case.record = bad_record.to_vec(),
            }
        }
    })
}

/// Every set of faults that the formatter can be given: the one that is checked first is answered, and nothing written.
#[test]
fn the_first_check_of_every_set_of_faults() {
    let records = bad_records();
    for set in 0..1u32 << ORDER.len() {
        let in_set = |place: &usize| set >> place & 1 == 1;
        let faults: Vec<u64> = (0..ORDER.len()).filter(in_set).map(|place| ORDER[place]).collect();
        let records = if faults.contains(&29) { &records[..] } else { &records[..1] };
        for (record, reason) in records {
            let expected = match faults.first() {
                None => vec![0, 0],
                Some(29) => vec![29, 0, *reason],
                Some(&first) => vec![first],
            };
            for id_bits in [2, 4, 6] {
                assert_eq!(answer(&case_with(&faults, id_bits, record)), expected, "{faults:?}");
            }
        }
    }
}

#[test]
fn refusal_34_has_no_values() {
    assert_eq!((Refusal::Label.number(), Refusal::Label.values()), (34, vec![]));
}

/// What the papers say of a zone 0 that starts at 0 and has this capacity, in a disk whose block has `step` sectors.
fn expected_finish(kind: u8, condition: u8, pointer: u64, capacity: u64, step: u64) -> Vec<u64> {
    match (kind, condition) {
        (1, 0 | 13 | 15) | (2 | 3, 13..=15) => vec![0, 0],
        (2 | 3, 1..=4) if pointer > capacity || !pointer.is_multiple_of(step) => vec![29, 0, 7],
        (2 | 3, 1..=4) => vec![0, u64::from(pointer < capacity)],
        (1..=3, _) => vec![29, 0, 6],
        _ => vec![29, 0, 5],
    }
}

/// It must be finished exactly if it is sequential, healthy and below capacity in size; a full one isn't, whatever its
/// pointer.
#[test]
fn finish_by_type_condition_and_pointer() {
    for (block, step) in [(512, 1), (4096, 8)] {
        for kind in [0, 1, 2, 3, 4, 255] {
            let capacity = if kind == 1 { L } else { C };
            for condition in 0..=255 {
                for pointer in [0, 1, 8, C - 8, C - 1, C, C + 1, C + 8, L, L + 8, u64::MAX] {
                    let mut case = with_zone(zone(0, L, pointer, kind, condition, capacity));
                    case.block = block;
                    let expected = expected_finish(kind, condition, pointer, capacity, step);
                    assert_eq!(answer(&case), expected, "type {kind}, condition {condition}, at {pointer}");
                }
            }
        }
    }
}

/// Without its flag the capacity is the length, whatever stands in its field.
#[test]
fn a_capacity_only_with_its_flag() {
    for field in [0, 8, C, C + 1, L, L + 8, u64::MAX] {
        for (pointer, expected) in
            [(0, vec![0, 1]), (C, vec![0, 1]), (L - 8, vec![0, 1]), (L, vec![0, 0]), (L + 8, vec![29, 0, 7])]
        {
            let mut case = with_zone(zone(0, L, pointer, 2, 2, field));
            case.given = false;
            assert_eq!(answer(&case), expected, "field {field}, pointer {pointer}");
        }
        let mut case = with_zone(zone(0, L, 0, 1, 0, field));
        case.given = false;
        assert_eq!(answer(&case), [0, 0], "field {field}");
        case.given = true;
        assert_eq!(answer(&case), if field == L { vec![0, 0] } else { vec![29, 0, 3] }, "field {field}");
    }
}

/// Holds a formatted block to what a mount of it must show: the values given, or their defaults without their bits.
fn check_mount(case: &FormatCase, block: &[u8]) {
    let input =
        Input { block: case.block as u16, super_block: block.to_vec(), ..input_with(0, "", &sheet_zones()) };
    let mount = mount_volume(&input).unwrap().mount;
    let used = |bit: u64, value: u32, default: u32| if case.features & bit != 0 { value } else { default };
    assert_eq!(mount.uuid, case.uuid);
    assert_eq!(mount.owner, used(2, case.owner, 0));
    assert_eq!(mount.group, used(4, case.group, 0));
    assert_eq!(mount.mode, used(8, case.mode, 0o640));
    // The sheet has two conventional zones behind zone 0, and two sequential ones.
    assert_eq!((mount.cnv_files, mount.seq_files), (if case.features & 1 != 0 { 1 } else { 2 }, 2));
}

/// Holds a block to what reading it must give, and to its being written again, over other bytes.
fn check_read(case: &FormatCase, block: &[u8]) {
    let fields = super_fields(block).unwrap();
    let SuperFields { label, uuid, features, owner, group, mode } = fields;
    let filled = [&case.label[..], &vec![0; 64 - case.label.len()]].concat();
    assert_eq!(label[..], filled);
    let given = (case.uuid, case.features, case.owner, case.group, case.mode);
    assert_eq!((uuid, features, owner, group, mode), given);
    assert!(written_again(&fields) == block);
}

fn written_again(fields: &SuperFields) -> Vec<u8> {
    let SuperFields { label, uuid, features, owner, group, mode } = *fields;
    written(&FormatCase { label: label.to_vec(), uuid, features, owner, group, mode, ..good() })
}

#[test]
fn a_formatted_block_mounts_and_is_read() {
    for features in 0..16 {
        for (owner, group, mode) in [(0, 0, 0), (7, 9, 0o777), (u32::MAX - 1, 1 << 31, 0o640)] {
            let values = |case: &mut FormatCase| {
                (case.features, case.owner, case.group, case.mode) = (features, owner, group, mode);
            };
            let case = changed(values);
            let block = written(&case);
            check_mount(&case, &block);
            check_read(&case, &block);
        }
    }
}

/// Fields that a mount ignores are kept all the same.
#[test]
fn fields_without_their_bits_are_kept() {
    for features in 0..16u64 {
        let without = |bit: u64, value: u32| if features & bit == 0 { value } else { 5 };
        let case = changed(|case| {
            (case.features, case.uuid, case.label) = (features, [0xFF; 16], vec![0xFF; 64]);
            (case.owner, case.group) = (without(2, u32::MAX), without(4, u32::MAX));
            case.mode = without(8, 0xFFFF_FE00);
        });
        let block = written(&case);
        check_mount(&case, &block);
        check_read(&case, &block);
    }
}

/// Also of blocks that weren't formatted here.
#[test]
fn every_accepted_block_is_written_again() {
    for index in 0..200 {
        let block = shape::super_block(&mut Random::new(1, index), index % 16);
        assert!(written_again(&super_fields(&block).unwrap()) == block);
    }
}

/// The numbers of the reading function in the order of its checks, which is the mount's.
const READ_ORDER: [u32; 7] = [21, 22, 23, 24, 25, 33, 26];

#[test]
fn reading_refuses_as_the_mount_does() {
    for (id_at, id_bit) in [(96, 2), (100, 4)] {
        for set in 0..1u32 << READ_ORDER.len() {
            let in_set = |place: &usize| set >> place & 1 == 1;
            let faults: Vec<u32> =
                (0..READ_ORDER.len()).filter(in_set).map(|place| READ_ORDER[place]).collect();
            let mut block = super_block(0);
            spoil_super_block(&mut block, &faults, id_at, id_bit);
            let number = super_fields(&block).map_or_else(Refusal::number, |_| 0);
            assert_eq!(number, faults.first().copied().unwrap_or(0), "{faults:?}");
        }
    }
    for length in [0, 1, 4, 107, 4095] {
        assert_eq!(super_fields(&super_block(0)[..length]), Err(Refusal::SuperBlockLength), "{length} bytes");
    }
}

/// So many cases of each sort are generated here.
const CASES: u64 = 4000;

fn cases() -> impl Iterator<Item = FormatCase> {
    (0..CASES).map(|number| format_case(1, number))
}

#[test]
fn cases_follow_from_seed_and_number() {
    let made = |seed| -> Vec<(FormatCase, Vec<u8>)> {
        (0..20).map(|number| (format_case(seed, number), super_case(seed, number))).collect()
    };
    let once = made(5);
    assert!(once == made(5));
    let others = made(6);
    assert!(once.iter().zip(&others).all(|(one, two)| one.0 != two.0 && one.1 != two.1));
    assert!((1..20).all(|number| once[number] != once[number - 1]));
}

/// The counts over the cases are full, so nothing that they name is left out of a comparison.
#[test]
fn the_cases_have_every_answer_and_edge() {
    let mut formats = Formats::default();
    for (number, case) in (0..).zip(cases()) {
        formats.count_format(&case, &format(&case.input(), &mut case.lent.clone()));
        let block = super_case(1, number);
        formats.count_super(&block, &super_fields(&block));
    }
    assert_eq!(formats.missing(), Vec::<String>::new(), "{formats}");
    let accepted = formats.formatted.iter().sum::<u64>();
    assert!((CASES * 2 / 5..=CASES * 3 / 5).contains(&accepted), "{formats}");
    assert!((CASES * 2 / 5..=CASES * 3 / 5).contains(&formats.read), "{formats}");
}

/// So that bytes which stay are seen, wherever a formatter leaves them.
#[test]
fn lent_blocks_have_few_zeros() {
    for case in cases() {
        let zeros = case.lent.iter().filter(|&&byte| byte == 0).count();
        assert!(zeros <= 1 + case.lent.len() / 64, "{zeros} zeros");
    }
}

#[test]
fn the_cases_have_every_type_and_condition() {
    let whole = cases().filter(|case| case.record.len() == 64);
    let seen: BTreeSet<(u8, u8)> = whole.map(|case| (case.record[24], case.record[25])).collect();
    let all = (1..=3).flat_map(|kind| (0..=15).map(move |condition| (kind, condition)));
    let missing: Vec<(u8, u8)> = all.filter(|pair| !seen.contains(pair)).collect();
    assert_eq!(missing, []);
}

/// "Every block written mounts, all else good, with exactly the values given", and is read; with its record as the only
/// zone of a report, a mount takes it or gives the same reason.
#[test]
fn what_a_mount_makes_of_the_cases() {
    for case in cases() {
        let mut block = case.lent.clone();
        let answer = format(&case.input(), &mut block);
        if answer.is_ok() {
            check_mount(&case, &block);
            check_read(&case, &block);
        }
        if answer.is_ok() || answer.is_err_and(|refusal| refusal.number() == 29) && case.record.len() == 64 {
            let header = [&[0; 8][..], &[1, 0, 0, 0, u8::from(case.given), 0, 0, 0]].concat();
            let report = [header, case.record].concat();
            let input = Input { block: case.block as u16, report, ..sheet_input() };
            assert_eq!(mount_volume(&input).map(drop), answer.map(drop));
        }
    }
}

fn counted(case: &FormatCase) -> Formats {
    let mut formats = Formats::default();
    formats.count_format(case, &format(&case.input(), &mut case.lent.clone()));
    formats
}

/// Counts with one at this place, and whether it came with the next one's fault.
fn one(place: usize, before_next: bool) -> Counts {
    let mut counts = Counts::default();
    counts.count(place, before_next);
    counts
}

/// Of each refusal: alone, with the next one's fault, and with that of the one after it, which doesn't count.
#[test]
fn refusals_and_their_order_are_counted() {
    let refused = |faults: &[u64]| counted(&case_with(faults, 6, &good().record[..63])).refused;
    for (place, number) in ORDER.into_iter().enumerate() {
        assert_eq!(refused(&[number]), one(place, false), "{number}");
        if let Some(&next) = ORDER.get(place + 1) {
            assert_eq!(refused(&[number, next]), one(place, true), "{number} before {next}");
        }
        if let Some(&later) = ORDER.get(place + 2) {
            assert_eq!(refused(&[number, later]), one(place, false), "{number} before {later}");
        }
    }
    assert_eq!(counted(&good()).formatted, [1, 0]);
    assert_eq!(counted(&with_zone(zone(0, L, 8, 2, 2, C))).formatted, [0, 1]);
}

#[test]
fn reasons_are_counted() {
    let bad = [
        (zone(8, L, 8, 2, 2, C), 1, false),
        (zone(8, 0, 8, 2, 2, C), 1, true),
        (zone(0, L + 1, 8, 2, 2, C), 2, false),
        (zone(0, L, 8, 2, 2, C + 1), 3, false),
        (zone(0, LIMIT + 8, 8, 2, 2, C), 4, false),
        (zone(0, LIMIT + 8, 8, 4, 2, C), 4, true),
        (zone(0, L, 8, 2, 0, C), 6, false),
        (zone(0, L, 4, 2, 0, C), 6, true),
        (zone(0, L, 4, 2, 2, C), 7, false),
    ];
    for (zone, reason, before_next) in bad {
        assert_eq!(counted(&with_zone(zone)).reasons, one(reason, before_next), "{zone:?}");
    }
    // The start is the next reason, if the record is long enough to have one.
    for (start, length, before_next) in
        [(0, 63, false), (8, 63, true), (8, 8, true), (8, 7, false), (8, 0, false)]
    {
        let mut case = with_zone(zone(start, L, 8, 2, 2, C));
        case.record.truncate(length);
        assert_eq!(counted(&case).reasons, one(0, before_next), "{length} bytes");
    }
}

/// The names of the edges that are counted for a case.
fn edges(case: &FormatCase) -> Vec<&'static str> {
    let counts = counted(case).edges;
    (0..EDGES).filter(|&edge| counts[edge] == 1).map(|edge| EDGE_NAMES[edge]).collect()
}

#[test]
fn edges_of_values_are_counted() {
    let counted = [
        with_label(b""),
        with_label(b"\0x"),
        with_label(&[1; 64]),
        with_label(&[1; 65]),
        with_lent(4095),
        with_lent(4097),
        changed(|case| case.features = 17),
        with_ids(15, u32::MAX, 7),
        with_ids(15, 7, u32::MAX),
        with_ids(9, u32::MAX, u32::MAX),
        with_mode(7, 0o1000),
        with_mode(8, 0o777),
        with_mode(8, 0o1000),
    ];
    for (case, name) in counted.iter().zip(EDGE_NAMES) {
        assert_eq!(edges(case), [name]);
    }
}

#[test]
fn what_is_beside_an_edge_is_not_counted() {
    let values = [
        good(),
        with_label(b"x\0\0"),
        with_label(&[1; 63]),
        with_label(&[1; 66]),
        with_lent(4094),
        changed(|case| case.features = 1 << 5 | 1 << 4),
        with_ids(6, u32::MAX, u32::MAX),
        with_ids(9, u32::MAX, 7),
        with_mode(7, 0o777),
        with_mode(8, 0o776),
        with_mode(8, 0o1001),
    ];
    let zones = [
        zone(0, L, C, 2, 14, C),
        zone(0, L, C, 2, 13, C),
        zone(0, L, L, 1, 0, L),
        zone(0, L, 7, 1, 13, L),
        zone(0, L, L, 2, 2, L),
        zone(0, L, 8, 2, 2, C),
        zone(8, L, 8, 2, 2, C),
    ];
    for case in values.into_iter().chain(zones.map(with_zone)) {
        assert_eq!(edges(&case), [""; 0], "{case:?}");
    }
}

#[test]
fn edges_of_zones_are_counted() {
    let counted = [
        zone(0, L, 0, 2, 14, C),
        zone(0, L, L, 3, 14, C),
        zone(0, L, C - 1, 2, 13, C),
        zone(0, L, 8, 2, 15, C),
        zone(0, L, 7, 1, 0, L),
        zone(0, L, C, 2, 1, C),
        zone(0, L, 0, 2, 4, C),
        zone(0, L, C - 8, 2, 4, C),
    ];
    for (zone, name) in counted.into_iter().zip(&EDGE_NAMES[13..]) {
        assert_eq!(edges(&with_zone(zone)), [*name], "{zone:?}");
    }
    let mut not_given = with_zone(zone(0, L, C, 2, 2, C));
    not_given.given = false;
    assert_eq!(edges(&not_given), EDGE_NAMES[21..]);
}

#[test]
fn blocks_that_are_read_are_counted() {
    let counted = |faults: &[u32]| {
        let (mut formats, mut block) = (Formats::default(), super_block(0));
        spoil_super_block(&mut block, faults, 96, 2);
        formats.count_super(&block, &super_fields(&block));
        formats
    };
    assert_eq!(counted(&[]), Formats { read: 1, ..Formats::default() });
    for (place, &number) in READ_ORDER.iter().enumerate() {
        assert_eq!(counted(&[number]), Formats { unread: one(place, false), ..Formats::default() });
        if let Some(&next) = READ_ORDER.get(place + 1) {
            let both = Formats { unread: one(place, true), ..Formats::default() };
            assert_eq!(counted(&[number, next]), both);
        }
    }
}

#[test]
fn what_never_came_is_named() {
    let mut formats = Formats::default();
    let all = BTreeSet::from_iter(formats.missing());
    // Two answers 0, 7 refusals, 6 pairs; 8 reasons, 7 pairs; the edges; 0, 7 refusals, 6 pairs.
    assert_eq!(all.len(), 2 + 7 + 6 + 8 + 7 + EDGES + 1 + 7 + 6);
    for name in ["format 0 with finish 0", "format 29", "format 34 before 29", "29 with reason 0 before 1"]
        .into_iter()
        .chain(["29 with reason 7", "read 0", "read 26", "read 33 before 26"])
        .chain(EDGE_NAMES)
    {
        assert!(all.contains(name), "{name}");
    }
    formats.formatted = [1, 2];
    formats.refused.given = [1, 2, 3, 4, 5, 6, 7, 0, 0, 0];
    formats.refused.before_next = [1, 2, 3, 4, 0, 6, 0, 0, 0, 0];
    formats.reasons.given = [1, 2, 3, 4, 5, 0, 7, 8, 0, 0];
    formats.reasons.before_next = [1, 2, 3, 4, 5, 6, 7, 0, 0, 0];
    formats.edges = [9; EDGES];
    formats.edges[3] = 0;
    formats.read = 10;
    formats.unread.given = [1, 2, 3, 4, 5, 6, 0, 0, 0, 0];
    formats.unread.before_next = [1, 2, 3, 4, 5, 6, 0, 0, 0, 0];
    let missing = ["format 33 before 34", "29 with reason 5", "34 with a label of 65 bytes", "read 26"];
    assert_eq!(formats.missing(), missing);
    assert_eq!(
        formats.to_string(),
        "31 formats (0=1/2 20=1 21=2 24=3 25=4 33=5 34=6 29=7), before the next refusal 1/2/3/4/0/6, reasons of 29 1/2/3/4/5/0/7/8, before the next one 1/2/3/4/5/6/7, edges 9/9/9/0/9/9/9/9/9/9/9/9/9/9/9/9/9/9/9/9/9/9; 31 super blocks read (0=10 21=1 22=2 23=3 24=4 25=5 33=6 26=0), before the next refusal 1/2/3/4/5/6"
    );
}
