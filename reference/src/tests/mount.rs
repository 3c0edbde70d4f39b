//! Mounts: every refusal number, what zones become, and options.

use super::*;
use crate::player::mount::mount;
use crate::player::options::{parse, Options};
use crate::player::types::{Access, Account, Condition, Policy, Row};

fn refusal(input: &Input) -> u32 {
    mount_volume(input).map_or_else(Refusal::number, |_| 0)
}

/// The number for the sheet's mount after `change`.
fn changed(change: impl Fn(&mut Input)) -> u32 {
    let mut input = sheet_input();
    change(&mut input);
    refusal(&input)
}

fn changed_super_block(at: usize, bytes: &[u8]) -> u32 {
    changed(|input| {
        input.super_block[at..at + bytes.len()].copy_from_slice(bytes);
        stamp(&mut input.super_block);
    })
}

#[test]
fn block_and_super_block() {
    assert_eq!(changed(|input| input.block = 1024), 20);
    assert_eq!(changed(|input| input.super_block.truncate(4095)), 21);
    assert_eq!(changed(|input| input.super_block.push(0)), 21);
    assert_eq!(changed_super_block(0, &[0x5A, 0x4F, 0x46, 0x53]), 22);
    assert_eq!(changed(|input| input.super_block[4] ^= 1), 23);
    assert_eq!(changed_super_block(88, &[16]), 24);
    assert_eq!(changed_super_block(95, &[0x80]), 24);
    assert_eq!(changed_super_block(88, &[2, 0, 0, 0, 0, 0, 0, 0, 0xFF, 0xFF, 0xFF, 0xFF]), 25);
    assert_eq!(changed_super_block(88, &[4, 0, 0, 0, 0, 0, 0, 0, 0, 0, 0, 0, 0xFF, 0xFF, 0xFF, 0xFF]), 25);
    assert_eq!(changed_super_block(96, &[0xFF; 12]), 0);
    assert_eq!(changed_super_block(88, &[8, 0, 0, 0, 0, 0, 0, 0, 0, 0, 0, 0, 0, 0, 0, 0, 0, 2]), 33);
    assert_eq!(changed_super_block(108, &[1]), 26);
    assert_eq!(changed_super_block(4095, &[1]), 26);
}

#[test]
fn owner_group_mode_uuid() {
    let mut input = sheet_input();
    input.super_block[72..88].copy_from_slice(b"0123456789abcdef");
    input.super_block[96..104].copy_from_slice(&[7, 0, 0, 0, 9, 0, 0, 0]);
    let mut shown = |features: u8, perm: u32| {
        input.super_block[88] = features;
        input.super_block[104..108].copy_from_slice(&perm.to_le_bytes());
        stamp(&mut input.super_block);
        let mount = mount_volume(&input)?.mount;
        assert_eq!(&mount.uuid, b"0123456789abcdef");
        Ok((mount.owner, mount.group, mount.mode))
    };
    assert_eq!(shown(0, 0xFFFF), Ok((0, 0, 0o640)));
    assert_eq!(shown(2, 0xFFFF), Ok((7, 0, 0o640)));
    assert_eq!(shown(4, 0xFFFF), Ok((0, 9, 0o640)));
    assert_eq!(shown(8, 0xFFFF), Err(Refusal::Perm));
    assert_eq!(shown(8, 0o777), Ok((0, 0, 0o777)));
    assert_eq!(shown(15, 0o751), Ok((7, 9, 0o751)));
}

#[test]
fn report_header() {
    assert_eq!(changed(|input| input.options = b"errors=".to_vec()), 27);
    assert_eq!(changed(|input| input.report[0] = 1), 28);
    assert_eq!(changed(|input| input.report[8] = 4), 28);
    assert_eq!(changed(|input| input.report[12] = 3), 28);
    assert_eq!(changed(|input| input.report.truncate(15)), 28);
    assert_eq!(changed(|input| input.report = vec![0; 16]), 28);
    assert_eq!(changed(|input| input.report = report(1, &vec![sheet_zones()[0]; 65_537])), 28);
}

/// Conventional zones of 8 sectors, one after the other.
fn many_zones(count: u64) -> Vec<Zone> {
    (0..count).map(|number| zone(number * 8, 8, 0, 1, 0, 8)).collect()
}

/// The most zones of a report, and the most files of a kind in 10; a player's tables are too short for them.
#[test]
fn the_most_zones() {
    let input = input_with(0, "", &many_zones(65_536));
    assert_eq!(refusal(&input), 30);
    let (mut cnv, mut seq) = (vec![Row::EMPTY; 65_535], vec![]);
    let (mount_value, account) = mount(&input, &mut cnv, &mut seq).unwrap();
    assert_eq!((mount_value.cnv_files, mount_value.seq_files), (65_535, 0));
    assert_eq!((cnv[0].start, cnv[65_534].start), (8, 8 * 65_535));
    let volume = Volume { mount: mount_value, account, cnv, seq };
    assert_eq!(volume.find(b"cnv/65534"), Ok((CNV, 65_534)));
    assert_eq!(volume.find(b"cnv/65535"), Err(Refusal::NoSuchFile));
    let input = input_with(0, "", &many_zones(65_537));
    let (mut cnv, mut seq) = (vec![Row::EMPTY; 65_536], vec![]);
    assert_eq!(mount(&input, &mut cnv, &mut seq), Err(Refusal::ReportHeader));
}

/// The number of the bad zone, if zone 3 is this one.
fn bad_zone(third: Zone) -> Option<u32> {
    let mut zones = sheet_zones();
    zones[3] = third;
    match mount_volume(&input_with(0, "", &zones)) {
        Err(Refusal::BadZone { zone, .. }) => Some(zone),
        other => {
            assert!(other.is_ok());
            None
        }
    }
}

/// Zone 3 of the sheet: start, length and capacity.
const S: u64 = 1572864;
const L: u64 = 524288;
const C: u64 = 393216;

#[test]
fn good_sequential_zones() {
    let good = [
        zone(S, L, S + C, 3, 14, C),
        zone(S, L, S + C, 2, 1, C),
        zone(S, L, S + 8, 2, 4, C),
        zone(S, L, 1, 2, 13, C),
        zone(S, L, u64::MAX, 2, 15, C),
        zone(S, L, S, 2, 1, L),
    ];
    for zone in good {
        assert_eq!(bad_zone(zone), None, "{zone:?}");
    }
}

#[test]
fn bad_sequential_zones() {
    let bad = [
        zone(S + 8, L, S + 8, 2, 2, C),
        zone(S - 8, L, S, 2, 2, C),
        zone(S, 0, S, 2, 1, C),
        zone(S, L + 1, S, 2, 1, C),
        zone(S, L, S, 2, 1, 0),
        zone(S, L, S, 2, 1, C + 1),
        zone(S, L, S, 2, 1, L + 8),
        zone(S, L, S + 4, 2, 2, C),
        zone(S, L, S - 8, 2, 2, C),
        zone(S, L, S + C + 8, 2, 2, C),
        zone(S, L, S, 2, 0, C),
        zone(S, L, S, 2, 5, C),
        zone(S, L, S, 4, 1, C),
        zone(S, L, S, 0, 0, C),
        zone(S, S.wrapping_neg(), S, 2, 1, C),
        zone(S, (1 << 40) - S + 8, S, 2, 1, C),
    ];
    for zone in bad {
        assert_eq!(bad_zone(zone), Some(3), "{zone:?}");
    }
    // Good itself, but the next zone doesn't start where it ends.
    assert_eq!(bad_zone(zone(S, (1 << 40) - S, S, 2, 1, C)), Some(4));
}

/// Pointers of every sort: below the zone, at its start, off the block, within and at the end of what it holds, at its
/// own end, past it, and such that sums would wrap.
const POINTERS: [u64; 13] =
    [0, 1, S - 8, S - 1, S, S + 4, S + 8, S + C - 8, S + C, S + C + 8, S + L, 1 << 63, u64::MAX];

/// The row of seq/0, if zone 3 of the sheet is this one.
fn row_of(third: Zone) -> Row {
    let mut zones = sheet_zones();
    zones[3] = third;
    mount_volume(&input_with(0, "", &zones)).unwrap().seq[0]
}

fn healthy_row(capacity: u64, size: u64) -> Row {
    Row { start: S, capacity, size, access: Access::Write, ..Row::EMPTY }
}

#[test]
fn a_full_zone_has_its_capacity_whatever_its_pointer() {
    for pointer in POINTERS {
        for kind in [2, 3] {
            let shorter = zone(S, L, pointer, kind, 14, C);
            assert_eq!(row_of(shorter), healthy_row(201326592, 201326592), "{shorter:?}");
            let whole = zone(S, L, pointer, kind, 14, L);
            assert_eq!(row_of(whole), healthy_row(268435456, 268435456), "{whole:?}");
        }
    }
}

/// Full or not, the first zone is no file; it is checked as the others are.
#[test]
fn a_full_zone_0_has_any_pointer() {
    for pointer in [0, 3, 524288, u64::MAX] {
        let mut zones = sheet_zones();
        zones[0] = zone(0, 524288, pointer, 2, 14, 393216);
        assert_eq!(refusal(&input_with(0, "", &zones)), 0);
        zones[0].condition = 2;
        assert_eq!(refusal(&input_with(0, "", &zones)), if pointer == 0 { 0 } else { 29 });
    }
}

/// What isn't the pointer is checked in a full zone too.
#[test]
fn bad_full_zones() {
    for pointer in [0, S, S + C, S + L, u64::MAX] {
        let bad = [
            zone(S + 8, L, pointer, 2, 14, C),
            zone(S, 0, pointer, 2, 14, C),
            zone(S, L + 1, pointer, 2, 14, C),
            zone(S, L, pointer, 2, 14, 0),
            zone(S, L, pointer, 2, 14, C + 1),
            zone(S, L, pointer, 2, 14, L + 8),
            zone(S, (1 << 40) - S + 8, pointer, 2, 14, C),
            zone(S, L, pointer, 1, 14, L),
            zone(S, L, pointer, 0, 14, C),
            zone(S, L, pointer, 4, 14, C),
        ];
        for zone in bad {
            assert_eq!(bad_zone(zone), Some(3), "{zone:?}");
        }
    }
}

/// With conditions 1 to 4 the pointer says the size, at the end of the capacity too, and may not lie outside.
#[test]
fn other_zones_have_their_pointer() {
    for condition in 1..=4 {
        for kind in [2, 3] {
            for pointer in POINTERS {
                let zone = zone(S, L, pointer, kind, condition, C);
                let size = match pointer {
                    S => Some(0),
                    1572872 => Some(4096),
                    1966072 => Some(201326592 - 4096),
                    1966080 => Some(201326592),
                    _ => None,
                };
                match size {
                    Some(size) => assert_eq!(row_of(zone), healthy_row(201326592, size), "{zone:?}"),
                    None => assert_eq!(bad_zone(zone), Some(3), "{zone:?}"),
                }
            }
        }
    }
}

#[test]
fn conventional_zones() {
    for condition in [0, 13, 15] {
        assert_eq!(bad_zone(zone(S, 524288, u64::MAX, 1, condition, 524288)), None);
    }
    assert_eq!(bad_zone(zone(S, 524288, 0, 1, 1, 524288)), Some(3));
    assert_eq!(bad_zone(zone(S, 524288, 0, 1, 14, 524288)), Some(3));
    assert_eq!(bad_zone(zone(S, 524288, 0, 1, 0, 393216)), Some(3));
}

#[test]
fn zones_up_to_the_limit() {
    let last = |length| {
        let zones = [zone(0, 8, 0, 1, 0, 8), zone(8, length, 8, 2, 1, 8)];
        refusal(&input_with(0, "", &zones))
    };
    assert_eq!(last((1 << 40) - 8), 0);
    assert_eq!(last(1 << 40), 29);
}

#[test]
fn capacity_only_with_its_flag() {
    let mut input = sheet_input();
    input.report[12] = 0;
    let volume = mount_volume(&input).unwrap();
    assert_eq!(volume.seq[0].capacity, 268435456);
}

#[test]
fn ill_zones_are_kept_offline() {
    for condition in [13, 15] {
        let mut zones = sheet_zones();
        zones[2].condition = condition;
        zones[3].condition = condition;
        let offline = |start, capacity| Row { start, capacity, condition: Condition::Offline, ..Row::EMPTY };
        let apart = mount_volume(&input_with(0, "", &zones)).unwrap();
        assert_eq!((apart.cnv[0].size, apart.cnv[1]), (268435456, offline(1048576, 268435456)));
        assert_eq!(apart.seq[0], offline(1572864, 201326592));
        let together = mount_volume(&input_with(1, "", &zones)).unwrap();
        assert_eq!(together.cnv[0], offline(524288, 536870912));
    }
}

/// Zone 0 is in no run, and a sequential zone parts two runs.
#[test]
fn runs() {
    let kinds = [1, 1, 2, 1, 1, 1, 3];
    let zones: Vec<Zone> = kinds
        .iter()
        .zip(0..)
        .map(|(&kind, number)| zone(number * 8, 8, number * 8, kind, u8::from(kind != 1), 8))
        .collect();
    let volume = mount_volume(&input_with(1, "", &zones)).unwrap();
    assert_eq!((volume.mount.cnv_files, volume.mount.seq_files), (2, 2));
    let place = |row: &Row| (row.start, row.capacity);
    assert_eq!((place(&volume.cnv[0]), place(&volume.cnv[1])), ((8, 4096), (24, 12288)));
    assert_eq!((place(&volume.seq[0]), place(&volume.seq[1])), ((16, 4096), (48, 4096)));
}

#[test]
fn tables_too_short_and_rows_past_the_files() {
    let input = sheet_input();
    let mark = Row { start: 77, ..Row::EMPTY };
    for (cnv_rows, seq_rows, answer) in [(2, 2, 0), (1, 2, 30), (2, 1, 30), (4, 5, 0)] {
        let (mut cnv, mut seq) = (vec![mark; cnv_rows], vec![mark; seq_rows]);
        let result = mount(&input, &mut cnv, &mut seq);
        assert_eq!(result.map_or_else(Refusal::number, |_| 0), answer);
        let filled = if answer == 0 { 2 } else { 0 };
        assert_eq!(cnv.iter().filter(|row| **row == mark).count(), cnv_rows - filled);
        assert_eq!(seq.iter().filter(|row| **row == mark).count(), seq_rows - filled);
    }
}

/// With two faults the lower number is given, but for 33, which is checked after 25 and before 26. `perms` has every
/// set of faults.
#[test]
fn order_of_checks() {
    assert_eq!(changed(|input| (input.block, input.super_block[0]) = (0, 0)), 20);
    assert_eq!(changed(|input| (input.super_block[0], input.super_block[4]) = (0, 0)), 22);
    assert_eq!(changed(|input| (input.super_block[88], input.super_block[200]) = (16, 1)), 23);
    assert_eq!(changed_super_block(88, &[0x1F, 0, 0, 0, 0, 0, 0, 0, 0xFF, 0xFF, 0xFF, 0xFF]), 24);
    assert_eq!(
        changed_super_block(88, &[2, 0, 0, 0, 0, 0, 0, 0, 0xFF, 0xFF, 0xFF, 0xFF, 0, 0, 0, 0, 0, 0, 0, 0, 1]),
        25
    );
    // The features, uid, gid, perm and the first four bytes of the tail.
    let fields = |features: u64, others: [u32; 4]| {
        let others = others.iter().flat_map(|field| field.to_le_bytes());
        changed_super_block(88, &features.to_le_bytes().into_iter().chain(others).collect::<Vec<u8>>())
    };
    assert_eq!(fields(0x18, [0, 0, 0o1000, 0]), 24);
    assert_eq!(fields(0x0A, [u32::MAX, 0, 0o1000, 0]), 25);
    assert_eq!(fields(0x0C, [0, u32::MAX, 0o1000, 1]), 25);
    assert_eq!(fields(0x08, [u32::MAX, u32::MAX, 0o1000, 1]), 33);
    assert_eq!(fields(0x08, [u32::MAX, u32::MAX, 0o777, 1]), 26);
    assert_eq!(fields(0x07, [0, 0, 0o1000, 1]), 26);
    assert_eq!(changed(|input| (input.options, input.report[0]) = (b"x".to_vec(), 1)), 27);
    assert_eq!(changed(|input| (input.report[0], input.report[16]) = (1, 1)), 28);
}

#[test]
fn options() {
    let good: [(&str, Policy); 9] = [
        ("", Policy::RemountReadOnly),
        (",,,", Policy::RemountReadOnly),
        ("errors=remount-ro", Policy::RemountReadOnly),
        ("errors=zone-ro", Policy::ZoneReadOnly),
        ("errors=zone-offline", Policy::ZoneOffline),
        ("errors=repair", Policy::Repair),
        (",errors=repair,,", Policy::Repair),
        ("errors=repair,errors=zone-ro", Policy::ZoneReadOnly),
        ("errors=zone-ro,errors=remount-ro,", Policy::RemountReadOnly),
    ];
    for (text, policy) in good {
        assert_eq!(parse(text.as_bytes()), Ok(Options { policy, explicit_open: false }), "{text}");
    }
    for text in [
        "errors=",
        "errors",
        "repair",
        "errors=repair ",
        " ",
        "errors=Repair",
        "errors=repair,x",
        "errors=zone",
    ] {
        assert_eq!(parse(text.as_bytes()), Err(Refusal::Options), "{text}");
    }
    let plain = Options { policy: Policy::RemountReadOnly, explicit_open: false };
    assert_eq!(parse(&[b','; 255]), Ok(plain));
    assert_eq!(parse(&[b','; 256]), Err(Refusal::Options));
}

/// The piece stands anywhere, and again, and the last policy wins as before.
#[test]
fn explicit_open_among_the_options() {
    let good: [(&str, Policy); 9] = [
        ("explicit-open", Policy::RemountReadOnly),
        (",explicit-open,,", Policy::RemountReadOnly),
        ("explicit-open,explicit-open", Policy::RemountReadOnly),
        ("explicit-open,errors=repair", Policy::Repair),
        ("errors=repair,explicit-open", Policy::Repair),
        ("errors=zone-ro,explicit-open,errors=zone-offline", Policy::ZoneOffline),
        ("explicit-open,errors=zone-ro,explicit-open", Policy::ZoneReadOnly),
        ("errors=repair,errors=remount-ro,explicit-open", Policy::RemountReadOnly),
        ("explicit-open,explicit-open,errors=repair,errors=zone-ro", Policy::ZoneReadOnly),
    ];
    for (text, policy) in good {
        assert_eq!(parse(text.as_bytes()), Ok(Options { policy, explicit_open: true }), "{text}");
    }
    let bad = [
        "Explicit-open",
        "EXPLICIT-OPEN",
        "explicit-open ",
        " explicit-open",
        "explicit-open\0",
        "explicit-openx",
        "explicit-open=",
        "explicit_open",
        "explicitopen",
        "xplicit-open",
        "errors=explicit-open",
        "explicit-open;errors=repair",
        "explicit-openexplicit-open",
        "explicit-open,x",
        "explicit-open,errors=",
        "explicit-open,explicit-ope",
    ];
    let cuts = (1..13).map(|length| &"explicit-open"[..length]);
    for text in bad.into_iter().chain(cuts) {
        assert_eq!(parse(text.as_bytes()), Err(Refusal::Options), "{text}");
    }
    let mut longest = vec![b','; 255];
    longest[242..].copy_from_slice(b"explicit-open");
    assert_eq!(parse(&longest), Ok(Options { policy: Policy::RemountReadOnly, explicit_open: true }));
    longest.push(b',');
    assert_eq!(parse(&longest), Err(Refusal::Options));
}

/// The option isn't lost, nor are the limits, which stand in the account with the option or without.
#[test]
fn a_mount_keeps_the_option_and_the_limits() {
    for (options, explicit_open) in [("errors=repair", false), ("errors=repair,explicit-open", true)] {
        for (open_limit, active_limit) in [(0, 0), (1, 2), (7, 0), (0, 7), (u32::MAX, u32::MAX - 1)] {
            let input = Input { open_limit, active_limit, ..input_with(0, options, &sheet_zones()) };
            let volume = mount_volume(&input).unwrap();
            assert_eq!(volume.mount.explicit_open, explicit_open);
            assert_eq!(volume.account, Account { open: 0, active: 1, open_limit, active_limit });
            assert!(volume.cnv.iter().chain(&volume.seq).all(|row| row.opens == 0));
        }
    }
}

/// Begun files alone: neither empty nor full ones, nor those that can't be written; it may lie above the limit.
#[test]
fn a_mount_counts_the_active_files() {
    let conditions = [(1, 0), (1, 8), (4, 16), (2, 24), (14, 0), (3, 8), (13, 8), (15, 8), (2, 16), (14, 8)];
    let mut zones = vec![zone(0, 8, 0, 1, 0, 8), zone(8, 24, 0, 1, 0, 24)];
    for (number, (condition, written)) in (0..).zip(conditions) {
        let start = 32 + number * 24;
        zones.push(zone(start, 24, start + written, 2, condition, 24));
    }
    for options in ["", "explicit-open"] {
        for active_limit in [0, 1, 3, 4, 5] {
            let input = Input { active_limit, ..input_with(0, options, &zones) };
            let account = mount_volume(&input).unwrap().account;
            assert_eq!((account.open, account.active, account.active_limit), (0, 4, active_limit));
        }
    }
}
