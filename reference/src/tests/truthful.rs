//! What a disk may show of a zone: all that is true of it, and nothing else.

use std::collections::BTreeSet;

use super::*;
use crate::disk::truth::{is_true, Shown};
use crate::generator::failures::{own_record, own_report};
use crate::generator::random::Random;
use crate::generator::truthful;

/// Start, length and capacity of the sheet's zone 3.
const S: u64 = 1572864;
const L: u64 = 524288;
const C: u64 = 393216;

fn draws(zone: &Zone) -> Vec<Shown> {
    let mut random = Random::new(1, 1);
    (0..2000).map(|_| truthful::record(&mut random, zone)).collect()
}

fn field(record: &[u8], at: usize) -> u64 {
    u64::from_le_bytes(record[at..at + 8].try_into().unwrap())
}

/// All values that the draws have of something.
fn all<T: Ord>(draws: &[Shown], value: impl Fn(&Shown) -> T) -> BTreeSet<T> {
    draws.iter().map(value).collect()
}

fn fields(draws: &[Shown], at: usize) -> BTreeSet<u64> {
    all(draws, |shown| field(&shown.record, at))
}

/// Asserts that the draws have each of these types with each of these conditions, and no others.
fn assert_types_and_conditions(draws: &[Shown], types: &[u8], conditions: &[u8]) {
    let mut expected = BTreeSet::new();
    for &kind in types {
        expected.extend(conditions.iter().map(|&condition| (kind, condition)));
    }
    assert_eq!(all(draws, |shown| (shown.record[24], shown.record[25])), expected);
}

#[test]
fn a_healthy_sequential_zone_has_any_good_condition() {
    for (pointer, own) in [(S, 1), (S + 8, 2), (S + 16, 4), (S + C - 8, 3), (S + C, 14), (S + C, 2)] {
        for kind in [2, 3] {
            let drawn = draws(&zone(S, L, pointer, kind, own, C));
            let conditions: &[u8] = if pointer == S + C { &[1, 2, 3, 4, 14] } else { &[1, 2, 3, 4] };
            assert_types_and_conditions(&drawn, &[2, 3], conditions);
            for (at, value) in [(0, S), (8, L), (32, C)] {
                assert_eq!(fields(&drawn, at), BTreeSet::from([value]), "field at {at}");
            }
            assert!(drawn.iter().all(|shown| shown.capacity_given));
            let (full, others): (Vec<Shown>, Vec<Shown>) =
                drawn.into_iter().partition(|shown| shown.record[25] == 14);
            assert_eq!(fields(&others, 16), BTreeSet::from([pointer]));
            if pointer == S + C {
                assert_any_pointer(&full);
            }
        }
    }
}

/// Asserts that a pointer which means nothing is drawn among all, and those where a mistake would show.
fn assert_any_pointer(draws: &[Shown]) {
    let pointers = fields(draws, 16);
    assert!(pointers.len() > 100, "only {pointers:?}");
    for pointer in [0, S - 8, S - 1, S, S + 1, S + C - 1, S + C, S + L, u64::MAX] {
        assert!(pointers.contains(&pointer), "no {pointer}");
    }
    let inside = |pointer: &&u64| (S..S + C).contains(*pointer) && **pointer % 8 == 0;
    assert!(pointers.iter().filter(inside).count() > 20, "too few that a zone could have: {pointers:?}");
}

#[test]
fn an_ill_zone_has_any_pointer() {
    for condition in [13, 15] {
        let drawn = draws(&zone(S, L, S + 8, 2, condition, C));
        assert_types_and_conditions(&drawn, &[2, 3], &[condition]);
        assert_any_pointer(&drawn);
        assert!(fields(&drawn, 16).contains(&(S + 8)));
        assert_eq!(fields(&drawn, 32), BTreeSet::from([C]));
    }
}

#[test]
fn a_conventional_zone_may_come_without_a_capacity() {
    for condition in [0, 13, 15] {
        let drawn = draws(&zone(S, L, 0, 1, condition, L));
        assert_types_and_conditions(&drawn, &[1], &[condition]);
        assert!(fields(&drawn, 16).len() > 100);
        let (given, without): (Vec<Shown>, Vec<Shown>) =
            drawn.into_iter().partition(|shown| shown.capacity_given);
        assert!(!given.is_empty() && without.len() > 100);
        assert_eq!(fields(&given, 32), BTreeSet::from([L]));
        assert!(fields(&without, 32).len() > 100);
    }
}

#[test]
fn so_may_a_sequential_zone_whose_capacity_is_its_length() {
    let drawn = draws(&zone(S, L, S + 8, 2, 2, L));
    assert_eq!(all(&drawn, |shown| shown.capacity_given), BTreeSet::from([false, true]));
}

#[test]
fn bytes_that_nobody_reads_are_noise() {
    let drawn = draws(&sheet_zones()[3]);
    for at in (26..32).chain(40..64) {
        assert!(all(&drawn, |shown| shown.record[at]).len() > 200, "byte {at}");
    }
}

/// The reports of these zones, each with its flags.
fn reports(zones: &[Zone]) -> Vec<(u8, Vec<u8>)> {
    let mut random = Random::new(1, 2);
    let report = |_| {
        let report = truthful::report(&mut random, zones);
        assert_eq!(report.len(), 16 + 64 * zones.len());
        assert_eq!(
            (&report[..12], &report[13..16]),
            (&[0, 0, 0, 0, 0, 0, 0, 0, 5, 0, 0, 0][..], &[0; 3][..])
        );
        (report[12], report)
    };
    (0..2000).map(report).collect()
}

/// Zone `number` of each of these reports.
fn shown_in(reports: &[(u8, Vec<u8>)], number: usize) -> Vec<Shown> {
    let at = 16 + 64 * number;
    let record = |report: &[u8]| report[at..at + 64].try_into().unwrap();
    reports
        .iter()
        .map(|(flags, report)| Shown { record: record(report), capacity_given: *flags == 1 })
        .collect()
}

#[test]
fn a_report_is_as_free_as_a_record() {
    let mut zones = sheet_zones();
    zones[4].condition = 13;
    let reports = reports(&zones);
    // Zones 3 and 4 have other capacities than lengths.
    assert!(reports.iter().all(|(flags, _)| *flags == 1));
    assert_types_and_conditions(&shown_in(&reports, 2), &[1], &[0]);
    assert_types_and_conditions(&shown_in(&reports, 3), &[2, 3], &[1, 2, 3, 4]);
    assert_types_and_conditions(&shown_in(&reports, 4), &[2, 3], &[13]);
    assert_eq!(fields(&shown_in(&reports, 3), 16), BTreeSet::from([S + 8]));
    assert!(fields(&shown_in(&reports, 2), 16).len() > 100);
    assert!(fields(&shown_in(&reports, 4), 16).len() > 100);
}

#[test]
fn so_is_a_report_of_a_full_zone() {
    let mut zones = sheet_zones();
    zones[3] = zone(S, L, S + C, 2, 14, C);
    let drawn = shown_in(&reports(&zones), 3);
    assert_types_and_conditions(&drawn, &[2, 3], &[1, 2, 3, 4, 14]);
    let (full, others): (Vec<Shown>, Vec<Shown>) =
        drawn.into_iter().partition(|shown| shown.record[25] == 14);
    assert_any_pointer(&full);
    assert_eq!(fields(&others, 16), BTreeSet::from([S + C]));
}

/// The long run's records and reports: the disk's own type and condition, and any pointer of a full zone.
#[test]
fn the_disk_s_own_bytes_have_any_pointer_of_a_full_zone() {
    let mut random = Random::new(1, 3);
    let mut zones = sheet_zones();
    zones[4] = zone(S + L, L, S + L + C, 3, 14, C);
    let own: Vec<(u8, Vec<u8>)> = (0..2000).map(|_| (1, own_report(&mut random, &zones))).collect();
    assert!(own.iter().all(|(_, report)| report[12] == 1));
    let (open, full) = (shown_in(&own, 3), shown_in(&own, 4));
    assert_types_and_conditions(&open, &[2], &[2]);
    assert_types_and_conditions(&full, &[3], &[14]);
    assert_eq!(fields(&open, 16), BTreeSet::from([S + 8]));
    let pointers = fields(&full, 16);
    assert!([0, S + L, S + L + C, S + 2 * L, u64::MAX].iter().all(|pointer| pointers.contains(pointer)));
    zones[3] = zone(S, L, S + C, 2, 14, C);
    assert_any_pointer(&(0..2000).map(|_| own_record(&mut random, &zones[3])).collect::<Vec<_>>());
}

#[test]
fn a_report_without_capacities_where_none_is_needed() {
    let mut zones = sheet_zones();
    zones.iter_mut().for_each(|zone| zone.capacity = zone.length);
    let (given, without): (Vec<_>, Vec<_>) = reports(&zones).into_iter().partition(|(flags, _)| *flags == 1);
    assert!(given.len() > 100 && without.len() > 100);
    assert!(without.iter().all(|(flags, _)| *flags == 0));
    for number in 0..5 {
        assert_eq!(fields(&shown_in(&given, number), 32), BTreeSet::from([L]));
        assert!(fields(&shown_in(&without, number), 32).len() > 100);
    }
}

#[test]
fn a_tape_has_the_capacity() {
    let drawn = draws(&zone(S, L, 0, 1, 0, L));
    for shown in drawn {
        let on_tape = shown.on_tape();
        assert_eq!(field(&on_tape, 32), L);
        assert_eq!((&on_tape[..32], &on_tape[40..]), (&shown.record[..32], &shown.record[40..]));
    }
    let shown = Shown::with_capacity_given(record(&sheet_zones()[3]));
    assert_eq!(shown.on_tape(), shown.record);
}

/// What may be said of the sheet's zone 3, and what may not.
#[test]
fn true_and_untrue_of_a_healthy_zone() {
    let is = zone(S, L, S + 8, 2, 2, C);
    let also_full = zone(S, L, S + C, 2, 2, C);
    for (kind, condition) in [(2, 1), (2, 2), (3, 3), (3, 4)] {
        assert!(is_true(&zone(S, L, S + 8, kind, condition, C), &is, 4096));
        assert!(is_true(&zone(S, L, S + C, kind, condition, C), &also_full, 4096));
    }
    for pointer in [0, 1, S - 8, S, S + 8, S + C - 8, S + C, S + C + 8, S + L, u64::MAX] {
        let full = zone(S, L, pointer, 3, 14, C);
        assert!(is_true(&full, &also_full, 4096), "pointer {pointer}");
        assert!(!is_true(&full, &is, 4096), "pointer {pointer}");
        for condition in 1..=4 {
            let other = zone(S, L, pointer, 3, condition, C);
            assert_eq!(is_true(&other, &also_full, 4096), pointer == S + C, "pointer {pointer}");
        }
    }
    let untrue = [
        zone(S + 8, L, S + 8, 2, 2, C),
        zone(S, L + 8, S + 8, 2, 2, C),
        zone(S, L, S + 8, 2, 2, C - 8),
        zone(S, L, S + 16, 2, 2, C),
        zone(S, L, S, 2, 1, C),
        zone(S, L, S + 8, 2, 0, C),
        zone(S, L, S + 8, 2, 5, C),
        zone(S, L, S + 8, 2, 13, C),
        zone(S, L, S + 8, 2, 15, C),
        zone(S, L, S + 8, 1, 0, C),
        zone(S, L, S + 8, 4, 2, C),
    ];
    for zone in untrue {
        assert!(!is_true(&zone, &is, 4096), "{zone:?}");
    }
}

#[test]
fn true_and_untrue_of_other_zones() {
    for (own, worse, kind) in [(13, 15, 2), (15, 13, 2), (0, 13, 1), (13, 0, 1)] {
        let is = zone(S, L, S, kind, own, L);
        for pointer in [0, 1, S + 4, u64::MAX] {
            assert!(is_true(&zone(S, L, pointer, kind, own, L), &is, 4096));
            assert!(!is_true(&zone(S, L, pointer, kind, worse, L), &is, 4096));
            assert!(!is_true(&zone(S, L, pointer, 3 - kind, own, L), &is, 4096));
        }
    }
}
