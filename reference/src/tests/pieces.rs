//! The mount in pieces: each fault at its byte, the rows that are stored before it, what stays refused, and that the cuts make no
//! difference.

use super::*;
use crate::generator::pieces::{even_case, pieces_case, PiecesCase};
use crate::player::mount::{begin, mount, Begun};
use crate::player::pieces::{Answer, Lent, Outcome, Reading, Step};
use crate::player::types::{Access, Account, Condition, Mount, Reason, Row};
use crate::program::pieces::{Pieces, EDGES, EDGE_NAMES};

/// Sectors of a zone on these disks, and bytes.
const L: u64 = 8;
const BYTES: u64 = 4096;
const AGGREGATE: u64 = 1;
const PLENTY: Lent = Lent { cnv: 100, seq: 100 };
/// Behind this many bytes the header is whole, and behind these the zones 0 to 4.
const HEADER: usize = 16;
const BEHIND: [usize; 5] = [80, 144, 208, 272, 336];

/// A zone for each letter: `c` conventional, `s` sequential and empty, `r` conventional and read-only, `x` of a type that there isn't.
fn disk(letters: &str) -> Vec<Zone> {
    let one = |(number, letter): (u64, char)| {
        let (kind, condition) = match letter {
            'c' => (1, 0),
            's' => (2, 1),
            'r' => (1, 13),
            _ => (9, 0),
        };
        zone(number * L, L, number * L, kind, condition, L)
    };
    (0..).zip(letters.chars()).map(one).collect()
}

fn report_of(letters: &str) -> Vec<u8> {
    report(1, &disk(letters))
}

fn begun(features: u64) -> Begun {
    begin(4096, &super_block(features), b"", 0, 0).unwrap()
}

fn piece(bytes: &[u8], lent: Lent) -> Step {
    Step::Piece { bytes: bytes.to_vec(), lent }
}

/// The bytes cut at these places, each piece with the same tables, and the end.
fn cut(bytes: &[u8], places: &[usize], lent: Lent) -> Vec<Step> {
    let places = [&[0], places, &[bytes.len()]].concat();
    let pieces = places.windows(2).map(|pair| piece(&bytes[pair[0]..pair[1]], lent));
    pieces.chain([Step::End]).collect()
}

fn single_bytes(bytes: &[u8], lent: Lent) -> Vec<Step> {
    let places: Vec<usize> = (1..bytes.len()).collect();
    cut(bytes, &places, lent)
}

fn outcomes(features: u64, steps: &[Step]) -> Vec<Outcome> {
    Reading::of(&begun(features), steps).outcomes()
}

/// The number and its values.
fn told(answer: &Answer) -> Vec<u64> {
    match answer {
        Answer::Taken => vec![0],
        Answer::Mounted(mount, _) => vec![0, mount.cnv_files as u64, mount.seq_files as u64],
        Answer::Refused(refusal) => [vec![u64::from(refusal.number())], refusal.values()].concat(),
    }
}

fn answers(features: u64, steps: &[Step]) -> Vec<Vec<u64>> {
    outcomes(features, steps).iter().map(|outcome| told(&outcome.answer)).collect()
}

/// Which files each step stores, such as `c0`.
fn stores(features: u64, steps: &[Step]) -> Vec<String> {
    let name = |kind: FileKind| if kind == CNV { 'c' } else { 's' };
    let text = |outcome: &Outcome| {
        let names = outcome.stored.iter().map(|stored| format!("{}{}", name(stored.kind), stored.number));
        names.collect::<Vec<_>>().join(" ")
    };
    outcomes(features, steps).iter().map(text).collect()
}

/// All that is stored by the steps, in order.
fn all_stored(features: u64, steps: &[Step]) -> String {
    stores(features, steps).into_iter().filter(|text| !text.is_empty()).collect::<Vec<_>>().join(" ")
}

/// How many bytes have come when the first refusal does, and what it is; the steps are single bytes and the end.
fn first_refusal(features: u64, bytes: &[u8], lent: Lent) -> (usize, Vec<u64>) {
    let answers = answers(features, &single_bytes(bytes, lent));
    let first = answers.iter().position(|answer| answer[0] != 0).expect("a refusal");
    assert!(answers[first..].iter().all(|answer| *answer == answers[first]), "another answer later");
    (first + 1, answers[first].clone())
}

fn row(start: u64, capacity: u64, size: u64) -> Row {
    let (condition, access) = (Condition::Healthy, Access::Write);
    Row { start, capacity, size, condition, access, ..Row::EMPTY }
}

#[test]
fn begin_answers_as_the_whole_mount() {
    let mut bad_perm = super_block(8);
    spoil_super_block(&mut bad_perm, &[33, 26], 96, 2);
    let mut bad_tail = super_block(0);
    spoil_super_block(&mut bad_tail, &[26], 96, 2);
    let number = |block: u64, bytes: &[u8], options: &[u8]| {
        begin(block, bytes, options, 0, 0).map_or_else(Refusal::number, |_| 0)
    };
    let good = super_block(0);
    assert_eq!(number(4096, &good, b"explicit-open"), 0);
    assert_eq!(number(65_536 + 4096, &good[1..], b"x"), 20);
    assert_eq!(number(512, &good[1..], b"x"), 21);
    assert_eq!(number(512, &bad_perm, b"x"), 33);
    assert_eq!(number(512, &bad_tail, b"x"), 26);
    assert_eq!(number(512, &good, b"x"), 27);
    for (fault, expected) in [(22, 22), (23, 23), (24, 24), (25, 25)] {
        let mut bytes = super_block(0);
        spoil_super_block(&mut bytes, &[fault], 96, 2);
        assert_eq!(number(512, &bytes, b""), expected);
    }
}

#[test]
fn a_bad_header_is_28_at_its_last_byte() {
    let with = |at: usize, bytes: &[u8]| {
        let mut report = report_of("cs");
        report[at..at + bytes.len()].copy_from_slice(bytes);
        report
    };
    // Sector 1; no zone; 65,537 zones; a flag that there isn't.
    for bad in [with(0, &[1]), with(8, &[0]), with(8, &[1, 0, 1, 0]), with(12, &[2])] {
        assert_eq!(first_refusal(0, &bad, PLENTY), (HEADER, vec![28]));
        assert_eq!(all_stored(0, &single_bytes(&bad, PLENTY)), "");
    }
}

/// Wherever the bytes stop. What is missing comes too late afterwards, and the end stays refused.
#[test]
fn a_missing_byte_is_28_at_the_end() {
    let report = report_of("css");
    for there in 0..report.len() {
        let steps = [
            piece(&report[..there], PLENTY),
            Step::End,
            piece(&report[there..], PLENTY),
            piece(&[], PLENTY),
            Step::End,
        ];
        assert_eq!(answers(0, &steps), [[0], [28], [28], [28], [28]], "{there} bytes");
        let finished = if there < BEHIND[1] { "" } else { "s0" };
        assert_eq!(stores(0, &steps), [finished, "", "", "", ""], "{there} bytes");
    }
    assert_eq!(answers(0, &[Step::End]), [[28]]);
    assert_eq!(answers(0, &[piece(&report, PLENTY), Step::End]), [vec![0], vec![0, 0, 2]]);
}

#[test]
fn an_extra_byte_is_28_when_it_arrives() {
    let mut report = report_of("cs");
    report.push(0);
    assert_eq!(first_refusal(0, &report, PLENTY), (BEHIND[1] + 1, vec![28]));
    // In the piece that finishes the last zone too; the row is stored before it.
    let steps = [piece(&report, PLENTY), Step::End];
    assert_eq!(answers(0, &steps), [[28], [28]]);
    assert_eq!(stores(0, &steps), ["s0", ""]);
}

/// The end changes nothing: there may be a second one, and what comes after it is as before it.
#[test]
fn after_a_good_end() {
    let steps = [
        piece(&report_of("ccs"), PLENTY),
        Step::End,
        piece(&[], Lent::default()),
        Step::End,
        piece(&[0], PLENTY),
        piece(&[], PLENTY),
        Step::End,
    ];
    let expected: [&[u64]; 7] = [&[0], &[0, 1, 1], &[0], &[0, 1, 1], &[28], &[28], &[28]];
    assert_eq!(answers(0, &steps), expected);
    assert_eq!(stores(0, &steps), ["c0 s0", "", "", "", "", "", ""]);
}

#[test]
fn a_bad_zone_is_29_at_its_last_byte() {
    assert_eq!(first_refusal(0, &report_of("csx"), PLENTY), (BEHIND[2], vec![29, 2, 5]));
    assert_eq!(first_refusal(0, &report_of("xsx"), PLENTY), (BEHIND[0], vec![29, 0, 5]));
    assert_eq!(first_refusal(0, &report_of("cscx"), PLENTY), (BEHIND[3], vec![29, 3, 5]));
    assert_eq!(all_stored(0, &single_bytes(&report_of("cscx"), PLENTY)), "s0 c0");
    type Spoil = fn(&mut Zone);
    let spoilt: [(Spoil, u64); 7] = [
        (|zone| zone.start += L, 1),
        (|zone| zone.length = 0, 2),
        (|zone| zone.capacity = 0, 3),
        (|zone| (zone.length, zone.capacity) = (1 << 40, 1 << 40), 4),
        (|zone| zone.kind = 0, 5),
        (|zone| zone.condition = 0, 6),
        (|zone| zone.pointer = 0, 7),
    ];
    for (spoil, reason) in spoilt {
        let mut zones = disk("csss");
        spoil(&mut zones[2]);
        let bytes = report(1, &zones);
        assert_eq!(first_refusal(0, &bytes, PLENTY), (BEHIND[2], vec![29, 2, reason]));
    }
}

/// Of several pieces' faults, and of several in one piece, the first byte's counts; a whole mount would give 29 before 30.
#[test]
fn faults_come_in_byte_order() {
    let lent = Lent { cnv: 100, seq: 1 };
    let mut report = report_of("cssx");
    assert_eq!(first_refusal(0, &report, lent), (BEHIND[2], vec![30]));
    assert_eq!(answers(0, &[piece(&report, lent), Step::End]), [[30], [30]]);
    report.push(7);
    assert_eq!(answers(0, &[piece(&report, PLENTY), Step::End]), [[29, 3, 5], [29, 3, 5]]);
    let input = Input { report: report_of("cssx"), ..input_with(0, "", &[]) };
    let (mut cnv, mut seq) = (vec![Row::EMPTY; 100], vec![Row::EMPTY]);
    let whole = mount(&input, &mut cnv, &mut seq);
    assert_eq!(whole, Err(Refusal::BadZone { zone: 3, reason: Reason::Type }));
}

#[test]
fn a_file_without_a_row_is_30_at_its_first_zone() {
    let seq_rows = |seq| Lent { cnv: 100, seq };
    let cnv_rows = |cnv| Lent { cnv, seq: 100 };
    let report = report_of("csss");
    assert_eq!(first_refusal(0, &report, seq_rows(0)), (BEHIND[1], vec![30]));
    assert_eq!(first_refusal(0, &report, seq_rows(1)), (BEHIND[2], vec![30]));
    assert_eq!(first_refusal(0, &report, seq_rows(2)), (BEHIND[3], vec![30]));
    assert_eq!(all_stored(0, &single_bytes(&report, seq_rows(2))), "s0 s1");
    assert_eq!(answers(0, &cut(&report, &[], seq_rows(3))), [vec![0], vec![0, 0, 3]]);
    // Each conventional zone, or a run's first: not its second, and not the zone that finishes it.
    assert_eq!(first_refusal(0, &report_of("sccs"), cnv_rows(1)), (BEHIND[2], vec![30]));
    assert_eq!(first_refusal(AGGREGATE, &report_of("sccs"), cnv_rows(0)), (BEHIND[1], vec![30]));
    assert_eq!(first_refusal(AGGREGATE, &report_of("scscc"), cnv_rows(1)), (BEHIND[3], vec![30]));
    // The zone must itself be good.
    assert_eq!(first_refusal(0, &report_of("csx"), seq_rows(1)), (BEHIND[2], vec![29, 2, 5]));
}

#[test]
fn a_run_is_stored_by_the_zone_behind_it_or_by_the_last() {
    let steps = |letters: &str| cut(&report_of(letters), &[16, 80, 144, 208, 272], PLENTY);
    assert_eq!(stores(AGGREGATE, &steps("sccsc")), ["", "", "", "", "c0 s0", "c1", ""]);
    assert_eq!(stores(0, &steps("sccsc")), ["", "", "c0", "c1", "s0", "c2", ""]);
    assert_eq!(stores(AGGREGATE, &steps("scccc")), ["", "", "", "", "", "c0", ""]);
    // The last but one is no end yet, and neither is the end of what has come.
    let bytes = report_of("scccc");
    let without_last = [piece(&bytes[..BEHIND[3]], PLENTY), Step::End];
    assert_eq!(stores(AGGREGATE, &without_last), ["", ""]);
}

#[test]
fn a_run_is_stored_before_a_30_there() {
    let lent = Lent { cnv: 1, seq: 0 };
    let report = report_of("sccs");
    assert_eq!(first_refusal(AGGREGATE, &report, lent), (BEHIND[3], vec![30]));
    let steps = cut(&report, &[BEHIND[3] - 1], lent);
    assert_eq!(stores(AGGREGATE, &steps), ["", "c0", ""]);
    let stored = outcomes(AGGREGATE, &steps)[1].stored[0];
    assert_eq!((stored.kind, stored.number, stored.row), (CNV, 0, row(L, 2 * BYTES, 2 * BYTES)));
}

#[test]
fn a_bad_zone_finishes_nothing() {
    for letters in ["sccx", "sccxs"] {
        let report = report_of(letters);
        assert_eq!(first_refusal(AGGREGATE, &report, PLENTY), (BEHIND[3], vec![29, 3, 5]));
        assert_eq!(all_stored(AGGREGATE, &single_bytes(&report, PLENTY)), "");
    }
    // It may be the count's last one, conventional, and bad in another way.
    let mut zones = disk("sccc");
    zones[3].condition = 1;
    let steps = single_bytes(&report(1, &zones), PLENTY);
    assert_eq!(answers(AGGREGATE, &steps).last().unwrap(), &[29, 3, 6]);
    assert_eq!(all_stored(AGGREGATE, &steps), "");
}

#[test]
fn zone_0_is_no_file_and_in_no_run() {
    let stored = |letters: &str| {
        let steps = cut(&report_of(letters), &[], PLENTY);
        outcomes(AGGREGATE, &steps)[0]
            .stored
            .iter()
            .map(|stored| (stored.kind, stored.row))
            .collect::<Vec<_>>()
    };
    assert_eq!(stored("c"), []);
    assert_eq!(stored("s"), []);
    assert_eq!(stored("cs"), [(SEQ, row(L, BYTES, 0))]);
    assert_eq!(stored("cc"), [(CNV, row(L, BYTES, BYTES))]);
    assert_eq!(stored("cccs"), [(CNV, row(L, 2 * BYTES, 2 * BYTES)), (SEQ, row(3 * L, BYTES, 0))]);
    // A read-only zone 0 doesn't make the run ill.
    assert_eq!(stored("rcc"), [(CNV, row(L, 2 * BYTES, 2 * BYTES))]);
    let ill = Row { condition: Condition::Offline, access: Access::None, ..row(L, 2 * BYTES, 0) };
    assert_eq!(stored("ccr"), [(CNV, ill)]);
    let no_rows = cut(&report_of("c"), &[], Lent::default());
    assert_eq!(answers(AGGREGATE, &no_rows), [vec![0], vec![0, 0, 0]]);
}

/// Rows of files that were finished stay; nothing else is stored then, whatever comes.
#[test]
fn a_refused_mount_changes_nothing_more() {
    let good = report_of("csscs");
    let bad = report_of("csxcs");
    let steps = [
        piece(&bad[..BEHIND[2]], PLENTY),
        piece(&good[BEHIND[2]..], PLENTY),
        Step::End,
        piece(&good, PLENTY),
        piece(&[], PLENTY),
        Step::End,
    ];
    assert_eq!(answers(0, &steps), [[29, 2, 5]; 6]);
    assert_eq!(stores(0, &steps), ["s0", "", "", "", "", ""]);
    // Longer tables come too late.
    let short = Lent { cnv: 100, seq: 1 };
    let steps = [piece(&good[..BEHIND[2]], short), piece(&good[BEHIND[2]..], PLENTY), Step::End];
    assert_eq!((answers(0, &steps), all_stored(0, &steps)), (vec![vec![30]; 3], "s0".to_string()));
}

/// Only the table lent with a zone's last byte counts.
#[test]
fn tables_of_other_lengths() {
    let report = report_of("scccs");
    let none = Lent { cnv: 0, seq: 100 };
    let with = |lent: [Lent; 3]| {
        // Up to the run's first zone but for its last byte; up to its last zone; the rest.
        let (first, second) = (BEHIND[1] - 1, BEHIND[3]);
        [
            piece(&report[..first], lent[0]),
            piece(&report[first..second], lent[1]),
            piece(&report[second..], lent[2]),
            Step::End,
        ]
    };
    let numbers = |lent| answers(AGGREGATE, &with(lent)).iter().map(|answer| answer[0]).collect::<Vec<_>>();
    assert_eq!(numbers([none, PLENTY, PLENTY]), [0, 0, 0, 0]);
    assert_eq!(numbers([PLENTY, none, PLENTY]), [0, 30, 30, 30]);
    // The run began with a row, and has none when it is finished: then neither is the zone's own file stored.
    assert_eq!(numbers([PLENTY, PLENTY, none]), [0, 0, 30, 30]);
    assert_eq!(all_stored(AGGREGATE, &with([PLENTY, PLENTY, none])), "");
}

/// The same where the count's last zone finishes the run. In between it needs no row.
#[test]
fn a_shorter_table_at_the_last_zone() {
    let report = report_of("sccc");
    let with = |second: Lent, third: Lent| {
        [
            piece(&report[..BEHIND[1]], PLENTY),
            piece(&report[BEHIND[1]..BEHIND[2]], second),
            piece(&report[BEHIND[2]..], third),
            Step::End,
        ]
    };
    let none = Lent::default();
    assert_eq!(answers(AGGREGATE, &with(none, PLENTY)), [vec![0], vec![0], vec![0], vec![0, 1, 0]]);
    assert_eq!(stores(AGGREGATE, &with(none, PLENTY)), ["", "", "c0", ""]);
    assert_eq!(answers(AGGREGATE, &with(PLENTY, none)), [[0], [0], [30], [30]]);
    assert_eq!(all_stored(AGGREGATE, &with(PLENTY, none)), "");
}

/// What a table holds after all steps, and the last answer, whatever the cut.
#[test]
fn the_cuts_make_no_difference() {
    let short = Lent { cnv: 1, seq: 1 };
    for letters in ["cccscs", "scsccs", "ssxcc", "sccx"] {
        for (features, lent) in [(0, PLENTY), (AGGREGATE, PLENTY), (0, short), (AGGREGATE, short)] {
            let mut bytes = report_of(letters);
            for more in 0..2 {
                bytes.resize(bytes.len() + more, 0);
                let result = |steps: &[Step]| {
                    let outcomes = outcomes(features, steps);
                    let stored: Vec<_> = outcomes.iter().flat_map(|outcome| outcome.stored.clone()).collect();
                    (stored, outcomes.last().unwrap().answer.clone())
                };
                let whole = result(&cut(&bytes, &[], lent));
                assert_eq!(result(&single_bytes(&bytes, lent)), whole, "{letters}");
                for place in 0..bytes.len() {
                    assert_eq!(result(&cut(&bytes, &[place], lent)), whole, "{letters} cut at {place}");
                }
            }
        }
    }
}

/// The worked example's disk: 2 cnv files of 268435456 bytes, aggregated 1 of 536870912; seq/0 has 4096, seq/1 none.
#[test]
fn the_worked_example_in_pieces() {
    let (zone, capacity) = (268435456, 201326592);
    let seq_rows = [row(1572864, capacity, 4096), row(2097152, capacity, 0)];
    let both = [row(524288, zone, zone), row(1048576, zone, zone)];
    let one = [row(524288, 2 * zone, 2 * zone)];
    for (features, cnv_rows) in [(0, &both[..]), (AGGREGATE, &one[..])] {
        let input = input_with(features, "errors=repair,explicit-open", &sheet_zones());
        let begun = begin(4096, &input.super_block, &input.options, 3, 4).unwrap();
        let steps = cut(&input.report, &[3, 16, 100, 250], PLENTY);
        let outcomes = Reading::of(&begun, &steps).outcomes();
        let stored = |kind| {
            let of_kind =
                outcomes.iter().flat_map(|outcome| &outcome.stored).filter(move |stored| stored.kind == kind);
            of_kind.map(|stored| stored.row).collect::<Vec<_>>()
        };
        assert_eq!((&stored(CNV)[..], &stored(SEQ)[..]), (cnv_rows, &seq_rows[..]));
        let limited = Input { open_limit: 3, active_limit: 4, ..input };
        let whole = mount_volume(&limited).unwrap();
        let counts = (whole.mount.cnv_files, whole.mount.seq_files, whole.account.active);
        assert_eq!(counts, (cnv_rows.len(), 2, 1));
        assert_eq!(outcomes.last().unwrap().answer, Answer::Mounted(whole.mount, whole.account));
    }
}

/// 65,536 zones are accepted, in pieces of 4,096 zones and in odd ones; the header of 65,537 isn't.
#[test]
fn the_most_zones() {
    let lent = Lent { cnv: 1, seq: 65_535 };
    let letters = format!("cc{}", "s".repeat(65_534));
    let report = report_of(&letters);
    let every =
        |bytes: usize| (1..).map(move |number| number * bytes).take_while(|&place| place < report.len());
    for places in [every(4096 * 64).map(|place| 16 + place).collect::<Vec<_>>(), every(1_000_003).collect()] {
        let steps = cut(&report, &places, lent);
        let outcomes = outcomes(0, &steps);
        assert_eq!(told(&outcomes.last().unwrap().answer), [0, 1, 65_534]);
        let stored: Vec<_> = outcomes.iter().flat_map(|outcome| &outcome.stored).collect();
        assert_eq!((stored.len(), stored[65_534].number), (65_535, 65_533));
        assert_eq!(stored[65_534].row, row(65_535 * L, BYTES, 0));
    }
    let more = format!("{letters}s");
    assert_eq!(answers(0, &cut(&report_of(&more), &[15, 16], lent)), [[0], [28], [28], [28]]);
}

/// The rows of both tables, and what is handed out with them.
type Mounted = (Vec<Row>, Vec<Row>, Mount, Account);

/// The same bytes in one, with such tables.
fn whole_mount(case: &PiecesCase, lent: Lent) -> Result<Mounted, Refusal> {
    let input = Input {
        block: case.block as u16,
        super_block: case.super_block.clone(),
        report: case.bytes(),
        options: case.options.clone(),
        open_limit: case.open_limit,
        active_limit: case.active_limit,
    };
    let (mut cnv, mut seq) = (vec![Row::EMPTY; lent.cnv], vec![Row::EMPTY; lent.seq]);
    mount(&input, &mut cnv, &mut seq).map(|(mount, account)| (cnv, seq, mount, account))
}

/// What the steps leave in tables of that length, where the last is an end that is answered 0.
fn pieces_mount(outcomes: &[Outcome], lent: Lent) -> Option<Mounted> {
    let (mut cnv, mut seq) = (vec![Row::EMPTY; lent.cnv], vec![Row::EMPTY; lent.seq]);
    for stored in outcomes.iter().flat_map(|outcome| &outcome.stored) {
        let table = if stored.kind == CNV { &mut cnv } else { &mut seq };
        table[stored.number] = stored.row;
    }
    match outcomes.last().map(|outcome| outcome.answer.clone()) {
        Some(Answer::Mounted(mount, account)) => Some((cnv, seq, mount, account)),
        _ => None,
    }
}

/// The same with every piece, if it is.
fn only_lent(steps: &[Step]) -> Option<Lent> {
    let lent = |step: &Step| match step {
        Step::Piece { lent, .. } => Some(*lent),
        Step::End => None,
    };
    let mut all = steps.iter().filter_map(lent);
    let first = all.next()?;
    all.all(|other| other == first).then_some(first)
}

/// "A report that the whole mount accepts gives the same tables, counts and answer in pieces; one that it refuses is refused in pieces too".
#[test]
fn generated_cases_are_as_the_whole_mount() {
    let mut compared = [0, 0];
    for number in 0..3_000 {
        let case = pieces_case(21, number);
        let (Ok(begun), Some(lent)) = (case.begin(), only_lent(&case.steps)) else { continue };
        // An end that comes too early is refused, whatever follows it.
        let steps: Vec<Step> =
            case.steps.iter().filter(|step| **step != Step::End).cloned().chain([Step::End]).collect();
        let outcomes = Reading::of(&begun, &steps).outcomes();
        let whole = whole_mount(&case, lent);
        compared[usize::from(whole.is_ok())] += 1;
        assert_eq!(pieces_mount(&outcomes, lent), whole.ok(), "case {number}");
    }
    assert!(compared.iter().all(|&count| count >= 500), "{compared:?}");
}

/// Each follows from its seed and number. Together they lead to everything but 10, which is about what a caller lends.
#[test]
fn generated_cases_lead_to_everything() {
    let mut tally = Pieces::default();
    let large = even_case(22, 65_536, 16, 4096 * 64);
    for case in (0..4_000).map(|number| pieces_case(22, number)).chain([large]) {
        match case.begin() {
            Err(refusal) => tally.count_unbegun(refusal),
            Ok(begun) => {
                let reading = Reading::of(&begun, &case.steps);
                tally.count(&reading, &case.steps, &reading.outcomes());
            }
        }
    }
    assert_eq!(tally.missing(), ["10"], "{tally}");
    assert_eq!(pieces_case(22, 17), pieces_case(22, 17));
    assert_ne!(pieces_case(22, 17), pieces_case(23, 17));
}

/// The edges that one mount is counted at, by their numbers from 1, and its line.
fn edges(features: u64, steps: &[Step]) -> Vec<usize> {
    let begun = begun(features);
    let reading = Reading::of(&begun, steps);
    let mut tally = Pieces::default();
    tally.count(&reading, steps, &reading.outcomes());
    (1..).zip(tally.edges).filter(|(_, count)| *count > 0).map(|(number, _)| number).collect()
}

#[test]
fn edges_of_the_length_are_counted() {
    let good = report_of("cs");
    let mut bad = good.clone();
    bad[0] = 1;
    assert_eq!(edges(0, &cut(&bad, &[], PLENTY)), [1]);
    assert_eq!(edges(0, &cut(&bad, &[HEADER], PLENTY)), [2]);
    assert_eq!(edges(0, &cut(&good[..15], &[], PLENTY)), [3]);
    assert_eq!(edges(0, &cut(&good[..BEHIND[0] + 1], &[], PLENTY)), [4]);
    assert_eq!(edges(0, &cut(&good[..BEHIND[0]], &[], PLENTY)), [5]);
    let long = [&good[..], &[0]].concat();
    assert_eq!(edges(0, &cut(&long, &[], PLENTY)), [6]);
    // The row is stored by the piece before.
    assert_eq!(edges(0, &cut(&long, &[BEHIND[1]], PLENTY)), [7, 19]);
    let ended = [piece(&good, PLENTY), Step::End, piece(&[0], PLENTY)];
    assert_eq!(edges(0, &ended), [8]);
    let mut more = good.clone();
    more[8..12].copy_from_slice(&65_537u32.to_le_bytes());
    assert_eq!(edges(0, &cut(&more, &[], PLENTY)), [1, 24]);
}

#[test]
fn edges_of_zones_and_rows_are_counted() {
    let whole = |features, letters: &str, lent| edges(features, &cut(&report_of(letters), &[], lent));
    assert_eq!(whole(0, "xc", PLENTY), [9]);
    assert_eq!(whole(AGGREGATE, "ccx", PLENTY), [10, 11]);
    assert_eq!(whole(0, "ccxs", PLENTY), [] as [usize; 0]);
    assert_eq!(edges(0, &cut(&report_of("cxs"), &[BEHIND[1] - 1], PLENTY)), [12]);
    let lent = |cnv, seq| Lent { cnv, seq };
    assert_eq!(whole(AGGREGATE, "scs", lent(0, 9)), [13]);
    assert_eq!(whole(0, "scs", lent(0, 9)), [14]);
    assert_eq!(whole(AGGREGATE, "scs", lent(1, 0)), [14, 15]);
    assert_eq!(whole(0, "ssx", lent(0, 0)), [14, 18]);
    let losing = |letters: &str, place: usize| {
        let report = report_of(letters);
        edges(AGGREGATE, &[piece(&report[..place], PLENTY), piece(&report[place..], lent(0, 9)), Step::End])
    };
    assert_eq!(losing("sccs", BEHIND[2]), [16]);
    assert_eq!(losing("scc", BEHIND[1]), [17]);
    assert_eq!(whole(AGGREGATE, "cccs", PLENTY), [20]);
    let thirds = cut(&report_of("sccc"), &[BEHIND[1], BEHIND[2]], PLENTY);
    assert_eq!(edges(AGGREGATE, &thirds), [21]);
    let twice = [piece(&report_of("s"), PLENTY), piece(&[], PLENTY), Step::End, Step::End];
    assert_eq!(edges(0, &twice), [22]);
    let many = format!("c{}", "s".repeat(65_535));
    assert_eq!(whole(0, &many, lent(0, 65_535)), [23]);
}

/// What never came is named: everything, where nothing came.
#[test]
fn what_never_came_is_missing() {
    let missing = Pieces::default().missing();
    assert_eq!(missing.len(), 13 + 1 + 7 + EDGES);
    assert_eq!((&missing[0][..], &missing[13][..], &missing[14][..]), ("10", "0", "29 with reason 1"));
    assert_eq!(missing[21..], EDGE_NAMES);
}
