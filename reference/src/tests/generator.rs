//! The generator: the same tapes for the same seed, other ones for another, and a check that holds.

use std::collections::{BTreeMap, BTreeSet};
use std::sync::OnceLock;

use super::stamp;
use crate::generator::random::Random;
use crate::generator::{broken, generate, long, refused, shape, Generated, MAX_PAD};
use crate::player::options::parse;
use crate::player::play::{mount_volume, play, read_input, Line};
use crate::player::tape::{Next, Reader, Record, Verb};
use crate::player::types::{u32_at, FileKind, Reason, Refusal};
use crate::player::zone::Zone;
use crate::program::busy::Busy;
use crate::program::counter::{Counter, Failure};
use crate::program::openings::Openings;
use crate::program::perms::Perms;
use crate::program::pointers::CASE_NAMES;
use crate::program::reasons::Reasons;
use crate::program::tally::Tally;

/// The first tapes of seed 1, made once for all tests.
fn tapes() -> &'static [Generated] {
    static TAPES: OnceLock<Vec<Generated>> = OnceLock::new();
    TAPES.get_or_init(|| (1..=400).map(|index| generate(1, index)).collect())
}

fn calls_on(tape: &[u8]) -> usize {
    let mut reader = Reader::new(tape);
    let records = std::iter::from_fn(|| match reader.read() {
        Next::Record(record) => Some(record),
        Next::End => None,
        Next::Broken => panic!("a broken tape"),
    });
    records.filter(|record| matches!(record, Record::Call(_))).count()
}

/// What each record of a tape after its mount was answered, up to the first that can't be read.
fn answered(tape: &[u8]) -> Vec<(Record<'_>, String)> {
    let mut answered = Vec::new();
    for line in play(tape).into_iter().skip(1) {
        let mut reader = Reader::new(tape);
        reader.at = line.at;
        if let Next::Record(record) = reader.read() {
            answered.push((record, line.text));
        }
    }
    answered
}

#[test]
fn tapes_follow_from_the_seed() {
    let tapes = |seed| -> Vec<Vec<u8>> { (1..=20).map(|index| generate(seed, index).bytes).collect() };
    let once = tapes(5);
    assert_eq!(once, tapes(5));
    let other = tapes(6);
    assert!(once.iter().zip(&other).filter(|(one, two)| one != two).count() >= 18);
}

/// The published first output of splitmix64 for the state 0.
#[test]
fn random_numbers_are_splitmix64() {
    let mut random = Random::with_state(0);
    assert_eq!(random.word(), 0xE220A8397B1DCDAF);
    assert_eq!(random.word(), 0x6E789E6AA1B965F4);
}

#[test]
fn the_check_holds_and_sees_much() {
    let mut tally = Tally::default();
    for generated in tapes() {
        tally.compared.add(generated.check.as_ref().unwrap());
        tally.count_tape(&generated.bytes);
        play(&generated.bytes).iter().for_each(|line| tally.count_line(&line.text));
    }
    assert!(tally.compared.exceptions.iter().all(|&count| count > 0), "{}", tally.summary());
    assert!(tally.compared.records.iter().all(|&count| count > 0), "{}", tally.summary());
    assert!(tally.compared.reports.iter().all(|&count| count > 0), "{}", tally.summary());
    assert!(tally.compared.impossible > 0, "{}", tally.summary());
    assert!(tally.missing().len() < 5, "{:?}", tally.missing());
}

/// Perms that no mode can be come with the faults that are checked before and after them, and without their bit.
#[test]
fn the_tapes_have_every_perm() {
    let mut perms = Perms::default();
    tapes().iter().for_each(|generated| perms.count_tape(&generated.bytes));
    assert!(perms.counts.iter().all(|&count| count > 0), "{:?}", perms.counts);
}

/// So that no mount that is meant to be good is lost to its perm.
#[test]
fn good_super_blocks_have_stray_perms_only_without_their_bit() {
    for features in 0..16 {
        let perms: BTreeSet<u32> = (0..200)
            .map(|index| u32_at(&shape::super_block(&mut Random::new(features, index), features), 104))
            .collect();
        assert!(perms.contains(&0o777), "features {features}");
        let edges = [0o1000, 0o1777, 0o7777, 0x8000_0000, 0x8000_01A0, u32::MAX];
        if features & 8 == 0 {
            assert!(edges.iter().all(|perm| perms.contains(perm)), "features {features}: {perms:?}");
        } else {
            assert!(perms.iter().all(|&perm| perm <= 0o777), "features {features}: {perms:?}");
        }
    }
}

/// The super block's faults 25, 33 and 26, read off its bytes.
fn faults_around_33(super_block: &[u8]) -> Vec<&'static str> {
    let (features, ones) = (super_block[88], |at: usize| super_block[at..at + 4] == [0xFF; 4]);
    let bad_id = (features & 2 != 0 && ones(96)) || (features & 4 != 0 && ones(100));
    let stray_perm = features & 8 != 0 && u32_at(super_block, 104) > 0o777;
    let bad_tail = super_block[108..].iter().any(|&byte| byte != 0);
    let faults = [("25", bad_id), ("33", stray_perm), ("26", bad_tail)];
    faults.into_iter().filter(|(_, is_there)| *is_there).map(|(number, _)| number).collect()
}

fn mount_answer(tape: &[u8]) -> String {
    play(tape)[0].text.split(' ').nth(1).unwrap().to_string()
}

/// What the mount is answered with the perm 0777 instead.
fn answer_without_33(tape: &[u8]) -> String {
    let mut tape = tape.to_vec();
    let super_block = &mut tape[6..6 + 4096];
    super_block[104..108].copy_from_slice(&[0xFF, 1, 0, 0]);
    stamp(super_block);
    mount_answer(&tape)
}

/// 33 comes alone, before each number that is checked after it, and after 25. Its perms are at every edge and have each
/// of the stray bits.
#[test]
fn refused_mounts_have_33_alone_and_with_others() {
    let (mut sets, mut perms, mut next) = (BTreeMap::new(), BTreeSet::new(), BTreeSet::new());
    for index in 0..5000 {
        let tape = refused::tape(&mut Random::new(1, index));
        let (answer, super_block) = (mount_answer(&tape), &tape[6..6 + 4096]);
        let faults = faults_around_33(super_block);
        let checked_before = ["20", "22", "23", "24"].contains(&answer.as_str());
        if checked_before || faults.is_empty() {
            continue;
        }
        assert_eq!(answer, faults[0], "{faults:?}");
        if answer == "33" {
            perms.insert(u32_at(super_block, 104));
            next.insert(answer_without_33(&tape));
        }
        *sets.entry(faults).or_insert(0) += 1;
    }
    let with_33: [&[&str]; 4] = [&["33"], &["25", "33"], &["33", "26"], &["25", "33", "26"]];
    assert!(with_33.iter().all(|&set| sets.get(set).is_some_and(|&count| count >= 50)), "{sets:?}");
    assert_eq!(next, BTreeSet::from(["0", "26", "27", "28", "29"].map(String::from)));
    assert!([0o1000, 0o1777, 0o7777, 1 << 31, u32::MAX].iter().all(|perm| perms.contains(perm)), "{perms:?}");
    assert_eq!(BTreeSet::from_iter(perms.iter().map(|perm| perm.ilog2())), BTreeSet::from_iter(9..32));
}

/// Full zones with any pointer, and pointers that the capacity bounds, come with all that can come of them.
#[test]
fn the_tapes_have_every_pointer() {
    let mut tally = Tally::default();
    tapes().iter().for_each(|generated| tally.count_tape(&generated.bytes));
    let missing = tally.missing();
    let never: Vec<&str> = CASE_NAMES.into_iter().filter(|name| missing.iter().any(|m| m == name)).collect();
    assert!(never.is_empty(), "never came: {never:?}");
}

/// Files are busy at the same time in every way that matters.
#[test]
fn the_tapes_have_every_case_of_busy_files() {
    let mut busy = Busy::default();
    tapes().iter().for_each(|generated| busy.count_tape(&generated.bytes));
    assert!(busy.counts.iter().all(|&count| count > 0), "{:?}", busy.counts);
}

/// So are those of a long run, which has no read-only mount.
#[test]
fn a_long_run_has_busy_files() {
    let mut busy = Busy::default();
    busy.count_tape(&long(1, 4000, 0).unwrap());
    assert!(busy.counts[..7].iter().all(|&count| count >= 10), "{:?}", busy.counts);
    assert!(busy.counts[7] > 0, "{:?}", busy.counts);
    assert_eq!(busy.counts[8..], [0; 9]);
}

/// Every call is done in the end: a long run leaves nothing outstanding.
#[test]
fn a_long_run_ends_idle() {
    for seed in 1..=5 {
        let tape = long(seed, 50, 0).unwrap();
        let texts = play(&tape).into_iter().map(|line| line.text);
        let (mut issued, mut done) = (0, 0);
        for text in texts {
            let words: Vec<&str> = text.split(' ').collect();
            match words[..] {
                ["OK", _, _, "0", _] | ["NO", _, _, "7", _] => done += 1,
                [_, "0", letter, _, _] if letter.chars().all(char::is_alphabetic) => issued += 1,
                _ => {}
            }
        }
        assert!(issued > 0 && issued == done, "seed {seed}: {issued} issued, {done} done");
    }
}

/// A tape's end may be any part of a completion.
#[test]
fn completions_are_cut_at_every_place() {
    let mut cuts = BTreeSet::new();
    for index in 0..6000 {
        let mut end = Vec::new();
        broken::spoil_end(&mut Random::new(2, index), &mut end);
        for (mark, whole) in [("OK", 7), ("NO", 71)] {
            if end.starts_with(mark.as_bytes()) && end.len() < whole {
                cuts.insert((mark, end.len()));
            }
        }
    }
    let expected = (2..7).map(|length| ("OK", length)).chain((2..71).map(|length| ("NO", length)));
    assert_eq!(cuts, expected.collect());
}

/// On whole tapes too: each place of a good one, and of a failed one those where only a part of a name is missing.
#[test]
fn tapes_end_in_cut_completions() {
    let mut cuts = BTreeSet::new();
    for index in 0..1500 {
        let tape = broken::tape(&mut Random::new(1, index));
        let Some(Line { at, text }) = play(&tape).pop() else { continue };
        let rest = &tape[at..];
        if text == "?? 40" && (rest.starts_with(b"OK") || rest.starts_with(b"NO")) {
            cuts.insert((rest[0], rest.len()));
        }
    }
    for (mark, lengths) in [(b'O', 2..7), (b'N', 66..71)] {
        assert!(lengths.into_iter().all(|length| cuts.contains(&(mark, length))), "{cuts:?}");
    }
}

/// The reasons that came with 29, and those with 9 for files of each kind.
#[derive(Default)]
struct ReasonsSeen {
    zones: BTreeSet<u64>,
    cnv: BTreeSet<u64>,
    seq: BTreeSet<u64>,
}

impl Counter for ReasonsSeen {
    fn bad_zone(&mut self, _block: u64, _zones: &[Zone], _number: usize, reason: Reason) {
        self.zones.insert(reason.number());
    }

    fn failure(&mut self, failure: &Failure) {
        let Err(Refusal::RecordMismatch(reason)) = failure.answer else { return };
        let of_kind = match failure.held.kind {
            FileKind::Conventional => &mut self.cnv,
            FileKind::Sequential => &mut self.seq,
        };
        of_kind.insert(reason.number());
    }
}

/// No condition is too good for a conventional file, and no record on a tape is cut.
#[test]
fn the_tapes_have_every_reason_in_every_place() {
    let mut seen = ReasonsSeen::default();
    tapes().iter().for_each(|generated| seen.count_tape(&generated.bytes));
    assert_eq!(seen.zones, BTreeSet::from_iter(1..=7));
    assert_eq!(seen.cnv, BTreeSet::from_iter(2..=8));
    assert_eq!(seen.seq, BTreeSet::from_iter(2..=9));
}

/// Each reason comes together with the next one, so that a player with another order is found.
#[test]
fn the_tapes_have_every_order_of_reasons() {
    let mut reasons = Reasons::default();
    tapes().iter().for_each(|generated| reasons.count_tape(&generated.bytes));
    assert_eq!(reasons.missing(), Vec::<String>::new());
}

/// The tapes of checked runs have failures in all bytes that are true of a zone, and as many as their runs had.
#[test]
fn checked_runs_have_every_true_record() {
    let mut seen = BTreeSet::new();
    for (index, generated) in (1..).zip(&tapes()[..200]) {
        let compared = generated.check.as_ref().unwrap();
        // Other tapes have completions that are true of no disk.
        if compared.states == 0 {
            continue;
        }
        let mut failures = 0;
        for (record, text) in answered(&generated.bytes) {
            let digested = text.split(' ').nth(3) == Some("7");
            if let (Record::Failed(_, bytes), true) = (record, digested) {
                seen.insert((bytes[24], bytes[25]));
                failures += 1;
            }
        }
        assert_eq!(failures, compared.failures, "tape {index}");
    }
    let conventional = [(1, 0), (1, 13), (1, 15)];
    let sequential = |kind| [1, 2, 3, 4, 13, 14, 15].map(|condition| (kind, condition));
    let expected: Vec<(u8, u8)> = [&conventional[..], &sequential(2), &sequential(3)].concat();
    assert_eq!(seen, BTreeSet::from_iter(expected));
}

/// Every call comes with kinds that no file has, and is answered 1 then.
#[test]
fn kinds_above_one_are_on_the_tapes() {
    let mut counts = [0; 6];
    for generated in &tapes()[..150] {
        for (record, text) in answered(&generated.bytes) {
            let Record::Call(call) = record else { continue };
            if call.kind > 1 {
                assert_eq!(text, format!("{} 1", call.verb.mark()));
                let verbs = [Verb::Read, Verb::Write, Verb::Truncate, Verb::Flush, Verb::Open, Verb::Close];
                counts[verbs.iter().position(|&verb| verb == call.verb).unwrap()] += 1;
            }
        }
    }
    assert!(counts.iter().all(|&count| count > 0), "{counts:?}");
}

#[test]
fn missing_answers_are_named() {
    let mut tally = Tally::default();
    let all = tally.missing();
    assert!(all.contains(&"MO 29".to_string()) && all.contains(&"RD R".to_string()));
    assert!(CASE_NAMES.iter().all(|name| all.contains(&name.to_string())));
    let of_a_full_zone =
        ["a true record", "a true report"].map(|what| format!("{what} with another pointer of a full zone"));
    assert!(of_a_full_zone.iter().all(|name| all.contains(name)));
    tally.count_line("MO 29 3 7");
    tally.count_line("RD 0 R 512 7");
    tally.count_line("OK 1 3 0 5");
    let missing = tally.missing();
    assert_eq!(missing.len(), all.len() - 3);
    tally.pointers.counts = [0, 1, 1, 1, 1, 1, 1, 1, 1];
    assert_eq!(tally.missing().len(), all.len() - 11);
    assert!(tally.missing().contains(&"a call on a file mounted with a stray pointer".to_string()));
    assert!(tally.summary().contains(", pointers 0/1/1/1/1/1/1/1/1, "));
    assert!(!missing.contains(&"MO 29".to_string()) && !missing.contains(&"RD R".to_string()));
    assert_eq!(
        tally.summary().split(", nonzero").next(),
        Some("0 tapes, 3 lines alike (MO 29=1; OK 0=1; RD R=1)")
    );
}

#[test]
fn a_long_run_has_exactly_the_calls_asked_for() {
    for calls in [0, 1, 2, 399, 400, 401, 1000] {
        let tape = long(3, calls, 0).unwrap();
        assert_eq!(calls_on(&tape), calls as usize);
        assert_eq!(tape, long(3, calls, 0).unwrap());
    }
    assert_ne!(long(3, 100, 0), long(4, 100, 0));
}

/// The padding changes the length byte of the options and what stands behind them, and no answer.
#[test]
fn padding_shifts_what_follows_the_mount() {
    let plain = long(2, 300, 0).unwrap();
    let options_at = plain.windows(3).position(|bytes| bytes == b"MO\x1B").unwrap() + 3;
    let (front, rest) = plain.split_at(options_at + 27);
    for pad in [1, 7, MAX_PAD] {
        let padded = long(2, 300, pad).unwrap();
        let mut expected = front.to_vec();
        expected[options_at - 1] = 27 + pad as u8;
        expected.resize(front.len() + pad as usize, b',');
        expected.extend_from_slice(rest);
        assert!(padded == expected, "padding {pad}");
        let answers = |tape: &[u8]| -> Vec<String> { play(tape).into_iter().map(|line| line.text).collect() };
        assert_eq!(answers(&plain), answers(&padded));
    }
}

/// In every tenth of a long run files are read, written, reset, finished and flushed, fail and recover.
#[test]
fn a_long_run_stays_lively() {
    const LIVELY: [(&str, &str); 13] = [
        ("RD", "R"),
        ("WR", "W"),
        ("WR", "6"),
        ("TR", "Z"),
        ("TR", "F"),
        ("FL", "S"),
        ("OP", "O"),
        ("OP", "D"),
        ("CL", "C"),
        ("CL", "D"),
        ("CL", "13"),
        ("OK", "0"),
        ("NO", "7"),
    ];
    for seed in 1..=3 {
        let lines = play(&long(seed, 6000, 0).unwrap());
        for (number, tenth) in lines.chunks_exact(lines.len() / 10).enumerate() {
            let mut tally = Tally::default();
            tenth.iter().for_each(|line| tally.count_line(&line.text));
            for (mark, answer) in LIVELY {
                let count = tally.count(mark, Some(answer));
                assert!(count > 0, "no {mark} {answer} in tenth {number} of seed {seed}");
            }
        }
    }
}

/// Opens and closes come with all that can come of them, but for the 65,536th open, which one tape in a thousand has.
#[test]
fn the_tapes_have_every_case_of_openings() {
    let mut openings = Openings::default();
    tapes().iter().for_each(|generated| openings.count_tape(&generated.bytes));
    let never = || (1..).zip(openings.counts).filter(|(_, count)| *count == 0).map(|(number, _)| number);
    assert_eq!(never().collect::<Vec<u32>>(), [26]);
}

/// The one tape in a thousand, whichever seed: its file gets every open that it can have, and 14 from then on.
#[test]
fn one_tape_in_a_thousand_has_too_many_opens() {
    for seed in 1..=3 {
        let generated = generate(seed, 500);
        assert!(generated.check.unwrap().accounts > 65_536);
        assert!((1_500_000..1_600_000).contains(&generated.bytes.len()), "{}", generated.bytes.len());
        let mut tally = Tally::default();
        play(&generated.bytes).iter().for_each(|line| tally.count_line(&line.text));
        assert!(tally.count("OP", Some("14")) >= 3, "{}", tally.summary());
        assert!(tally.count("OP", Some("D")) + tally.count("OP", Some("O")) >= 65_536);
        assert!(tally.count("OP", Some("2")) >= 1);
    }
    let longest = tapes().iter().map(|generated| generated.bytes.len()).max().unwrap();
    assert!(longest < 200_000, "{longest}");
}

/// With the option and without, the limits are none, low, met by the mount or below what it gives, and high.
#[test]
fn good_mounts_have_limits_of_every_sort() {
    let mut seen = BTreeSet::new();
    for index in 0..600 {
        let mut random = Random::new(4, index);
        let shape = shape::shape(&mut random);
        let volume = mount_volume(&shape::input(&mut random, &shape)).unwrap();
        let (account, option) = (volume.account, volume.mount.explicit_open);
        for (name, number, limit) in
            [("open", account.open, account.open_limit), ("active", account.active, account.active_limit)]
        {
            let sort = match limit {
                0 => "none",
                _ if limit < number => "passed",
                _ if limit == number => "met",
                1 | 2 => "low",
                u32::MAX => "highest",
                _ => "other",
            };
            seen.insert((option, name, sort));
        }
    }
    for option in [false, true] {
        for sort in ["none", "low", "highest", "other"] {
            assert!(
                seen.contains(&(option, "open", sort)) && seen.contains(&(option, "active", sort)),
                "{sort}"
            );
        }
        assert!(seen.contains(&(option, "active", "met")) && seen.contains(&(option, "active", "passed")));
    }
}

/// The piece stands first, last and between, once and again, also in texts of 255 bytes; cut, misspelt and doubled ones are
/// refused.
#[test]
fn options_have_explicit_open_in_every_place() {
    let (mut seen, mut bad) = (BTreeSet::new(), BTreeSet::new());
    for index in 0..3000 {
        let mut random = Random::new(5, index);
        let text = String::from_utf8(shape::shape(&mut random).options).unwrap();
        let pieces: Vec<&str> = text.split(',').filter(|piece| !piece.is_empty()).collect();
        let place = |piece: Option<&&str>| piece == Some(&"explicit-open");
        let count = pieces.iter().filter(|&&piece| piece == "explicit-open").count();
        seen.insert((place(pieces.first()), place(pieces.last()), count.min(2)));
        assert!(text.len() <= 255);
        if text.len() == 255 && count > 0 {
            seen.insert((true, true, 255));
        }
        let text = refused::bad_options(&mut Random::new(6, index));
        assert_eq!(parse(&text), Err(Refusal::Options));
        bad.insert(text);
    }
    let places = [(false, false, 0), (false, false, 1), (true, false, 1), (false, true, 1), (true, true, 1)];
    let others = [(true, true, 2), (false, true, 2), (true, false, 2), (true, true, 255)];
    assert!(places.iter().chain(&others).all(|place| seen.contains(place)), "{seen:?}");
    for length in 1..13 {
        assert!(bad.contains(&b"explicit-open"[..length]), "{length}");
    }
    for text in ["Explicit-open", "explicit-open ", "explicit-openx", "explicit-openexplicit-open"] {
        assert!(bad.contains(text.as_bytes()), "{text}");
    }
}

/// MO is cut at every place of its limits.
#[test]
fn tapes_end_in_cut_limits() {
    let mut missing = BTreeSet::new();
    for index in 0..1500 {
        let tape = broken::tape(&mut Random::new(1, index));
        let Some(Line { at, text }) = play(&tape).pop() else { continue };
        let rest = &tape[at..];
        if text == "?? 40" && rest.starts_with(b"MO") && rest.len() > 2 {
            missing.insert((3 + usize::from(rest[2]) + 8).saturating_sub(rest.len()));
        }
    }
    assert!((1..=8).all(|bytes| missing.contains(&bytes)), "{missing:?}");
}

/// A long run opens and closes files, with limits that nothing meets.
#[test]
fn a_long_run_opens_and_closes() {
    let tape = long(1, 4000, 0).unwrap();
    let (_, input) = read_input(&mut Reader::new(&tape)).unwrap();
    assert_eq!((input.open_limit, input.active_limit), (1022, u32::MAX));
    let mut tally = Tally::default();
    play(&tape).iter().for_each(|line| tally.count_line(&line.text));
    for (mark, answer) in
        [("OP", "O"), ("OP", "D"), ("OP", "4"), ("CL", "C"), ("CL", "D"), ("CL", "13"), ("WR", "13")]
    {
        assert!(tally.count(mark, Some(answer)) >= 10, "{mark} {answer}");
    }
    assert_eq!(tally.count("OP", Some("11")) + tally.count("OP", Some("12")), 0);
}
