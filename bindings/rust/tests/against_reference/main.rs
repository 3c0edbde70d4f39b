//! The library, linked into this process, against the reference on random inputs, call by call: number, values, mount words, account words and
//! both tables, super blocks made and read, mounts in pieces, option texts; and the typed functions against those on words.

mod convert;
mod events;
mod formats;
mod inputs;
mod openings;
mod option_texts;
mod pieces;
mod situations;
mod typed;

use std::collections::BTreeMap;

use events::{ask_mount, check, check_mount, Event, Lent};
use inputs::{any_event, change_opens, damage, opening_event};
use reference::generator::generate;
use reference::generator::random::Random;
use reference::player::mount::Input;
use reference::player::play::{mount_volume, read_input};
use reference::player::tape::{Next, Reader};
use reference::player::types::{MAX_FILES, PLAYER_ROWS};
use situations::Situations;
use zonefs::words::{
    ACCOUNT_WORDS, ANSWER_RECORD_REASON, ANSWER_WORDS, ANSWER_ZONE_REASON, MOUNT_CNV_FILES, MOUNT_SEQ_FILES,
    MOUNT_WORDS,
};

/// The mount of a tape; None if it isn't there whole.
fn input_of(reader: &mut Reader) -> Option<Input> {
    read_input(reader).map(|(_, input)| input)
}

/// The mount of a generated tape, if it isn't refused and has seq files, no more than these tests lend rows for.
fn mounting_input(seed: u64, index: u64) -> Option<Input> {
    let input = input_of(&mut Reader::new(&generate(seed, index).bytes))?;
    let mount = mount_volume(&input).ok()?.mount;
    ((1..=60).contains(&mount.seq_files) && mount.cnv_files <= 60).then_some(input)
}

/// What the next record of a tape asks, if there is one.
fn tape_event(random: &mut Random, reader: &mut Reader) -> Option<Event> {
    let Next::Record(record) = reader.read() else { return None };
    Event::of_record(&record, || random.below(2) as u32)
}

/// How often each was answered.
type Counts = BTreeMap<u64, u64>;

/// The numbers, and the reasons of a bad zone and of a bad record.
#[derive(Default)]
struct Seen {
    numbers: Counts,
    zone_reasons: Counts,
    record_reasons: Counts,
}

impl Seen {
    fn note(&mut self, number: u64, answer: &[u64]) {
        *self.numbers.entry(number).or_default() += 1;
        match number {
            9 => *self.record_reasons.entry(answer[ANSWER_RECORD_REASON]).or_default() += 1,
            29 => *self.zone_reasons.entry(answer[ANSWER_ZONE_REASON]).or_default() += 1,
            _ => {}
        }
    }

    fn total(&self) -> u64 {
        self.numbers.values().sum()
    }
}

fn all_seen(what: &str, seen: &Counts, expected: &[u64]) {
    for one in expected {
        assert!(seen.contains_key(one), "the inputs never led to {what} {one}");
    }
}

/// The events of a tape after its mount.
fn play(lent: &mut Lent, reader: &mut Reader, seen: &mut Seen) {
    while let Next::Record(record) = reader.read() {
        let Some(event) = Event::of_record(&record, || 1) else { return };
        let number = check(lent, &event);
        seen.note(number, &lent.answer);
    }
}

#[test]
fn tapes_give_the_same() {
    let mut seen = Seen::default();
    for index in 0..3_000 {
        let bytes = generate(1, index).bytes;
        let mut reader = Reader::new(&bytes);
        let Some(input) = input_of(&mut reader) else { continue };
        let mut random = Random::new(2, index);
        let rows = random.pick(&[PLAYER_ROWS, 60, 60, 60, 60, 20, 2, 0]);
        let mut lent = Lent::any(&mut random, rows);
        let number = check_mount(&mut lent, &input);
        seen.note(number, &lent.answer);
        if number == 0 {
            play(&mut lent, &mut reader, &mut seen);
        }
    }
    all_seen("number", &seen.numbers, &[0, 1, 2, 3, 4, 5, 6, 7, 8, 9, 11, 12, 13, 14]);
    println!("tapes: {} mounts, calls and completions, all as the reference has them", seen.total());
    all_seen("number", &seen.numbers, &[20, 22, 23, 24, 25, 26, 27, 28, 29, 30, 33]);
    all_seen("a zone's reason", &seen.zone_reasons, &[1, 2, 3, 4, 5, 6, 7]);
    all_seen("a record's reason", &seen.record_reasons, &[2, 3, 4, 5, 6, 7, 8, 9]);
}

#[test]
fn any_words_give_the_same() {
    let mut seen = Seen::default();
    let mut met = Situations::default();
    let tapes: Vec<Vec<u8>> = (0..500).map(|index| generate(4, index).bytes).collect();
    for index in 0..30_000 {
        let mut random = Random::new(3, index as u64);
        let mut reader = Reader::new(&tapes[index % tapes.len()]);
        let Some(input) = input_of(&mut reader) else { continue };
        let mut lent = Lent::any(&mut random, 30);
        if check_mount(&mut lent, &input) != 0 {
            continue;
        }
        let steps = random.below(30);
        for _ in 0..steps {
            if random.percent(30) {
                damage(&mut random, &mut lent);
            }
            let from_tape = if random.percent(60) { tape_event(&mut random, &mut reader) } else { None };
            let event = from_tape.unwrap_or_else(|| any_event(&mut random, &lent));
            let before = lent.clone();
            let number = check(&mut lent, &event);
            seen.note(number, &lent.answer);
            met.note_event(&before, &event, number, &lent);
        }
    }
    met.all_met(situations::all());
    all_seen("number", &seen.numbers, &[0, 1, 2, 3, 4, 5, 6, 7, 8, 9, 10, 11, 12, 13, 14]);
    // Only here a record may have another length.
    all_seen("a record's reason", &seen.record_reasons, &[0]);
    println!("any words: {} calls and completions, all as the reference has them", seen.total());
    assert!(seen.total() > 100_000);
}

#[test]
fn any_opens_and_accounts_give_the_same() {
    let mut seen = Seen::default();
    let mut met = Situations::default();
    let inputs: Vec<Input> = (0..400).filter_map(|index| mounting_input(11, index)).collect();
    for index in 0..12_000 {
        let mut random = Random::new(10, index as u64);
        let mut lent = Lent::any(&mut random, 60);
        assert_eq!(check_mount(&mut lent, &inputs[index % inputs.len()]), 0);
        for _ in 0..random.below(30) {
            if random.percent(40) {
                change_opens(&mut random, &mut lent);
            }
            let event = opening_event(&mut random, &lent);
            let before = lent.clone();
            let number = check(&mut lent, &event);
            seen.note(number, &lent.answer);
            met.note_event(&before, &event, number, &lent);
        }
    }
    met.all_met(openings::all());
    println!("opens and accounts: {} calls and completions, all as the reference has them", seen.total());
}

#[test]
fn short_words_write_nothing() {
    for index in 0..2_000 {
        let mut random = Random::new(5, index);
        let bytes = generate(6, index % 200).bytes;
        let Some(input) = input_of(&mut Reader::new(&bytes)) else { continue };
        let mut lent = Lent::any(&mut random, 30);
        let longer = random.below(3) as usize;
        lent.answer.extend(vec![7; longer]);
        lent.mount.extend(vec![7; longer]);
        lent.account.extend(vec![7; longer]);
        check_mount(&mut lent, &input);
        let (words, whole) = match random.below(3) {
            0 => (&mut lent.answer, ANSWER_WORDS),
            1 => (&mut lent.mount, MOUNT_WORDS),
            _ => (&mut lent.account, ACCOUNT_WORDS),
        };
        words.truncate(random.below(whole as u64) as usize);
        let before = lent.clone();
        let event = any_event(&mut random, &lent);
        assert_eq!(check(&mut lent, &event), 10);
        assert_eq!(check_mount(&mut lent, &input), 10);
        assert_eq!(lent, before);
    }
}

/// An account word above 32 bits is refused by all but a mount, which doesn't read it.
#[test]
fn wide_accounts_write_nothing() {
    for index in 0..2_000 {
        let mut random = Random::new(9, index);
        let bytes = generate(6, index % 200).bytes;
        let Some(input) = input_of(&mut Reader::new(&bytes)) else { continue };
        let mut lent = Lent::any(&mut random, 30);
        let mounted = check_mount(&mut lent, &input);
        let wide = random.pick(&[1 << 32, (1 << 32) + 1, u64::MAX]);
        lent.account[random.below(ACCOUNT_WORDS as u64) as usize] = wide;
        let before = lent.clone();
        let event = any_event(&mut random, &lent);
        assert_eq!(check(&mut lent, &event), 10);
        assert_eq!(lent, before);
        assert_eq!(check_mount(&mut lent, &input), mounted);
    }
}

#[test]
fn blocks_above_sixteen_bits_are_refused() {
    let bytes =
        (0..).map(|index| generate(1, index).bytes).find_map(|tape| input_of(&mut Reader::new(&tape)));
    let input = bytes.expect("some tape has its four records");
    let mut random = Random::new(7, 0);
    for block in [0, 511, 65_536 + 512, (1 << 32) + 4096, u64::MAX] {
        let mut lent = Lent::any(&mut random, 30);
        assert_eq!(ask_mount(&mut lent, block, &input), 20);
    }
}

/// As many files of a kind as there can be, and one more: 10, though there are rows for it.
#[test]
fn more_than_the_most_files_are_impossible() {
    let input = (0..).find_map(|index| mounting_input(12, index)).expect("some tape mounts");
    let mut random = Random::new(15, 0);
    let mut lent = Lent::any(&mut random, MAX_FILES + 2);
    assert_eq!(check_mount(&mut lent, &input), 0);
    let mounted = lent.mount.clone();
    for count_at in [MOUNT_CNV_FILES, MOUNT_SEQ_FILES] {
        for (files, expected) in
            [(MAX_FILES - 1, 1), (MAX_FILES, 1), (MAX_FILES + 1, 10), (MAX_FILES + 2, 10)]
        {
            lent.mount = mounted.clone();
            lent.mount[count_at] = files as u64;
            assert_eq!(check(&mut lent, &Event::Find(b"nothing".to_vec())), expected, "{files} files");
        }
        // The last file that there can be is found, and its row is looked at: garbage.
        lent.mount = mounted.clone();
        lent.mount[count_at] = MAX_FILES as u64;
        let kind = u32::from(count_at == MOUNT_SEQ_FILES);
        assert_eq!(check(&mut lent, &Event::Show(kind, MAX_FILES as u32 - 1)), 10);
        assert_eq!(check(&mut lent, &Event::Show(kind, MAX_FILES as u32)), 1);
    }
}

/// The library takes eight bytes at a time: so inputs begin at every address modulo eight, and some are long.
#[test]
fn checksums_are_the_same() {
    for index in 0..20_000 {
        let mut random = Random::new(8, index);
        let begin = random.below(8) as usize;
        let most = if random.percent(3) { 5_000 } else { 299 };
        let length = random.between(0, most) as usize;
        let mut memory = vec![0; begin + length];
        random.fill(&mut memory);
        let bytes = &memory[begin..];
        let expected = reference::player::checksum::checksum(bytes);
        assert_eq!(zonefs::checksum(bytes), expected, "{length} bytes from place {begin}");
    }
}
