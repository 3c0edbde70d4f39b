//! Option texts of any bytes and any length against the reference, by the whole mount and by the mount in pieces: number, all answer words,
//! mount words and account words, both tables.

use reference::generator::option_texts::{cut_texts, WORDS};
use reference::generator::random::Random;
use reference::player::mount::Input;
use reference::player::options::parse;
use reference::program::option_counts::OptionCounts;
use reference::program::options::policy_number;
use reference::program::tally::counts_text;
use zonefs::words::{
    self, ACCOUNT_WORDS, ANSWER_WORDS, MOUNT_EXPLICIT_OPEN, MOUNT_POLICY, MOUNT_WORDS, PIECES_WORDS,
};

use crate::events::{answer_after, check_mount, Lent};
use crate::mounting_input;

const TEXTS: usize = 20_000;
const BAD_OPTIONS: u64 = 27;

/// A small disk that every text is put to, and how many rows its files need.
struct Disk {
    input: Input,
    rows: usize,
}

impl Disk {
    /// Mounts of generated tapes, which are good but for what a text puts in the place of their options.
    fn some() -> Vec<Disk> {
        let disk = |input: Input| Disk { rows: input.report.len() / words::ZONE_BYTES, input };
        (0..)
            .filter_map(|index| mounting_input(40, index))
            .map(disk)
            .filter(|disk| disk.rows <= 8)
            .take(6)
            .collect()
    }

    fn with(&self, text: &[u8]) -> Input {
        Input { options: text.to_vec(), ..self.input.clone() }
    }
}

fn any_words(random: &mut Random, count: usize) -> Vec<u64> {
    (0..count).map(|_| random.word()).collect()
}

/// The library's mount in pieces, where begin alone reads the options. Gives the number that it comes to.
fn ask_pieces(random: &mut Random, input: &Input, lent: &mut Lent) -> u64 {
    let Input { block, super_block, report, options, open_limit, active_limit } = input;
    let mut pieces = any_words(random, PIECES_WORDS);
    let answer_before = lent.answer.clone();
    let (block, text) = (u64::from(*block), options.escape_ascii());
    let number =
        words::begin(block, super_block, options, *open_limit, *active_limit, &mut pieces, &mut lent.answer);
    assert_eq!(lent.answer, answer_after(&answer_before, &[]), "begin has no values: {text}");
    let Lent { mount, account, cnv, seq, answer } = lent;
    if number != 0 {
        // What it leaves is no mount that was begun.
        assert_eq!(words::piece(&mut pieces, report, cnv, seq, answer), 10, "{text}");
        assert_eq!(words::end(&mut pieces, mount, account, answer), 10, "{text}");
        return number;
    }
    let (front, back) = report.split_at(random.below(report.len() as u64 + 1) as usize);
    for bytes in [front, back] {
        assert_eq!(words::piece(&mut pieces, bytes, cnv, seq, answer), 0, "{text}");
    }
    words::end(&mut pieces, mount, account, answer)
}

/// The mount in pieces gives what the whole one has left; where its begin refuses, it writes nothing but the answer.
fn check_pieces(random: &mut Random, input: &Input, before: &Lent, number: u64, whole: &Lent) {
    let (mut lent, text) = (before.clone(), input.options.escape_ascii());
    assert_eq!(ask_pieces(random, input, &mut lent), number, "{text}");
    let expected =
        if number == 0 { whole.clone() } else { Lent { answer: whole.answer.clone(), ..before.clone() } };
    assert_eq!(lent, expected, "{text}");
}

/// Both mounts with this text, and both against the reference.
fn check_text(random: &mut Random, disk: &Disk, text: &[u8]) {
    let (input, before) = (disk.with(text), Lent::any(random, disk.rows));
    let mut whole = before.clone();
    let number = check_mount(&mut whole, &input);
    // What the comparison of all words comes to, said once more of those that this is about.
    let shown = text.escape_ascii();
    match parse(text) {
        Ok(options) => {
            assert_eq!(number, 0, "{shown}");
            let asked = [policy_number(options.policy) as u64, u64::from(options.explicit_open)];
            assert_eq!([whole.mount[MOUNT_POLICY], whole.mount[MOUNT_EXPLICIT_OPEN]], asked, "{shown}");
        }
        Err(_) => {
            assert_eq!(number, BAD_OPTIONS, "{shown}");
            let nothing = [vec![0; MOUNT_WORDS], vec![0; ACCOUNT_WORDS], vec![0; ANSWER_WORDS]];
            assert_eq!([&whole.mount, &whole.account, &whole.answer], nothing.each_ref(), "{shown}");
        }
    }
    check_pieces(random, &input, &before, number, &whole);
}

/// Every word with another byte at each place, and with a byte put in at each place: each step from a byte to the next shows.
fn words_with_any_byte() -> impl Iterator<Item = Vec<u8>> {
    let places = WORDS.into_iter().flat_map(|word| (0..=word.len()).map(move |place| (word, place)));
    let bytes = places.flat_map(|place| (0..=u8::MAX).map(move |byte| (place, byte)));
    bytes.flat_map(|((word, place), byte)| {
        let put_in = [&word[..place], &[byte], &word[place..]].concat();
        let mut changed = word.to_vec();
        changed.splice(place..word.len().min(place + 1), [byte]);
        [put_in, changed]
    })
}

/// The beginning of each word with the rest of each from any place on.
fn words_with_any_rest() -> impl Iterator<Item = Vec<u8>> {
    let cuts = || WORDS.into_iter().flat_map(|word| (0..=word.len()).map(move |place| (word, place)));
    cuts().flat_map(move |(one, begun)| cuts().map(move |(other, on)| [&one[..begun], &other[on..]].concat()))
}

#[test]
fn option_texts_give_the_same() {
    let (disks, mut counts, mut systematic) = (Disk::some(), OptionCounts::default(), 0);
    for (index, text) in cut_texts(41).take(TEXTS).enumerate() {
        check_text(&mut Random::new(42, index as u64), &disks[index % disks.len()], &text.whole());
        counts.count(&text);
    }
    for (index, text) in words_with_any_byte().chain(words_with_any_rest()).enumerate() {
        check_text(&mut Random::new(43, index as u64), &disks[0], &text);
        systematic += 1;
    }
    assert_eq!(counts.missing(), [""; 0], "the texts never led to these: {counts}");
    let OptionCounts { texts, plain, explicit, refused, .. } = counts;
    println!(
        "option texts: {texts} of any sort (good {} and with explicit-open {}, refused {refused}) and {systematic} of words with any byte or \
         any rest, each with the whole mount and with the one in pieces; all as the reference has them",
        counts_text(&plain),
        counts_text(&explicit)
    );
}
