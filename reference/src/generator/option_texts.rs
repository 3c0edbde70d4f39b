//! Option texts of any bytes and any length, cut from, mixed and mutated out of the words. One that reads a text byte by byte may go
//! wrong where words share a beginning, where a piece ends, and at the most bytes that a text may have.

use super::option_cuts::CutText;
use super::random::Random;
use crate::player::options::MAX_LENGTH;

/// All that a piece may be.
pub const WORDS: [&[u8]; 5] =
    [b"errors=remount-ro", b"errors=zone-ro", b"errors=zone-offline", b"errors=repair", b"explicit-open"];

/// Bytes behind a word, each alone: the one that may be there, those that begin or end a word or are within one, and some that are in none.
const MORE: [u8; 14] = *b",eorn=- \n\0E\x7F\xAC\xFF";

/// Lengths above the most that every list begins with: some that are the most, or less, once the higher bits of a length are lost.
const LONG: [usize; 8] = [257, 300, 511, 512, 1_000, 65_535, 65_536, 65_791];
/// Others that come now and then.
const LONGER: [usize; 7] = [258, 767, 768, 1_001, 4_096, 4_097, 9_000];
const LONGEST: [usize; 4] = [65_537, 65_792, 65_900, 66_000];

/// The texts of a seed. All lists begin with the same ones; of the others each follows from the seed and its number alone.
pub fn cut_texts(seed: u64) -> impl Iterator<Item = CutText> {
    let first = first_texts();
    let others = first.len() as u64..;
    first.into_iter().chain(others.map(move |number| any_text(seed, number)))
}

/// Those that every list begins with, so that none is left to chance.
pub fn first_texts() -> Vec<CutText> {
    let mut texts = vec![CutText::nothing(), CutText::uncut(b"")];
    for word in WORDS {
        texts.extend(CutText::everywhere(word));
        texts.extend((1..word.len()).map(|length| CutText::uncut(&word[..length])));
        texts.extend(MORE.map(|byte| CutText::uncut(&[word, &[byte]].concat())));
        texts.extend(one_byte_off(word).iter().map(|text| CutText::uncut(text)));
        texts.extend(all_crossed(word).iter().map(|text| CutText::uncut(text)));
        // Run together, with one in each part: the end of a part ends no piece.
        texts.extend(WORDS.map(|other| CutText::at(&[word, other].concat(), &[word.len()])));
    }
    for length in [MAX_LENGTH, MAX_LENGTH + 1] {
        texts.extend(CutText::everywhere(&all_words(length)));
    }
    for length in LONG {
        texts.push(CutText::uncut(&all_words(length)));
        texts.push(CutText::uncut(&vec![b','; length]));
    }
    texts
}

/// Each of its bytes changed, left out and doubled: one that isn't looked at shows.
fn one_byte_off(word: &[u8]) -> Vec<Vec<u8>> {
    let with = |place: usize, bytes: &[u8]| [&word[..place], bytes, &word[place + 1..]].concat();
    let of_byte = |place: usize| {
        let byte = word[place];
        [with(place, &[byte ^ 1]), with(place, &[]), with(place, &[byte, byte])]
    };
    (0..word.len()).flat_map(of_byte).collect()
}

/// More of the word than it shares with another, and then the other's rest behind what they share, or behind one byte more.
fn all_crossed(word: &[u8]) -> Vec<Vec<u8>> {
    let mut texts = Vec::new();
    for other in WORDS.into_iter().filter(|other| *other != word) {
        let fork = shared(word, other);
        for begun in fork + 1..=word.len() {
            texts.push([&word[..begun], &other[fork..]].concat());
            texts.push([&word[..begun], &other[fork + 1..]].concat());
        }
    }
    texts
}

/// The words in turn, over and over, the last up to the last byte; with as many commas before them as are needed.
fn all_words(length: usize) -> Vec<u8> {
    let turn = WORDS.join(&b',');
    let times = (length + 1) / (turn.len() + 1);
    let words = vec![turn; times].join(&b',');
    [vec![b','; length - words.len()], words].concat()
}

fn any_text(seed: u64, number: u64) -> CutText {
    let mut random = Random::new(seed, number);
    let text = text(&mut random);
    CutText::anyhow(&mut random, &text)
}

fn text(random: &mut Random) -> Vec<u8> {
    match random.weighted(&[340, 90, 340, 80, 40, 50, 40, 20]) {
        0 => {
            let count = random.pick(&[0, 1, 1, 2, 2, 3, 3, 4, 6, 9]);
            let words: Vec<Vec<u8>> = (0..count).map(|_| word(random)).collect();
            joined(random, &words)
        }
        1 => {
            let length = MAX_LENGTH - 1 + random.pick(&[0, 1, 1, 1, 2, 2, 3]);
            with_length(random, length)
        }
        2 => with_bad_pieces(random),
        3 => spoilt_at_the_end(random),
        4 => noise(random),
        5 => noisy_words(random),
        6 => vec![b','; random.pick(&[0, 1, 2, 5, 17, 254, 255, 255, 256, 257, 300])],
        _ => too_long(random),
    }
}

fn word(random: &mut Random) -> Vec<u8> {
    random.pick(&WORDS).to_vec()
}

/// Pieces with any number of commas before, between and behind them.
fn joined(random: &mut Random, pieces: &[Vec<u8>]) -> Vec<u8> {
    let mut text = vec![b','; random.pick(&[0, 0, 0, 1, 2, 5])];
    for (number, piece) in pieces.iter().enumerate() {
        let commas = random.pick(&[1, 1, 1, 1, 2, 3]);
        text.resize(text.len() + if number == 0 { 0 } else { commas }, b',');
        text.extend(piece);
    }
    text.resize(text.len() + random.pick(&[0, 0, 0, 1, 2, 5]), b',');
    text
}

/// Words and commas, exactly so many bytes.
fn with_length(random: &mut Random, length: usize) -> Vec<u8> {
    let most = random.pick(&[1, 3, 8, usize::MAX, usize::MAX, usize::MAX]);
    let (mut words, mut bytes) = (Vec::new(), 0);
    while words.len() < most {
        let word = word(random);
        let with_it = bytes + word.len() + usize::from(!words.is_empty());
        if with_it > length {
            break;
        }
        bytes = with_it;
        words.push(word);
    }
    // The commas that are left go before the words, behind them, or into the gaps; mostly the last word ends with the text.
    let mut commas = vec![1; words.len() + 1];
    (commas[0], commas[words.len()]) = (0, 0);
    let places = if random.percent(70) { words.len().max(1) } else { words.len() + 1 };
    let together = random.percent(50).then(|| random.below(places as u64) as usize);
    for _ in bytes..length {
        commas[together.unwrap_or_else(|| random.below(places as u64) as usize)] += 1;
    }
    let mut text = vec![b','; commas[0]];
    for (word, commas) in words.iter().zip(&commas[1..]) {
        text.extend(word);
        text.resize(text.len() + commas, b',');
    }
    text
}

/// Words and at least one piece that is hardly any: at the end, at the beginning, anywhere among them, or several.
fn with_bad_pieces(random: &mut Random) -> Vec<u8> {
    let count = random.pick(&[0, 0, 1, 1, 2, 3, 5]);
    let mut pieces: Vec<Vec<u8>> = (0..count).map(|_| word(random)).collect();
    for _ in 0..random.pick(&[1, 1, 1, 1, 2]) {
        let anywhere = random.below(pieces.len() as u64 + 1) as usize;
        let place = random.pick(&[0, anywhere, pieces.len(), pieces.len()]);
        pieces.insert(place, spoilt_word(random));
    }
    joined(random, &pieces)
}

/// A piece that looks like a word. Seldom it is one after all, or several pieces.
fn spoilt_word(random: &mut Random) -> Vec<u8> {
    let mut word = word(random);
    let place = random.below(word.len() as u64) as usize;
    match random.weighted(&[14, 6, 5, 10, 6, 6, 16, 7, 18, 6, 6]) {
        0 => word.truncate(place.max(1)),
        1 => drop(word.drain(..place.max(1))),
        2 => word = word[place..random.between(place as u64, word.len() as u64) as usize].to_vec(),
        3 => word.insert(random.between(0, word.len() as u64) as usize, any_byte(random)),
        4 => drop(word.remove(place)),
        5 => word.insert(place, word[place]),
        6 => word[place] = other_byte(random, word[place]),
        7 => word.extend(self::word(random)),
        8 => word = crossed(random),
        9 => change_case(random, &mut word),
        _ => word.push(any_byte(random)),
    }
    word
}

/// Any byte, and more often one that others may take for another or for none.
fn any_byte(random: &mut Random) -> u8 {
    let any = random.word() as u8;
    let word = word(random);
    let of_word = random.pick(&word);
    random.pick(&[any, of_word, of_word, 0, b',', b' ', b'=', any | 0x80, of_word | 0x80])
}

fn other_byte(random: &mut Random, byte: u8) -> u8 {
    let flipped = byte ^ 1 << random.below(8);
    random.pick(&[flipped, flipped, flipped, byte ^ 0x80, 0, b',', 0xFF])
}

fn change_case(random: &mut Random, word: &mut [u8]) {
    if random.percent(30) {
        return word.make_ascii_uppercase();
    }
    let letters: Vec<usize> = (0..word.len()).filter(|&place| word[place].is_ascii_alphabetic()).collect();
    word[random.pick(&letters)].make_ascii_uppercase();
}

/// How many bytes two words begin with alike.
pub fn shared(one: &[u8], other: &[u8]) -> usize {
    one.iter().zip(other).take_while(|(one, other)| one == other).count()
}

/// Begins as a word and goes on as another: behind what they share, behind one byte more, or anywhere.
fn crossed(random: &mut Random) -> Vec<u8> {
    let (one, other) = (word(random), word(random));
    let fork = shared(&one, &other).min(one.len() - 1);
    let begun = random.between(fork as u64 + 1, one.len() as u64) as usize;
    let anywhere = random.below(other.len() as u64) as usize;
    let on = random.pick(&[fork, fork, (fork + 1).min(other.len()), anywhere]);
    [&one[..begun], &other[on..]].concat()
}

/// Around the most bytes: the last of them, or the one behind them, makes the last word or spoils it.
fn spoilt_at_the_end(random: &mut Random) -> Vec<u8> {
    let length = MAX_LENGTH - 1 + random.pick(&[0, 1, 1, 1, 2, 2, 3]);
    let mut text = with_length(random, length);
    match random.below(4) {
        0 => drop(text.pop()),
        1 => text.push(any_byte(random)),
        _ => text[length - 1] = other_byte(random, text[length - 1]),
    }
    text
}

fn noise(random: &mut Random) -> Vec<u8> {
    let length = random.pick(&[1, 1, 2, 3, 5, 13, 17, 40, 254, 255, 256, 300]);
    let mut bytes = vec![0; length];
    match random.below(4) {
        0 => random.fill(&mut bytes),
        1 => bytes.fill(random.pick(&[0, 0, 0xFF, 0xAC, b'e', b'='])),
        2 => bytes.fill_with(|| random.pick(b"errors=xplicit-open,")),
        _ => bytes.fill_with(|| random.pick(b",,,,\0\xFFer")),
    }
    bytes
}

/// Good pieces with some bytes put in or changed anywhere, also those between the pieces.
fn noisy_words(random: &mut Random) -> Vec<u8> {
    let words: Vec<Vec<u8>> = (0..random.between(1, 4)).map(|_| word(random)).collect();
    let mut text = joined(random, &words);
    for _ in 0..random.between(1, 3) {
        let place = random.below(text.len() as u64) as usize;
        if random.percent(50) {
            text.insert(place, any_byte(random));
        } else {
            text[place] = other_byte(random, text[place]);
        }
    }
    text
}

fn too_long(random: &mut Random) -> Vec<u8> {
    let lengths = if random.percent(10) { &LONGEST[..] } else { &LONGER };
    let length = random.pick(lengths);
    match random.below(4) {
        0 => vec![b','; length],
        1 | 2 => with_length(random, length),
        _ => {
            // Good up to the most bytes.
            let mut text = with_length(random, MAX_LENGTH);
            text.resize_with(length, || random.word() as u8);
            text
        }
    }
}
