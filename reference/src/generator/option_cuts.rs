//! Option texts in parts. One that reads a text part by part may go wrong wherever a part ends.

use super::random::Random;

/// The most bytes of a part.
pub const PART_BYTES: usize = 4_096;
/// A text isn't cut at more places than this, so that its parts can be counted in two bytes.
const MOST_PLACES: usize = 1_000;

/// A text as it is handed over.
#[derive(Clone, Debug, PartialEq, Eq)]
pub struct CutText {
    pub parts: Vec<Vec<u8>>,
}

impl CutText {
    /// The text cut at these places, which are in order; at a place that is there twice a part is empty. A part that would be too long
    /// is cut further.
    pub fn at(text: &[u8], places: &[usize]) -> CutText {
        let bounds = [&[0], places, &[text.len()]].concat();
        let mut parts = Vec::new();
        for pair in bounds.windows(2) {
            let part = &text[pair[0]..pair[1]];
            if part.is_empty() {
                parts.push(Vec::new());
            }
            parts.extend(part.chunks(PART_BYTES).map(<[u8]>::to_vec));
        }
        CutText { parts }
    }

    /// In one part, unless it is too long for that.
    pub fn uncut(text: &[u8]) -> CutText {
        CutText::at(text, &[])
    }

    /// An empty text without even an empty part.
    pub fn nothing() -> CutText {
        CutText { parts: Vec::new() }
    }

    /// In two parts, once for each place: the first and the last leave one of them empty.
    pub fn everywhere(text: &[u8]) -> impl Iterator<Item = CutText> + '_ {
        (0..=text.len()).map(move |place| CutText::at(text, &[place]))
    }

    /// In parts of any sort.
    pub fn anyhow(random: &mut Random, text: &[u8]) -> CutText {
        if text.is_empty() && random.percent(50) {
            return CutText::nothing();
        }
        let mut places = places(random, text);
        if random.percent(25) {
            // A place that is there already makes an empty part, as both ends do.
            for _ in 0..random.between(1, 3) {
                let again = if places.is_empty() { 0 } else { random.pick(&places) };
                places.push(random.pick(&[again, again, 0, text.len()]));
            }
        }
        places.sort_unstable();
        CutText::at(text, &places)
    }

    pub fn whole(&self) -> Vec<u8> {
        self.parts.concat()
    }
}

fn places(random: &mut Random, text: &[u8]) -> Vec<usize> {
    let anywhere = |random: &mut Random| random.below(text.len() as u64 + 1) as usize;
    match random.weighted(&[14, 22, 12, 16, 12, 12, 12]) {
        0 => Vec::new(),
        1 => vec![anywhere(random)],
        2 if text.len() <= MOST_PLACES => (1..text.len()).collect(),
        2 | 3 => (0..random.between(2, 8)).map(|_| anywhere(random)).collect(),
        4 => some(random, places_where(text, |_, after| after == b',')),
        5 => some(random, places_where(text, |before, _| before == b',')),
        _ => some(random, places_where(text, |before, after| before != b',' && after != b',')),
    }
}

/// The places between two bytes that are wanted so.
fn places_where(text: &[u8], wanted: fn(u8, u8) -> bool) -> Vec<usize> {
    let pairs = (1..).zip(text.windows(2));
    pairs.filter(|(_, pair)| wanted(pair[0], pair[1])).map(|(place, _)| place).collect()
}

/// One of them, a few, or all.
fn some(random: &mut Random, places: Vec<usize>) -> Vec<usize> {
    if places.is_empty() || (places.len() <= MOST_PLACES && random.percent(20)) {
        return places;
    }
    (0..random.pick(&[1, 1, 2, 4])).map(|_| random.pick(&places)).collect()
}
