//! What came of the option texts: what they ask for, and the edges at which one that reads them byte by byte and part by part may go wrong.

use std::collections::BTreeSet;
use std::fmt::{self, Display, Formatter};
use std::ops::Range;

use super::options::policy_number;
use super::tally::counts_text;
use crate::disk::consistency::add_each;
use crate::generator::option_cuts::CutText;
use crate::generator::option_texts::{shared, WORDS};
use crate::player::options::{parse, Options, MAX_LENGTH};
use crate::player::types::Refusal;

/// The only word that isn't a policy.
const EXPLICIT_OPEN: &[u8] = b"explicit-open";
const POLICY_NAMES: [&str; 4] = ["remount-ro", "zone-ro", "zone-offline", "repair"];

/// So many edges are counted.
pub const EDGES: usize = 24;
/// What they are. Pieces are those that aren't empty; a word is one of the five that a piece may be. The last ten are of texts with at most 255
/// bytes, and those of them that name a piece of texts in which it is the only one that isn't a word.
pub const EDGE_NAMES: [&str; EDGES] = [
    "good with 255 bytes",
    "good of commas alone",
    "good with a policy that a later one overrides",
    "good with explicit-open before a policy",
    "good with explicit-open behind a policy",
    "good in no part at all",
    "good with an empty part",
    "good in single bytes",
    "good cut within a word",
    "good cut right before a comma",
    "good cut right behind a comma",
    "refused with 256 bytes of words and commas",
    "refused above 1,000 bytes of words and commas",
    "refused above 65,535 bytes of words and commas",
    "refused with a word as the last piece",
    "refused by the last of several pieces, no comma behind it",
    "refused by the last of several pieces, a comma behind it",
    "refused by the beginning of a word at the end",
    "refused by the beginning of a word before a comma",
    "refused by a word with more behind it",
    "refused by a word that goes on as another",
    "refused by a piece with a zero byte",
    "refused by a piece with a high byte",
    "refused by a piece that is cut",
];

#[derive(Clone, Debug, Default, PartialEq, Eq)]
pub struct OptionCounts {
    pub texts: u64,
    pub parts: u64,
    /// Good ones by the policy's number: without explicit-open, and with it.
    pub plain: [u64; 4],
    pub explicit: [u64; 4],
    pub refused: u64,
    pub edges: [u64; EDGES],
}

impl OptionCounts {
    pub fn count(&mut self, cut: &CutText) {
        let text = cut.whole();
        let answer = parse(&text);
        self.texts += 1;
        self.parts += cut.parts.len() as u64;
        match answer {
            Ok(Options { policy, explicit_open: false }) => self.plain[policy_number(policy)] += 1,
            Ok(Options { policy, explicit_open: true }) => self.explicit[policy_number(policy)] += 1,
            Err(_) => self.refused += 1,
        }
        let case = Case::new(&text, &cut.parts, answer);
        let edges =
            [&case.good_edges()[..], &case.cut_edges(), &case.long_edges(), &case.bad_edges()].concat();
        add_each(&mut self.edges, &edges.into_iter().map(u64::from).collect::<Vec<_>>());
    }

    /// What never came.
    pub fn missing(&self) -> Vec<String> {
        let never = |(_, count): &(&&str, u64)| *count == 0;
        let policies = |counts: [u64; 4], with: &'static str| {
            let missing = POLICY_NAMES.iter().zip(counts).filter(never);
            missing.map(move |(name, _)| format!("{name} {with} explicit-open"))
        };
        let refused = (self.refused == 0).then(|| "27".to_string());
        let edges = EDGE_NAMES.iter().zip(self.edges).filter(never);
        let good = policies(self.plain, "without").chain(policies(self.explicit, "with"));
        good.chain(refused).chain(edges.map(|(name, _)| name.to_string())).collect()
    }
}

/// One line on them.
impl Display for OptionCounts {
    fn fmt(&self, out: &mut Formatter) -> fmt::Result {
        write!(
            out,
            "{} texts in {} parts, good {} and with explicit-open {}, refused {}, edges {}",
            self.texts,
            self.parts,
            counts_text(&self.plain),
            counts_text(&self.explicit),
            self.refused,
            counts_text(&self.edges)
        )
    }
}

fn is_word(piece: &[u8]) -> bool {
    WORDS.contains(&piece)
}

fn begins_a_word(piece: &[u8]) -> bool {
    WORDS.iter().any(|word| word.len() > piece.len() && word.starts_with(piece))
}

fn goes_past_a_word(piece: &[u8]) -> bool {
    WORDS.iter().any(|word| word.len() < piece.len() && piece.starts_with(word))
}

/// More of a word than it shares with another, and then the other's rest behind what they share.
fn goes_on_as_another(piece: &[u8]) -> bool {
    let crossed = |one: &[u8], other: &[u8]| {
        let fork = shared(one, other);
        let begun = piece.strip_suffix(&other[fork..]);
        one != other && begun.is_some_and(|begun| begun.len() > fork && one.starts_with(begun))
    };
    WORDS.iter().any(|one| WORDS.iter().any(|other| crossed(one, other)))
}

/// A text, and what it is made of.
struct Case<'a> {
    text: &'a [u8],
    parts: &'a [Vec<u8>],
    answer: Result<Options, Refusal>,
    pieces: Vec<Range<usize>>,
    /// The places within the text where a part ends.
    cuts: BTreeSet<usize>,
}

impl<'a> Case<'a> {
    fn new(text: &'a [u8], parts: &'a [Vec<u8>], answer: Result<Options, Refusal>) -> Case<'a> {
        let mut pieces = Vec::new();
        let mut start = 0;
        for piece in text.split(|&byte| byte == b',') {
            if !piece.is_empty() {
                pieces.push(start..start + piece.len());
            }
            start += piece.len() + 1;
        }
        let ends = parts.iter().scan(0, |end, part| {
            *end += part.len();
            Some(*end)
        });
        let cuts = ends.filter(|&end| end > 0 && end < text.len()).collect();
        Case { text, parts, answer, pieces, cuts }
    }

    fn piece(&self, place: &Range<usize>) -> &'a [u8] {
        &self.text[place.clone()]
    }

    fn is_cut_within(&self, piece: &Range<usize>) -> bool {
        self.cuts.range(piece.start + 1..piece.end).next().is_some()
    }

    /// Those of good texts, by what they ask for.
    fn good_edges(&self) -> [bool; 5] {
        let good = self.answer.is_ok();
        let pieces: Vec<&[u8]> = self.pieces.iter().map(|place| self.piece(place)).collect();
        let explicit = |piece: &[u8]| piece == EXPLICIT_OPEN;
        let policy = |piece: &&[u8]| *piece != EXPLICIT_OPEN;
        let policies: Vec<&[u8]> = pieces.iter().copied().filter(policy).collect();
        let (first_explicit, last_explicit) = (
            pieces.iter().position(|piece| explicit(piece)),
            pieces.iter().rposition(|piece| explicit(piece)),
        );
        [
            good && self.text.len() == MAX_LENGTH,
            good && pieces.is_empty() && !self.text.is_empty(),
            good && policies.iter().any(|other| Some(other) != policies.last()),
            good && first_explicit.is_some_and(|at| pieces[at..].iter().any(policy)),
            good && last_explicit.is_some_and(|at| pieces[..at].iter().any(policy)),
        ]
    }

    /// Those of good texts, by how they are cut.
    fn cut_edges(&self) -> [bool; 6] {
        let good = self.answer.is_ok();
        let cut_beside = |step: usize| self.cuts.iter().any(|&place| self.text[place - step] == b',');
        [
            good && self.parts.is_empty(),
            good && self.parts.len() > 1 && self.parts.iter().any(Vec::is_empty),
            good && self.parts.len() > 1 && self.parts.iter().all(|part| part.len() == 1),
            good && self.pieces.iter().any(|piece| self.is_cut_within(piece)),
            good && cut_beside(0),
            good && cut_beside(1),
        ]
    }

    /// Those of texts that would be good if they were shorter.
    fn long_edges(&self) -> [bool; 3] {
        let words = !self.pieces.is_empty() && self.pieces.iter().all(|place| is_word(self.piece(place)));
        let long = |bytes: usize| words && self.text.len() > bytes;
        [words && self.text.len() == MAX_LENGTH + 1, long(1_000), long(65_535)]
    }

    /// Those of texts that are refused by their pieces.
    fn bad_edges(&self) -> [bool; 10] {
        let bad: Vec<&Range<usize>> =
            self.pieces.iter().filter(|place| !is_word(self.piece(place))).collect();
        let (Some(last), true) = (self.pieces.last(), self.text.len() <= MAX_LENGTH && !bad.is_empty())
        else {
            return [false; 10];
        };
        let by = |wanted: &dyn Fn(&Range<usize>) -> bool| bad.len() == 1 && wanted(bad[0]);
        let at_end = |place: &Range<usize>| place.end == self.text.len();
        let last_of_several = |place: &Range<usize>| self.pieces.len() > 1 && place == last;
        let begins = |place: &Range<usize>| begins_a_word(self.piece(place));
        [
            bad.last() != Some(&last),
            by(&|place| last_of_several(place) && at_end(place)),
            by(&|place| last_of_several(place) && !at_end(place)),
            by(&|place| begins(place) && at_end(place)),
            by(&|place| begins(place) && !at_end(place)),
            by(&|place| goes_past_a_word(self.piece(place))),
            by(&|place| goes_on_as_another(self.piece(place))),
            by(&|place| self.piece(place).contains(&0)),
            by(&|place| self.piece(place).iter().any(|byte| *byte >= 0x80)),
            by(&|place| self.is_cut_within(place)),
        ]
    }
}
