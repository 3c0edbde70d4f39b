//! Option texts in parts: their bytes, what is printed of them, what every list begins with, and what is counted.

use crate::generator::option_cuts::CutText;
use crate::generator::option_texts::{cut_texts, first_texts};
use crate::generator::random::Random;
use crate::player::options::parse;
use crate::program::option_counts::{OptionCounts, EDGES, EDGE_NAMES};
use crate::program::options::{all_came, inputs, of_records, put_record};

const SEEDS: [u64; 5] = [0, 1, 2, 77, u64::MAX];
/// As many as the gate compares, and the fewest among which everything has to come.
const MANY: usize = 10_000;
const ENOUGH: usize = 5_000;

/// The words of the papers, and the line of each alone.
const LINES: [(&str, &str); 5] = [
    ("errors=remount-ro", "0 0 0"),
    ("errors=zone-ro", "0 1 0"),
    ("errors=zone-offline", "0 2 0"),
    ("errors=repair", "0 3 0"),
    ("explicit-open", "0 0 1"),
];

/// Parts that are joined by `|`.
fn cut(text: &str) -> CutText {
    CutText { parts: text.split('|').map(|part| part.as_bytes().to_vec()).collect() }
}

fn records(texts: &[CutText]) -> Vec<u8> {
    let mut records = Vec::new();
    texts.iter().for_each(|text| put_record(&mut records, text));
    records
}

/// The only line of a text.
fn line(text: &CutText) -> String {
    let lines = of_records(&records(std::slice::from_ref(text))).unwrap();
    lines.strip_suffix('\n').filter(|line| !line.contains('\n')).expect("one line").to_string()
}

fn list(seed: u64, count: usize) -> Vec<CutText> {
    cut_texts(seed).take(count).collect()
}

fn counted(texts: &[CutText]) -> OptionCounts {
    let mut counts = OptionCounts::default();
    texts.iter().for_each(|text| counts.count(text));
    counts
}

/// "pieces split by commas, empty pieces skipped, [...] the last wins; default remount-ro", and K1's option anywhere.
#[test]
fn lines_of_texts_from_the_papers() {
    for (word, expected) in LINES {
        assert_eq!(line(&cut(word)), expected);
    }
    let good = [
        ("", "0 0 0"),
        (",,,", "0 0 0"),
        (",errors=repair,,errors=zone-ro,", "0 1 0"),
        ("errors=zone-offline,errors=remount-ro", "0 0 0"),
        ("errors=repair,explicit-open", "0 3 1"),
        ("explicit-open,errors=zone-offline,explicit-open", "0 2 1"),
        ("err|ors=zone-|ro", "0 1 0"),
        ("|errors=zone-offline|,|explicit-open|", "0 2 1"),
    ];
    for (text, expected) in good {
        assert_eq!(line(&cut(text)), expected, "{text}");
    }
    let bad = [
        "errors=",
        "errors=zone-offro",
        "errors=repairount-ro",
        "errors=repairerrors=repair",
        "errors=repair\0",
        "errors=repair |,",
        "explicit-open=",
        "Explicit-open",
        "x,errors=repair",
        "errors=repair,errors=zone-r",
        "errors=repair,errors=zone-r,",
        "errors=|,|repair",
    ];
    for text in bad {
        assert_eq!(line(&cut(text)), "27", "{text}");
    }
}

#[test]
fn lines_of_long_texts() {
    let commas = |count: usize| CutText::uncut(&vec![b','; count]);
    assert_eq!([254, 255, 256, 257].map(|count| line(&commas(count))), ["0 0 0", "0 0 0", "27", "27"]);
    let repair = |count: usize| CutText::uncut(&[vec![b','; count - 13], b"errors=repair".to_vec()].concat());
    assert_eq!([255, 256, 511, 65_535].map(|count| line(&repair(count))), ["0 3 0", "27", "27", "27"]);
    // Lengths that are good once their higher bits are lost.
    assert_eq!([512, 65_536, 65_549, 65_791].map(|count| line(&repair(count))), ["27"; 4]);
    let last = [&vec![b','; 241][..], b"explicit-open,"].concat();
    assert_eq!(line(&CutText::uncut(&last)), "0 0 1");
    assert_eq!(line(&CutText::uncut(&[&last[..], b","].concat())), "27");
}

#[test]
fn records_byte_by_byte() {
    let texts = [CutText::nothing(), CutText::uncut(b""), cut("e|,"), CutText::uncut(&[b','; 258])];
    let expected =
        [&[0, 0][..], &[1, 0, 0, 0], &[2, 0, 1, 0, b'e', 1, 0, b','], &[1, 0, 2, 1], &[b','; 258]].concat();
    assert_eq!(records(&texts), expected);
    assert_eq!(of_records(&expected), Ok("0 0 0\n0 0 0\n27\n27\n".to_string()));
    assert_eq!(of_records(&[]), Ok(String::new()));
    // The high byte of the number of parts.
    let parts = CutText { parts: vec![b",".to_vec(); 255 + 2] };
    assert_eq!(records(std::slice::from_ref(&parts))[..5], [1, 1, 1, 0, b',']);
    assert_eq!(line(&parts), "27");
}

/// Wherever they stop, but between two texts.
#[test]
fn cut_records_are_an_error() {
    let (first, second) = (records(&[cut("errors=repair|,")]), records(&[cut("|x")]));
    let both = [&first[..], &second].concat();
    for there in 0..=both.len() {
        let expected = match there {
            0 => Ok(""),
            20 => Ok("0 3 0\n"),
            27 => Ok("0 3 0\n27\n"),
            _ => Err("the last text is cut"),
        };
        let lines = of_records(&both[..there]);
        assert_eq!(lines.as_ref().map(String::as_str).map_err(String::as_str), expected, "{there} bytes");
    }
    assert_eq!((first.len(), both.len()), (20, 27));
}

#[test]
fn a_text_is_cut_where_it_should_be() {
    let parts = |text: &CutText| text.parts.iter().map(Vec::len).collect::<Vec<_>>();
    assert_eq!(CutText::at(b"errors", &[0, 2, 2, 6]), cut("|er||rors|"));
    assert_eq!(CutText::everywhere(b"ab").collect::<Vec<_>>(), [cut("|ab"), cut("a|b"), cut("ab|")]);
    assert_eq!(parts(&CutText::at(&[b','; 9_000], &[10, 8_202])), [10, 4_096, 4_096, 798]);
    assert_eq!(parts(&CutText::uncut(&[b','; 4_097])), [4_096, 1]);
}

/// Each sort by itself, as most of them come in other ways too: by single bytes a text is cut beside its commas as well.
#[test]
fn a_text_is_cut_in_every_way() {
    let text = b"errors=repair,,explicit-open,errors=zone-ro";
    let (before, behind, between) = ([13, 28], [15, 29], 14);
    let mut seen = [0; 8];
    for number in 0..2_000 {
        let cut = CutText::anyhow(&mut Random::new(3, number), text);
        assert_eq!(cut.whole(), text);
        let mut ends: Vec<usize> = cut.parts.iter().map(Vec::len).collect();
        for part in 1..ends.len() {
            ends[part] += ends[part - 1];
        }
        ends.pop();
        let empty = cut.parts.iter().any(Vec::is_empty);
        let several = ends.len() >= 2 && ends[0] != ends[ends.len() - 1] && !empty;
        let single = cut.parts.iter().all(|part| part.len() <= 1);
        let beside = |place: &usize| before.contains(place) || behind.contains(place) || *place == between;
        let sorts = [
            ends.is_empty(),
            ends.len() == 1 && !empty,
            single && !empty,
            single && empty,
            several && ends.iter().all(|place| before.contains(place) || *place == between),
            several && ends.iter().all(|place| behind.contains(place) || *place == between),
            several && ends.len() < 10 && ends.iter().all(|place| !beside(place)),
            several && ends.len() < 10 && ends.iter().any(beside) && !ends.iter().all(beside),
        ];
        sorts.iter().zip(&mut seen).for_each(|(came, count)| *count += usize::from(*came));
    }
    let least = [150, 400, 120, 40, 40, 40, 110, 40];
    assert!(seen.iter().zip(least).all(|(count, least)| *count >= least), "{seen:?}");
    let empties: Vec<CutText> =
        (0..20).map(|number| CutText::anyhow(&mut Random::new(4, number), b"")).collect();
    assert!(
        empties.iter().any(|text| text.parts.is_empty()) && empties.iter().any(|text| !text.parts.is_empty())
    );
}

/// What a piece may look like beside a word, and how often that comes at least in a list. Most sorts come in several ways, so that it is less
/// often if one of them is left out.
type Sort = (&'static str, usize, fn(word: &[u8], piece: &[u8]) -> bool);

/// Where they differ, if they have as many bytes and do so once: what the word has, and the piece.
fn only_difference(word: &[u8], piece: &[u8]) -> Option<(u8, u8)> {
    let mut pairs = word.iter().copied().zip(piece.iter().copied()).filter(|(one, other)| one != other);
    let first = pairs.next();
    first.filter(|_| word.len() == piece.len() && pairs.next().is_none())
}

/// The places at which a byte more makes the longer one out of the shorter one.
fn byte_more(short: &[u8], long: &[u8]) -> Option<usize> {
    let place = (0..long.len()).find(|&place| [&long[..place], &long[place + 1..]].concat() == short)?;
    (place > 0 && place + 1 < long.len()).then_some(place)
}

fn has_within(word: &[u8], piece: &[u8]) -> bool {
    piece.len() >= 2 && word.windows(piece.len()).any(|window| window == piece)
}

const SORTS: [Sort; 13] = [
    ("a beginning", 900, |word, piece| word.starts_with(piece) && piece.len() < word.len()),
    ("an end", 250, |word, piece| word.ends_with(piece) && piece.len() < word.len() && piece.len() > 3),
    ("a middle", 125, |word, piece| {
        has_within(word, piece) && !word.starts_with(piece) && !word.ends_with(piece)
    }),
    ("a byte put in", 300, |word, piece| byte_more(word, piece).is_some_and(|at| piece[at] != piece[at + 1])),
    ("a byte twice", 200, |word, piece| byte_more(word, piece).is_some_and(|at| piece[at] == piece[at + 1])),
    ("a byte left out", 120, |word, piece| byte_more(piece, word).is_some()),
    ("a bit", 600, |word, piece| {
        only_difference(word, piece).is_some_and(|(one, other)| (one ^ other).count_ones() == 1)
    }),
    ("a zero", 100, |word, piece| only_difference(word, piece).is_some_and(|(_, other)| other == 0)),
    ("a high byte", 250, |word, piece| only_difference(word, piece).is_some_and(|(_, other)| other >= 0x80)),
    ("a letter's case", 150, |word, piece| {
        word.eq_ignore_ascii_case(piece) && only_difference(word, piece).is_some()
    }),
    ("all letters' case", 40, |word, piece| word != piece && word.to_ascii_uppercase() == piece),
    ("another word behind it", 150, |word, piece| {
        piece.strip_prefix(word).is_some_and(|rest| LINES.iter().any(|(other, _)| other.as_bytes() == rest))
    }),
    ("a byte behind it", 300, |word, piece| piece.len() == word.len() + 1 && piece.starts_with(word)),
];

#[test]
fn pieces_are_spoilt_in_every_way() {
    for seed in SEEDS {
        let list = list(seed, MANY).split_off(first_texts().len());
        let pieces: Vec<Vec<u8>> = list
            .iter()
            .flat_map(|text| text.whole().split(|&byte| byte == b',').map(<[u8]>::to_vec).collect::<Vec<_>>())
            .filter(|piece| !piece.is_empty() && piece.len() < 50)
            .collect();
        for (name, least, is) in SORTS {
            let words = || LINES.iter().map(|(word, _)| word.as_bytes());
            let came = pieces.iter().filter(|piece| words().any(|word| is(word, piece))).count();
            assert!(came >= least, "seed {seed}: {name} came {came} times");
        }
    }
}

/// With 255 bytes the last may spoil a word that is one without it or with another; with 256 the 255 before may be good, or bad until then.
#[test]
fn the_last_byte_makes_or_spoils_the_last_word() {
    for seed in SEEDS {
        let texts: Vec<Vec<u8>> = list(seed, MANY).iter().map(CutText::whole).collect();
        let good = |text: &[u8]| parse(text).is_ok();
        let with = |length: usize| texts.iter().filter(move |text| text.len() == length);
        let before_last = |text: &[u8]| text[..text.len() - 1].to_vec();
        let without_last_piece = |text: &[u8]| {
            let comma = text.iter().rposition(|&byte| byte == b',').unwrap_or(0);
            text[..comma].to_vec()
        };
        let counts = [
            with(254).filter(|text| good(text)).count(),
            with(255).filter(|text| good(text) && !good(&before_last(text))).count(),
            with(255).filter(|text| !good(text) && good(&without_last_piece(text))).count(),
            with(255).filter(|text| !good(text) && good(&before_last(text))).count(),
            with(256).filter(|text| good(&before_last(text))).count(),
            with(256).filter(|text| !good(&before_last(text)) && good(&without_last_piece(text))).count(),
            with(257).count(),
        ];
        assert!(counts.iter().all(|count| *count >= 15), "seed {seed}: {counts:?}");
    }
}

/// Words cut at every place, their beginnings, one byte more, one byte off, and one word going on as another.
#[test]
fn every_list_begins_alike() {
    let first = first_texts();
    let has = |text: CutText| assert!(first.contains(&text), "{text:?}");
    has(CutText { parts: vec![] });
    for (word, _) in LINES {
        for place in 0..=word.len() {
            has(cut(&format!("{}|{}", &word[..place], &word[place..])));
        }
        for length in 1..word.len() {
            has(cut(&word[..length]));
        }
        for more in [",", "e", "\0", " "] {
            has(cut(&format!("{word}{more}")));
        }
        for (other, _) in LINES {
            has(cut(&format!("{word}|{other}")));
        }
        for place in 0..word.len() {
            has(cut(&format!("{}{}", &word[..place], &word[place + 1..])));
            has(cut(&format!("{}{}", &word[..=place], &word[place..])));
        }
    }
    for crossed in ["errors=zone-offro", "errors=zone-roffline", "errors=repmount-ro", "errors=repairount-ro"]
    {
        has(cut(crossed));
    }
    for crossed in
        ["exrrors=repair", "errors=zone-roxplicit-open", "erxplicit-open", "errors=remount-roone-ro"]
    {
        has(cut(crossed));
    }
    for changed in ["drrors=zone-ro", "errors=zone-nffline", "explicit-opeo", "errors<repair"] {
        has(cut(changed));
    }
    for seed in SEEDS {
        assert_eq!(list(seed, first.len()), first);
    }
}

#[test]
fn every_list_has_the_most_bytes_and_one_more_cut_everywhere() {
    let first = first_texts();
    for (length, expected) in [(255, "0 3 1"), (256, "27")] {
        let long: Vec<&CutText> =
            first.iter().filter(|text| text.whole().len() == length && text.parts.len() == 2).collect();
        let places: Vec<usize> = long.iter().map(|text| text.parts[0].len()).collect();
        assert_eq!(places, (0..=length).collect::<Vec<_>>());
        assert!(long.iter().all(|text| line(text) == expected && text.whole() == long[0].whole()));
        // The last byte makes the last word.
        assert!(long[0].whole().ends_with(b",errors=repair,explicit-open"));
    }
}

#[test]
fn texts_follow_from_seed_and_number() {
    assert_eq!(list(5, 2_000), list(5, 3_000)[..2_000]);
    assert_ne!(list(5, 2_000), list(6, 2_000));
    let (bytes, line) = inputs(5, 2_000).unwrap();
    assert_eq!(bytes, records(&list(5, 2_000)));
    assert_eq!(line, counted(&list(5, 2_000)).to_string());
}

/// Among those that follow the first ones too, but for the lengths that are rare.
#[test]
fn everything_comes() {
    let first = first_texts().len();
    for seed in SEEDS {
        assert_eq!(counted(&list(seed, ENOUGH)).missing(), [""; 0], "seed {seed}");
        let others = counted(&list(seed, MANY)[first..]);
        let missing = others.missing();
        assert!(missing.iter().all(|name| name == EDGE_NAMES[13]), "seed {seed} never has {missing:?}");
        let often = |(place, count): (usize, &u64)| place == 13 || *count >= 20;
        assert!(others.edges.iter().enumerate().all(often), "seed {seed}: {others}");
    }
}

#[test]
fn a_third_is_good_and_a_third_refused() {
    for seed in SEEDS {
        let list = list(seed, MANY);
        for texts in [&list[..], &list[first_texts().len()..]] {
            let good = texts.iter().filter(|text| parse(&text.whole()).is_ok()).count();
            assert!(good * 3 >= texts.len() && good * 3 <= texts.len() * 2, "seed {seed}: {good} are good");
        }
        // Not by their length alone.
        let short = |text: &&CutText| text.whole().len() <= 255;
        let refused = list.iter().filter(short).filter(|text| line(text) == "27").count();
        assert!(refused * 3 >= list.len(), "seed {seed}: {refused} are refused by a piece");
    }
}

#[test]
fn lengths_and_parts_have_their_limits() {
    let lists: Vec<CutText> = SEEDS.iter().flat_map(|&seed| list(seed, MANY)).collect();
    let parts = || lists.iter().flat_map(|text| &text.parts);
    assert!(parts().all(|part| part.len() <= 4_096) && parts().any(|part| part.len() == 4_096));
    assert!(lists.iter().all(|text| text.parts.len() <= 2_000));
    let lengths: Vec<usize> = lists.iter().map(|text| text.whole().len()).collect();
    assert_eq!(lengths.iter().max(), Some(&66_000));
    for length in [0, 1, 254, 255, 256, 257, 300, 511, 512, 1_000, 65_535, 65_536, 65_791] {
        assert!(lengths.contains(&length), "{length} bytes");
    }
}

/// The edges that one text is counted at, by their numbers from 1.
fn edges(text: &CutText) -> Vec<usize> {
    let counts = counted(std::slice::from_ref(text));
    (1..).zip(counts.edges).filter(|(_, count)| *count > 0).map(|(number, _)| number).collect()
}

#[test]
fn edges_of_good_texts_are_counted() {
    let none: [usize; 0] = [];
    let padded = |word: &str, bytes: usize| CutText::uncut(format!("{word:,>bytes$}").as_bytes());
    assert_eq!(edges(&padded("errors=repair", 255)), [1]);
    assert_eq!(edges(&padded("errors=repair", 254)), none);
    assert_eq!((edges(&cut(",,")), edges(&cut("")), edges(&padded("", 255))), (vec![2], vec![], vec![1, 2]));
    assert_eq!(edges(&cut("errors=repair,errors=zone-ro")), [3]);
    assert_eq!(edges(&cut("errors=zone-ro,errors=zone-ro")), none);
    assert_eq!(edges(&cut("explicit-open,errors=zone-ro")), [4]);
    assert_eq!(edges(&cut("errors=zone-ro,explicit-open")), [5]);
    assert_eq!(edges(&cut("explicit-open,explicit-open")), none);
    assert_eq!(edges(&CutText::nothing()), [6]);
    assert_eq!(edges(&cut("explicit-open|")), [7]);
    assert_eq!(edges(&cut(",|,")), [2, 8, 10, 11]);
    assert_eq!(edges(&cut("explicit|-open")), [9]);
    assert_eq!(edges(&cut("explicit-open|,")), [10]);
    assert_eq!(edges(&cut(",|explicit-open")), [11]);
}

#[test]
fn edges_of_long_texts_are_counted() {
    let padded = |word: &str, bytes: usize| {
        CutText::uncut(&[vec![b','; bytes - word.len()], word.as_bytes().to_vec()].concat())
    };
    assert_eq!(edges(&padded("explicit-open", 256)), [12]);
    assert_eq!(edges(&padded("explicit-open", 257)), [] as [usize; 0]);
    assert_eq!(edges(&padded("explicit-ope", 256)), [] as [usize; 0]);
    assert_eq!(edges(&padded("", 256)), [] as [usize; 0]);
    assert_eq!(edges(&padded("explicit-open", 1_000)), [] as [usize; 0]);
    assert_eq!(edges(&padded("explicit-open", 1_001)), [13]);
    assert_eq!(edges(&padded("explicit-open", 65_535)), [13]);
    assert_eq!(edges(&padded("explicit-open", 65_536)), [13, 14]);
}

#[test]
fn edges_of_bad_texts_are_counted() {
    let none: [usize; 0] = [];
    assert_eq!(edges(&cut("x")), none);
    assert_eq!(edges(&cut("x,errors=repair")), [15]);
    assert_eq!(edges(&cut("errors=repair,x")), [16]);
    assert_eq!(edges(&cut("errors=repair,x,")), [17]);
    // Two bad ones, and neither alone refuses it.
    assert_eq!(edges(&cut("x,errors=|repair,e")), none);
    assert_eq!(edges(&cut("errors=zone-")), [18]);
    assert_eq!(edges(&cut("errors=zone-,")), [19]);
    assert_eq!(edges(&cut("explicit-open=")), [20]);
    assert_eq!(edges(&cut("errors=repairexplicit-open")), [20]);
    assert_eq!(edges(&cut("errors=zone-offro")), [21]);
    assert_eq!(edges(&cut("errors=repairmount-ro")), [20, 21]);
    assert_eq!(edges(&cut("exrrors=repair")), [21]);
    assert_eq!(edges(&cut("errors=repairount-ro")), [20]);
    assert_eq!(edges(&cut("errors\0repair")), [22]);
    assert_eq!(edges(&CutText::uncut(b"errors=r\xE5pair")), [23]);
    assert_eq!(edges(&cut("errors:|repair")), [24]);
    assert_eq!(edges(&cut("|errors:repair|,")), none);
}

#[test]
fn good_texts_are_counted_by_what_they_ask_for() {
    let texts =
        ["", "errors=zone-ro", "explicit-open", "errors=repair,|explicit-open", "errors=zone-offline", "|x|"];
    let counts = counted(&texts.map(cut));
    assert_eq!((counts.texts, counts.parts), (6, 9));
    assert_eq!((counts.plain, counts.explicit, counts.refused), ([1, 1, 1, 0], [1, 0, 0, 1], 1));
    let zeros = "/0".repeat(EDGES);
    let line = counted(&[cut("errors=zone-ro")]).to_string();
    let expected = "1 texts in 1 parts, good 0/1/0/0 and with explicit-open 0/0/0/0, refused 0, edges";
    assert_eq!(line, format!("{expected} {}", &zeros[1..]));
}

/// What never came is named: everything, where nothing came. With many texts that is a failure.
#[test]
fn what_never_came_is_missing() {
    let missing = OptionCounts::default().missing();
    assert_eq!(missing.len(), 4 + 4 + 1 + EDGES);
    assert_eq!(
        (&missing[1][..], &missing[7][..]),
        ("zone-ro without explicit-open", "repair with explicit-open")
    );
    assert_eq!((&missing[8][..], &missing[9..]), ("27", &EDGE_NAMES.map(str::to_string)[..]));
    let of = |texts: u64| all_came(&OptionCounts { texts, ..OptionCounts::default() });
    assert_eq!(of(4_999), Ok(()));
    assert!(of(5_000).is_err_and(|text| text.starts_with("never came: remount-ro without explicit-open, ")));
}
