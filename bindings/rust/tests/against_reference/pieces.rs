//! Mounts in pieces against the reference, step by step: number, all answer words, both tables, and at an end mount words and account words;
//! and against the library's own whole mount.

use reference::generator::pieces::{even_case, pieces_case, PiecesCase};
use reference::generator::random::Random;
use reference::player::mount::Input;
use reference::player::pieces::{Answer, Lent as Rows, Outcome, Reading, Step};
use reference::player::types::{FileKind, Refusal, MAX_ZONES};
use reference::program::pieces::Pieces;
use zonefs::words::{
    self, ACCOUNT_WORDS, ANSWER_WORDS, HEADER_BYTES, MOUNT_WORDS, PIECES_WORDS, ROW_WORDS, ZONE_BYTES,
};

use crate::convert::{account_words, mount_words, row_words};
use crate::events::{self, answer_after, check_mount, Lent};

const CASES: u64 = 20_000;
const NOT_BEGUN: u64 = 2_000;

fn any_words(random: &mut Random, count: usize) -> Vec<u64> {
    (0..count).map(|_| random.word()).collect()
}

/// Words of any content, at times more than are needed.
fn room(random: &mut Random, count: usize) -> Vec<u64> {
    let more = random.pick(&[0, 0, 1, 2]);
    any_words(random, count + more)
}

/// The memory that tables are lent from: they are its front, with each piece as much of it as the case says.
#[derive(Clone, PartialEq, Eq)]
struct Memory {
    cnv: Vec<u64>,
    seq: Vec<u64>,
}

impl Memory {
    /// Garbage for the longest tables of a case, and for a row more of which no table has all words.
    fn any(random: &mut Random, rows: Rows) -> Memory {
        Memory {
            cnv: any_words(random, (rows.cnv + 1) * ROW_WORDS),
            seq: any_words(random, (rows.seq + 1) * ROW_WORDS),
        }
    }

    fn store(&mut self, outcome: &Outcome) {
        for stored in &outcome.stored {
            let table = match stored.kind {
                FileKind::Conventional => &mut self.cnv,
                FileKind::Sequential => &mut self.seq,
            };
            let at = stored.number * ROW_WORDS;
            table[at..at + ROW_WORDS].copy_from_slice(&row_words(&stored.row));
        }
    }
}

fn lent_with(step: &Step) -> Option<Rows> {
    match step {
        Step::Piece { lent, .. } => Some(*lent),
        Step::End => None,
    }
}

fn most_rows(steps: &[Step]) -> Rows {
    let lent = || steps.iter().filter_map(lent_with);
    let most = |rows: fn(Rows) -> usize| lent().map(rows).max().unwrap_or(0);
    Rows { cnv: most(|rows| rows.cnv), seq: most(|rows| rows.seq) }
}

/// The answer words of a number and its values, and the words of what an end hands out: none but zeros, if it refuses.
struct Expected {
    number: u64,
    values: Vec<u64>,
    mount: Vec<u64>,
    account: Vec<u64>,
}

impl Expected {
    fn of(answer: &Answer) -> Expected {
        let nothing = |number, values| {
            let (mount, account) = (vec![0; MOUNT_WORDS], vec![0; ACCOUNT_WORDS]);
            Expected { number, values, mount, account }
        };
        match answer {
            Answer::Taken => nothing(0, vec![]),
            Answer::Refused(refusal) => {
                let (number, values) = events::refused(*refusal);
                nothing(number, values)
            }
            Answer::Mounted(mount, account) => Expected {
                number: 0,
                values: vec![mount.cnv_files as u64, mount.seq_files as u64],
                mount: mount_words(mount),
                account: account_words(account).to_vec(),
            },
        }
    }
}

/// A mount in pieces on the library's side, with what is expected of its memory.
struct Run<'a> {
    random: &'a mut Random,
    case: &'a PiecesCase,
    /// By which it can be made again.
    name: &'a str,
    /// The words that hold the mount between pieces, and whatever is behind them.
    pieces: Vec<u64>,
    memory: Memory,
    expected: Memory,
    /// What the first end gave that was answered 0: answer, mount and account words.
    accepted: Option<(Vec<u64>, Vec<u64>, Vec<u64>)>,
    /// Whether the last step was: from then on nothing may change.
    refused: bool,
}

impl<'a> Run<'a> {
    fn new(random: &'a mut Random, name: &'a str, case: &'a PiecesCase) -> Run<'a> {
        let memory = Memory::any(random, most_rows(&case.steps));
        let (pieces, expected) = (room(random, PIECES_WORDS), memory.clone());
        Run { random, case, name, pieces, memory, expected, accepted: None, refused: false }
    }

    /// Tables of that many rows, at times with words behind them that are no whole row.
    fn ask_piece(&mut self, bytes: &[u8], lent: Rows, pieces: usize, answer: &mut [u64]) -> u64 {
        let rest = |random: &mut Random| random.pick(&[0, 0, 1, ROW_WORDS - 1]);
        let cnv = lent.cnv * ROW_WORDS + rest(self.random);
        let seq = lent.seq * ROW_WORDS + rest(self.random);
        let Memory { cnv: cnv_words, seq: seq_words } = &mut self.memory;
        words::piece(&mut self.pieces[..pieces], bytes, &mut cnv_words[..cnv], &mut seq_words[..seq], answer)
    }

    fn begin(&mut self, pieces: usize, answer: &mut [u64]) -> u64 {
        let PiecesCase { block, super_block, options, open_limit, active_limit, .. } = self.case;
        let pieces = &mut self.pieces[..pieces];
        words::begin(*block, super_block, options, *open_limit, *active_limit, pieces, answer)
    }

    /// Leaves a mount in the words that has begun and has its header, so that what a refused begin leaves there shows.
    fn hold(&mut self, other: &PiecesCase) {
        let (PiecesCase { block, super_block, options, .. }, mut answer) = (other, [0; ANSWER_WORDS]);
        assert_eq!(words::begin(*block, super_block, options, 0, 0, &mut self.pieces, &mut answer), 0);
        let header = &other.bytes()[..HEADER_BYTES];
        assert_eq!(words::piece(&mut self.pieces, header, &mut [], &mut [], &mut answer), 0);
    }

    /// Begins, and compares everything.
    fn check_begin(&mut self, refusal: Option<Refusal>) {
        let (before, mut answer) = (self.pieces.clone(), room(self.random, ANSWER_WORDS));
        let answer_before = answer.clone();
        let number = self.begin(before.len(), &mut answer);
        let (expected, values) = refusal.map_or((0, vec![]), events::refused);
        assert_eq!(number, expected, "{}", self.name);
        assert_eq!(answer, answer_after(&answer_before, &values), "{}", self.name);
        assert_eq!(self.pieces[PIECES_WORDS..], before[PIECES_WORDS..], "begin writes behind its words");
    }

    fn check_step(&mut self, step: &Step, outcome: &Outcome) {
        match step {
            Step::Piece { bytes, lent } => self.check_piece(bytes, *lent, outcome),
            Step::End => self.check_end(outcome),
        }
    }

    fn check_piece(&mut self, bytes: &[u8], lent: Rows, outcome: &Outcome) {
        let mut answer = room(self.random, ANSWER_WORDS);
        let before = (answer.clone(), self.pieces.clone());
        let number = self.ask_piece(bytes, lent, self.pieces.len(), &mut answer);
        self.expected.store(outcome);
        let Expected { number: expected, values, .. } = Expected::of(&outcome.answer);
        assert_eq!(number, expected, "{} bytes of {}", bytes.len(), self.name);
        assert_eq!(answer, answer_after(&before.0, &values), "{}", self.name);
        assert!(self.memory == self.expected, "other rows: {}", self.name);
        assert_eq!(self.pieces[PIECES_WORDS..], before.1[PIECES_WORDS..], "a piece writes behind its words");
    }

    fn check_end(&mut self, outcome: &Outcome) {
        let mut answer = room(self.random, ANSWER_WORDS);
        let (mut mount, mut account) = (room(self.random, MOUNT_WORDS), room(self.random, ACCOUNT_WORDS));
        let before = (answer.clone(), mount.clone(), account.clone(), self.pieces.clone());
        let number = words::end(&mut self.pieces, &mut mount, &mut account, &mut answer);
        let expected = Expected::of(&outcome.answer);
        assert_eq!(number, expected.number, "{}", self.name);
        assert_eq!(answer, answer_after(&before.0, &expected.values), "{}", self.name);
        assert_eq!(mount, [&expected.mount, &before.1[MOUNT_WORDS..]].concat(), "{}", self.name);
        assert_eq!(account, [&expected.account, &before.2[ACCOUNT_WORDS..]].concat(), "{}", self.name);
        assert!(self.memory == self.expected, "an end stores rows: {}", self.name);
        assert_eq!(self.pieces[PIECES_WORDS..], before.3[PIECES_WORDS..], "an end writes behind its words");
        if number == 0 {
            assert_eq!(self.pieces, before.3, "an end that is answered 0 changes what is held");
            let given = (
                answer[..ANSWER_WORDS].to_vec(),
                mount[..MOUNT_WORDS].to_vec(),
                account[..ACCOUNT_WORDS].to_vec(),
            );
            self.accepted.get_or_insert(given);
        }
    }

    /// The step with one of its words too short: 10, and nothing is written.
    fn check_short(&mut self, step: &Step) {
        let short = |random: &mut Random, whole: usize| random.below(whole as u64) as usize;
        let (mut pieces, mut answer) = (PIECES_WORDS, ANSWER_WORDS);
        let (mut mount, mut account) = (MOUNT_WORDS, ACCOUNT_WORDS);
        let kinds = if *step == Step::End { 4 } else { 2 };
        match self.random.below(kinds) {
            0 => pieces = short(self.random, pieces),
            1 => answer = short(self.random, answer),
            2 => mount = short(self.random, mount),
            _ => account = short(self.random, account),
        }
        self.check_nothing_written(step, pieces, [mount, account, answer]);
    }

    /// The step with so many words: 10, and nothing is written.
    fn check_nothing_written(&mut self, step: &Step, pieces: usize, lengths: [usize; 3]) {
        let [mut mount, mut account, mut answer] = lengths.map(|length| any_words(self.random, length));
        let before = (mount.clone(), account.clone(), answer.clone(), self.pieces.clone());
        let number = match step {
            Step::Piece { bytes, lent } => self.ask_piece(bytes, *lent, pieces, &mut answer),
            Step::End => words::end(&mut self.pieces[..pieces], &mut mount, &mut account, &mut answer),
        };
        assert_eq!(number, 10, "{}", self.name);
        let after = (mount, account, answer, self.pieces.clone());
        assert!(after == before && self.memory == self.expected, "10 writes: {}", self.name);
    }

    /// Begin with its words or its answer words too short, whatever it is begun with.
    fn check_short_begin(&mut self) {
        let (pieces, answer) = if self.random.percent(50) {
            (self.random.below(PIECES_WORDS as u64), ANSWER_WORDS as u64)
        } else {
            (PIECES_WORDS as u64, self.random.below(ANSWER_WORDS as u64))
        };
        let mut answer = any_words(self.random, answer as usize);
        let before = (answer.clone(), self.pieces.clone());
        assert_eq!(self.begin(pieces as usize, &mut answer), 10, "{}", self.name);
        assert!((answer, self.pieces.clone()) == before, "10 writes: {}", self.name);
    }

    /// Other tables from here on, full of other garbage.
    fn change_memory(&mut self) {
        self.memory = Memory::any(self.random, most_rows(&self.case.steps));
        self.expected = self.memory.clone();
    }
}

/// What a case needs to be compared with the whole mount: its bytes before the first end, and the tables it had from the beginning.
struct Whole {
    bytes: Vec<u8>,
    /// The same with every piece before the end, or None.
    lent: Option<Rows>,
    accepted: bool,
}

impl Whole {
    fn of(case: &PiecesCase, outcomes: &[Outcome]) -> Whole {
        let first_end = case.steps.iter().position(|step| *step == Step::End).expect("each case ends");
        let before = PiecesCase { steps: case.steps[..first_end].to_vec(), ..case.clone() };
        let mut all = before.steps.iter().filter_map(lent_with);
        let first = all.next();
        Whole {
            bytes: before.bytes(),
            lent: first.filter(|first| all.all(|other| other == *first)),
            accepted: matches!(outcomes[first_end].answer, Answer::Mounted(..)),
        }
    }
}

/// The library's whole mount, which is compared with the reference's too: refused exactly where the pieces are, as far as the tables are the
/// same throughout, and where it isn't, with the same words.
fn check_whole(run: &mut Run, initial: Memory, whole: &Whole, same_memory: bool) {
    let lent_rows = match (whole.lent, whole.accepted) {
        (Some(lent), _) => lent,
        (None, true) => most_rows(&run.case.steps),
        (None, false) => return,
    };
    let front = |words: &[u64], rows: usize| words[..rows * ROW_WORDS].to_vec();
    let mut lent = Lent {
        mount: any_words(run.random, MOUNT_WORDS),
        account: any_words(run.random, ACCOUNT_WORDS),
        cnv: front(&initial.cnv, lent_rows.cnv),
        seq: front(&initial.seq, lent_rows.seq),
        answer: any_words(run.random, ANSWER_WORDS),
    };
    let PiecesCase { block, super_block, options, open_limit, active_limit, .. } = run.case;
    let input = Input {
        block: u16::try_from(*block).expect("begin took it"),
        super_block: super_block.clone(),
        report: whole.bytes.clone(),
        options: options.clone(),
        open_limit: *open_limit,
        active_limit: *active_limit,
    };
    assert_eq!(check_mount(&mut lent, &input) == 0, whole.accepted, "the whole mount: {}", run.name);
    if whole.accepted {
        let given = (lent.answer, lent.mount, lent.account);
        assert_eq!(Some(&given), run.accepted.as_ref(), "the whole mount: {}", run.name);
        let tables = (front(&run.memory.cnv, lent_rows.cnv), front(&run.memory.seq, lent_rows.seq));
        assert!(!same_memory || tables == (lent.cnv, lent.seq), "the whole mount: {}", run.name);
    }
}

/// Takes all steps of a mount that was begun.
fn check_steps(run: &mut Run, outcomes: &[Outcome], tally: &mut Pieces) {
    let (case, initial) = (run.case, run.memory.clone());
    let same_memory = case.steps.len() > 100 || run.random.percent(75);
    for (step, outcome) in case.steps.iter().zip(outcomes) {
        if run.random.percent(3) {
            run.check_short(step);
            tally.count_impossible();
        }
        if !same_memory {
            run.change_memory();
        }
        let before = run.pieces.clone();
        run.check_step(step, outcome);
        assert!(!run.refused || run.pieces == before, "a refused mount changes: {}", run.name);
        run.refused = matches!(outcome.answer, Answer::Refused(_));
    }
    check_whole(run, initial, &Whole::of(case, outcomes), same_memory);
}

/// `other` is a good mount, which the words may hold before this one begins.
fn check_case(random: &mut Random, name: &str, case: &PiecesCase, other: &PiecesCase, tally: &mut Pieces) {
    let begun = case.begin();
    let mut run = Run::new(random, name, case);
    if run.random.percent(40) {
        run.hold(other);
    }
    if run.random.percent(5) {
        run.check_short_begin();
        tally.count_impossible();
    }
    run.check_begin(begun.err());
    match begun {
        Ok(begun) => {
            let reading = Reading::of(&begun, &case.steps);
            let outcomes = reading.outcomes();
            check_steps(&mut run, &outcomes, tally);
            tally.count(&reading, &case.steps, &outcomes);
        }
        Err(refusal) => {
            for step in case.steps.iter().take(3).chain([&Step::End]) {
                run.check_nothing_written(step, PIECES_WORDS, [MOUNT_WORDS, ACCOUNT_WORDS, ANSWER_WORDS]);
                tally.count_impossible();
            }
            tally.count_unbegun(refusal);
        }
    }
}

/// As many zones as there can be, as a kernel reports them, 4,096 at a time; and in pieces that fit nothing.
fn large_cases() -> [(&'static str, PiecesCase); 3] {
    let (most, zones) = (u64::from(MAX_ZONES), 4096 * ZONE_BYTES);
    [
        ("the most zones, 4,096 at a time", even_case(31, most, HEADER_BYTES + zones, zones)),
        ("the most zones in odd pieces", even_case(32, most, 1, 100_003)),
        ("one zone too many", even_case(33, most + 1, HEADER_BYTES - 1, zones + 1)),
    ]
}

#[test]
fn pieces_give_the_same() {
    let mut tally = Pieces::default();
    let other = even_case(39, 3, HEADER_BYTES, ZONE_BYTES);
    for index in 0..CASES {
        let name = format!("case {index} of seed 35");
        check_case(&mut Random::new(34, index), &name, &pieces_case(35, index), &other, &mut tally);
    }
    for (name, case) in large_cases() {
        check_case(&mut Random::new(36, 0), name, &case, &other, &mut tally);
    }
    assert_eq!(tally.missing(), [""; 0], "the cases never led to these: {tally}");
    println!("pieces: {tally}; all as the reference and the whole mount have them");
}

/// Words that hold no mount in pieces answer 10 to every piece and end.
#[test]
fn words_without_a_begun_mount_write_nothing() {
    for index in 0..NOT_BEGUN {
        let mut random = Random::new(37, index);
        let (name, case) = (format!("case {index}"), pieces_case(38, index % 200));
        let mut run = Run::new(&mut random, &name, &case);
        for step in case.steps.iter().take(2).chain([&Step::End]) {
            run.check_nothing_written(step, PIECES_WORDS, [MOUNT_WORDS, ACCOUNT_WORDS, ANSWER_WORDS]);
        }
    }
}
