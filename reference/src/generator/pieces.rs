//! Cases for the mount in pieces: good reports and broken ones, cut anywhere, with tables that are long enough, too short, or of another
//! length with every piece.

use std::ops::Range;

use super::faults;
use super::format::{bad_block, BAD_LENGTHS, SPOILERS};
use super::random::Random;
use super::refused::{bad_options, spoil_a_zone};
use super::shape;
use crate::player::mount::{self, Begun, Input};
use crate::player::options::MAX_LENGTH;
use crate::player::pieces::{files, last_byte, File, Lent, Step};
use crate::player::superblock::AGGREGATE;
use crate::player::types::{put, u32_at, FileKind, Refusal, MAX_FILES, MAX_ZONES};
use crate::player::zone::{HEADER, RECORD};

/// What begin refuses, in the order of its checks.
pub const BEGIN_ORDER: [Refusal; 9] = [
    Refusal::Block,
    Refusal::SuperBlockLength,
    Refusal::Magic,
    Refusal::Checksum,
    Refusal::Features,
    Refusal::Owner,
    Refusal::Perm,
    Refusal::Tail,
    Refusal::Options,
];

/// Two cases among so many have the most zones of a report, and one more.
pub const LARGE_EVERY: u64 = 4000;
/// A report of more bytes isn't cut into many pieces.
const SHORT: usize = 3_000;

#[derive(Clone, Debug, PartialEq, Eq)]
pub struct PiecesCase {
    pub block: u64,
    pub super_block: Vec<u8>,
    pub options: Vec<u8>,
    pub open_limit: u32,
    pub active_limit: u32,
    pub steps: Vec<Step>,
}

impl PiecesCase {
    pub fn begin(&self) -> Result<Begun, Refusal> {
        mount::begin(self.block, &self.super_block, &self.options, self.open_limit, self.active_limit)
    }

    /// All bytes of the pieces.
    pub fn bytes(&self) -> Vec<u8> {
        let of_step = |step: &Step| match step {
            Step::Piece { bytes, .. } => bytes.clone(),
            Step::End => Vec::new(),
        };
        self.steps.iter().flat_map(of_step).collect()
    }
}

/// The case with this number of this seed.
pub fn pieces_case(seed: u64, number: u64) -> PiecesCase {
    let mut random = Random::new(seed, number);
    let mut shape = shape::with_zones(&mut random, |random| zone_count(random, number));
    // Runs are where most can go wrong.
    shape.features |= if random.percent(40) { AGGREGATE } else { 0 };
    let files = files(&shape.zones, shape.zones.len(), shape.features & AGGREGATE != 0);
    let large = shape.zones.len() > SHORT;
    if !large && !shape.zones.is_empty() && random.percent(25) {
        for _ in 0..random.pick(&[1, 1, 1, 2, 3]) {
            spoil_a_zone(&mut random, &mut shape);
        }
    }
    let mut input = shape::input(&mut random, &shape);
    if !large {
        spoil_report(&mut random, &mut input.report);
    }
    let tables = tables(&mut random, &files);
    let places = places(&mut random, input.report.len(), &tables);
    let steps = steps(&mut random, &input.report, &places, &tables);
    let mut case = case_of(input, steps);
    if random.percent(8) {
        spoil_begin(&mut random, &mut case);
    }
    case
}

/// A good report of so many zones, in pieces of so many bytes behind the first, with rows for every file.
pub fn even_case(seed: u64, zones: u64, first: usize, each: usize) -> PiecesCase {
    let mut random = Random::new(seed, zones);
    let shape = shape::with_zones(&mut random, |_| zones);
    let input = shape::input(&mut random, &shape);
    let tables = Tables::Same(Lent { cnv: MAX_FILES, seq: MAX_FILES });
    let places: Vec<usize> = (first..input.report.len()).step_by(each).collect();
    let mut steps = pieces(&mut random, &input.report, &places, &tables);
    steps.push(Step::End);
    case_of(input, steps)
}

fn case_of(input: Input, steps: Vec<Step>) -> PiecesCase {
    let Input { block, super_block, options, open_limit, active_limit, .. } = input;
    PiecesCase { block: u64::from(block), super_block, options, open_limit, active_limit, steps }
}

fn zone_count(random: &mut Random, number: u64) -> u64 {
    let most = u64::from(MAX_ZONES);
    match number % LARGE_EVERY {
        1000 => return most,
        3000 => return most + 1,
        _ => {}
    }
    match random.weighted(&[10, 40, 550, 394, 6]) {
        0 => 0,
        1 => 1,
        2 => random.between(2, 8),
        3 => random.between(9, 40),
        _ => random.between(1000, 3000),
    }
}

/// A wrong count, a bad header, bytes too few or too many, seldom two of these.
fn spoil_report(random: &mut Random, report: &mut Vec<u8>) {
    if random.percent(4) {
        // Zones that aren't there, or that the count leaves out.
        let count = u32_at(report, 8);
        let other = random.pick(&[count + 1, count + 2, count.saturating_sub(1), count / 2, MAX_ZONES, 1]);
        put(report, 8, &other.to_le_bytes());
    }
    if random.percent(5) {
        spoil_header(random, report);
    }
    // What is cut off may be the header itself, so this comes last.
    if random.percent(8) {
        spoil_length(random, report);
    }
}

fn spoil_length(random: &mut Random, report: &mut Vec<u8>) {
    let (length, zones) = (report.len() as u64, report.len().saturating_sub(HEADER) / RECORD);
    match random.below(8) {
        0 => report.truncate(random.below(HEADER as u64 + 1) as usize),
        1 => report.truncate(report.len().saturating_sub(1)),
        2 => report.truncate(HEADER + RECORD * random.below(zones as u64) as usize),
        3 => report.truncate(random.below(length) as usize),
        4 | 5 => report.push(random.word() as u8),
        6 => add_noise(random, report, RECORD),
        _ => {
            let more = random.between(2, 200) as usize;
            add_noise(random, report, more);
        }
    }
}

fn add_noise(random: &mut Random, report: &mut Vec<u8>, count: usize) {
    let mut noise = vec![0; count];
    random.fill(&mut noise);
    report.extend(noise);
}

fn spoil_header(random: &mut Random, report: &mut [u8]) {
    match random.below(3) {
        0 => {
            let sector: u64 = random.pick(&[1, 8, 1 << 32, 1 << 40, 1 << 63, u64::MAX]);
            put(report, 0, &sector.to_le_bytes());
        }
        1 => {
            let count =
                random.pick(&[0, MAX_ZONES + 1, MAX_ZONES + 1, MAX_ZONES + 2, 1 << 17, 1 << 31, u32::MAX]);
            put(report, 8, &count.to_le_bytes());
        }
        _ => {
            let flags = 1u32 << random.between(1, 31) | random.below(2) as u32;
            put(report, 12, &flags.to_le_bytes());
        }
    }
}

fn spoil_begin(random: &mut Random, case: &mut PiecesCase) {
    let faults = faults::choose(random, &BEGIN_ORDER);
    for (_, spoil) in SPOILERS.iter().filter(|(fault, _)| faults.contains(fault)) {
        spoil(random, &mut case.super_block);
    }
    if faults.contains(&Refusal::Block) {
        case.block = bad_block(random);
    }
    if faults.contains(&Refusal::SuperBlockLength) {
        case.super_block.resize(random.pick(&BAD_LENGTHS), 0);
    }
    if faults.contains(&Refusal::Options) {
        let too_long = vec![b','; MAX_LENGTH + 1];
        case.options = if random.percent(10) { too_long } else { bad_options(random) };
    }
}

/// How many rows are lent.
enum Tables {
    /// With every piece as many.
    Same(Lent),
    /// Now and then fewer than these, now and then more.
    Changing(Lent),
    /// So many, but with the byte at this place: that table is shorter.
    Losing { lent: Lent, at: usize, cnv: usize },
}

impl Tables {
    /// With the piece of these bytes.
    fn lent(&self, random: &mut Random, bytes: Range<usize>) -> Lent {
        match *self {
            Tables::Same(lent) => lent,
            Tables::Changing(lent) => {
                let mut rows = |files: usize| match random.weighted(&[50, 25, 20, 5]) {
                    0 => files,
                    1 => files + random.between(1, 3) as usize,
                    2 => random.below(files as u64 + 1) as usize,
                    _ => 0,
                };
                Lent { cnv: rows(lent.cnv), seq: rows(lent.seq) }
            }
            Tables::Losing { lent, at, cnv } if bytes.contains(&at) => Lent { cnv, ..lent },
            Tables::Losing { lent, .. } => lent,
        }
    }
}

fn tables(random: &mut Random, files: &[File]) -> Tables {
    let count = |kind: FileKind| files.iter().filter(|file| file.kind == kind).count();
    let exact = Lent { cnv: count(FileKind::Conventional), seq: count(FileKind::Sequential) };
    let more = Lent { cnv: exact.cnv + random.below(4) as usize, seq: exact.seq + random.below(4) as usize };
    match random.weighted(&[35, 25, 20, 6, 9, 5]) {
        0 => Tables::Same(more),
        1 => Tables::Same(exact),
        2 => without(any_of(random, files), exact, more),
        3 => without(any_of(random, &behind_runs(files)), exact, more),
        4 => Tables::Changing(exact),
        _ => losing(random, files, more),
    }
}

fn any_of<T: Clone>(random: &mut Random, items: &[T]) -> Option<T> {
    items.get(random.below(items.len() as u64) as usize).cloned()
}

/// No row for this file, so that its first zone is refused, if nothing is before it.
fn without(file: Option<File>, exact: Lent, more: Lent) -> Tables {
    Tables::Same(match file {
        None => exact,
        Some(File { kind: FileKind::Conventional, number, .. }) => Lent { cnv: number, ..more },
        Some(File { kind: FileKind::Sequential, number, .. }) => Lent { seq: number, ..more },
    })
}

/// The files whose first zone finishes a run, where there are runs.
fn behind_runs(files: &[File]) -> Vec<File> {
    let behind = files.windows(2).filter(|pair| pair[0].finished_by == Some(pair[1].zones.start));
    behind.map(|pair| pair[1].clone()).collect()
}

/// A run that has its row when it begins, and none when it is finished.
fn losing(random: &mut Random, files: &[File], lent: Lent) -> Tables {
    let is_long = |file: &&File| file.finished_by.is_some_and(|zone| zone > file.zones.start);
    let runs: Vec<File> = files.iter().filter(is_long).cloned().collect();
    let Some(run) = any_of(random, &runs) else { return Tables::Changing(lent) };
    let at = last_byte(run.finished_by.unwrap_or(run.zones.start));
    Tables::Losing { lent, at, cnv: random.between(0, run.number as u64) as usize }
}

/// Where the report is cut, in order, often twice at one place: then a piece is empty.
fn places(random: &mut Random, length: usize, tables: &Tables) -> Vec<usize> {
    let mut places =
        if length <= SHORT { fine_places(random, length) } else { coarse_places(random, length) };
    let few = random.pick(&[0, 0, 0, 1, 3]);
    for _ in 0..few {
        let place = if places.is_empty() { 0 } else { random.pick(&places) };
        places.push(random.pick(&[place, place, 0, length]));
    }
    if let Tables::Losing { at, .. } = tables {
        places.extend([*at, *at + 1]);
    }
    places.retain(|&place| place <= length);
    places.sort_unstable();
    places
}

fn fine_places(random: &mut Random, length: usize) -> Vec<usize> {
    let bound = length as u64 + 1;
    let any = |random: &mut Random, count: u64| (0..count).map(|_| random.below(bound) as usize).collect();
    match random.weighted(&[10, 25, 15, 20, 2, 10, 10, 8]) {
        0 => Vec::new(),
        1 => {
            let count = random.between(1, 5);
            any(random, count)
        }
        2 => {
            let count = random.between(6, 30);
            any(random, count)
        }
        3 => between_zones(random, length, 0),
        4 => (1..length).collect(),
        5 => steps_of(random, length, 100),
        // One byte before the zones' last bytes, and behind their first.
        6 => {
            let shift = random.pick(&[-1, 1]);
            between_zones(random, length, shift)
        }
        _ => (1..=HEADER + 1).collect(),
    }
}

fn coarse_places(random: &mut Random, length: usize) -> Vec<usize> {
    match random.below(4) {
        0 => Vec::new(),
        1 => (0..random.between(1, 12)).map(|_| random.below(length as u64) as usize).collect(),
        2 => {
            let shift = random.pick(&[0, -1, 1]);
            between_zones(random, length, shift)
        }
        _ => {
            let each = length / random.between(3, 20) as usize + random.below(64) as usize;
            (each..length).step_by(each).collect()
        }
    }
}

/// Behind the same number of zones each, moved by a byte or not; no more than some forty.
fn between_zones(random: &mut Random, length: usize, shift: isize) -> Vec<usize> {
    let zones = length / RECORD;
    let each = random.between(1, 5) as usize + zones / 40;
    let first = random.pick(&[HEADER, HEADER + RECORD, HEADER + RECORD * each]);
    (first..length).step_by(RECORD * each).map(|place| place.saturating_add_signed(shift)).collect()
}

/// Pieces of any lengths up to this.
fn steps_of(random: &mut Random, length: usize, most: u64) -> Vec<usize> {
    let (mut places, mut place) = (Vec::new(), 0);
    while place < length {
        place += random.between(1, most) as usize;
        places.push(place);
    }
    places
}

fn pieces(random: &mut Random, report: &[u8], places: &[usize], tables: &Tables) -> Vec<Step> {
    let bounds = [&[0], places, &[report.len()]].concat();
    let piece = |pair: &[usize]| {
        let lent = tables.lent(random, pair[0]..pair[1]);
        Step::Piece { bytes: report[pair[0]..pair[1]].to_vec(), lent }
    };
    bounds.windows(2).map(piece).collect()
}

/// The pieces and the end; often more behind it, which a report that has ended doesn't take; seldom an end before it.
fn steps(random: &mut Random, report: &[u8], places: &[usize], tables: &Tables) -> Vec<Step> {
    let mut steps = pieces(random, report, places, tables);
    if random.percent(5) {
        steps.insert(random.below(steps.len() as u64) as usize, Step::End);
    }
    steps.push(Step::End);
    let more = random.pick(&[0, 0, 1, 2, 4]);
    for _ in 0..more {
        let mut bytes = vec![0; random.pick(&[0, 0, 1, 64, 100])];
        random.fill(&mut bytes);
        let lent = tables.lent(random, 0..0);
        let piece = Step::Piece { bytes, lent };
        steps.push(if random.percent(50) { Step::End } else { piece });
    }
    steps
}
