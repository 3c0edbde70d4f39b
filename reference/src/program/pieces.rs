//! What came of the mounts in pieces: the answers, and the edges at which one that keeps a state between pieces may go wrong.

use std::collections::{BTreeMap, BTreeSet};
use std::fmt::{self, Display, Formatter};

use super::tally::counts_text;
use crate::disk::consistency::add_each;
use crate::player::pieces::{last_byte, Answer, Fault, File, Outcome, Reading, Step};
use crate::player::types::{FileKind, Refusal, MAX_ZONES};
use crate::player::zone::{HEADER, RECORD};

/// Every number that a mount in pieces is refused with: that of memory that is too short or holds no begun mount first, then begin's,
/// then those of the report.
pub const NUMBERS: [u32; 13] = [10, 20, 21, 22, 23, 24, 25, 33, 26, 27, 28, 29, 30];
/// The reasons of 29, by their numbers.
const REASONS: usize = 7;

/// So many edges are counted.
pub const EDGES: usize = 24;
/// What they are. A run is a conventional file with feature bit 0.
pub const EDGE_NAMES: [&str; EDGES] = [
    "28 of a header, and bytes behind it in the same piece",
    "28 of a header at the end of a piece",
    "28 of an end within the header",
    "28 of an end within a zone",
    "28 of an end between zones",
    "28 of a byte too many in the last zone's piece",
    "28 of a byte too many in a later piece",
    "28 of a byte too many after a good end",
    "29 of zone 0",
    "29 of the last zone",
    "29 right behind a run, which isn't stored",
    "29 of a zone whose last byte begins a piece",
    "30 at the first zone of a run",
    "30 at the first zone of another file",
    "30 at a zone that finishes a run, which is stored",
    "30 of a run that had a row, at the zone behind it",
    "30 of a run that had a row, at the last zone",
    "30 before a bad zone",
    "rows stored by an earlier piece than the refused one",
    "a run accepted behind a conventional zone 0",
    "a run accepted whose zones came in three pieces or more",
    "an empty piece and a second end, accepted",
    "65,536 zones accepted",
    "28 of 65,537 zones",
];

#[derive(Clone, Debug, Default, PartialEq, Eq)]
pub struct Pieces {
    pub cases: u64,
    pub pieces: u64,
    pub accepted: u64,
    /// By number: the cases that were refused; of 10 the calls.
    pub refused: BTreeMap<u32, u64>,
    pub reasons: [u64; REASONS],
    pub edges: [u64; EDGES],
}

impl Pieces {
    /// A case that begin refuses.
    pub fn count_unbegun(&mut self, refusal: Refusal) {
        self.cases += 1;
        self.count_number(refusal.number());
    }

    /// A call refused with 10.
    pub fn count_impossible(&mut self) {
        self.count_number(Refusal::Impossible.number());
    }

    fn count_number(&mut self, number: u32) {
        *self.refused.entry(number).or_default() += 1;
    }

    pub fn count(&mut self, reading: &Reading, steps: &[Step], outcomes: &[Outcome]) {
        self.cases += 1;
        self.pieces += steps.iter().filter(|step| **step != Step::End).count() as u64;
        self.accepted += u64::from(is_accepted(outcomes));
        if let Some(fault) = reading.fault {
            self.count_number(fault.refusal.number());
            if let Refusal::BadZone { reason, .. } = fault.refusal {
                self.reasons[reason.number() as usize - 1] += 1;
            }
        }
        let case = Case { reading, steps, outcomes };
        let edges = [&case.length_edges()[..], &case.zone_edges(), &case.row_edges(), &case.accepted_edges()]
            .concat();
        add_each(&mut self.edges, &edges.into_iter().map(u64::from).collect::<Vec<_>>());
    }

    /// What never came.
    pub fn missing(&self) -> Vec<String> {
        let numbers = NUMBERS.iter().filter(|number| !self.refused.contains_key(number));
        let reasons = (1..).zip(self.reasons).filter(|(_, count)| *count == 0);
        let edges = EDGE_NAMES.iter().zip(self.edges).filter(|(_, count)| *count == 0);
        let accepted = (self.accepted == 0).then(|| "0".to_string());
        let refusals = numbers.map(u32::to_string).chain(accepted);
        let reasons = reasons.map(|(number, _): (u32, u64)| format!("29 with reason {number}"));
        refusals.chain(reasons).chain(edges.map(|(name, _)| name.to_string())).collect()
    }
}

/// One line on a comparison.
impl Display for Pieces {
    fn fmt(&self, out: &mut Formatter) -> fmt::Result {
        let refused = |number: &u32| format!("{number}={}", self.refused.get(number).copied().unwrap_or(0));
        let refused: Vec<String> = NUMBERS.iter().map(refused).collect();
        write!(
            out,
            "{} mounts in {} pieces (0={} {}), reasons of 29 {}, edges {}",
            self.cases,
            self.pieces,
            self.accepted,
            refused.join(" "),
            counts_text(&self.reasons),
            counts_text(&self.edges)
        )
    }
}

/// Whether an end was answered 0, be the mount refused later or not.
pub fn is_accepted(outcomes: &[Outcome]) -> bool {
    outcomes.iter().any(|outcome| matches!(outcome.answer, Answer::Mounted(..)))
}

/// A case and what came of it.
struct Case<'a> {
    reading: &'a Reading<'a>,
    steps: &'a [Step],
    outcomes: &'a [Outcome],
}

impl Case<'_> {
    /// The first fault, if it is one of this number.
    fn fault(&self, number: u32) -> Option<Fault> {
        self.reading.fault.filter(|fault| fault.refusal.number() == number)
    }

    /// How many bytes had come before a step.
    fn bytes_before(&self, step: usize) -> usize {
        let length = |step: &Step| match step {
            Step::Piece { bytes, .. } => bytes.len(),
            Step::End => 0,
        };
        self.steps[..step].iter().map(length).sum()
    }

    fn is_run(&self, file: &File) -> bool {
        self.reading.aggregates() && file.kind == FileKind::Conventional
    }

    /// Those of 28.
    fn length_edges(&self) -> [bool; 8] {
        let Some(Fault { at, step, .. }) = self.fault(28) else { return [false; 8] };
        let at_end = self.steps[step] == Step::End;
        let of_header = self.reading.count() == 0 && !at_end;
        let last_in_piece = self.bytes_before(step + 1) == at + 1;
        let too_many = !at_end && !of_header;
        let last_zones_piece = too_many && self.reading.step_of(at - 1) == step;
        let accepted = is_accepted(self.outcomes);
        let between = at >= HEADER && (at - HEADER).is_multiple_of(RECORD);
        [
            of_header && !last_in_piece,
            of_header && last_in_piece,
            at_end && at < HEADER,
            at_end && at > HEADER && !between,
            at_end && between,
            last_zones_piece,
            too_many && !last_zones_piece && !accepted,
            too_many && accepted,
        ]
    }

    /// Those of 29.
    fn zone_edges(&self) -> [bool; 4] {
        let Some(Fault { at, step, refusal: Refusal::BadZone { zone, .. } }) = self.reading.fault else {
            return [false; 4];
        };
        let zone = zone as usize;
        let behind_run =
            self.reading.files.last().is_some_and(|file| self.is_run(file) && file.finished_by.is_none());
        [zone == 0, zone + 1 == self.reading.count(), behind_run, self.bytes_before(step) == at]
    }

    /// Those of 30, and of the rows that a refused mount leaves.
    fn row_edges(&self) -> [bool; 7] {
        let (Some(fault), files) = (self.reading.fault, &self.reading.files) else { return [false; 7] };
        let is_30 = fault.refusal == Refusal::TooFewRows;
        let here = |zone: usize| is_30 && last_byte(zone) == fault.at;
        let stored: Vec<(usize, &File)> = self.reading.stored().collect();
        let is_stored = |file: &File| stored.iter().any(|(_, other)| *other == file);
        let begins = |run: bool| files.iter().any(|file| here(file.zones.start) && self.is_run(file) == run);
        let finished: Vec<&File> = files.iter().filter(|file| file.finished_by.is_some_and(here)).collect();
        let long_run = |file: &&&File| self.is_run(file) && !here(file.zones.start);
        let behind = |file: &&&File| file.finished_by == Some(file.zones.end);
        let lost = |file: &&&File| long_run(file) && !is_stored(file);
        let lost_behind = finished.iter().filter(lost).any(|file| behind(&file));
        [
            begins(true),
            begins(false) && finished.iter().filter(lost).count() == 0,
            finished.iter().filter(long_run).any(|file| is_stored(file)),
            lost_behind,
            finished.iter().filter(lost).any(|file| !behind(&file)),
            is_30 && self.reading.has_bad_zone(),
            stored.iter().any(|(step, _)| *step < fault.step) && !is_accepted(self.outcomes),
        ]
    }

    /// Those of mounts that were accepted, and the count just above the most.
    fn accepted_edges(&self) -> [bool; 5] {
        let Reading { zones, files, .. } = self.reading;
        let accepted = is_accepted(self.outcomes);
        let pieces_of = |file: &File| {
            let steps = file.zones.clone().map(|zone| self.reading.step_of(last_byte(zone)));
            steps.collect::<BTreeSet<_>>().len()
        };
        let runs = || files.iter().filter(|file| accepted && self.is_run(file));
        let after_0 = zones.first().is_some_and(|zone| zone.is_conventional());
        let empty = |step: &Step| matches!(step, Step::Piece { bytes, .. } if bytes.is_empty());
        let ends = self.outcomes.iter().filter(|outcome| matches!(outcome.answer, Answer::Mounted(..)));
        let most = MAX_ZONES as usize;
        [
            after_0 && runs().any(|file| file.zones.start == 1),
            zones.len() < 100 && runs().any(|file| pieces_of(file) >= 3),
            self.reading.fault.is_none() && self.steps.iter().any(empty) && ends.count() >= 2,
            accepted && self.reading.count() == most,
            self.fault(28).is_some() && self.reading.stated_count() == Some(MAX_ZONES + 1),
        ]
    }
}
