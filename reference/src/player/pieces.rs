//! The mount in pieces: begun with all but the report, whose bytes then arrive cut anywhere, each piece with both tables lent
//! anew. Nothing is kept from step to step here: what every step answers and stores is worked out from the list of all
//! bytes, by the first fault among them and by the files that are finished before it.

use std::ops::Range;

use super::mount::{conventional_row, sequential_row, Begun};
use super::types::{u32_at, Account, FileKind, Mount, Refusal, Row};
use super::zone::{check_zones, Header, Zone, HEADER, RECORD};

/// What a begun mount is handed.
#[derive(Clone, Debug, PartialEq, Eq)]
pub enum Step {
    /// Some bytes of the report, or none.
    Piece {
        bytes: Vec<u8>,
        lent: Lent,
    },
    End,
}

/// How many rows the two tables have that are lent with a piece.
#[derive(Clone, Copy, Debug, Default, PartialEq, Eq)]
pub struct Lent {
    pub cnv: usize,
    pub seq: usize,
}

impl Lent {
    pub fn rows(&self, kind: FileKind) -> usize {
        match kind {
            FileKind::Conventional => self.cnv,
            FileKind::Sequential => self.seq,
        }
    }
}

#[derive(Clone, Debug, PartialEq, Eq)]
pub enum Answer {
    /// To a piece: nothing is wrong so far.
    Taken,
    /// To the end of a whole report.
    Mounted(Mount, Account),
    Refused(Refusal),
}

/// A row that is written into the table lent for its kind.
#[derive(Clone, Copy, Debug, PartialEq, Eq)]
pub struct Stored {
    pub kind: FileKind,
    pub number: usize,
    pub row: Row,
}

/// What a step answers, and all that it writes into the tables lent with it.
#[derive(Clone, Debug, PartialEq, Eq)]
pub struct Outcome {
    pub answer: Answer,
    pub stored: Vec<Stored>,
}

/// A file of the good zones at the front of the report.
#[derive(Clone, Debug, PartialEq, Eq)]
pub struct File {
    pub kind: FileKind,
    pub number: usize,
    /// More than one in a run alone. Where a run is still going on, those so far.
    pub zones: Range<usize>,
    /// With the last byte of this zone it is certain that the file has no more zones. None where it isn't yet.
    pub finished_by: Option<usize>,
    pub row: Row,
}

/// The place of the byte at which something is wrong, in the order of the bytes. One that is missing has a place too.
#[derive(Clone, Copy, Debug, PartialEq, Eq)]
pub struct Fault {
    pub at: usize,
    /// The step that brings this byte, or that is the end without it.
    pub step: usize,
    pub refusal: Refusal,
}

/// The place of a zone's last byte.
pub fn last_byte(zone: usize) -> usize {
    HEADER + RECORD * (zone + 1) - 1
}

/// The bytes of all steps in one list.
struct Arrived {
    bytes: Vec<u8>,
    /// How many there are after each step.
    ends: Vec<usize>,
    /// The first end that comes before the report is whole. Bytes that come after it count no more.
    early_end: Option<usize>,
}

impl Arrived {
    fn of(steps: &[Step]) -> Arrived {
        let (mut bytes, mut ends) = (Vec::new(), Vec::new());
        for step in steps {
            if let Step::Piece { bytes: more, .. } = step {
                bytes.extend_from_slice(more);
            }
            ends.push(bytes.len());
        }
        let is_early = |step: &usize| steps[*step] == Step::End && !has_whole_report(&bytes[..ends[*step]]);
        let early_end = (0..steps.len()).find(is_early);
        bytes.truncate(early_end.map_or(bytes.len(), |step| ends[step]));
        Arrived { bytes, ends, early_end }
    }

    fn step_of(&self, at: usize) -> usize {
        self.ends.partition_point(|&end| end <= at)
    }

    /// None where the header isn't whole yet, or isn't good.
    fn header(&self) -> Option<Header> {
        self.bytes.get(..HEADER).and_then(Header::decode)
    }

    /// The zones of which no byte is missing.
    fn zones(&self) -> Vec<Zone> {
        let Some(Header { count, capacity_given }) = self.header() else { return Vec::new() };
        let records = self.bytes[HEADER..].chunks_exact(RECORD).take(count);
        records.map(|record| Zone::decode(record, capacity_given)).collect()
    }
}

/// Whether these bytes are a report with a good header, and perhaps more.
fn has_whole_report(bytes: &[u8]) -> bool {
    let header = bytes.get(..HEADER).and_then(Header::decode);
    header.is_some_and(|header| bytes.len() >= header.report_length())
}

/// All that follows from the bytes of a list of steps.
pub struct Reading<'a> {
    begun: &'a Begun,
    steps: &'a [Step],
    arrived: Arrived,
    pub zones: Vec<Zone>,
    pub files: Vec<File>,
    /// The first in byte order.
    pub fault: Option<Fault>,
}

impl<'a> Reading<'a> {
    pub fn of(begun: &'a Begun, steps: &'a [Step]) -> Reading<'a> {
        let arrived = Arrived::of(steps);
        let zones = arrived.zones();
        let mut reading = Reading { begun, steps, arrived, zones, files: Vec::new(), fault: None };
        // A bad zone finishes nothing, and what comes after it is no matter.
        let bad = reading.bad_zone();
        let good = &reading.zones[..bad.map_or(reading.zones.len(), |(zone, _)| zone)];
        reading.files = files(good, reading.count(), reading.aggregates());
        let faults =
            [reading.header_fault(), reading.zone_fault(bad), reading.row_fault(), reading.length_fault()];
        reading.fault = faults.into_iter().flatten().min_by_key(|fault| fault.at);
        reading
    }

    /// How many zones the header says there are; none without a good one.
    pub fn count(&self) -> usize {
        self.arrived.header().map_or(0, |header| header.count)
    }

    /// The same, be the header good or not. None where it isn't whole.
    pub fn stated_count(&self) -> Option<u32> {
        self.arrived.bytes.get(..HEADER).map(|header| u32_at(header, 8))
    }

    pub fn aggregates(&self) -> bool {
        self.begun.super_block.aggregate
    }

    /// Whether any zone that has come is bad, be it the first fault or not.
    pub fn has_bad_zone(&self) -> bool {
        self.bad_zone().is_some()
    }

    fn bad_zone(&self) -> Option<(usize, Refusal)> {
        match check_zones(&self.zones, self.begun.block) {
            Err(refusal @ Refusal::BadZone { zone, .. }) => Some((zone as usize, refusal)),
            _ => None,
        }
    }

    /// The step that brings the byte at this place.
    pub fn step_of(&self, at: usize) -> usize {
        self.arrived.step_of(at)
    }

    fn fault_at(&self, at: usize, refusal: Refusal) -> Fault {
        Fault { at, step: self.step_of(at), refusal }
    }

    /// 28 for sector, count or flags: at the header's last byte, when all three are known.
    fn header_fault(&self) -> Option<Fault> {
        let bad = self.arrived.bytes.len() >= HEADER && self.arrived.header().is_none();
        bad.then(|| self.fault_at(HEADER - 1, Refusal::ReportHeader))
    }

    /// "a zone's fault at its last byte" (K4).
    fn zone_fault(&self, bad: Option<(usize, Refusal)>) -> Option<Fault> {
        bad.map(|(zone, refusal)| self.fault_at(last_byte(zone), refusal))
    }

    /// 30: at the first zone of a file that has no row; and at the zone that finishes one whose row was there when it
    /// began, where a shorter table is lent by then.
    fn row_fault(&self) -> Option<Fault> {
        let looked_for = |file: &File| [Some(file.zones.start), file.finished_by].into_iter().flatten();
        let without =
            self.files.iter().flat_map(|file| looked_for(file).filter(|&zone| !self.has_row(file, zone)));
        without.min().map(|zone| self.fault_at(last_byte(zone), Refusal::TooFewRows))
    }

    /// 28: at the first byte behind the report, or at the place of the first one that is missing when it ends.
    fn length_fault(&self) -> Option<Fault> {
        let there = self.arrived.bytes.len();
        if let Some(step) = self.arrived.early_end {
            return Some(Fault { at: there, step, refusal: Refusal::ReportHeader });
        }
        let length = self.arrived.header()?.report_length();
        (there > length).then(|| self.fault_at(length, Refusal::ReportHeader))
    }

    /// Whether the table lent with this zone's last byte has a row for the file.
    fn has_row(&self, file: &File, zone: usize) -> bool {
        match &self.steps[self.step_of(last_byte(zone))] {
            Step::Piece { lent, .. } => file.number < lent.rows(file.kind),
            Step::End => unreachable!("an end brings no byte"),
        }
    }

    /// Where the file's row is stored: with the zone that finishes it, if nothing is wrong up to there; "before a 30 there", if
    /// that zone is another file's.
    fn stored_by(&self, file: &File) -> Option<usize> {
        let zone = file.finished_by?;
        let at = last_byte(zone);
        let Some(fault) = self.fault else { return Some(zone) };
        let by_another = !file.zones.contains(&zone) && self.has_row(file, zone);
        let before_30 = at == fault.at && fault.refusal == Refusal::TooFewRows && by_another;
        (at < fault.at || before_30).then_some(zone)
    }

    /// Those whose rows are stored, with the step that stores them, in the order of the bytes.
    pub fn stored(&self) -> impl Iterator<Item = (usize, &File)> {
        let with_step = |zone: usize| self.step_of(last_byte(zone));
        self.files.iter().filter_map(move |file| self.stored_by(file).map(|zone| (with_step(zone), file)))
    }

    /// What every step answers, and what it stores.
    pub fn outcomes(&self) -> Vec<Outcome> {
        let outcome = |step: usize| Outcome { answer: self.answer(step), stored: Vec::new() };
        let mut outcomes: Vec<Outcome> = (0..self.steps.len()).map(outcome).collect();
        for (step, &File { kind, number, row, .. }) in self.stored() {
            outcomes[step].stored.push(Stored { kind, number, row });
        }
        outcomes
    }

    /// From the first fault on the same refusal. An end before it has the whole report.
    fn answer(&self, step: usize) -> Answer {
        match (self.fault, &self.steps[step]) {
            (Some(fault), _) if fault.step <= step => Answer::Refused(fault.refusal),
            (_, Step::Piece { .. }) => Answer::Taken,
            (_, Step::End) => {
                let (mount, account) = self.mounted();
                Answer::Mounted(mount, account)
            }
        }
    }

    fn mounted(&self) -> (Mount, Account) {
        let of_kind = |kind: FileKind| self.files.iter().filter(move |file| file.kind == kind);
        let seq_rows: Vec<Row> = of_kind(FileKind::Sequential).map(|file| file.row).collect();
        self.begun.mounted(of_kind(FileKind::Conventional).count(), &seq_rows)
    }
}

/// The files of good zones, by zone. `count` is how many zones there will be. Zone 0 is no file and belongs to no run.
pub fn files(good: &[Zone], count: usize, aggregate: bool) -> Vec<File> {
    let (mut files, mut cnv_files, mut seq_files) = (Vec::new(), 0, 0);
    let mut first = 1;
    while first < good.len() {
        let conventional = good[first].is_conventional();
        let (zones, finished_by) = if conventional && aggregate {
            let run = run_from(first, good);
            (run.clone(), run_finished_by(&run, good.len(), count))
        } else {
            (first..first + 1, Some(first))
        };
        first = zones.end;
        let (kind, numbers, row) = if conventional {
            (FileKind::Conventional, &mut cnv_files, conventional_row(&good[zones.clone()]))
        } else {
            (FileKind::Sequential, &mut seq_files, sequential_row(&good[zones.start]))
        };
        files.push(File { kind, number: *numbers, zones, finished_by, row });
        *numbers += 1;
    }
    files
}

/// The longest run of conventional zones that begins there.
fn run_from(first: usize, good: &[Zone]) -> Range<usize> {
    let length = good[first..].iter().take_while(|zone| zone.is_conventional()).count();
    first..first + length
}

/// "a run is finished by the count's last zone or a good zone of another type" (K4): where one follows, it is of another type, as the run is
/// the longest.
fn run_finished_by(run: &Range<usize>, good: usize, count: usize) -> Option<usize> {
    if run.end < good {
        Some(run.end)
    } else {
        (run.end == count).then_some(run.end - 1)
    }
}
