//! The consistency check: a run of calls, mishaps and completions on a truthful disk. After each of them every file that
//! has nothing outstanding is compared with a fresh mount.

use std::collections::VecDeque;

use super::accounts::account_fault;
use super::answers::{
    call_fault, call_moved, complete, completion_fault, limit_fault, Found, FAILED, GOOD, IMPOSSIBLE,
    NOTHING_OUTSTANDING, NO_SUCH_FILE, RECORD_MISMATCH,
};
use super::model::{Choice, Disk, Mishap, Outcome};
use super::truth::{is_true, shown_in, Shown, FREEDOMS};
use crate::player::calls::{Call, Reply};
use crate::player::mount::{mount, Input};
use crate::player::play::mount_volume;
use crate::player::superblock;
use crate::player::tape::{CallRecord, Named, Verb};
use crate::player::types::{
    Access, Account, Condition, FileKind, Operation, Outstanding, Policy, Refusal, Row, Volume, SECTOR,
};
use crate::player::zone::{self, Zone, HEADER, RECORD};

/// A failed check shows so many entries of its run.
const ENTRIES_SHOWN: usize = 40;
/// A run's tables have so many rows past their files, which nothing may move. More would only cost time.
const SPARE_ROWS: usize = 3;
/// The check allows for so many exceptions.
pub const EXCEPTIONS: usize = 3;

/// What a check has compared.
#[derive(Clone, Copy, Debug, Default, PartialEq, Eq)]
pub struct Compared {
    /// States between entries, each with a fresh mount.
    pub states: u64,
    /// Rows with nothing outstanding that were compared with it, and those of them while other files had commands.
    pub rows: u64,
    pub rows_beside: u64,
    pub exceptions: [u64; EXCEPTIONS],
    /// Commands that failed, each with a record.
    pub failures: u64,
    /// Those records, by what their bytes had other than the disk's own; and the same of zones in fresh reports.
    pub records: [u64; FREEDOMS],
    pub reports: [u64; FREEDOMS],
    /// Completions on copies that no run can have.
    pub impossible: u64,
    /// Accounts that were compared with the rows, in runs of any sort.
    pub accounts: u64,
}

impl Compared {
    pub fn add(&mut self, other: &Compared) {
        self.states += other.states;
        self.rows += other.rows;
        self.rows_beside += other.rows_beside;
        self.failures += other.failures;
        self.impossible += other.impossible;
        self.accounts += other.accounts;
        add_each(&mut self.exceptions, &other.exceptions);
        add_each(&mut self.records, &other.records);
        add_each(&mut self.reports, &other.reports);
    }
}

/// Adds each count to the sum at its place.
pub fn add_each(sums: &mut [u64], counts: &[u64]) {
    for (sum, count) in sums.iter_mut().zip(counts) {
        *sum += count;
    }
}

/// What has happened to one file, as far as the check needs it.
#[derive(Clone, Copy, Debug)]
struct Story {
    /// No mishap since the mount or the last completion on it other than a good read.
    quiet: bool,
    /// A command failed, other than a read that found everything as it was.
    recovered: bool,
    /// What a fresh mount would have given when the file was last quiet with a healthy zone.
    last_size: u64,
    read_only_at_mount: bool,
    /// By the answers, and not by the rows.
    opens: u64,
}

/// One entry of the list, kept to be shown when a check fails.
#[derive(Clone, Copy, Debug)]
pub enum Entry {
    Call(CallRecord, Result<Reply, Refusal>),
    Mishap {
        zone: usize,
        mishap: Mishap,
        happened: bool,
    },
    Doing {
        command: Outstanding,
        choice: Choice,
        outcome: Outcome,
        /// What the record of a failure says.
        shown: Option<Zone>,
    },
    /// A completion that names a file with nothing outstanding, or no file.
    StrayCompletion(Named),
    /// A record that isn't the disk's, refused. The paper's lists don't have it; it changes nothing.
    UntrueCompletion(Named),
}

/// Makes a report that shows the zones as they are.
type ShowReport = Box<dyn FnMut(&[Zone]) -> Vec<u8>>;

pub struct Run {
    input: Input,
    show_report: ShowReport,
    pub disk: Disk,
    pub volume: Volume,
    /// The file of each zone; zone 0 has none.
    owner: Vec<Option<(FileKind, u32)>>,
    cnv: Vec<Story>,
    seq: Vec<Story>,
    seq_zone: Vec<usize>,
    /// What the disk was given by calls and hasn't done yet, in the order of issue.
    outstanding: Vec<Outstanding>,
    /// How many entries there were, and the last of them.
    entries: u64,
    last_entries: VecDeque<Entry>,
    pub compared: Compared,
}

impl Run {
    /// Starts from a mount that must be answered 0, with the disk as its report says.
    pub fn begin(input: &Input) -> Result<Run, String> {
        let refused = |refusal: Refusal| format!("the first mount is refused with {}", refusal.number());
        let mut volume = mount_volume(input).map_err(refused)?;
        volume.cnv.truncate(volume.mount.cnv_files + SPARE_ROWS);
        volume.seq.truncate(volume.mount.seq_files + SPARE_ROWS);
        let zones = zone::decode_report(&input.report).map_err(refused)?;
        let aggregate = superblock::decode(&input.super_block).map_err(refused)?.aggregate;
        let owner = owners(&zones, aggregate);
        let seq_zone: Vec<usize> = (1..zones.len()).filter(|&zone| !zones[zone].is_conventional()).collect();
        let disk = Disk::new(zones, volume.mount.block);
        let story = |zone: Option<&Zone>| Story {
            quiet: true,
            recovered: false,
            last_size: zone.map_or(0, size_if_healthy),
            read_only_at_mount: zone.is_some_and(|zone| zone.health() == Condition::ReadOnly),
            opens: 0,
        };
        let mut run = Run {
            input: input.clone(),
            show_report: Box::new(first_report_changed(input.report.clone())),
            cnv: vec![story(None); volume.mount.cnv_files],
            seq: seq_zone.iter().map(|&zone| story(Some(&disk.zones[zone]))).collect(),
            disk,
            volume,
            owner,
            seq_zone,
            outstanding: Vec::new(),
            entries: 0,
            last_entries: VecDeque::new(),
            compared: Compared::default(),
        };
        run.end_entry()?;
        Ok(run)
    }

    /// From now on fresh mounts get the reports that `show_report` makes, each of them a true one.
    pub fn showing(self, show_report: impl FnMut(&[Zone]) -> Vec<u8> + 'static) -> Run {
        Run { show_report: Box::new(show_report), ..self }
    }

    /// The commands that the disk has yet to do, in the order of issue.
    pub fn outstanding(&self) -> &[Outstanding] {
        &self.outstanding
    }

    pub fn is_busy(&self, kind: FileKind, number: u32) -> bool {
        self.outstanding.iter().any(|command| command.is_of(kind, number))
    }

    pub fn call(&mut self, call: &Call) -> Result<(), String> {
        self.recorded_call(&CallRecord::of(call))
    }

    /// A call as a tape has it: also one with a kind byte that no file has.
    pub fn recorded_call(&mut self, record: &CallRecord) -> Result<(), String> {
        let named = record.named();
        let found = self.find(&named);
        let before = self.volume.clone();
        let answer = self.volume.recorded_call(record);
        self.note(Entry::Call(*record, answer));
        self.complain_of(call_fault(found, record.verb, &answer))?;
        self.complain_of(call_moved(record, &answer, &before, &self.volume))?;
        self.complain_of(limit_fault(&answer, &answer_without_limits(before, record)))?;
        if let (Ok(reply), Some((kind, number))) = (answer, named.file()) {
            if let Reply::Issued(command) = reply {
                self.outstanding.push(Outstanding { kind, number, command });
            }
            self.count_opens(kind, number, record.verb);
        }
        self.end_entry()
    }

    /// A file is open "from the moment its first open is commanded or answered until its last close is".
    fn count_opens(&mut self, kind: FileKind, number: u32, verb: Verb) {
        let opens = &mut self.story(kind, number).opens;
        match (kind, verb) {
            (FileKind::Sequential, Verb::Open) => *opens += 1,
            (FileKind::Sequential, Verb::Close) => *opens = opens.saturating_sub(1),
            _ => {}
        }
    }

    /// Whether the file is there, by the zones, and busy, by what the disk has yet to do.
    fn find(&self, named: &Named) -> Found {
        match named.file() {
            Some((kind, number)) if self.is_busy(kind, number) => Found::Busy,
            Some(file) if self.owner.contains(&Some(file)) => Found::Idle,
            _ => Found::NoFile,
        }
    }

    pub fn mishap(&mut self, zone: usize, mishap: Mishap) -> Result<(), String> {
        let happened = self.disk.suffer(zone, mishap);
        if happened {
            self.disturb(zone);
        }
        self.note(Entry::Mishap { zone, mishap, happened });
        self.end_entry()
    }

    /// A completion that names a file with nothing outstanding, or no file: refused, and nothing moves.
    pub fn stray_completion(&mut self, named: &Named, failed: Option<&Shown>) -> Result<(), String> {
        let must_be = match self.find(named) {
            Found::NoFile => NO_SUCH_FILE,
            Found::Idle => NOTHING_OUTSTANDING,
            Found::Busy => return Err(self.complaint("a stray completion names a busy file")),
        };
        let before = self.volume.clone();
        let answer = complete(&mut self.volume, named, failed);
        self.note(Entry::StrayCompletion(*named));
        let fault = completion_fault(named, must_be, answer, &before, &self.volume);
        self.complain_of(fault.map(|fault| format!("a stray completion {fault}")))?;
        self.end_entry()
    }

    /// A failure of a busy file whose record isn't the disk's: refused, and nothing moves. One that the player takes
    /// would be a lie of the disk, which has no place in a run: then it didn't come, and false is given.
    pub fn untrue_completion(&mut self, named: &Named, shown: &Shown) -> Result<bool, String> {
        let mut trial = self.volume.clone();
        let answer = complete(&mut trial, named, Some(shown));
        if answer == FAILED {
            return Ok(false);
        }
        self.note(Entry::UntrueCompletion(*named));
        let fault = completion_fault(named, RECORD_MISMATCH, answer, &self.volume, &trial);
        self.complain_of(fault.map(|fault| format!("an untrue completion {fault}")))?;
        Ok(true)
    }

    /// A completion of a busy file on a spoilt copy of the volume: refused, and nothing moves.
    pub fn impossible_completion(
        &mut self,
        spoilt: &Volume,
        named: &Named,
        failed: Option<&Shown>,
    ) -> Result<(), String> {
        let mut trial = spoilt.clone();
        let answer = complete(&mut trial, named, failed);
        self.compared.impossible += 1;
        let fault = completion_fault(named, IMPOSSIBLE, answer, spoilt, &trial);
        self.complain_of(fault.map(|fault| format!("a completion on a copy that no run has {fault}")))
    }

    /// The disk does the file's command and its completion is digested, in one moment; `show` makes the record of the
    /// zone. Nothing happens, and None is given, while nothing is outstanding on the file.
    pub fn doing(
        &mut self,
        kind: FileKind,
        number: u32,
        choice: &Choice,
        mut show: impl FnMut(&Zone) -> Shown,
    ) -> Result<Option<Option<Shown>>, String> {
        let Some(place) = self.outstanding.iter().position(|command| command.is_of(kind, number)) else {
            return Ok(None);
        };
        let command = self.outstanding.remove(place);
        let quiet = self.story(kind, number).quiet;
        let outcome = self.disk.perform(&command.command, quiet, choice);
        if outcome.mishap {
            self.disturb(outcome.zone);
        }
        let shown = outcome.failed.then(|| show(&self.disk.zones[outcome.zone]));
        self.note(Entry::Doing { command, choice: *choice, outcome, shown: shown.map(|shown| shown.zone()) });
        if let Some(shown) = &shown {
            let freedoms = self.check_shown(shown, outcome.zone)?;
            add_each(&mut self.compared.records, &freedoms);
            self.compared.failures += 1;
        }
        self.digest(&command, shown.as_ref())?;
        self.note_completion(&command, &outcome);
        self.end_entry()?;
        Ok(Some(shown))
    }

    /// Digests a truthful completion.
    fn digest(&mut self, command: &Outstanding, failed: Option<&Shown>) -> Result<(), String> {
        let named = Named::of(command.kind, command.number);
        let before = self.volume.clone();
        let answer = complete(&mut self.volume, &named, failed);
        let must_be = if failed.is_some() { FAILED } else { GOOD };
        let fault = completion_fault(&named, must_be, answer, &before, &self.volume);
        self.complain_of(fault.map(|fault| format!("a truthful completion {fault}")))?;
        self.check_frame(&before, command, failed.is_some())
    }

    /// What isn't true of the zone is a fault; gives in what it differs from the disk's own bytes, as counts.
    fn check_shown(&self, shown: &Shown, number: usize) -> Result<[u64; FREEDOMS], String> {
        let zone = &self.disk.zones[number];
        let true_of_it = is_true(&shown.zone(), zone, self.volume.mount.block);
        self.complain_of((!true_of_it).then(|| {
            format!("zone {number} is {zone:?}, and is shown as {:?}, which isn't true", shown.zone())
        }))?;
        Ok(shown.freedoms(zone).map(u64::from))
    }

    fn complain_of(&self, fault: Option<String>) -> Result<(), String> {
        fault.map_or(Ok(()), |fault| Err(self.complaint(&fault)))
    }

    fn note(&mut self, entry: Entry) {
        self.entries += 1;
        self.last_entries.push_back(entry);
        if self.last_entries.len() > ENTRIES_SHOWN {
            self.last_entries.pop_front();
        }
    }

    /// The file of the command is quiet again, unless all that was seen is a good read; an open and a close "done well count
    /// as a good read". Its opens go with "a failed open or the loss of write access".
    fn note_completion(&mut self, command: &Outstanding, outcome: &Outcome) {
        let operation = command.command.operation;
        let read = operation == Operation::Read;
        let like_read = matches!(operation, Operation::Read | Operation::Open | Operation::Close);
        let zone = self.disk.zones[outcome.zone];
        let lost = self.volume.row(command.kind, command.number).access != Access::Write;
        let story = self.story(command.kind, command.number);
        if outcome.failed && (lost || operation == Operation::Open) {
            story.opens = 0;
        }
        // Only sequential files are compared, so only their recoveries matter.
        if outcome.failed && command.kind == FileKind::Sequential {
            let as_before = zone.health() == Condition::Healthy && size_if_healthy(&zone) == story.last_size;
            story.recovered |= !(read && as_before);
        }
        story.quiet |= outcome.failed || !like_read;
    }

    fn story(&mut self, kind: FileKind, number: u32) -> &mut Story {
        match kind {
            FileKind::Conventional => &mut self.cnv[number as usize],
            FileKind::Sequential => &mut self.seq[number as usize],
        }
    }

    fn disturb(&mut self, zone: usize) {
        if let Some((kind, number)) = self.owner[zone] {
            self.story(kind, number).quiet = false;
        }
    }

    /// A completion may have changed the row of its file, with a sequential one's the account's two numbers, and by a
    /// failure under remount-ro set the mark. What other files have outstanding stays in their rows.
    fn check_frame(&self, before: &Volume, command: &Outstanding, failed: bool) -> Result<(), String> {
        let mut expected = before.clone();
        let may_mark = failed && before.mount.policy == Policy::RemountReadOnly;
        expected.mount.read_only |= may_mark && self.volume.mount.read_only;
        *expected.row_mut(command.kind, command.number) = *self.volume.row(command.kind, command.number);
        if command.kind == FileKind::Sequential {
            let Account { open, active, .. } = self.volume.account;
            expected.account = Account { open, active, ..before.account };
        }
        let moved = expected != self.volume;
        self.complain_of(moved.then(|| "something moved beside the row that was concerned".to_string()))
    }

    /// Between entries: last sizes are taken, each file that has nothing outstanding is compared with a fresh mount, and the
    /// opens of all files and the account with what they must be.
    fn end_entry(&mut self) -> Result<(), String> {
        for (story, &zone) in self.seq.iter_mut().zip(&self.seq_zone) {
            let zone = &self.disk.zones[zone];
            if story.quiet && zone.health() == Condition::Healthy {
                story.last_size = size_if_healthy(zone);
            }
        }
        self.compared.states += 1;
        let fresh = self.fresh_rows()?;
        self.compare_rows(&fresh)?;
        self.complain_of(self.opens_fault())?;
        self.compared.accounts += 1;
        self.complain_of(account_fault(&self.volume))
    }

    /// What is wrong with the opens of any row.
    fn opens_fault(&self) -> Option<String> {
        let of_kind = |kind: FileKind, stories: &[Story]| {
            let mut rows = self.volume.rows(kind).iter().zip(stories).enumerate();
            let (number, (row, story)) = rows.find(|(_, (row, story))| row.opens != story.opens)?;
            Some(format!("{kind:?} file {number} has {} opens and not {}", row.opens, story.opens))
        };
        of_kind(FileKind::Sequential, &self.seq).or_else(|| of_kind(FileKind::Conventional, &self.cnv))
    }

    /// Every quiet sequential file with nothing outstanding.
    fn compare_rows(&mut self, fresh: &[Row]) -> Result<(), String> {
        for (number, fresh) in fresh.iter().enumerate().take(self.seq.len()) {
            if self.seq[number].quiet && !self.is_busy(FileKind::Sequential, number as u32) {
                self.compare_row(number, fresh)?;
            }
        }
        Ok(())
    }

    /// The sequential rows of a mount with the same arguments, in other tables as long, but with a report that shows the
    /// zones as they are now.
    fn fresh_rows(&mut self) -> Result<Vec<Row>, String> {
        let report = (self.show_report)(&self.disk.zones);
        let input = Input { report, ..self.input.clone() };
        let mut cnv = vec![Row::EMPTY; self.volume.cnv.len()];
        let mut seq = vec![Row::EMPTY; self.volume.seq.len()];
        mount(&input, &mut cnv, &mut seq).map_err(|refusal| {
            self.complaint(&format!("the fresh mount is refused with {}", refusal.number()))
        })?;
        self.check_report(&input.report)?;
        Ok(seq)
    }

    /// The report shows all zones, and of each what is true.
    fn check_report(&mut self, report: &[u8]) -> Result<(), String> {
        let shown = shown_in(report);
        if shown.len() != self.disk.zones.len() {
            return Err(self.complaint("the fresh mount's report has another number of zones"));
        }
        for (number, shown) in shown.iter().enumerate() {
            let freedoms = self.check_shown(shown, number)?;
            add_each(&mut self.compared.reports, &freedoms);
        }
        Ok(())
    }

    fn compare_row(&mut self, number: usize, fresh: &Row) -> Result<(), String> {
        let story = self.seq[number];
        let health = self.disk.zones[self.seq_zone[number]].health();
        let exception = exception(self.volume.mount.policy, &story, health);
        // A recovered row has the zone's own condition, also where a fresh mount says offline.
        let expected = match exception {
            None => *fresh,
            Some(1) => Row { size: 0, access: Access::None, condition: health, ..*fresh },
            Some(_) => Row { size: story.last_size, access: Access::Read, condition: health, ..*fresh },
        };
        // A fresh mount opens nothing.
        let expected = Row { opens: story.opens, ..expected };
        let row = self.volume.seq[number];
        if row != expected {
            let what = format!("seq/{number} is {row:?}, expected {expected:?}, fresh {fresh:?}, {story:?}");
            return Err(self.complaint(&what));
        }
        self.compared.rows += 1;
        self.compared.rows_beside += u64::from(!self.outstanding.is_empty());
        if let Some(which) = exception {
            self.compared.exceptions[which - 1] += 1;
        }
        Ok(())
    }

    /// Everything that is needed to see a failed check by hand.
    fn complaint(&self, what: &str) -> String {
        let zones = zone::decode_report(&self.input.report).unwrap_or_default();
        let mut text = format!(
            "consistency: {what}\n  policy {:?}, block {}",
            self.volume.mount.policy, self.input.block
        );
        for (number, zone) in zones.iter().enumerate().take(16) {
            text.push_str(&format!("\n  zone {number} at mount: {zone:?}"));
        }
        let skipped = self.entries - self.last_entries.len() as u64;
        for (number, entry) in (skipped..).zip(&self.last_entries) {
            text.push_str(&format!("\n  entry {number}: {entry:?}"));
        }
        text
    }
}

/// What a call is answered on the same volume with no limit.
fn answer_without_limits(mut volume: Volume, record: &CallRecord) -> Result<Reply, Refusal> {
    (volume.account.open_limit, volume.account.active_limit) = (0, 0);
    volume.recorded_call(record)
}

/// Which exception a quiet sequential file falls under.
fn exception(policy: Policy, story: &Story, health: Condition) -> Option<usize> {
    match (policy, health) {
        (Policy::ZoneOffline, _) => story.recovered.then_some(1),
        (_, Condition::ReadOnly) => (!story.read_only_at_mount).then_some(2),
        (Policy::ZoneReadOnly, Condition::Healthy) => story.recovered.then_some(3),
        _ => None,
    }
}

/// By where the disk's own pointer stands, in a full zone too.
fn size_if_healthy(zone: &Zone) -> u64 {
    if zone.health() == Condition::Healthy {
        (zone.pointer - zone.start) * SECTOR
    } else {
        0
    }
}

/// Makes the first report with each zone's pointer and condition as they are now.
fn first_report_changed(first: Vec<u8>) -> impl FnMut(&[Zone]) -> Vec<u8> {
    move |zones| {
        let mut report = first.clone();
        for (record, zone) in report[HEADER..].chunks_mut(RECORD).zip(zones) {
            record[16..24].copy_from_slice(&zone.pointer.to_le_bytes());
            record[25] = zone.condition;
        }
        report
    }
}

/// The file that each zone belongs to, by its own walk over the zones.
fn owners(zones: &[Zone], aggregate: bool) -> Vec<Option<(FileKind, u32)>> {
    let (mut cnv, mut seq) = (0, 0);
    let mut owners = vec![None];
    for number in 1..zones.len() {
        let owner = if !zones[number].is_conventional() {
            seq += 1;
            (FileKind::Sequential, seq - 1)
        } else {
            let continues = aggregate && number > 1 && zones[number - 1].is_conventional();
            if !continues {
                cnv += 1;
            }
            (FileKind::Conventional, cnv - 1)
        };
        owners.push(Some(owner));
    }
    owners
}
