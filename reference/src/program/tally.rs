//! What a comparison has reached: answers by mark, perms, pointers, reasons, busy files, openings, and the consistency
//! check's own numbers.

use std::collections::BTreeMap;

use super::busy::{self, Busy};
use super::counter::Counter;
use super::openings::{self, Openings};
use super::perms::{self, Perms};
use super::pointers::{self, Pointers};
use super::reasons::{Reasons, OF_RECORDS, OF_ZONES, RECORD_PAIRS, ZONE_PAIRS};
use crate::disk::consistency::Compared;
use crate::disk::truth::FREEDOM_NAMES;

/// Every answer that a tape can show. It can't show 10 and 30 (its tables, mount and account are always possible
/// and long enough), nor 21 (its super block always has its length).
const EXPECTED: [(&str, &[&str]); 10] = [
    ("MO", &["0", "20", "22", "23", "24", "25", "26", "27", "28", "29", "33"]),
    ("RD", &["R", "D", "1", "2", "4", "5"]),
    ("WR", &["W", "D", "1", "2", "3", "4", "5", "6", "13"]),
    ("TR", &["Z", "F", "D", "1", "2", "3", "4"]),
    ("FL", &["S", "1", "2", "3", "4"]),
    ("OP", &["O", "D", "1", "2", "3", "4", "11", "12", "14"]),
    ("CL", &["C", "D", "1", "2", "13"]),
    ("OK", &["0", "1", "8"]),
    ("NO", &["1", "7", "8", "9"]),
    ("??", &["40"]),
];

#[derive(Clone, Debug, Default, PartialEq, Eq)]
pub struct Tally {
    pub tapes: u64,
    pub lines: u64,
    /// Tapes on which the player ended with another exit status than 0; the papers ask nothing of it.
    pub exits: u64,
    answers: BTreeMap<(String, String), u64>,
    /// Perms on the tapes, by what came of them.
    pub perms: Perms,
    /// Pointers on the tapes, by what came of them.
    pub pointers: Pointers,
    /// What 29 and 9 said was bad.
    pub reasons: Reasons,
    /// Files with commands outstanding at the same time, by what came of that.
    pub busy: Busy,
    /// Opens and closes, by what came of them.
    pub openings: Openings,
    /// What the consistency check saw while the tapes were made.
    pub compared: Compared,
}

impl Tally {
    /// Counts a line under its mark and its answer; 0 with a letter counts under the letter.
    pub fn count_line(&mut self, line: &str) {
        let mut words = line.split(' ');
        let mark = words.next().unwrap_or("").to_string();
        // A completion's kind and number stand before its answer.
        let named = if mark == "OK" || mark == "NO" { 2 } else { 0 };
        let answer = words.nth(named).unwrap_or("");
        let letter = words.next().filter(|word| word.chars().all(|c| c.is_ascii_uppercase()));
        let answer = if answer == "0" { letter.unwrap_or("0") } else { answer };
        *self.answers.entry((mark, answer.to_string())).or_default() += 1;
        self.lines += 1;
    }

    /// Counts what isn't in the lines.
    pub fn count_tape(&mut self, tape: &[u8]) {
        self.perms.count_tape(tape);
        self.pointers.count_tape(tape);
        self.reasons.count_tape(tape);
        self.busy.count_tape(tape);
        self.openings.count_tape(tape);
    }

    pub fn add(&mut self, other: &Tally) {
        self.tapes += other.tapes;
        self.lines += other.lines;
        self.exits += other.exits;
        self.compared.add(&other.compared);
        self.perms.add(&other.perms);
        self.pointers.add(&other.pointers);
        self.reasons.add(&other.reasons);
        self.busy.add(&other.busy);
        self.openings.add(&other.openings);
        for (key, count) in &other.answers {
            *self.answers.entry(key.clone()).or_default() += count;
        }
    }

    /// Everything that should have been reached and wasn't.
    pub fn missing(&self) -> Vec<String> {
        let reached =
            |mark: &str, answer: &str| self.answers.contains_key(&(mark.to_string(), answer.to_string()));
        let mut missing = Vec::new();
        for (mark, answers) in EXPECTED {
            for answer in answers.iter().filter(|answer| !reached(mark, answer)) {
                missing.push(format!("{mark} {answer}"));
            }
        }
        let perms = perms::CASE_NAMES.iter().zip(self.perms.counts);
        let pointers = pointers::CASE_NAMES.iter().zip(self.pointers.counts);
        let busy = busy::CASE_NAMES.iter().zip(self.busy.counts);
        let openings = openings::CASE_NAMES.iter().zip(self.openings.counts);
        let cases = perms.chain(pointers).chain(busy).chain(openings);
        for (name, _) in cases.filter(|(_, count)| *count == 0) {
            missing.push(name.to_string());
        }
        missing.extend(self.reasons.missing());
        for (index, _) in self.compared.exceptions.iter().enumerate().filter(|(_, &count)| count == 0) {
            missing.push(format!("exception {} of the consistency check", index + 1));
        }
        for (what, counts) in [("record", self.compared.records), ("report", self.compared.reports)] {
            for (name, _) in FREEDOM_NAMES.iter().zip(counts).filter(|(_, count)| *count == 0) {
                missing.push(format!("a true {what} with {name}"));
            }
        }
        if self.compared.rows_beside == 0 {
            missing.push("a row compared while another file is busy".to_string());
        }
        if self.compared.accounts == self.compared.states {
            missing.push("an account compared in a run with any completions".to_string());
        }
        if self.compared.impossible == 0 {
            missing.push("a completion answered 10".to_string());
        }
        missing
    }

    /// How often an answer came; all answers of a mark for None.
    pub fn count(&self, mark: &str, answer: Option<&str>) -> u64 {
        let wanted = |key: &(String, String)| key.0 == mark && answer.is_none_or(|answer| answer == key.1);
        self.answers.iter().filter(|(key, _)| wanted(key)).map(|(_, count)| count).sum()
    }

    /// `MO 0=12 20=3; RD R=5 ..`.
    fn answers_text(&self) -> String {
        let mut answers = String::new();
        let mut last = "";
        for ((mark, answer), count) in &self.answers {
            if mark != last {
                let gap = if answers.is_empty() { "" } else { "; " };
                answers.push_str(&format!("{gap}{mark}"));
                last = mark;
            }
            answers.push_str(&format!(" {answer}={count}"));
        }
        answers
    }

    /// Those given, and those before the next one.
    fn reasons_text(&self) -> String {
        let Reasons { zones, records, lower_behind } = &self.reasons;
        format!(
            "reasons of 29 {}, of 9 {}, before the next one {} and {}, before a lower one of a later zone {lower_behind}",
            counts_text(&zones.given[OF_ZONES]),
            counts_text(&records.given[OF_RECORDS]),
            counts_text(&zones.before_next[ZONE_PAIRS]),
            counts_text(&records.before_next[RECORD_PAIRS]),
        )
    }

    /// One line on a single tape.
    pub fn tape_summary(&self, bytes: usize) -> String {
        let calls: u64 = ["RD", "WR", "TR", "FL", "OP", "CL"].iter().map(|mark| self.count(mark, None)).sum();
        let (good, failed) = (self.count("OK", None), self.count("NO", None));
        let answers = self.answers_text();
        format!("{calls} calls, {good} completions good and {failed} failed, {bytes} bytes ({answers})")
    }

    /// One line on a comparison.
    pub fn summary(&self) -> String {
        let answers = self.answers_text();
        let Compared {
            states,
            rows,
            rows_beside,
            exceptions,
            failures,
            records,
            reports,
            impossible,
            accounts,
        } = self.compared;
        let (exceptions, records, reports) =
            (counts_text(&exceptions), counts_text(&records), counts_text(&reports));
        let (perms, pointers) = (counts_text(&self.perms.counts), counts_text(&self.pointers.counts));
        let (busy, openings) = (counts_text(&self.busy.counts), counts_text(&self.openings.counts));
        let reasons = self.reasons_text();
        format!(
            "{} tapes, {} lines alike ({answers}), nonzero exits {}; fresh mounts {states}, rows {rows}, those beside a busy file {rows_beside}, exceptions {exceptions}, failures {failures}, other bytes in records {records} and in reports {reports}, copies answered 10 {impossible}, accounts {accounts}, perms {perms}, pointers {pointers}, busy files {busy}, openings {openings}, {reasons}",
            self.tapes, self.lines, self.exits
        )
    }
}

/// `1/2/3`.
pub fn counts_text(counts: &[u64]) -> String {
    counts.iter().map(u64::to_string).collect::<Vec<_>>().join("/")
}
