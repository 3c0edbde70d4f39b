//! Zone records and the zone report.

use super::types::{sum_within, u32_at, u64_at, Condition, Reason, Refusal, DISK_LIMIT, MAX_ZONES, SECTOR};

pub const HEADER: usize = 16;
pub const RECORD: usize = 64;

pub const CONVENTIONAL: u8 = 1;
pub const SEQUENTIAL_REQUIRED: u8 = 2;
pub const SEQUENTIAL_PREFERRED: u8 = 3;

pub const NOT_WRITE_POINTER: u8 = 0;
pub const EMPTY: u8 = 1;
pub const IMPLICIT_OPEN: u8 = 2;
pub const EXPLICIT_OPEN: u8 = 3;
pub const CLOSED: u8 = 4;
pub const READ_ONLY: u8 = 13;
pub const FULL: u8 = 14;
pub const OFFLINE: u8 = 15;

/// A zone as a record gives it, in sectors; nothing is checked yet.
#[derive(Clone, Copy, Debug, PartialEq, Eq)]
pub struct Zone {
    pub start: u64,
    pub length: u64,
    pub pointer: u64,
    pub kind: u8,
    pub condition: u8,
    pub capacity: u64,
}

impl Zone {
    /// `record` has 64 bytes. Without the header's flag the capacity field is not looked at.
    pub fn decode(record: &[u8], capacity_given: bool) -> Zone {
        let length = u64_at(record, 8);
        Zone {
            start: u64_at(record, 0),
            length,
            pointer: u64_at(record, 16),
            kind: record[24],
            condition: record[25],
            capacity: if capacity_given { u64_at(record, 32) } else { length },
        }
    }

    pub fn is_conventional(&self) -> bool {
        self.kind == CONVENTIONAL
    }

    pub fn health(&self) -> Condition {
        match self.condition {
            READ_ONLY => Condition::ReadOnly,
            OFFLINE => Condition::Offline,
            _ => Condition::Healthy,
        }
    }

    /// The one test of whether the pointer is looked at: it says how much is written, and it must be good for that.
    /// A full zone has none, nor has one that is read-only, offline or conventional; whatever stands there is ignored.
    pub fn pointer_counts(&self) -> bool {
        !self.is_conventional() && matches!(self.condition, EMPTY..=CLOSED)
    }

    /// How many bytes of a good, healthy, sequential zone are written: all that it can hold, if it is full.
    pub fn written(&self) -> u64 {
        let sectors = if self.pointer_counts() { self.pointer - self.start } else { self.capacity };
        sectors * SECTOR
    }

    /// The first fault that the zone has by itself, in any place: every reason but the one on where it starts.
    pub fn fault(&self, block: u64) -> Option<Reason> {
        let step = block / SECTOR;
        if !self.length_is_good(step) {
            Some(Reason::Length)
        } else if !self.capacity_is_good(step) {
            Some(Reason::Capacity)
        } else if !self.end_is_good() {
            Some(Reason::End)
        } else if !self.type_is_good() {
            Some(Reason::Type)
        } else if !self.condition_is_good() {
            Some(Reason::Condition)
        } else if self.pointer_counts() && !self.pointer_is_good(step) {
            Some(Reason::Pointer)
        } else {
            None
        }
    }

    pub fn is_good(&self, block: u64) -> bool {
        self.fault(block).is_none()
    }

    /// Here and below, `step` is a block in sectors.
    pub fn length_is_good(&self, step: u64) -> bool {
        is_whole(self.length, step)
    }

    pub fn capacity_is_good(&self, step: u64) -> bool {
        is_whole(self.capacity, step)
            && self.capacity <= self.length
            && (!self.is_conventional() || self.capacity == self.length)
    }

    pub fn end_is_good(&self) -> bool {
        sum_within(self.start, self.length, DISK_LIMIT)
    }

    pub fn type_is_good(&self) -> bool {
        matches!(self.kind, CONVENTIONAL | SEQUENTIAL_REQUIRED | SEQUENTIAL_PREFERRED)
    }

    /// Whether zones of its type have its condition. One of an unknown type has none that is good.
    pub fn condition_is_good(&self) -> bool {
        match self.kind {
            CONVENTIONAL => matches!(self.condition, NOT_WRITE_POINTER | READ_ONLY | OFFLINE),
            SEQUENTIAL_REQUIRED | SEQUENTIAL_PREFERRED => {
                matches!(self.condition, EMPTY..=CLOSED | READ_ONLY | FULL | OFFLINE)
            }
            _ => false,
        }
    }

    /// Whether the pointer stands where one that counts may.
    pub fn pointer_is_good(&self, step: u64) -> bool {
        self.start <= self.pointer
            && self.pointer - self.start <= self.capacity
            && self.pointer.is_multiple_of(step)
    }
}

fn is_whole(sectors: u64, step: u64) -> bool {
    sectors != 0 && sectors.is_multiple_of(step)
}

/// What a report's header says of what follows it.
#[derive(Clone, Copy, Debug, PartialEq, Eq)]
pub struct Header {
    pub count: usize,
    pub capacity_given: bool,
}

impl Header {
    /// `bytes` has 16 bytes, and may have more. None where sector, count or flags are none that a report has.
    pub fn decode(bytes: &[u8]) -> Option<Header> {
        let (sector, count, flags) = (u64_at(bytes, 0), u32_at(bytes, 8), u32_at(bytes, 12));
        let good = sector == 0 && (1..=MAX_ZONES).contains(&count) && flags <= 1;
        good.then_some(Header { count: count as usize, capacity_given: flags == 1 })
    }

    /// Of the whole report.
    pub fn report_length(&self) -> usize {
        HEADER + RECORD * self.count
    }
}

/// The zones of a report with a good header, unchecked. Anything wrong with header or length is 28.
pub fn decode_report(report: &[u8]) -> Result<Vec<Zone>, Refusal> {
    if report.len() < HEADER {
        return Err(Refusal::ReportHeader);
    }
    let header = Header::decode(report).ok_or(Refusal::ReportHeader)?;
    if report.len() != header.report_length() {
        return Err(Refusal::ReportHeader);
    }
    let records = report[HEADER..].chunks(RECORD);
    Ok(records.map(|record| Zone::decode(record, header.capacity_given)).collect())
}

/// 29 with the first zone that isn't good or doesn't start where the one before ended.
pub fn check_zones(zones: &[Zone], block: u64) -> Result<(), Refusal> {
    let mut expected = 0;
    for (number, zone) in zones.iter().enumerate() {
        let fault = if zone.start == expected { zone.fault(block) } else { Some(Reason::Start) };
        if let Some(reason) = fault {
            return Err(Refusal::BadZone { zone: number as u32, reason });
        }
        expected = zone.start + zone.length;
    }
    Ok(())
}
