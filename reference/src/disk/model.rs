//! The model disk: what commands do to zones, and what may go wrong with them.

use std::ops::RangeInclusive;

use crate::player::types::{Command, Condition, Operation, SECTOR};
use crate::player::zone::{Zone, CLOSED, EMPTY, EXPLICIT_OPEN, FULL, IMPLICIT_OPEN, OFFLINE, READ_ONLY};

#[derive(Clone, Copy, Debug, PartialEq, Eq)]
pub enum Mishap {
    /// The pointer of a healthy sequential zone falls back by so many blocks, at most to the start.
    Fall {
        blocks: u64,
    },
    BecomesReadOnly,
    BecomesOffline,
}

/// "On the disk open and close move no pointer .. and may leave condition 3 or 4."
#[derive(Clone, Copy, Debug, PartialEq, Eq)]
pub enum Leaves {
    /// 1, 2 or 14.
    AsThePointerSays,
    ExplicitlyOpen,
    Closed,
}

/// What the disk chooses when it does a command. The next two matter only if the command fails, the last only to an open or
/// a close that is done well.
#[derive(Clone, Copy, Debug, PartialEq, Eq)]
pub struct Choice {
    pub fail: bool,
    pub landed_blocks: u64,
    pub mishap: Option<Mishap>,
    pub leaves: Leaves,
}

#[derive(Clone, Copy, Debug, PartialEq, Eq)]
pub struct Outcome {
    /// The zone at the command's address.
    pub zone: usize,
    pub failed: bool,
    /// Whether a mishap befell that zone while the command failed.
    pub mishap: bool,
}

#[derive(Clone, Debug)]
pub struct Disk {
    /// The pointer of each healthy sequential zone is where the disk writes, also while it is full.
    pub zones: Vec<Zone>,
    /// Sectors in a block.
    step: u64,
}

impl Disk {
    /// A disk with zones as a good report says they are.
    pub fn new(mut zones: Vec<Zone>, block: u64) -> Disk {
        zones.iter_mut().for_each(stand_at_end_if_full);
        Disk { zones, step: block / SECTOR }
    }

    /// Whether anything happened: a fall of no block and a condition that isn't worse are no mishaps.
    pub fn suffer(&mut self, zone: usize, mishap: Mishap) -> bool {
        let step = self.step;
        let zone = &mut self.zones[zone];
        let health = zone.health();
        match mishap {
            Mishap::Fall { blocks } => {
                if zone.is_conventional() || health != Condition::Healthy {
                    return false;
                }
                let fallen = blocks.min((zone.pointer - zone.start) / step);
                if fallen > 0 {
                    move_pointer(zone, zone.pointer - fallen * step);
                }
                fallen > 0
            }
            Mishap::BecomesReadOnly if health == Condition::Healthy => {
                zone.condition = READ_ONLY;
                true
            }
            Mishap::BecomesOffline if health != Condition::Offline => {
                zone.condition = OFFLINE;
                true
            }
            Mishap::BecomesReadOnly | Mishap::BecomesOffline => false,
        }
    }

    /// Does a command. `quiet` is the file's, for a flush.
    pub fn perform(&mut self, command: &Command, quiet: bool, choice: &Choice) -> Outcome {
        let zone = self.zone_at(command.address);
        if !choice.fail && !self.must_fail(command, quiet) {
            self.carry_out(zone, command, choice.leaves);
            return Outcome { zone, failed: false, mishap: false };
        }
        if command.operation == Operation::Write && self.takes_write(zone, command.address) {
            let landed = choice.landed_blocks.min(command.length / SECTOR / self.step);
            self.advance(zone, landed * self.step);
        }
        let mishap = choice.mishap.is_some_and(|mishap| self.suffer(zone, mishap));
        Outcome { zone, failed: true, mishap }
    }

    /// The zone that a byte address lies in.
    pub fn zone_at(&self, address: u64) -> usize {
        self.zones.partition_point(|zone| zone.start <= address / SECTOR) - 1
    }

    /// All zones that a command reaches: more than one only in a conventional run.
    fn touched(&self, command: &Command) -> RangeInclusive<usize> {
        let last = command.address + command.length.saturating_sub(1);
        self.zone_at(command.address)..=self.zone_at(last)
    }

    fn must_fail(&self, command: &Command, quiet: bool) -> bool {
        let mut touched = self.touched(command);
        match command.operation {
            Operation::Read => touched.any(|zone| self.zones[zone].health() == Condition::Offline),
            Operation::Write => {
                touched.any(|zone| self.zones[zone].health() != Condition::Healthy)
                    || !self.takes_write(self.zone_at(command.address), command.address)
            }
            Operation::Reset | Operation::Finish | Operation::Open | Operation::Close => {
                touched.any(|zone| self.zones[zone].health() != Condition::Healthy)
            }
            Operation::Flush => !quiet,
        }
    }

    /// A healthy sequential zone takes a write at its pointer only, a conventional one anywhere.
    fn takes_write(&self, zone: usize, address: u64) -> bool {
        let zone = &self.zones[zone];
        zone.health() == Condition::Healthy && (zone.is_conventional() || zone.pointer * SECTOR == address)
    }

    fn carry_out(&mut self, zone: usize, command: &Command, leaves: Leaves) {
        match command.operation {
            Operation::Read | Operation::Flush => {}
            Operation::Write => self.advance(zone, command.length / SECTOR),
            Operation::Reset => {
                let zone = &mut self.zones[zone];
                move_pointer(zone, zone.start);
            }
            Operation::Finish => {
                let zone = &mut self.zones[zone];
                move_pointer(zone, zone.start + zone.capacity);
            }
            Operation::Open | Operation::Close => leave(&mut self.zones[zone], leaves),
        }
    }

    fn advance(&mut self, zone: usize, sectors: u64) {
        let zone = &mut self.zones[zone];
        if !zone.is_conventional() {
            move_pointer(zone, zone.pointer + sectors);
        }
    }
}

/// A report may say any pointer of a full zone. On the disk it stands at the end, and falls back from there.
fn stand_at_end_if_full(zone: &mut Zone) {
    if zone.condition == FULL {
        zone.pointer = zone.start + zone.capacity;
    }
}

/// A healthy sequential zone's condition follows its pointer.
fn move_pointer(zone: &mut Zone, pointer: u64) {
    zone.pointer = pointer;
    zone.condition = if pointer == zone.start {
        EMPTY
    } else if pointer == zone.start + zone.capacity {
        FULL
    } else {
        IMPLICIT_OPEN
    };
}

/// What an open or a close makes of a healthy sequential zone.
fn leave(zone: &mut Zone, leaves: Leaves) {
    match leaves {
        Leaves::AsThePointerSays => move_pointer(zone, zone.pointer),
        Leaves::ExplicitlyOpen => zone.condition = EXPLICIT_OPEN,
        Leaves::Closed => zone.condition = CLOSED,
    }
}
