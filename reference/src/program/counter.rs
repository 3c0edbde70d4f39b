//! Follows a tape as the player does, for those that count what comes on it.

use crate::player::play::{mount_volume, read_input};
use crate::player::tape::{CallRecord, Named, Next, Reader, Record};
use crate::player::types::{Outstanding, Reason, Refusal, Row, Volume};
use crate::player::zone::{decode_report, Zone};

/// A failed command's record that came while its file had a command outstanding, and its answer.
pub struct Failure<'a> {
    pub held: Outstanding,
    pub before: &'a Volume,
    pub record: &'a [u8],
    pub answer: Result<u64, Refusal>,
    pub after: &'a Volume,
}

impl Failure<'_> {
    /// The row of the command's file, in `before` or `after`.
    pub fn row<'a>(&self, volume: &'a Volume) -> &'a Row {
        volume.row(self.held.kind, self.held.number)
    }

    /// What the same failure is answered with other bytes in its record.
    pub fn answer_with(&self, record: &[u8]) -> Result<u64, Refusal> {
        self.before.clone().fail(self.held.kind, self.held.number, record, true)
    }
}

/// Is told of the cases of a tape, one after the other, up to the record where a player stops.
pub trait Counter {
    /// The mount of these zones is refused with 29.
    fn bad_zone(&mut self, block: u64, zones: &[Zone], number: usize, reason: Reason);

    /// A call on the disk that was mounted with these zones.
    fn call(&mut self, _zones: &[Zone], _call: &CallRecord, _answered: bool) {}

    fn failure(&mut self, failure: &Failure);

    fn count_tape(&mut self, tape: &[u8]) {
        let mut reader = Reader::new(tape);
        let Some((_, input)) = read_input(&mut reader) else { return };
        let Ok(zones) = decode_report(&input.report) else { return };
        match mount_volume(&input) {
            Ok(volume) => self.count_run(&zones, volume, &mut reader),
            Err(Refusal::BadZone { zone, reason }) => {
                self.bad_zone(u64::from(input.block), &zones, zone as usize, reason)
            }
            Err(_) => {}
        }
    }

    fn count_run(&mut self, zones: &[Zone], mut volume: Volume, reader: &mut Reader) {
        while let Next::Record(record) = reader.read() {
            match record {
                Record::Call(call) => {
                    let answered = volume.recorded_call(&call).is_ok();
                    self.call(zones, &call, answered);
                }
                // The answer is compared elsewhere.
                Record::Good(named) => drop(volume.recorded_success(&named)),
                Record::Failed(named, bytes) => self.count_failure(&mut volume, &named, bytes),
                Record::Block(_) | Record::SuperBlock(_) | Record::Report(_) | Record::Mount { .. } => return,
            }
        }
    }

    fn count_failure(&mut self, volume: &mut Volume, named: &Named, record: &[u8]) {
        let file = named.file();
        let Some(held) = file.and_then(|(kind, number)| volume.outstanding(kind, number)) else { return };
        let before = volume.clone();
        let answer = volume.recorded_failure(named, record);
        self.failure(&Failure { held, before: &before, record, answer, after: volume });
    }
}
