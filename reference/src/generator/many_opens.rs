//! A tape on which one file is opened until no further open is taken. It is long, so there is one among a thousand tapes.

use super::calls::VERBS;
use super::failures::plausible_record;
use super::random::Random;
use super::records::{encode, head};
use super::shape::{self, Shape};
use super::{wild, Generated};
use crate::disk::consistency::Compared;
use crate::player::calls::{Call, Request, MAX_OPENS};
use crate::player::mount::Input;
use crate::player::play::mount_volume;
use crate::player::tape::{CallRecord, Named, Record, Verb};
use crate::player::types::{Access, FileKind, Volume};

/// So many records of any sort come at the end.
const STEPS: u64 = 60;

pub fn checked(random: &mut Random) -> Generated {
    let (input, volume, number) = begin(random);
    let mut teller = Teller { tape: head(&input), volume, compared: Compared::default() };
    let check = drive(random, &mut teller, number);
    Generated { bytes: teller.tape, check: check.map(|()| teller.compared) }
}

/// A good mount without limits that are met, and a sequential file of it that can be opened.
fn begin(random: &mut Random) -> (Input, Volume, u32) {
    loop {
        let shape = shape::with_zones(random, |random| random.between(2, 6));
        let (open_limit, active_limit) = (random.pick(&[0, 1022]), random.pick(&[0, u32::MAX]));
        let input = shape::input(random, &Shape { open_limit, active_limit, ..shape });
        let Ok(volume) = mount_volume(&input) else { continue };
        let files = 0..volume.mount.seq_files as u32;
        let usable = |&number: &u32| volume.row(FileKind::Sequential, number).access == Access::Write;
        if let Some(number) = files.into_iter().find(usable) {
            return (input, volume, number);
        }
    }
}

fn drive(random: &mut Random, teller: &mut Teller, number: u32) -> Result<(), String> {
    let open = Call { kind: FileKind::Sequential, number, request: Request::Open };
    let close = Call { request: Request::Close, ..open };
    teller.call(&open)?;
    teller.complete(number, None)?;
    while teller.opens(number) < MAX_OPENS {
        teller.call(&open)?;
    }
    // The last two are refused with 14.
    for call in [open, open, close, open, open] {
        teller.call(&call)?;
    }
    // 2 comes before 14.
    teller.call(&Call { request: Request::Flush, ..open })?;
    teller.call(&open)?;
    let record = random.percent(70).then(|| teller.plausible_record(random, number)).flatten();
    teller.complete(number, record)?;
    // 3 and 4 do too, if there was a failure.
    for _ in 0..3 {
        teller.call(&open)?;
    }
    for _ in 0..STEPS {
        wild::step(random, &mut teller.volume, 2, &mut teller.tape);
        let verb = random.pick(&VERBS);
        if matches!(verb, Verb::Open | Verb::Close) {
            teller.record(&CallRecord { verb, kind: 1, number, offset: 0, length: 0 })?;
        }
    }
    Ok(())
}

/// Writes records and follows them.
struct Teller {
    tape: Vec<u8>,
    volume: Volume,
    compared: Compared,
}

impl Teller {
    fn opens(&self, number: u32) -> u64 {
        self.volume.row(FileKind::Sequential, number).opens
    }

    fn call(&mut self, call: &Call) -> Result<(), String> {
        self.record(&CallRecord::of(call))
    }

    fn record(&mut self, record: &CallRecord) -> Result<(), String> {
        encode(&Record::Call(*record), &mut self.tape);
        let _ = self.volume.recorded_call(record);
        wild::compare_account(&self.volume, &mut self.compared)
    }

    /// A record that fits the sequential file's command, if it has one.
    fn plausible_record(&self, random: &mut Random, number: u32) -> Option<[u8; 64]> {
        let of = self.volume.outstanding(FileKind::Sequential, number)?;
        Some(plausible_record(random, &self.volume, &of))
    }

    /// The sequential file's command is done, or fails with this record.
    fn complete(&mut self, number: u32, failed: Option<[u8; 64]>) -> Result<(), String> {
        let named = Named::of(FileKind::Sequential, number);
        match failed {
            None => {
                encode(&Record::Good(named), &mut self.tape);
                let _ = self.volume.recorded_success(&named);
            }
            Some(record) => {
                encode(&Record::Failed(named, &record), &mut self.tape);
                let _ = self.volume.recorded_failure(&named, &record);
            }
        }
        wild::compare_account(&self.volume, &mut self.compared)
    }
}
