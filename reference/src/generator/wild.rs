//! Runs after a good mount in which completions come as they like, true or not.

use super::broken::spoil_end;
use super::calls::{call, Focus};
use super::failures::{damaged_record, noise_record, plausible_record};
use super::random::Random;
use super::records::{encode, head};
use super::shape;
use super::strays::{another, any_name, any_of, as_if_outstanding, TOGETHER};
use super::Generated;
use crate::disk::accounts::account_fault;
use crate::disk::consistency::Compared;
use crate::player::play::mount_volume;
use crate::player::tape::{Named, Record};
use crate::player::types::{Condition, Outstanding, Volume};
use crate::player::zone::RECORD;

/// The account is compared with the rows after every record.
pub fn checked(random: &mut Random) -> Generated {
    let (bytes, check) = tape(random);
    Generated { bytes, check }
}

pub fn tape(random: &mut Random) -> (Vec<u8>, Result<Compared, String>) {
    let shape = shape::shape(random);
    let input = shape::input(random, &shape);
    let mut tape = head(&input);
    let mut compared = Compared::default();
    let Ok(mut volume) = mount_volume(&input) else { return (tape, Ok(compared)) };
    let steps = if shape.zones.len() == 1 { 8 } else { random.pick(&[10, 40, 120]) };
    let together = random.pick(&TOGETHER);
    for _ in 0..steps {
        step(random, &mut volume, together, &mut tape);
        if let Err(fault) = compare_account(&volume, &mut compared) {
            return (tape, Err(fault));
        }
    }
    if random.percent(15) {
        spoil_end(random, &mut tape);
    }
    (tape, Ok(compared))
}

/// Err says how the account differs from the rows.
pub fn compare_account(volume: &Volume, compared: &mut Compared) -> Result<(), String> {
    compared.accounts += 1;
    account_fault(volume).map_or(Ok(()), |fault| Err(format!("any completions: {fault}")))
}

/// A call or a completion of any sort.
pub fn step(random: &mut Random, volume: &mut Volume, together: usize, tape: &mut Vec<u8>) {
    let outstanding = volume.all_outstanding();
    let completions = match outstanding.len() {
        0 => 10,
        busy if busy < together => 55,
        _ => 75,
    };
    if random.percent(completions) {
        completion(random, volume, &outstanding, tape);
    } else {
        let focus = Focus { first: 0, width: 3.max(together as u64) };
        let record = call(random, volume, &focus);
        encode(&Record::Call(record), tape);
        let _ = volume.recorded_call(&record);
    }
}

/// Mostly one of a busy file.
fn completion(random: &mut Random, volume: &mut Volume, outstanding: &[Outstanding], tape: &mut Vec<u8>) {
    let busy = if random.percent(85) { any_of(random, outstanding) } else { None };
    let (named, failed) = match busy {
        Some(of) => (Named::of(of.kind, of.number), busy_record(random, volume, outstanding, &of)),
        None => {
            let named = any_name(random, volume);
            (named, stray_record(random, volume, &named))
        }
    };
    match failed {
        None => {
            encode(&Record::Good(named), tape);
            let _ = volume.recorded_success(&named);
        }
        Some(record) => {
            encode(&Record::Failed(named, &record), tape);
            let _ = volume.recorded_failure(&named, &record);
        }
    }
}

/// The record of a failure, or None for a success.
fn busy_record(
    random: &mut Random,
    volume: &Volume,
    outstanding: &[Outstanding],
    of: &Outstanding,
) -> Option<[u8; RECORD]> {
    let choices = match volume.row(of.kind, of.number).condition {
        Condition::Healthy => [22, 36, 28, 3, 6],
        // Few files are like that, and only of these a record can be better.
        Condition::ReadOnly | Condition::Offline => [10, 22, 50, 3, 6],
    };
    match random.weighted(&choices) {
        0 => None,
        1 => Some(plausible_record(random, volume, of)),
        2 => Some(damaged_record(random, volume, of)),
        3 => Some(noise_record(random)),
        _ => another(random, outstanding, of).map(|other| plausible_record(random, volume, &other)),
    }
}

/// The same for a file with nothing outstanding, or for none: its own record, or noise.
fn stray_record(random: &mut Random, volume: &Volume, named: &Named) -> Option<[u8; RECORD]> {
    if random.percent(50) {
        return None;
    }
    let own = as_if_outstanding(volume, named).map(|of| plausible_record(random, volume, &of));
    Some(own.unwrap_or_else(|| noise_record(random)))
}
