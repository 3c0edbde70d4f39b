//! Runs after a good mount against the model disk.

use super::broken::spoil_end;
use super::calls::{call, Focus};
use super::failures::{damaged_record, noise_record, own_record};
use super::impossible::spoilt;
use super::random::Random;
use super::records::{encode, head};
use super::remount::fail_one_of_many;
use super::shape::{self, Shape};
use super::strays::{another, any_name, any_of, TOGETHER};
use super::{stories, truthful, Generated};
use crate::disk::consistency::Run;
use crate::disk::model::{Choice, Leaves, Mishap};
use crate::disk::truth::Shown;
use crate::player::mount::Input;
use crate::player::tape::{Named, Record};
use crate::player::types::Outstanding;
use crate::player::zone::Zone;

/// A run in which the disk tells the truth; the consistency check watches it.
pub fn checked(random: &mut Random) -> Generated {
    let shape = shape::shape(random);
    let input = shape::input(random, &shape);
    let mut tape = head(&input);
    let check = drive(random, &shape, &input, &mut tape);
    if random.percent(8) {
        spoil_end(random, &mut tape);
    }
    Generated { bytes: tape, check: check.map(|run| run.compared) }
}

/// Chances in percent that a command fails, and that a mishap comes between two entries.
pub const FAILURES: [u64; 4] = [3, 10, 25, 50];
pub const MISHAPS: [u64; 4] = [0, 4, 10, 25];

/// How a run goes.
#[derive(Clone, Copy)]
pub struct Course {
    /// In percent.
    pub failures: u64,
    pub mishaps: u64,
    /// Where most of the calls go, and from its first on most of the mishaps.
    pub focus: Focus,
    /// About so many files have commands outstanding.
    pub together: usize,
    /// Whether a zone may become read-only or offline.
    pub worsening: bool,
    /// Makes the record of a failed command. The long run has the disk's own, so that its tape stays what it is.
    pub show: fn(&mut Random, &Zone) -> Shown,
}

impl Course {
    pub fn any(random: &mut Random) -> Course {
        let (failures, mishaps) = (random.pick(&FAILURES), random.pick(&MISHAPS));
        let together = random.pick(&TOGETHER);
        let focus = Focus { first: 0, width: 3.max(together as u64) };
        Course { failures, mishaps, focus, together, worsening: true, show: own_record }
    }
}

fn drive(random: &mut Random, shape: &Shape, input: &Input, tape: &mut Vec<u8>) -> Result<Run, String> {
    let mut reports = Random::with_state(random.word());
    let mut run = Run::begin(input)?.showing(move |zones| truthful::report(&mut reports, zones));
    let course = Course { show: truthful::record, ..Course::any(random) };
    let steps = match shape.zones.len() {
        // No file, so nothing can happen.
        1 => 8,
        // Each state costs a fresh mount.
        101.. => 40,
        _ => random.pick(&[20, 60, 120, 200]),
    };
    // Early, before another failure makes the mount read-only.
    let remount_at = random.below(8);
    for number in 0..steps {
        if number == remount_at {
            fail_one_of_many(random, &mut run, &course, tape)?;
        }
        step(random, &mut run, &course, tape)?;
        if random.percent(5) {
            stories::tell(random, &mut run, &course, tape)?;
        }
        if random.percent(10) {
            impossible_completion(random, &mut run)?;
        }
    }
    Ok(run)
}

/// One entry of a run; gives whether it was a call.
pub fn step(random: &mut Random, run: &mut Run, course: &Course, tape: &mut Vec<u8>) -> Result<bool, String> {
    if random.percent(course.mishaps) {
        let zone = mishap_zone(random, run, course);
        run.mishap(zone, mishap(random, course))?;
    } else if random.percent(doings(run, course)) {
        doing(random, run, course, tape)?;
    } else if random.percent(5) {
        completion_out_of_turn(random, run, tape)?;
    } else {
        let record = call(random, &run.volume, &course.focus);
        encode(&Record::Call(record), tape);
        run.recorded_call(&record)?;
        return Ok(true);
    }
    Ok(false)
}

/// The chance in percent that a command is done now.
fn doings(run: &Run, course: &Course) -> u64 {
    let mount = &run.volume.mount;
    match run.outstanding().len() {
        0 => 0,
        busy if busy < course.together.min(mount.cnv_files + mount.seq_files) => 25,
        _ => 85,
    }
}

/// Mostly a zone of an outstanding command or one of those where the calls go.
fn mishap_zone(random: &mut Random, run: &Run, course: &Course) -> usize {
    let zones = run.disk.zones.len() as u64;
    match any_of(random, run.outstanding()) {
        Some(of) if random.percent(60) => run.disk.zone_at(of.command.address),
        _ if random.percent(60) => ((course.focus.first + random.below(zones.min(5))) % zones) as usize,
        _ => random.below(zones) as usize,
    }
}

fn mishap(random: &mut Random, course: &Course) -> Mishap {
    let mishap = match random.weighted(&[40, 20, 10, 20, 10]) {
        0 => Mishap::Fall { blocks: 1 },
        1 => Mishap::Fall { blocks: random.between(0, 8) },
        2 => Mishap::Fall { blocks: u64::MAX },
        3 => Mishap::BecomesReadOnly,
        _ => Mishap::BecomesOffline,
    };
    match mishap {
        Mishap::BecomesReadOnly | Mishap::BecomesOffline if !course.worsening => Mishap::Fall { blocks: 1 },
        mishap => mishap,
    }
}

/// An outstanding command is done, if there is one, and its completion digested.
pub fn doing(random: &mut Random, run: &mut Run, course: &Course, tape: &mut Vec<u8>) -> Result<(), String> {
    match any_of(random, run.outstanding()) {
        Some(of) => do_command(random, run, course, &of, tape),
        None => Ok(()),
    }
}

/// This command is done, and its completion digested.
pub fn do_command(
    random: &mut Random,
    run: &mut Run,
    course: &Course,
    of: &Outstanding,
    tape: &mut Vec<u8>,
) -> Result<(), String> {
    let blocks = of.command.length / run.volume.mount.block;
    let landed_blocks = match random.below(3) {
        0 => 0,
        1 => blocks,
        _ => random.below(blocks + 1),
    };
    let mishap = random.percent(30).then(|| mishap(random, course));
    let leaves = random.pick(&[Leaves::AsThePointerSays, Leaves::ExplicitlyOpen, Leaves::Closed]);
    let choice = Choice { fail: random.percent(course.failures), landed_blocks, mishap, leaves };
    let completion = run.doing(of.kind, of.number, &choice, |zone| (course.show)(random, zone))?;
    let named = Named::of(of.kind, of.number);
    match completion {
        Some(None) => encode(&Record::Good(named), tape),
        Some(Some(shown)) => encode(&Record::Failed(named, &shown.on_tape()), tape),
        None => {}
    }
    Ok(())
}

/// Of a busy file one that must be refused with 9, or one that names a file with nothing outstanding, or none.
fn completion_out_of_turn(random: &mut Random, run: &mut Run, tape: &mut Vec<u8>) -> Result<(), String> {
    match any_of(random, run.outstanding()) {
        Some(of) if random.percent(40) => untrue_completion(random, run, &of, tape),
        _ => stray_completion(random, run, tape),
    }
}

/// A record with faults, or the true record of another busy file.
fn untrue_completion(
    random: &mut Random,
    run: &mut Run,
    of: &Outstanding,
    tape: &mut Vec<u8>,
) -> Result<(), String> {
    let named = Named::of(of.kind, of.number);
    let other = another(random, run.outstanding(), of).filter(|_| random.percent(50));
    let shown = match other {
        Some(other) => truthful::record(random, &zone_of(run, &other)),
        None => Shown::with_capacity_given(damaged_record(random, &run.volume, of)),
    };
    if run.untrue_completion(&named, &shown)? {
        encode(&Record::Failed(named, &shown.on_tape()), tape);
    }
    Ok(())
}

/// With noise, or with the true record of a busy file. Nothing comes if the name is that of a busy file.
fn stray_completion(random: &mut Random, run: &mut Run, tape: &mut Vec<u8>) -> Result<(), String> {
    let named = any_name(random, &run.volume);
    if named.file().is_some_and(|(kind, number)| run.is_busy(kind, number)) {
        return Ok(());
    }
    let noise = Shown::with_capacity_given(noise_record(random));
    let busy = any_of(random, run.outstanding()).filter(|_| random.percent(50));
    let shown = busy.map_or(noise, |of| truthful::record(random, &zone_of(run, &of)));
    let failed = random.percent(50).then_some(&shown);
    match failed {
        None => encode(&Record::Good(named), tape),
        Some(shown) => encode(&Record::Failed(named, &shown.on_tape()), tape),
    }
    run.stray_completion(&named, failed)
}

/// The zone of an outstanding command as the disk has it now.
fn zone_of(run: &Run, of: &Outstanding) -> Zone {
    run.disk.zones[run.disk.zone_at(of.command.address)]
}

/// While a command is outstanding: its completion, true as it may be, on a copy that no run can have.
fn impossible_completion(random: &mut Random, run: &mut Run) -> Result<(), String> {
    let Some(of) = any_of(random, run.outstanding()) else { return Ok(()) };
    let copy = spoilt(random, &run.volume, &of);
    let shown = truthful::record(random, &zone_of(run, &of));
    let failed = random.percent(50).then_some(&shown);
    run.impossible_completion(&copy, &Named::of(of.kind, of.number), failed)
}
