//! One long run against the model disk that stays lively to its end.

use super::failures::own_report;
use super::random::Random;
use super::records::head;
use super::runs::{doing, step, Course};
use super::shape::{self, Shape};
use crate::disk::consistency::Run;
use crate::player::mount::Input;
use crate::player::options;
use crate::player::types::Condition;

/// The only policy that leaves the mount and its healthy files writable after a failure. Files are opened by hand.
const OPTIONS: &[u8] = b"errors=repair,explicit-open";
/// Nothing meets them, so no file is kept from being opened.
const OPEN_LIMIT: u32 = 1022;
const ACTIVE_LIMIT: u32 = u32::MAX;
/// The most bytes that can be added to the options.
pub const MAX_PAD: u64 = (options::MAX_LENGTH - OPTIONS.len()) as u64;
/// So many calls go mostly to the same few files, with the same chances of failures and mishaps.
const CHAPTER: u64 = 400;
/// Of each kind there are at least so many files, as some of them are lost on the way.
const FEWEST_FILES: usize = 8;

/// A tape with a good mount and exactly so many calls. `pad` commas at the end of the options, which mean
/// nothing, shift every record after the mount. Err if the consistency check fails.
pub fn long(seed: u64, calls: u64, pad: u64) -> Result<Vec<u8>, String> {
    // An index that no other tape of the seed has.
    let mut random = Random::new(seed, u64::MAX);
    let (input, run) = begin(&mut random)?;
    let mut reports = Random::with_state(random.word());
    let mut run = run.showing(move |zones| own_report(&mut reports, zones));
    let mut tape = head(&padded(input, pad));
    let healthy_at_mount = healthy_zones(&run);
    let mut made = 0;
    for chapter in 0..calls.div_ceil(CHAPTER) {
        let mut course = Course::any(&mut random);
        course.focus.first = chapter * 3;
        let end = calls.min((chapter + 1) * CHAPTER);
        while made < end {
            // Nothing ever betters a zone, so half of them are kept, and the others are lost evenly over the run.
            let lost = healthy_at_mount - healthy_zones(&run);
            course.worsening = lost * 2 * calls < healthy_at_mount * made;
            made += u64::from(step(&mut random, &mut run, &course, &mut tape)?);
        }
    }
    finish(&mut random, &mut run, &mut tape)?;
    Ok(tape)
}

/// Every command that is still outstanding is done.
fn finish(random: &mut Random, run: &mut Run, tape: &mut Vec<u8>) -> Result<(), String> {
    let course = Course::any(random);
    while !run.outstanding().is_empty() {
        doing(random, run, &course, tape)?;
    }
    Ok(())
}

/// A good mount with enough files of both kinds.
fn begin(random: &mut Random) -> Result<(Input, Run), String> {
    loop {
        let shape = shape::with_zones(random, |random| random.between(60, 100));
        let (options, open_limit, active_limit) = (OPTIONS.to_vec(), OPEN_LIMIT, ACTIVE_LIMIT);
        let input = shape::input(random, &Shape { options, open_limit, active_limit, ..shape });
        let run = Run::begin(&input)?;
        let mount = &run.volume.mount;
        if mount.cnv_files.min(mount.seq_files) >= FEWEST_FILES {
            return Ok((input, run));
        }
    }
}

fn padded(input: Input, pad: u64) -> Input {
    let mut options = input.options;
    options.resize(options.len() + pad as usize, b',');
    Input { options, ..input }
}

fn healthy_zones(run: &Run) -> u64 {
    run.disk.zones.iter().filter(|zone| zone.health() == Condition::Healthy).count() as u64
}
