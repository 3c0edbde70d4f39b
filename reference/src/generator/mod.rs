//! Seeded tapes. Each is one of four sorts: a run against the model disk, a run with any completions, a
//! refused mount, a broken tape; but for the one among a thousand on which a file is opened too often. And seeded cases for the formatter and for the
//! mount in pieces, which are on no tape, and seeded option texts in parts.

pub mod broken;
mod calls;
pub mod failures;
pub mod faults;
pub mod format;
mod impossible;
mod long;
mod many_opens;
pub mod option_cuts;
pub mod option_texts;
pub mod pieces;
pub mod random;
pub mod records;
pub mod refused;
mod remount;
mod runs;
pub mod shape;
mod stories;
mod strays;
pub mod truthful;
mod wild;

pub use long::{long, MAX_PAD};

use crate::disk::consistency::Compared;
use random::Random;

/// One tape among so many has the 65,536th open of a file.
pub const MANY_OPENS_EVERY: u64 = 1000;

pub struct Generated {
    pub bytes: Vec<u8>,
    /// What the consistency check saw on the way; Err if it failed.
    pub check: Result<Compared, String>,
}

/// The tape with this index of this seed, whatever else is generated.
pub fn generate(seed: u64, index: u64) -> Generated {
    let mut random = Random::new(seed, index);
    let unchecked = |bytes| Generated { bytes, check: Ok(Compared::default()) };
    if index % MANY_OPENS_EVERY == MANY_OPENS_EVERY / 2 {
        return many_opens::checked(&mut random);
    }
    match random.weighted(&[42, 18, 28, 12]) {
        0 => runs::checked(&mut random),
        1 => wild::checked(&mut random),
        2 => unchecked(refused::tape(&mut random)),
        _ => unchecked(broken::tape(&mut random)),
    }
}
