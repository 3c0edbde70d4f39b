//! Perms that a player may fall for, and what came of them on a tape: those above the highest mode, in use or not, and
//! the highest mode itself.

use crate::disk::consistency::add_each;
use crate::player::play::{mount_volume, read_input};
use crate::player::superblock::{tail_is_zero, FEATURES_AT, HAS_PERM, HIGHEST_MODE, PERM_AT};
use crate::player::tape::Reader;
use crate::player::types::{u32_at, u64_at, Refusal};

/// So many cases are counted.
pub const CASES: usize = 4;
/// What they are. A stray perm is one above 0777; it is a fault only in use, which is with its feature bit.
pub const CASE_NAMES: [&str; CASES] = [
    "25 before a stray perm in use",
    "33 before a bad tail",
    "a mount with a stray perm that isn't in use",
    "a mount with the perm 0777 in use",
];

/// How often each case came on tapes.
#[derive(Clone, Copy, Debug, Default, PartialEq, Eq)]
pub struct Perms {
    pub counts: [u64; CASES],
}

impl Perms {
    pub fn count_tape(&mut self, tape: &[u8]) {
        let Some((_, input)) = read_input(&mut Reader::new(tape)) else { return };
        let bytes = &input.super_block;
        let perm = u32_at(bytes, PERM_AT);
        let (in_use, stray) = (u64_at(bytes, FEATURES_AT) & HAS_PERM != 0, perm > HIGHEST_MODE);
        let answer = mount_volume(&input).map(drop);
        let came = [
            answer == Err(Refusal::Owner) && in_use && stray,
            answer == Err(Refusal::Perm) && !tail_is_zero(bytes),
            answer.is_ok() && !in_use && stray,
            answer.is_ok() && in_use && perm == HIGHEST_MODE,
        ];
        self.add(&Perms { counts: came.map(u64::from) });
    }

    pub fn add(&mut self, other: &Perms) {
        add_each(&mut self.counts, &other.counts);
    }
}
