//! An independent reading of the scope paper, in three parts and a program:
//!
//! - `player` mounts from a super block and a zone report, also one that comes in pieces, decides calls, digests completions,
//!   and plays a tape of these; it also formats;
//! - `disk` is a model disk, and the check that the player's tables agree with it;
//! - `generator` makes seeded tapes, some of them in runs against the model disk, seeded cases for the formatter and
//!   for the mount in pieces, and seeded option texts;
//! - `program` compares another player with this one, shows tapes, and serves the command line.
//!
//! Each uses only those above it, so the player knows nothing of what it is tried with. A test holds them to that.

pub mod disk;
pub mod generator;
pub mod player;
pub mod program;

#[cfg(test)]
mod tests;
