//! The player: mounting, also in pieces, deciding calls, digesting completions, playing a tape of these, and formatting. It uses nothing
//! else of this crate.

pub mod account;
pub mod calls;
pub mod checksum;
pub mod completion;
pub mod format;
pub mod mount;
pub mod options;
pub mod pieces;
pub mod play;
pub mod superblock;
pub mod tape;
pub mod types;
pub mod zone;
