//! What the command line offers beside playing and making tapes: comparing another player, showing a tape, checksums, option texts in
//! parts. And the counts of what came in a comparison, those of the formatter's cases, of the mounts in pieces and of the option texts
//! among them.

pub mod busy;
pub mod compare;
pub mod counter;
pub mod describe;
pub mod formats;
pub mod openings;
pub mod option_counts;
pub mod options;
pub mod perms;
pub mod pieces;
pub mod pointers;
pub mod reasons;
pub mod sums;
pub mod tally;
