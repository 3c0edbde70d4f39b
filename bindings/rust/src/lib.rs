//! The proved zonefs library for Rust. It mounts a zoned disk, decides each call on its files, and digests what the disk reports
//! back, halfway writes included. It does nothing to the disk itself: a call answers with a command, the caller has the disk do it,
//! and then says how that went.
//!
//! A file is a zone, or a run of zones: `cnv/0`, `cnv/1`, .. in conventional zones, `seq/0`, .. in sequential ones, which are written
//! at their end only. [`format`](format()) makes a disk's super block; [`Volume`] has the calls; [`Pieces`] mounts where the zone report comes in
//! pieces; [`Refusal`] is every way to say no, with the scope paper's numbers, and [`Reason`] what is bad of a zone; [`words`] has the functions of
//! `include/zonefs.h` as they are, on slices.
//!
//! ```
//! use zonefs::words::FEATURE_PERM;
//! use zonefs::{format, CommandKind, FileId, Format, Refusal, Reply, Source, Volume, EMPTY_ROW};
//!
//! # // A disk of two zones of 64 sectors: one conventional, one sequential and empty.
//! # let mut report = [0; 16 + 2 * 64];
//! # report[8] = 2;
//! # report[16 + 8] = 64;
//! # report[16 + 24] = 1;
//! # let zone = &mut report[80..];
//! # (zone[0], zone[8], zone[16], zone[24], zone[25]) = (64, 64, 64, 2, 1);
//! # // After the failure one block of 4,096 bytes, eight sectors, is written.
//! # let mut record = [0; 64];
//! # record.copy_from_slice(zone);
//! # (record[16], record[25]) = (72, 2);
//! // A new disk gets a super block. The zone report is read by the caller: a header of 16 bytes, and 64 for each zone, zone 0 first.
//! let mut super_block = [0; 4096];
//! let wanted = Format {
//!     block: 4096,
//!     label: b"drawer 7",
//!     uuid: *b"0123456789abcdef",
//!     features: FEATURE_PERM,
//!     owner: 0,
//!     group: 0,
//!     mode: 0o600,
//!     record: &report[16..80],
//!     capacity_given: false,
//! };
//! // Zone 0 is conventional: it is not to be finished, and the block is written to the disk's first 4,096 bytes.
//! assert!(!format(&wanted, &mut super_block)?.finish);
//!
//! // Each table has room for four files. The disk's first bytes, too, are read by the caller.
//! let (mut cnv, mut seq) = ([EMPTY_ROW; 4], [EMPTY_ROW; 4]);
//! let source = Source {
//!     block: 4096,
//!     super_block: &super_block,
//!     options: b"errors=repair,explicit-open",
//!     report: &report,
//!     open_limit: 1,
//!     active_limit: 0,
//! };
//! let mut volume = Volume::mount(&source, &mut cnv, &mut seq)?;
//!
//! // Under `explicit-open` a file is opened before it is written: a command for the disk, as the calls below. Here the disk does it.
//! let log = volume.find("seq/0")?;
//! let Reply::Command(command) = volume.open(log)? else { panic!("a zone is to be opened") };
//! assert_eq!((command.kind, command.address), (CommandKind::Open, 64 * 512));
//! volume.complete(log)?;
//!
//! let size = volume.show(log)?.size;
//! let Reply::Command(command) = volume.write(log, size, 8192)? else { panic!("two blocks are to be written") };
//! assert_eq!((command.address, command.length), (64 * 512, 8192));
//!
//! // Until it has ended, this file takes no other call. Other files do: each may have one command outstanding.
//! assert_eq!(volume.flush(log), Err(Refusal::Busy));
//! assert_eq!(volume.outstanding(log)?, Some(command));
//!
//! // The disk fails it halfway, and its record of the zone says that one block is there.
//! assert_eq!(volume.fail(log, &record, false), Refusal::Failed { size: 4096 });
//! assert_eq!(volume.show(FileId::seq(0))?.size, 4096);
//!
//! // The last close is a command again. The file counts as closed from here on, and is still active, as it is neither empty nor full.
//! assert!(matches!(volume.close(log)?, Reply::Command(_)));
//! let account = volume.account().expect("a mount gives an account");
//! assert_eq!((account.open, account.active), (0, 1));
//! # Ok::<(), Refusal>(())
//! ```
//!
//! A report of many zones need not be in memory all at once. It may come in pieces, cut anywhere, as that of a large disk does:
//!
//! ```
//! use zonefs::{Pieces, PiecesSource, Refusal, EMPTY_ROW};
//! # use zonefs::{format, Format};
//! # let mut report = [0; 16 + 2 * 64];
//! # report[8] = 2;
//! # report[16 + 8] = 64;
//! # report[16 + 24] = 1;
//! # let zone = &mut report[80..];
//! # (zone[0], zone[8], zone[16], zone[24], zone[25]) = (64, 64, 64, 2, 1);
//! # let mut super_block = [0; 4096];
//! # let (uuid, record) = ([0; 16], &report[16..80]);
//! # let wanted =
//! #     Format { block: 4096, label: b"", uuid, features: 0, owner: 0, group: 0, mode: 0, record, capacity_given: false };
//! # format(&wanted, &mut super_block)?;
//!
//! let source =
//!     PiecesSource { block: 4096, super_block: &super_block, options: b"errors=repair", open_limit: 0, active_limit: 0 };
//! let (mut cnv, mut seq) = ([EMPTY_ROW; 4], [EMPTY_ROW; 4]);
//! let mut pieces = Pieces::begin(&source)?;
//! for bytes in report.chunks(50) {
//!     pieces.piece(bytes, &mut cnv, &mut seq)?;
//! }
//! let volume = pieces.end(&mut cnv[..], &mut seq[..])?;
//! assert_eq!(volume.show(volume.find("seq/0")?)?.start, 64);
//! # Ok::<(), Refusal>(())
//! ```
//!
//! Nothing here needs the standard library or a heap. Mounting, beginning a mount in pieces, making or reading a super block, and a checksum
//! take some 10 kB of stack, of which 8 KiB are the checksum's tables; a piece takes some 3 kB, and everything else less than 1 kB. The archive
//! that this crate links is made by `rt lib --cpu x86-64` in the crate `capi`; the environment variable `ZONEFS_LIB_DIR` names its folder where
//! that isn't `crates/capi/out` of the repository.
//!
//! The archive's functions are proved to answer as the scope paper says, for every input. The few lines of this crate around
//! them are ordinary Rust, and tested.

#![cfg_attr(not(test), no_std)]
#![deny(missing_docs)]
#![deny(unsafe_op_in_unsafe_fn)]

mod answer;
mod codes;
mod format;
mod pieces;
mod reason;
mod refusal;
mod values;
mod volume;
pub mod words;

#[cfg(test)]
mod tests;

pub use codes::{Access, CommandKind, Condition, FileKind, Policy};
pub use format::{format, super_fields, Format, Formatted, SuperFields};
pub use pieces::Pieces;
pub use reason::Reason;
pub use refusal::Refusal;
pub use values::{Account, Command, File, FileId, MountValue, PiecesSource, Reply, Source};
pub use volume::{RowWords, Volume, EMPTY_ROW};
pub use words::checksum;
