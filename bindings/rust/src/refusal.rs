//! The refusals, with their numbers.

use core::fmt;

use crate::reason::Reason;
use crate::words::{ANSWER_NEW_SIZE, ANSWER_RECORD_REASON, ANSWER_WORDS, ANSWER_ZONE, ANSWER_ZONE_REASON};

/// A value that is the word itself.
const fn word(word: u64) -> u64 {
    word
}

/// Defines the refusals from one list: number, name, the values that come with it, how each is read and from which of the answer
/// words, the name in the header, and the text.
macro_rules! refusals {
    ($(
        $number:literal $case:ident
        $({ $($(#[$what:meta])* $value:ident: $type:ty = $read:path, $at:ident;)* })?,
        $header:ident, $text:literal;
    )*) => {
        /// Why the library refuses. The numbers are those of the scope paper and of `include/zonefs.h`.
        ///
        /// All but [`Refusal::Failed`] change nothing; but rows of files that a mount in pieces has finished before stay stored.
        #[derive(Clone, Copy, Debug, PartialEq, Eq, Hash)]
        #[repr(u8)]
        #[non_exhaustive]
        pub enum Refusal {
            $(
                #[doc = concat!("Number ", $number, ": ", $text, ".")]
                $case $({ $($(#[$what])* $value: $type,)* })? = $number,
            )*
        }

        impl Refusal {
            /// The number, as the functions of [`words`](crate::words) return it.
            pub const fn number(self) -> u64 {
                match self {
                    $(Refusal::$case $({ $($value: _,)* })? => $number,)*
                }
            }

            /// The refusal of a number, with its values from the answer words; `None` for a number that is none's.
            pub const fn from_answer(number: u64, answer: &[u64; ANSWER_WORDS]) -> Option<Refusal> {
                match number {
                    $($number => Some(Refusal::$case $({ $($value: $read(answer[$at]),)* })?),)*
                    _ => None,
                }
            }
        }

        impl fmt::Display for Refusal {
            fn fmt(&self, formatter: &mut fmt::Formatter<'_>) -> fmt::Result {
                write!(formatter, "{}: ", self.number())?;
                match self {
                    $(Refusal::$case $({ $($value,)* })? => write!(formatter, $text),)*
                }
            }
        }

        #[cfg(test)]
        pub(crate) const NUMBERS: &[(&str, u64)] = &[$((stringify!($header), $number)),*];
    };
}

refusals! {
    1 NoFile, NO_FILE, "there is no such file or name";
    2 Busy, BUSY, "the file has a command outstanding";
    3 ReadOnly, READ_ONLY, "the mount is read-only";
    4 Denied, DENIED, "the file's access is too low, or it can't be truncated, or not to this size";
    5 BeyondCapacity, BEYOND_CAPACITY, "offset and length reach beyond the capacity";
    6 Misplaced, MISPLACED, "a seq file is written at its size only, and in whole blocks";
    7 Failed {
        /// The file's size now, in bytes.
        size: u64 = word, ANSWER_NEW_SIZE;
    }, FAILED, "the disk failed the command, and the file has {size} bytes now";
    8 NothingOutstanding, NOTHING_OUTSTANDING, "the file has nothing outstanding";
    9 BadRecord {
        /// What is bad of the record.
        reason: Reason = Reason::from_code, ANSWER_RECORD_REASON;
    }, BAD_RECORD, "the zone record doesn't fit the file, so the command stays outstanding: {reason}";
    10 Impossible, IMPOSSIBLE, "the mount value, the account, a table or a mount in pieces is impossible";
    11 OpenLimit, OPEN_LIMIT, "as many files are open as may be";
    12 ActiveLimit, ACTIVE_LIMIT, "as many files are active as may be";
    13 NotOpen, NOT_OPEN, "the file is not open";
    14 TooManyOpens, TOO_MANY_OPENS, "the file has as many opens as there can be";
    20 BadBlock, BAD_BLOCK, "the block is neither 512 nor 4096";
    21 SuperLength, SUPER_LENGTH, "the super block is not 4096 bytes long";
    22 SuperMagic, SUPER_MAGIC, "the super block has another magic number";
    23 SuperChecksum, SUPER_CHECKSUM, "the super block's checksum is wrong";
    24 SuperFeatures, SUPER_FEATURES, "the super block has features beyond bit 3";
    25 SuperOwner, SUPER_OWNER, "the super block's uid or gid is in use and 0xFFFFFFFF";
    26 SuperTail, SUPER_TAIL, "the super block's tail is not zero";
    27 BadOptions, BAD_OPTIONS, "the options can't be read";
    28 BadReport, BAD_REPORT, "the report's header or length is wrong";
    29 BadZone {
        /// The lowest number of a bad zone.
        zone: u64 = word, ANSWER_ZONE;
        /// What is bad of it.
        reason: Reason = Reason::from_code, ANSWER_ZONE_REASON;
    }, BAD_ZONE, "zone {zone} of the report is bad: {reason}";
    30 TooFewRows, TOO_FEW_ROWS, "a table has too few rows for the files";
    33 SuperPerm, SUPER_PERM, "the super block's perm is in use and above 0o777";
    34 LabelLength, LABEL_LENGTH, "the label is longer than 64 bytes";
}

impl core::error::Error for Refusal {}
