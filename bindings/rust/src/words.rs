//! The functions of `include/zonefs.h` on slices, and the layout of the words that they read and write.
//!
//! Nothing is demanded of what the slices hold, or of their lengths: each function answers for all of them. It returns
//! 0 ([`OK`]) or the number of a [`Refusal`](crate::Refusal), and writes what it answers beside the number into `answer`: the number of
//! values first, then the values, then zeros. Where mount words, account words, pieces words or answer words are too short, the mount words hold no
//! mount value, the pieces words no mount that was begun, an account word is above 32 bits, or a uuid or the room for a label has another length
//! than that has, the number is 10 and nothing is written.
//!
//! [`Volume`](crate::Volume), [`Pieces`](crate::Pieces), [`format`](crate::format()) and [`super_fields`](crate::super_fields()) are the same functions
//! with types; most programs want those. Codes in words are those of the enums [`FileKind`](crate::FileKind), [`CommandKind`](crate::CommandKind),
//! [`Condition`](crate::Condition), [`Access`](crate::Access), [`Policy`](crate::Policy) and [`Reason`](crate::Reason).

/// A slice as C takes it: a pointer, and the number of elements behind it.
trait Lent {
    type Pointer;
    fn lend(self) -> (Self::Pointer, usize);
}

impl<T> Lent for &[T] {
    type Pointer = *const T;
    fn lend(self) -> (*const T, usize) {
        (self.as_ptr(), self.len())
    }
}

impl<T> Lent for &mut [T] {
    type Pointer = *mut T;
    fn lend(self) -> (*mut T, usize) {
        (self.as_mut_ptr(), self.len())
    }
}

/// Declares functions of the archive and defines a safe one over each, from one signature. A parameter in brackets is a
/// slice: the archive's function takes it as pointer and length.
macro_rules! functions {
    ($(
        $(#[$about:meta])*
        fn $name:ident = $symbol:ident($(
            $($number:ident: $plain:ty)? $([$slice:ident: $lent:ty])?
        ),*) -> $result:ty;
    )*) => {
        mod archive {
            use super::Lent;
            extern "C" {
                $(pub fn $symbol($($(_: $plain,)? $(_: <$lent as Lent>::Pointer, _: usize,)?)*) -> $result;)*
            }
        }
        $(
            $(#[$about])*
            #[inline]
            #[allow(clippy::too_many_arguments)]
            pub fn $name($($($number: $plain,)? $($slice: $lent,)?)*) -> $result {
                $($(let $slice = $slice.lend();)?)*
                // SAFETY: each pointer is that of a slice with its own length, so it is aligned and not null; what is written
                // is borrowed for this call alone; and the archive's functions touch nothing outside, whatever is in there.
                unsafe { archive::$symbol($($($number,)? $($slice.0, $slice.1,)?)*) }
            }
        )*
        /// The name of each function in the archive and its parameters, for the test that holds them to the header.
        #[cfg(test)]
        pub(crate) const FUNCTIONS: &[(&str, &[&str], &str)] = &[$((
            stringify!($symbol),
            &[$($(stringify!($number: $plain))? $(stringify!($slice: $lent))?),*],
            stringify!($result),
        )),*];
    };
}

functions! {
    /// Makes a super block: writes all 4,096 bytes of `superblock`. `record` is zone 0's, the first one of a report, and `capacity_given`
    /// is 0 where it states no capacity. Answers 0 with 1 where zone 0 must first be finished, else 0; or, in this order, 10 (a uuid that is not
    /// [`UUID_BYTES`] long), 20, 21, 24, 25, 33, 34, 29 with zone 0 and its reason. Refused, `superblock` is as it was.
    fn format = zonefs_format(
        block: u64,
        [superblock: &mut [u8]],
        [label: &[u8]],
        [uuid: &[u8]],
        features: u64,
        owner: u32,
        group: u32,
        mode: u32,
        [record: &[u8]],
        capacity_given: u32,
        [answer: &mut [u64]],
    ) -> u64;

    /// Reads the values of a super block: writes [`LABEL_BYTES`] of `label` and [`UUID_BYTES`] of `uuid`, which have exactly that length. Answers 0
    /// with features, owner, group and mode; or 10 (another length), 21 to 25, 33, 26, in this order, and both are as they were.
    fn super_fields = zonefs_super_fields(
        [superblock: &[u8]],
        [label: &mut [u8]],
        [uuid: &mut [u8]],
        [answer: &mut [u64]],
    ) -> u64;

    /// Mounts: fills the front of both tables with a row for each file, with nothing outstanding and no opens, the mount words and the account words.
    /// A limit of 0 is none. Answers 0 with the numbers of cnv and of seq files; or 10, 20 to 30, 33; 29 with the lowest number of a bad zone and its
    /// reason. Refused by 20 to 30 or 33, the tables are as they were and mount words and account words are all 0.
    fn mount = zonefs_mount(
        block: u64,
        [superblock: &[u8]],
        [options: &[u8]],
        [report: &[u8]],
        open_limit: u32,
        active_limit: u32,
        [cnv: &mut [u64]],
        [seq: &mut [u64]],
        [mount: &mut [u64]],
        [account: &mut [u64]],
        [answer: &mut [u64]],
    ) -> u64;

    /// Begins a mount whose report comes in pieces: reads what [`mount`] reads before the report, and writes the pieces words. Answers 0 with no value;
    /// or 10, 20 to 27, 33, in the order of [`mount`]. Refused by 20 to 27 or 33, the pieces words hold no mount that was begun.
    fn begin = zonefs_begin(
        block: u64,
        [superblock: &[u8]],
        [options: &[u8]],
        open_limit: u32,
        active_limit: u32,
        [pieces: &mut [u64]],
        [answer: &mut [u64]],
    ) -> u64;

    /// Takes the report's next bytes, any number of them, also none. Writes the pieces words and the rows of the files that are finished in this piece,
    /// each at its number. Answers 0 with no value; or 10; or, at the first byte that shows it, 28, 29 with a zone and its reason, or 30. Refused by
    /// these, rows of files that were finished before stay as they were stored, and every further piece and the end are refused alike.
    fn piece = zonefs_piece(
        [pieces: &mut [u64]],
        [bytes: &[u8]],
        [cnv: &mut [u64]],
        [seq: &mut [u64]],
        [answer: &mut [u64]],
    ) -> u64;

    /// Ends a mount in pieces, and writes the mount words and the account words. Answers 0 with the numbers of cnv and of seq files; or 10; or 28,
    /// where bytes are missing; or what a piece was refused by. Refused by 28 to 30, mount words and account words are all 0.
    fn end = zonefs_end(
        [pieces: &mut [u64]],
        [mount: &mut [u64]],
        [account: &mut [u64]],
        [answer: &mut [u64]],
    ) -> u64;

    /// Finds a name such as `seq/12`. Answers 0 with the kind and the number of the file; or 1, 10.
    fn find = zonefs_find(
        [mount: &[u64]],
        [account: &[u64]],
        [cnv: &[u64]],
        [seq: &[u64]],
        [name: &[u8]],
        [answer: &mut [u64]],
    ) -> u64;

    /// Shows a file. Answers 0 with start in sectors, capacity, size, condition, access and the mode shown; or 1, 10.
    fn show = zonefs_show(
        [mount: &[u64]],
        [account: &[u64]],
        [cnv: &[u64]],
        [seq: &[u64]],
        kind: u32,
        number: u32,
        [answer: &mut [u64]],
    ) -> u64;

    /// Decides a read. Answers 0 with [`AT_ONCE`] value, the count, which is 0; or with [`COMMANDED`] values, the command
    /// that the disk has to do, its byte address and its byte length, which the file's row then holds as outstanding; or 1, 2, 4, 5, 10. But for
    /// a command, mount words, account words and tables are as they were. 2 is about this file alone, whatever others have outstanding.
    fn read = zonefs_read(
        [mount: &mut [u64]],
        [account: &mut [u64]],
        [cnv: &mut [u64]],
        [seq: &mut [u64]],
        kind: u32,
        number: u32,
        offset: u64,
        length: u64,
        [answer: &mut [u64]],
    ) -> u64;

    /// Decides a write. Answers as [`read`] does, also 3, 6 and, where the mount has `explicit-open` and the seq file isn't open, 13.
    fn write = zonefs_write(
        [mount: &mut [u64]],
        [account: &mut [u64]],
        [cnv: &mut [u64]],
        [seq: &mut [u64]],
        kind: u32,
        number: u32,
        offset: u64,
        length: u64,
        [answer: &mut [u64]],
    ) -> u64;

    /// Decides a truncation of a seq file, to the size 0 or to the capacity. Answers as [`read`] does, also 3, never 5.
    fn truncate = zonefs_truncate(
        [mount: &mut [u64]],
        [account: &mut [u64]],
        [cnv: &mut [u64]],
        [seq: &mut [u64]],
        kind: u32,
        number: u32,
        size: u64,
        [answer: &mut [u64]],
    ) -> u64;

    /// Decides a flush. Answers 0 with [`COMMANDED`] values; or 1 to 4, 10.
    fn flush = zonefs_flush(
        [mount: &mut [u64]],
        [account: &mut [u64]],
        [cnv: &mut [u64]],
        [seq: &mut [u64]],
        kind: u32,
        number: u32,
        [answer: &mut [u64]],
    ) -> u64;

    /// Opens a file for writing, which a seq file's row counts; the account counts the file, once. Answers as [`read`] does: with a command where
    /// the mount has `explicit-open` and this is the first open of a seq file that isn't full, else at once. Or, in this order, 10 (the counts), 1,
    /// 10 (the row), 2, and of a seq file 3, 4, 14, 11, 12, the last two with `explicit-open` alone.
    fn open = zonefs_open(
        [mount: &mut [u64]],
        [account: &mut [u64]],
        [cnv: &mut [u64]],
        [seq: &mut [u64]],
        kind: u32,
        number: u32,
        [answer: &mut [u64]],
    ) -> u64;

    /// Closes a file again. Answers as [`read`] does: with a command where the mount has `explicit-open` and this is the last close of a seq file
    /// that is neither empty nor full, else at once. Or, in this order, 10 (the counts), 1, 10 (the row), 2, and of a seq file that isn't open 13.
    fn close = zonefs_close(
        [mount: &mut [u64]],
        [account: &mut [u64]],
        [cnv: &mut [u64]],
        [seq: &mut [u64]],
        kind: u32,
        number: u32,
        [answer: &mut [u64]],
    ) -> u64;

    /// The command that the file has outstanding was done. Answers 0 with the bytes read or written, else 0; or, in this order, 10 (the counts),
    /// 1, 8, 10 (the row, or what it holds), and mount words, account words and tables are as they were.
    fn complete = zonefs_complete(
        [mount: &mut [u64]],
        [account: &mut [u64]],
        [cnv: &mut [u64]],
        [seq: &mut [u64]],
        kind: u32,
        number: u32,
        [answer: &mut [u64]],
    ) -> u64;

    /// The command that the file has outstanding failed. `record` is that of the zone at the command's address as it is now, and
    /// `capacity_given` is 0 where it states no capacity. Answers 7 with the file's size now; or what [`complete`] is refused by, in its order, and
    /// then 9 with a reason. A failed open leaves the file no opens, and so does a failure that takes its write access. What other files have
    /// outstanding stays so, and so do their opens.
    fn fail = zonefs_fail(
        [mount: &mut [u64]],
        [account: &mut [u64]],
        [cnv: &mut [u64]],
        [seq: &mut [u64]],
        kind: u32,
        number: u32,
        [record: &[u8]],
        capacity_given: u32,
        [answer: &mut [u64]],
    ) -> u64;

    /// The checksum of bytes: reflected CRC-32, polynomial `0xEDB88320`, start all ones, no final inversion. A super block's is
    /// that of its 4,096 bytes with the checksum field, bytes 4 to 7, zero; [`format`] makes a whole block, with its checksum.
    fn checksum = zonefs_checksum([bytes: &[u8]]) -> u32;
}

/// Defines constants, and lists them for the test that holds them to the header.
macro_rules! constants {
    ($($(#[$about:meta])* $name:ident: $type:ty = $value:literal;)*) => {
        $($(#[$about])* pub const $name: $type = $value;)*
        #[cfg(test)]
        pub(crate) const CONSTANTS: &[(&str, u64)] = &[$((stringify!($name), $name as u64)),*];
    };
}

constants! {
    /// The number of an answer that refuses nothing.
    OK: u64 = 0;

    /// The words of a mount value.
    MOUNT_WORDS: usize = 11;
    /// The words of an account.
    ACCOUNT_WORDS: usize = 4;
    /// The words of a row.
    ROW_WORDS: usize = 9;
    /// The words of an answer.
    ANSWER_WORDS: usize = 7;
    /// The words of a mount in pieces.
    PIECES_WORDS: usize = 39;

    /// The most files of a kind: tables of this many rows are always long enough.
    MOST_FILES: usize = 65535;
    /// The most opens of one file.
    MOST_OPENS: u64 = 65535;
    /// The bytes of a super block.
    SUPER_BYTES: usize = 4096;
    /// The bytes of the label in a super block.
    LABEL_BYTES: usize = 64;
    /// The bytes of the uuid in a super block.
    UUID_BYTES: usize = 16;
    /// The bytes of a report's header.
    HEADER_BYTES: usize = 16;
    /// The bytes of a zone record.
    ZONE_BYTES: usize = 64;
    /// The most zones of a report.
    MOST_ZONES: usize = 65536;

    /// A super block's features: each run of neighbouring conventional zones is one file.
    FEATURE_AGGREGATE: u64 = 1;
    /// A super block's features: the owner is in use.
    FEATURE_UID: u64 = 2;
    /// A super block's features: the group is in use.
    FEATURE_GID: u64 = 4;
    /// A super block's features: the mode is in use.
    FEATURE_PERM: u64 = 8;

    /// A report: where it begins, 8 bytes, 0. Numbers in reports and records are little-endian, positions in sectors.
    REPORT_SECTOR: usize = 0;
    /// A report: how many zones follow, 4 bytes.
    REPORT_COUNT: usize = 8;
    /// A report: [`CAPACITY_GIVEN`] or 0, 4 bytes.
    REPORT_FLAGS: usize = 12;
    /// The only flag of a report.
    CAPACITY_GIVEN: u32 = 1;
    /// A zone record: the start, 8 bytes.
    RECORD_START: usize = 0;
    /// A zone record: the length, 8 bytes.
    RECORD_LENGTH: usize = 8;
    /// A zone record: the write pointer, 8 bytes, looked at only under the conditions 1 to 4.
    RECORD_POINTER: usize = 16;
    /// A zone record: 1 conventional, 2 or 3 sequential; one byte.
    RECORD_TYPE: usize = 24;
    /// A zone record: 0 no pointer; 1 empty, 2 or 3 open, 4 closed, 14 full; 13 read-only, 15 offline; one byte.
    RECORD_CONDITION: usize = 25;
    /// A zone record: the capacity, 8 bytes. Without [`CAPACITY_GIVEN`] it isn't looked at, and the capacity is the length.
    RECORD_CAPACITY: usize = 32;

    /// How many values follow in an answer.
    ANSWER_VALUES: usize = 0;
    /// A call answered at once, or a completion: the bytes read or written.
    ANSWER_COUNT: usize = 1;
    /// A call with a command: which.
    ANSWER_COMMAND: usize = 1;
    /// A call with a command: its byte address.
    ANSWER_ADDRESS: usize = 2;
    /// A call with a command: its byte length, 0 but for reads and writes.
    ANSWER_LENGTH: usize = 3;
    /// A failure digested, number 7: the file's size now.
    ANSWER_NEW_SIZE: usize = 1;
    /// A record refused by 9: the reason.
    ANSWER_RECORD_REASON: usize = 1;
    /// A mount, or the end of one in pieces: how many cnv files there are.
    ANSWER_CNV_FILES: usize = 1;
    /// A mount, or the end of one in pieces: how many seq files there are.
    ANSWER_SEQ_FILES: usize = 2;
    /// A mount or a piece refused by 29: the lowest number of a bad zone. A super block not made because of 29: 0.
    ANSWER_ZONE: usize = 1;
    /// A mount or a piece refused by 29, or a super block not made because of it: the reason.
    ANSWER_ZONE_REASON: usize = 2;
    /// A super block made: 1 where zone 0 must first be finished, else 0.
    ANSWER_FINISH: usize = 1;
    /// A super block read: its features.
    ANSWER_SUPER_FEATURES: usize = 1;
    /// A super block read: its owner.
    ANSWER_SUPER_OWNER: usize = 2;
    /// A super block read: its group.
    ANSWER_SUPER_GROUP: usize = 3;
    /// A super block read: its mode.
    ANSWER_SUPER_MODE: usize = 4;
    /// A name found: the file's kind.
    ANSWER_KIND: usize = 1;
    /// A name found: the file's number.
    ANSWER_NUMBER: usize = 2;
    /// A file shown: its first sector.
    ANSWER_START: usize = 1;
    /// A file shown: its capacity in bytes.
    ANSWER_CAPACITY: usize = 2;
    /// A file shown: its size in bytes.
    ANSWER_SIZE: usize = 3;
    /// A file shown: its condition.
    ANSWER_CONDITION: usize = 4;
    /// A file shown: its access.
    ANSWER_ACCESS: usize = 5;
    /// A file shown: the permission bits.
    ANSWER_MODE: usize = 6;

    /// How many values a call has that is answered at once.
    AT_ONCE: u64 = 1;
    /// How many values a call has whose command is to be done.
    COMMANDED: u64 = 3;

    /// A row: the first sector.
    ROW_START: usize = 0;
    /// A row: the capacity in bytes.
    ROW_CAPACITY: usize = 1;
    /// A row: the size in bytes.
    ROW_SIZE: usize = 2;
    /// A row: the condition.
    ROW_CONDITION: usize = 3;
    /// A row: the access.
    ROW_ACCESS: usize = 4;
    /// A row: 0 where nothing is outstanding, and then the two words after it are not looked at; else 1 + the command's code.
    ROW_HELD: usize = 5;
    /// A row: the outstanding command's byte address. A row is stored with 0 here where nothing is outstanding.
    ROW_HELD_ADDRESS: usize = 6;
    /// A row: the outstanding command's byte length. A row is stored with 0 here where nothing is outstanding.
    ROW_HELD_LENGTH: usize = 7;
    /// A row: how many opens the file has. A seq file is open while this isn't 0.
    ROW_OPENS: usize = 8;

    /// A mount value: the block, 512 or 4096.
    MOUNT_BLOCK: usize = 0;
    /// A mount value: how many cnv files there are. 32 bits, as the four after it.
    MOUNT_CNV_FILES: usize = 1;
    /// A mount value: how many seq files there are.
    MOUNT_SEQ_FILES: usize = 2;
    /// A mount value: the owner.
    MOUNT_OWNER: usize = 3;
    /// A mount value: the group.
    MOUNT_GROUP: usize = 4;
    /// A mount value: the mode.
    MOUNT_MODE: usize = 5;
    /// A mount value: what a failure does.
    MOUNT_POLICY: usize = 6;
    /// A mount value: bytes 0 to 7 of the uuid, the first lowest.
    MOUNT_UUID_LOW: usize = 7;
    /// A mount value: bytes 8 to 15 of the uuid.
    MOUNT_UUID_HIGH: usize = 8;
    /// A mount value: 1 where the mount is read-only.
    MOUNT_READ_ONLY: usize = 9;
    /// A mount value: 1 where the option `explicit-open` was given.
    MOUNT_EXPLICIT_OPEN: usize = 10;

    /// An account: how many seq files are open. 32 bits, as the three after it.
    ACCOUNT_OPEN: usize = 0;
    /// An account: how many seq files are active.
    ACCOUNT_ACTIVE: usize = 1;
    /// An account: how many seq files may be open, 0 for no limit.
    ACCOUNT_OPEN_LIMIT: usize = 2;
    /// An account: how many seq files may be active, 0 for no limit.
    ACCOUNT_ACTIVE_LIMIT: usize = 3;
}
