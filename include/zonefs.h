/*
 * zonefs.h: the proved library for C and C++. Link with libcapi.a (see docs/LINKING.md). zonefs_volume.h has the same functions over one
 * struct, which is what most programs want.
 *
 * The library mounts a zoned disk, decides each call on its files, and digests what the disk reports back. A file is a zone, or a run of
 * zones: of kind cnv in conventional zones, of kind seq in a sequential one. The library itself does nothing to the disk: a call answers with
 * a command, the caller has the disk do it, and then tells the library how that went.
 *
 *   zonefs_format, zonefs_super_fields                  make a disk's first bytes, or read the values in them; no mount is needed
 *   zonefs_mount                                        once, with the disk's first bytes, its zone report and its limits
 *   zonefs_begin, zonefs_piece, zonefs_end              the same with a report that comes in pieces, cut anywhere
 *   zonefs_read, _write, _truncate, _flush              refused, answered at once, or a command for the disk, which is then outstanding
 *   zonefs_open, zonefs_close                           the same, around the writes to a seq file, which the option explicit-open demands
 *   zonefs_complete, zonefs_fail                        a file's outstanding command was done, or failed; its next call may follow
 *   zonefs_find, zonefs_show                            look up a name or a file, at any time
 *
 * Each file may have one command outstanding, any number of files at once, and they end in any order.
 *
 * The library keeps nothing: no heap, no globals, no input or output. What it knows of a mounted volume lives in memory
 * that the caller lends to each call:
 *
 *   mount words   ZONEFS_MOUNT_WORDS words of 64 bits, written by zonefs_mount or zonefs_end; zonefs_fail may set their read-only mark; keep them as
 *                 they are
 *   account words ZONEFS_ACCOUNT_WORDS words of 64 bits: how many seq files are open and how many active, and the limit of each; written by
 *                 zonefs_mount or zonefs_end, and corrected by zonefs_open and zonefs_close and by what ends commands
 *   cnv, seq      a table for the files of each kind, ZONEFS_ROW_WORDS words of 64 bits for each file, with its opens and the command that it has
 *                 outstanding; written by zonefs_mount or zonefs_piece, and changed by the calls and by what ends their commands
 *   pieces words  ZONEFS_PIECES_WORDS words of 64 bits, for a mount in pieces alone: what is held from its begin to its end
 *   answer words  ZONEFS_ANSWER_WORDS words of 64 bits, overwritten with what the call answers beside its number
 *
 * Every slice is lent as a pointer and the number of its elements. The pointer must not be null, also where the number is 0, and must be
 * aligned for its type; slices that one call is lent must not overlap where one of them is written. Nothing is demanded of what the
 * memory holds: each function answers for every content, and reads or writes nothing outside the slices. One thread at a time may use
 * one mount's memory.
 *
 * On the stack zonefs_mount, zonefs_begin, zonefs_format, zonefs_super_fields and zonefs_checksum take some 10 kB, of which 8 KiB are the checksum's
 * tables; zonefs_piece takes some 3 kB, and the others less than 1 kB.
 *
 * Each function but zonefs_checksum returns one of the numbers below. Where a slice for mount words, account words, pieces words or answer words is too
 * short, one for a uuid, or to read a label into, has another length than it should have, the mount words that are read hold no mount value, the pieces
 * words that are read hold no mount that was begun, or an account word that is read is above 0xFFFFFFFF, the number is ZONEFS_IMPOSSIBLE and nothing is
 * written. Otherwise the answer words are written, also with a refusal: word 0 is the number of values, and words 1 to 6 are the values, with 0 after
 * the last.
 *
 * A table has as many rows as its words divided by ZONEFS_ROW_WORDS, rounded down. Too few rows for the files answer ZONEFS_TOO_FEW_ROWS to a mount
 * and ZONEFS_IMPOSSIBLE after it; more than needed are left alone.
 *
 * A sector has 512 bytes. Where a file starts is given in sectors; sizes, capacities, offsets, addresses and lengths of commands in bytes.
 */
#ifndef ZONEFS_H
#define ZONEFS_H

#include <stddef.h>
#include <stdint.h>

#ifdef __cplusplus
extern "C" {
#endif

/* The words of a mount value, of an account, of a row, of an answer, and of a mount in pieces. */
#define ZONEFS_MOUNT_WORDS 11
#define ZONEFS_ACCOUNT_WORDS 4
#define ZONEFS_ROW_WORDS 9
#define ZONEFS_ANSWER_WORDS 7
#define ZONEFS_PIECES_WORDS 39

/*
 * The most files of a kind, so that tables of this many rows are always long enough. A row takes 72 bytes, so such a table takes 4,718,520, and both
 * take 9.4 megabytes. A program need not lend as much: as many rows of a kind as its disk has files of it are enough, and a file is one zone or more.
 */
#define ZONEFS_MOST_FILES 65535

/* The most opens of one file. */
#define ZONEFS_MOST_OPENS 65535

/* The bytes of a super block, and of the label and the uuid in it. */
#define ZONEFS_SUPER_BYTES 4096
#define ZONEFS_LABEL_BYTES 64
#define ZONEFS_UUID_BYTES 16

/* The bytes of a report's header and of a zone record, and the most zones of a report. */
#define ZONEFS_HEADER_BYTES 16
#define ZONEFS_ZONE_BYTES 64
#define ZONEFS_MOST_ZONES 65536

/* The numbers that the functions return. */
enum {
  ZONEFS_OK = 0,
  ZONEFS_NO_FILE = 1,             /* no such file or name */
  ZONEFS_BUSY = 2,                /* the file has a command outstanding */
  ZONEFS_READ_ONLY = 3,           /* the mount is read-only */
  ZONEFS_DENIED = 4,              /* access too low; truncating cnv, or to neither 0 nor capacity */
  ZONEFS_BEYOND_CAPACITY = 5,     /* offset + length above capacity */
  ZONEFS_MISPLACED = 6,           /* seq write off the block, or offset other than the size */
  ZONEFS_FAILED = 7,              /* the disk failed it, and that was digested; one value: the file's new size */
  ZONEFS_NOTHING_OUTSTANDING = 8, /* completion of a file that has nothing outstanding */
  ZONEFS_BAD_RECORD = 9,          /* the failed completion's zone record doesn't fit; the command stays outstanding; one value: the reason */
  ZONEFS_IMPOSSIBLE = 10,         /* mount value, account or tables impossible, or words or tables too short; a uuid or label buffer of another length;
                                     pieces words without a mount that was begun */
  ZONEFS_OPEN_LIMIT = 11,         /* explicit-open: an open that would raise the open files above their limit */
  ZONEFS_ACTIVE_LIMIT = 12,       /* explicit-open: an open that would raise the active files above theirs */
  ZONEFS_NOT_OPEN = 13,           /* close of a seq file that isn't open; with explicit-open also a write to one */
  ZONEFS_TOO_MANY_OPENS = 14,     /* open of a file that has ZONEFS_MOST_OPENS opens, or more */
  ZONEFS_BAD_BLOCK = 20,          /* block neither 512 nor 4096 */
  ZONEFS_SUPER_LENGTH = 21,       /* super block: length, magic, checksum */
  ZONEFS_SUPER_MAGIC = 22,
  ZONEFS_SUPER_CHECKSUM = 23,
  ZONEFS_SUPER_FEATURES = 24,     /* features beyond bit 3 */
  ZONEFS_SUPER_OWNER = 25,        /* uid or gid in use and 0xFFFFFFFF */
  ZONEFS_SUPER_TAIL = 26,         /* nonzero tail */
  ZONEFS_BAD_OPTIONS = 27,        /* options */
  ZONEFS_BAD_REPORT = 28,         /* report header or length; in pieces a byte too many, or one that is missing at the end */
  ZONEFS_BAD_ZONE = 29,           /* bad zone; two values: the lowest number of one, and the reason */
  ZONEFS_TOO_FEW_ROWS = 30,       /* too few rows in the tables for the files of either kind; in pieces for the file that comes next */
  ZONEFS_SUPER_PERM = 33,         /* perm in use (feature bit 3) and above 0777; checked after 25 and before 26 */
  ZONEFS_LABEL_LENGTH = 34        /* zonefs_format: label longer than ZONEFS_LABEL_BYTES; checked after 33 and before 29 */
};

/*
 * The reasons of ZONEFS_BAD_ZONE and ZONEFS_BAD_RECORD: what is bad of the zone, the first of these. A zone of a report is tested for 1 to 7,
 * zone 0's record for zonefs_format for 0 to 7, and the record of a failure, which may start anywhere, for 0 and 2 to 9. Positions are in
 * sectors, and no sum wraps.
 */
enum {
  ZONEFS_REASON_NO_RECORD = 0,       /* the record is not ZONEFS_ZONE_BYTES long, so it has no field to name */
  ZONEFS_REASON_START = 1,           /* the first zone does not start at 0, or another not where the one before it ends */
  ZONEFS_REASON_LENGTH = 2,          /* the length is 0 or not whole blocks */
  ZONEFS_REASON_CAPACITY = 3,        /* the capacity is 0, not whole blocks, above the length or, in a conventional zone, not the length */
  ZONEFS_REASON_END = 4,             /* start + length is above 2^40 */
  ZONEFS_REASON_TYPE = 5,            /* the type is not 1, 2 or 3; condition and pointer are not looked at then */
  ZONEFS_REASON_CONDITION = 6,       /* the condition is none of its type's: conventional 0, 13, 15; sequential 1 to 4, 13, 14, 15 */
  ZONEFS_REASON_POINTER = 7,         /* sequential, conditions 1 to 4: the pointer is outside start..start + capacity, or on no block */
  ZONEFS_REASON_OTHER_ZONE = 8,      /* not this file's zone: seq: another kind, start or capacity; cnv: another kind, or not within the file */
  ZONEFS_REASON_BETTER_CONDITION = 9 /* the condition is better than the row's of a seq file; from best to worst: healthy, read-only, offline */
};

/*
 * The features of a super block, one bit each. Where its bit is clear, owner, group and mode are not looked at: a mount then has the owner or
 * group 0, and the mode 0640.
 */
enum {
  ZONEFS_FEATURE_AGGREGATE = 1, /* each run of neighbouring conventional zones is one file */
  ZONEFS_FEATURE_UID = 2,       /* the owner is in use */
  ZONEFS_FEATURE_GID = 4,       /* the group is in use */
  ZONEFS_FEATURE_PERM = 8       /* the mode is in use */
};

/* Kinds of files, as an argument and as a value. */
enum { ZONEFS_CNV = 0, ZONEFS_SEQ = 1 };

/* Commands to the disk, as a value and, with 1 added, in a row. */
enum {
  ZONEFS_COMMAND_READ = 0,
  ZONEFS_COMMAND_WRITE = 1,
  ZONEFS_COMMAND_RESET = 2,
  ZONEFS_COMMAND_FINISH = 3,
  ZONEFS_COMMAND_FLUSH = 4,
  ZONEFS_COMMAND_OPEN = 5,
  ZONEFS_COMMAND_CLOSE = 6
};

/* The condition and the access of a file. Write includes read. */
enum { ZONEFS_HEALTHY = 0, ZONEFS_ZONE_READ_ONLY = 1, ZONEFS_OFFLINE = 2 };
enum { ZONEFS_ACCESS_NONE = 0, ZONEFS_ACCESS_READ = 1, ZONEFS_ACCESS_WRITE = 2 };

/* The option errors=, in the mount words. */
enum { ZONEFS_REMOUNT_RO = 0, ZONEFS_ZONE_RO = 1, ZONEFS_ZONE_OFFLINE = 2, ZONEFS_REPAIR = 3 };

/*
 * The words of an answer: how many values there are, and where each stands. What a word means depends on the function, on the number that it
 * returned and, after a call, on ZONEFS_ANSWER_VALUES. With a number that is not named here there is no value.
 */
enum {
  ZONEFS_ANSWER_VALUES = 0,

  /* zonefs_read, _write, _truncate, _flush, _open, _close: 0 with ZONEFS_AT_ONCE value; zonefs_complete: 0 */
  ZONEFS_ANSWER_COUNT = 1,      /* the bytes read or written */

  /* zonefs_read, _write, _truncate, _flush, _open, _close: 0 with ZONEFS_COMMANDED values */
  ZONEFS_ANSWER_COMMAND = 1,    /* ZONEFS_COMMAND_READ to ZONEFS_COMMAND_CLOSE */
  ZONEFS_ANSWER_ADDRESS = 2,    /* in bytes from the start of the disk */
  ZONEFS_ANSWER_LENGTH = 3,     /* in bytes, 0 but for reads and writes */

  /* zonefs_fail: 7 */
  ZONEFS_ANSWER_NEW_SIZE = 1,   /* the file's size now */

  /* zonefs_fail: 9 */
  ZONEFS_ANSWER_RECORD_REASON = 1, /* ZONEFS_REASON_NO_RECORD to ZONEFS_REASON_BETTER_CONDITION */

  /* zonefs_mount, zonefs_end: 0 */
  ZONEFS_ANSWER_CNV_FILES = 1,
  ZONEFS_ANSWER_SEQ_FILES = 2,

  /* zonefs_mount, zonefs_piece, zonefs_end, zonefs_format: 29 */
  ZONEFS_ANSWER_ZONE = 1,        /* the lowest number of a bad zone; of zonefs_format 0 */
  ZONEFS_ANSWER_ZONE_REASON = 2, /* ZONEFS_REASON_START to ZONEFS_REASON_POINTER; of zonefs_format also ZONEFS_REASON_NO_RECORD */

  /* zonefs_format: 0 */
  ZONEFS_ANSWER_FINISH = 1,      /* 1 where zone 0 must first be finished, else 0 */

  /* zonefs_super_fields: 0 */
  ZONEFS_ANSWER_SUPER_FEATURES = 1, /* ZONEFS_FEATURE_AGGREGATE to ZONEFS_FEATURE_PERM, added up */
  ZONEFS_ANSWER_SUPER_OWNER = 2,
  ZONEFS_ANSWER_SUPER_GROUP = 3,
  ZONEFS_ANSWER_SUPER_MODE = 4,

  /* zonefs_find: 0 */
  ZONEFS_ANSWER_KIND = 1,
  ZONEFS_ANSWER_NUMBER = 2,

  /* zonefs_show: 0 */
  ZONEFS_ANSWER_START = 1,      /* in sectors */
  ZONEFS_ANSWER_CAPACITY = 2,
  ZONEFS_ANSWER_SIZE = 3,
  ZONEFS_ANSWER_CONDITION = 4,
  ZONEFS_ANSWER_ACCESS = 5,
  ZONEFS_ANSWER_MODE = 6        /* the permission bits, as of chmod */
};

/* How many values a call answers beside 0: it is over at once, or a command is to be done. */
enum { ZONEFS_AT_ONCE = 1, ZONEFS_COMMANDED = 3 };

/*
 * The words of a row. Three of them are the command that the file has outstanding. A call that gives a command stores it there; a mount, a command
 * that is no longer outstanding, and an open or a close that counts and gives none leave 0 in all three. Where ZONEFS_ROW_HELD is 0, the two after
 * it are not looked at, whatever they are.
 * ZONEFS_ROW_OPENS is how often the file was opened and not closed again. A seq file is open while that is not 0; of a cnv file it counts nowhere. A
 * mount leaves 0, and so does what takes write access from the file: in a row without it any other number is impossible.
 */
enum {
  ZONEFS_ROW_START = 0,        /* the first sector */
  ZONEFS_ROW_CAPACITY = 1,     /* in bytes */
  ZONEFS_ROW_SIZE = 2,         /* in bytes */
  ZONEFS_ROW_CONDITION = 3,
  ZONEFS_ROW_ACCESS = 4,
  ZONEFS_ROW_HELD = 5,         /* 0 where nothing is outstanding, else 1 + ZONEFS_COMMAND_READ to 1 + ZONEFS_COMMAND_CLOSE */
  ZONEFS_ROW_HELD_ADDRESS = 6, /* in bytes from the start of the disk */
  ZONEFS_ROW_HELD_LENGTH = 7,  /* in bytes, 0 but for reads and writes */
  ZONEFS_ROW_OPENS = 8         /* at most ZONEFS_MOST_OPENS, by zonefs_open */
};

/*
 * The words of a mount value. Words hold none where a number of 32 bits is above 0xFFFFFFFF, the mark or ZONEFS_MOUNT_EXPLICIT_OPEN above 1, or the
 * policy none of its codes. All but the mark stay as the mount has set them.
 */
enum {
  ZONEFS_MOUNT_BLOCK = 0,
  ZONEFS_MOUNT_CNV_FILES = 1,     /* 32 bits, as the four after it */
  ZONEFS_MOUNT_SEQ_FILES = 2,
  ZONEFS_MOUNT_OWNER = 3,
  ZONEFS_MOUNT_GROUP = 4,
  ZONEFS_MOUNT_MODE = 5,
  ZONEFS_MOUNT_POLICY = 6,        /* ZONEFS_REMOUNT_RO to ZONEFS_REPAIR */
  ZONEFS_MOUNT_UUID_LOW = 7,      /* bytes 0 to 7 of the uuid, the first lowest */
  ZONEFS_MOUNT_UUID_HIGH = 8,     /* bytes 8 to 15 */
  ZONEFS_MOUNT_READ_ONLY = 9,     /* 1 where the mount is read-only */
  ZONEFS_MOUNT_EXPLICIT_OPEN = 10 /* 1 where the option explicit-open was given */
};

/*
 * The words of an account, each a number of 32 bits. It counts seq files alone. A file is open while it has opens. It is active while it is healthy,
 * has write access and a size below its capacity, and has a size other than 0 or, with the option explicit-open, is open. A mount leaves 0 open, and
 * as many active as there are, also above the limit; what is called and completed from then on keeps both numbers true. The limits stay.
 * Of words that came from elsewhere nothing is counted afresh: each function believes them, and changes them by what changes in the one file. But a
 * number of open or of active files above that of all seq files is ZONEFS_IMPOSSIBLE to every function that reads it, before ZONEFS_NO_FILE; and so
 * is, to one that names a seq file, with its row, 0 open files where that file is open, or 0 active ones where it is active.
 */
enum {
  ZONEFS_ACCOUNT_OPEN = 0,
  ZONEFS_ACCOUNT_ACTIVE = 1,
  ZONEFS_ACCOUNT_OPEN_LIMIT = 2,  /* what zonefs_open may raise the first to, with explicit-open; 0 for no limit */
  ZONEFS_ACCOUNT_ACTIVE_LIMIT = 3 /* what it may raise the second to, in the same way */
};

/*
 * A zone report and a zone record are the bytes of struct blk_zone_report, with its zones, and of struct blk_zone of linux/blkzoned.h, as
 * BLKREPORTZONE gives them on a little-endian machine. A zone's bytes are passed on as they come: where a zone has no write pointer, as a full
 * one has none, that field may hold anything, and a full zone's size is its capacity. All numbers are little-endian, positions and lengths are
 * in sectors, and bytes not named here are not looked at. Where each field stands, in bytes:
 */
enum {
  ZONEFS_REPORT_SECTOR = 0,     /* 8 bytes: where the report begins, 0 */
  ZONEFS_REPORT_COUNT = 8,      /* 4 bytes: how many zones follow, as returned, 1 to ZONEFS_MOST_ZONES */
  ZONEFS_REPORT_FLAGS = 12,     /* 4 bytes: ZONEFS_CAPACITY_GIVEN or 0 */

  ZONEFS_RECORD_START = 0,      /* 8 bytes */
  ZONEFS_RECORD_LENGTH = 8,     /* 8 bytes */
  ZONEFS_RECORD_POINTER = 16,   /* 8 bytes: the write pointer, looked at only under the conditions 1 to 4 */
  ZONEFS_RECORD_TYPE = 24,      /* 1 byte: 1 conventional, 2 or 3 sequential */
  ZONEFS_RECORD_CONDITION = 25, /* 1 byte: 0 no pointer; 1 empty, 2 or 3 open, 4 closed, 14 full; 13 read-only, 15 offline */
  ZONEFS_RECORD_CAPACITY = 32   /* 8 bytes, looked at only with ZONEFS_CAPACITY_GIVEN; without it the capacity is the length */
};

/* BLK_ZONE_REP_CAPACITY, the only flag of a report. */
enum { ZONEFS_CAPACITY_GIVEN = 1 };

/*
 * Formats: makes the super block of a disk, 4,096 bytes, in memory. The library touches no disk: where the value is 1, the caller first has
 * zone 0 finished; then it writes the block to the disk's first 4,096 bytes. docs/LINKING.md has the way for a zone 0 that takes writes at its
 * pointer alone, and so none once it is full.
 * Reads the block (512 or 4096), the label, which is any bytes, up to ZONEFS_LABEL_BYTES, without a final zero, the uuid, and the record of zone
 * 0, which is the first one of a report. capacity_given is 0 where the record states no capacity, and anything else where it does: bit 0 of that
 * report's flags (ZONEFS_CAPACITY_GIVEN), which has no others.
 * Writes all 4,096 bytes of the super block, whatever stood there: label (with zeros after it), uuid, features, owner, group and mode exactly as
 * given, also where their feature bit is clear, with magic and checksum, and zeros in the tail. Such a block mounts, all else good, with exactly
 * these values, those without their bit ignored.
 * Returns 0, with one value: 1 where zone 0 must first be finished, which is where it is sequential, healthy and below its capacity in size
 * (a full one isn't, whatever its pointer), else 0. Or returns, in this order, 10 (the uuid is not ZONEFS_UUID_BYTES long, or answer words too
 * few), 20 (the block), 21 (the lent super block is not ZONEFS_SUPER_BYTES long), 24, 25, 33, 34 (the label is too long), 29 with two values,
 * zone 0 and the reason: the record is no good first zone of a report, so it has to start at 0 too, or is not ZONEFS_ZONE_BYTES long. Refused,
 * the lent super block is as it was.
 */
uint64_t zonefs_format(uint64_t block, uint8_t *superblock, size_t superblock_bytes, const uint8_t *label,
                       size_t label_bytes, const uint8_t *uuid, size_t uuid_bytes, uint64_t features, uint32_t owner,
                       uint32_t group, uint32_t mode, const uint8_t *record, size_t record_bytes, uint32_t capacity_given,
                       uint64_t *answer, size_t answer_words);

/*
 * Reads the values of a super block, as they stand there: also owner, group and mode whose feature bit is clear. Formatted again with them, the
 * block has the same bytes. Reads the super block; writes the label, all ZONEFS_LABEL_BYTES of it, and the uuid to the lent buffers, which have
 * exactly ZONEFS_LABEL_BYTES and ZONEFS_UUID_BYTES.
 * Returns 0, with four values, features, owner, group and mode; or 10 (a buffer of another length, or answer words too few), 21 to 26, 33, as a
 * mount does and in its order (21 to 25, 33, 26). Refused, both buffers are as they were.
 */
uint64_t zonefs_super_fields(const uint8_t *superblock, size_t superblock_bytes, uint8_t *label, size_t label_bytes,
                             uint8_t *uuid, size_t uuid_bytes, uint64_t *answer, size_t answer_words);

/*
 * Mounts. Reads the block (512 or 4096), the disk's first 4,096 bytes (the super block), the option text, the zone report and the limits. The
 * options are up to 255 bytes without a final zero, pieces split by commas: errors=remount-ro, errors=zone-ro, errors=zone-offline or errors=repair, of
 * which the last counts, and of none errors=remount-ro; and explicit-open, anywhere among them and as often as one likes. The report is one piece from
 * the first zone on, and its length is exactly ZONEFS_HEADER_BYTES + ZONEFS_ZONE_BYTES for each zone that its header counts. The limits are how many seq
 * files may be open, and how many active, by zonefs_open; 0 is no limit. Without explicit-open they are kept, and not looked at.
 * Writes the rows of the files to the front of both tables, with nothing outstanding and no opens, the mount words, and the account words: 0 open, as
 * many active as the report shows, and the limits.
 * Returns 0, with two values, the numbers of cnv and of seq files; or 10 (mount, account or answer words too short), 20 to 30, 33; 29 with two
 * values, the lowest number of a bad zone and its reason. Refused by 20 to 30 or 33, the tables are as they were, and the mount words and account
 * words are all 0, with which every call and every completion answers 10.
 */
uint64_t zonefs_mount(uint64_t block, const uint8_t *superblock, size_t superblock_bytes, const uint8_t *options,
                      size_t options_bytes, const uint8_t *report, size_t report_bytes, uint32_t open_limit,
                      uint32_t active_limit, uint64_t *cnv, size_t cnv_words, uint64_t *seq, size_t seq_words,
                      uint64_t *mount, size_t mount_words, uint64_t *account, size_t account_words, uint64_t *answer,
                      size_t answer_words);

/*
 * The mount in pieces, for a report that is not in memory all at once: zonefs_begin once, then zonefs_piece for each part of the report's bytes, one
 * behind the other, then zonefs_end. The bytes are those that zonefs_mount takes: one header, with the count of all zones, and then the records of all
 * of them. Any cut does, also within the header or within a record, and a piece may have no bytes: what comes out does not depend on the cuts.
 * A report that zonefs_mount accepts gives the same numbers, values, rows, mount words and account words in pieces, where each piece is lent tables as
 * long as that mount's. One that it refuses is refused in pieces too, but by its first fault in the order of the bytes.
 * What is held between the pieces stands in the pieces words, and nowhere else: the bytes of a header or of one record that is not whole yet, one run
 * of conventional zones that is not finished yet, a few numbers, and what zonefs_begin has found. What each word means is the library's own. They may
 * be copied or kept, and lent again. Words that were made up and fit are answered by what they say.
 */

/*
 * Begins. Reads what zonefs_mount reads before the report: the block, the super block, the option text and the limits. Writes the pieces words.
 * Returns 0, with no value; or 10 (pieces or answer words too few), 20 to 27, 33, as zonefs_mount does of these and in its order. Refused by 20 to 27
 * or 33, the pieces words hold no mount that was begun: zonefs_piece and zonefs_end answer 10 to them.
 */
uint64_t zonefs_begin(uint64_t block, const uint8_t *superblock, size_t superblock_bytes, const uint8_t *options,
                      size_t options_bytes, uint32_t open_limit, uint32_t active_limit, uint64_t *pieces,
                      size_t pieces_words, uint64_t *answer, size_t answer_words);

/*
 * Takes the report's next bytes. Reads them and the pieces words; writes the pieces words and, at its number in its table, the row of each file that is
 * finished in this piece, with nothing outstanding and no opens. No other row is read or written. Each piece is lent both tables. They are the same
 * memory each time where the rows are to be used afterwards, though nothing demands it; only the length of those lent with this piece counts.
 * A seq file is finished with its zone, and so is a cnv file without ZONEFS_FEATURE_AGGREGATE. With it, a run of conventional zones is finished by the
 * count's last zone, or by a good zone of another type. Zone 0 is no file, and belongs to no run.
 * Returns 0, with no value, where nothing is wrong so far. Or returns 10 (pieces or answer words too few, or pieces words that hold no mount that was
 * begun), or, at the byte that shows it,
 *   28  a bad header (sector, count, flags), at its last byte; or a byte behind the last zone that the header counts
 *   29  a bad zone, at the last byte of its record, with two values, its number and the reason; it finishes nothing
 *   30  a table without a row for the file that a good zone begins, at the last byte of that zone's record; a run that this zone has finished is stored
 *       before. Also where a run is finished while the table lent has no row for it, as it had when the run began.
 * Refused by 28 to 30, the rows of the files that were finished before stay stored, in this piece as in those before it, all others are as they were,
 * and no mount can come of it any more: every further piece and the end return the same number and values, and leave pieces words and tables alone.
 */
uint64_t zonefs_piece(uint64_t *pieces, size_t pieces_words, const uint8_t *bytes, size_t count, uint64_t *cnv,
                      size_t cnv_words, uint64_t *seq, size_t seq_words, uint64_t *answer, size_t answer_words);

/*
 * Ends: the report has no more bytes. Reads the pieces words; writes the mount words and the account words, as zonefs_mount does, and where bytes are
 * missing the pieces words. The tables, which are not lent here, have all their rows from the pieces.
 * Returns 0, with two values, the numbers of cnv and of seq files, and the pieces words are as they were: a second end returns the same, and a further
 * byte is one too many. Or returns 10 (pieces, mount, account or answer words too few, or pieces words that hold no mount that was begun); what a piece
 * was refused by, with its values; or 28, where bytes are missing, and then so does every further piece and end, also a piece with those bytes. Refused
 * by 28 to 30, the mount words and account words are all 0, with which every call and every completion answers 10.
 */
uint64_t zonefs_end(uint64_t *pieces, size_t pieces_words, uint64_t *mount, size_t mount_words, uint64_t *account,
                    size_t account_words, uint64_t *answer, size_t answer_words);

/*
 * Finds a name such as "seq/12", given without a final zero. Reads mount words, account words and tables; writes the answer words only. Here and
 * in showing it does not matter what is outstanding.
 * Returns 0, with two values, the kind and the number of the file; or 1, 10.
 */
uint64_t zonefs_find(const uint64_t *mount, size_t mount_words, const uint64_t *account, size_t account_words,
                     const uint64_t *cnv, size_t cnv_words, const uint64_t *seq, size_t seq_words, const uint8_t *name,
                     size_t name_bytes, uint64_t *answer, size_t answer_words);

/*
 * Shows a file. Reads mount words, account words and tables; writes the answer words only. Here as in the calls and completions, a kind above 1 is
 * no file's. How often the file is open is in its row (ZONEFS_ROW_OPENS).
 * Returns 0, with six values, start in sectors, capacity, size, condition, access, and the mode shown; or 1, 10.
 */
uint64_t zonefs_show(const uint64_t *mount, size_t mount_words, const uint64_t *account, size_t account_words,
                     const uint64_t *cnv, size_t cnv_words, const uint64_t *seq, size_t seq_words, uint32_t kind,
                     uint32_t number, uint64_t *answer, size_t answer_words);

/*
 * The calls. Each reads mount words, account words and tables, and writes the answer words and, where it gives a command, the words ZONEFS_ROW_HELD
 * to ZONEFS_ROW_HELD_LENGTH of the named file's row.
 * Returns 0 with one value (ZONEFS_AT_ONCE), where it is answered at once: the count, always 0; or 0 with three values (ZONEFS_COMMANDED),
 * where a command is to be done: the command, its byte address and its byte length. The file then has this command outstanding, until
 * zonefs_complete or zonefs_fail of this file. Or returns 1 to 6, 10, with no value; a write also 13. Answered at once or refused, mount words, account
 * words and tables are as they were. Only opening and closing, further down, write more than that; the four before them never change the account.
 * 2 is about the named file alone, whatever others have outstanding, and comes from any ZONEFS_ROW_HELD but 0, be it a command or not.
 * A read is cut at the file's size. A seq file is written at its size only, in whole blocks. A read, or a write to a cnv file, has no
 * alignment, and then neither has its command.
 */
uint64_t zonefs_read(uint64_t *mount, size_t mount_words, uint64_t *account, size_t account_words, uint64_t *cnv,
                     size_t cnv_words, uint64_t *seq, size_t seq_words, uint32_t kind, uint32_t number, uint64_t offset,
                     uint64_t length, uint64_t *answer, size_t answer_words);

/* With explicit-open, a write to a seq file that is not open answers 13, after 4 and before 5. */
uint64_t zonefs_write(uint64_t *mount, size_t mount_words, uint64_t *account, size_t account_words, uint64_t *cnv,
                      size_t cnv_words, uint64_t *seq, size_t seq_words, uint32_t kind, uint32_t number, uint64_t offset,
                      uint64_t length, uint64_t *answer, size_t answer_words);

/* Seq files only, to the size 0 (a reset) or to the capacity (a finish). */
uint64_t zonefs_truncate(uint64_t *mount, size_t mount_words, uint64_t *account, size_t account_words, uint64_t *cnv,
                         size_t cnv_words, uint64_t *seq, size_t seq_words, uint32_t kind, uint32_t number, uint64_t size,
                         uint64_t *answer, size_t answer_words);

uint64_t zonefs_flush(uint64_t *mount, size_t mount_words, uint64_t *account, size_t account_words, uint64_t *cnv,
                      size_t cnv_words, uint64_t *seq, size_t seq_words, uint32_t kind, uint32_t number, uint64_t *answer,
                      size_t answer_words);

/*
 * Opens a file for writing. Of a seq file it also writes, where it returns 0, ZONEFS_ROW_OPENS, which is one more, and the account words: one more file
 * is open where this one was not, and one more active where this one becomes so, which only an empty one does, with explicit-open.
 * With explicit-open, the first open of a file that is not full gives ZONEFS_COMMAND_OPEN: the disk is to open the zone at the address. The file is
 * open, and is counted, from this call on, not only when the disk is done. Every other open is answered at once, and so is every one without
 * explicit-open; of a cnv file too, whose row stays as it was.
 * Refused it returns, in this order, 10 (mount words, account words, or too few rows), 1, 10 (the row), 2, and of a seq file 3, 4 (no write access), 14
 * (the file has ZONEFS_MOST_OPENS opens or more), 11, 12. The last two come with explicit-open alone, and only from an open that would raise the number
 * of open files (11) or of active ones (12) above a limit that is not 0.
 */
uint64_t zonefs_open(uint64_t *mount, size_t mount_words, uint64_t *account, size_t account_words, uint64_t *cnv,
                     size_t cnv_words, uint64_t *seq, size_t seq_words, uint32_t kind, uint32_t number, uint64_t *answer,
                     size_t answer_words);

/*
 * Closes a file again, one of its opens. Of a seq file it also writes, where it returns 0, ZONEFS_ROW_OPENS, which is one less, and the account words:
 * with the last close one file less is open, and one less active where this one is empty and was active by being open.
 * With explicit-open, the last close of a file that is neither empty nor full gives ZONEFS_COMMAND_CLOSE: the disk is to close the zone at the
 * address. The file is no longer open from this call on, whatever becomes of the command. Every other close is answered at once, as opens are.
 * Refused it returns, in this order, 10 (mount words, account words, or too few rows), 1, 10 (the row), 2, and of a seq file 13 (it is not open). 3
 * and 4 are no matter here: a file can be closed on a read-only mount, and one without write access has no opens.
 */
uint64_t zonefs_close(uint64_t *mount, size_t mount_words, uint64_t *account, size_t account_words, uint64_t *cnv,
                      size_t cnv_words, uint64_t *seq, size_t seq_words, uint32_t kind, uint32_t number, uint64_t *answer,
                      size_t answer_words);

/*
 * The command that the file has outstanding was done, all of it. Reads mount words, account words and tables, and writes the answer words and, where
 * it returns 0, the named file's row, in which nothing is outstanding any more, and ZONEFS_ACCOUNT_ACTIVE, where the file became active or is no longer.
 * That looks at no limit. An open or a close that was done changes nothing but what is outstanding.
 * Returns 0 with one value, the bytes read or written, else 0; or, in this order, 10 (mount words, account words, or too few rows), 1, 8, 10 (the row;
 * or what it has outstanding is no command, or one that no call on such a row gives), with no value, and mount words, account words and tables are as
 * they were. Of an open or a close that is asked of the row as it stood before that call, with one open less or one more. The read-only mark is not
 * looked at, nor are the limits: where another file's failure has set the mark since, the command ends as usual.
 */
uint64_t zonefs_complete(uint64_t *mount, size_t mount_words, uint64_t *account, size_t account_words, uint64_t *cnv,
                         size_t cnv_words, uint64_t *seq, size_t seq_words, uint32_t kind, uint32_t number,
                         uint64_t *answer, size_t answer_words);

/*
 * The command that the file has outstanding failed; a read or write of the disk that came out short counts as failed. The record is the 64 bytes
 * of the zone at the command's address, as it is after the failure: also in a cnv file of several zones it is the one in which the command
 * begins. capacity_given is 0 where the record states no capacity, and anything else where it does: the flags of the report that the record came
 * with. Reads mount words, account words and tables, and writes the answer words and, where it returns 7, the named file's row, in which nothing is
 * outstanding any more, ZONEFS_MOUNT_READ_ONLY, and ZONEFS_ACCOUNT_OPEN and ZONEFS_ACCOUNT_ACTIVE, by what has become of this file. It has no opens any
 * more where the failed command was an open, or where it lost write access. What other files have outstanding stays so, and so do their opens, also
 * where the whole mount becomes read-only.
 * Returns 7 with one value, the file's size now; or, in the order of zonefs_complete, 10, 1, 8, 10, with no value, and then 9 with one value, the
 * reason: the record is not 64 bytes long, or does not fit the file. But for 7, mount words, account words and tables are as they were, and the command
 * stays outstanding.
 */
uint64_t zonefs_fail(uint64_t *mount, size_t mount_words, uint64_t *account, size_t account_words, uint64_t *cnv,
                     size_t cnv_words, uint64_t *seq, size_t seq_words, uint32_t kind, uint32_t number,
                     const uint8_t *record, size_t record_bytes, uint32_t capacity_given, uint64_t *answer,
                     size_t answer_words);

/*
 * The checksum of bytes: reflected CRC-32, polynomial 0xEDB88320, start all ones, no final inversion. A super block's checksum is that of its
 * 4,096 bytes with the checksum field, bytes 4 to 7, zero; zonefs_format makes a whole block, with its checksum. Reads the bytes only.
 */
uint32_t zonefs_checksum(const uint8_t *bytes, size_t count);

#ifdef __cplusplus
}
#endif

#endif
