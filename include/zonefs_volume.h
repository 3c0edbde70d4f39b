/*
 * zonefs_volume.h: the functions of zonefs.h over one struct, with answers that have named fields. Header only, C99 and C++11. The plain
 * functions do all the work, and zonefs.h says what each reads, writes and answers; nothing of an answer is lost here.
 *
 * A volume holds the mount words and the account words, and points to two tables that the caller lends. So the caller chooses the room: a few rows
 * in firmware, as many as the disk has files on a large one, ZONEFS_MOST_FILES rows of each kind where any disk has to fit. Tables inside the struct
 * would make every volume 9.4 megabytes long.
 *
 *   static uint64_t cnv[ROWS * ZONEFS_ROW_WORDS], seq[ROWS * ZONEFS_ROW_WORDS];
 *   static struct zonefs_volume volume;
 *
 *   zonefs_volume_lend(&volume, cnv, ROWS * ZONEFS_ROW_WORDS, seq, ROWS * ZONEFS_ROW_WORDS);
 *   answer = zonefs_volume_mount(&volume, 4096, first_bytes, 4096, "errors=repair", report, report_bytes, 0, 0);
 *
 * Each file may have one command outstanding, any number of files at once; a completion names the file whose command has ended.
 *
 * Until it is mounted, and after a refused mount, a volume answers as the plain functions do with mount words of 0: 10 to a call, a completion,
 * finding and showing. That holds before zonefs_volume_lend too, if the struct is all zero, as a static one is; it has no rows then. A table with
 * a null pointer always has none. A copy of the struct is no second volume: both would change the same tables.
 *
 * Where the report comes in pieces, as that of a large disk does, zonefs_volume_begin, zonefs_volume_piece for each, and zonefs_volume_end mount it;
 * what is held between them is a struct of its own, which is not needed afterwards.
 *
 * A disk that has never been mounted needs a super block first. zonefs_volume_format makes one from a struct of its values, and
 * zonefs_volume_super_fields reads them back; neither takes a volume.
 */
#ifndef ZONEFS_VOLUME_H
#define ZONEFS_VOLUME_H

#include "zonefs.h"

#ifdef __cplusplus
extern "C" {
#endif

struct zonefs_volume {
  uint64_t mount[ZONEFS_MOUNT_WORDS];     /* ZONEFS_MOUNT_BLOCK to ZONEFS_MOUNT_EXPLICIT_OPEN, to be read by anyone */
  uint64_t account[ZONEFS_ACCOUNT_WORDS]; /* ZONEFS_ACCOUNT_OPEN to ZONEFS_ACCOUNT_ACTIVE_LIMIT, to be read by anyone */
  uint64_t *cnv;                          /* rows of ZONEFS_ROW_START to ZONEFS_ROW_OPENS, to be read by anyone */
  size_t cnv_words;
  uint64_t *seq;
  size_t seq_words;
};

/* What is held of a mount in pieces, from zonefs_volume_begin to zonefs_volume_end. A copy goes on from where it was taken. */
struct zonefs_volume_pieces {
  uint64_t words[ZONEFS_PIECES_WORDS]; /* the library's own */
};

/*
 * The values of a super block. The label is any bytes, not only text. It has one byte more than a super block holds, so that a label read back
 * ends in a zero and a text of ZONEFS_LABEL_BYTES characters fits with its own. A label_bytes above ZONEFS_LABEL_BYTES is refused, whatever it is.
 */
struct zonefs_volume_super {
  char label[ZONEFS_LABEL_BYTES + 1];
  size_t label_bytes;              /* how many bytes of it count; the block has zeros after them */
  uint8_t uuid[ZONEFS_UUID_BYTES];
  uint64_t features;               /* ZONEFS_FEATURE_AGGREGATE to ZONEFS_FEATURE_PERM, added up */
  uint32_t owner;                  /* this and the next two are kept, but not in use, without their feature */
  uint32_t group;
  uint32_t mode;
};

/* What kind of answer it is. */
enum zonefs_volume_outcome {
  ZONEFS_VOLUME_REFUSED = 0, /* the number says why; nothing changed, but for the mount and account words of a refused mount, and of one in pieces also
                                the struct of pieces and the rows of files that were finished before */
  ZONEFS_VOLUME_FAILED = 1,  /* number 7: the disk failed the command, and that was digested */
  ZONEFS_VOLUME_DONE = 2,    /* the call is over: at once, or because its command was completed */
  ZONEFS_VOLUME_COMMAND = 3, /* the disk is to do a command, which is outstanding until zonefs_volume_complete or zonefs_volume_fail of its file */
  ZONEFS_VOLUME_MOUNTED = 4,
  ZONEFS_VOLUME_FOUND = 5,
  ZONEFS_VOLUME_SHOWN = 6,
  ZONEFS_VOLUME_FORMATTED = 7, /* the super block is written, in memory */
  ZONEFS_VOLUME_FIELDS = 8,    /* the values of a super block were read */
  ZONEFS_VOLUME_TAKEN = 9      /* a mount in pieces was begun, or took a piece, and goes on */
};

/*
 * An answer. The fields that its outcome does not name are 0. Whether a refusal has a zone and a reason is told by its number, not by the
 * fields: 0 is a zone's number too, and the reason of a record that is not 64 bytes long.
 */
struct zonefs_volume_answer {
  uint64_t number; /* 0, or the refusal's: ZONEFS_NO_FILE to ZONEFS_LABEL_LENGTH */
  enum zonefs_volume_outcome outcome;

  uint64_t count;       /* DONE: the bytes read or written */
  uint32_t command;     /* COMMAND: ZONEFS_COMMAND_READ to ZONEFS_COMMAND_CLOSE */
  uint64_t address;     /* COMMAND: in bytes from the start of the disk */
  uint64_t length;      /* COMMAND: in bytes, 0 but for reads and writes */
  uint32_t cnv_files;   /* MOUNTED */
  uint32_t seq_files;   /* MOUNTED */
  uint32_t zone;        /* REFUSED by ZONEFS_BAD_ZONE: the lowest number of a bad zone */
  uint32_t reason;      /* REFUSED by ZONEFS_BAD_ZONE, ZONEFS_BAD_RECORD: ZONEFS_REASON_NO_RECORD to ZONEFS_REASON_BETTER_CONDITION */
  uint32_t file_kind;   /* FOUND: ZONEFS_CNV or ZONEFS_SEQ */
  uint32_t file_number; /* FOUND */
  uint64_t start;       /* SHOWN: in sectors of 512 bytes */
  uint64_t capacity;    /* SHOWN: in bytes */
  uint64_t size;        /* SHOWN, FAILED: the file's size now, in bytes */
  uint32_t condition;   /* SHOWN: ZONEFS_HEALTHY to ZONEFS_OFFLINE */
  uint32_t access;      /* SHOWN: ZONEFS_ACCESS_NONE to ZONEFS_ACCESS_WRITE */
  uint32_t mode;        /* SHOWN: the permission bits */
  uint32_t finish;      /* FORMATTED: 1 where zone 0 must first be finished, else 0 */
};

/* What a number says, in a few words. */
static inline const char *zonefs_volume_refusal_text(uint64_t number) {
  switch (number) {
  case ZONEFS_OK: return "not refused";
  case ZONEFS_NO_FILE: return "no such file or name";
  case ZONEFS_BUSY: return "the file has a command outstanding";
  case ZONEFS_READ_ONLY: return "the mount is read-only";
  case ZONEFS_DENIED: return "access too low, or truncation of a cnv file or to neither 0 nor capacity";
  case ZONEFS_BEYOND_CAPACITY: return "offset + length above capacity";
  case ZONEFS_MISPLACED: return "write to a seq file off the block or not at its size";
  case ZONEFS_FAILED: return "the disk failed it";
  case ZONEFS_NOTHING_OUTSTANDING: return "the file has nothing outstanding";
  case ZONEFS_BAD_RECORD: return "the zone record does not fit; the command stays outstanding";
  case ZONEFS_IMPOSSIBLE: return "mount words, account words, pieces words or tables impossible or too short";
  case ZONEFS_OPEN_LIMIT: return "as many files are open as may be";
  case ZONEFS_ACTIVE_LIMIT: return "as many files are active as may be";
  case ZONEFS_NOT_OPEN: return "the file is not open";
  case ZONEFS_TOO_MANY_OPENS: return "the file has too many opens";
  case ZONEFS_BAD_BLOCK: return "block neither 512 nor 4096";
  case ZONEFS_SUPER_LENGTH: return "super block not 4096 bytes long";
  case ZONEFS_SUPER_MAGIC: return "super block with another magic number";
  case ZONEFS_SUPER_CHECKSUM: return "super block with a wrong checksum";
  case ZONEFS_SUPER_FEATURES: return "super block with unknown features";
  case ZONEFS_SUPER_OWNER: return "super block with the uid or gid 0xFFFFFFFF";
  case ZONEFS_SUPER_TAIL: return "super block with a nonzero tail";
  case ZONEFS_BAD_OPTIONS: return "unknown or too long options";
  case ZONEFS_BAD_REPORT: return "zone report with a bad header or another length";
  case ZONEFS_BAD_ZONE: return "bad zone in the report";
  case ZONEFS_TOO_FEW_ROWS: return "tables too short for the files";
  case ZONEFS_SUPER_PERM: return "super block with a perm above 0777";
  case ZONEFS_LABEL_LENGTH: return "label longer than 64 bytes";
  default: return "no number of this library";
  }
}

/* What a reason says of the zone or the record, in a few words. */
static inline const char *zonefs_volume_reason_text(uint64_t reason) {
  switch (reason) {
  case ZONEFS_REASON_NO_RECORD: return "not 64 bytes long";
  case ZONEFS_REASON_START: return "starts elsewhere than the zone before it ends, or the first not at 0";
  case ZONEFS_REASON_LENGTH: return "length 0 or not whole blocks";
  case ZONEFS_REASON_CAPACITY: return "capacity 0, not whole blocks, above the length, or not the length in a conventional zone";
  case ZONEFS_REASON_END: return "ends above 2^40 sectors";
  case ZONEFS_REASON_TYPE: return "unknown type";
  case ZONEFS_REASON_CONDITION: return "a condition that its type does not have";
  case ZONEFS_REASON_POINTER: return "write pointer outside the capacity or on no block";
  case ZONEFS_REASON_OTHER_ZONE: return "not this file's zone";
  case ZONEFS_REASON_BETTER_CONDITION: return "a better condition than the file's";
  default: return "no reason of this library";
  }
}

/* ---- how the plain functions' words become an answer; not for callers */

static inline struct zonefs_volume_answer zonefs_volume_answer_bare(uint64_t number) {
  struct zonefs_volume_answer a = {number, ZONEFS_VOLUME_REFUSED, 0, 0, 0, 0, 0, 0, 0, 0, 0, 0, 0, 0, 0, 0, 0, 0, 0};
  return a;
}

/* of a mount, whole or in pieces, or the formatter, which may have found a bad zone */
static inline struct zonefs_volume_answer zonefs_volume_answer_with_zone(uint64_t number, const uint64_t *words) {
  struct zonefs_volume_answer a = zonefs_volume_answer_bare(number);
  if (number == ZONEFS_BAD_ZONE) {
    a.zone = (uint32_t)words[ZONEFS_ANSWER_ZONE];
    a.reason = (uint32_t)words[ZONEFS_ANSWER_ZONE_REASON];
  }
  return a;
}

static inline struct zonefs_volume_answer zonefs_volume_answer_of_format(uint64_t number, const uint64_t *words) {
  struct zonefs_volume_answer a = zonefs_volume_answer_with_zone(number, words);
  if (number == ZONEFS_OK) {
    a.outcome = ZONEFS_VOLUME_FORMATTED;
    a.finish = (uint32_t)words[ZONEFS_ANSWER_FINISH];
  }
  return a;
}

static inline struct zonefs_volume_answer zonefs_volume_answer_of_mount(uint64_t number, const uint64_t *words) {
  struct zonefs_volume_answer a = zonefs_volume_answer_with_zone(number, words);
  if (number == ZONEFS_OK) {
    a.outcome = ZONEFS_VOLUME_MOUNTED;
    a.cnv_files = (uint32_t)words[ZONEFS_ANSWER_CNV_FILES];
    a.seq_files = (uint32_t)words[ZONEFS_ANSWER_SEQ_FILES];
  }
  return a;
}

/* of a mount in pieces, before its end */
static inline struct zonefs_volume_answer zonefs_volume_answer_of_piece(uint64_t number, const uint64_t *words) {
  struct zonefs_volume_answer a = zonefs_volume_answer_with_zone(number, words);
  if (number == ZONEFS_OK)
    a.outcome = ZONEFS_VOLUME_TAKEN;
  return a;
}

static inline struct zonefs_volume_answer zonefs_volume_answer_of_find(uint64_t number, const uint64_t *words) {
  struct zonefs_volume_answer a = zonefs_volume_answer_bare(number);
  if (number == ZONEFS_OK) {
    a.outcome = ZONEFS_VOLUME_FOUND;
    a.file_kind = (uint32_t)words[ZONEFS_ANSWER_KIND];
    a.file_number = (uint32_t)words[ZONEFS_ANSWER_NUMBER];
  }
  return a;
}

static inline struct zonefs_volume_answer zonefs_volume_answer_of_show(uint64_t number, const uint64_t *words) {
  struct zonefs_volume_answer a = zonefs_volume_answer_bare(number);
  if (number == ZONEFS_OK) {
    a.outcome = ZONEFS_VOLUME_SHOWN;
    a.start = words[ZONEFS_ANSWER_START];
    a.capacity = words[ZONEFS_ANSWER_CAPACITY];
    a.size = words[ZONEFS_ANSWER_SIZE];
    a.condition = (uint32_t)words[ZONEFS_ANSWER_CONDITION];
    a.access = (uint32_t)words[ZONEFS_ANSWER_ACCESS];
    a.mode = (uint32_t)words[ZONEFS_ANSWER_MODE];
  }
  return a;
}

static inline struct zonefs_volume_answer zonefs_volume_answer_with_command(uint64_t command, uint64_t address, uint64_t length) {
  struct zonefs_volume_answer a = zonefs_volume_answer_bare(ZONEFS_OK);
  a.outcome = ZONEFS_VOLUME_COMMAND;
  a.command = (uint32_t)command;
  a.address = address;
  a.length = length;
  return a;
}

/* of what a row has outstanding */
static inline struct zonefs_volume_answer zonefs_volume_answer_of_row(const uint64_t *row) {
  if (row[ZONEFS_ROW_HELD] == 0)
    return zonefs_volume_answer_bare(ZONEFS_NOTHING_OUTSTANDING);
  if (row[ZONEFS_ROW_HELD] - 1 > ZONEFS_COMMAND_CLOSE)
    return zonefs_volume_answer_bare(ZONEFS_IMPOSSIBLE);
  return zonefs_volume_answer_with_command(row[ZONEFS_ROW_HELD] - 1, row[ZONEFS_ROW_HELD_ADDRESS], row[ZONEFS_ROW_HELD_LENGTH]);
}

/* of a call or a completion */
static inline struct zonefs_volume_answer zonefs_volume_answer_of_call(uint64_t number, const uint64_t *words) {
  struct zonefs_volume_answer a = zonefs_volume_answer_bare(number);
  if (number == ZONEFS_FAILED) {
    a.outcome = ZONEFS_VOLUME_FAILED;
    a.size = words[ZONEFS_ANSWER_NEW_SIZE];
  } else if (number == ZONEFS_BAD_RECORD) {
    a.reason = (uint32_t)words[ZONEFS_ANSWER_RECORD_REASON];
  } else if (number == ZONEFS_OK && words[ZONEFS_ANSWER_VALUES] == ZONEFS_COMMANDED) {
    a = zonefs_volume_answer_with_command(words[ZONEFS_ANSWER_COMMAND], words[ZONEFS_ANSWER_ADDRESS], words[ZONEFS_ANSWER_LENGTH]);
  } else if (number == ZONEFS_OK) {
    a.outcome = ZONEFS_VOLUME_DONE;
    a.count = words[ZONEFS_ANSWER_COUNT];
  }
  return a;
}

/* counted here, so that no C library is needed */
static inline size_t zonefs_volume_text_bytes(const char *text) {
  size_t count = 0;
  while (text[count] != '\0')
    count++;
  return count;
}

/* the bytes of a label up to its last that is not zero */
static inline size_t zonefs_volume_label_bytes(const char *label) {
  size_t count = ZONEFS_LABEL_BYTES;
  while (count > 0 && label[count - 1] == '\0')
    count--;
  return count;
}

/*
 * What a volume lends to a plain function. The library takes no null pointer: for a table of no words the mount words' address stands in, of
 * which it then reads and writes none.
 */
#define ZONEFS_VOLUME_TABLE(table, words) ((table) != NULL ? (table) : volume->mount), ((table) != NULL ? (words) : 0)
#define ZONEFS_VOLUME_TABLES ZONEFS_VOLUME_TABLE(volume->cnv, volume->cnv_words), ZONEFS_VOLUME_TABLE(volume->seq, volume->seq_words)
#define ZONEFS_VOLUME_WORDS volume->mount, ZONEFS_MOUNT_WORDS, volume->account, ZONEFS_ACCOUNT_WORDS
#define ZONEFS_VOLUME_LENT ZONEFS_VOLUME_WORDS, ZONEFS_VOLUME_TABLES

/* ---- the functions */

/*
 * Makes a super block of these values, in memory: FORMATTED with finish, or refused by 20, 21, 24, 25, 33, 34, 29 with zone 0 and a reason, in
 * this order, and the super block is as it was. The record is that of zone 0, the first one of a report: a struct blk_zone as it comes, or any 64
 * bytes laid out like it; capacity_given is the flags of that report, bit 0. Where finish is 1, the caller first has zone 0 finished; then it writes the
 * block to the disk's first 4,096 bytes (docs/LINKING.md has more on both).
 */
static inline struct zonefs_volume_answer zonefs_volume_format(uint64_t block, void *superblock, size_t superblock_bytes,
                                                               const struct zonefs_volume_super *values, const void *record,
                                                               size_t record_bytes, uint32_t capacity_given) {
  uint64_t words[ZONEFS_ANSWER_WORDS] = {0};
  /* of a label that is too long no more is lent than there is: one byte more than a label has is refused as well */
  size_t label_bytes = values->label_bytes <= ZONEFS_LABEL_BYTES ? values->label_bytes : sizeof(values->label);
  uint64_t number = zonefs_format(block, (uint8_t *)superblock, superblock_bytes, (const uint8_t *)values->label, label_bytes,
                                  values->uuid, ZONEFS_UUID_BYTES, values->features, values->owner, values->group,
                                  values->mode, (const uint8_t *)record, record_bytes, capacity_given, words,
                                  ZONEFS_ANSWER_WORDS);
  return zonefs_volume_answer_of_format(number, words);
}

/*
 * Reads the values of a super block: FIELDS, with the label ended by a zero and label_bytes without the zeros at its end; or refused by 21 to 26
 * or 33, and the struct is as it was. Formatted with these values, the block has the same bytes.
 */
static inline struct zonefs_volume_answer zonefs_volume_super_fields(const void *superblock, size_t superblock_bytes,
                                                                     struct zonefs_volume_super *values) {
  uint64_t words[ZONEFS_ANSWER_WORDS] = {0};
  uint64_t number = zonefs_super_fields((const uint8_t *)superblock, superblock_bytes, (uint8_t *)values->label,
                                        ZONEFS_LABEL_BYTES, values->uuid, ZONEFS_UUID_BYTES, words, ZONEFS_ANSWER_WORDS);
  struct zonefs_volume_answer a = zonefs_volume_answer_bare(number);
  if (number == ZONEFS_OK) {
    a.outcome = ZONEFS_VOLUME_FIELDS;
    values->label[ZONEFS_LABEL_BYTES] = '\0';
    values->label_bytes = zonefs_volume_label_bytes(values->label);
    values->features = words[ZONEFS_ANSWER_SUPER_FEATURES];
    values->owner = (uint32_t)words[ZONEFS_ANSWER_SUPER_OWNER];
    values->group = (uint32_t)words[ZONEFS_ANSWER_SUPER_GROUP];
    values->mode = (uint32_t)words[ZONEFS_ANSWER_SUPER_MODE];
  }
  return a;
}

/* Lends the tables, with the number of their words, to a volume that is not mounted yet. Nothing of them is read or written here. */
static inline void zonefs_volume_lend(struct zonefs_volume *volume, uint64_t *cnv, size_t cnv_words, uint64_t *seq,
                                      size_t seq_words) {
  size_t i;
  for (i = 0; i < ZONEFS_MOUNT_WORDS; i++)
    volume->mount[i] = 0;
  for (i = 0; i < ZONEFS_ACCOUNT_WORDS; i++)
    volume->account[i] = 0;
  volume->cnv = cnv;
  volume->cnv_words = cnv_words;
  volume->seq = seq;
  volume->seq_words = seq_words;
}

/*
 * MOUNTED, or refused by 20 to 30 or 33, by 29 with zone and reason. The options are a C string, "" for none. The limits are how many seq files may be
 * open and how many active under the option explicit-open, 0 for no limit.
 */
static inline struct zonefs_volume_answer zonefs_volume_mount(struct zonefs_volume *volume, uint64_t block,
                                                              const void *superblock, size_t superblock_bytes,
                                                              const char *options, const void *report, size_t report_bytes,
                                                              uint32_t open_limit, uint32_t active_limit) {
  uint64_t words[ZONEFS_ANSWER_WORDS] = {0};
  uint64_t number =
      zonefs_mount(block, (const uint8_t *)superblock, superblock_bytes, (const uint8_t *)options,
                   zonefs_volume_text_bytes(options), (const uint8_t *)report, report_bytes, open_limit, active_limit,
                   ZONEFS_VOLUME_TABLES, ZONEFS_VOLUME_WORDS, words, ZONEFS_ANSWER_WORDS);
  return zonefs_volume_answer_of_mount(number, words);
}

/*
 * The mount in pieces: begins, takes the report's bytes one piece behind the other, cut anywhere, and ends. Any piece may have no bytes, and then no
 * address either: a null address is a piece of no bytes, whatever the count. zonefs.h has the order of the checks, and what makes a row of the volume's tables be written.
 * The volume is one to which tables were lent, as for any mount. It is mounted by the end, and until then its mount words are as they were; so one that
 * is in use is no place for the pieces, as its rows would be overwritten.
 * Begins: TAKEN, or refused by 20 to 27 or 33, and pieces that are refused so answer 10 from then on, as a struct of zeros does.
 */
static inline struct zonefs_volume_answer zonefs_volume_begin(struct zonefs_volume_pieces *pieces, uint64_t block,
                                                              const void *superblock, size_t superblock_bytes,
                                                              const char *options, uint32_t open_limit,
                                                              uint32_t active_limit) {
  uint64_t words[ZONEFS_ANSWER_WORDS] = {0};
  uint64_t number = zonefs_begin(block, (const uint8_t *)superblock, superblock_bytes, (const uint8_t *)options,
                                 zonefs_volume_text_bytes(options), open_limit, active_limit, pieces->words,
                                 ZONEFS_PIECES_WORDS, words, ZONEFS_ANSWER_WORDS);
  return zonefs_volume_answer_of_piece(number, words);
}

/* TAKEN, or refused by 10, 28, 29 with zone and reason, 30. After the last three, further pieces and the end are refused alike. */
static inline struct zonefs_volume_answer zonefs_volume_piece(struct zonefs_volume_pieces *pieces, struct zonefs_volume *volume,
                                                              const void *bytes, size_t count) {
  uint64_t words[ZONEFS_ANSWER_WORDS] = {0};
  /* for no bytes the mount words' address stands in, as for a table of no words */
  const uint8_t *lent = bytes != NULL ? (const uint8_t *)bytes : (const uint8_t *)volume->mount;
  uint64_t number = zonefs_piece(pieces->words, ZONEFS_PIECES_WORDS, lent, bytes != NULL ? count : 0, ZONEFS_VOLUME_TABLES,
                                 words, ZONEFS_ANSWER_WORDS);
  return zonefs_volume_answer_of_piece(number, words);
}

/* MOUNTED, or refused by 10, by what a piece was refused by, or by 28 where bytes are missing. */
static inline struct zonefs_volume_answer zonefs_volume_end(struct zonefs_volume_pieces *pieces, struct zonefs_volume *volume) {
  uint64_t words[ZONEFS_ANSWER_WORDS] = {0};
  uint64_t number = zonefs_end(pieces->words, ZONEFS_PIECES_WORDS, ZONEFS_VOLUME_WORDS, words, ZONEFS_ANSWER_WORDS);
  return zonefs_volume_answer_of_mount(number, words);
}

/* FOUND, or refused by 1, 10. The name is a C string such as "seq/12". */
static inline struct zonefs_volume_answer zonefs_volume_find(const struct zonefs_volume *volume, const char *name) {
  uint64_t words[ZONEFS_ANSWER_WORDS] = {0};
  uint64_t number =
      zonefs_find(ZONEFS_VOLUME_LENT, (const uint8_t *)name, zonefs_volume_text_bytes(name), words, ZONEFS_ANSWER_WORDS);
  return zonefs_volume_answer_of_find(number, words);
}

/* SHOWN, or refused by 1, 10. */
static inline struct zonefs_volume_answer zonefs_volume_show(const struct zonefs_volume *volume, uint32_t kind,
                                                             uint32_t number) {
  uint64_t words[ZONEFS_ANSWER_WORDS] = {0};
  uint64_t answered = zonefs_show(ZONEFS_VOLUME_LENT, kind, number, words, ZONEFS_ANSWER_WORDS);
  return zonefs_volume_answer_of_show(answered, words);
}

/*
 * What a file has outstanding, as its row has it: COMMAND, as the call gave it; or refused by 1, 10 as showing is, by 8 where the file has nothing
 * outstanding, by 10 where what its row holds is no command. So a program that kept a volume and its tables need not keep the commands beside them.
 */
static inline struct zonefs_volume_answer zonefs_volume_outstanding(const struct zonefs_volume *volume, uint32_t kind,
                                                                    uint32_t number) {
  struct zonefs_volume_answer shown = zonefs_volume_show(volume, kind, number);
  if (shown.number != ZONEFS_OK)
    return shown;
  return zonefs_volume_answer_of_row((kind == ZONEFS_CNV ? volume->cnv : volume->seq) + (size_t)number * ZONEFS_ROW_WORDS);
}

/*
 * The calls: DONE, COMMAND, or refused by 1 to 6, 10; by 2 where this file has a command outstanding, whatever others have. With explicit-open a write
 * to a seq file is also refused by 13, where the file is not open.
 */
static inline struct zonefs_volume_answer zonefs_volume_read(struct zonefs_volume *volume, uint32_t kind, uint32_t number,
                                                             uint64_t offset, uint64_t length) {
  uint64_t words[ZONEFS_ANSWER_WORDS] = {0};
  uint64_t answered = zonefs_read(ZONEFS_VOLUME_LENT, kind, number, offset, length, words, ZONEFS_ANSWER_WORDS);
  return zonefs_volume_answer_of_call(answered, words);
}

static inline struct zonefs_volume_answer zonefs_volume_write(struct zonefs_volume *volume, uint32_t kind, uint32_t number,
                                                              uint64_t offset, uint64_t length) {
  uint64_t words[ZONEFS_ANSWER_WORDS] = {0};
  uint64_t answered = zonefs_write(ZONEFS_VOLUME_LENT, kind, number, offset, length, words, ZONEFS_ANSWER_WORDS);
  return zonefs_volume_answer_of_call(answered, words);
}

static inline struct zonefs_volume_answer zonefs_volume_truncate(struct zonefs_volume *volume, uint32_t kind,
                                                                 uint32_t number, uint64_t size) {
  uint64_t words[ZONEFS_ANSWER_WORDS] = {0};
  uint64_t answered = zonefs_truncate(ZONEFS_VOLUME_LENT, kind, number, size, words, ZONEFS_ANSWER_WORDS);
  return zonefs_volume_answer_of_call(answered, words);
}

static inline struct zonefs_volume_answer zonefs_volume_flush(struct zonefs_volume *volume, uint32_t kind, uint32_t number) {
  uint64_t words[ZONEFS_ANSWER_WORDS] = {0};
  uint64_t answered = zonefs_flush(ZONEFS_VOLUME_LENT, kind, number, words, ZONEFS_ANSWER_WORDS);
  return zonefs_volume_answer_of_call(answered, words);
}

/*
 * Opens a file for writing, and closes it again: DONE, COMMAND, or refused by 1, 2, 10, and of a seq file an open by 3, 4, 14, 11, 12 and a close by 13.
 * Both count, and the file is open until it was closed as often. A COMMAND comes with explicit-open alone, with the first open of a file that is not
 * full and the last close of one that is neither empty nor full; it is done, and completed or failed, as any other.
 */
static inline struct zonefs_volume_answer zonefs_volume_open(struct zonefs_volume *volume, uint32_t kind, uint32_t number) {
  uint64_t words[ZONEFS_ANSWER_WORDS] = {0};
  uint64_t answered = zonefs_open(ZONEFS_VOLUME_LENT, kind, number, words, ZONEFS_ANSWER_WORDS);
  return zonefs_volume_answer_of_call(answered, words);
}

static inline struct zonefs_volume_answer zonefs_volume_close(struct zonefs_volume *volume, uint32_t kind, uint32_t number) {
  uint64_t words[ZONEFS_ANSWER_WORDS] = {0};
  uint64_t answered = zonefs_close(ZONEFS_VOLUME_LENT, kind, number, words, ZONEFS_ANSWER_WORDS);
  return zonefs_volume_answer_of_call(answered, words);
}

/* The command that the file has outstanding was done, all of it: DONE, or refused by 1, 8, 10. */
static inline struct zonefs_volume_answer zonefs_volume_complete(struct zonefs_volume *volume, uint32_t kind, uint32_t number) {
  uint64_t words[ZONEFS_ANSWER_WORDS] = {0};
  uint64_t answered = zonefs_complete(ZONEFS_VOLUME_LENT, kind, number, words, ZONEFS_ANSWER_WORDS);
  return zonefs_volume_answer_of_call(answered, words);
}

/*
 * The command that the file has outstanding failed: FAILED, or refused by 1, 8, 9 with a reason, 10. The record is that of the zone at the
 * command's address, as it is after the failure: a struct blk_zone as it comes, or any 64 bytes laid out like it; capacity_given is the flags of
 * the report that it came with.
 */
static inline struct zonefs_volume_answer zonefs_volume_fail(struct zonefs_volume *volume, uint32_t kind, uint32_t number,
                                                             const void *record, size_t record_bytes, uint32_t capacity_given) {
  uint64_t words[ZONEFS_ANSWER_WORDS] = {0};
  uint64_t answered = zonefs_fail(ZONEFS_VOLUME_LENT, kind, number, (const uint8_t *)record, record_bytes, capacity_given, words,
                                  ZONEFS_ANSWER_WORDS);
  return zonefs_volume_answer_of_call(answered, words);
}

#undef ZONEFS_VOLUME_TABLE
#undef ZONEFS_VOLUME_TABLES
#undef ZONEFS_VOLUME_WORDS
#undef ZONEFS_VOLUME_LENT

#ifdef __cplusplus
}
#endif

#endif
