/*
 * Compares the functions of zonefs_volume.h with the plain ones of zonefs.h, call by call, on a small volume: every number that the library
 * has, every reason of 29 and 9, each command, answers at once, several files busy at once, files that are opened and closed, rows and accounts
 * that hold anything, and mounts in pieces, these with the whole mount too. Of each answer all fields are compared, and all words, rows and bytes that
 * both leave. Words of answers, rows and accounts are counted out here, not named, so that a wrong name in the header shows. C99 and C++11. Ends with
 * status 1 at the first difference.
 */
#include <stdio.h>
#include <stdlib.h>
#include <string.h>

#include "zonefs_volume.h"

#define BLOCK 4096u
#define LENGTH 1024u  /* sectors of each zone */
#define CAPACITY 768u /* sectors of each sequential zone */
#define ROW 9u               /* words of a row */
#define CNV_WORDS (2u * ROW) /* two files */
#define SEQ_WORDS (3u * ROW) /* three files, so that the tables cannot be taken for one another */
#define BYTES(sectors) ((uint64_t)(sectors) * 512u)
#define UNTOUCHED 0xA5 /* fills what is lent, to see what was written */

#ifdef __cplusplus
#define LANGUAGE "C++"
#else
#define LANGUAGE "C"
#endif

/* the same volume twice: as the plain functions have it, and as a struct */
static uint64_t mount_words[11], account[4], cnv[CNV_WORDS], seq[SEQ_WORDS], words[7];
static uint64_t volume_cnv[CNV_WORDS], volume_seq[SEQ_WORDS];
static size_t cnv_words, seq_words;
static struct zonefs_volume volume;

static uint64_t account_before[4];         /* what the last answer left of the account */
static uint32_t open_limit, active_limit; /* what a mount is given; 0 is none */

static uint8_t super_block[4096], report[16 + 6 * 64], record[65];
static unsigned compared, seen[35], at_once, commands[7], zone_reasons[10], record_reasons[10], format_reasons[10];
static unsigned pieces_seen[35], pieces_reasons[10];

/* a mount in pieces, both ways, and what the whole mount leaves of the same bytes */
static uint64_t pieces[39];
static struct zonefs_volume_pieces volume_pieces;
static uint64_t whole_mount[11], whole_account[4], whole_cnv[CNV_WORDS], whole_seq[SEQ_WORDS];

/* a super block's values, and the block that both functions make of them */
static struct zonefs_volume_super values;
static uint8_t made[4096], volume_made[4096];

/* ---- the disk's bytes */

static void put(uint8_t *bytes, uint64_t value, unsigned count) {
  unsigned i;
  for (i = 0; i < count; i++)
    bytes[i] = (uint8_t)(value >> (8 * i));
}

static void sign(void) {
  put(super_block + 4, 0, 4);
  put(super_block + 4, zonefs_checksum(super_block, 4096), 4);
}

static void make_super_block(void) {
  memset(super_block, 0, sizeof(super_block));
  put(super_block, 0x5A4F4653u, 4);
  sign();
}

static void make_zone(uint8_t *bytes, unsigned zone, unsigned type, unsigned condition, unsigned capacity, unsigned written) {
  memset(bytes, 0, 64);
  put(bytes, (uint64_t)zone * LENGTH, 8);
  put(bytes + 8, LENGTH, 8);
  put(bytes + 16, (uint64_t)zone * LENGTH + written, 8);
  bytes[24] = (uint8_t)type;
  bytes[25] = (uint8_t)condition;
  put(bytes + 32, capacity, 8);
}

/* three conventional zones, then sequential ones: a block written, empty, empty */
static void make_report(void) {
  unsigned zone;
  memset(report, 0, sizeof(report));
  put(report + 8, 6, 4);
  put(report + 12, 1, 4);
  for (zone = 0; zone < 3; zone++)
    make_zone(report + 16 + zone * 64, zone, 1, 0, LENGTH, 0);
  for (zone = 3; zone < 6; zone++)
    make_zone(report + 16 + zone * 64, zone, 2, zone == 3 ? 2 : 1, CAPACITY, zone == 3 ? 8 : 0);
}

/* ---- the comparison */

static void need(int holds, const char *what, const char *which) {
  if (!holds) {
    printf("volume_check: %s: %s\n", what, which);
    exit(1);
  }
}

static int same_words(const uint64_t *a, const uint64_t *b, size_t count) {
  return memcmp(a, b, count * sizeof(*a)) == 0;
}

enum function { MOUNT, BEGIN, PIECE, END, FIND, SHOW, CALL, OPENING, COMPLETION, FORMAT, FIELDS };

static void put_shown(struct zonefs_volume_answer *a) {
  a->outcome = ZONEFS_VOLUME_SHOWN;
  a->start = words[1];
  a->capacity = words[2];
  a->size = words[3];
  a->condition = (uint32_t)words[4];
  a->access = (uint32_t)words[5];
  a->mode = (uint32_t)words[6];
}

static void put_decided(struct zonefs_volume_answer *a) {
  a->outcome = words[0] == 3 ? ZONEFS_VOLUME_COMMAND : ZONEFS_VOLUME_DONE;
  a->count = words[0] == 1 ? words[1] : 0;
  a->command = words[0] == 3 ? (uint32_t)words[1] : 0;
  a->address = words[2];
  a->length = words[3];
}

/* what the answer must be, by the plain function's number and words */
static struct zonefs_volume_answer by_words(enum function f, uint64_t number) {
  struct zonefs_volume_answer a;
  memset(&a, 0, sizeof(a));
  a.number = number;
  a.outcome = number == 7 ? ZONEFS_VOLUME_FAILED : ZONEFS_VOLUME_REFUSED;
  a.size = number == 7 ? words[1] : 0;
  a.zone = number == 29 ? (uint32_t)words[1] : 0;
  a.reason = number == 29 ? (uint32_t)words[2] : number == 9 ? (uint32_t)words[1] : 0;
  if (number == 0 && (f == BEGIN || f == PIECE)) {
    a.outcome = ZONEFS_VOLUME_TAKEN;
  } else if (number == 0 && (f == MOUNT || f == END)) {
    a.outcome = ZONEFS_VOLUME_MOUNTED;
    a.cnv_files = (uint32_t)words[1];
    a.seq_files = (uint32_t)words[2];
  } else if (number == 0 && f == FIND) {
    a.outcome = ZONEFS_VOLUME_FOUND;
    a.file_kind = (uint32_t)words[1];
    a.file_number = (uint32_t)words[2];
  } else if (number == 0 && f == SHOW) {
    put_shown(&a);
  } else if (number == 0 && f == FORMAT) {
    a.outcome = ZONEFS_VOLUME_FORMATTED;
    a.finish = (uint32_t)words[1];
  } else if (number == 0 && f == FIELDS) {
    a.outcome = ZONEFS_VOLUME_FIELDS;
  } else if (number == 0) {
    put_decided(&a);
  }
  return a;
}

/* what both left of the account; only a mount or its end, an open, a close and a completion may change it, and but for a mount none that is refused */
static void compare_accounts(const char *what, enum function f, uint64_t number) {
  int may_change = f == MOUNT || f == END || ((f == OPENING || f == COMPLETION) && (number == 0 || number == 7));
  need(same_words(account, volume.account, 4), what, "the account words");
  need(may_change || same_words(account, account_before, 4), what, "the account should have stayed");
  memcpy(account_before, account, sizeof(account));
}

/* both answers, and all that both left; and the number that is expected, so that the case is the one it is meant to be */
static void compare(const char *what, enum function f, uint64_t number, struct zonefs_volume_answer got, uint64_t expected) {
  struct zonefs_volume_answer a = by_words(f, number);
  need(number == expected, what, "another number than expected");
  need(got.number == a.number && got.outcome == a.outcome, what, "number or outcome");
  need(got.count == a.count && got.size == a.size, what, "count or size");
  need(got.zone == a.zone && got.reason == a.reason, what, "zone or reason");
  need(got.command == a.command && got.address == a.address && got.length == a.length, what, "the command");
  need(got.cnv_files == a.cnv_files && got.seq_files == a.seq_files, what, "the numbers of files");
  need(got.file_kind == a.file_kind && got.file_number == a.file_number, what, "the file found");
  need(got.start == a.start && got.capacity == a.capacity, what, "start or capacity");
  need(got.condition == a.condition && got.access == a.access && got.mode == a.mode, what, "condition, access or mode");
  need(got.finish == a.finish, what, "finish");
  need(same_words(mount_words, volume.mount, 11), what, "the mount words");
  need(same_words(cnv, volume_cnv, CNV_WORDS) && same_words(seq, volume_seq, SEQ_WORDS), what, "the tables");
  compare_accounts(what, f, number);
  compared++;
  seen[number]++;
  if (got.outcome == ZONEFS_VOLUME_COMMAND)
    commands[got.command]++;
  if (got.outcome == ZONEFS_VOLUME_DONE && f != COMPLETION)
    at_once++;
}

/* ---- each function both ways */

#define PLAIN mount_words, 11, account, 4, cnv, cnv_words, seq, seq_words

static void lend(size_t cnv_room, size_t seq_room) {
  cnv_words = cnv_room;
  seq_words = seq_room;
  volume.cnv_words = cnv_room;
  volume.seq_words = seq_room;
}

static void mount_of(const char *what, uint64_t block, size_t super_bytes, const char *options, size_t bytes, uint64_t expected) {
  uint64_t number = zonefs_mount(block, super_block, super_bytes, (const uint8_t *)options, strlen(options), report, bytes,
                                 open_limit, active_limit, cnv, cnv_words, seq, seq_words, mount_words, 11, account, 4, words, 7);
  struct zonefs_volume_answer got =
      zonefs_volume_mount(&volume, block, super_block, super_bytes, options, report, bytes, open_limit, active_limit);
  compare(what, MOUNT, number, got, expected);
}

/* the mount of the bytes as they are made up now, which are then made anew */
static void mount_as(const char *what, const char *options, uint64_t expected) {
  mount_of(what, BLOCK, 4096, options, sizeof(report), expected);
  make_super_block();
  make_report();
}

/* what both hold of a mount in pieces, and what its answer has: no value but for an end that mounts and for a bad zone */
static void compare_pieces(const char *what, enum function f, uint64_t number) {
  need(same_words(pieces, volume_pieces.words, 39), what, "the pieces words");
  if (number != 10)
    need(words[0] == (number == 29 || (number == 0 && f == END) ? 2u : 0u), what, "another number of values than expected");
  pieces_seen[number]++;
}

static void begin_of(const char *what, uint64_t block, size_t super_bytes, const char *options, uint64_t expected) {
  uint64_t number = zonefs_begin(block, super_block, super_bytes, (const uint8_t *)options, strlen(options), open_limit,
                                 active_limit, pieces, 39, words, 7);
  struct zonefs_volume_answer got =
      zonefs_volume_begin(&volume_pieces, block, super_block, super_bytes, options, open_limit, active_limit);
  compare(what, BEGIN, number, got, expected);
  compare_pieces(what, BEGIN, number);
}

static void piece_of(const char *what, const uint8_t *bytes, size_t count, uint64_t expected) {
  uint64_t number = zonefs_piece(pieces, 39, bytes, count, cnv, cnv_words, seq, seq_words, words, 7);
  compare(what, PIECE, number, zonefs_volume_piece(&volume_pieces, &volume, bytes, count), expected);
  compare_pieces(what, PIECE, number);
}

static void end_of(const char *what, uint64_t expected) {
  uint64_t number = zonefs_end(pieces, 39, mount_words, 11, account, 4, words, 7);
  compare(what, END, number, zonefs_volume_end(&volume_pieces, &volume), expected);
  compare_pieces(what, END, number);
}

static void find(const char *name, uint64_t expected) {
  uint64_t number = zonefs_find(PLAIN, (const uint8_t *)name, strlen(name), words, 7);
  compare(name, FIND, number, zonefs_volume_find(&volume, name), expected);
}

static void show(uint32_t kind, uint32_t file, uint64_t expected) {
  uint64_t number = zonefs_show(PLAIN, kind, file, words, 7);
  compare("show", SHOW, number, zonefs_volume_show(&volume, kind, file), expected);
}

static void read_of(uint32_t kind, uint32_t file, uint64_t offset, uint64_t length, uint64_t expected) {
  uint64_t number = zonefs_read(PLAIN, kind, file, offset, length, words, 7);
  compare("read", CALL, number, zonefs_volume_read(&volume, kind, file, offset, length), expected);
}

static void write_of(uint32_t kind, uint32_t file, uint64_t offset, uint64_t length, uint64_t expected) {
  uint64_t number = zonefs_write(PLAIN, kind, file, offset, length, words, 7);
  compare("write", CALL, number, zonefs_volume_write(&volume, kind, file, offset, length), expected);
}

static void truncate_of(uint32_t kind, uint32_t file, uint64_t size, uint64_t expected) {
  uint64_t number = zonefs_truncate(PLAIN, kind, file, size, words, 7);
  compare("truncate", CALL, number, zonefs_volume_truncate(&volume, kind, file, size), expected);
}

static void flush_of(uint32_t kind, uint32_t file, uint64_t expected) {
  uint64_t number = zonefs_flush(PLAIN, kind, file, words, 7);
  compare("flush", CALL, number, zonefs_volume_flush(&volume, kind, file), expected);
}

static void open_of(uint32_t kind, uint32_t file, uint64_t expected) {
  uint64_t number = zonefs_open(PLAIN, kind, file, words, 7);
  compare("open", OPENING, number, zonefs_volume_open(&volume, kind, file), expected);
}

static void close_of(uint32_t kind, uint32_t file, uint64_t expected) {
  uint64_t number = zonefs_close(PLAIN, kind, file, words, 7);
  compare("close", OPENING, number, zonefs_volume_close(&volume, kind, file), expected);
}

static void complete(uint32_t kind, uint32_t file, uint64_t expected) {
  uint64_t number = zonefs_complete(PLAIN, kind, file, words, 7);
  compare("complete", COMPLETION, number, zonefs_volume_complete(&volume, kind, file), expected);
}

static void fail(uint32_t kind, uint32_t file, size_t bytes, uint32_t given, uint64_t expected) {
  uint64_t number = zonefs_fail(PLAIN, kind, file, record, bytes, given, words, 7);
  compare("fail", COMPLETION, number, zonefs_volume_fail(&volume, kind, file, record, bytes, given), expected);
}

static int untouched(const void *bytes, size_t count) {
  const uint8_t *b = (const uint8_t *)bytes;
  while (count > 0 && b[count - 1] == UNTOUCHED)
    count--;
  return count == 0;
}

/* a label can be longer than the struct has room for; the plain function is lent what there is */
static void format_of(const char *what, uint64_t block, size_t bytes, size_t record_bytes, uint32_t given, uint64_t expected) {
  size_t label_bytes = values.label_bytes < sizeof(values.label) ? values.label_bytes : sizeof(values.label);
  uint64_t number;
  memset(made, UNTOUCHED, sizeof(made));
  memset(volume_made, UNTOUCHED, sizeof(volume_made));
  number = zonefs_format(block, made, bytes, (const uint8_t *)values.label, label_bytes, values.uuid, 16, values.features,
                         values.owner, values.group, values.mode, record, record_bytes, given, words, 7);
  compare(what, FORMAT, number, zonefs_volume_format(block, volume_made, bytes, &values, record, record_bytes, given), expected);
  need(memcmp(made, volume_made, sizeof(made)) == 0, what, "the super block");
  need(words[0] == (number == 0 ? 1u : number == 29 ? 2u : 0u), what, "another number of values than expected");
  need(untouched(made, sizeof(made)) == (number != 0), what, "a refusal writes, or nothing is written");
}

/* the values of the super block as it is made up now, to be had again from the struct */
static void fields_of(const char *what, size_t bytes, uint64_t expected, struct zonefs_volume_super *got) {
  uint8_t label[64], uuid[16];
  uint64_t number;
  memset(label, UNTOUCHED, sizeof(label));
  memset(uuid, UNTOUCHED, sizeof(uuid));
  memset(got, UNTOUCHED, sizeof(*got));
  number = zonefs_super_fields(super_block, bytes, label, 64, uuid, 16, words, 7);
  compare(what, FIELDS, number, zonefs_volume_super_fields(super_block, bytes, got), expected);
  need(memcmp(label, got->label, 64) == 0 && memcmp(uuid, got->uuid, 16) == 0, what, "label or uuid");
  need(untouched(got, sizeof(*got)) == (number != 0), what, "a refusal writes, or nothing is written");
  need(words[0] == (number == 0 ? 4u : 0u), what, "another number of values than expected");
  if (number == 0)
    need(got->features == words[1] && got->owner == words[2] && got->group == words[3] && got->mode == words[4], what,
         "features, owner, group or mode");
}

/* ---- the cases */

/* 10 from all: nothing is mounted */
static void try_unmounted(void) {
  find("seq/0", 10);
  show(1, 0, 10);
  read_of(1, 0, 0, 1, 10);
  write_of(1, 0, 0, BLOCK, 10);
  truncate_of(1, 0, 0, 10);
  flush_of(1, 0, 10);
  open_of(1, 0, 10);
  close_of(0, 0, 10);
  complete(1, 0, 10);
  complete(2, 0, 10);
  fail(1, 0, 64, 1, 10);
  need(zonefs_volume_outstanding(&volume, 1, 0).number == 10, "unmounted", "what is outstanding");
}

static void try_refused_mounts(void) {
  mount_of("block", 1024, 4096, "", sizeof(report), 20);
  mount_of("super block's length", BLOCK, 4095, "", sizeof(report), 21);
  super_block[0] = 0;
  mount_as("magic", "", 22);
  super_block[4] ^= 1;
  mount_as("checksum", "", 23);
  super_block[88] = 16;
  sign();
  mount_as("features", "", 24);
  super_block[88] = 2;
  put(super_block + 96, 0xFFFFFFFFu, 4);
  sign();
  mount_as("owner", "", 25);
  super_block[4095] = 1;
  sign();
  mount_as("tail", "", 26);
  mount_as("options", "errors=none", 27);
  mount_as("option with a value", "explicit-open=1", 27);
  mount_of("report's length", BLOCK, 4096, "", sizeof(report) - 1, 28);
  lend(CNV_WORDS, SEQ_WORDS - 1);
  mount_as("too few rows", "", 30);
  lend(CNV_WORDS, SEQ_WORDS);
}

/* perm as given, and the number and the mode that it leads to; a refused mount has the mode 0 */
static void mount_with_perm(const char *what, unsigned features, uint32_t perm, uint64_t expected, uint64_t mode) {
  super_block[88] = (uint8_t)features;
  put(super_block + 104, perm, 4);
  sign();
  mount_as(what, "", expected);
  need(mount_words[ZONEFS_MOUNT_MODE] == mode, what, "another mode than expected");
}

/* 33 begins right above 0777, and only where perm is in use; the top bit shows that all 32 are looked at */
static void try_modes(void) {
  mount_with_perm("lowest perm above 0777", 8, 01000, 33, 0);
  mount_with_perm("perm's top bit", 8, 0x80000000u, 33, 0);
  mount_with_perm("highest perm", 8, 0777, 0, 0777);
  mount_with_perm("perm not in use", 0, 01000, 0, 0640);
}

/* A field of a zone, by its first byte and its bytes, with a value that makes the zone bad, and the reason that this has. */
struct bad_field {
  const char *what;
  unsigned zone, at, count;
  uint64_t value, reason;
};

static const struct bad_field zone_fields[] = {
    {"zone's start", 5, 0, 8, 5 * LENGTH + 8, 1},
    {"zone's length", 4, 8, 8, LENGTH - 4, 2},
    {"zone's capacity", 5, 32, 8, LENGTH + 8, 3},
    {"conventional zone's capacity", 2, 32, 8, CAPACITY, 3},
    {"zone's end", 5, 8, 8, (uint64_t)1 << 40, 4},
    {"zone's type", 4, 24, 1, 0, 5},
    {"zone's condition", 1, 25, 1, 1, 6},
    {"zone's pointer", 3, 16, 8, 3 * LENGTH + 1, 7},
};

/* 29 has two values. Here they are never the same number, so that one in the other's place shows. */
static void try_bad_zones(void) {
  size_t i;
  for (i = 0; i < sizeof(zone_fields) / sizeof(zone_fields[0]); i++) {
    const struct bad_field *f = &zone_fields[i];
    put(report + 16 + f->zone * 64 + f->at, f->value, f->count);
    mount_as(f->what, "", 29);
    need(words[0] == 2 && words[1] == f->zone && words[2] == f->reason, f->what, "another zone or reason than expected");
    zone_reasons[words[2]]++;
  }
}

static void try_calls(void) {
  mount_as("mount", "errors=repair", 0);
  find("seq/2", 0);
  find("cnv/1", 0);
  find("seq/02", 1);
  show(0, 1, 0);
  show(1, 0, 0);
  show(1, 3, 1);
  read_of(7, 0, 0, 1, 1);
  read_of(1, 0, BLOCK, 1, 0);
  read_of(1, 0, BYTES(CAPACITY), 1, 5);
  write_of(1, 0, 0, BLOCK, 6);
  write_of(1, 0, BLOCK, 0, 0);
  truncate_of(0, 0, 0, 4);
  truncate_of(1, 1, 0, 0);
  read_of(0, 1, 5, 700, 0);
  complete(0, 1, 0);
  write_of(1, 0, BLOCK, 2 * BLOCK, 0);
  write_of(1, 0, BLOCK, BLOCK, 2);
  complete(1, 0, 0);
  complete(1, 0, 8);
  truncate_of(1, 0, BYTES(CAPACITY), 0);
  complete(1, 0, 0);
  truncate_of(1, 0, 0, 0);
  complete(1, 0, 0);
  flush_of(1, 0, 0);
  complete(1, 0, 0);
  show(1, 0, 0);
}

/* 9 has one value. */
static void refuse_record(const char *what, size_t bytes, uint32_t given, uint64_t reason) {
  fail(1, 0, bytes, given, 9);
  need(words[0] == 1 && words[1] == reason, what, "another reason than expected");
  record_reasons[words[1]]++;
}

/* seq/0, which is zone 3, has a command outstanding */
static void try_bad_records(void) {
  static const struct bad_field fields[] = {
      {"record's length", 3, 8, 8, LENGTH - 4, 2},
      {"record's capacity", 3, 32, 8, LENGTH + 8, 3},
      {"record's end", 3, 8, 8, (uint64_t)1 << 40, 4},
      {"record's type", 3, 24, 1, 9, 5},
      {"record's condition", 3, 25, 1, 5, 6},
      {"record's pointer", 3, 16, 8, 3 * LENGTH + 1, 7},
      {"record with another start", 3, 0, 8, 3 * LENGTH + 8, 8},
      {"record with another capacity", 3, 32, 8, CAPACITY - 8, 8},
  };
  size_t i;
  for (i = 0; i < sizeof(fields) / sizeof(fields[0]); i++) {
    const struct bad_field *f = &fields[i];
    make_zone(record, f->zone, 2, 2, CAPACITY, 16);
    put(record + f->at, f->value, f->count);
    refuse_record(f->what, 64, 1, f->reason);
  }
}

static void try_failures(void) {
  mount_as("mount", "errors=remount-ro", 0);
  write_of(1, 0, BLOCK, 2 * BLOCK, 0);
  try_bad_records();
  make_zone(record, 3, 2, 2, CAPACITY, 16);
  refuse_record("short record", 63, 1, 0);
  refuse_record("long record", 65, 1, 0);
  refuse_record("record without a capacity", 64, 0, 8); /* then it is the length, which is not the row's */
  lend(CNV_WORDS, SEQ_WORDS - 1);
  complete(1, 0, 10);
  fail(1, 0, 64, 1, 10);
  read_of(1, 0, 0, 1, 10);
  lend(CNV_WORDS - 1, SEQ_WORDS);
  find("seq/0", 10);
  show(1, 0, 10);
  lend(CNV_WORDS, SEQ_WORDS);
  fail(1, 0, 64, 1, 7);
  fail(1, 0, 64, 1, 8);
  show(1, 0, 0);
  write_of(1, 0, 2 * BLOCK, BLOCK, 3);
  read_of(1, 0, 0, BLOCK, 0);
  make_zone(record, 3, 2, 13, CAPACITY, 0);
  fail(1, 0, 64, 1, 7);
  read_of(1, 0, 0, BLOCK, 0);
  make_zone(record, 3, 2, 2, CAPACITY, 16);
  refuse_record("record with a better condition", 64, 1, 9);
  make_zone(record, 3, 2, 15, CAPACITY, 0);
  fail(1, 0, 64, 1, 7);
  show(1, 0, 0);
  read_of(1, 0, 0, 1, 4);
}

/* ---- several files at once, and what rows hold */

static uint64_t *row_of(uint32_t kind, uint32_t file) {
  return (kind == 0 ? cnv : seq) + file * ROW;
}

/* a word of a row, in both volumes */
static void put_word(uint32_t kind, uint32_t file, unsigned at, uint64_t value) {
  row_of(kind, file)[at] = value;
  (kind == 0 ? volume_cnv : volume_seq)[file * ROW + at] = value;
}

static void put_held(uint32_t kind, uint32_t file, uint64_t held, uint64_t address, uint64_t length) {
  put_word(kind, file, 5, held);
  put_word(kind, file, 6, address);
  put_word(kind, file, 7, length);
}

/* what a row holds, and what the struct makes of it: the codes of the seven commands are 0 to 6, and a row has 1 more */
static void need_held(const char *what, uint32_t kind, uint32_t file, uint64_t held, uint64_t address, uint64_t length) {
  const uint64_t *row = row_of(kind, file);
  struct zonefs_volume_answer a = zonefs_volume_outstanding(&volume, kind, file);
  need(row[5] == held && row[6] == address && row[7] == length, what, "the row holds something else than expected");
  need(a.number == (held == 0 ? 8u : held > 7 ? 10u : 0u), what, "another number of what is outstanding than expected");
  need((a.outcome == ZONEFS_VOLUME_COMMAND) == (a.number == 0), what, "the outcome of what is outstanding");
  need(a.number != 0 || (a.command == held - 1 && a.address == address && a.length == length), what, "what is outstanding");
}

static void need_idle(const char *what, uint32_t kind, uint32_t file) {
  need_held(what, kind, file, 0, 0, 0);
}

/* 2 is about the named file, and so are 8 and 1 of a completion; what is busy ends in another order than it began */
static void try_busy_files(void) {
  mount_as("mount", "errors=repair", 0);
  write_of(1, 0, BLOCK, 2 * BLOCK, 0);
  read_of(0, 1, 5, 700, 0);
  write_of(1, 1, 0, BLOCK, 0);
  write_of(1, 0, BLOCK, BLOCK, 2);
  flush_of(0, 1, 2);
  need_held("write of seq/0", 1, 0, 2, BYTES(3 * LENGTH) + BLOCK, 2 * BLOCK);
  need_held("read of cnv/1", 0, 1, 1, BYTES(2 * LENGTH) + 5, 700);
  need_held("write of seq/1", 1, 1, 2, BYTES(4 * LENGTH), BLOCK);
  need_idle("cnv/0 beside busy files", 0, 0);
  complete(1, 2, 8);
  fail(0, 0, 64, 1, 8);
  complete(1, 3, 1);
  complete(2, 0, 1);
  fail(UINT32_MAX, 0, 64, 1, 1);
  complete(1, 1, 0);
  need(words[1] == BLOCK && row_of(1, 1)[2] == BLOCK, "write of seq/1", "another count or size than expected");
  need_idle("seq/1 after its write", 1, 1);
  need_held("write of seq/0, still", 1, 0, 2, BYTES(3 * LENGTH) + BLOCK, 2 * BLOCK);
  truncate_of(1, 1, 0, 0);
  complete(0, 1, 0);
  need(words[1] == 700, "read of cnv/1", "another count than expected");
  complete(1, 0, 0);
  need(words[1] == 2 * BLOCK && row_of(1, 0)[2] == 3 * BLOCK, "write of seq/0", "another count or size than expected");
  need_held("reset of seq/1", 1, 1, 3, BYTES(4 * LENGTH), 0);
  complete(1, 1, 0);
}

/* each command as a row has it; all three files of the table are busy by then */
static void try_held_commands(void) {
  mount_as("mount", "errors=repair", 0);
  truncate_of(1, 0, BYTES(CAPACITY), 0);
  need_held("finish", 1, 0, 4, BYTES(3 * LENGTH), 0);
  flush_of(1, 1, 0);
  need_held("flush", 1, 1, 5, BYTES(4 * LENGTH), 0);
  write_of(1, 2, 0, BLOCK, 0);
  need_held("write", 1, 2, 2, BYTES(5 * LENGTH), BLOCK);
  need(zonefs_volume_outstanding(&volume, 1, 3).number == 1, "no such file", "what is outstanding");
  need(zonefs_volume_outstanding(&volume, 2, 0).number == 1, "no such kind", "what is outstanding");
  find("seq/2", 0);
  show(1, 2, 0);
  make_zone(record, 3, 2, 2, CAPACITY, 8);
  fail(1, 1, 64, 1, 9); /* seq/0's record, handed over for another file */
  fail(1, 0, 64, 1, 7);
  need_idle("failed finish", 1, 0);
  need_held("flush, still", 1, 1, 5, BYTES(4 * LENGTH), 0);
  complete(1, 1, 0);
  complete(1, 2, 0);
}

/* a failure that makes the mount read-only leaves the other files' commands, which end as usual: also a write moves its size */
static void try_busy_files_on_remount(void) {
  mount_as("mount", "errors=remount-ro", 0);
  write_of(1, 0, BLOCK, BLOCK, 0);
  write_of(1, 1, 0, 2 * BLOCK, 0);
  flush_of(1, 2, 0);
  make_zone(record, 3, 2, 2, CAPACITY, 8);
  fail(1, 0, 64, 1, 7);
  need(mount_words[9] == 1, "remount", "the mount should be read-only");
  need_held("write beside a failure", 1, 1, 2, BYTES(4 * LENGTH), 2 * BLOCK);
  write_of(1, 0, BLOCK, BLOCK, 3);
  write_of(1, 1, 0, BLOCK, 2);
  complete(1, 1, 0);
  need(words[1] == 2 * BLOCK && row_of(1, 1)[2] == 2 * BLOCK, "write on a read-only mount", "another count or size than expected");
  complete(1, 2, 0);
  need(mount_words[9] == 1, "remount", "the mount should still be read-only");
}

/* what a row holds is no command: outstanding to a call and for 8, impossible to a completion, and no matter to finding and showing */
static void try_no_command(uint64_t held) {
  put_held(1, 1, held, 5, 7);
  read_of(1, 1, 0, 0, 2);
  write_of(1, 1, 0, BLOCK, 2);
  truncate_of(1, 1, 0, 2);
  flush_of(1, 1, 2);
  complete(1, 1, 10);
  fail(1, 1, 64, 1, 10);
  find("seq/1", 0);
  show(1, 1, 0);
  need_held("no command", 1, 1, held, 5, 7);
}

/* a command that no call on this row gives: outstanding to a call, impossible to a completion */
static void try_misplaced_command(void) {
  put_held(1, 1, 2, BYTES(4 * LENGTH) + BLOCK, BLOCK);
  write_of(1, 1, 0, BLOCK, 2);
  complete(1, 1, 10);
  need_held("misplaced command", 1, 1, 2, BYTES(4 * LENGTH) + BLOCK, BLOCK);
}

/* nothing is held: the words after that are not looked at, and stay until a row is stored */
static void try_idle_words(void) {
  put_held(1, 1, 0, 5, 7);
  complete(1, 1, 8);
  truncate_of(1, 1, 0, 0);
  write_of(1, 1, BLOCK, BLOCK, 6);
  need_held("idle words", 1, 1, 0, 5, 7);
  write_of(1, 1, 0, BLOCK, 0);
  need_held("write over idle words", 1, 1, 2, BYTES(4 * LENGTH), BLOCK);
  complete(1, 1, 0);
  need_idle("write over idle words", 1, 1);
}

/* an impossible row: 10 before 2 in a call, 8 before 10 in a completion */
static void try_impossible_rows(void) {
  put_word(1, 1, 3, 3);
  flush_of(1, 1, 10);
  complete(1, 1, 8);
  fail(1, 1, 64, 1, 8);
  put_held(1, 1, 5, BYTES(4 * LENGTH), 0);
  flush_of(1, 1, 10);
  complete(1, 1, 10);
  fail(1, 1, 64, 1, 10);
  need(zonefs_volume_outstanding(&volume, 1, 1).number == 10, "impossible row", "what is outstanding");
  put_word(1, 1, 3, 0);
  complete(1, 1, 0);
}

static void try_held_words(void) {
  mount_as("mount", "errors=repair", 0);
  try_no_command(8);
  try_no_command(UINT64_MAX);
  try_misplaced_command();
  try_idle_words();
  try_impossible_rows();
}

/* ---- files that are opened and closed; of the seq files the first has a block, the other two are empty */

static void mount_with(const char *options, uint32_t most_open, uint32_t most_active) {
  open_limit = most_open;
  active_limit = most_active;
  mount_as("mount with limits", options, 0);
  open_limit = 0;
  active_limit = 0;
  need(account[2] == most_open && account[3] == most_active, "mount with limits", "other limits than expected");
}

static void need_account(const char *what, uint64_t open, uint64_t active) {
  need(account[0] == open, what, "another number of open files than expected");
  need(account[1] == active, what, "another number of active files than expected");
}

/* a word of the account, in both volumes */
static void put_account(unsigned at, uint64_t value) {
  account[at] = value;
  account_before[at] = value;
  volume.account[at] = value;
}

/* answered 0 without a command: the row has nothing outstanding, and so many opens */
static void need_opens(const char *what, uint32_t file, uint64_t opens) {
  need(words[0] == 1 && words[1] == 0, what, "another answer at once than expected");
  need_idle(what, 1, file);
  need(row_of(1, file)[8] == opens, what, "another number of opens than expected");
}

/* answered with a zone open (6 in the row) or a zone close (7) of a file in zone 3 or behind it */
static void need_commanded(const char *what, uint32_t file, uint64_t held, uint64_t opens) {
  uint64_t address = BYTES((3 + file) * LENGTH);
  need(words[0] == 3 && words[1] == held - 1 && words[2] == address && words[3] == 0, what, "another command than expected");
  need_held(what, 1, file, held, address, 0);
  need(row_of(1, file)[8] == opens, what, "another number of opens than expected");
}

/* a file is opened, or closed, by a command that the disk does */
static void open_by_command(uint32_t file) {
  open_of(1, file, 0);
  need_commanded("open", file, 6, 1);
  complete(1, file, 0);
  need_opens("open done", file, 1);
}

static void close_by_command(uint32_t file) {
  close_of(1, file, 0);
  need_commanded("close", file, 7, 0);
  complete(1, file, 0);
  need_opens("close done", file, 0);
}

static void try_option(void) {
  static const struct {
    const char *options;
    uint64_t policy, explicit_open;
  } cases[] = {
      {"", 0, 0},
      {"errors=repair", 3, 0},
      {"explicit-open", 0, 1},
      {"errors=zone-ro,explicit-open", 1, 1},
      {",explicit-open,,explicit-open,errors=repair,errors=zone-offline,", 2, 1},
  };
  size_t i;
  for (i = 0; i < sizeof(cases) / sizeof(cases[0]); i++) {
    mount_as(cases[i].options, cases[i].options, 0);
    need(mount_words[6] == cases[i].policy, cases[i].options, "another policy than expected");
    need(mount_words[10] == cases[i].explicit_open, cases[i].options, "the option otherwise than expected");
    need_account(cases[i].options, 0, 1);
  }
  mount_as("option cut short", "explicit-ope", 27);
  need_account("refused mount", 0, 0);
  need(account[2] == 0 && account[3] == 0, "refused mount", "the limits should be 0");
}

/* without the option both only count: no limit, no command, and a write needs no open */
static void try_counting(void) {
  mount_with("errors=repair", 1, 1);
  need_account("mount", 0, 1);
  open_of(1, 0, 0);
  need_opens("first open", 0, 1);
  open_of(1, 1, 0);
  need_account("two files open", 2, 1);
  put_held(1, 1, 0, 5, 7);
  open_of(1, 1, 0);
  need_opens("second open, over idle words", 1, 2);
  close_of(1, 1, 0);
  close_of(1, 1, 0);
  need_opens("closed", 1, 0);
  need_account("one file open", 1, 1);
  close_of(1, 1, 13);
  write_of(1, 1, 0, BLOCK, 0);
  need_account("write not done yet", 1, 1);
  complete(1, 1, 0);
  need_account("write done", 1, 2);
  close_of(1, 0, 0);
  need_opens("closed, with a block", 0, 0);
  need_account("all closed", 0, 2);
  open_of(1, 3, 1);
  close_of(2, 0, 1);
  open_of(0, 1, 0);
  close_of(0, 1, 0);
  close_of(0, 1, 0);
  need(words[0] == 1 && row_of(0, 1)[8] == 0, "close of cnv", "it counts nothing");
}

/* with the option the first open and the last close are commands, and a write needs an open; 13 comes after 4 and before 5 */
static void try_opening(void) {
  mount_with("errors=repair,explicit-open", 0, 0);
  write_of(1, 0, BLOCK, BLOCK, 13);
  write_of(1, 0, 0, BYTES(LENGTH), 13);
  write_of(0, 0, 0, BLOCK, 0);
  open_of(0, 0, 2);
  complete(0, 0, 0);
  open_of(1, 0, 0);
  need_commanded("first open", 0, 6, 1);
  need_account("open not done yet", 1, 1);
  open_of(1, 0, 2);
  close_of(1, 0, 2);
  write_of(1, 0, BLOCK, BLOCK, 2);
  complete(1, 0, 0);
  need_opens("open done", 0, 1);
  open_of(1, 0, 0);
  need_opens("second open", 0, 2);
  need_account("opened twice", 1, 1);
  write_of(1, 0, BLOCK, BLOCK, 0);
  complete(1, 0, 0);
  close_of(1, 0, 0);
  need_opens("first close", 0, 1);
  close_of(1, 0, 0);
  need_commanded("last close", 0, 7, 0);
  need_account("close not done yet", 0, 1);
  close_of(1, 0, 2);
  complete(1, 0, 0);
  close_of(1, 0, 13);
  write_of(1, 0, 2 * BLOCK, BLOCK, 13);
}

/* an empty file is active by being open; a full one is opened and closed without a command, and is not active */
static void try_empty_and_full(void) {
  mount_with("errors=repair,explicit-open", 0, 1);
  put_account(3, 2);
  open_by_command(1);
  need_account("an empty file open", 1, 2);
  close_of(1, 1, 0);
  need_opens("an empty file closed", 1, 0);
  need_account("an empty file closed", 0, 1);
  truncate_of(1, 2, BYTES(CAPACITY), 0);
  complete(1, 2, 0);
  put_account(3, 1);
  open_of(1, 2, 0);
  need_opens("a full file open", 2, 1);
  need_account("a full file open", 1, 1);
  truncate_of(1, 2, 0, 0);
  complete(1, 2, 0);
  need_account("a full file reset, above the limit", 1, 2);
  truncate_of(1, 2, BYTES(CAPACITY), 0);
  complete(1, 2, 0);
  close_of(1, 2, 0);
  need_opens("a full file closed", 2, 0);
  need_account("a full file closed", 0, 1);
}

/* only an open that raises a count is refused by its limit, 11 before 12; a mount may be above it already */
static void try_limits(void) {
  mount_with("explicit-open", 1, 1);
  open_by_command(0);
  open_of(1, 1, 11);
  open_of(1, 0, 0);
  close_of(1, 0, 0);
  close_by_command(0);
  open_of(1, 1, 12);
  need_account("refused open", 0, 1);
  put_account(3, 2);
  open_by_command(1);
  open_of(1, 0, 11);
  make_zone(report + 16 + 4 * 64, 4, 2, 4, CAPACITY, 8);
  mount_with("explicit-open", UINT32_MAX, 1);
  need_account("mount above its limit", 0, 2);
  open_of(1, 2, 12);
  open_by_command(1);
}

static void try_most_opens(void) {
  mount_with("explicit-open", 1, 1);
  put_account(0, 1);
  put_word(1, 0, 8, 65534);
  open_of(1, 0, 0);
  need_opens("the last open that there can be", 0, 65535);
  open_of(1, 0, 14);
  put_word(1, 0, 8, UINT64_MAX);
  open_of(1, 0, 14);
  close_of(1, 0, 0);
  need_opens("more opens than there can be", 0, UINT64_MAX - 1);
  need_account("as many opens as there can be", 1, 1);
}

/* a failed open leaves no opens; a failed close leaves the file closed, as it was from the call on */
static void try_failed_opens(void) {
  mount_with("errors=repair,explicit-open", 0, 0);
  make_zone(record, 3, 2, 3, CAPACITY, 8);
  open_of(1, 0, 0);
  fail(1, 0, 64, 1, 7);
  need(words[1] == BLOCK, "failed open", "another size than expected");
  need_idle("failed open", 1, 0);
  need(row_of(1, 0)[8] == 0, "failed open", "it should have no opens");
  need_account("failed open", 0, 1);
  open_by_command(0);
  close_of(1, 0, 0);
  fail(1, 0, 64, 1, 7);
  need(row_of(1, 0)[8] == 0 && row_of(1, 0)[2] == BLOCK, "failed close", "another row than expected");
  need_account("failed close", 0, 1);
  open_of(1, 1, 0);
  need_account("an empty file's open", 1, 2);
  make_zone(record, 4, 2, 1, CAPACITY, 0);
  fail(1, 1, 64, 1, 7);
  need_account("an empty file's failed open", 0, 1);
  close_of(1, 1, 13);
}

/* whatever takes write access takes the opens too, and what others have open stays */
static void try_lost_access(void) {
  mount_with("errors=zone-ro,explicit-open", 0, 0);
  open_by_command(0);
  open_of(1, 0, 0);
  open_by_command(1);
  need_account("two files open", 2, 2);
  make_zone(record, 3, 2, 2, CAPACITY, 16);
  flush_of(1, 0, 0);
  fail(1, 0, 64, 1, 7);
  need(row_of(1, 0)[4] == 1 && row_of(1, 0)[8] == 0, "lost access", "another row than expected");
  need(row_of(1, 1)[8] == 1, "lost access", "the other file should be open");
  need_account("lost access", 1, 1);
  open_of(1, 0, 4);
  close_of(1, 0, 13);
  close_of(1, 1, 0);
  make_zone(record, 4, 2, 15, CAPACITY, 0);
  open_of(1, 1, 0);
  fail(1, 1, 64, 1, 7);
  need_account("offline", 0, 0);
}

/* a failure that makes the mount read-only leaves the opens: nothing is opened any more, but all can be closed */
static void try_read_only_mount(void) {
  mount_with("explicit-open", 0, 0);
  open_by_command(0);
  open_by_command(1);
  make_zone(record, 3, 2, 2, CAPACITY, 8);
  flush_of(1, 0, 0);
  fail(1, 0, 64, 1, 7);
  need(mount_words[9] == 1 && mount_words[10] == 1, "remount", "the mount should be read-only, and keep its option");
  need_account("remount", 2, 2);
  open_of(1, 0, 3);
  open_of(1, 2, 3);
  write_of(1, 2, 0, BLOCK, 3);
  open_of(0, 0, 0);
  close_by_command(0);
  close_of(1, 1, 0);
  close_of(1, 1, 13);
  need_account("closed on a read-only mount", 0, 1);
}

/* every function answers 10, also of a file that there isn't */
static void need_impossible(void) {
  find("cnv/0", 10);
  find("none", 10);
  show(1, 3, 10);
  read_of(7, 0, 0, 1, 10);
  write_of(1, 0, BLOCK, BLOCK, 10);
  truncate_of(1, 1, 0, 10);
  flush_of(0, 0, 10);
  open_of(1, 3, 10);
  close_of(0, 0, 10);
  complete(2, 0, 10);
  fail(1, 3, 64, 1, 10);
}

/* what the named row is counted in, and is 0: seq/0 is active, and is open too once it has an open */
static void need_uncounted(void) {
  find("seq/0", 10);
  show(1, 0, 10);
  read_of(1, 0, 0, 1, 10);
  open_of(1, 0, 10);
  close_of(1, 0, 10);
  complete(1, 0, 8);
  show(1, 1, 0);
  open_of(0, 0, 0);
  open_of(1, 3, 1);
}

/* more files than there are, before 1; 0 of what the named row counts in, with the row */
static void try_wrong_accounts(void) {
  mount_with("errors=repair,explicit-open", 0, 0);
  put_account(0, 4);
  need_impossible();
  put_account(0, 3);
  show(1, 0, 0);
  put_account(1, 4);
  need_impossible();
  put_account(1, 0);
  need_uncounted();
  put_account(1, 1);
  put_account(0, 0);
  put_word(1, 0, 8, 1);
  need_uncounted();
  put_account(0, 1);
  close_of(1, 0, 0);
  complete(1, 0, 0);
  put_account(1, 3);
  open_of(1, 1, 0); /* the number is believed, and comes out as one above the files */
  need_account("a wrong account", 1, 4);
  need_impossible();
}

/* an account word above 32 bits: nothing is written, not even the answer words; so is a mark of explicit-open above 1 */
static void try_wide_accounts(void) {
  unsigned i;
  mount_with("errors=repair,explicit-open", 0, 0);
  for (i = 0; i < 4; i++) {
    uint64_t was = account[i];
    put_account(i, (uint64_t)1 << 32);
    memset(words, UNTOUCHED, sizeof(words));
    need_impossible();
    need(untouched(words, sizeof(words)), "wide account", "the answer words should be as they were");
    put_account(i, was);
  }
  put_account(2, UINT32_MAX);
  put_account(3, UINT32_MAX);
  show(1, 0, 0);
  mount_words[10] = 2;
  volume.mount[10] = 2;
  memset(words, UNTOUCHED, sizeof(words));
  need_impossible();
  need(untouched(words, sizeof(words)), "wide mark", "the answer words should be as they were");
}

/* opens in a row without write access, of either kind; those of a cnv row count nowhere */
static void try_impossible_opens(void) {
  mount_with("explicit-open", 0, 0);
  put_account(0, 1);
  put_word(1, 1, 8, 1);
  put_account(1, 2);
  show(1, 1, 0);
  put_word(1, 1, 4, 1);
  show(1, 1, 10);
  close_of(1, 1, 10);
  put_word(1, 1, 8, 0);
  show(1, 1, 0);
  put_word(0, 1, 8, UINT64_MAX);
  open_of(0, 1, 0);
  close_of(0, 1, 0);
  need(row_of(0, 1)[8] == UINT64_MAX, "opens of cnv", "they should stay");
  put_word(0, 1, 4, 1);
  show(0, 1, 10);
}

/* what a row holds is an open or a close: one that a call gives on the row as it was before, with one open less or one more, else 10 */
static void try_held_opens(void) {
  mount_with("explicit-open", 0, 0);
  put_account(0, 1);
  put_held(1, 0, 6, BYTES(3 * LENGTH), 0);
  complete(1, 0, 10);
  put_word(1, 0, 8, 2);
  complete(1, 0, 10);
  put_word(1, 0, 8, 1);
  need_held("held open", 1, 0, 6, BYTES(3 * LENGTH), 0);
  complete(1, 0, 0);
  need_opens("held open", 0, 1);
  put_held(1, 0, 7, BYTES(3 * LENGTH), 0);
  complete(1, 0, 10);
  put_word(1, 0, 8, 0);
  put_held(1, 0, 7, BYTES(3 * LENGTH), BLOCK);
  complete(1, 0, 10);
  put_held(1, 0, 7, BYTES(3 * LENGTH), 0);
  need_held("held close", 1, 0, 7, BYTES(3 * LENGTH), 0);
  complete(1, 0, 0);
  put_held(1, 1, 7, BYTES(4 * LENGTH), 0); /* of an empty file no close is commanded */
  complete(1, 1, 10);
  mount_with("", 0, 0);
  put_account(0, 1);
  put_word(1, 0, 8, 1);
  put_held(1, 0, 6, BYTES(3 * LENGTH), 0); /* nor is an open without the option */
  complete(1, 0, 10);
}

static void try_opens(void) {
  try_option();
  try_counting();
  try_opening();
  try_empty_and_full();
  try_limits();
  try_most_opens();
  try_failed_opens();
  try_lost_access();
  try_read_only_mount();
  try_wrong_accounts();
  try_wide_accounts();
  try_impossible_opens();
  try_held_opens();
}

/* ---- mounts in pieces */

/* what is lent, so that it shows what is written */
static void clear_tables(void) {
  memset(cnv, UNTOUCHED, sizeof(cnv));
  memset(volume_cnv, UNTOUCHED, sizeof(volume_cnv));
  memset(seq, UNTOUCHED, sizeof(seq));
  memset(volume_seq, UNTOUCHED, sizeof(volume_seq));
}

/* the whole mount of the bytes as they are made up now, which is kept, and the tables as before any; conventional zones are one file or two */
static void keep_whole(const char *options, unsigned features) {
  super_block[88] = (uint8_t)features;
  sign();
  clear_tables();
  mount_of("whole", BLOCK, 4096, options, sizeof(report), 0);
  memcpy(whole_mount, mount_words, sizeof(whole_mount));
  memcpy(whole_account, account, sizeof(whole_account));
  memcpy(whole_cnv, cnv, sizeof(whole_cnv));
  memcpy(whole_seq, seq, sizeof(whole_seq));
  clear_tables();
}

/* so many files of each kind have their rows, as the whole mount gives them, and nothing else was written */
static void need_stored(const char *what, size_t cnv_files, size_t seq_files) {
  size_t c = cnv_files * ROW, q = seq_files * ROW;
  need(same_words(cnv, whole_cnv, c) && same_words(seq, whole_seq, q), what, "other rows than those of the whole mount");
  need(untouched(cnv + c, (CNV_WORDS - c) * sizeof(*cnv)), what, "a row of cnv should be as it was");
  need(untouched(seq + q, (SEQ_WORDS - q) * sizeof(*seq)), what, "a row of seq should be as it was");
}

/* the mount is refused: pieces answer alike from then on, whatever they bring, and so does the end, which leaves no mount */
static void need_refused(const char *what, uint64_t number, size_t cnv_files, size_t seq_files) {
  static const uint64_t zeros[11] = {0};
  uint64_t before[39], answer[7];
  memcpy(before, pieces, sizeof(before));
  memcpy(answer, words, sizeof(answer));
  need_stored(what, cnv_files, seq_files);
  piece_of(what, report, sizeof(report), number);
  need(same_words(words, answer, 7), what, "other values in a further piece");
  piece_of(what, report, 0, number);
  end_of(what, number);
  need(same_words(words, answer, 7), what, "other values at the end");
  need(same_words(mount_words, zeros, 11) && same_words(account, zeros, 4), what, "the end should leave no mount");
  need(same_words(pieces, before, 39), what, "the pieces words should stay");
  need_stored(what, cnv_files, seq_files);
  show(1, 0, 10);
}

/* pieces of so many bytes each, up to those that come to the whole report or to a refusal */
static void feed(const char *what, size_t length, size_t bytes) {
  size_t at, count;
  for (at = 0; at < bytes; at += count) {
    count = bytes - at < length ? bytes - at : length;
    piece_of(what, report + at, count, 0);
  }
}

/* pieces of any length come to what the whole mount does; an end can be had twice */
static void try_cuts(unsigned features, size_t cnv_files) {
  static const size_t lengths[] = {1, 7, 15, 16, 17, 63, 64, 65, 80, 128, 399, 400};
  size_t i;
  open_limit = 1;
  active_limit = 2;
  keep_whole("errors=repair,explicit-open", features);
  need(words[1] == cnv_files && words[2] == 3, "whole", "other numbers of files than expected");
  for (i = 0; i < sizeof(lengths) / sizeof(lengths[0]); i++) {
    unsigned ends;
    clear_tables();
    begin_of("begin", BLOCK, 4096, "errors=repair,explicit-open", 0);
    feed("piece", lengths[i], sizeof(report));
    piece_of("no bytes", report, 0, 0);
    for (ends = 0; ends < 2; ends++) {
      end_of("end", 0);
      need(words[1] == cnv_files && words[2] == 3, "end", "other numbers of files than expected");
      need(same_words(mount_words, whole_mount, 11) && same_words(account, whole_account, 4), "end", "another mount than the whole one");
    }
    need_stored("end", cnv_files, 3);
    show(1, 0, 0);
  }
  piece_of("byte behind the end", report, 1, 28);
  need_refused("byte behind the end", 28, cnv_files, 3);
  open_limit = 0;
  active_limit = 0;
  make_super_block();
}

/* words that hold no mount that was begun: nothing is written, not even the answer words */
static void need_unbegun(const char *what) {
  memset(words, UNTOUCHED, sizeof(words));
  piece_of(what, report, sizeof(report), 10);
  end_of(what, 10);
  need(untouched(words, sizeof(words)), what, "the answer words should be as they were");
}

/* of the super block as it is made up now, which is then made anew; a good beginning goes before, of which nothing is to be left */
static void refuse_begin(const char *what, const char *options, uint64_t expected) {
  uint8_t as_made[4096];
  memcpy(as_made, super_block, sizeof(as_made));
  make_super_block();
  begin_of("good beginning", BLOCK, 4096, "", 0);
  memcpy(super_block, as_made, sizeof(super_block));
  begin_of(what, BLOCK, 4096, options, expected);
  need_unbegun(what);
  make_super_block();
}

static void try_refused_begins(void) {
  begin_of("block to begin with", 1024, 4096, "", 20);
  need_unbegun("block to begin with");
  begin_of("super block's length to begin with", BLOCK, 4097, "", 21);
  need_unbegun("super block's length to begin with");
  super_block[1] = 0;
  refuse_begin("magic to begin with", "", 22);
  super_block[5] ^= 1;
  refuse_begin("checksum to begin with", "", 23);
  super_block[88] = 16;
  sign();
  refuse_begin("features to begin with", "", 24);
  super_block[88] = 4;
  put(super_block + 100, 0xFFFFFFFFu, 4);
  sign();
  refuse_begin("group to begin with", "", 25);
  super_block[88] = 8;
  put(super_block + 104, 01000, 4);
  super_block[4095] = 1;
  sign();
  refuse_begin("perm to begin with", "", 33);
  super_block[108] = 1;
  sign();
  refuse_begin("tail to begin with", "", 26);
  refuse_begin("options to begin with", "errors=none", 27);
}

/* a bad header at its last byte, and not before; the zones that follow it in this piece are not looked at */
static void refuse_header(const char *what, unsigned at, uint64_t value) {
  keep_whole("", 0);
  put(report + at, value, 4);
  begin_of(what, BLOCK, 4096, "", 0);
  piece_of(what, report, 15, 0);
  piece_of(what, report + 15, sizeof(report) - 15, 28);
  need_refused(what, 28, 0, 0);
  make_report();
}

/* the mount of the report up to this zone, whose last byte is refused, by 29 with a reason; so many files of each kind are stored by then */
static void refuse_zone(const char *what, unsigned zone, uint64_t number, uint64_t reason, size_t cnv_files, size_t seq_files) {
  size_t last = 16 + (zone + 1) * 64 - 1;
  begin_of(what, BLOCK, 4096, "", 0);
  feed(what, 33, last);
  need_stored(what, cnv_files, seq_files);
  piece_of(what, report + last, sizeof(report) - last, number);
  need(words[1] == (number == 29 ? zone : 0u) && words[2] == reason, what, "another zone or reason than expected");
  if (number == 29)
    pieces_reasons[words[2]]++;
  need_refused(what, number, cnv_files, seq_files);
}

/* the files of the zones before a bad one are stored */
static void try_bad_zones_in_pieces(void) {
  size_t i;
  for (i = 0; i < sizeof(zone_fields) / sizeof(zone_fields[0]); i++) {
    const struct bad_field *f = &zone_fields[i];
    keep_whole("", 0);
    put(report + 16 + f->zone * 64 + f->at, f->value, f->count);
    refuse_zone(f->what, f->zone, 29, f->reason, f->zone > 3 ? 2 : f->zone - 1, f->zone > 3 ? f->zone - 3 : 0);
    make_report();
  }
}

/* with aggregation zones 1 and 2 are one file, and zone 3 finishes it: not where it is bad itself, but where it has no row */
static void try_runs_in_pieces(void) {
  keep_whole("", 1);
  report[16 + 3 * 64 + 24] = 4;
  refuse_zone("bad zone behind a run", 3, 29, 5, 0, 0);
  make_report();
  clear_tables();
  lend(CNV_WORDS, ROW - 1);
  begin_of("no row behind a run", BLOCK, 4096, "", 0);
  feed("no row behind a run", 64, 16 + 4 * 64 - 1);
  need_stored("no row behind a run", 0, 0);
  piece_of("no row behind a run", report + 16 + 4 * 64 - 1, 1, 30);
  need_refused("no row behind a run", 30, 1, 0);
  lend(CNV_WORDS, SEQ_WORDS);
  make_super_block();
}

static void try_few_rows_in_pieces(void) {
  keep_whole("", 0);
  lend(ROW - 1, SEQ_WORDS);
  refuse_zone("no row for cnv/0", 1, 30, 0, 0, 0);
  lend(CNV_WORDS - 1, SEQ_WORDS);
  clear_tables();
  refuse_zone("no row for cnv/1", 2, 30, 0, 1, 0);
  lend(CNV_WORDS, SEQ_WORDS - 1);
  clear_tables();
  refuse_zone("no row for seq/2", 5, 30, 0, 2, 2);
  lend(CNV_WORDS, SEQ_WORDS);
}

/* bytes that are missing at the end are refused there, and so they are when they come after all */
static void try_early_ends(void) {
  static const struct {
    size_t bytes, cnv_files, seq_files;
  } ends[] = {{0, 0, 0}, {15, 0, 0}, {16, 0, 0}, {80, 0, 0}, {208, 2, 0}, {399, 2, 2}};
  size_t i;
  for (i = 0; i < sizeof(ends) / sizeof(ends[0]); i++) {
    keep_whole("", 0);
    begin_of("early end", BLOCK, 4096, "", 0);
    feed("early end", 50, ends[i].bytes);
    end_of("early end", 28);
    piece_of("bytes behind an early end", report + ends[i].bytes, sizeof(report) - ends[i].bytes, 28);
    need_refused("early end", 28, ends[i].cnv_files, ends[i].seq_files);
  }
}

/* too few words answer 10, and nothing is written */
static void try_short_pieces(void) {
  begin_of("good beginning", BLOCK, 4096, "", 0);
  memset(words, UNTOUCHED, sizeof(words));
  need(zonefs_begin(BLOCK, super_block, 4096, super_block, 0, 0, 0, pieces, 38, words, 7) == 10, "short pieces", "begin");
  need(zonefs_piece(pieces, 38, report, 16, cnv, cnv_words, seq, seq_words, words, 7) == 10, "short pieces", "piece");
  need(zonefs_piece(pieces, 39, report, 16, cnv, cnv_words, seq, seq_words, words, 6) == 10, "short answer", "piece");
  need(zonefs_end(pieces, 38, mount_words, 11, account, 4, words, 7) == 10, "short pieces", "end");
  need(zonefs_end(pieces, 39, mount_words, 10, account, 4, words, 7) == 10, "short mount words", "end");
  need(zonefs_end(pieces, 39, mount_words, 11, account, 3, words, 7) == 10, "short account words", "end");
  need(untouched(words, sizeof(words)), "short pieces", "the answer words should be as they were");
  piece_of("whole report behind short words", report, sizeof(report), 0);
  end_of("whole report behind short words", 0);
}

/* a struct of zeros has no rows, and null pointers; a piece of no bytes may have one too */
static void try_pieces_without_tables(void) {
  need_unbegun("pieces of zeros");
  begin_of("nothing lent", BLOCK, 4096, "", 0);
  need(zonefs_volume_piece(&volume_pieces, &volume, NULL, 0).outcome == ZONEFS_VOLUME_TAKEN, "no bytes", "should be taken");
  piece_of("nothing lent", report, 16 + 64, 0);
  piece_of("nothing lent", report + 16 + 64, 64, 30);
  end_of("nothing lent", 30);
}

/* each number of a mount in pieces was seen there, and each reason */
static void check_pieces(void) {
  unsigned i;
  for (i = 0; i < sizeof(pieces_seen) / sizeof(pieces_seen[0]); i++)
    need((pieces_seen[i] > 0) == (i == 0 || i == 10 || (i >= 20 && i <= 30) || i == 33), "pieces", "another set of numbers than expected");
  for (i = 0; i < 10; i++)
    need((pieces_reasons[i] > 0) == (i >= 1 && i <= 7), "pieces", "another set of reasons than expected");
}

static void try_pieces(void) {
  try_cuts(0, 2);
  try_cuts(1, 1);
  try_refused_begins();
  refuse_header("sector of a header", 0, 8);
  refuse_header("count of 0", 8, 0);
  refuse_header("count above the most zones", 8, 65537);
  refuse_header("flags of a header", 12, 2);
  try_bad_zones_in_pieces();
  try_runs_in_pieces();
  try_few_rows_in_pieces();
  try_early_ends();
  try_short_pieces();
  check_pieces();
}

/* ---- super blocks */

/* values of which no two are the same, so that one in another's place shows */
static void make_values(void) {
  unsigned i;
  memset(&values, 0, sizeof(values));
  strcpy(values.label, "drawer 7");
  values.label_bytes = 8;
  for (i = 0; i < 16; i++)
    values.uuid[i] = (uint8_t)(0xE0 + i);
  values.features = 15;
  values.owner = 1001;
  values.group = 1002;
  values.mode = 0604;
}

/* the block of the values as they are made up now, which are then made anew; zone 0 is empty */
static void format_as(const char *what, uint64_t expected) {
  make_zone(record, 0, 2, 1, CAPACITY, 0);
  format_of(what, BLOCK, 4096, 64, 1, expected);
  make_values();
}

static void try_refused_formats(void) {
  make_values();
  make_zone(record, 0, 2, 1, CAPACITY, 0);
  format_of("format's block", 1024, 4096, 64, 1, 20);
  format_of("lent block's length", BLOCK, 4095, 64, 1, 21);
  values.features = 16;
  format_as("format's features", 24);
  values.owner = 0xFFFFFFFFu;
  format_as("format's owner", 25);
  values.group = 0xFFFFFFFFu;
  format_as("format's group", 25);
  values.mode = 01000;
  format_as("format's mode", 33);
  values.label_bytes = 65;
  format_as("label's length", 34);
  values.label_bytes = (size_t)-1;
  format_as("label longer than all memory", 34);
}

/* 29 has two values here too, and the first is always 0 */
static void refuse_first_zone(const char *what, size_t bytes, uint64_t reason) {
  format_of(what, BLOCK, 4096, bytes, 1, 29);
  need(words[1] == 0 && words[2] == reason, what, "another zone or reason than expected");
  format_reasons[words[2]]++;
}

static void try_bad_first_zones(void) {
  static const struct bad_field fields[] = {
      {"first zone's start", 0, 0, 8, 8, 1},
      {"first zone's length", 0, 8, 8, LENGTH - 4, 2},
      {"first zone's capacity", 0, 32, 8, LENGTH + 8, 3},
      {"first zone's end", 0, 8, 8, ((uint64_t)1 << 40) + 8, 4},
      {"first zone's type", 0, 24, 1, 4, 5},
      {"first zone's condition", 0, 25, 1, 0, 6},
      {"first zone's pointer", 0, 16, 8, 1, 7},
  };
  size_t i;
  for (i = 0; i < sizeof(fields) / sizeof(fields[0]); i++) {
    const struct bad_field *f = &fields[i];
    make_zone(record, f->zone, 2, 1, CAPACITY, 0);
    put(record + f->at, f->value, f->count);
    refuse_first_zone(f->what, 64, f->reason);
  }
  make_zone(record, 0, 2, 1, CAPACITY, 0);
  refuse_first_zone("first zone's record is short", 63, 0);
  refuse_first_zone("first zone's record is long", 65, 0);
}

/* A first zone, and whether it must be finished. */
struct first_zone {
  const char *what;
  unsigned type, condition, capacity, written;
  uint32_t given;
  uint64_t finish;
};

static void try_finishing(void) {
  static const struct first_zone zones[] = {
      {"conventional", 1, 0, LENGTH, 0, 1, 0},
      {"empty", 2, 1, CAPACITY, 0, 1, 1},
      {"open", 2, 3, CAPACITY, 8, 1, 1},
      {"closed, a block below capacity", 3, 4, CAPACITY, CAPACITY - 8, 1, 1},
      {"open, at capacity", 2, 2, CAPACITY, CAPACITY, 1, 0},
      {"open, at a capacity that is given otherwise", 2, 2, CAPACITY, CAPACITY, 2, 0},
      {"open, at a capacity that is not given", 2, 2, CAPACITY, CAPACITY, 0, 1},
      {"full", 2, 14, CAPACITY, 0, 1, 0},
      {"read-only", 2, 13, CAPACITY, 0, 1, 0},
      {"offline", 3, 15, CAPACITY, 0, 1, 0},
  };
  size_t i;
  for (i = 0; i < sizeof(zones) / sizeof(zones[0]); i++) {
    const struct first_zone *z = &zones[i];
    make_zone(record, 0, z->type, z->condition, z->capacity, z->written);
    format_of(z->what, BLOCK, 4096, 64, z->given, 0);
    need(words[1] == z->finish, z->what, "finish otherwise than expected");
  }
}

/* the mount of a block with one feature alone: it uses that one's value, and of the others what a mount has without them */
static void mount_with_feature(const char *what, uint64_t feature, uint64_t cnv_files, uint64_t owner, uint64_t group, uint64_t mode) {
  values.features = feature;
  format_as(what, 0);
  memcpy(super_block, volume_made, sizeof(super_block));
  mount_as(what, "", 0);
  need(words[1] == cnv_files, what, "another number of cnv files than expected");
  need(mount_words[ZONEFS_MOUNT_OWNER] == owner, what, "another owner than expected");
  need(mount_words[ZONEFS_MOUNT_GROUP] == group, what, "another group than expected");
  need(mount_words[ZONEFS_MOUNT_MODE] == mode, what, "another mode than expected");
  need(mount_words[ZONEFS_MOUNT_UUID_LOW] == 0xE7E6E5E4E3E2E1E0u, what, "another uuid than expected");
  need(mount_words[ZONEFS_MOUNT_UUID_HIGH] == 0xEFEEEDECEBEAE9E8u, what, "another uuid than expected");
}

static void try_features(void) {
  mount_with_feature("no feature", 0, 2, 0, 0, 0640);
  mount_with_feature("aggregate", ZONEFS_FEATURE_AGGREGATE, 1, 0, 0, 0640);
  mount_with_feature("uid", ZONEFS_FEATURE_UID, 2, 1001, 0, 0640);
  mount_with_feature("gid", ZONEFS_FEATURE_GID, 2, 0, 1002, 0640);
  mount_with_feature("perm", ZONEFS_FEATURE_PERM, 2, 0, 0, 0604);
}

/* a label of bytes, formatted and read back; the struct gives it without the zeros at its end */
static void read_back(const char *what, const char *label, size_t bytes, size_t without_zeros) {
  struct zonefs_volume_super got;
  uint8_t first[4096];
  memcpy(values.label, label, bytes);
  values.label_bytes = bytes;
  format_as(what, 0);
  memcpy(first, volume_made, sizeof(first));
  memcpy(super_block, first, sizeof(super_block));
  fields_of(what, 4096, 0, &got);
  need(got.label_bytes == without_zeros && memcmp(got.label, label, without_zeros) == 0, what, "another label than expected");
  need(got.label[64] == 0, what, "the label does not end in a zero");
  need(got.features == 15 && got.owner == 1001 && got.group == 1002 && got.mode == 0604, what, "another value than expected");
  values = got;
  format_as(what, 0);
  need(memcmp(volume_made, first, sizeof(first)) == 0, what, "formatted again it has other bytes");
}

static void try_labels(void) {
  static const char longest[] = "0123456789abcdef0123456789abcdef0123456789abcdef0123456789abcdef";
  read_back("no label", "", 0, 0);
  read_back("label", "drawer 7", 8, 8);
  read_back("label with its zero", "drawer 7", 9, 8);
  read_back("label with a zero inside", "a\0b", 3, 3);
  read_back("longest label", longest, 64, 64);
}

/* of the super block as it is made up now, which is then made anew */
static void fields_as(const char *what, uint64_t expected) {
  struct zonefs_volume_super got;
  fields_of(what, 4096, expected, &got);
  make_super_block();
}

static void try_refused_fields(void) {
  struct zonefs_volume_super got;
  make_super_block();
  fields_of("length to read", 4095, 21, &got);
  super_block[3] = 0;
  fields_as("magic to read", 22);
  super_block[7] ^= 1;
  fields_as("checksum to read", 23);
  super_block[95] = 1;
  sign();
  fields_as("features to read", 24);
  super_block[88] = 4;
  put(super_block + 100, 0xFFFFFFFFu, 4);
  sign();
  fields_as("group to read", 25);
  super_block[88] = 8;
  put(super_block + 104, 01000, 4);
  sign();
  fields_as("mode to read", 33);
  super_block[108] = 1;
  sign();
  fields_as("tail to read", 26);
}

/* each number was seen and has a text of its own; 15 is none, and stands here for those that the library doesn't have */
static void check_numbers(void) {
  const char *none = zonefs_volume_refusal_text(15);
  unsigned i, j;
  for (i = 0; i < sizeof(seen) / sizeof(seen[0]); i++) {
    const char *text = zonefs_volume_refusal_text(i);
    int known = i <= 14 || (i >= 20 && i <= 30) || i == 33 || i == 34;
    need((seen[i] > 0) == known, "numbers", "one of them was not seen");
    need((strcmp(text, none) != 0) == known, "texts", "a number has none");
    for (j = 0; known && j < i; j++)
      need(strcmp(text, zonefs_volume_refusal_text(j)) != 0, "texts", "two numbers have the same");
  }
  for (i = 0; i < 7; i++)
    need(commands[i] > 0, "commands", "one of them was not seen");
  need(at_once > 0, "at once", "was not seen");
}

/* each reason was seen, where it can be, and has a text of its own */
static void check_reasons(void) {
  const char *none = zonefs_volume_reason_text(UINT64_MAX);
  unsigned i, j;
  need(strcmp(zonefs_volume_reason_text(10), none) == 0, "texts", "10 is no reason");
  for (i = 0; i < 10; i++) {
    const char *text = zonefs_volume_reason_text(i);
    need((zone_reasons[i] > 0) == (i >= 1 && i <= 7), "reasons", "one of a zone was not seen");
    need((record_reasons[i] > 0) == (i != 1), "reasons", "one of a record was not seen");
    need((format_reasons[i] > 0) == (i <= 7), "reasons", "one of the formatter was not seen");
    need(strcmp(text, none) != 0, "texts", "a reason has none");
    for (j = 0; j < i; j++)
      need(strcmp(text, zonefs_volume_reason_text(j)) != 0, "texts", "two reasons have the same");
  }
}

int main(void) {
  make_super_block();
  make_report();
  make_zone(record, 3, 2, 2, CAPACITY, 8);

  /* a struct of zeros has no rows, and null pointers; beside it the plain functions are lent no words */
  try_unmounted();
  mount_as("nothing lent", "", 30);
  try_pieces_without_tables();

  zonefs_volume_lend(&volume, volume_cnv, CNV_WORDS, volume_seq, SEQ_WORDS);
  lend(CNV_WORDS, SEQ_WORDS);
  try_unmounted();
  try_refused_mounts();
  try_modes();
  try_bad_zones();
  try_calls();
  try_failures();
  try_busy_files();
  try_held_commands();
  try_busy_files_on_remount();
  try_held_words();
  try_opens();
  try_pieces();
  try_refused_formats();
  try_bad_first_zones();
  try_finishing();
  try_features();
  try_labels();
  try_refused_fields();
  check_numbers();
  check_reasons();
  printf("volume in " LANGUAGE ": %u answers, as the plain functions give them\n", compared);
  return 0;
}
