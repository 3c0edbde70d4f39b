/*
 * A small program on the proved library: formats a disk, mounts it, keeps two files busy at once, has an append fail halfway, recovers, and goes
 * on. Of the failure it first hands over another zone's record, to show how a refusal says what is bad. Then it mounts the disk again with the option
 * explicit-open, under which a file is opened before it is written and closed afterwards, and no more are open at once than the disk can take.
 * The disk is played by this program: it makes up the zone report, and the record that comes with the failure. On Linux the bytes that
 * BLKREPORTZONE gives, and those of a zone's record, can be passed on as they come.
 * It prints each step, and ends with status 1 where a step answers otherwise than it should. Build and run: docs/LINKING.md.
 */
#include <inttypes.h>
#include <stdio.h>
#include <stdlib.h>
#include <string.h>

#include "zonefs_volume.h"

#define BLOCK 4096u
#define SECTOR 512u
#define ZONES 5u
#define ZONE_SECTORS 524288u
#define CAPACITY_SECTORS 393216u
#define ROWS 4u /* this volume has two files of each kind; ZONEFS_MOST_FILES rows are enough for any */
#define OPEN_LIMIT 1u   /* so many zones the disk can have open */
#define ACTIVE_LIMIT 2u /* and so many open or closed: neither empty nor full */

/* A controller keeps these for each volume. */
static uint64_t cnv[ROWS * ZONEFS_ROW_WORDS];
static uint64_t seq[ROWS * ZONEFS_ROW_WORDS];
static struct zonefs_volume volume;

/* What the disk gives for a mount: its first bytes, and its zone report. */
static uint8_t super_block[ZONEFS_SUPER_BYTES];
static uint8_t report[ZONEFS_HEADER_BYTES + ZONES * ZONEFS_ZONE_BYTES];

static void put(uint8_t *bytes, uint64_t value, unsigned count) {
  unsigned i;
  for (i = 0; i < count; i++)
    bytes[i] = (uint8_t)(value >> (8 * i));
}

/* A zone record. Types: 1 conventional, 2 sequential. */
static void make_zone(uint8_t *record, uint64_t start, unsigned type, unsigned condition, uint64_t capacity, uint64_t pointer) {
  memset(record, 0, ZONEFS_ZONE_BYTES);
  put(record + ZONEFS_RECORD_START, start, 8);
  put(record + ZONEFS_RECORD_LENGTH, ZONE_SECTORS, 8);
  put(record + ZONEFS_RECORD_POINTER, pointer, 8);
  record[ZONEFS_RECORD_TYPE] = (uint8_t)type;
  record[ZONEFS_RECORD_CONDITION] = (uint8_t)condition;
  put(record + ZONEFS_RECORD_CAPACITY, capacity, 8);
}

/* Three conventional zones, then two sequential ones, of which the first has a block or more: its pointer, and condition and pointer of the other. */
static void make_report(uint64_t pointer, unsigned other_condition, uint64_t other_pointer) {
  unsigned i;
  uint8_t *zones = report + ZONEFS_HEADER_BYTES;
  memset(report, 0, ZONEFS_HEADER_BYTES);
  put(report + ZONEFS_REPORT_COUNT, ZONES, 4);
  put(report + ZONEFS_REPORT_FLAGS, ZONEFS_CAPACITY_GIVEN, 4);
  for (i = 0; i < 3; i++)
    make_zone(zones + i * ZONEFS_ZONE_BYTES, (uint64_t)i * ZONE_SECTORS, 1, 0, ZONE_SECTORS, 0);
  make_zone(zones + 3 * ZONEFS_ZONE_BYTES, 3ull * ZONE_SECTORS, 2, 2, CAPACITY_SECTORS, pointer);
  make_zone(zones + 4 * ZONEFS_ZONE_BYTES, 4ull * ZONE_SECTORS, 2, other_condition, CAPACITY_SECTORS, other_pointer);
}

/* Prints what a refusal has beside its number: two of them say what is bad. */
static void print_refusal(struct zonefs_volume_answer a) {
  if (a.number == ZONEFS_BAD_ZONE)
    printf(" zone %" PRIu32 ":", a.zone);
  if (a.number == ZONEFS_BAD_ZONE || a.number == ZONEFS_BAD_RECORD)
    printf(" reason %" PRIu32 ", %s", a.reason, zonefs_volume_reason_text(a.reason));
}

/* Prints what an answer has beside its number. */
static void print_values(struct zonefs_volume_answer a) {
  switch (a.outcome) {
  case ZONEFS_VOLUME_MOUNTED: printf(" %" PRIu32 " %" PRIu32, a.cnv_files, a.seq_files); break;
  case ZONEFS_VOLUME_FOUND: printf(" %" PRIu32 " %" PRIu32, a.file_kind, a.file_number); break;
  case ZONEFS_VOLUME_SHOWN:
    printf(" %" PRIu64 " %" PRIu64 " %" PRIu64, a.start, a.capacity, a.size);
    printf(" %" PRIu32 " %" PRIu32 " %" PRIu32, a.condition, a.access, a.mode);
    break;
  case ZONEFS_VOLUME_COMMAND: printf(" %" PRIu32 " %" PRIu64 " %" PRIu64, a.command, a.address, a.length); break;
  case ZONEFS_VOLUME_DONE: printf(" %" PRIu64, a.count); break;
  case ZONEFS_VOLUME_FAILED: printf(" %" PRIu64, a.size); break;
  case ZONEFS_VOLUME_FORMATTED: printf(" %" PRIu32, a.finish); break;
  case ZONEFS_VOLUME_FIELDS: break; /* they are in the caller's struct */
  case ZONEFS_VOLUME_TAKEN: break;  /* of a mount in pieces, which examples/pieces.c has */
  case ZONEFS_VOLUME_REFUSED: print_refusal(a); break;
  }
}

/* Prints a step, and stops the program if its number isn't the one expected. */
static void step(const char *what, struct zonefs_volume_answer a, uint64_t expected) {
  printf("%-34s %2" PRIu64 ":", what, a.number);
  print_values(a);
  printf("\n");
  if (a.number != expected) {
    printf("%s; expected %" PRIu64 "\n", zonefs_volume_refusal_text(a.number), expected);
    exit(1);
  }
}

static struct zonefs_volume_answer append(uint32_t file, uint64_t offset, uint64_t length) {
  return zonefs_volume_write(&volume, ZONEFS_SEQ, file, offset, length);
}

/* The disk did what the file has outstanding. A controller keeps the file's number with the command, to name it here. */
static struct zonefs_volume_answer done(uint32_t file) {
  return zonefs_volume_complete(&volume, ZONEFS_SEQ, file);
}

/* The disk failed what the file has outstanding, and this is the record of a sequential zone. */
static struct zonefs_volume_answer failed(uint32_t file, unsigned zone, uint64_t pointer) {
  uint8_t record[ZONEFS_ZONE_BYTES];
  make_zone(record, (uint64_t)zone * ZONE_SECTORS, 2, 2, CAPACITY_SECTORS, pointer);
  return zonefs_volume_fail(&volume, ZONEFS_SEQ, file, record, sizeof(record), ZONEFS_CAPACITY_GIVEN);
}

static uint64_t size_now(const char *what, uint32_t file) {
  struct zonefs_volume_answer shown = zonefs_volume_show(&volume, ZONEFS_SEQ, file);
  step(what, shown, ZONEFS_OK);
  return shown.size;
}

/* The file of the full zone has its whole capacity. */
static void show_full_file(void) {
  struct zonefs_volume_answer shown = zonefs_volume_show(&volume, ZONEFS_SEQ, 1);
  step("show seq/1, which is full", shown, ZONEFS_OK);
  if (shown.size != shown.capacity) {
    printf("the file should be as long as its capacity\n");
    exit(1);
  }
}

/*
 * A super block with no feature: owner and group 0, mode 0640. The report's first record is that of zone 0, which is conventional and so not to be
 * finished. A disk would get the block as its first bytes.
 */
static void format_disk(void) {
  static const struct zonefs_volume_super values = {"firmware", 8, {0}, 0, 0, 0, 0};
  step("format",
       zonefs_volume_format(BLOCK, super_block, ZONEFS_SUPER_BYTES, &values, report + ZONEFS_HEADER_BYTES, ZONEFS_ZONE_BYTES,
                            ZONEFS_CAPACITY_GIVEN),
       ZONEFS_OK);
}

/*
 * Lends the tables to the volume, and mounts it from the disk's first bytes and its report. The first sequential zone has a block, and the second is
 * full. A full zone has no pointer: what the disk leaves in that field, here 0, is passed on too. Files are written without being opened first, and
 * so there are no limits.
 */
static void mount_volume(void) {
  make_report(3ull * ZONE_SECTORS + BLOCK / SECTOR, 14, 0);
  format_disk();
  zonefs_volume_lend(&volume, cnv, ROWS * ZONEFS_ROW_WORDS, seq, ROWS * ZONEFS_ROW_WORDS);
  step("mount",
       zonefs_volume_mount(&volume, BLOCK, super_block, sizeof(super_block), "errors=repair", report, sizeof(report), 0, 0),
       ZONEFS_OK);
}

/*
 * Each file may have a command of its own outstanding, and the disk may be done with them in any order: seq/1 is reset and written again while an
 * append to seq/0 is still under way. Only the file that has one outstanding takes no other.
 */
static void keep_two_files_busy(uint64_t size) {
  step("append 8192 to seq/0", append(0, size, 8192), ZONEFS_OK);
  step("reset seq/1 in the meantime", zonefs_volume_truncate(&volume, ZONEFS_SEQ, 1, 0), ZONEFS_OK);
  step("append to seq/0, which is busy", append(0, size, 8192), ZONEFS_BUSY);
  step("seq/1's reset is done", done(1), ZONEFS_OK);
  step("append 4096 to seq/1", append(1, 0, 4096), ZONEFS_OK);
  step("seq/0's append is done", done(0), ZONEFS_OK);
  step("seq/0 has nothing outstanding", done(0), ZONEFS_NOTHING_OUTSTANDING);
  step("seq/1's append is done", done(1), ZONEFS_OK);
  if (size_now("show seq/0", 0) != 12288 || size_now("show seq/1", 1) != 4096) {
    printf("the files should have three blocks and one\n");
    exit(1);
  }
}

/* Of two blocks only one lands: the zone's record has the pointer behind it, and that of another zone is refused. */
static void fail_halfway(uint64_t size) {
  step("append 8192 to seq/0", append(0, size, 8192), ZONEFS_OK);
  step("it failed, with zone 4's record", failed(0, 4, 4ull * ZONE_SECTORS + BLOCK / SECTOR), ZONEFS_BAD_RECORD);
  step("the disk failed halfway", failed(0, 3, 3ull * ZONE_SECTORS + (size + BLOCK) / SECTOR), ZONEFS_FAILED);
}

/* Prints how many files the account has, and stops the program if they aren't as many as expected. */
static void count(const char *what, uint64_t open, uint64_t active) {
  const uint64_t *account = volume.account;
  printf("%-34s %2" PRIu64 " open, %" PRIu64 " active\n", what, account[ZONEFS_ACCOUNT_OPEN], account[ZONEFS_ACCOUNT_ACTIVE]);
  if (account[ZONEFS_ACCOUNT_OPEN] != open || account[ZONEFS_ACCOUNT_ACTIVE] != active) {
    printf("expected %" PRIu64 " and %" PRIu64 "\n", open, active);
    exit(1);
  }
}

static struct zonefs_volume_answer open_file(uint32_t file) {
  return zonefs_volume_open(&volume, ZONEFS_SEQ, file);
}

static struct zonefs_volume_answer close_file(uint32_t file) {
  return zonefs_volume_close(&volume, ZONEFS_SEQ, file);
}

/*
 * The disk as it is now, mounted with explicit-open, in the memory that the first mount had. Both files are active, as both have something in them and
 * are not full.
 */
static void mount_to_open(uint64_t size) {
  make_report(3ull * ZONE_SECTORS + size / SECTOR, 2, 4ull * ZONE_SECTORS + BLOCK / SECTOR);
  step("mount with explicit-open",
       zonefs_volume_mount(&volume, BLOCK, super_block, sizeof(super_block), "errors=repair,explicit-open", report, sizeof(report),
                           OPEN_LIMIT, ACTIVE_LIMIT),
       ZONEFS_OK);
  count("after the mount", 0, 2);
}

/*
 * The first open of a file and its last close are commands for the disk, which opens and closes the zone; those between only count. Nothing is
 * written to a file that isn't open, and no second one is opened where the disk can have one zone open.
 */
static void open_by_hand(uint64_t size) {
  step("append to seq/0, which is not open", append(0, size, 4096), ZONEFS_NOT_OPEN);
  step("open seq/0", open_file(0), ZONEFS_OK);
  step("seq/0's open is done", done(0), ZONEFS_OK);
  step("open seq/0 for a second writer", open_file(0), ZONEFS_OK);
  step("open seq/1, above the limit", open_file(1), ZONEFS_OPEN_LIMIT);
  count("with seq/0 open twice", 1, 2);
  step("append 4096 to seq/0", append(0, size, 4096), ZONEFS_OK);
  step("seq/0's append is done", done(0), ZONEFS_OK);
  step("close seq/0", close_file(0), ZONEFS_OK);
  step("close seq/0, the last time", close_file(0), ZONEFS_OK);
  step("seq/0's close is done", done(0), ZONEFS_OK);
  step("close seq/0, which is not open", close_file(0), ZONEFS_NOT_OPEN);
  step("open seq/1", open_file(1), ZONEFS_OK);
  step("the disk failed to open it", failed(1, 4, 4ull * ZONE_SECTORS + BLOCK / SECTOR), ZONEFS_FAILED);
  count("after a failed open", 0, 2);
}

int main(void) {
  uint64_t size;

  mount_volume();
  show_full_file();
  step("find seq/0", zonefs_volume_find(&volume, "seq/0"), ZONEFS_OK);
  size = size_now("show seq/0", 0);

  /* each answer has the command for the disk: here it does them */
  keep_two_files_busy(size);
  size += 8192;
  fail_halfway(size);

  /* the size is what is on the disk, so the rest is appended there */
  step("append where it had been", append(0, size, 4096), ZONEFS_MISPLACED);
  size = size_now("show seq/0", 0);
  step("append 4096 to seq/0", append(0, size, 4096), ZONEFS_OK);
  step("seq/0's append is done", done(0), ZONEFS_OK);
  size = size_now("show seq/0", 0);
  if (size != 20480) {
    printf("the file should have five blocks\n");
    return 1;
  }
  printf("recovered\n");

  mount_to_open(size);
  open_by_hand(size);
  printf("closed\n");
  return 0;
}
