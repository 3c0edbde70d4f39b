/*
 * A small program on the proved library: mounts a device of 65,536 zones whose zone report comes in pieces, 4,096 zones at a time, as BLKREPORTZONE of
 * Linux gives it where the buffer has room for so many. So the whole report, 4 MiB, is never in memory. Then it shows what becomes of a report with a
 * bad zone, and of one that ends too early.
 * The device is played by this program, which makes up the zones, so that it runs anywhere. It prints each step, and ends with status 1 where a step
 * answers otherwise than it should. Build and run: docs/LINKING.md.
 */
#include <inttypes.h>
#include <stdio.h>
#include <stdlib.h>
#include <string.h>

#include "zonefs_volume.h"

#define BLOCK 4096u
#define ZONES 65536u
#define CNV_ZONES 6144u /* zones 0 to 6143 are conventional, the others sequential */
#define ZONE_SECTORS 524288u
#define CAPACITY_SECTORS 393216u /* of a sequential zone */
#define AT_A_TIME 4096u          /* zones in a piece */

/*
 * As many rows as this device has files of each kind. Each sequential zone is a file; the conventional ones are one, as the super block says that they
 * are aggregated. Where a program doesn't know its device before, ZONEFS_MOST_FILES rows of each kind are enough.
 */
#define CNV_FILES 1u
#define SEQ_FILES (ZONES - CNV_ZONES)

static uint64_t cnv[CNV_FILES * ZONEFS_ROW_WORDS];
static uint64_t seq[SEQ_FILES * ZONEFS_ROW_WORDS];
static struct zonefs_volume volume;
static struct zonefs_volume_pieces pieces; /* not needed any more once the volume is mounted */

static uint8_t super_block[ZONEFS_SUPER_BYTES];
static uint8_t zones[AT_A_TIME * ZONEFS_ZONE_BYTES];

static uint32_t bad_zone = ZONES; /* a zone that the device reports with a bad pointer; there is no zone of this number */

static void put(uint8_t *bytes, uint64_t value, unsigned count) {
  unsigned i;
  for (i = 0; i < count; i++)
    bytes[i] = (uint8_t)(value >> (8 * i));
}

/* A zone record. Types: 1 conventional, 2 sequential. Conditions: 0 has no pointer, 1 empty, 4 closed, 14 full. */
static void make_zone(uint8_t *record, uint32_t zone, unsigned type, unsigned condition, uint64_t capacity, uint64_t written) {
  uint64_t start = (uint64_t)zone * ZONE_SECTORS;
  memset(record, 0, ZONEFS_ZONE_BYTES);
  put(record + ZONEFS_RECORD_START, start, 8);
  put(record + ZONEFS_RECORD_LENGTH, ZONE_SECTORS, 8);
  put(record + ZONEFS_RECORD_POINTER, start + written, 8);
  record[ZONEFS_RECORD_TYPE] = (uint8_t)type;
  record[ZONEFS_RECORD_CONDITION] = (uint8_t)condition;
  put(record + ZONEFS_RECORD_CAPACITY, capacity, 8);
}

/* The zone as the device has it: of the sequential ones the first is full and the last has a block, and all others are empty. */
static void report_zone(uint8_t *record, uint32_t zone) {
  if (zone < CNV_ZONES)
    make_zone(record, zone, 1, 0, ZONE_SECTORS, 0);
  else if (zone == bad_zone)
    make_zone(record, zone, 2, 4, CAPACITY_SECTORS, 1); /* one sector behind the start, which is on no block of 4,096 bytes */
  else if (zone == CNV_ZONES)
    make_zone(record, zone, 2, 14, CAPACITY_SECTORS, 0);
  else if (zone == ZONES - 1)
    make_zone(record, zone, 2, 4, CAPACITY_SECTORS, BLOCK / 512);
  else
    make_zone(record, zone, 2, 1, CAPACITY_SECTORS, 0);
}

/*
 * The device's next zones, from one on, into the buffer. Gives the number of their bytes. On Linux, with a buffer for struct blk_zone_report *rep and
 * room for AT_A_TIME zones behind it, that is
 *
 *   rep->sector = sector;                                       at first 0, then where the last zone that was given ends
 *   rep->nr_zones = AT_A_TIME;
 *   ioctl(device, BLKREPORTZONE, rep);                          sets rep->nr_zones to how many it gives, 0 behind the last
 *
 * and the piece is rep->zones, with rep->nr_zones * sizeof(struct blk_zone) bytes. Any number of zones will do: pieces need not be of one length.
 */
static size_t report_zones(uint32_t first) {
  uint32_t i, count = ZONES - first < AT_A_TIME ? ZONES - first : AT_A_TIME;
  for (i = 0; i < count; i++)
    report_zone(zones + (size_t)i * ZONEFS_ZONE_BYTES, first + i);
  return (size_t)count * ZONEFS_ZONE_BYTES;
}

/* ---- printing */

static void print_values(struct zonefs_volume_answer a) {
  if (a.outcome == ZONEFS_VOLUME_MOUNTED)
    printf(" %" PRIu32 " %" PRIu32, a.cnv_files, a.seq_files);
  else if (a.outcome == ZONEFS_VOLUME_FORMATTED)
    printf(" %" PRIu32, a.finish);
  else if (a.outcome == ZONEFS_VOLUME_SHOWN)
    printf(" %" PRIu64 " %" PRIu64 " %" PRIu64 " %" PRIu32 " %" PRIu32 " %" PRIu32, a.start, a.capacity, a.size, a.condition, a.access,
           a.mode);
  else if (a.number == ZONEFS_BAD_ZONE)
    printf(" zone %" PRIu32 ": reason %" PRIu32 ", %s", a.zone, a.reason, zonefs_volume_reason_text(a.reason));
}

/* Prints a step, and stops the program if its number isn't the one expected. */
static void step(const char *what, struct zonefs_volume_answer a, uint64_t expected) {
  printf("%-26s %2" PRIu64 ":", what, a.number);
  print_values(a);
  printf("\n");
  if (a.number != expected) {
    printf("%s; expected %" PRIu64 "\n", zonefs_volume_refusal_text(a.number), expected);
    exit(1);
  }
}

static void show(const char *what, uint32_t kind, uint32_t number, uint64_t expected) {
  step(what, zonefs_volume_show(&volume, kind, number), expected);
}

/* ---- the mount in pieces */

/* A super block with aggregated conventional zones, which a device would have as its first bytes. */
static void format_device(void) {
  static const struct zonefs_volume_super values = {"pieces", 6, {0}, ZONEFS_FEATURE_AGGREGATE, 0, 0, 0};
  report_zones(0);
  step("format",
       zonefs_volume_format(BLOCK, super_block, sizeof(super_block), &values, zones, ZONEFS_ZONE_BYTES, ZONEFS_CAPACITY_GIVEN),
       ZONEFS_OK);
}

/*
 * Begins, and hands over the header: 16 bytes, as a piece of their own. Each BLKREPORTZONE gives a header again, with the count of that call, but the
 * library is handed one header alone, with the count of all zones. So the program makes it: sector 0, the device's number of zones (BLKGETNRZONES), and
 * the flag that says whether the records have capacities (flags & BLK_ZONE_REP_CAPACITY of the first call). None of the others goes to the library.
 */
static void begin_mount(void) {
  uint8_t header[ZONEFS_HEADER_BYTES] = {0};
  memset(cnv, 0, sizeof(cnv)); /* only so that it shows which rows are stored */
  memset(seq, 0, sizeof(seq));
  zonefs_volume_lend(&volume, cnv, CNV_FILES * ZONEFS_ROW_WORDS, seq, SEQ_FILES * ZONEFS_ROW_WORDS);
  step("begin", zonefs_volume_begin(&pieces, BLOCK, super_block, sizeof(super_block), "errors=repair", 0, 0), ZONEFS_OK);
  put(header + ZONEFS_REPORT_COUNT, ZONES, 4);
  put(header + ZONEFS_REPORT_FLAGS, ZONEFS_CAPACITY_GIVEN, 4);
  step("the header", zonefs_volume_piece(&pieces, &volume, header, sizeof(header)), ZONEFS_OK);
}

/* The zones from this one on are the next piece. */
static void take_zones(uint32_t first, uint64_t expected) {
  char what[40];
  size_t bytes = report_zones(first);
  uint32_t last = first + (uint32_t)(bytes / ZONEFS_ZONE_BYTES) - 1;
  snprintf(what, sizeof(what), "zones %" PRIu32 " to %" PRIu32, first, last);
  step(what, zonefs_volume_piece(&pieces, &volume, zones, bytes), expected);
}

/* The conventional file's zones come in two pieces, and its row is stored with the first zone that is none of them. */
static void mount_device(void) {
  uint32_t first;
  begin_mount();
  for (first = 0; first < ZONES; first += AT_A_TIME)
    take_zones(first, ZONEFS_OK);
  step("end", zonefs_volume_end(&pieces, &volume), ZONEFS_OK);
  show("show cnv/0", ZONEFS_CNV, 0, ZONEFS_OK);
  show("show seq/0, full", ZONEFS_SEQ, 0, ZONEFS_OK);
  show("show seq/59391, the last", ZONEFS_SEQ, 59391, ZONEFS_OK);
}

/* How many rows of a table are stored: no file has the capacity 0. */
static unsigned stored(const uint64_t *table, size_t rows) {
  unsigned count = 0;
  size_t row;
  for (row = 0; row < rows; row++)
    count += table[row * ZONEFS_ROW_WORDS + ZONEFS_ROW_CAPACITY] != 0;
  return count;
}

static void print_stored(void) {
  printf("rows stored: %u of cnv, %u of seq\n", stored(cnv, CNV_FILES), stored(seq, SEQ_FILES));
}

/*
 * A bad zone is refused with the piece that has its last byte. Files that were finished before it have their rows, but there is no mount, and
 * nothing more is taken: what comes afterwards is refused alike.
 */
static void meet_bad_zone(void) {
  bad_zone = 10000;
  begin_mount();
  take_zones(0, ZONEFS_OK);
  take_zones(4096, ZONEFS_OK);
  take_zones(8192, ZONEFS_BAD_ZONE);
  take_zones(12288, ZONEFS_BAD_ZONE);
  step("end", zonefs_volume_end(&pieces, &volume), ZONEFS_BAD_ZONE);
  show("show seq/0", ZONEFS_SEQ, 0, ZONEFS_IMPOSSIBLE);
  print_stored();
  bad_zone = ZONES;
}

/* Where zones are missing, the end is refused, and then the mount is over: also the missing zones are not taken any more. */
static void end_too_early(void) {
  begin_mount();
  take_zones(0, ZONEFS_OK);
  take_zones(4096, ZONEFS_OK);
  step("end, too early", zonefs_volume_end(&pieces, &volume), ZONEFS_BAD_REPORT);
  take_zones(8192, ZONEFS_BAD_REPORT);
  step("end", zonefs_volume_end(&pieces, &volume), ZONEFS_BAD_REPORT);
  print_stored();
}

int main(void) {
  format_device();
  mount_device();
  printf("mounted\n");
  meet_bad_zone();
  printf("a bad zone\n");
  end_too_early();
  printf("too few zones\n");
  return 0;
}
