/*
 * mkzonefs: formats a zoned disk for zonefs. The proved library decides: zonefs_format checks the values and zone 0's record, makes the super
 * block, and says whether zone 0 must be finished. This program reads the arguments, gets the record, and writes the block.
 * Its help text (--help) says what it does to a device and to a file. Build and run: examples/README.md.
 */
#define _GNU_SOURCE /* O_DIRECT */
#include <errno.h>
#include <fcntl.h>
#include <getopt.h>
#include <inttypes.h>
#include <stdarg.h>
#include <stdbool.h>
#include <stdio.h>
#include <string.h>
#include <sys/stat.h>
#include <unistd.h>

/* Zoned devices are Linux's. Without its header, or where MKZONEFS_FILES_ONLY is defined, only files can be formatted. */
#if defined(__has_include) && !defined(MKZONEFS_FILES_ONLY)
#if __has_include(<linux/blkzoned.h>)
#define HAS_DEVICES
#include <linux/blkzoned.h>
#include <linux/fs.h>
#include <sys/ioctl.h>
#endif
#endif

#include "zonefs_volume.h"

#define SECTOR 512u
#define FILE_BLOCK 4096u          /* the block of a file, where none is given */
#define FILE_ZONE_SECTORS 524288u /* the length of the zone 0 that a file is taken to have */
#define UUID_TEXT 36              /* the characters of a uuid with its hyphens */

/* What the arguments ask for. */
struct request {
  const char *target;
  const char *label;
  uint8_t uuid[ZONEFS_UUID_BYTES];
  bool has_uuid;
  uint64_t features;
  uint32_t owner;
  uint32_t group;
  uint32_t mode;
  uint32_t block;
  bool has_block;
  const char *record_file; /* null where none is given */
  bool without_capacity;
  bool finish;
  bool help;
};

/* The record of zone 0, as the library takes it. */
struct zone {
  uint8_t record[ZONEFS_ZONE_BYTES + 1]; /* one byte more than a record has, so that a longer file shows */
  size_t bytes;
  uint32_t capacity_given;
};

/* What the library makes and the target gets. A device that is written to past the cache wants it aligned. */
static uint8_t super_block[ZONEFS_SUPER_BYTES] __attribute__((aligned(ZONEFS_SUPER_BYTES)));

static const char usage[] =
    "usage: mkzonefs [-o FEATURES] [-L LABEL] [-U UUID] [-b BLOCK] [--zone FILE [--no-capacity]] [--finish] DEVICE-OR-FILE\n";

static const char option_help[] =
    "Writes a zonefs super block to the first 4,096 bytes of a zoned block device or of a regular file.\n"
    "\n"
    "  -o FEATURES    joined by commas; -o may be repeated, and of a value given twice the last counts\n"
    "                   aggr_cnv    each run of neighbouring conventional zones is one file; otherwise each zone\n"
    "                   uid=N       the owner of the files, decimal, at most 4294967294; otherwise 0\n"
    "                   gid=N       their group, likewise\n"
    "                   perm=OCTAL  their permissions, octal, at most 777; otherwise 640\n"
    "  -L LABEL       at most 64 bytes; otherwise empty\n"
    "  -U UUID        32 hexadecimal digits, with hyphens (8-4-4-4-12) or without; otherwise a random one\n"
    "  -b BLOCK       512 or 4096. Zone 0's record is checked by it, and it is not written anywhere. Otherwise it is a device's\n"
    "                 physical block size, as writes to sequential zones have to be whole physical blocks, and 4096 for a file\n"
    "  --zone FILE    for a regular file: zone 0's record, the 64 bytes of a struct blk_zone; otherwise zone 0 is conventional\n"
    "  --no-capacity  the record of --zone states no capacity, so that it is the length\n"
    "  --finish       a sequential zone 0 may be reset and finished\n"
    "  -h, --help     print this text\n";

static const char target_help[] =
    "\n"
    "A device has to be zoned and not in use. What is done depends on its zone 0; no other zone is touched:\n"
    "  conventional   the super block is written over the first 4,096 bytes\n"
    "  sequential     nothing may be written behind the super block, and most take it at their start alone. With --finish the\n"
    "                 zone is reset, WHICH DROPS ALL THAT IT HOLDS, then the super block is written, then it is finished.\n"
    "                 Without --finish nothing is done\n"
    "  read-only or offline, or of less than 4,096 bytes   nothing is done, as it takes no super block\n"
    "\n"
    "A file has to be there: none is made, so that the mistyped name of a device doesn't become one. A shorter file grows to\n"
    "4,096 bytes, a longer one keeps what comes after them. A file has nothing to finish; but where the record of --zone says\n"
    "that zone 0 must be finished, --finish is needed as on a device.\n"
    "\n"
    "The exit status is 0 if all of this was done, 1 if something was refused or failed, 2 for wrong arguments. After a refusal\n"
    "or wrong arguments nothing was written.\n";

/* A number that the arguments may have: its name in a message, the base of its digits, and what is possible. */
struct number {
  const char *name;
  unsigned base;
  const char *possible;
};

static const struct number owner_number = {"-o uid=", 10, "0 to 4294967294, in decimal digits"};
static const struct number group_number = {"-o gid=", 10, "0 to 4294967294, in decimal digits"};
static const struct number mode_number = {"-o perm=", 8, "0 to 777, in octal digits"};
static const struct number block_number = {"-b", 10, "512 or 4096"};

/* ---- messages */

/* Says on standard error what is wrong. False, so that a caller can return it. */
__attribute__((format(printf, 1, 2))) static bool wrong(const char *format, ...) {
  va_list values;
  fputs("mkzonefs: ", stderr);
  va_start(values, format);
  vfprintf(stderr, format, values);
  va_end(values);
  fputc('\n', stderr);
  return false;
}

static bool wrong_owner(const struct request *request) {
  bool owner = (request->features & ZONEFS_FEATURE_UID) != 0 && request->owner == UINT32_MAX;
  const struct number *number = owner ? &owner_number : &group_number;
  return wrong("refused with 25: %s%" PRIu32 "; possible: %s", number->name, UINT32_MAX, number->possible);
}

/* Names the value that the library refused. */
static bool refused(const struct request *request, uint64_t block, uint64_t number, const uint64_t *answer) {
  uint64_t reason = answer[ZONEFS_ANSWER_ZONE_REASON];
  switch (number) {
  case ZONEFS_BAD_BLOCK: return wrong("refused with 20: a block of %" PRIu64 " bytes; possible (-b): %s", block, block_number.possible);
  case ZONEFS_SUPER_OWNER: return wrong_owner(request);
  case ZONEFS_SUPER_PERM: return wrong("refused with 33: %s%" PRIo32 "; possible: %s", mode_number.name, request->mode, mode_number.possible);
  case ZONEFS_LABEL_LENGTH:
    return wrong("refused with 34: a label of %zu bytes; possible (-L): at most %d", strlen(request->label), ZONEFS_LABEL_BYTES);
  case ZONEFS_BAD_ZONE:
    return wrong("refused with 29: %s: bad record of zone 0, for blocks of %" PRIu64 " bytes: %s (reason %" PRIu64 ")",
                 request->record_file ? request->record_file : request->target, block, zonefs_volume_reason_text(reason), reason);
  default: return wrong("refused with %" PRIu64 ": %s", number, zonefs_volume_refusal_text(number));
  }
}

static bool must_be_finished(const char *name) {
  return wrong("%s: zone 0 is sequential and not full: it must be finished, so that nothing is written behind the super block. "
               "Nothing was written; --finish allows it",
               name);
}

/* ---- arguments */

static bool wrong_number(const struct number *number, const char *text, size_t length, const char *what) {
  return wrong("%s: '%.*s' %s; possible: %s", number->name, (int)length, text, what, number->possible);
}

/* Reads a number of 32 bits. All of the text has to be its digits; the library checks the rest. */
static bool read_number(const struct number *number, const char *text, size_t length, uint32_t *value) {
  uint64_t sum = 0;
  size_t i;
  for (i = 0; i < length; i++) {
    unsigned digit = (unsigned)text[i] - '0';
    if (digit >= number->base)
      return wrong_number(number, text, length, "is not a number");
    sum = sum * number->base + digit;
    if (sum > UINT32_MAX)
      return wrong_number(number, text, length, "has more than 32 bits");
  }
  if (length == 0)
    return wrong_number(number, text, length, "is not a number");
  *value = (uint32_t)sum;
  return true;
}

/* One piece of -o. */
static bool read_feature(const char *piece, size_t length, struct request *request) {
  const struct {
    const struct number *number;
    uint64_t feature;
    uint32_t *value;
  } numbers[] = {{&owner_number, ZONEFS_FEATURE_UID, &request->owner},
                 {&group_number, ZONEFS_FEATURE_GID, &request->group},
                 {&mode_number, ZONEFS_FEATURE_PERM, &request->mode}};
  static const char aggregate[] = "aggr_cnv";
  size_t i;
  for (i = 0; i < sizeof(numbers) / sizeof(numbers[0]); i++) {
    const char *key = numbers[i].number->name + strlen("-o ");
    size_t key_length = strlen(key);
    if (length < key_length || memcmp(piece, key, key_length) != 0)
      continue;
    request->features |= numbers[i].feature;
    return read_number(numbers[i].number, piece + key_length, length - key_length, numbers[i].value);
  }
  if (length != strlen(aggregate) || memcmp(piece, aggregate, length) != 0)
    return wrong("-o: '%.*s' is not known; possible: aggr_cnv, uid=N, gid=N, perm=OCTAL", (int)length, piece);
  request->features |= ZONEFS_FEATURE_AGGREGATE;
  return true;
}

static bool read_features(const char *text, struct request *request) {
  for (;;) {
    size_t length = strcspn(text, ",");
    if (!read_feature(text, length, request))
      return false;
    if (text[length] == '\0')
      return true;
    text += length + 1;
  }
}

/* The value of a hexadecimal digit, or 16. */
static unsigned digit_value(char digit) {
  static const char digits[] = "0123456789abcdef0123456789ABCDEF";
  const char *found = digit == '\0' ? NULL : strchr(digits, digit);
  return found ? (unsigned)(found - digits) % 16 : 16;
}

static bool is_hyphen_place(size_t place) { return place == 8 || place == 13 || place == 18 || place == 23; }

/* The bytes of a uuid stand in the order of its digits. */
static bool read_uuid(const char *text, struct request *request) {
  bool hyphens = strlen(text) == UUID_TEXT;
  size_t digits = 0, i;
  for (i = 0; text[i] != '\0'; i++) {
    unsigned value = digit_value(text[i]);
    if (hyphens && is_hyphen_place(i) && text[i] == '-')
      continue;
    if (value == 16 || digits == 2 * ZONEFS_UUID_BYTES)
      break;
    request->uuid[digits / 2] = (uint8_t)(request->uuid[digits / 2] << 4 | value);
    digits++;
  }
  if (text[i] != '\0' || digits != 2 * ZONEFS_UUID_BYTES)
    return wrong("-U: '%s' is no uuid; give 32 hexadecimal digits, with hyphens (8-4-4-4-12) or without", text);
  request->has_uuid = true;
  return true;
}

enum { OPTION_ZONE = 256, OPTION_NO_CAPACITY, OPTION_FINISH };

/* The option that getopt stopped at, as it was given: a short one may stand among others in one argument. */
static const char *stopped_at(char **argv) {
  static char option[] = "-?";
  option[1] = (char)optopt;
  return optopt > 0 && optopt < OPTION_ZONE ? option : argv[optind - 1];
}

/* One option with its value. The last two cases are getopt's. */
static bool read_option(int option, char **argv, struct request *request) {
  switch (option) {
  case 'o': return read_features(optarg, request);
  case 'L': request->label = optarg; return true;
  case 'U': return read_uuid(optarg, request);
  case 'b': request->has_block = true; return read_number(&block_number, optarg, strlen(optarg), &request->block);
  case OPTION_ZONE: request->record_file = optarg; return true;
  case OPTION_NO_CAPACITY: request->without_capacity = true; return true;
  case OPTION_FINISH: request->finish = true; return true;
  case 'h': request->help = true; return true;
  case ':': return wrong("%s needs a value", stopped_at(argv));
  default: return wrong("'%s' is no option, or one that takes no value", stopped_at(argv));
  }
}

static bool read_arguments(int argc, char **argv, struct request *request) {
  static const struct option names[] = {{"zone", required_argument, NULL, OPTION_ZONE},
                                        {"no-capacity", no_argument, NULL, OPTION_NO_CAPACITY},
                                        {"finish", no_argument, NULL, OPTION_FINISH},
                                        {"help", no_argument, NULL, 'h'},
                                        {NULL, 0, NULL, 0}};
  int option;
  opterr = 0; /* the messages are this program's own */
  while (!request->help && (option = getopt_long(argc, argv, ":o:L:U:b:h", names, NULL)) != -1)
    if (!read_option(option, argv, request))
      return false;
  if (request->help)
    return true;
  if (argc - optind != 1)
    return wrong("%d devices or files are named; name one", argc - optind);
  request->target = argv[optind];
  if (request->without_capacity && !request->record_file)
    return wrong("--no-capacity is about the record of --zone, and there is none");
  return true;
}

/* ---- the super block */

/* A random uuid of version 4. */
static bool draw_uuid(uint8_t *uuid) {
  int source = open("/dev/urandom", O_RDONLY);
  bool drawn = source >= 0 && read(source, uuid, ZONEFS_UUID_BYTES) == ZONEFS_UUID_BYTES;
  if (source >= 0)
    close(source);
  if (!drawn)
    return wrong("/dev/urandom gives no random uuid; give one with -U");
  uuid[6] = (uint8_t)((uuid[6] & 0x0F) | 0x40);
  uuid[8] = (uint8_t)((uuid[8] & 0x3F) | 0x80);
  return true;
}

/* Has the library make the super block, and say whether zone 0 must be finished. */
static bool make_super_block(const struct request *request, const struct zone *zone, uint64_t block, bool *must_finish) {
  uint64_t answer[ZONEFS_ANSWER_WORDS] = {0};
  uint64_t number = zonefs_format(block, super_block, sizeof(super_block), (const uint8_t *)request->label, strlen(request->label),
                                  request->uuid, sizeof(request->uuid), request->features, request->owner, request->group,
                                  request->mode, zone->record, zone->bytes, zone->capacity_given, answer, ZONEFS_ANSWER_WORDS);
  if (number != ZONEFS_OK)
    return refused(request, block, number, answer);
  *must_finish = answer[ZONEFS_ANSWER_FINISH] != 0;
  return true;
}

/* Is there room in zone 0? The library takes any whole blocks; with blocks of 512 bytes that can be less than a super block has. */
static bool has_room(const char *name, const struct zone *zone) {
  const uint8_t *field = zone->record + (zone->capacity_given ? ZONEFS_RECORD_CAPACITY : ZONEFS_RECORD_LENGTH);
  uint64_t sectors = 0;
  unsigned i;
  for (i = 8; i > 0; i--)
    sectors = sectors << 8 | field[i - 1];
  if (sectors < ZONEFS_SUPER_BYTES / SECTOR)
    return wrong("%s: zone 0 has %" PRIu64 " bytes, and a super block %d. Nothing was written", name, sectors * SECTOR, ZONEFS_SUPER_BYTES);
  return true;
}

/* Writes the super block to the front of the target, all of it, and waits until it is there. A write may come out short. */
static bool write_super_block(int target, const char *name) {
  size_t done = 0;
  while (done < sizeof(super_block)) {
    ssize_t count = pwrite(target, super_block + done, sizeof(super_block) - done, (off_t)done);
    if (count < 0 && errno == EINTR)
      continue;
    if (count <= 0)
      return wrong("%s: %zu of %zu bytes were written: %s", name, done, sizeof(super_block), count == 0 ? "no more are taken" : strerror(errno));
    done += (size_t)count;
  }
  if (fsync(target) != 0)
    return wrong("%s: the super block was written, but may not be durable: %s", name, strerror(errno));
  return true;
}

/* Closes the target, which may bring up an error of a write that seemed good. */
static bool close_target(int target, const char *name, bool good) {
  if (close(target) != 0 && good)
    return wrong("%s: the super block was written, but closing failed: %s", name, strerror(errno));
  return good;
}

static void say_written(const struct request *request) {
  size_t i;
  printf("%s: super block written, uuid ", request->target);
  for (i = 0; i < sizeof(request->uuid); i++)
    printf("%s%02x", i == 4 || i == 6 || i == 8 || i == 10 ? "-" : "", request->uuid[i]);
  printf("\n");
}

/* ---- files */

static void put(uint8_t *bytes, uint64_t value, unsigned count) {
  unsigned i;
  for (i = 0; i < count; i++)
    bytes[i] = (uint8_t)(value >> (8 * i));
}

/* The zone 0 that a file is taken to have: conventional, with nothing to find fault with. */
static void make_record(struct zone *zone) {
  memset(zone, 0, sizeof(*zone));
  put(zone->record + ZONEFS_RECORD_LENGTH, FILE_ZONE_SECTORS, 8);
  put(zone->record + ZONEFS_RECORD_CAPACITY, FILE_ZONE_SECTORS, 8);
  zone->record[ZONEFS_RECORD_TYPE] = 1;
  zone->bytes = ZONEFS_ZONE_BYTES;
  zone->capacity_given = ZONEFS_CAPACITY_GIVEN;
}

/* Reads a record with whatever length it has: the library refuses another than 64 bytes. */
static bool read_record(const char *name, struct zone *zone) {
  FILE *file = fopen(name, "rb");
  bool good;
  if (!file)
    return wrong("--zone %s: %s", name, strerror(errno));
  zone->bytes = fread(zone->record, 1, sizeof(zone->record), file);
  good = !ferror(file);
  if (!good)
    wrong("--zone %s: %s", name, strerror(errno));
  fclose(file);
  return good;
}

static bool file_zone(const struct request *request, struct zone *zone) {
  make_record(zone);
  if (request->without_capacity)
    zone->capacity_given = 0;
  return !request->record_file || read_record(request->record_file, zone);
}

static bool format_file(const struct request *request) {
  struct zone zone;
  bool must_finish = false;
  int file;
  if (!file_zone(request, &zone) || !make_super_block(request, &zone, request->has_block ? request->block : FILE_BLOCK, &must_finish) ||
      !has_room(request->target, &zone))
    return false;
  if (must_finish && !request->finish)
    return must_be_finished(request->target);
  if (request->finish)
    printf("%s: a file has nothing to finish\n", request->target);
  file = open(request->target, O_WRONLY);
  if (file < 0)
    return wrong("%s: %s", request->target, strerror(errno));
  return close_target(file, request->target, write_super_block(file, request->target));
}

/* ---- devices */

#ifdef HAS_DEVICES

/* Zone 0 as the device reports it. */
static bool device_zone(int device, const char *name, struct zone *zone) {
  union {
    struct blk_zone_report header;
    uint8_t bytes[ZONEFS_HEADER_BYTES + ZONEFS_ZONE_BYTES];
  } report;
  memset(&report, 0, sizeof(report));
  report.header.nr_zones = 1;
  if (ioctl(device, BLKREPORTZONE, &report.header) != 0)
    return errno == ENOTTY ? wrong("%s is a block device without zones; zonefs is for zoned ones", name)
                           : wrong("%s: it reports no zones: %s", name, strerror(errno));
  if (report.header.nr_zones != 1)
    return wrong("%s: it reports no zone at sector 0", name);
  memcpy(zone->record, report.bytes + ZONEFS_HEADER_BYTES, ZONEFS_ZONE_BYTES);
  zone->bytes = ZONEFS_ZONE_BYTES;
  zone->capacity_given = report.header.flags & ZONEFS_CAPACITY_GIVEN;
  return true;
}

/*
 * The block that is asked for, or the device's physical one. A host-managed disk takes writes to sequential zones in physical blocks only, also
 * where it has logical ones of 512 bytes.
 */
static bool device_block(int device, const struct request *request, uint64_t *block) {
  unsigned physical;
  if (!request->has_block && ioctl(device, BLKPBSZGET, &physical) != 0)
    return wrong("%s: no physical block size: %s; give a block with -b", request->target, strerror(errno));
  *block = request->has_block ? request->block : physical;
  return true;
}

/* May zone 0 be written, with what that does to it? */
static bool may_write_zone(const struct request *request, const struct blk_zone *zone, bool must_finish) {
  if (zone->cond == BLK_ZONE_COND_READONLY || zone->cond == BLK_ZONE_COND_OFFLINE)
    return wrong("%s: zone 0 is %s and takes no super block. Nothing was written", request->target,
                 zone->cond == BLK_ZONE_COND_OFFLINE ? "offline" : "read-only");
  if (zone->type == BLK_ZONE_TYPE_CONVENTIONAL) {
    if (request->finish)
      printf("%s: zone 0 is conventional and has nothing to finish\n", request->target);
    return true;
  }
  if (must_finish && !request->finish)
    return must_be_finished(request->target);
  if (!request->finish)
    return wrong("%s: zone 0 is sequential and full: it takes the super block only if it is reset, and then it has to be finished again. "
                 "Nothing was written; --finish allows it",
                 request->target);
  return true;
}

static bool command_zone(int device, const char *name, const struct blk_zone *zone, unsigned long command, const char *done) {
  struct blk_zone_range range = {zone->start, zone->len};
  if (ioctl(device, command, &range) != 0)
    return wrong("%s: zone 0 was not %s: %s", name, done, strerror(errno));
  return true;
}

/*
 * Reset, written, finished: in this order, as a zone of type 2 takes a write at its pointer alone, and none once it is full. The library's
 * answer that zone 0 must be finished is about the zone as it was reported; a reset zone isn't full, so here it always is.
 */
static bool write_sequential(int device, const char *name, const struct blk_zone *zone) {
  if (!command_zone(device, name, zone, BLKRESETZONE, "reset"))
    return false;
  if (!write_super_block(device, name))
    return wrong("%s: zone 0 was reset, and may hold no whole super block. Format it again", name);
  if (!command_zone(device, name, zone, BLKFINISHZONE, "finished"))
    return wrong("%s: the super block was written, but something can still be written behind it. Format it again", name);
  return true;
}

static bool format_opened(int device, const struct request *request) {
  struct zone zone;
  struct blk_zone fields;
  uint64_t block = 0;
  bool must_finish = false;
  if (!device_zone(device, request->target, &zone) || !device_block(device, request, &block) ||
      !make_super_block(request, &zone, block, &must_finish) || !has_room(request->target, &zone))
    return false;
  memcpy(&fields, zone.record, sizeof(fields));
  if (!may_write_zone(request, &fields, must_finish))
    return false;
  return fields.type == BLK_ZONE_TYPE_CONVENTIONAL ? write_super_block(device, request->target)
                                                   : write_sequential(device, request->target, &fields);
}

/* O_EXCL refuses a device that is mounted or otherwise in use, and O_DIRECT writes at once: a sequential zone wants its writes in order. */
static bool format_device(const struct request *request) {
  int device;
  if (request->record_file)
    return wrong("--zone is for files: %s is a block device, and reports its zone 0 itself", request->target);
  device = open(request->target, O_RDWR | O_EXCL | O_DIRECT);
  if (device < 0)
    return wrong("%s: %s", request->target, strerror(errno));
  return close_target(device, request->target, format_opened(device, request));
}

#else

static bool format_device(const struct request *request) {
  return wrong("%s is a block device, and this program was built for files alone, without linux/blkzoned.h", request->target);
}

#endif

/* ---- the command */

static bool format(struct request *request) {
  struct stat status;
  if (stat(request->target, &status) != 0)
    return wrong("%s: %s%s", request->target, strerror(errno), errno == ENOENT ? "; no file is made here, make an empty one first" : "");
  if (!S_ISBLK(status.st_mode) && !S_ISREG(status.st_mode))
    return wrong("%s is neither a block device nor a regular file", request->target);
  if (!request->has_uuid && !draw_uuid(request->uuid))
    return false;
  if (!(S_ISBLK(status.st_mode) ? format_device(request) : format_file(request)))
    return false;
  say_written(request);
  return true;
}

int main(int argc, char **argv) {
  struct request request = {0};
  request.label = "";
  if (!read_arguments(argc, argv, &request)) {
    fputs(usage, stderr);
    return 2;
  }
  if (request.help) {
    printf("%s%s%s", usage, option_help, target_help);
    return 0;
  }
  return format(&request) ? 0 : 1;
}
