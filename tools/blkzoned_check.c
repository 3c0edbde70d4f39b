/*
 * The layout that zonefs.h gives of a zone report and a zone record is that of Linux's header. Nothing runs: it compiles, or it doesn't.
 */
#include <linux/blkzoned.h>
#include <stddef.h>

#include "zonefs.h"

#define SAME(ours, theirs) _Static_assert((int)(ours) == (int)(theirs), #ours " is not " #theirs)
#define FIELD(ours, type, field, bytes) \
  SAME(ours, offsetof(struct type, field)); \
  SAME(bytes, sizeof(((struct type *)0)->field))

SAME(ZONEFS_HEADER_BYTES, sizeof(struct blk_zone_report));
SAME(ZONEFS_HEADER_BYTES, offsetof(struct blk_zone_report, zones));
SAME(ZONEFS_ZONE_BYTES, sizeof(struct blk_zone));
SAME(ZONEFS_CAPACITY_GIVEN, BLK_ZONE_REP_CAPACITY);

FIELD(ZONEFS_REPORT_SECTOR, blk_zone_report, sector, 8);
FIELD(ZONEFS_REPORT_COUNT, blk_zone_report, nr_zones, 4);
FIELD(ZONEFS_REPORT_FLAGS, blk_zone_report, flags, 4);

FIELD(ZONEFS_RECORD_START, blk_zone, start, 8);
FIELD(ZONEFS_RECORD_LENGTH, blk_zone, len, 8);
FIELD(ZONEFS_RECORD_POINTER, blk_zone, wp, 8);
FIELD(ZONEFS_RECORD_TYPE, blk_zone, type, 1);
FIELD(ZONEFS_RECORD_CONDITION, blk_zone, cond, 1);
FIELD(ZONEFS_RECORD_CAPACITY, blk_zone, capacity, 8);
