/* divanegret: the talk-group planner of a site controller, for firmware written in C.
 *
 * docs/SITE-IMAGE.md has the site image byte by byte, the meaning of near, core, group, role,
 * score, reach, nearest group and the plan for a time, the text of the report line by line, how an
 * image is written, and every refusal; this file says how C calls the planner.
 *
 * Every function here is a thin, proved wrapper around the planner's library; its outcome is
 * fixed for every input, byte by byte. The functions
 *   - only read the image, the list, and the tables given as const;
 *   - write to a lent table or buffer only on success, and there only the plan, the text or the
 *     image: what stood past its end stays, and after a refusal every lent byte is as it was;
 *   - never allocate, keep no state between calls and are reentrant: two calls may run at the same
 *     time if neither writes what the other reads;
 *   - always return. No image, however damaged, no table and no number makes one trap or loop.
 *
 * The archive is compiled for x86-64-v2, so the processor must have popcnt and SSE4.2. From outside it
 * needs memcpy and memset, and nothing else.
 *
 * Stack that a call needs on x86-64, as this archive is compiled: the frames along its deepest path
 * added up, and confirmed by measuring (tests/rust, program stack). It is no part of what is proved,
 * and another compiler or target may need another amount.
 *
 *     dvg_write 57 KiB    dvg_report 48 KiB    dvg_role 38 KiB    dvg_plan, dvg_nearest 36 KiB
 *     dvg_open, dvg_scores 35 KiB    dvg_members, dvg_members_at 1 KiB
 *
 * The caller owns everything that it lends, before, during and after the call. A pointer must be
 * valid for the length given with it, also where that length is 0 (any non-null pointer then
 * serves), and aligned for its type. A table or buffer that is written must not overlap anything
 * else that is lent; tables given as const may be the same memory, as for the two plans of
 * dvg_members_at.
 *
 * A result is never both: 0 or more is success, less than 0 is a refusal. dvg_report returns the
 * refusal's number made negative. The other functions return the refusal's place as well:
 * -(number + 256 * place). The numbers and places are those of docs/SITE-IMAGE.md; the numbers have
 * names below. */
#ifndef DIVANEGRET_H
#define DIVANEGRET_H

#include <stddef.h>
#include <stdint.h>

#ifdef __cplusplus
extern "C" {
#endif

/* The parts of a refusal. dvg_report tells no place: DVG_PLACE of its refusal is 0. */
#define DVG_NUMBER(r) ((int32_t)(-(r) % 256))
#define DVG_PLACE(r) ((int32_t)(-(r) / 256))

/* The numbers of refusals, each with the question that got a no. A place is that of the first bad
 * one; where none is named it is 0. Questions 1 to 10 are put to the image in this order, each to the
 * whole image before the next; every call on an image puts them before its own. dvg_write gets no
 * image: it puts 3, 5, 6 and 7 to 10 to the numbers and tables that it gets, in this order too, and 20
 * after them. */
#define DVG_TOO_SHORT 1      /* Are there at least 32 bytes, the header? */
#define DVG_WRONG_LENGTH 2   /* Is the header's length the lent length? */
#define DVG_COUNTS 3         /* Are there at most 512 handsets and at most 4,096 ties? */
#define DVG_WIDTH 4          /* Do bytes 30 and 31 hold 12, the width of a handset record? (An older
                                image, whose handsets have no z, has 0 there: it is to be written again,
                                with z = 0.) */
#define DVG_THRESHOLDS 5     /* Is G at most 12,000,000,000,000, 1 <= p <= q <= 1,000, and mu at
                                most 512? (A mu of 0 is blank and means 4.) */
#define DVG_TABLES 6         /* Is each table past the header, in the image, clear of the other?
                                dvg_write: has each table just the numbers that the counts need, 3 n
                                coordinates and 2 m ends, no fewer and no more? */
#define DVG_COORDINATE 7     /* Is every x, y and z from -1,000,000 to 1,000,000? Place: a handset. */
#define DVG_NO_HANDSET 8     /* Is each end of every tie below n? Place: a tie. */
#define DVG_LOOP 9           /* Do the ends of every tie differ? Place: a tie. */
#define DVG_REPEATED 10      /* Is no pair tied twice, either way round? Place: the later tie. */
#define DVG_STARTS_SHORT 11  /* dvg_plan: does the start table hold the count of groups plus 1? */
#define DVG_MEMBERS_SHORT 12 /* dvg_plan: does the member table hold all memberships? */
#define DVG_ENTRY 13         /* dvg_role: is the handset below n? dvg_scores: is each entry below n,
                                and none at index 512 or later? Place: the entry's index. */
#define DVG_NO_GROUP 14      /* dvg_members: is k + 1 a place in the start table, and is starts[k] <=
                                starts[k + 1] <= the member table's length? dvg_members_at: the same,
                                of the chosen plan's tables alone. */
#define DVG_LONG_INPUT 15    /* The report program alone: does its input end within 65,536 bytes? */
#define DVG_TEXT_SHORT 16    /* dvg_report: does the buffer hold the whole text? */
#define DVG_SPOT 17          /* dvg_nearest: are x, y and z from -1,000,000 to 1,000,000? */
#define DVG_DATE 18          /* dvg_members_at: is the year from 1600 to 9999, and is there such a date
                                in the Gregorian calendar? */
#define DVG_MINUTES 19       /* dvg_members_at: is the minute at most 1,439, closing at most 1,440, and
                                opening not after closing? */
#define DVG_BUFFER_SHORT 20  /* dvg_write: does the buffer hold the whole image? */

/* A start table of DVG_STARTS entries and a member table of DVG_MEMBERS entries suffice for every
 * image; for a given one, n + 1 and n + 2 m do. */
#define DVG_STARTS 513
#define DVG_MEMBERS 8704

/* A buffer of DVG_IMAGE bytes suffices for every image that dvg_write writes; for given counts,
 * 32 + 12 n + 4 m do. */
#define DVG_IMAGE 22560

/* The text of the report: its length, or the refusal's number (1 to 10, 16) made negative. A group's
 * line tells its scores, its reach (the largest squared distance of a near tie between two members, or a
 * hyphen where there is none) and its members. */
int64_t dvg_report(const uint8_t *image, size_t image_len, uint8_t *text, size_t text_len);

/* Puts questions 1 to 10 to an image. Accepted: n + 65536 * m. */
int64_t dvg_open(const uint8_t *image, size_t image_len);
#define DVG_HANDSETS(r) ((int32_t)((r) % 65536))
#define DVG_TIES(r) ((int32_t)((r) / 65536))

/* The plan, written into both tables: groups + 65536 * memberships. Group k has the members
 * members[starts[k]] up to, not including, members[starts[k + 1]]. Refusals 1 to 10, 11, 12. */
int64_t dvg_plan(const uint8_t *image, size_t image_len, uint32_t *starts, size_t starts_len,
                 uint16_t *members, size_t members_len);
#define DVG_GROUPS(r) ((int32_t)((r) % 65536))
#define DVG_MEMBERSHIPS(r) ((int32_t)((r) / 65536))

/* The role of a handset: kind + 65536 * value + 4294967296 * near count. The value is a core's group
 * number or a border's count of groups, and 0 for an outlier. Refusals 1 to 10, 13. */
int64_t dvg_role(const uint8_t *image, size_t image_len, uint64_t handset);
#define DVG_CORE 0
#define DVG_BORDER 1
#define DVG_OUTLIER 2
#define DVG_KIND(r) ((int32_t)((r) % 65536))
#define DVG_VALUE(r) ((int32_t)((r) / 65536 % 65536))
#define DVG_NEAR(r) ((int32_t)((r) / 4294967296))

/* The scores of a list of handsets: o + 65536 * t + 68719476736 * s. Density is (s - t)/s and
 * conductance o/(2t + o), neither reduced; where the divisor is 0 there is no score. Refusals 1 to 10, 13. */
int64_t dvg_scores(const uint8_t *image, size_t image_len, const uint16_t *list, size_t list_len);
#define DVG_LEAVING(r) ((int64_t)((r) % 65536))
#define DVG_TIED_PAIRS(r) ((int64_t)((r) / 65536 % 1048576))
#define DVG_PAIRS(r) ((int64_t)((r) / 68719476736))

/* The count of members of group k, which stand at members + starts[k]. Refusal 14, place 0. */
int64_t dvg_members(const uint32_t *starts, size_t starts_len, const uint16_t *members,
                    size_t members_len, uint64_t k);

/* The group that stands nearest to the spot x, y, z, in metres: found + 2 * group + 65536 * squared
 * distance, the distance from the spot to the group's nearest member. Of groups at the same least
 * distance it is the one with the lowest number. Found is 1; the result is 0 where the plan has no
 * groups, and only there. Refusals 1 to 10, 17. */
int64_t dvg_nearest(const uint8_t *image, size_t image_len, int32_t x, int32_t y, int32_t z);
#define DVG_FOUND(r) ((int32_t)((r) % 2))
#define DVG_NEAREST_GROUP(r) ((int32_t)((r) / 2 % 32768))
#define DVG_SQUARED_DISTANCE(r) ((int64_t)((r) / 65536))

/* The count of members of group k at a time, for a site with two plans, the first for working hours
 * and the second for the rest: table + 2 * count. The first plan's tables come first. It is the first
 * plan, DVG_WORKDAY, from Monday to Friday when opening <= minute < closing, else the second,
 * DVG_RESTDAY; the members stand at that plan's members + starts[k]. Minutes are counted from the
 * beginning of the day, date and minute are those of the site's own clock, and holidays are days like
 * others; with opening = closing no minute is in working hours. Any numbers may come in, and nothing is
 * written. Refusals 18, 19, 14, asked in this order, place 0 each. The tables of the other plan are not
 * looked at, but all four pointers must be valid; a site with one plan lends it twice. DVG_TABLE and
 * DVG_COUNT are of a success only. */
int64_t dvg_members_at(uint32_t year, uint32_t month, uint32_t day, uint32_t minute,
                       uint32_t opening, uint32_t closing, uint64_t k,
                       const uint32_t *workday_starts, size_t workday_starts_len,
                       const uint16_t *workday_members, size_t workday_members_len,
                       const uint32_t *restday_starts, size_t restday_starts_len,
                       const uint16_t *restday_members, size_t restday_members_len);
#define DVG_WORKDAY 0
#define DVG_RESTDAY 1
#define DVG_TABLE(r) ((int32_t)((r) % 2))
#define DVG_COUNT(r) ((int64_t)((r) / 2))

/* The image of a site, written at the front of the buffer: its length in bytes. The image has no gaps:
 * the header, the handset records from byte 32, the tie records directly after them. Lent with just
 * that length it passes questions 1 to 10 of every call, and has the numbers given here, in the same
 * order. What an accepted image holds, written again, has the same plan, roles, scores, nearest groups
 * and report, and is no longer than it was.
 *
 * handsets, ties and near_squared are n, m and G of the header, p, q and mu its own; a mu of 0 is
 * written as 0, which is blank. coordinates is the coordinate table, x, y and z of handset 0, then of
 * handset 1, and so on: 3 n numbers. ends is the tie table, the two handsets of tie 0, then of tie 1,
 * and so on: 2 m numbers. Both hold plain numbers of C, no bytes of an image; their lengths are counted
 * in numbers, and they are only read. Any numbers may come in, also ones that no field of the header
 * holds: none is cut off before it is asked. Bytes 30 and 31 are written as 12, the width of a handset
 * record.
 *
 * Refusals 3, 5, 6, 7, 8, 9, 10, 20, asked in this order, each of the whole tables before the next: 7
 * with the place of a handset, 8 to 10 with that of a tie. A refused call keeps every byte of the
 * buffer, and a success every byte past the image. */
int64_t dvg_write(uint64_t handsets, uint64_t ties, uint64_t near_squared, uint64_t p, uint64_t q,
                  uint64_t mu, const int32_t *coordinates, size_t coordinates_len,
                  const uint16_t *ends, size_t ends_len, uint8_t *buffer, size_t buffer_len);

#ifdef __cplusplus
}
#endif

#endif
