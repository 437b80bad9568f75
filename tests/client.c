/* A client in C, as firmware would call the planner: site S of the specification with mu 4, built
 * byte by byte, through every function of divanegret.h. Prints a line for each check; the exit
 * status is 1 if one failed. */
#include "../include/divanegret.h"

#include <stdio.h>
#include <string.h>

#define HANDSETS 7
#define TIES 8
#define HEADER 32
#define COORDINATES 3
#define HANDSET_BYTES (4 * COORDINATES)
#define TIE_BYTES 4
#define NEAR_AT 16
#define WIDTH_AT 30
#define HANDSETS_AT HEADER
#define TIES_AT (HANDSETS_AT + HANDSET_BYTES * HANDSETS)
#define LENGTH (TIES_AT + TIE_BYTES * TIES)
#define MOST_NEAR UINT64_C(12000000000000)
/* As images were before: records of x and y alone. */
#define OLD_HANDSET_BYTES 8
#define OLD_TIES_AT (HANDSETS_AT + OLD_HANDSET_BYTES * HANDSETS)
#define OLD_LENGTH (OLD_TIES_AT + TIE_BYTES * TIES)

static const char report_of_s[] = "handsets 7 ties 8 groups 2 memberships 8\n"
                                  "group 0 density 2/6 conductance 1/9 reach 0: 0 1 2 3\n"
                                  "group 1 density 2/6 conductance 1/9 reach 0: 3 4 5 6\n"
                                  "cores: 2 4\n"
                                  "outliers:\n"
                                  "cores 2 borders 5 outliers 0 multiple 1\n";
#define REPORT_LENGTH (sizeof report_of_s - 1)

static int failures = 0;

static void check(const char *what, int holds)
{
    printf("%s: %s\n", holds ? "ok" : "FAILED", what);
    failures += !holds;
}

/* Whether all bytes still have the value they were filled with. */
static int untouched(const void *bytes, size_t length, unsigned char fill)
{
    const unsigned char *byte = bytes;
    size_t i;
    for (i = 0; i < length; i++) {
        if (byte[i] != fill) {
            return 0;
        }
    }
    return 1;
}

/* Writes a little-endian number. */
static void put(uint8_t *at, int width, uint64_t value)
{
    int i;
    for (i = 0; i < width; i++) {
        at[i] = (uint8_t)(value >> (8 * i));
    }
}

/* Places handset k of site S. */
static void place(uint8_t image[LENGTH], int k, int32_t x, int32_t y, int32_t z)
{
    uint8_t *record = image + HANDSETS_AT + HANDSET_BYTES * k;
    put(record, 4, (uint32_t)x);
    put(record + 4, 4, (uint32_t)y);
    put(record + 8, 4, (uint32_t)z);
}

static const uint16_t ties[TIES][2] = {{0, 1}, {0, 2}, {1, 2}, {2, 3},
                                       {3, 4}, {4, 5}, {4, 6}, {5, 6}};

/* The header of n handsets and m ties in an image without gaps: gamma 0, epsilon 1/2, mu 4. */
static void put_header(uint8_t *image, uint32_t n, uint32_t m, uint32_t length)
{
    memset(image, 0, HEADER);
    put(image + 0, 2, n);
    put(image + 2, 2, m);
    put(image + 4, 4, HANDSETS_AT);
    put(image + 8, 4, length - TIE_BYTES * m);
    put(image + 12, 4, length);
    put(image + 24, 2, 1);
    put(image + 26, 2, 2);
    put(image + 28, 2, 4);
    put(image + WIDTH_AT, 2, HANDSET_BYTES);
}

static void put_ties(uint8_t *at)
{
    int i;
    for (i = 0; i < TIES; i++) {
        put(at + TIE_BYTES * i, 2, ties[i][0]);
        put(at + TIE_BYTES * i + 2, 2, ties[i][1]);
    }
}

/* Seven handsets at one place. */
static void build_site(uint8_t image[LENGTH])
{
    memset(image, 0, LENGTH);
    put_header(image, HANDSETS, TIES, LENGTH);
    put_ties(image + TIES_AT);
}

static void check_open(const uint8_t *image)
{
    int64_t opened = dvg_open(image, LENGTH);
    check("open accepts site S", opened >= 0);
    check("open counts handsets and ties",
          DVG_HANDSETS(opened) == HANDSETS && DVG_TIES(opened) == TIES);
}

static void check_report(const uint8_t *image)
{
    uint8_t text[256];
    int64_t length;
    memset(text, 0xa5, sizeof text);
    length = dvg_report(image, LENGTH, text, sizeof text);
    check("report answers the text's length", length == (int64_t)REPORT_LENGTH);
    check("report writes the text", memcmp(text, report_of_s, REPORT_LENGTH) == 0);
    check("report keeps what is past the text",
          untouched(text + REPORT_LENGTH, sizeof text - REPORT_LENGTH, 0xa5));
    memset(text, 0xa5, sizeof text);
    length = dvg_report(image, LENGTH, text, REPORT_LENGTH);
    check("report fits a buffer of just its length",
          length == (int64_t)REPORT_LENGTH && memcmp(text, report_of_s, REPORT_LENGTH) == 0);
    memset(text, 0xa5, sizeof text);
    length = dvg_report(image, LENGTH, text, REPORT_LENGTH - 1);
    check("report refuses a buffer one byte short", length == -DVG_TEXT_SHORT);
    check("report leaves a short buffer as it was", untouched(text, sizeof text, 0xa5));
}

/* The reach of a group: the squared distance of its longest near tie. */
static void check_reach(const uint8_t *image)
{
    static const char stretched[] = "handsets 7 ties 8 groups 2 memberships 8\n"
                                    "group 0 density 2/6 conductance 1/9 reach 25: 0 1 2 3\n"
                                    "group 1 density 2/6 conductance 1/9 reach 5: 3 4 5 6\n"
                                    "cores: 2 4\n"
                                    "outliers:\n"
                                    "cores 2 borders 5 outliers 0 multiple 1\n";
    static const char alone[] = "handsets 1 ties 0 groups 1 memberships 1\n"
                                "group 0 density - conductance - reach -: 0\n"
                                "cores: 0\n"
                                "outliers:\n"
                                "cores 1 borders 0 outliers 0 multiple 0\n";
    uint8_t other[LENGTH];
    uint8_t text[256];
    memcpy(other, image, LENGTH);
    place(other, 0, 3, -4, 0);
    place(other, 6, -1, 2, 0);
    put(other + NEAR_AT, 8, 25);
    check("report tells the reach of each group",
          dvg_report(other, LENGTH, text, sizeof text) == (int64_t)(sizeof stretched - 1) &&
              memcmp(text, stretched, sizeof stretched - 1) == 0);
    place(other, 0, 0, 3, -4);
    place(other, 6, 2, 0, -1);
    check("x, y and z count alike for it",
          dvg_report(other, LENGTH, text, sizeof text) == (int64_t)(sizeof stretched - 1) &&
              memcmp(text, stretched, sizeof stretched - 1) == 0);
    put_header(other, 1, 0, HEADER + HANDSET_BYTES);
    put(other + 28, 2, 1);
    check("report tells no reach of a group of one",
          dvg_report(other, HEADER + HANDSET_BYTES, text, sizeof text) ==
                  (int64_t)(sizeof alone - 1) &&
              memcmp(text, alone, sizeof alone - 1) == 0);
}

/* Whether an image of site S's length is refused with another width of its handset records. */
static int refuses_width(const uint8_t *image, uint64_t width)
{
    uint8_t other[LENGTH];
    memcpy(other, image, LENGTH);
    put(other + WIDTH_AT, 2, width);
    return dvg_open(other, LENGTH) == -DVG_WIDTH;
}

/* Bytes 30 and 31 hold the width of a handset's record. Images of before had records of x and y alone,
 * and zero there. */
static void check_width(const uint8_t *image)
{
    uint8_t old[OLD_LENGTH];
    uint8_t text[256];
    check("an image without the width is refused", refuses_width(image, 0));
    check("so is the width of before", refuses_width(image, OLD_HANDSET_BYTES));
    check("one less than the width", refuses_width(image, HANDSET_BYTES - 1));
    check("one more", refuses_width(image, HANDSET_BYTES + 1));
    check("and one byte of two", refuses_width(image, HANDSET_BYTES + 256) &&
                                     refuses_width(image, 256 * HANDSET_BYTES));
    memset(old, 0, sizeof old);
    put_header(old, HANDSETS, TIES, OLD_LENGTH);
    put_ties(old + OLD_TIES_AT);
    check("records of before have no room for a z", dvg_open(old, OLD_LENGTH) == -DVG_TABLES);
    put(old + WIDTH_AT, 2, 0);
    check("an image of before is refused", dvg_open(old, OLD_LENGTH) == -DVG_WIDTH);
    memset(text, 0xa5, sizeof text);
    check("so is its report", dvg_report(old, OLD_LENGTH, text, sizeof text) == -DVG_WIDTH &&
                                  untouched(text, sizeof text, 0xa5));
    check("and a spot beyond the limits after it",
          dvg_nearest(old, OLD_LENGTH, 0, 0, 1000001) == -DVG_WIDTH);
}

static void check_refused(const uint8_t *image)
{
    uint8_t bad[LENGTH];
    uint8_t text[256];
    uint32_t starts[DVG_STARTS];
    uint16_t members[DVG_MEMBERS];
    int64_t refused;
    memcpy(bad, image, LENGTH);
    put(bad + TIES_AT + TIE_BYTES * 5, 2, 1); /* tie 5 is now 1-0, as tie 0 the other way round */
    put(bad + TIES_AT + TIE_BYTES * 5 + 2, 2, 0);
    refused = dvg_open(bad, LENGTH);
    check("open refuses a repeated tie",
          DVG_NUMBER(refused) == DVG_REPEATED && DVG_PLACE(refused) == 5);
    memset(starts, 0xa5, sizeof starts);
    memset(members, 0xa5, sizeof members);
    check("plan refuses it too",
          dvg_plan(bad, LENGTH, starts, DVG_STARTS, members, DVG_MEMBERS) == refused);
    check("plan leaves both tables as they were",
          untouched(starts, sizeof starts, 0xa5) && untouched(members, sizeof members, 0xa5));
    memset(text, 0xa5, sizeof text);
    check("report answers the number alone",
          dvg_report(bad, LENGTH, text, sizeof text) == -DVG_REPEATED);
    check("report leaves the buffer as it was", untouched(text, sizeof text, 0xa5));
    check("open refuses a length that is not the image's",
          dvg_open(image, LENGTH - 1) == -DVG_WRONG_LENGTH);
    check("open refuses less than a header", dvg_open(image, HEADER - 1) == -DVG_TOO_SHORT);
    check("open refuses no bytes at all", dvg_open(image, 0) == -DVG_TOO_SHORT);
}

/* Whether an image of site S's length is refused for the coordinates of this handset. */
static int refuses_position(const uint8_t *image, int32_t handset)
{
    int64_t refused = dvg_open(image, LENGTH);
    return refused < 0 && DVG_NUMBER(refused) == DVG_COORDINATE && DVG_PLACE(refused) == handset;
}

/* The limits of coordinates and of G. */
static void check_limits(const uint8_t *image)
{
    uint8_t other[LENGTH];
    int64_t accepted = dvg_open(image, LENGTH);
    memcpy(other, image, LENGTH);
    place(other, 0, -1000000, 1000000, -1000000);
    place(other, 6, 1000000, -1000000, 1000000);
    check("coordinates may be at their limits", dvg_open(other, LENGTH) == accepted);
    place(other, 6, 0, 0, 1000001);
    check("no z may be beyond", refuses_position(other, 6));
    place(other, 5, 0, 0, -1000001);
    check("nor on the other side", refuses_position(other, 5));
    place(other, 4, 0, 1000001, 0);
    check("no y", refuses_position(other, 4));
    place(other, 3, -1000001, 0, 0);
    check("and no x", refuses_position(other, 3));
    place(other, 1, 0, 0, INT32_MIN);
    check("the first of several is told", refuses_position(other, 1));
    memcpy(other, image, LENGTH);
    put(other + NEAR_AT, 8, MOST_NEAR);
    check("G may be 12,000,000,000,000", dvg_open(other, LENGTH) == accepted);
    put(other + NEAR_AT, 8, MOST_NEAR + 1);
    check("and no more", dvg_open(other, LENGTH) == -DVG_THRESHOLDS);
}

static void check_plan(const uint8_t *image)
{
    static const uint32_t expected_starts[3] = {0, 4, 8};
    static const uint16_t expected_members[8] = {0, 1, 2, 3, 3, 4, 5, 6};
    uint32_t starts[DVG_STARTS];
    uint16_t members[DVG_MEMBERS];
    int64_t plan;
    memset(starts, 0xa5, sizeof starts);
    memset(members, 0xa5, sizeof members);
    check("plan refuses a short start table",
          dvg_plan(image, LENGTH, starts, 2, members, 8) == -DVG_STARTS_SHORT);
    check("plan refuses a short member table",
          dvg_plan(image, LENGTH, starts, 3, members, 7) == -DVG_MEMBERS_SHORT);
    check("plan leaves short tables as they were",
          untouched(starts, sizeof starts, 0xa5) && untouched(members, sizeof members, 0xa5));
    plan = dvg_plan(image, LENGTH, starts, DVG_STARTS, members, DVG_MEMBERS);
    check("plan counts groups and memberships",
          plan >= 0 && DVG_GROUPS(plan) == 2 && DVG_MEMBERSHIPS(plan) == 8);
    check("plan writes the start table",
          memcmp(starts, expected_starts, sizeof expected_starts) == 0);
    check("plan writes the member table",
          memcmp(members, expected_members, sizeof expected_members) == 0);
    check("plan keeps what is past both",
          untouched(starts + 3, sizeof starts - sizeof expected_starts, 0xa5) &&
              untouched(members + 8, sizeof members - sizeof expected_members, 0xa5));
    check("members of group 0", dvg_members(starts, 3, members, 8, 0) == 4);
    check("members of group 1", dvg_members(starts, 3, members, 8, 1) == 4);
    check("no members of group 2", dvg_members(starts, 3, members, 8, 2) == -DVG_NO_GROUP);
    check("no members of the last number",
          dvg_members(starts, 3, members, 8, UINT64_MAX) == -DVG_NO_GROUP);
    check("no members past the table", dvg_members(starts, 3, members, 7, 1) == -DVG_NO_GROUP);
}

static int has_role(int64_t answer, int32_t kind, int32_t value, int32_t near)
{
    return answer >= 0 && DVG_KIND(answer) == kind && DVG_VALUE(answer) == value &&
           DVG_NEAR(answer) == near;
}

static void check_roles(const uint8_t *image)
{
    uint8_t other[LENGTH];
    check("handset 0 is a border in one group",
          has_role(dvg_role(image, LENGTH, 0), DVG_BORDER, 1, 3));
    check("handset 2 is a core of group 0", has_role(dvg_role(image, LENGTH, 2), DVG_CORE, 0, 4));
    check("handset 3 is a border in two groups",
          has_role(dvg_role(image, LENGTH, 3), DVG_BORDER, 2, 3));
    check("handset 4 is a core of group 1", has_role(dvg_role(image, LENGTH, 4), DVG_CORE, 1, 4));
    check("handset 7 is not there", dvg_role(image, LENGTH, 7) == -DVG_ENTRY);
    check("nor is the last number", dvg_role(image, LENGTH, UINT64_MAX) == -DVG_ENTRY);
    memcpy(other, image, LENGTH);
    put(other + 24, 2, 3); /* epsilon 3/5, mu 3 */
    put(other + 26, 2, 5);
    put(other + 28, 2, 3);
    check("with epsilon 3/5 handset 3 is an outlier",
          has_role(dvg_role(other, LENGTH, 3), DVG_OUTLIER, 0, 3));
}

/* Porters one above the other, on floors 1 and 9: handset 1 of site S stands 32 metres above all others,
 * of which 0 and 2 are tied to it. */
static void check_floors(const uint8_t *image)
{
    uint8_t other[LENGTH];
    uint32_t starts[DVG_STARTS];
    uint16_t members[DVG_MEMBERS];
    int64_t plan;
    memcpy(other, image, LENGTH);
    place(other, 1, 0, 0, 32);
    check("no two on different floors are near with gamma 0",
          has_role(dvg_role(other, LENGTH, 1), DVG_OUTLIER, 0, 1));
    put(other + NEAR_AT, 8, 32 * 32 - 1);
    check("nor with one less than the square of z between them",
          has_role(dvg_role(other, LENGTH, 1), DVG_OUTLIER, 0, 1));
    plan = dvg_plan(other, LENGTH, starts, DVG_STARTS, members, DVG_MEMBERS);
    check("then the plan has one group", DVG_GROUPS(plan) == 1 && DVG_MEMBERSHIPS(plan) == 4);
    put(other + NEAR_AT, 8, 32 * 32);
    check("with that square they are", has_role(dvg_role(other, LENGTH, 1), DVG_BORDER, 1, 3));
    plan = dvg_plan(other, LENGTH, starts, DVG_STARTS, members, DVG_MEMBERS);
    check("and the plan has both groups", DVG_GROUPS(plan) == 2 && DVG_MEMBERSHIPS(plan) == 8);
    place(other, 1, 0, 0, -32);
    check("below the ground too", has_role(dvg_role(other, LENGTH, 1), DVG_BORDER, 1, 3));
    place(other, 1, 0, 0, -33);
    check("but no deeper", has_role(dvg_role(other, LENGTH, 1), DVG_OUTLIER, 0, 1));
}

/* A blank mu, 0, means 4; a site that wants the groups of mu 3 writes 3. */
static void check_blank_mu(const uint8_t *image)
{
    uint8_t other[LENGTH];
    uint8_t text[256];
    memcpy(other, image, LENGTH);
    put(other + 28, 2, 0);
    check("a blank mu is accepted", dvg_open(other, LENGTH) == dvg_open(image, LENGTH));
    check("its report is that of mu 4",
          dvg_report(other, LENGTH, text, sizeof text) == (int64_t)REPORT_LENGTH &&
              memcmp(text, report_of_s, REPORT_LENGTH) == 0);
    check("handset 3 is a border in two groups with it",
          has_role(dvg_role(other, LENGTH, 3), DVG_BORDER, 2, 3));
    put(other + 28, 2, 3);
    check("with mu 3 written out handset 3 is a core of group 0",
          has_role(dvg_role(other, LENGTH, 3), DVG_CORE, 0, 3));
    put(other + 28, 2, 1);
    check("with mu 1, too", has_role(dvg_role(other, LENGTH, 3), DVG_CORE, 0, 3));
    put(other + 28, 2, 512);
    check("mu may be 512", dvg_open(other, LENGTH) == dvg_open(image, LENGTH));
    put(other + 28, 2, 513);
    check("and no more", dvg_open(other, LENGTH) == -DVG_THRESHOLDS);
}

static void check_scores(const uint8_t *image)
{
    static const uint16_t group[4] = {0, 1, 2, 3};
    static const uint16_t bad[3] = {6, 0, 7};
    uint16_t same[513];
    int64_t scores = dvg_scores(image, LENGTH, group, 4);
    check("scores of group 0",
          DVG_PAIRS(scores) == 6 && DVG_TIED_PAIRS(scores) == 4 && DVG_LEAVING(scores) == 1);
    check("scores of an empty list", dvg_scores(image, LENGTH, group, 0) == 0);
    scores = dvg_scores(image, LENGTH, bad, 3);
    check("scores refuse a handset that is not there",
          DVG_NUMBER(scores) == DVG_ENTRY && DVG_PLACE(scores) == 2);
    memset(same, 0, sizeof same);
    scores = dvg_scores(image, LENGTH, same, 512);
    check("scores of handset 0 named 512 times", DVG_PAIRS(scores) == 130816 &&
                                                     DVG_TIED_PAIRS(scores) == 0 &&
                                                     DVG_LEAVING(scores) == 2);
    scores = dvg_scores(image, LENGTH, same, 513);
    check("scores refuse a list of 513",
          DVG_NUMBER(scores) == DVG_ENTRY && DVG_PLACE(scores) == 512);
}

static int stands_nearest(int64_t answer, int32_t group, int64_t distance)
{
    return answer >= 0 && DVG_FOUND(answer) == 1 && DVG_NEAREST_GROUP(answer) == group &&
           DVG_SQUARED_DISTANCE(answer) == distance;
}

static void check_nearest(const uint8_t *image)
{
    uint8_t other[LENGTH];
    int64_t nearest = dvg_nearest(image, LENGTH, 3, -4, 0);
    check("of two groups as near to a spot the lower one", stands_nearest(nearest, 0, 25));
    check("as the header encodes it", nearest == 1 + 65536 * 25);
    check("a group at the spot itself", dvg_nearest(image, LENGTH, 0, 0, 0) == 1);
    check("a spot twelve metres up", stands_nearest(dvg_nearest(image, LENGTH, 3, -4, 12), 0, 169));
    nearest = dvg_nearest(image, LENGTH, -1000000, 1000000, -1000000);
    check("a spot at the limits", stands_nearest(nearest, 0, INT64_C(3000000000000)));
    check("a spot beyond x", dvg_nearest(image, LENGTH, 1000001, 0, 0) == -DVG_SPOT);
    check("a spot beyond y", dvg_nearest(image, LENGTH, 0, -1000001, 0) == -DVG_SPOT);
    check("a spot beyond z", dvg_nearest(image, LENGTH, 0, 0, 1000001) == -DVG_SPOT);
    check("and on the other side", dvg_nearest(image, LENGTH, 0, 0, -1000001) == -DVG_SPOT);
    check("a spot far beyond",
          dvg_nearest(image, LENGTH, INT32_MIN, INT32_MAX, INT32_MIN) == -DVG_SPOT);
    memcpy(other, image, LENGTH);
    place(other, 6, 0, -1, 0); /* of group 1 */
    put(other + NEAR_AT, 8, 1);
    check("the nearer group has the higher number",
          stands_nearest(dvg_nearest(other, LENGTH, 3, -4, 0), 1, 18));
    place(other, 6, 0, 0, -1);
    check("also where z alone tells which is nearer",
          stands_nearest(dvg_nearest(other, LENGTH, 0, 0, -2), 1, 1) &&
              stands_nearest(dvg_nearest(other, LENGTH, 0, 0, 2), 0, 4));
    put(other + 28, 2, 512);
    check("no groups with mu 512", dvg_nearest(other, LENGTH, 3, -4, 0) == 0);
    place(other, 2, 1000001, 0, 0);
    nearest = dvg_nearest(other, LENGTH, 1000001, 0, 0);
    check("a refused image before a spot beyond the limits",
          DVG_NUMBER(nearest) == DVG_COORDINATE && DVG_PLACE(nearest) == 2);
    put_header(other, 0, 0, HEADER); /* the empty image: both tables empty behind the header */
    check("no groups without handsets", dvg_nearest(other, HEADER, 3, -4, 0) == 0);
    check("a spot beyond the limits is refused there too",
          dvg_nearest(other, HEADER, 3, -4, -1000001) == -DVG_SPOT);
}

/* The two plans of a site as the firmware keeps them: those of site S with mu 4 and with mu 3. */
static const uint32_t work_starts[3] = {0, 4, 8};
static const uint16_t work_members[8] = {0, 1, 2, 3, 3, 4, 5, 6};
static const uint32_t rest_starts[2] = {0, 7};
static const uint16_t rest_members[7] = {0, 1, 2, 3, 4, 5, 6};

/* Open from 8:00 to 17:00. */
static int64_t members_at(uint32_t year, uint32_t month, uint32_t day, uint32_t minute, uint64_t k)
{
    return dvg_members_at(year, month, day, minute, 8 * 60, 17 * 60, k, work_starts, 3, work_members,
                          8, rest_starts, 2, rest_members, 7);
}

/* Group 0 on Thursday 29 February 2024, in other working hours. */
static int64_t members_with(uint32_t minute, uint32_t opening, uint32_t closing)
{
    return dvg_members_at(2024, 2, 29, minute, opening, closing, 0, work_starts, 3, work_members, 8,
                          rest_starts, 2, rest_members, 7);
}

static int is_in(int64_t answer, int32_t table, int64_t count)
{
    return answer >= 0 && DVG_TABLE(answer) == table && DVG_COUNT(answer) == count;
}

/* Where the members of group k stand, by an answer that is no refusal. */
static const uint16_t *members_of(int64_t answer, uint64_t k)
{
    return DVG_TABLE(answer) == DVG_WORKDAY ? work_members + work_starts[k]
                                            : rest_members + rest_starts[k];
}

static void check_members_at(void)
{
    static const uint16_t group_1[4] = {3, 4, 5, 6};
    static const uint16_t all[7] = {0, 1, 2, 3, 4, 5, 6};
    int64_t answer = members_at(2024, 2, 29, 8 * 60, 1);
    check("on a Thursday at opening the workday plan", is_in(answer, DVG_WORKDAY, 4));
    check("as the header encodes it", answer == 8);
    check("whose members stand from its start on",
          is_in(answer, DVG_WORKDAY, 4)
              && memcmp(members_of(answer, 1), group_1, sizeof group_1) == 0);
    answer = members_at(2024, 2, 29, 17 * 60, 0);
    check("at closing the rest-day plan", is_in(answer, DVG_RESTDAY, 7) && answer == 15);
    check("whose members are its own",
          is_in(answer, DVG_RESTDAY, 7) && memcmp(members_of(answer, 0), all, sizeof all) == 0);
    check("a minute before closing the workday plan",
          is_in(members_at(2024, 2, 29, 17 * 60 - 1, 0), DVG_WORKDAY, 4));
    check("a minute before opening the rest-day plan",
          is_in(members_at(2024, 2, 29, 8 * 60 - 1, 0), DVG_RESTDAY, 7));
    check("on a Friday the workday plan", is_in(members_at(2024, 3, 1, 600, 0), DVG_WORKDAY, 4));
    check("on a Saturday the rest-day plan", is_in(members_at(2000, 1, 1, 600, 0), DVG_RESTDAY, 7));
    check("on a Sunday, too", is_in(members_at(2000, 1, 2, 600, 0), DVG_RESTDAY, 7));
    check("on a Monday the workday plan", is_in(members_at(2000, 1, 3, 600, 0), DVG_WORKDAY, 4));
    check("group 1 is not in the rest-day plan", members_at(2000, 1, 1, 600, 1) == -DVG_NO_GROUP);
    check("group 2 is not in the workday plan", members_at(2000, 1, 3, 600, 2) == -DVG_NO_GROUP);
    check("nor is the last number", members_at(2000, 1, 3, 600, UINT64_MAX) == -DVG_NO_GROUP);
    check("the first day", members_at(1600, 1, 1, 600, 0) == 15);
    check("the last day", members_at(9999, 12, 31, 600, 0) == 8);
    check("no day before", members_at(1599, 12, 31, 600, 0) == -DVG_DATE);
    check("no day after", members_at(10000, 1, 1, 600, 0) == -DVG_DATE);
    check("no 29 February 1900", members_at(1900, 2, 29, 600, 0) == -DVG_DATE);
    check("no month 0", members_at(2024, 0, 1, 600, 0) == -DVG_DATE);
    check("no numbers far beyond",
          members_at(UINT32_MAX, UINT32_MAX, UINT32_MAX, 600, 0) == -DVG_DATE);
    check("no minute 1440", members_at(2024, 2, 29, 1440, 0) == -DVG_MINUTES);
    check("the date is asked first", members_at(2023, 2, 29, 1440, 2) == -DVG_DATE);
    answer = members_at(2024, 2, 29, UINT32_MAX, 2);
    check("the minute before the group", DVG_NUMBER(answer) == DVG_MINUTES && DVG_PLACE(answer) == 0);
    check("open all day", is_in(members_with(1439, 0, 1440), DVG_WORKDAY, 4));
    check("never open", is_in(members_with(480, 480, 480), DVG_RESTDAY, 7));
    check("never open at the end", is_in(members_with(1439, 1440, 1440), DVG_RESTDAY, 7));
    check("no opening after closing", members_with(480, 481, 480) == -DVG_MINUTES);
    check("no closing after the day", members_with(480, 480, 1441) == -DVG_MINUTES);
    answer = dvg_members_at(2000, 1, 1, 600, 480, 1020, 1, work_starts, 3, work_members, 8,
                            work_starts, 3, work_members, 8);
    check("one plan for both", is_in(answer, DVG_RESTDAY, 4));
    answer = dvg_members_at(2000, 1, 1, 600, 480, 1020, 0, work_starts, 0, work_members, 0,
                            rest_starts, 2, rest_members, 7);
    check("only the chosen plan is asked", is_in(answer, DVG_RESTDAY, 7));
}

/* What the writer gets, to be changed: site S, with room for one number more in each table. */
struct numbers {
    uint64_t handsets, ties, near_squared, p, q, mu;
    int32_t coordinates[COORDINATES * HANDSETS + 1];
    size_t coordinates_len;
    uint16_t ends[2 * TIES + 1];
    size_t ends_len;
};

static struct numbers numbers_of_s(void)
{
    struct numbers s = {HANDSETS, TIES, 0, 1, 2, 4, {0}, COORDINATES * HANDSETS, {0}, 2 * TIES};
    memcpy(s.ends, ties, sizeof ties);
    return s;
}

static int64_t write_site(const struct numbers *s, uint8_t *buffer, size_t buffer_len)
{
    return dvg_write(s->handsets, s->ties, s->near_squared, s->p, s->q, s->mu, s->coordinates,
                     s->coordinates_len, s->ends, s->ends_len, buffer, buffer_len);
}

/* Whether the writer refuses with this number and place, and keeps every byte of the buffer. */
static int write_refuses(const struct numbers *s, size_t buffer_len, int32_t number, int32_t place)
{
    static uint8_t buffer[DVG_IMAGE];
    int64_t refused;
    memset(buffer, 0xa5, sizeof buffer);
    refused = write_site(s, buffer, buffer_len);
    return refused == -((int64_t)number + 256 * place) && DVG_NUMBER(refused) == number &&
           DVG_PLACE(refused) == place && untouched(buffer, sizeof buffer, 0xa5);
}

static void check_write(const uint8_t *image)
{
    static uint8_t buffer[DVG_IMAGE];
    struct numbers s = numbers_of_s();
    struct numbers before = s;
    memset(buffer, 0xa5, sizeof buffer);
    check("write answers the image's length", write_site(&s, buffer, sizeof buffer) == LENGTH);
    check("write makes the image of site S", memcmp(buffer, image, LENGTH) == 0);
    check("with the width of a handset's record", buffer[30] == 12 && buffer[31] == 0);
    check("write keeps what is past the image",
          untouched(buffer + LENGTH, sizeof buffer - LENGTH, 0xa5));
    check("write leaves the tables as they were",
          memcmp(s.coordinates, before.coordinates, sizeof s.coordinates) == 0 &&
              memcmp(s.ends, before.ends, sizeof s.ends) == 0);
    check_open(buffer);
    check_report(buffer);
    memset(buffer, 0xa5, sizeof buffer);
    check("write fits a buffer of just the length",
          write_site(&s, buffer, LENGTH) == LENGTH && memcmp(buffer, image, LENGTH) == 0 &&
              untouched(buffer + LENGTH, sizeof buffer - LENGTH, 0xa5));
    s.mu = 0;
    check("write leaves a blank mu blank",
          write_site(&s, buffer, LENGTH) == LENGTH && buffer[28] == 0 && buffer[29] == 0);
    s.handsets = s.ties = 0;
    s.coordinates_len = s.ends_len = 0;
    check("write makes an image without handsets",
          write_site(&s, buffer, HEADER) == HEADER && dvg_open(buffer, HEADER) == 0);
    check("which has the width too", buffer[30] == 12 && buffer[31] == 0);
    check("DVG_IMAGE is the length of the longest",
          DVG_IMAGE == HEADER + HANDSET_BYTES * 512 + TIE_BYTES * 4096);
}

/* Two handsets at the limits and a tie, byte by byte. */
static void check_write_signs(void)
{
    static const uint8_t expected[60] = {
        2, 0, 1, 0, 32, 0, 0, 0, 56, 0, 0, 0, 60, 0, 0, 0, /* n, m, both offsets, L */
        0, 0xc0, 0xbc, 0xf7, 0xe9, 0x0a, 0, 0,             /* G */
        0xe7, 3, 0xe8, 3, 0, 2, 12, 0,                     /* p, q, mu, a record's width */
        0xc0, 0xbd, 0xf0, 0xff, 0x40, 0x42, 0x0f, 0, 0xc0, 0xbd, 0xf0, 0xff, /* handset 0 */
        0xfd, 0xff, 0xff, 0xff, 2, 1, 0, 0, 0x40, 0x42, 0x0f, 0,             /* handset 1 */
        1, 0, 0, 0};                                                         /* tie 0: 1 and 0 */
    static const int32_t coordinates[6] = {-1000000, 1000000, -1000000, -3, 258, 1000000};
    static const uint16_t ends[2] = {1, 0};
    uint8_t image[61];
    memset(image, 0xa5, sizeof image);
    check("write takes signs, the largest G, and mu 512",
          dvg_write(2, 1, MOST_NEAR, 999, 1000, 512, coordinates, 6, ends, 2, image,
                    sizeof image) == 60);
    check("byte by byte", memcmp(image, expected, sizeof expected) == 0 && image[60] == 0xa5);
    check("open accepts what was written", dvg_open(image, 60) == 2 + 65536);
    memset(image, 0xa5, sizeof image);
    check("write refuses a larger G",
          dvg_write(2, 1, MOST_NEAR + 1, 999, 1000, 512, coordinates, 6, ends, 2, image,
                    sizeof image) == -DVG_THRESHOLDS);
    check("write refuses x and y alone",
          dvg_write(2, 1, 0, 999, 1000, 512, coordinates, 4, ends, 2, image, sizeof image) ==
              -DVG_TABLES);
    check("and keeps the buffer", untouched(image, sizeof image, 0xa5));
}

/* The faults are made from the last question's to the first's, and stay: each is found before those of
 * later questions. */
static void check_write_refused(void)
{
    struct numbers s = numbers_of_s();
    check("write refuses a buffer one byte short", write_refuses(&s, LENGTH - 1, DVG_BUFFER_SHORT, 0));
    check("write refuses less than a header", write_refuses(&s, HEADER - 1, DVG_BUFFER_SHORT, 0));
    check("write refuses an empty buffer", write_refuses(&s, 0, DVG_BUFFER_SHORT, 0));
    s.ends[2 * 5] = 1; /* tie 5 is now 1-0, as tie 0 the other way round */
    s.ends[2 * 5 + 1] = 0;
    check("write refuses a repeated tie", write_refuses(&s, DVG_IMAGE, DVG_REPEATED, 5));
    check("and in an empty buffer", write_refuses(&s, 0, DVG_REPEATED, 5));
    s.ends[2 * 6] = 6;
    check("write refuses a loop", write_refuses(&s, 0, DVG_LOOP, 6));
    s.ends[2 * 7 + 1] = HANDSETS;
    check("write refuses a handset that is not there", write_refuses(&s, 0, DVG_NO_HANDSET, 7));
    s.coordinates[COORDINATES * 6 + 2] = 1000001;
    check("write refuses a z beyond", write_refuses(&s, 0, DVG_COORDINATE, 6));
    s.coordinates[COORDINATES * 5 + 1] = -1000001;
    check("write refuses a y beyond", write_refuses(&s, 0, DVG_COORDINATE, 5));
    s.coordinates[COORDINATES * 4] = INT32_MIN;
    check("write refuses an x far beyond", write_refuses(&s, 0, DVG_COORDINATE, 4));
    s.ends_len = 2 * TIES - 1;
    check("write refuses half a tie less", write_refuses(&s, 0, DVG_TABLES, 0));
    s.ends_len = 2 * TIES;
    s.coordinates_len = 2 * HANDSETS;
    check("write refuses x and y alone", write_refuses(&s, 0, DVG_TABLES, 0));
    s.coordinates_len = COORDINATES * HANDSETS + 1;
    check("write refuses a coordinate too many", write_refuses(&s, 0, DVG_TABLES, 0));
    s.p = 3;
    check("write refuses p above q", write_refuses(&s, 0, DVG_THRESHOLDS, 0));
    s.p = 1;
    s.near_squared = MOST_NEAR + 1;
    check("write refuses a G beyond", write_refuses(&s, 0, DVG_THRESHOLDS, 0));
    s.near_squared = 0;
    s.p = 65536 + 1;
    check("write refuses a p that no field holds", write_refuses(&s, 0, DVG_THRESHOLDS, 0));
    s.ties = 4097;
    check("write refuses 4097 ties", write_refuses(&s, 0, DVG_COUNTS, 0));
    s.ties = TIES;
    s.handsets = 65536 + HANDSETS;
    check("write refuses a count that no field holds", write_refuses(&s, 0, DVG_COUNTS, 0));
    s.handsets = UINT64_MAX;
    check("write refuses the last number", write_refuses(&s, DVG_IMAGE, DVG_COUNTS, 0));
}

int main(void)
{
    uint8_t image[LENGTH];
    uint8_t before[LENGTH];
    build_site(image);
    memcpy(before, image, LENGTH);
    check_open(image);
    check_report(image);
    check_reach(image);
    check_width(image);
    check_refused(image);
    check_limits(image);
    check_plan(image);
    check_roles(image);
    check_floors(image);
    check_blank_mu(image);
    check_scores(image);
    check_nearest(image);
    check_members_at();
    check_write(image);
    check_write_signs();
    check_write_refused();
    check("the image is as it was", memcmp(image, before, LENGTH) == 0);
    return failures != 0;
}
