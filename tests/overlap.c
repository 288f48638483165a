/* The covered share from outside: the archive against the area of two circles in long double.
 *
 *     overlap COUNT FILE
 *
 * COUNT triples drawn at random, most of them at a contact or near one; the seven eclipses of report 003's Table 4, which FILE holds (tests/outside/table4.txt); and two of these second by
 * second, one that is whole and one that is a ring. Where nothing or all is covered, and of a ring, the share is exact, and else within 02's 10 millionths of the area. Prints how far the
 * shares lie from the area. What is wrong is a line on stderr, and the status is 1. */
#include "raddlehue.h"

#include <inttypes.h>
#include <math.h>
#include <stdio.h>
#include <stdlib.h>
#include <string.h>

/* The share and its error are in millionths. All that is wrong counts, and the first so many complaints are printed. */
enum { WHOLE_SHARE = 1000000, ALLOWED_ERROR = 10, ROWS = 7, COMPLAINTS = 10, UNWRITTEN = -7 };

/* What covered_share takes. */
static const int64_t greatest_separation = 18000000000, least_sun = 20000000, greatest_radius = 30000000;

/* The report's uncertainty of an azimuth, in degrees, to which it holds its own separations. */
static const double uncertainty = 0.003;

typedef struct {
    int64_t separation, sun, moon;
} disks_t;

/* A row of Table 4: a moment and a place, the separation as printed, in degrees, and what the rule has. */
typedef struct {
    raddlehue_start_ms_t start;
    raddlehue_point_t point;
    double printed;
    raddlehue_eclipse_t known;
} row_t;

typedef enum { NOTHING, WHOLE, RING, LENS, CASES } case_t;

/* ---- what is wrong, and how far the shares lie from the area */

static int64_t wrong, shares_of_case[CASES];
static long double lowest, highest;

static void complain(const char *what, disks_t disks, int64_t share)
{
    wrong++;
    if (wrong <= COMPLAINTS)
        fprintf(stderr, "overlap: %s: separation %" PRId64 ", radii %" PRId64 " and %" PRId64 ", share %" PRId64 "\n", what, disks.separation, disks.sun, disks.moon, share);
}

static void complain_of_row(const char *what, const row_t *row)
{
    wrong++;
    fprintf(stderr, "overlap: %s: %" PRId64 "-%02" PRId64 "-%02" PRId64 "\n", what, row->start.year, row->start.month, row->start.day);
}

/* ---- two circles */

static case_t case_of(disks_t disks)
{
    if (disks.separation >= disks.sun + disks.moon)
        return NOTHING;
    if (disks.separation > llabs(disks.sun - disks.moon))
        return LENS;
    return disks.moon < disks.sun ? RING : WHOLE;
}

/* The overlap in millionths of the Sun's disk. The root is four times the area of the triangle of both centres and a point where the circles cross. */
static long double area(disks_t disks)
{
    const long double half_turn = acosl(-1.0L);
    const long double d = disks.separation, rs = disks.sun, rm = disks.moon;
    long double root;
    switch (case_of(disks)) {
    case NOTHING: return 0;
    case WHOLE: return WHOLE_SHARE;
    case RING: return WHOLE_SHARE * rm * rm / (rs * rs);
    default: break;
    }
    root = sqrtl((rs + rm - d) * (d + rs - rm) * (d + rm - rs) * (d + rs + rm));
    return WHOLE_SHARE * (rs * rs * atan2l(root, d * d + rs * rs - rm * rm) + rm * rm * atan2l(root, d * d + rm * rm - rs * rs) - root / 2) / (half_turn * rs * rs);
}

/* The floor of the ring's share, digit by digit as at school, since its dividend passes 64 bits. */
static int64_t ring(disks_t disks)
{
    const int64_t divisor = disks.sun * disks.sun;
    int64_t rest = disks.moon * disks.moon, quotient = 0, unit;
    for (unit = WHOLE_SHARE; unit > 1; unit /= 10) {
        rest = rest % divisor * 10;
        quotient = quotient * 10 + rest / divisor;
    }
    return quotient;
}

/* A share of these disks is their case's. */
static void hold(disks_t disks, int64_t share)
{
    const long double error = share - area(disks);
    const case_t which = case_of(disks);
    shares_of_case[which]++;
    lowest = fminl(lowest, error);
    highest = fmaxl(highest, error);
    if (which == NOTHING && share != 0)
        complain("not nothing", disks, share);
    if (which == WHOLE && share != WHOLE_SHARE)
        complain("not the whole", disks, share);
    if (which == RING && share != ring(disks))
        complain("not the ring's floor", disks, share);
    if (share < 0 || share > WHOLE_SHARE || !(fabsl(error) <= ALLOWED_ERROR))
        complain("not the area", disks, share);
}

/* ---- three numbers */

/* The share of three numbers that are taken. */
static int64_t share_of(disks_t disks)
{
    int64_t share = UNWRITTEN;
    if (raddlehue_covered_share(disks.separation, disks.sun, disks.moon, &share) != RADDLEHUE_ACCEPTED)
        complain("refused", disks, share);
    return share;
}

static uint64_t state = 88172645463325252;

static int64_t between(int64_t least, int64_t greatest)
{
    state ^= state << 13;
    state ^= state >> 7;
    state ^= state << 17;
    return least + (int64_t)(state % (uint64_t)(greatest - least + 1));
}

/* From 0 to some 33 million, as many small as great. */
static int64_t any_size(void)
{
    return between(0, (int64_t)1 << between(0, 25));
}

/* Radii that occur (1900 to 2100, from any point), equal ones, equal within 3, and all that are taken. */
static disks_t radii(int64_t family)
{
    disks_t disks = {0, 0, 0};
    disks.sun = between(26215784, 27112079);
    disks.moon = between(24099272, 28441008);
    if (family == 1)
        disks.moon = disks.sun;
    if (family == 2)
        disks.moon = disks.sun + between(-3, 3);
    if (family == 3) {
        disks.sun = between(least_sun, greatest_radius);
        disks.moon = between(0, greatest_radius);
    }
    return disks;
}

/* At a contact and a unit or two beside it, near it, and anywhere; some come out below zero. */
static int64_t separation(int64_t family, disks_t disks)
{
    const int64_t inner = llabs(disks.sun - disks.moon), outer = disks.sun + disks.moon;
    switch (family) {
    case 0: return inner + between(-2, 2);
    case 1: return outer + between(-2, 2);
    case 2: return inner + between(0, 2000);
    case 3: return outer - between(0, 2000);
    case 4: return inner + any_size();
    case 5: return outer - any_size();
    case 6: return between(inner, outer);
    default: return between(0, outer + 1000);
    }
}

static void triples(int64_t count)
{
    enum { RADII = 4, SEPARATIONS = 8 };
    int64_t i;
    for (i = 0; i < count; i++) {
        disks_t disks = radii(i % RADII);
        disks.separation = llabs(separation(i / RADII % SEPARATIONS, disks));
        hold(disks, share_of(disks));
    }
}

/* Three numbers that are not taken, and memory that stays as it was. */
static void refused(int64_t separation, int64_t sun, int64_t moon)
{
    const disks_t disks = {separation, sun, moon};
    int64_t share = UNWRITTEN;
    if (raddlehue_covered_share(separation, sun, moon, &share) != RADDLEHUE_NO_DISKS || share != UNWRITTEN)
        complain("not refused by 105, or written to", disks, share);
}

/* Each number at the ends of what is taken, a unit past them, and as far as there is. */
static void edges(void)
{
    const disks_t good = {1000000, 26000000, 27000000};
    const disks_t taken[] = {
        {0, good.sun, good.moon}, {greatest_separation, good.sun, good.moon}, {good.separation, least_sun, good.moon},
        {good.separation, greatest_radius, good.moon}, {good.separation, good.sun, 0}, {good.separation, good.sun, greatest_radius},
    };
    const int64_t far[2] = {INT64_MIN, INT64_MAX};
    size_t i;
    for (i = 0; i < sizeof taken / sizeof *taken; i++)
        hold(taken[i], share_of(taken[i]));
    refused(-1, good.sun, good.moon);
    refused(greatest_separation + 1, good.sun, good.moon);
    refused(good.separation, least_sun - 1, good.moon);
    refused(good.separation, greatest_radius + 1, good.moon);
    refused(good.separation, good.sun, -1);
    refused(good.separation, good.sun, greatest_radius + 1);
    for (i = 0; i < 2; i++) {
        refused(far[i], good.sun, good.moon);
        refused(good.separation, far[i], good.moon);
        refused(good.separation, good.sun, far[i]);
        refused(far[i], far[i], far[i]);
    }
}

/* ---- Table 4 */

static row_t rows[ROWS];

/* Whole numbers into memory of so many bytes, which holds nothing else; gives what follows them and the bar. */
static char *numbers(char *text, void *into, size_t bytes)
{
    int64_t list[12];
    size_t i;
    for (i = 0; i < bytes / sizeof *list; i++)
        list[i] = strtoll(text, &text, 10);
    memcpy(into, list, bytes);
    return text + strspn(text, " |\n");
}

/* Whether the line is a row, and nothing follows it. */
static int read_row(char *text, row_t *row)
{
    text = numbers(text, &row->start, sizeof row->start);
    text = numbers(text, &row->point, sizeof row->point);
    row->printed = strtod(text, &text);
    text += strspn(text, " |");
    return *numbers(text, &row->known, sizeof row->known) == '\0';
}

/* Whether the file holds seven rows, and comments. */
static int read_rows(const char *path)
{
    FILE *file = fopen(path, "r");
    char line[1024];
    int count = 0, readable = file != NULL;
    while (readable && fgets(line, sizeof line, file))
        if (line[0] != '#')
            readable = count < ROWS && read_row(line, &rows[count++]);
    if (file)
        fclose(file);
    return readable && count == ROWS;
}

/* The row of a year; the last where there is none, and its answers will be found wrong. */
static const row_t *row_of_year(int64_t year)
{
    const row_t *row = rows;
    while (row < rows + ROWS - 1 && row->start.year != year)
        row++;
    return row;
}

/* The eclipse of a moment and its disks; the share is theirs by itself too. */
static raddlehue_eclipse_t eclipse(const raddlehue_start_ms_t *start, const raddlehue_point_t *point, disks_t *disks)
{
    raddlehue_eclipse_t found = {UNWRITTEN, UNWRITTEN, UNWRITTEN, UNWRITTEN};
    uint32_t refusal = raddlehue_eclipse(start, point, &found);
    disks->separation = found.separation_e8;
    disks->sun = found.sun_radius_e8;
    disks->moon = found.moon_radius_e8;
    if (refusal != RADDLEHUE_ACCEPTED || share_of(*disks) != found.share_millionths)
        complain("refused, or not the share of its own disks", *disks, found.share_millionths);
    hold(*disks, found.share_millionths);
    return found;
}

/* The known answers, and within the uncertainty of the separation as printed. */
static void table(void)
{
    const row_t *row;
    for (row = rows; row < rows + ROWS; row++) {
        disks_t disks;
        raddlehue_eclipse_t found = eclipse(&row->start, &row->point, &disks);
        if (memcmp(&found, &row->known, sizeof found) != 0)
            complain_of_row("not the known answer", row);
        if (fabs((double)found.separation_e8 / RADDLEHUE_DEGREE_E8 - row->printed) > uncertainty)
            complain_of_row("too far from the separation as printed", row);
        if (case_of(disks) != (row->start.year == 1981 ? RING : WHOLE))
            complain_of_row("not the eclipse that it was", row);
    }
}

/* ---- second by second */

#define AT(hour, minute, second) ((hour) * 3600 + (minute) * 60 + (second))

/* From when to when, in seconds of the day of that year's row, the share is above 0 (first, last), and the whole Sun is covered or a ring is left (central); the walk begins before
 * and ends after. */
typedef struct {
    int64_t year, begin, first, central_first, central_last, last, end;
    case_t central;
} passage_t;

static const passage_t passages[] = {
    {2009, AT(1, 0, 0), AT(1, 5, 48), AT(2, 29, 35), AT(2, 36, 16), AT(3, 56, 46), AT(5, 0, 0), WHOLE},
    {1981, AT(20, 0, 0), AT(20, 30, 4), AT(21, 57, 28), AT(21, 57, 58), AT(23, 24, 2), AT(24, 0, 0), RING},
};

static int is_between(int64_t first, int64_t second, int64_t last)
{
    return first <= second && second <= last;
}

/* The share rises to the last central second and falls from there, with no step the other way. */
static void walk(const passage_t *passage)
{
    const row_t *row = row_of_year(passage->year);
    raddlehue_start_ms_t start = row->start;
    int64_t before = 0, second;
    for (second = passage->begin; second < passage->end; second++) {
        disks_t disks;
        int64_t share;
        start.hour = second / AT(1, 0, 0);
        start.minute = second / AT(0, 1, 0) % 60;
        start.second = second % AT(0, 1, 0);
        share = eclipse(&start, &row->point, &disks).share_millionths;
        if ((share > 0) != is_between(passage->first, second, passage->last))
            complain("a contact at another second", disks, share);
        if ((case_of(disks) == passage->central) != is_between(passage->central_first, second, passage->central_last))
            complain("whole, or a ring, at another second", disks, share);
        if (second <= passage->central_last ? share < before : share > before)
            complain("a step the wrong way", disks, share);
        before = share;
    }
}

int main(int argc, char **argv)
{
    const int64_t count = argc == 3 ? atoll(argv[1]) : 0;
    size_t i;
    if (count <= 0 || !read_rows(argv[2])) {
        fprintf(stderr, "overlap COUNT FILE, a number above 0 and the rows of Table 4\n");
        return 1;
    }
    triples(count);
    edges();
    table();
    for (i = 0; i < sizeof passages / sizeof *passages; i++)
        walk(&passages[i]);
    for (i = 0; i < CASES; i++)
        if (shares_of_case[i] == 0) {
            wrong++;
            fprintf(stderr, "overlap: a case of the share was never drawn\n");
        }
    printf("overlap: %" PRId64 " triples, the %d eclipses of Table 4 and %zu second by second: nothing %" PRId64 ", the whole %" PRId64 ", rings %" PRId64 ", lenses %" PRId64 "\n",
           count, ROWS, sizeof passages / sizeof *passages, shares_of_case[NOTHING], shares_of_case[WHOLE], shares_of_case[RING], shares_of_case[LENS]);
    printf("    %.4Lf to %.4Lf millionths from the area of two circles, %" PRId64 " wrong\n", lowest, highest, wrong);
    return wrong != 0;
}
