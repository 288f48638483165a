/* Every export, and every function beside one, called from C or C++ with answers of tests/vectors and, for days, of DE431; a refused call leaves what it was lent as it was.
 * Silent where all of that holds. It is C89 and C++98 as well as all that came after them. */
#include "raddlehue.h"
#include "raddlehue.h"

#include <stddef.h>
#include <stdio.h>
#include <string.h>

#define CHECK(holds)                                                    \
    do {                                                                \
        if (!(holds)) {                                                 \
            fprintf(stderr, "header, line %d: %s\n", __LINE__, #holds); \
            return 1;                                                   \
        }                                                               \
    } while (0)

/* moon 1960 8 6 20 27 28 600 -500 79400 585407609 389472334 769 carried-over */
static const raddlehue_start_ms_t moon_start = {1960, 8, 6, 20, 27, 28, 600, -500, 79400};
static const raddlehue_point_t moon_point = {585407609, 389472334, 769};
static const raddlehue_air_t temperate = {RADDLEHUE_AIR_MEASURED, 1010.0, 10.0};

/* sun 2084 10 1 16 53 51 600 -500 55700 -481509256 -499537563 1954 measured 1200 80 */
static const raddlehue_start_ms_t sun_start = {2084, 10, 1, 16, 53, 51, 600, -500, 55700};
static const raddlehue_point_t sun_point = {-481509256, -499537563, 1954};
static const raddlehue_air_t measured = {RADDLEHUE_AIR_MEASURED, 1200.0, 80.0};

/* The Sun straight over Lahaina on Maui, by reference/: 0.1 s before it is in the east, and 0.1 s after in the west. */
static const raddlehue_start_ms_t overhead_start = {2005, 7, 18, 22, 32, 59, 0, 0, 64700};
static const raddlehue_start_ms_t just_before = {2005, 7, 18, 22, 32, 58, 900, 0, 64700};
static const raddlehue_point_t lahaina = {-1566828813, 208783487, 0};

/* moon 2038 9 14 15 57 15 900 300 1022400 -464318022 25923395 54 carried-over: straight underfoot */
static const raddlehue_start_ms_t underfoot_start = {2038, 9, 14, 15, 57, 15, 900, 300, 1022400};
static const raddlehue_point_t underfoot_point = {-464318022, 25923395, 54};

/* batch moon 1901 10 16 9 53 46 700 -400 7754900 -202447758 -340487719 5521 3 3 ; 257700 */
static const raddlehue_start_ms_t batch_start = {1901, 10, 16, 9, 53, 46, 700, -400, 7754900};
static const raddlehue_point_t batch_point = {-202447758, -340487719, 5521};

/* batch moon 2100 12 31 23 51 23 500 -100 3393100 -243466823 -65708847 6033 4 4 ; 235900 710300 86700 */
static const raddlehue_start_ms_t late_start = {2100, 12, 31, 23, 51, 23, 500, -100, 3393100};
static const raddlehue_point_t late_point = {-243466823, -65708847, 6033};

/* The longest day at Greenwich, whose rise and set DE431 has at the same minutes. */
static const raddlehue_date_ms_t longest_day = {2009, 6, 21, 0, 65900};
static const raddlehue_point_t greenwich = {0, 514769000, 46};

/* sun 1900 1 1 0 0 0 0 -900 -7999900 -1792408461 -230700717 -500 none: straight overhead at minute 0 */
static const raddlehue_date_ms_t overhead_date = {1900, 1, 1, -900, -7999900};
static const raddlehue_point_t overhead_point = {-1792408461, -230700717, -500};

/* A day of a body at a point, as a proposal is judged by it. */
typedef struct {
    raddlehue_date_ms_t date;
    uint32_t body;
    raddlehue_point_t point;
} asked_t;

/* The Sun goes with the clock, the Sun against it, and the Moon. */
static const asked_t greenwich_sun = {{2009, 6, 21, 0, 65900}, RADDLEHUE_SUN, {0, 514769000, 46}};
static const asked_t hobart_sun = {{2026, 11, 17, 0, 69200}, RADDLEHUE_SUN, {1473272000, -428821000, 20}};
static const asked_t boulder_moon = {{2003, 10, 17, 0, 67000}, RADDLEHUE_MOON, {-1051786000, 397424760, 1830}};

/* No azimuth at minute 0 (the day above), and at minute 568 (sun 1956 7 6 9 28 0 0 -400 -2155300 391266306 226824578 5078 none, straight overhead). */
static const asked_t overhead_at_0 = {{1900, 1, 1, -900, -7999900}, RADDLEHUE_SUN, {-1792408461, -230700717, -500}};
static const asked_t overhead_at_568 = {{1956, 7, 6, -400, -2155300}, RADDLEHUE_SUN, {391266306, 226824578, 5078}};

/* The equinox in the Gulf of Guinea: at minute 720 the azimuth is 9006292509, at minute 721 it is 27006292509, exactly opposite. */
static const asked_t opposite_at_noon = {{2026, 3, 20, 0, 69100}, RADDLEHUE_SUN, {17322914, -452846, 0}};

/* The solstice near the date line: the first minute and the last are exactly opposite, 27022554181 and 9022554181. */
static const asked_t opposite_ends = {{2026, 6, 21, 0, 69100}, RADDLEHUE_SUN, {-1794024015, 234370340, 0}};

/* A strip of ten minutes, and its header by hand from 02: 592 bytes follow the length. */
static const raddlehue_strip_t ten_minutes = {RADDLEHUE_AIR_NONE, RADDLEHUE_MOON, 2003, 10, 17, -1051786000, 397424760, 10};
static const uint8_t ten_minutes_header[RADDLEHUE_STRIP_HEADER] = {
    0x02, 0x50, 1, 0, 1, 0x07, 0xd3, 10, 17, 0xc1, 0x4f, 0x04, 0xf0, 0x17, 0xb0, 0x38, 0x78, 10};

/* 003, Table 4, its first eclipse and its last: the whole Sun, and a ring. */
static const raddlehue_start_ms_t whole_start = {2009, 7, 22, 2, 33, 0, 0, 0, 66400};
static const raddlehue_point_t whole_point = {1433617000, 246117000, 0};
static const raddlehue_start_ms_t ring_start = {1981, 2, 4, 21, 57, 36, 0, 0, 51500};
static const raddlehue_point_t ring_point = {-1459033000, -458883000, 0};

static const int64_t reach = 3190473360000;

/* The doubles of the vectors are written as their bits. */
static uint64_t bits(double number)
{
    uint64_t found;
    memcpy(&found, &number, sizeof found);
    return found;
}

static int constants(void)
{
    char version[32];
    sprintf(version, "%d.%d.%d", RADDLEHUE_VERSION_MAJOR, RADDLEHUE_VERSION_MINOR, RADDLEHUE_VERSION_PATCH);
    CHECK(strcmp(version, RADDLEHUE_VERSION) == 0);
    CHECK(RADDLEHUE_SECOND_MS == 1000 && RADDLEHUE_DEGREE_E7 == 10000000 && RADDLEHUE_DEGREE_E8 == 100000000);
    CHECK(RADDLEHUE_DAY_MINUTES == 1440 && RADDLEHUE_RISE_SET_E8 == -83330000 && RADDLEHUE_LOWEST_REFRACTED_E8 == -83337000);
    CHECK(RADDLEHUE_NO_DIRECTION_E8 == (int64_t)(~(uint64_t)0 >> 1) && sizeof(RADDLEHUE_NO_DIRECTION_E8) == sizeof(int64_t));
    CHECK(RADDLEHUE_STRIP_HEADER == 18 && RADDLEHUE_STRIP_STEPS(1) == 1440 && RADDLEHUE_STRIP_STEPS(2) == 720 && RADDLEHUE_STRIP_STEPS(5) == 288);
    CHECK(RADDLEHUE_STRIP_STEPS(5 + 5) == 144 && RADDLEHUE_STRIP_BYTES(1) == 5778 && RADDLEHUE_STRIP_BYTES(5 + 5) == 594);
    CHECK(RADDLEHUE_NO_AZIMUTH_E7 == (uint32_t)~(uint32_t)0 && sizeof(RADDLEHUE_NO_AZIMUTH_E7) == sizeof(uint32_t));
    CHECK(RADDLEHUE_SUN == 0 && RADDLEHUE_MOON == 1);
    CHECK(RADDLEHUE_AIR_NONE == 0 && RADDLEHUE_AIR_MEASURED == 2 && RADDLEHUE_AIR_CARRIED_OVER == 3);
    return 0;
}

/* The archive has arrays of numbers where the header has structs. */
static int sizes(void)
{
    CHECK(sizeof(raddlehue_start_ms_t) == 9 * sizeof(int64_t));
    CHECK(sizeof(raddlehue_point_t) == 3 * sizeof(int64_t));
    CHECK(sizeof(raddlehue_place_t) == 2 * sizeof(int64_t));
    CHECK(offsetof(raddlehue_place_t, azimuth_if_any_e8) == 0 && offsetof(raddlehue_place_t, elevation_e8) == 8);
    CHECK(sizeof(raddlehue_shown_place_t) == 3 * sizeof(double));
    CHECK(offsetof(raddlehue_shown_place_t, azimuth_if_any_degrees) == 0 && offsetof(raddlehue_shown_place_t, elevation_degrees) == 8);
    CHECK(offsetof(raddlehue_shown_place_t, refraction_degrees) == 16);
    CHECK(sizeof(raddlehue_batch_t) == 2 * sizeof(uint64_t));
    CHECK(sizeof(raddlehue_date_ms_t) == 5 * sizeof(int64_t));
    CHECK(sizeof(raddlehue_rise_set_t) == 4 * sizeof(uint32_t));
    CHECK(sizeof(raddlehue_strip_t) == 8 * sizeof(int64_t));
    CHECK(offsetof(raddlehue_strip_t, air_kind) == 0 && offsetof(raddlehue_strip_t, body) == 8 && offsetof(raddlehue_strip_t, year) == 16);
    CHECK(offsetof(raddlehue_strip_t, month) == 24 && offsetof(raddlehue_strip_t, day) == 32 && offsetof(raddlehue_strip_t, longitude_e7) == 40);
    CHECK(offsetof(raddlehue_strip_t, latitude_e7) == 48 && offsetof(raddlehue_strip_t, step_minutes) == 56);
    CHECK(sizeof(raddlehue_strip_measured_t) == 2 * sizeof(double));
    CHECK(offsetof(raddlehue_strip_measured_t, pressure_mbar) == 0 && offsetof(raddlehue_strip_measured_t, temperature_celsius) == 8);
    CHECK(sizeof(raddlehue_strip_part_t) == 3 * sizeof(uint64_t) && offsetof(raddlehue_strip_part_t, strip) == 0);
    CHECK(offsetof(raddlehue_strip_part_t, offset) == 8 && offsetof(raddlehue_strip_part_t, length) == 16);
    CHECK(sizeof(raddlehue_eclipse_t) == 4 * sizeof(int64_t));
    CHECK(sizeof(raddlehue_instant_t) == 2 * sizeof(int64_t));
    CHECK(sizeof(raddlehue_moon_sums_t) == 3 * sizeof(int64_t));
    CHECK(sizeof(raddlehue_sun_sums_t) == 3 * sizeof(int64_t));
    CHECK(sizeof(raddlehue_nutation_t) == 3 * sizeof(int64_t));
    CHECK(sizeof(int64_t) == 8 && sizeof(double) == 8 && sizeof(uint32_t) == 4 && sizeof(uint8_t) == 1);
    return 0;
}

static int known(uint32_t refusal)
{
    return strcmp(raddlehue_refusal_text(refusal), "unknown refusal") != 0;
}

static int texts(void)
{
    uint32_t refusal;
    for (refusal = 0; refusal < 300; refusal++)
        CHECK(known(refusal) == (refusal <= 16 || (20 <= refusal && refusal <= 32) || (101 <= refusal && refusal <= 107)));
    CHECK(!known(0xffffffffu));
    CHECK(strcmp(raddlehue_refusal_text(RADDLEHUE_ACCEPTED), "accepted") == 0);
    CHECK(strcmp(raddlehue_refusal_text(RADDLEHUE_YEAR), "the year is not 1900 to 2100") == 0);
    CHECK(strcmp(raddlehue_refusal_text(RADDLEHUE_STRIP_STEP), "the step is not 1, 2, 5 or 10 minutes") == 0);
    CHECK(strcmp(raddlehue_refusal_text(RADDLEHUE_PROPOSAL_OUT), "a minute of the proposal is out of tolerance") == 0);
    CHECK(strcmp(raddlehue_refusal_text(RADDLEHUE_NO_STEP), "the strip has no such step") == 0);
    CHECK(RADDLEHUE_PROPOSAL_POINTS == 29 && RADDLEHUE_PROPOSAL_OPPOSITE == 30 && RADDLEHUE_PROPOSAL_OUT == 31 && RADDLEHUE_NO_PLAN == 107);
    CHECK(RADDLEHUE_STRIP_MEASURED_AIR == 32);
    return 0;
}

static int place(void)
{
    uint32_t flag = 77;
    raddlehue_place_t place = {-7, -8};
    raddlehue_place_answer_t answer;
    CHECK(raddlehue_place(&moon_start, 2, &moon_point, 3, 0.0, 0.0, &flag, &place) == RADDLEHUE_UNKNOWN_BODY);
    CHECK(raddlehue_place(&moon_start, RADDLEHUE_MOON, &moon_point, 3, 0.0, 0.0, &flag, &place) == RADDLEHUE_UNKNOWN_AIR);
    CHECK(raddlehue_place(&moon_start, RADDLEHUE_MOON, &moon_point, 1, 0.0, 0.0, &flag, &place) == RADDLEHUE_UNKNOWN_AIR);
    CHECK(raddlehue_place(&moon_start, RADDLEHUE_MOON, &moon_point, RADDLEHUE_AIR_MEASURED, 1200.5, 81.0, &flag, &place) == RADDLEHUE_PRESSURE);
    CHECK(raddlehue_place(&moon_start, RADDLEHUE_MOON, &moon_point, RADDLEHUE_AIR_MEASURED, 1200.0, 81.0, &flag, &place) == RADDLEHUE_TEMPERATURE);
    CHECK(flag == 77 && place.azimuth_if_any_e8 == -7 && place.elevation_e8 == -8);
    CHECK(raddlehue_place(&moon_start, RADDLEHUE_MOON, &moon_point, RADDLEHUE_AIR_MEASURED, 1010.0, 10.0, &flag, &place) == RADDLEHUE_ACCEPTED);
    CHECK(flag == 1 && place.azimuth_if_any_e8 == 19009485461 && place.elevation_e8 == 3497984949);

    answer = raddlehue_place_of(sun_start, RADDLEHUE_SUN, sun_point, measured);
    CHECK(answer.refusal == RADDLEHUE_ACCEPTED && answer.has_azimuth == 1);
    CHECK(answer.azimuth_if_any_e8 == 32348562605 && answer.elevation_e8 == 3810078907);
    answer = raddlehue_place_of(sun_start, 2, sun_point, measured);
    CHECK(answer.refusal == RADDLEHUE_UNKNOWN_BODY && answer.has_azimuth == 0);
    CHECK(answer.azimuth_if_any_e8 == 0 && answer.elevation_e8 == 0);
    return 0;
}

/* Each number of a request out of its range, the later ones first, so that each refusal goes before those that are found already. */
static int refusals(void)
{
    raddlehue_start_ms_t start = moon_start;
    raddlehue_point_t point = moon_point;
    raddlehue_air_t air = {RADDLEHUE_AIR_MEASURED, 1010.0, -80.5};
    CHECK(raddlehue_place_of(start, RADDLEHUE_SUN, point, air).refusal == RADDLEHUE_TEMPERATURE);
    air.pressure_mbar = -0.5;
    CHECK(raddlehue_place_of(start, RADDLEHUE_SUN, point, air).refusal == RADDLEHUE_PRESSURE);
    point.height_metres = -501;
    CHECK(raddlehue_place_of(start, RADDLEHUE_SUN, point, air).refusal == RADDLEHUE_HEIGHT);
    point.latitude_e7 = 900000001;
    CHECK(raddlehue_place_of(start, RADDLEHUE_SUN, point, air).refusal == RADDLEHUE_LATITUDE);
    point.longitude_e7 = -1800000001;
    CHECK(raddlehue_place_of(start, RADDLEHUE_SUN, point, air).refusal == RADDLEHUE_LONGITUDE);
    start.delta_t_ms = 8000001;
    CHECK(raddlehue_place_of(start, RADDLEHUE_SUN, point, air).refusal == RADDLEHUE_DELTA_T);
    start.ut1_ms = 901;
    CHECK(raddlehue_place_of(start, RADDLEHUE_SUN, point, air).refusal == RADDLEHUE_UT1);
    start.fraction_ms = 1000;
    CHECK(raddlehue_place_of(start, RADDLEHUE_SUN, point, air).refusal == RADDLEHUE_CLOCK);
    start.day = 32;
    CHECK(raddlehue_place_of(start, RADDLEHUE_SUN, point, air).refusal == RADDLEHUE_DAY);
    start.month = 13;
    CHECK(raddlehue_place_of(start, RADDLEHUE_SUN, point, air).refusal == RADDLEHUE_MONTH);
    start.year = 2101;
    CHECK(raddlehue_place_of(start, RADDLEHUE_SUN, point, air).refusal == RADDLEHUE_YEAR);
    air.kind = 3;
    CHECK(raddlehue_place_of(start, RADDLEHUE_SUN, point, air).refusal == RADDLEHUE_UNKNOWN_AIR);
    CHECK(raddlehue_place_of(start, 2, point, air).refusal == RADDLEHUE_UNKNOWN_BODY);
    return 0;
}

static uint32_t refusal_at(int64_t fraction_ms, int64_t ut1_ms, int64_t delta_t_ms)
{
    raddlehue_start_ms_t start = moon_start;
    start.fraction_ms = fraction_ms;
    start.ut1_ms = ut1_ms;
    start.delta_t_ms = delta_t_ms;
    return raddlehue_instant_of(start).refusal;
}

/* sun 1949 1 12 3 18 41 906 31 -1239899 612395026 -325135240 1454, and the ends of 4, 5 and 6 */
static int milliseconds(void)
{
    const raddlehue_start_ms_t start = {1949, 1, 12, 3, 18, 41, 906, 31, -1239899};
    const raddlehue_point_t point = {612395026, -325135240, 1454};
    raddlehue_place_answer_t answer = raddlehue_place_of(start, RADDLEHUE_SUN, point, temperate);
    CHECK(answer.refusal == RADDLEHUE_ACCEPTED && answer.azimuth_if_any_e8 == 9971499373 && answer.elevation_e8 == 2688456507);
    CHECK(refusal_at(0, -900, -8000000) == RADDLEHUE_ACCEPTED && refusal_at(999, 900, 8000000) == RADDLEHUE_ACCEPTED);
    CHECK(refusal_at(-1, -901, -8000001) == RADDLEHUE_CLOCK && refusal_at(1000, 901, 8000001) == RADDLEHUE_CLOCK);
    CHECK(refusal_at(0, -901, -8000001) == RADDLEHUE_UT1 && refusal_at(999, 901, 8000001) == RADDLEHUE_UT1);
    CHECK(refusal_at(0, -900, -8000001) == RADDLEHUE_DELTA_T && refusal_at(999, 900, 8000001) == RADDLEHUE_DELTA_T);
    return 0;
}

static int shown_place(void)
{
    uint32_t flag = 77;
    raddlehue_shown_place_t shown = {-7.0, -8.0, -9.0};
    raddlehue_shown_place_answer_t answer;
    CHECK(raddlehue_shown_place(&sun_start, 2, &sun_point, 3, 0.0, 0.0, &flag, &shown) == RADDLEHUE_UNKNOWN_BODY);
    CHECK(raddlehue_shown_place(&sun_start, RADDLEHUE_SUN, &sun_point, 3, 0.0, 0.0, &flag, &shown) == RADDLEHUE_UNKNOWN_AIR);
    CHECK(raddlehue_shown_place(&sun_start, RADDLEHUE_SUN, &sun_point, 1, 0.0, 0.0, &flag, &shown) == RADDLEHUE_UNKNOWN_AIR);
    CHECK(raddlehue_shown_place(&sun_start, RADDLEHUE_SUN, &sun_point, RADDLEHUE_AIR_MEASURED, 1200.0, 80.5, &flag, &shown) == RADDLEHUE_TEMPERATURE);
    CHECK(flag == 77 && shown.azimuth_if_any_degrees == -7.0 && shown.elevation_degrees == -8.0 && shown.refraction_degrees == -9.0);
    CHECK(raddlehue_shown_place(&sun_start, RADDLEHUE_SUN, &sun_point, RADDLEHUE_AIR_MEASURED, 1200.0, 80.0, &flag, &shown) == RADDLEHUE_ACCEPTED);
    CHECK(flag == 1 && bits(shown.azimuth_if_any_degrees) == 0x407437c51fd22d5f);
    CHECK(bits(shown.elevation_degrees) == 0x40430f8592fd1b44 && bits(shown.refraction_degrees) == 0x3f94f757eb13390b);

    answer = raddlehue_shown_place_of(moon_start, RADDLEHUE_MOON, moon_point, temperate);
    CHECK(answer.refusal == RADDLEHUE_ACCEPTED && answer.has_azimuth == 1 && bits(answer.azimuth_if_any_degrees) == 0x4067c3090c88fa65);
    CHECK(bits(answer.elevation_degrees) == 0x404180804f70a596 && bits(answer.refraction_degrees) == 0x3f98a4d15af7270f);
    answer = raddlehue_shown_place_of(moon_start, 2, moon_point, temperate);
    CHECK(answer.refusal == RADDLEHUE_UNKNOWN_BODY && answer.has_azimuth == 0 && answer.azimuth_if_any_degrees == 0.0);
    CHECK(answer.elevation_degrees == 0.0 && answer.refraction_degrees == 0.0);
    return 0;
}

/* No azimuth: the flag says so, and the number is 0. */
static int no_azimuth(void)
{
    uint32_t flag = 77;
    raddlehue_place_t place = {-7, -8};
    raddlehue_place_answer_t answer = raddlehue_place_of(overhead_start, RADDLEHUE_SUN, lahaina, temperate);
    CHECK(raddlehue_place(&overhead_start, RADDLEHUE_SUN, &lahaina, RADDLEHUE_AIR_MEASURED, 1010.0, 10.0, &flag, &place) == RADDLEHUE_ACCEPTED);
    CHECK(flag == 0 && place.azimuth_if_any_e8 == 0 && place.elevation_e8 == 8999999993);
    CHECK(answer.refusal == RADDLEHUE_ACCEPTED && answer.has_azimuth == 0);
    CHECK(answer.azimuth_if_any_e8 == 0 && answer.elevation_e8 == 8999999993);
    answer = raddlehue_place_of(underfoot_start, RADDLEHUE_MOON, underfoot_point, temperate);
    CHECK(answer.refusal == RADDLEHUE_ACCEPTED && answer.has_azimuth == 0);
    CHECK(answer.azimuth_if_any_e8 == 0 && answer.elevation_e8 == -8999999993);
    return 0;
}

static int no_azimuth_shown(void)
{
    uint32_t flag = 77;
    raddlehue_shown_place_t shown = {-7.0, -8.0, -9.0};
    raddlehue_shown_place_answer_t answer = raddlehue_shown_place_of(overhead_start, RADDLEHUE_SUN, lahaina, temperate);
    CHECK(raddlehue_shown_place(&overhead_start, RADDLEHUE_SUN, &lahaina, RADDLEHUE_AIR_MEASURED, 1010.0, 10.0, &flag, &shown) == RADDLEHUE_ACCEPTED);
    CHECK(flag == 0 && bits(shown.azimuth_if_any_degrees) == 0);
    CHECK(bits(shown.elevation_degrees) == 0x40567fff78ef6395 && bits(shown.refraction_degrees) == 0xbf00d8ae5ee2ca9d);
    CHECK(answer.refusal == RADDLEHUE_ACCEPTED && answer.has_azimuth == 0 && bits(answer.azimuth_if_any_degrees) == 0);
    CHECK(bits(answer.elevation_degrees) == 0x40567fff78ef6395 && bits(answer.refraction_degrees) == 0xbf00d8ae5ee2ca9d);
    return 0;
}

/* The mark stands in that entry alone, and the middle refuses it. */
static int no_azimuth_in_a_batch(void)
{
    const uint32_t offsets[3] = {200, 100, 0};
    int64_t azimuths[4] = {-7, -7, -7, -7}, elevations[4] = {-8, -8, -8, -8};
    raddlehue_batch_answer_t answer = raddlehue_batch_ms_of(just_before, RADDLEHUE_SUN, lahaina, offsets, 3, azimuths, 4, elevations, 4);
    CHECK(answer.refusal == RADDLEHUE_ACCEPTED && answer.index == 0 && answer.count == 3);
    CHECK(azimuths[0] == 26995783452 && azimuths[1] == RADDLEHUE_NO_DIRECTION_E8 && azimuths[2] == 8999156196 && azimuths[3] == -7);
    CHECK(elevations[0] == 8999961083 && elevations[1] == 8999999993 && elevations[2] == 8999961083 && elevations[3] == -8);
    CHECK(raddlehue_middle_of(azimuths[0], azimuths[1]).refusal == RADDLEHUE_NOT_REDUCED);
    CHECK(raddlehue_middle_of(azimuths[1], azimuths[1]).refusal == RADDLEHUE_NOT_REDUCED);
    return 0;
}

static int batch(void)
{
    const uint32_t offsets[1] = {257700};
    int64_t azimuths[3] = {-7, -7, -7}, elevations[3] = {-8, -8, -8};
    raddlehue_batch_t batch = {77, 88};
    raddlehue_batch_answer_t answer;
    CHECK(raddlehue_batch_ms(&batch_start, RADDLEHUE_MOON, &batch_point, offsets, 1, azimuths, 3, elevations, 3, &batch) == RADDLEHUE_ACCEPTED);
    CHECK(batch.index == 0 && batch.count == 1);
    CHECK(azimuths[0] == 10627468805 && azimuths[1] == -7 && azimuths[2] == -7);
    CHECK(elevations[0] == 957985423 && elevations[1] == -8 && elevations[2] == -8);

    azimuths[0] = -7;
    answer = raddlehue_batch_ms_of(batch_start, RADDLEHUE_MOON, batch_point, offsets, 1, azimuths, 1, elevations, 1);
    CHECK(answer.refusal == RADDLEHUE_ACCEPTED && answer.index == 0 && answer.count == 1 && azimuths[0] == 10627468805);
    return 0;
}

static int refused_batch(void)
{
    const uint32_t offsets[3] = {235900, 710300, 86700};
    int64_t azimuths[3] = {-7, -7, -7}, elevations[3] = {-8, -8, -8};
    raddlehue_start_ms_t nowhen = late_start;
    raddlehue_batch_t batch = {77, 88};
    raddlehue_batch_answer_t answer;
    nowhen.year = 1899;
    CHECK(raddlehue_batch_ms(&nowhen, 2, &late_point, offsets, 3, azimuths, 3, elevations, 3, &batch) == RADDLEHUE_UNKNOWN_BODY);
    CHECK(raddlehue_batch_ms(&nowhen, RADDLEHUE_MOON, &late_point, offsets, 3, azimuths, 2, elevations, 3, &batch) == RADDLEHUE_YEAR);
    CHECK(raddlehue_batch_ms(&late_start, RADDLEHUE_MOON, &late_point, offsets, 3, azimuths, 2, elevations, 3, &batch) == RADDLEHUE_SHORT_BUFFER);
    CHECK(raddlehue_batch_ms(&late_start, RADDLEHUE_MOON, &late_point, offsets, 3, azimuths, 3, elevations, 2, &batch) == RADDLEHUE_SHORT_BUFFER);
    CHECK(batch.index == 77 && batch.count == 88);
    CHECK(raddlehue_batch_ms(&late_start, RADDLEHUE_MOON, &late_point, offsets, 3, azimuths, 3, elevations, 3, &batch) == RADDLEHUE_TOO_LATE);
    CHECK(batch.index == 1 && batch.count == 0);
    answer = raddlehue_batch_ms_of(late_start, RADDLEHUE_MOON, late_point, offsets, 3, azimuths, 3, elevations, 3);
    CHECK(answer.refusal == RADDLEHUE_TOO_LATE && answer.index == 1 && answer.count == 0);
    answer = raddlehue_batch_ms_of(late_start, RADDLEHUE_MOON, late_point, offsets, 3, azimuths, 0, elevations, 0);
    CHECK(answer.refusal == RADDLEHUE_SHORT_BUFFER && answer.index == 0 && answer.count == 0);
    CHECK(azimuths[0] == -7 && azimuths[1] == -7 && azimuths[2] == -7);
    CHECK(elevations[0] == -8 && elevations[1] == -8 && elevations[2] == -8);
    return 0;
}

/* The last moment of all, and a millisecond after it. */
static int last_moment(void)
{
    const raddlehue_start_ms_t last = {2100, 12, 31, 23, 59, 59, 999, 0, 0};
    const uint32_t offsets[3] = {0, 1, 0};
    int64_t azimuths[3] = {-7, -7, -7}, elevations[3] = {-8, -8, -8};
    raddlehue_batch_answer_t answer = raddlehue_batch_ms_of(last, RADDLEHUE_MOON, late_point, offsets, 3, azimuths, 3, elevations, 3);
    CHECK(answer.refusal == RADDLEHUE_TOO_LATE && answer.index == 1 && answer.count == 0 && azimuths[0] == -7 && elevations[0] == -8);
    answer = raddlehue_batch_ms_of(last, RADDLEHUE_MOON, late_point, offsets, 1, azimuths, 3, elevations, 3);
    CHECK(answer.refusal == RADDLEHUE_ACCEPTED && answer.count == 1 && azimuths[0] != -7 && azimuths[1] == -7);
    return 0;
}

/* A length of 0 may come with a null pointer. */
static int empty_batch(void)
{
    const uint32_t offsets[1] = {0};
    raddlehue_batch_t batch = {77, 88};
    raddlehue_batch_answer_t answer;
    CHECK(raddlehue_batch_ms(&batch_start, RADDLEHUE_SUN, &batch_point, 0, 0, 0, 0, 0, 0, &batch) == RADDLEHUE_ACCEPTED);
    CHECK(batch.index == 0 && batch.count == 0);
    answer = raddlehue_batch_ms_of(batch_start, RADDLEHUE_SUN, batch_point, offsets, 1, 0, 0, 0, 0);
    CHECK(answer.refusal == RADDLEHUE_SHORT_BUFFER && answer.index == 0 && answer.count == 0);
    return 0;
}

/* A minute of the day as a moment of its own. */
static raddlehue_place_answer_t place_at(raddlehue_date_ms_t date, int64_t minute, uint32_t body, raddlehue_point_t point)
{
    raddlehue_start_ms_t start = {0, 0, 0, 0, 0, 0, 0, 0, 0};
    start.year = date.year;
    start.month = date.month;
    start.day = date.day;
    start.hour = minute / 60;
    start.minute = minute % 60;
    start.ut1_ms = date.ut1_ms;
    start.delta_t_ms = date.delta_t_ms;
    return raddlehue_place_of(start, body, point, temperate);
}

static int rises_and_sets(raddlehue_day_answer_t answer, uint32_t has_rise, uint32_t rise_minute, uint32_t has_set, uint32_t set_minute)
{
    return answer.refusal == RADDLEHUE_ACCEPTED && answer.has_rise == has_rise && answer.rise_minute == rise_minute &&
           answer.has_set == has_set && answer.set_minute == set_minute;
}

/* Every minute of the curve is the place's elevation, and what follows the curve is left alone. */
static int day(void)
{
    int64_t elevations[RADDLEHUE_DAY_MINUTES + 1], minute;
    raddlehue_rise_set_t rise_set = {7, 8, 9, 10};
    elevations[RADDLEHUE_DAY_MINUTES] = -7;
    CHECK(raddlehue_day(&longest_day, RADDLEHUE_SUN, &greenwich, elevations, &rise_set) == RADDLEHUE_ACCEPTED);
    CHECK(rise_set.has_rise == 1 && rise_set.rise_minute == 223 && rise_set.has_set == 1 && rise_set.set_minute == 1221);
    for (minute = 0; minute < RADDLEHUE_DAY_MINUTES; minute++)
        CHECK(elevations[minute] == place_at(longest_day, minute, RADDLEHUE_SUN, greenwich).elevation_e8);
    CHECK(elevations[222] < RADDLEHUE_RISE_SET_E8 && RADDLEHUE_RISE_SET_E8 <= elevations[223]);
    CHECK(elevations[1220] >= RADDLEHUE_RISE_SET_E8 && RADDLEHUE_RISE_SET_E8 > elevations[1221]);
    CHECK(rises_and_sets(raddlehue_day_of(longest_day, RADDLEHUE_MOON, greenwich, elevations), 1, 108, 1, 1172));
    CHECK(elevations[719] == place_at(longest_day, 719, RADDLEHUE_MOON, greenwich).elevation_e8);
    CHECK(elevations[RADDLEHUE_DAY_MINUTES] == -7);
    return 0;
}

/* A polar day and a polar night, a rise and a set that stand alone, a rise at minute 0, and the one that 1900-01-01 cannot have. */
static int days_without(void)
{
    const raddlehue_point_t tromso = {189553000, 696492000, 10}, equator = {902000000, 0, 0};
    raddlehue_date_ms_t date = {2026, 6, 21, 0, 69100};
    int64_t elevations[RADDLEHUE_DAY_MINUTES];
    CHECK(rises_and_sets(raddlehue_day_of(date, RADDLEHUE_SUN, tromso, elevations), 0, 0, 0, 0) && elevations[0] >= RADDLEHUE_RISE_SET_E8);
    date.month = 12;
    CHECK(rises_and_sets(raddlehue_day_of(date, RADDLEHUE_SUN, tromso, elevations), 0, 0, 0, 0) && elevations[0] < RADDLEHUE_RISE_SET_E8);
    date.month = 11;
    date.day = 3;
    CHECK(rises_and_sets(raddlehue_day_of(date, RADDLEHUE_MOON, greenwich, elevations), 0, 0, 1, 858));
    date.day = 18;
    CHECK(rises_and_sets(raddlehue_day_of(date, RADDLEHUE_MOON, greenwich, elevations), 1, 806, 0, 0));
    date.year = 1900;
    date.month = 1;
    date.day = 2;
    date.delta_t_ms = -2000;
    CHECK(rises_and_sets(raddlehue_day_of(date, RADDLEHUE_SUN, equator, elevations), 1, 0, 1, 727));
    date.day = 1;
    CHECK(rises_and_sets(raddlehue_day_of(date, RADDLEHUE_SUN, equator, elevations), 0, 0, 1, 727));
    return 0;
}

static int refused_day(void)
{
    raddlehue_date_ms_t date = longest_day;
    raddlehue_point_t point = greenwich;
    raddlehue_rise_set_t rise_set = {7, 8, 9, 10};
    raddlehue_day_answer_t answer;
    int64_t elevations[RADDLEHUE_DAY_MINUTES], minute;
    for (minute = 0; minute < RADDLEHUE_DAY_MINUTES; minute++)
        elevations[minute] = -7;
    point.height_metres = 9001;
    CHECK(raddlehue_day(&date, RADDLEHUE_SUN, &point, elevations, &rise_set) == RADDLEHUE_HEIGHT);
    point.latitude_e7 = 900000001;
    CHECK(raddlehue_day(&date, RADDLEHUE_SUN, &point, elevations, &rise_set) == RADDLEHUE_LATITUDE);
    point.longitude_e7 = -1800000001;
    CHECK(raddlehue_day(&date, RADDLEHUE_SUN, &point, elevations, &rise_set) == RADDLEHUE_LONGITUDE);
    date.delta_t_ms = 8000001;
    CHECK(raddlehue_day(&date, RADDLEHUE_SUN, &point, elevations, &rise_set) == RADDLEHUE_DELTA_T);
    date.ut1_ms = 901;
    CHECK(raddlehue_day(&date, RADDLEHUE_SUN, &point, elevations, &rise_set) == RADDLEHUE_UT1);
    date.day = 31;
    CHECK(raddlehue_day(&date, RADDLEHUE_SUN, &point, elevations, &rise_set) == RADDLEHUE_DAY);
    date.month = 13;
    CHECK(raddlehue_day(&date, RADDLEHUE_SUN, &point, elevations, &rise_set) == RADDLEHUE_MONTH);
    date.year = 2101;
    CHECK(raddlehue_day(&date, RADDLEHUE_SUN, &point, elevations, &rise_set) == RADDLEHUE_YEAR);
    CHECK(raddlehue_day(&date, 2, &point, elevations, &rise_set) == RADDLEHUE_UNKNOWN_BODY);
    CHECK(rise_set.has_rise == 7 && rise_set.rise_minute == 8 && rise_set.has_set == 9 && rise_set.set_minute == 10);
    answer = raddlehue_day_of(date, RADDLEHUE_MOON, greenwich, elevations);
    CHECK(answer.refusal == RADDLEHUE_YEAR && answer.has_rise == 0 && answer.rise_minute == 0 && answer.has_set == 0 && answer.set_minute == 0);
    for (minute = 0; minute < RADDLEHUE_DAY_MINUTES; minute++)
        CHECK(elevations[minute] == -7);
    return 0;
}

/* A minute's azimuth as a strip has it: rounded down, or the mark. */
static uint32_t azimuth_at(raddlehue_date_ms_t date, int64_t minute, uint32_t body, raddlehue_point_t point)
{
    const raddlehue_place_answer_t place = place_at(date, minute, body, point);
    return place.has_azimuth ? (uint32_t)(place.azimuth_if_any_e8 / 10) : RADDLEHUE_NO_AZIMUTH_E7;
}

/* Every step's azimuth is the place's, and the entries behind the last step are left alone. */
static int day_azimuths(void)
{
    const int64_t steps[4] = {1, 2, 5, 10};
    uint32_t azimuths[RADDLEHUE_DAY_MINUTES + 1];
    int64_t kind, entry, count;
    for (kind = 0; kind < 4; kind++) {
        const uint32_t body = kind % 2 ? RADDLEHUE_MOON : RADDLEHUE_SUN;
        uint64_t told = 77;
        for (entry = 0; entry <= RADDLEHUE_DAY_MINUTES; entry++)
            azimuths[entry] = 7;
        CHECK(raddlehue_day_azimuths(&longest_day, body, &greenwich, steps[kind], azimuths, RADDLEHUE_DAY_MINUTES + 1, &told) == RADDLEHUE_ACCEPTED);
        count = RADDLEHUE_STRIP_STEPS(steps[kind]);
        CHECK(told == (uint64_t)count);
        for (entry = 0; entry < count; entry++)
            CHECK(azimuths[entry] == azimuth_at(longest_day, entry * steps[kind], body, greenwich));
        for (; entry <= RADDLEHUE_DAY_MINUTES; entry++)
            CHECK(azimuths[entry] == 7);
    }
    return 0;
}

/* As many entries as there are steps are enough; and a step without an azimuth has the mark, and no other has it. */
static int day_without_an_azimuth(void)
{
    uint32_t azimuths[RADDLEHUE_STRIP_STEPS(10)];
    int64_t entry;
    const raddlehue_day_azimuths_answer_t answer =
        raddlehue_day_azimuths_of(overhead_date, RADDLEHUE_SUN, overhead_point, 10, azimuths, RADDLEHUE_STRIP_STEPS(10));
    CHECK(answer.refusal == RADDLEHUE_ACCEPTED && answer.count == RADDLEHUE_STRIP_STEPS(10));
    CHECK(azimuths[0] == RADDLEHUE_NO_AZIMUTH_E7);
    for (entry = 1; entry < RADDLEHUE_STRIP_STEPS(10); entry++)
        CHECK(azimuths[entry] < 3600000000u && azimuths[entry] == azimuth_at(overhead_date, 10 * entry, RADDLEHUE_SUN, overhead_point));
    return 0;
}

static int refused_day_azimuths(void)
{
    const int64_t no_steps[8] = {0, 3, 4, 11, -1, 1440, 4294967297, (int64_t)(~(uint64_t)0 >> 1)};
    raddlehue_date_ms_t date = longest_day;
    raddlehue_point_t point = greenwich;
    raddlehue_day_azimuths_answer_t answer;
    uint32_t azimuths[RADDLEHUE_STRIP_STEPS(10)];
    uint64_t told = 77;
    int64_t entry;
    for (entry = 0; entry < RADDLEHUE_STRIP_STEPS(10); entry++)
        azimuths[entry] = 7;
    CHECK(raddlehue_day_azimuths(&date, RADDLEHUE_SUN, &point, 10, azimuths, 143, &told) == RADDLEHUE_STRIP_BUFFER);
    CHECK(raddlehue_day_azimuths(&date, RADDLEHUE_SUN, &point, 5, azimuths, 144, &told) == RADDLEHUE_STRIP_BUFFER);
    CHECK(raddlehue_day_azimuths(&date, RADDLEHUE_SUN, &point, 10, 0, 0, &told) == RADDLEHUE_STRIP_BUFFER);
    for (entry = 0; entry < 8; entry++)
        CHECK(raddlehue_day_azimuths(&date, RADDLEHUE_SUN, &point, no_steps[entry], 0, 0, &told) == RADDLEHUE_STRIP_STEP);
    point.height_metres = 9001;
    CHECK(raddlehue_day_azimuths(&date, RADDLEHUE_SUN, &point, 3, azimuths, 143, &told) == RADDLEHUE_HEIGHT);
    point.latitude_e7 = 900000001;
    CHECK(raddlehue_day_azimuths(&date, RADDLEHUE_SUN, &point, 3, azimuths, 143, &told) == RADDLEHUE_LATITUDE);
    point.longitude_e7 = -1800000001;
    CHECK(raddlehue_day_azimuths(&date, RADDLEHUE_SUN, &point, 3, azimuths, 143, &told) == RADDLEHUE_LONGITUDE);
    date.delta_t_ms = 8000001;
    CHECK(raddlehue_day_azimuths(&date, RADDLEHUE_SUN, &point, 3, azimuths, 143, &told) == RADDLEHUE_DELTA_T);
    date.ut1_ms = 901;
    CHECK(raddlehue_day_azimuths(&date, RADDLEHUE_SUN, &point, 3, azimuths, 143, &told) == RADDLEHUE_UT1);
    date.day = 31;
    CHECK(raddlehue_day_azimuths(&date, RADDLEHUE_SUN, &point, 3, azimuths, 143, &told) == RADDLEHUE_DAY);
    date.month = 13;
    CHECK(raddlehue_day_azimuths(&date, RADDLEHUE_SUN, &point, 3, azimuths, 143, &told) == RADDLEHUE_MONTH);
    date.year = 2101;
    CHECK(raddlehue_day_azimuths(&date, RADDLEHUE_SUN, &point, 3, azimuths, 143, &told) == RADDLEHUE_YEAR);
    CHECK(raddlehue_day_azimuths(&date, 2, &point, 3, azimuths, 143, &told) == RADDLEHUE_UNKNOWN_BODY);
    answer = raddlehue_day_azimuths_of(date, RADDLEHUE_MOON, point, 10, azimuths, 144);
    CHECK(answer.refusal == RADDLEHUE_YEAR && answer.count == 0 && told == 77);
    for (entry = 0; entry < RADDLEHUE_STRIP_STEPS(10); entry++)
        CHECK(azimuths[entry] == 7);
    return 0;
}

/* The azimuths of the strip of ten minutes: both ends of the range, the mark, and one whose four bytes differ. */
static void fill_azimuths(uint32_t *azimuths)
{
    uint32_t entry;
    for (entry = 0; entry < RADDLEHUE_STRIP_STEPS(10); entry++)
        azimuths[entry] = entry * 25000000;
    azimuths[1] = 3599999999u;
    azimuths[2] = RADDLEHUE_NO_AZIMUTH_E7;
    azimuths[143] = 0x01020304;
}

/* The strip of ten minutes, and whether it was accepted and as many bytes were written as it has. */
static int make_strip(raddlehue_strip_t strip, uint8_t *bytes, uint64_t length)
{
    uint32_t azimuths[RADDLEHUE_STRIP_STEPS(10)];
    raddlehue_strip_write_answer_t answer;
    fill_azimuths(azimuths);
    answer = raddlehue_strip_write_of(strip, azimuths, RADDLEHUE_STRIP_STEPS(10), bytes, length);
    return answer.refusal == RADDLEHUE_ACCEPTED && answer.written == RADDLEHUE_STRIP_BYTES(10);
}

static int all_are(const uint8_t *bytes, uint64_t length, uint8_t byte)
{
    while (length > 0 && bytes[length - 1] == byte)
        length--;
    return length == 0;
}

/* The bytes are those of 02, and what lies behind them is left alone; the smallest buffer is enough. */
static int strip_write(void)
{
    uint32_t azimuths[RADDLEHUE_STRIP_STEPS(10)], entry;
    uint8_t bytes[RADDLEHUE_STRIP_BYTES(10) + 5], smallest[RADDLEHUE_STRIP_BYTES(10)];
    uint64_t written = 77;
    fill_azimuths(azimuths);
    memset(bytes, 0x5a, sizeof bytes);
    CHECK(raddlehue_strip_write(&ten_minutes, azimuths, RADDLEHUE_STRIP_STEPS(10), bytes, sizeof bytes, &written) == RADDLEHUE_ACCEPTED);
    CHECK(written == RADDLEHUE_STRIP_BYTES(10) && memcmp(bytes, ten_minutes_header, sizeof ten_minutes_header) == 0);
    for (entry = 0; entry < RADDLEHUE_STRIP_STEPS(10); entry++) {
        const uint8_t *four = bytes + RADDLEHUE_STRIP_HEADER + 4 * entry;
        CHECK(four[0] == azimuths[entry] >> 24 && four[1] == (azimuths[entry] >> 16 & 255));
        CHECK(four[2] == (azimuths[entry] >> 8 & 255) && four[3] == (azimuths[entry] & 255));
    }
    CHECK(all_are(bytes + RADDLEHUE_STRIP_BYTES(10), 5, 0x5a));
    CHECK(make_strip(ten_minutes, smallest, sizeof smallest) && memcmp(bytes, smallest, sizeof smallest) == 0);
    return 0;
}

/* The later faults first, so that each refusal goes before those that are found already. */
static int refused_strip_write(void)
{
    raddlehue_strip_t strip = ten_minutes;
    uint32_t azimuths[RADDLEHUE_STRIP_STEPS(10) + 1];
    uint8_t bytes[RADDLEHUE_STRIP_BYTES(10)];
    uint64_t written = 77;
    raddlehue_strip_write_answer_t answer;
    fill_azimuths(azimuths);
    azimuths[144] = 0;
    memset(bytes, 0x5a, sizeof bytes);
    CHECK(raddlehue_strip_write(&strip, azimuths, 144, bytes, 593, &written) == RADDLEHUE_STRIP_BUFFER);
    CHECK(raddlehue_strip_write(&strip, azimuths, 144, 0, 0, &written) == RADDLEHUE_STRIP_BUFFER);
    strip.air_kind = RADDLEHUE_AIR_MEASURED;
    CHECK(raddlehue_strip_write(&strip, azimuths, 144, bytes, 593, &written) == RADDLEHUE_STRIP_MEASURED_AIR);
    strip.air_kind = RADDLEHUE_AIR_CARRIED_OVER;
    CHECK(raddlehue_strip_write(&strip, azimuths, 144, bytes, sizeof bytes, &written) == RADDLEHUE_STRIP_MEASURED_AIR);
    azimuths[143] = 3600000000u;
    CHECK(raddlehue_strip_write(&strip, azimuths, 144, bytes, 593, &written) == RADDLEHUE_STRIP_AZIMUTH);
    azimuths[143] = RADDLEHUE_NO_AZIMUTH_E7 - 1;
    CHECK(raddlehue_strip_write(&strip, azimuths, 144, bytes, sizeof bytes, &written) == RADDLEHUE_STRIP_AZIMUTH);
    CHECK(raddlehue_strip_write(&strip, azimuths, 143, bytes, 593, &written) == RADDLEHUE_STRIP_LENGTH);
    CHECK(raddlehue_strip_write(&strip, azimuths, 145, bytes, 593, &written) == RADDLEHUE_STRIP_LENGTH);
    CHECK(raddlehue_strip_write(&strip, 0, 0, bytes, 593, &written) == RADDLEHUE_STRIP_LENGTH);
    strip.latitude_e7 = -900000001;
    CHECK(raddlehue_strip_write(&strip, azimuths, 143, bytes, 593, &written) == RADDLEHUE_STRIP_POINT);
    strip.latitude_e7 = -900000000;
    strip.step_minutes = 3;
    CHECK(raddlehue_strip_write(&strip, azimuths, 143, bytes, 593, &written) == RADDLEHUE_STRIP_STEP);
    strip.longitude_e7 = 1800000001;
    CHECK(raddlehue_strip_write(&strip, azimuths, 143, bytes, 593, &written) == RADDLEHUE_STRIP_POINT);
    strip.day = 32;
    CHECK(raddlehue_strip_write(&strip, azimuths, 143, bytes, 593, &written) == RADDLEHUE_STRIP_DATE);
    strip.air_kind = 1;
    CHECK(raddlehue_strip_write(&strip, azimuths, 143, bytes, 593, &written) == RADDLEHUE_UNKNOWN_AIR);
    strip.air_kind = 4294967296;
    CHECK(raddlehue_strip_write(&strip, azimuths, 143, bytes, 593, &written) == RADDLEHUE_UNKNOWN_AIR);
    strip.body = 4294967296;
    CHECK(raddlehue_strip_write(&strip, azimuths, 143, bytes, 593, &written) == RADDLEHUE_UNKNOWN_BODY);
    answer = raddlehue_strip_write_of(strip, azimuths, 143, bytes, sizeof bytes);
    CHECK(answer.refusal == RADDLEHUE_UNKNOWN_BODY && answer.written == 0 && written == 77 && all_are(bytes, sizeof bytes, 0x5a));
    return 0;
}

/* Each number of a header out of its range by one, by itself. */
static int refused_headers(void)
{
    raddlehue_strip_t strip = ten_minutes;
    uint8_t bytes[RADDLEHUE_STRIP_BYTES(10)];
    uint32_t azimuths[RADDLEHUE_STRIP_STEPS(10)];
    const int64_t wrong[14][3] = {
        {0, -1, 102}, {0, 1, 102}, {0, 2, 32}, {0, 3, 32}, {0, 4, 102}, {1, -1, 101}, {1, 2, 101}, {2, 1899, 23}, {2, 2101, 23}, {3, 0, 23}, {4, 0, 23},
        {5, -1800000001, 24}, {6, 900000001, 24}, {7, 0, 25}};
    int64_t number[8], at;
    fill_azimuths(azimuths);
    for (at = 0; at < 14; at++) {
        memcpy(number, &ten_minutes, sizeof number);
        number[wrong[at][0]] = wrong[at][1];
        memcpy(&strip, number, sizeof strip);
        CHECK(raddlehue_strip_write_of(strip, azimuths, 144, bytes, sizeof bytes).refusal == (uint32_t)wrong[at][2]);
    }
    return 0;
}

/* Reading what was written gives the same strip, and writing what was read the same bytes. */
static int strip_read(void)
{
    uint8_t bytes[RADDLEHUE_STRIP_BYTES(10)], again[RADDLEHUE_STRIP_BYTES(10)];
    raddlehue_strip_t strip = {-7, -7, -7, -7, -7, -7, -7, -7};
    raddlehue_strip_measured_t air = {-7.0, -8.0};
    raddlehue_strip_read_answer_t answer;
    CHECK(make_strip(ten_minutes, bytes, sizeof bytes));
    CHECK(raddlehue_strip_read(bytes, sizeof bytes, &strip, &air) == RADDLEHUE_ACCEPTED && memcmp(&strip, &ten_minutes, sizeof strip) == 0);
    CHECK(bits(air.pressure_mbar) == 0 && bits(air.temperature_celsius) == 0);
    answer = raddlehue_strip_read_of(bytes, sizeof bytes);
    CHECK(answer.refusal == RADDLEHUE_ACCEPTED && memcmp(&answer.strip, &ten_minutes, sizeof strip) == 0);
    CHECK(answer.air.kind == RADDLEHUE_AIR_NONE && raddlehue_request_air(answer.air).kind == RADDLEHUE_AIR_NONE);
    CHECK(make_strip(strip, again, sizeof again) && memcmp(bytes, again, sizeof bytes) == 0);
    return 0;
}

/* A strip that was written with air byte 1, which meant standard air: its air is measured, with the mark that it was carried over, and all else is as without it. */
static int old_strip_read(void)
{
    uint8_t bytes[RADDLEHUE_STRIP_BYTES(10)], again[RADDLEHUE_STRIP_BYTES(10)];
    raddlehue_strip_t strip = {-7, -7, -7, -7, -7, -7, -7, -7};
    raddlehue_strip_measured_t air = {-7.0, -8.0};
    raddlehue_strip_read_answer_t answer;
    raddlehue_air_t request;
    CHECK(make_strip(ten_minutes, bytes, sizeof bytes));
    bytes[3] = 1;
    CHECK(raddlehue_strip_read(bytes, sizeof bytes, &strip, &air) == RADDLEHUE_ACCEPTED);
    CHECK(strip.air_kind == RADDLEHUE_AIR_CARRIED_OVER && air.pressure_mbar == 1010.0 && air.temperature_celsius == 10.0);
    answer = raddlehue_strip_read_of(bytes, sizeof bytes);
    CHECK(answer.refusal == RADDLEHUE_ACCEPTED && memcmp(&answer.strip, &strip, sizeof strip) == 0);
    CHECK(answer.air.kind == RADDLEHUE_AIR_CARRIED_OVER && answer.air.pressure_mbar == 1010.0 && answer.air.temperature_celsius == 10.0);
    memset(again, 0x5a, sizeof again);
    CHECK(!make_strip(strip, again, sizeof again) && all_are(again, sizeof again, 0x5a));
    strip.air_kind = RADDLEHUE_AIR_NONE;
    CHECK(memcmp(&strip, &ten_minutes, sizeof strip) == 0);
    bytes[3] = 0;
    CHECK(make_strip(strip, again, sizeof again) && memcmp(bytes, again, sizeof bytes) == 0);

    request = raddlehue_request_air(answer.air);
    CHECK(request.kind == RADDLEHUE_AIR_MEASURED && request.pressure_mbar == 1010.0 && request.temperature_celsius == 10.0);
    CHECK(bits(raddlehue_shown_place_of(moon_start, RADDLEHUE_MOON, moon_point, request).elevation_degrees) == 0x404180804f70a596);
    request.kind = answer.air.kind;
    CHECK(raddlehue_shown_place_of(moon_start, RADDLEHUE_MOON, moon_point, request).refusal == RADDLEHUE_UNKNOWN_AIR);
    return 0;
}

/* The length against the bytes: fewer, more, and its own two among them. */
static int strip_lengths(void)
{
    const uint8_t shortest[2] = {0, 0}, fifteen[17] = {0, 15, 9}, sixteen[18] = {0, 16, 1, 0, 0, 0x07, 0xd3, 10, 17, 0, 0, 0, 0, 0, 0, 0, 0, 10};
    uint8_t bytes[RADDLEHUE_STRIP_BYTES(10) + 1];
    memset(bytes, 0, sizeof bytes);
    CHECK(make_strip(ten_minutes, bytes, sizeof bytes));
    CHECK(raddlehue_strip_read_of(bytes, 593).refusal == RADDLEHUE_STRIP_LENGTH && raddlehue_strip_read_of(bytes, 595).refusal == RADDLEHUE_STRIP_LENGTH);
    CHECK(raddlehue_strip_read_of(bytes, 592).refusal == RADDLEHUE_STRIP_LENGTH && raddlehue_strip_read_of(bytes, 590).refusal == RADDLEHUE_STRIP_LENGTH);
    CHECK(raddlehue_strip_read_of(0, 0).refusal == RADDLEHUE_STRIP_LENGTH && raddlehue_strip_read_of(bytes, 1).refusal == RADDLEHUE_STRIP_LENGTH);
    CHECK(raddlehue_strip_read_of(shortest, 2).refusal == RADDLEHUE_STRIP_LENGTH && raddlehue_strip_read_of(fifteen, 17).refusal == RADDLEHUE_STRIP_LENGTH);
    CHECK(raddlehue_strip_read_of(sixteen, 18).refusal == RADDLEHUE_STRIP_LENGTH);
    bytes[2] = 2;
    CHECK(raddlehue_strip_read_of(bytes, 595).refusal == RADDLEHUE_STRIP_LENGTH && raddlehue_strip_read_of(bytes, 594).refusal == RADDLEHUE_STRIP_VERSION);
    bytes[1] = 0x52;
    CHECK(raddlehue_strip_read_of(bytes, 594).refusal == RADDLEHUE_STRIP_LENGTH);
    return 0;
}

/* The later bytes first, so that each refusal goes before those that are found already; the length against the step is judged after the step alone. */
static int refused_strip_read(void)
{
    uint8_t bytes[RADDLEHUE_STRIP_BYTES(10)];
    raddlehue_strip_t strip = {-7, -7, -7, -7, -7, -7, -7, -7};
    raddlehue_strip_measured_t air = {-7.0, -8.0};
    raddlehue_strip_read_answer_t answer;
    CHECK(make_strip(ten_minutes, bytes, sizeof bytes));
    bytes[RADDLEHUE_STRIP_HEADER] = 0xfe;
    CHECK(raddlehue_strip_read(bytes, sizeof bytes, &strip, &air) == RADDLEHUE_STRIP_AZIMUTH);
    bytes[RADDLEHUE_STRIP_HEADER] = 0;
    memcpy(bytes + 590, "\xd6\x93\xa4\0", 4);
    CHECK(raddlehue_strip_read(bytes, sizeof bytes, &strip, &air) == RADDLEHUE_STRIP_AZIMUTH);
    bytes[17] = 5;
    CHECK(raddlehue_strip_read(bytes, sizeof bytes, &strip, &air) == RADDLEHUE_STRIP_LENGTH);
    bytes[17] = 3;
    CHECK(raddlehue_strip_read(bytes, sizeof bytes, &strip, &air) == RADDLEHUE_STRIP_STEP);
    memcpy(bytes + 13, "\x35\xa4\xe9\x01", 4);
    CHECK(raddlehue_strip_read(bytes, sizeof bytes, &strip, &air) == RADDLEHUE_STRIP_POINT);
    bytes[17] = 5;
    CHECK(raddlehue_strip_read(bytes, sizeof bytes, &strip, &air) == RADDLEHUE_STRIP_POINT);
    bytes[8] = 32;
    CHECK(raddlehue_strip_read(bytes, sizeof bytes, &strip, &air) == RADDLEHUE_STRIP_DATE);
    bytes[4] = 2;
    CHECK(raddlehue_strip_read(bytes, sizeof bytes, &strip, &air) == RADDLEHUE_STRIP_AIR_OR_BODY);
    bytes[4] = RADDLEHUE_SUN;
    bytes[3] = 2;
    CHECK(raddlehue_strip_read(bytes, sizeof bytes, &strip, &air) == RADDLEHUE_STRIP_AIR_OR_BODY);
    bytes[2] = 2;
    CHECK(raddlehue_strip_read(bytes, sizeof bytes, &strip, &air) == RADDLEHUE_STRIP_VERSION);
    bytes[0] = 3;
    CHECK(raddlehue_strip_read(bytes, sizeof bytes, &strip, &air) == RADDLEHUE_STRIP_LENGTH);
    CHECK(air.pressure_mbar == -7.0 && air.temperature_celsius == -8.0);
    CHECK(strip.air_kind == -7 && strip.body == -7 && strip.year == -7 && strip.month == -7 && strip.day == -7);
    CHECK(strip.longitude_e7 == -7 && strip.latitude_e7 == -7 && strip.step_minutes == -7);
    answer = raddlehue_strip_read_of(bytes, sizeof bytes);
    CHECK(answer.refusal == RADDLEHUE_STRIP_LENGTH && answer.strip.air_kind == 0 && answer.strip.year == 0 && answer.strip.step_minutes == 0);
    CHECK(answer.air.kind == 0 && answer.air.pressure_mbar == 0.0 && answer.air.temperature_celsius == 0.0);
    return 0;
}

static int strip_azimuth(void)
{
    const uint64_t no_steps[5] = {144, 4294967296, 4611686018427387903, 4611686018427387904, ~(uint64_t)0};
    uint32_t expected[RADDLEHUE_STRIP_STEPS(10)], azimuth = 77, step;
    uint8_t bytes[RADDLEHUE_STRIP_BYTES(10)];
    uint8_t *const azimuths = bytes + RADDLEHUE_STRIP_HEADER;
    raddlehue_strip_azimuth_answer_t answer;
    fill_azimuths(expected);
    CHECK(make_strip(ten_minutes, bytes, sizeof bytes));
    for (step = 0; step < 5; step++)
        CHECK(raddlehue_strip_azimuth(azimuths, 576, no_steps[step], &azimuth) == RADDLEHUE_NO_STEP);
    CHECK(raddlehue_strip_azimuth(azimuths, 575, 143, &azimuth) == RADDLEHUE_NO_STEP && raddlehue_strip_azimuth(0, 0, 0, &azimuth) == RADDLEHUE_NO_STEP);
    CHECK(azimuth == 77);
    for (step = 0; step < RADDLEHUE_STRIP_STEPS(10); step++)
        CHECK(raddlehue_strip_azimuth(azimuths, 576, step, &azimuth) == RADDLEHUE_ACCEPTED && azimuth == expected[step]);
    memcpy(azimuths + 4, "\xd6\x93\xa4\0", 4);
    CHECK(raddlehue_strip_azimuth(azimuths, 576, 1, &azimuth) == RADDLEHUE_STRIP_AZIMUTH && azimuth == expected[143]);
    answer = raddlehue_strip_azimuth_of(azimuths, 12, 2);
    CHECK(answer.refusal == RADDLEHUE_ACCEPTED && answer.azimuth_e7 == RADDLEHUE_NO_AZIMUTH_E7);
    answer = raddlehue_strip_azimuth_of(azimuths, 12, 1);
    CHECK(answer.refusal == RADDLEHUE_STRIP_AZIMUTH && answer.azimuth_e7 == 0);
    return 0;
}

/* The strip of five minutes of the day after, with all its azimuths in the north. */
static int make_next_strip(uint8_t bytes[RADDLEHUE_STRIP_BYTES(5)])
{
    const uint32_t north[RADDLEHUE_STRIP_STEPS(5)] = {0};
    raddlehue_strip_t strip = ten_minutes;
    strip.day++;
    strip.step_minutes = 5;
    return raddlehue_strip_write_of(strip, north, RADDLEHUE_STRIP_STEPS(5), bytes, RADDLEHUE_STRIP_BYTES(5)).refusal == RADDLEHUE_ACCEPTED;
}

static int found(raddlehue_strip_find_answer_t answer, uint64_t strip, uint64_t length)
{
    return answer.refusal == RADDLEHUE_ACCEPTED && answer.strip == strip && answer.offset == RADDLEHUE_STRIP_HEADER && answer.length == length;
}

static int strip_find(void)
{
    uint8_t first[RADDLEHUE_STRIP_BYTES(10)], second[RADDLEHUE_STRIP_BYTES(5)];
    raddlehue_strip_part_t part = {77, 88, 99};
    CHECK(make_strip(ten_minutes, first, sizeof first) && make_next_strip(second));
    CHECK(raddlehue_strip_find(first, sizeof first, second, sizeof second, 2003, 10, 18, &part) == RADDLEHUE_ACCEPTED);
    CHECK(part.strip == 2 && part.offset == RADDLEHUE_STRIP_HEADER && part.length == 1152);
    CHECK(found(raddlehue_strip_find_of(first, sizeof first, second, sizeof second, 2003, 10, 17), 1, 576));
    CHECK(found(raddlehue_strip_find_of(second, sizeof second, first, sizeof first, 2003, 10, 17), 2, 576));
    second[8] = 17;
    CHECK(found(raddlehue_strip_find_of(first, sizeof first, second, sizeof second, 2003, 10, 17), 1, 576));
    CHECK(found(raddlehue_strip_find_of(second, sizeof second, first, sizeof first, 2003, 10, 17), 1, 1152));
    return 0;
}

/* A date in neither comes last, after what is wrong with the second strip, and that after what is wrong with the first. */
static int refused_strip_find(void)
{
    const int64_t no_dates[6][3] = {{2004, 10, 17}, {2003, 11, 17}, {2003, 10, 16}, {2003 + 65536, 10, 17}, {2003, 10 + 256, 17}, {2003, 10, 17 - 256}};
    uint8_t first[RADDLEHUE_STRIP_BYTES(10)], second[RADDLEHUE_STRIP_BYTES(5)];
    raddlehue_strip_part_t part = {77, 88, 99};
    raddlehue_strip_find_answer_t answer;
    int at;
    CHECK(make_strip(ten_minutes, first, sizeof first) && make_next_strip(second));
    for (at = 0; at < 6; at++) {
        const int64_t *date = no_dates[at];
        CHECK(raddlehue_strip_find(first, sizeof first, second, sizeof second, date[0], date[1], date[2], &part) == RADDLEHUE_STRIP_NOT_FOUND);
    }
    second[RADDLEHUE_STRIP_BYTES(5) - 4] = 0xfe;
    CHECK(raddlehue_strip_find(first, sizeof first, second, sizeof second, 2003, 10, 17, &part) == RADDLEHUE_STRIP_AZIMUTH);
    CHECK(raddlehue_strip_find(first, sizeof first, second, sizeof second, 2003, 10, 19, &part) == RADDLEHUE_STRIP_AZIMUTH);
    CHECK(raddlehue_strip_find(first, sizeof first, 0, 0, 2003, 10, 17, &part) == RADDLEHUE_STRIP_LENGTH);
    first[2] = 0;
    CHECK(raddlehue_strip_find(first, sizeof first, second, sizeof second, 2003, 10, 18, &part) == RADDLEHUE_STRIP_VERSION);
    CHECK(raddlehue_strip_find(0, 0, second, sizeof second, 2003, 10, 18, &part) == RADDLEHUE_STRIP_LENGTH);
    CHECK(part.strip == 77 && part.offset == 88 && part.length == 99);
    answer = raddlehue_strip_find_of(first, sizeof first, second, sizeof second, 2003, 10, 18);
    CHECK(answer.refusal == RADDLEHUE_STRIP_VERSION && answer.strip == 0 && answer.offset == 0 && answer.length == 0);
    return 0;
}

/* The largest strip, from a day's azimuths to a minute's: what the phone makes is what the watch finds. */
static int largest_strip(void)
{
    const raddlehue_strip_t strip = {RADDLEHUE_AIR_NONE, RADDLEHUE_SUN, 2009, 6, 21, 0, 514769000, 1};
    uint32_t azimuths[RADDLEHUE_STRIP_STEPS(1)];
    uint8_t bytes[RADDLEHUE_STRIP_BYTES(1)], next[RADDLEHUE_STRIP_BYTES(5)];
    uint64_t minute;
    raddlehue_strip_find_answer_t part;
    CHECK(raddlehue_day_azimuths_of(longest_day, RADDLEHUE_SUN, greenwich, 1, azimuths, RADDLEHUE_STRIP_STEPS(1)).refusal == RADDLEHUE_ACCEPTED);
    CHECK(raddlehue_strip_write_of(strip, azimuths, RADDLEHUE_STRIP_STEPS(1), bytes, sizeof bytes).written == 5778);
    CHECK(make_next_strip(next));
    part = raddlehue_strip_find_of(next, sizeof next, bytes, sizeof bytes, 2009, 6, 21);
    CHECK(found(part, 2, 5760));
    for (minute = 0; minute < RADDLEHUE_DAY_MINUTES; minute++)
        CHECK(raddlehue_strip_azimuth_of(bytes + part.offset, part.length, minute).azimuth_e7 == azimuths[minute]);
    return 0;
}

/* Turning points, with room for one more than a day has. */
typedef struct {
    uint32_t minutes[RADDLEHUE_DAY_MINUTES + 1];
    int64_t azimuths[RADDLEHUE_DAY_MINUTES + 1];
    uint64_t count;
} proposal_t;

/* The body's azimuth at each minute; -1 where there is none. */
static void work(asked_t asked, int64_t *worked)
{
    int64_t minute;
    for (minute = 0; minute < RADDLEHUE_DAY_MINUTES; minute++) {
        const raddlehue_place_answer_t place = place_at(asked.date, minute, asked.body, asked.point);
        worked[minute] = place.has_azimuth ? place.azimuth_if_any_e8 : -1;
    }
}

/* The worked azimuths of every so manyth minute and of the last one; a minute without one gets the north. */
static proposal_t every(uint32_t step, const int64_t *worked)
{
    proposal_t proposal;
    uint32_t minute = 0;
    proposal.count = 0;
    for (;;) {
        proposal.minutes[proposal.count] = minute;
        proposal.azimuths[proposal.count++] = worked[minute] < 0 ? 0 : worked[minute];
        if (minute == RADDLEHUE_DAY_MINUTES - 1)
            return proposal;
        minute = minute + step < RADDLEHUE_DAY_MINUTES - 1 ? minute + step : RADDLEHUE_DAY_MINUTES - 1;
    }
}

static proposal_t without(proposal_t proposal, uint64_t dropped)
{
    for (proposal.count--; dropped < proposal.count; dropped++) {
        proposal.minutes[dropped] = proposal.minutes[dropped + 1];
        proposal.azimuths[dropped] = proposal.azimuths[dropped + 1];
    }
    return proposal;
}

static raddlehue_judge_answer_t verdict(asked_t asked, uint64_t tolerance, const proposal_t *proposal)
{
    return raddlehue_judge_of(
        asked.date, asked.body, asked.point, tolerance, proposal->minutes, proposal->count, proposal->azimuths, proposal->count);
}

static int accepts(asked_t asked, uint64_t tolerance, const proposal_t *proposal)
{
    const raddlehue_judge_answer_t answer = verdict(asked, tolerance, proposal);
    return answer.refusal == RADDLEHUE_ACCEPTED && answer.out_minute == 0;
}

static int is_out(asked_t asked, uint64_t tolerance, const proposal_t *proposal, uint32_t minute)
{
    const raddlehue_judge_answer_t answer = verdict(asked, tolerance, proposal);
    return answer.refusal == RADDLEHUE_PROPOSAL_OUT && answer.out_minute == minute;
}

/* From one azimuth to another the short way round, below zero against the clock. */
static int64_t short_way(int64_t from, int64_t to)
{
    const int64_t way = to - from;
    return way > 18000000000 ? way - 36000000000 : way < -18000000000 ? way + 36000000000 : way;
}

/* 02's rule for a minute between two points: in proportion, floored from the earlier one. (Old C does not say how it divides numbers below zero.) */
static int64_t value(uint32_t m0, int64_t a0, uint32_t m1, int64_t a1, uint32_t minute)
{
    const int64_t product = short_way(a0, a1) * (minute - m0), all = m1 - m0;
    const int64_t part = product < 0 ? -((-product + all - 1) / all) : product / all;
    return (a0 + part + 36000000000) % 36000000000;
}

static int64_t distance(int64_t a, int64_t b)
{
    const int64_t way = short_way(a, b);
    return way < 0 ? -way : way;
}

/* How far a proposal lies from the worked azimuth at each minute, 0 where there is none; and the farthest of these. */
static int64_t distances(const proposal_t *proposal, const int64_t *worked, int64_t *apart)
{
    int64_t farthest = 0;
    uint32_t minute, at = 0;
    for (minute = 0; minute < RADDLEHUE_DAY_MINUTES; minute++) {
        const uint32_t *m = proposal->minutes + at;
        const int64_t *a = proposal->azimuths + at;
        apart[minute] = worked[minute] < 0 ? 0 : distance(value(m[0], a[0], m[1], a[1], minute), worked[minute]);
        farthest = apart[minute] > farthest ? apart[minute] : farthest;
        at += minute == m[1];
    }
    return farthest;
}

/* The first minute out of tolerance, or the first of the next day. */
static uint32_t first_out(const int64_t *apart, uint64_t tolerance)
{
    uint32_t minute = 0;
    while (minute < RADDLEHUE_DAY_MINUTES && (uint64_t)apart[minute] <= tolerance)
        minute++;
    return minute;
}

/* By hand: on the way back, over the north both ways, and at both ends. */
static int values(void)
{
    CHECK(value(0, 13, 2, 10, 1) == 11 && value(0, 10, 2, 13, 1) == 11 && value(0, 13, 2, 10, 0) == 13 && value(0, 13, 2, 10, 2) == 10);
    CHECK(value(7, 35999999999, 10, 4, 8) == 0 && value(7, 35999999999, 10, 4, 9) == 2);
    CHECK(value(7, 4, 10, 35999999999, 8) == 2 && value(7, 4, 10, 35999999999, 9) == 0 && value(7, 1, 9, 35999999998, 8) == 35999999999);
    CHECK(value(0, 0, 1439, 17999999999, 1438) == 17987491312 && value(0, 17999999999, 1439, 0, 1438) == 12508686);
    return 0;
}

/* Every minute a point: accepted at tolerance 0. Some of them a unit beside the Moon: accepted at 1, and refused at 0 by the first of them, which is all that is written. */
static int judge(void)
{
    const uint32_t moved[5] = {1439, 1438, 719, 1, 0};
    int64_t worked[RADDLEHUE_DAY_MINUTES];
    uint32_t out = 77, at;
    proposal_t proposal;
    work(boulder_moon, worked);
    proposal = every(1, worked);
    CHECK(proposal.count == RADDLEHUE_DAY_MINUTES && accepts(boulder_moon, 0, &proposal));
    CHECK(raddlehue_judge(&boulder_moon.date, boulder_moon.body, &boulder_moon.point, 0, proposal.minutes, 1440, proposal.azimuths, 1440, &out) == RADDLEHUE_ACCEPTED);
    CHECK(out == 77);
    for (at = 0; at < 5; at++) {
        const uint32_t minute = moved[at];
        proposal.azimuths[minute] = (proposal.azimuths[minute] + (at % 2 ? 1 : 35999999999)) % 36000000000;
        CHECK(is_out(boulder_moon, 0, &proposal, minute));
    }
    CHECK(accepts(boulder_moon, 1, &proposal));
    proposal.azimuths[719] = (worked[719] + 2) % 36000000000;
    CHECK(raddlehue_judge(&boulder_moon.date, boulder_moon.body, &boulder_moon.point, 1, proposal.minutes, 1440, proposal.azimuths, 1440, &out) == RADDLEHUE_PROPOSAL_OUT);
    CHECK(out == 719 && accepts(boulder_moon, 2, &proposal) && accepts(boulder_moon, ~(uint64_t)0, &proposal));
    CHECK(raddlehue_judge_of(boulder_moon.date, RADDLEHUE_SUN, boulder_moon.point, 2, proposal.minutes, 1440, proposal.azimuths, 1440).refusal == RADDLEHUE_PROPOSAL_OUT);
    return 0;
}

/* Legs of several lengths, with the clock, against it and over the north: accepted at the tolerance of the farthest minute, and one unit below it that minute is told. */
static int legs(void)
{
    const asked_t *const days[3] = {&greenwich_sun, &hobart_sun, &boulder_moon};
    const uint32_t steps[6] = {2, 3, 7, 60, 719, 1439};
    int64_t worked[RADDLEHUE_DAY_MINUTES], apart[RADDLEHUE_DAY_MINUTES];
    int at, step, part;
    for (at = 0; at < 3; at++) {
        work(*days[at], worked);
        for (step = 0; step < 6; step++) {
            const proposal_t proposal = every(steps[step], worked);
            const int64_t farthest = distances(&proposal, worked, apart);
            CHECK(farthest > 0 && accepts(*days[at], (uint64_t)farthest, &proposal));
            for (part = 0; part < 3; part++) {
                const uint64_t tolerance = (uint64_t)(part == 0 ? farthest - 1 : part == 1 ? farthest / 2 : 0);
                CHECK(is_out(*days[at], tolerance, &proposal, first_out(apart, tolerance)));
            }
        }
    }
    return 0;
}

/* A minute without an azimuth is not compared, whatever is proposed for it. */
static int uncompared(void)
{
    int64_t worked[RADDLEHUE_DAY_MINUTES];
    proposal_t proposal;
    work(overhead_at_568, worked);
    proposal = every(1, worked);
    CHECK(worked[568] == -1 && accepts(overhead_at_568, 0, &proposal));
    proposal.azimuths[568] = 4500000000;
    CHECK(accepts(overhead_at_568, 0, &proposal));
    proposal.azimuths[569] = (worked[569] + 1) % 36000000000;
    CHECK(is_out(overhead_at_568, 0, &proposal, 569));
    proposal.azimuths[567] = (worked[567] + 1) % 36000000000;
    CHECK(is_out(overhead_at_568, 0, &proposal, 567));
    work(overhead_at_0, worked);
    proposal = every(1, worked);
    proposal.azimuths[0] = 1;
    CHECK(worked[0] == -1 && accepts(overhead_at_0, 0, &proposal));
    return 0;
}

/* What is no proposal, one fault at a time, at a tolerance that accepts any. */
static int refused_points(void)
{
    int64_t worked[RADDLEHUE_DAY_MINUTES];
    const int64_t no_azimuths[4] = {-1, 36000000000, RADDLEHUE_NO_DIRECTION_E8, -RADDLEHUE_NO_DIRECTION_E8 - 1};
    const uint32_t no_minutes[8][2] = {{0, 1}, {0, 4294967295u}, {1, 0}, {1, 120}, {1, 1440}, {2, 60}, {24, 1438}, {24, 1440}};
    const uint64_t lengths[8][2] = {{0, 0}, {1, 1}, {0, 25}, {25, 0}, {25, 26}, {26, 25}, {24, 24}, {26, 26}};
    const raddlehue_date_ms_t date = greenwich_sun.date;
    const raddlehue_point_t point = greenwich_sun.point;
    const uint64_t any = ~(uint64_t)0;
    uint32_t out = 77;
    proposal_t good, bad;
    int at;
    work(greenwich_sun, worked);
    good = every(60, worked);
    CHECK(good.count == 25 && accepts(greenwich_sun, any, &good));
    good.minutes[25] = 1439;
    good.azimuths[25] = 0;
    for (at = 0; at < 8; at++) {
        const uint32_t *minutes = lengths[at][0] ? good.minutes : 0;
        const int64_t *azimuths = lengths[at][1] ? good.azimuths : 0;
        CHECK(raddlehue_judge(&date, RADDLEHUE_SUN, &point, any, minutes, lengths[at][0], azimuths, lengths[at][1], &out) == RADDLEHUE_PROPOSAL_POINTS);
        CHECK(raddlehue_judge_of(date, RADDLEHUE_SUN, point, any, minutes, lengths[at][0], azimuths, lengths[at][1]).refusal == RADDLEHUE_PROPOSAL_POINTS);
    }
    CHECK(raddlehue_judge(&date, RADDLEHUE_SUN, &point, any, good.minutes + 24, 1, good.azimuths, 1, &out) == RADDLEHUE_PROPOSAL_POINTS);
    for (at = 0; at < 8; at++) {
        bad = good;
        bad.minutes[no_minutes[at][0]] = no_minutes[at][1];
        CHECK(verdict(greenwich_sun, any, &bad).refusal == RADDLEHUE_PROPOSAL_POINTS);
    }
    for (at = 0; at < 12; at++) {
        bad = good;
        bad.azimuths[at / 4 * 12] = no_azimuths[at % 4];
        CHECK(raddlehue_judge(&date, RADDLEHUE_SUN, &point, any, bad.minutes, 25, bad.azimuths, 25, &out) == RADDLEHUE_PROPOSAL_POINTS);
    }
    bad = every(1, worked);
    bad.minutes[1440] = 1439;
    bad.azimuths[1440] = bad.azimuths[1439];
    bad.count = 1441;
    CHECK(verdict(greenwich_sun, any, &bad).refusal == RADDLEHUE_PROPOSAL_POINTS);
    CHECK(out == 77);
    return 0;
}

/* The later faults first, so that each refusal goes before those that are found already; a minute is told by 31 alone. */
static int refused_judge(void)
{
    asked_t asked = greenwich_sun;
    int64_t worked[RADDLEHUE_DAY_MINUTES];
    uint32_t out = 77;
    proposal_t proposal;
    raddlehue_judge_answer_t answer;
    work(greenwich_sun, worked);
    proposal = every(60, worked);
    proposal.azimuths[0] = (worked[0] + 1001) % 36000000000;
    CHECK(raddlehue_judge(&asked.date, asked.body, &asked.point, 1000, proposal.minutes, 25, proposal.azimuths, 25, &out) == RADDLEHUE_PROPOSAL_OUT && out == 0);
    out = 77;
    proposal.azimuths[24] = (proposal.azimuths[23] + 18000000000) % 36000000000;
    CHECK(raddlehue_judge(&asked.date, asked.body, &asked.point, 1000, proposal.minutes, 25, proposal.azimuths, 25, &out) == RADDLEHUE_PROPOSAL_OPPOSITE);
    CHECK(raddlehue_judge(&asked.date, asked.body, &asked.point, ~(uint64_t)0, proposal.minutes, 25, proposal.azimuths, 25, &out) == RADDLEHUE_PROPOSAL_OPPOSITE);
    proposal.azimuths[24]++;
    CHECK(is_out(asked, 1000, &proposal, 0));
    proposal.azimuths[24]--;
    proposal.azimuths[1] = 36000000000;
    CHECK(raddlehue_judge(&asked.date, asked.body, &asked.point, 1000, proposal.minutes, 25, proposal.azimuths, 25, &out) == RADDLEHUE_PROPOSAL_POINTS);
    asked.point.height_metres = 9001;
    CHECK(raddlehue_judge(&asked.date, asked.body, &asked.point, 1000, proposal.minutes, 25, proposal.azimuths, 24, &out) == RADDLEHUE_HEIGHT);
    asked.point.latitude_e7 = 900000001;
    CHECK(raddlehue_judge(&asked.date, asked.body, &asked.point, 1000, proposal.minutes, 25, proposal.azimuths, 25, &out) == RADDLEHUE_LATITUDE);
    asked.point.longitude_e7 = -1800000001;
    CHECK(raddlehue_judge(&asked.date, asked.body, &asked.point, 1000, proposal.minutes, 25, proposal.azimuths, 25, &out) == RADDLEHUE_LONGITUDE);
    asked.date.delta_t_ms = 8000001;
    CHECK(raddlehue_judge(&asked.date, asked.body, &asked.point, 1000, proposal.minutes, 25, proposal.azimuths, 25, &out) == RADDLEHUE_DELTA_T);
    asked.date.ut1_ms = 901;
    CHECK(raddlehue_judge(&asked.date, asked.body, &asked.point, 1000, proposal.minutes, 25, proposal.azimuths, 25, &out) == RADDLEHUE_UT1);
    asked.date.day = 31;
    CHECK(raddlehue_judge(&asked.date, asked.body, &asked.point, 1000, proposal.minutes, 25, proposal.azimuths, 25, &out) == RADDLEHUE_DAY);
    asked.date.month = 13;
    CHECK(raddlehue_judge(&asked.date, asked.body, &asked.point, 1000, proposal.minutes, 25, proposal.azimuths, 25, &out) == RADDLEHUE_MONTH);
    asked.date.year = 2101;
    CHECK(raddlehue_judge(&asked.date, asked.body, &asked.point, 1000, proposal.minutes, 25, proposal.azimuths, 25, &out) == RADDLEHUE_YEAR);
    CHECK(raddlehue_judge(&asked.date, 2, &asked.point, 1000, 0, 0, 0, 0, &out) == RADDLEHUE_UNKNOWN_BODY && out == 77);
    answer = verdict(asked, 1000, &proposal);
    CHECK(answer.refusal == RADDLEHUE_YEAR && answer.out_minute == 0);
    return 0;
}

/* A plan, with its buffers poisoned before. */
static uint32_t make_plan(asked_t asked, uint64_t tolerance, proposal_t *plan)
{
    int entry;
    for (entry = 0; entry <= RADDLEHUE_DAY_MINUTES; entry++) {
        plan->minutes[entry] = 7777;
        plan->azimuths[entry] = -7;
    }
    plan->count = 77;
    return raddlehue_plan(&asked.date, asked.body, &asked.point, tolerance, plan->minutes, plan->azimuths, &plan->count);
}

/* From some entry on, all is as it was. */
static int is_untouched(const proposal_t *plan, uint64_t entry)
{
    while (entry <= RADDLEHUE_DAY_MINUTES && plan->minutes[entry] == 7777 && plan->azimuths[entry] == -7)
        entry++;
    return entry > RADDLEHUE_DAY_MINUTES;
}

/* Without this inner point 02 refuses it, and where it is told to look, so does the judge. */
static int is_needed(asked_t asked, uint64_t tolerance, const proposal_t *plan, uint64_t point, const int64_t *worked, int is_judged)
{
    const int are_opposite = distance(plan->azimuths[point - 1], plan->azimuths[point + 1]) == 18000000000;
    const proposal_t shorter = without(*plan, point);
    int64_t apart[RADDLEHUE_DAY_MINUTES];
    uint32_t out;
    distances(&shorter, worked, apart);
    out = first_out(apart, tolerance);
    if (!is_judged)
        return are_opposite || out < RADDLEHUE_DAY_MINUTES;
    return are_opposite ? verdict(asked, tolerance, &shorter).refusal == RADDLEHUE_PROPOSAL_OPPOSITE : is_out(asked, tolerance, &shorter, out);
}

/* Azimuths of the body, from minute 0 to 1439, which the judge accepts and would not if an inner point were dropped; behind them all is as it was. */
static int is_plan(asked_t asked, uint64_t tolerance, proposal_t *plan)
{
    int64_t worked[RADDLEHUE_DAY_MINUTES];
    uint64_t point, last;
    work(asked, worked);
    CHECK(make_plan(asked, tolerance, plan) == RADDLEHUE_ACCEPTED);
    CHECK(2 <= plan->count && plan->count <= RADDLEHUE_DAY_MINUTES && is_untouched(plan, plan->count));
    last = plan->count - 1;
    CHECK(plan->minutes[0] == 0 && plan->minutes[last] == 1439);
    for (point = 0; point <= last; point++)
        CHECK(plan->minutes[point] < RADDLEHUE_DAY_MINUTES && plan->azimuths[point] == worked[plan->minutes[point]]);
    CHECK(accepts(asked, tolerance, plan));
    for (point = 1; point < last; point++)
        CHECK(is_needed(asked, tolerance, plan, point, worked, point == 1 || point == last / 2 || point == last - 1));
    return 0;
}

/* From every unit counted to none: all minutes are points, or nearly all, and at half a turn none but the first and the last, unless these are opposite. */
static int plan(void)
{
    const asked_t *const days[3] = {&greenwich_sun, &hobart_sun, &boulder_moon};
    const uint64_t tolerances[7] = {0, 1, 500, 1000000, 100000000, 18000000000, ~(uint64_t)0};
    proposal_t plan;
    int at, kind;
    for (at = 0; at < 3; at++)
        for (kind = 0; kind < 7; kind++)
            CHECK(is_plan(*days[at], tolerances[kind], &plan) == 0 && (plan.count > 1400 || kind > 0) && (plan.count == 2) == (kind >= 5));
    CHECK(is_plan(opposite_ends, ~(uint64_t)0, &plan) == 0 && plan.count > 2 && distance(plan.azimuths[0], plan.azimuths[plan.count - 1]) == 18000000000);
    return 0;
}

static int plan_of(void)
{
    proposal_t plan, again;
    raddlehue_plan_answer_t answer;
    CHECK(make_plan(greenwich_sun, 1000000, &plan) == RADDLEHUE_ACCEPTED);
    memset(&again, 0x5a, sizeof again);
    answer = raddlehue_plan_of(greenwich_sun.date, RADDLEHUE_SUN, greenwich_sun.point, 1000000, again.minutes, again.azimuths);
    CHECK(answer.refusal == RADDLEHUE_ACCEPTED && answer.count == plan.count);
    CHECK(memcmp(plan.minutes, again.minutes, (size_t)plan.count * sizeof(uint32_t)) == 0);
    CHECK(memcmp(plan.azimuths, again.azimuths, (size_t)plan.count * sizeof(int64_t)) == 0);
    return 0;
}

/* A minute without an azimuth, the first or another, and two that are opposite, at any tolerance; the judge refuses the latter by 30, and by nothing else. */
static int no_plan(void)
{
    const asked_t *const days[3] = {&overhead_at_0, &overhead_at_568, &opposite_at_noon};
    int64_t worked[RADDLEHUE_DAY_MINUTES];
    proposal_t plan;
    int at;
    for (at = 0; at < 3; at++) {
        CHECK(make_plan(*days[at], at == 0 ? 0 : ~(uint64_t)0, &plan) == RADDLEHUE_NO_PLAN);
        CHECK(plan.count == 77 && is_untouched(&plan, 0));
        CHECK(raddlehue_plan_of(days[at]->date, days[at]->body, days[at]->point, 500, plan.minutes, plan.azimuths).refusal == RADDLEHUE_NO_PLAN);
        CHECK(raddlehue_plan_of(days[at]->date, days[at]->body, days[at]->point, 500, plan.minutes, plan.azimuths).count == 0);
        CHECK(is_untouched(&plan, 0));
    }
    work(opposite_at_noon, worked);
    CHECK(worked[720] == 9006292509 && worked[721] == 27006292509);
    plan = every(1, worked);
    CHECK(verdict(opposite_at_noon, 0, &plan).refusal == RADDLEHUE_PROPOSAL_OPPOSITE);
    plan.azimuths[721]++;
    CHECK(is_out(opposite_at_noon, 0, &plan, 721) && accepts(opposite_at_noon, 1, &plan));
    return 0;
}

/* At a day that has no plan, so that each goes before 107. */
static int refused_plan(void)
{
    asked_t asked = overhead_at_0;
    proposal_t plan;
    raddlehue_plan_answer_t answer;
    asked.point.height_metres = -501;
    CHECK(make_plan(asked, 0, &plan) == RADDLEHUE_HEIGHT && plan.count == 77 && is_untouched(&plan, 0));
    asked.point.latitude_e7 = -900000001;
    CHECK(make_plan(asked, 0, &plan) == RADDLEHUE_LATITUDE && plan.count == 77 && is_untouched(&plan, 0));
    asked.point.longitude_e7 = 1800000001;
    CHECK(make_plan(asked, 0, &plan) == RADDLEHUE_LONGITUDE && plan.count == 77 && is_untouched(&plan, 0));
    asked.date.delta_t_ms = -8000001;
    CHECK(make_plan(asked, 0, &plan) == RADDLEHUE_DELTA_T && plan.count == 77 && is_untouched(&plan, 0));
    asked.date.ut1_ms = -901;
    CHECK(make_plan(asked, 0, &plan) == RADDLEHUE_UT1 && plan.count == 77 && is_untouched(&plan, 0));
    asked.date.day = 0;
    CHECK(make_plan(asked, 0, &plan) == RADDLEHUE_DAY && plan.count == 77 && is_untouched(&plan, 0));
    asked.date.month = 0;
    CHECK(make_plan(asked, 0, &plan) == RADDLEHUE_MONTH && plan.count == 77 && is_untouched(&plan, 0));
    asked.date.year = 1899;
    CHECK(make_plan(asked, 0, &plan) == RADDLEHUE_YEAR && plan.count == 77 && is_untouched(&plan, 0));
    asked.body = 2;
    CHECK(make_plan(asked, 0, &plan) == RADDLEHUE_UNKNOWN_BODY && plan.count == 77 && is_untouched(&plan, 0));
    answer = raddlehue_plan_of(asked.date, 2, asked.point, 0, plan.minutes, plan.azimuths);
    CHECK(answer.refusal == RADDLEHUE_UNKNOWN_BODY && answer.count == 0 && is_untouched(&plan, 0));
    return 0;
}

static int eclipse(void)
{
    raddlehue_eclipse_t eclipse = {-7, -8, -9, -10};
    raddlehue_eclipse_answer_t answer;
    CHECK(raddlehue_eclipse(&whole_start, &whole_point, &eclipse) == RADDLEHUE_ACCEPTED);
    CHECK(eclipse.separation_e8 == 45193 && eclipse.sun_radius_e8 == 26236064 && eclipse.moon_radius_e8 == 28346192);
    CHECK(eclipse.share_millionths == 1000000);
    answer = raddlehue_eclipse_of(ring_start, ring_point);
    CHECK(answer.refusal == RADDLEHUE_ACCEPTED && answer.separation_e8 == 76975);
    CHECK(answer.sun_radius_e8 == 27034383 && answer.moon_radius_e8 == 26874029 && answer.share_millionths == 988172);
    answer = raddlehue_eclipse_of(moon_start, moon_point);
    CHECK(answer.refusal == RADDLEHUE_ACCEPTED && answer.share_millionths == 0);
    CHECK(answer.separation_e8 > answer.sun_radius_e8 + answer.moon_radius_e8);
    return 0;
}

static int refused_eclipse(void)
{
    raddlehue_start_ms_t start = whole_start;
    raddlehue_point_t point = whole_point;
    raddlehue_eclipse_t eclipse = {-7, -8, -9, -10};
    raddlehue_eclipse_answer_t answer;
    point.height_metres = -501;
    CHECK(raddlehue_eclipse(&start, &point, &eclipse) == RADDLEHUE_HEIGHT);
    point.latitude_e7 = -900000001;
    CHECK(raddlehue_eclipse(&start, &point, &eclipse) == RADDLEHUE_LATITUDE);
    point.longitude_e7 = 1800000001;
    CHECK(raddlehue_eclipse(&start, &point, &eclipse) == RADDLEHUE_LONGITUDE);
    start.delta_t_ms = -8000001;
    CHECK(raddlehue_eclipse(&start, &point, &eclipse) == RADDLEHUE_DELTA_T);
    start.ut1_ms = -901;
    CHECK(raddlehue_eclipse(&start, &point, &eclipse) == RADDLEHUE_UT1);
    start.hour = 24;
    CHECK(raddlehue_eclipse(&start, &point, &eclipse) == RADDLEHUE_CLOCK);
    start.day = 32;
    CHECK(raddlehue_eclipse(&start, &point, &eclipse) == RADDLEHUE_DAY);
    start.month = 0;
    CHECK(raddlehue_eclipse(&start, &point, &eclipse) == RADDLEHUE_MONTH);
    start.year = 1899;
    CHECK(raddlehue_eclipse(&start, &point, &eclipse) == RADDLEHUE_YEAR);
    CHECK(eclipse.separation_e8 == -7 && eclipse.sun_radius_e8 == -8 && eclipse.moon_radius_e8 == -9 && eclipse.share_millionths == -10);
    answer = raddlehue_eclipse_of(start, point);
    CHECK(answer.refusal == RADDLEHUE_YEAR && answer.separation_e8 == 0 && answer.sun_radius_e8 == 0);
    CHECK(answer.moon_radius_e8 == 0 && answer.share_millionths == 0);
    return 0;
}

static int share_is(int64_t separation, int64_t sun_radius, int64_t moon_radius, int64_t share)
{
    raddlehue_covered_share_answer_t answer = raddlehue_covered_share_of(separation, sun_radius, moon_radius);
    return answer.refusal == RADDLEHUE_ACCEPTED && answer.share_millionths == share;
}

/* The disks touch, the whole Sun, a ring (24 by 24 of 26 by 26), a part of it (003, Table A.1.2, without refraction), and both ends of each range. */
static int covered_share(void)
{
    int64_t share = -7;
    raddlehue_covered_share_answer_t answer;
    CHECK(raddlehue_covered_share(-1, 26000000, 24000000, &share) == RADDLEHUE_NO_DISKS);
    CHECK(raddlehue_covered_share(18000000001, 26000000, 24000000, &share) == RADDLEHUE_NO_DISKS);
    CHECK(raddlehue_covered_share(0, 19999999, 24000000, &share) == RADDLEHUE_NO_DISKS);
    CHECK(raddlehue_covered_share(0, 30000001, 24000000, &share) == RADDLEHUE_NO_DISKS);
    CHECK(raddlehue_covered_share(0, 26000000, -1, &share) == RADDLEHUE_NO_DISKS);
    CHECK(raddlehue_covered_share(0, 26000000, 30000001, &share) == RADDLEHUE_NO_DISKS);
    CHECK(share == -7);
    CHECK(raddlehue_covered_share(50000000, 26000000, 24000000, &share) == RADDLEHUE_ACCEPTED && share == 0);
    CHECK(share_is(2000000, 26000000, 28000000, 1000000));
    CHECK(share_is(1000000, 26000000, 24000000, 852071));
    CHECK(share_is(37487637, 26235977, 28334136, 216151));
    CHECK(share_is(18000000000, 20000000, 0, 0) && share_is(0, 30000000, 0, 0));
    CHECK(share_is(0, 20000000, 30000000, 1000000) && share_is(0, 30000000, 30000000, 1000000));
    answer = raddlehue_covered_share_of(0, 0, 0);
    CHECK(answer.refusal == RADDLEHUE_NO_DISKS && answer.share_millionths == 0);
    return 0;
}

static int middle(void)
{
    int64_t azimuth = -7;
    raddlehue_middle_answer_t answer;
    CHECK(raddlehue_middle(36000000000, 18000000000, &azimuth) == RADDLEHUE_NOT_REDUCED);
    CHECK(raddlehue_middle(0, 18000000000, &azimuth) == RADDLEHUE_OPPOSITE);
    CHECK(azimuth == -7);
    CHECK(raddlehue_middle(35990000000, 10000000, &azimuth) == RADDLEHUE_ACCEPTED && azimuth == 0);
    answer = raddlehue_middle_of(26023723306, 8023723307);
    CHECK(answer.refusal == RADDLEHUE_ACCEPTED && answer.azimuth_e8 == 17023723306);
    answer = raddlehue_middle_of(0, -1);
    CHECK(answer.refusal == RADDLEHUE_NOT_REDUCED && answer.azimuth_e8 == 0);
    return 0;
}

static int refraction(void)
{
    const raddlehue_air_t hot = {RADDLEHUE_AIR_MEASURED, 1010.0, 80.5};
    double degrees = -7.0;
    raddlehue_refraction_answer_t answer;
    CHECK(raddlehue_refraction(9000000001, 3, 1200.5, 80.5, &degrees) == RADDLEHUE_UNKNOWN_AIR);
    CHECK(raddlehue_refraction(0, 1, 1010.0, 10.0, &degrees) == RADDLEHUE_UNKNOWN_AIR);
    CHECK(raddlehue_refraction(9000000001, RADDLEHUE_AIR_MEASURED, 1200.5, 80.5, &degrees) == RADDLEHUE_NO_ELEVATION);
    CHECK(raddlehue_refraction(0, RADDLEHUE_AIR_MEASURED, 1200.5, 80.5, &degrees) == RADDLEHUE_PRESSURE);
    CHECK(degrees == -7.0);
    CHECK(raddlehue_refraction(0, RADDLEHUE_AIR_MEASURED, 1010.0, 10.0, &degrees) == RADDLEHUE_ACCEPTED);
    CHECK(bits(degrees) == 0x3fdee9ff9526e05e);
    answer = raddlehue_refraction_of(8999200393, temperate);
    CHECK(answer.refusal == RADDLEHUE_ACCEPTED && bits(answer.refraction_degrees) == 0xbeff353c0509cad5);
    answer = raddlehue_refraction_of(RADDLEHUE_LOWEST_REFRACTED_E8, temperate);
    CHECK(answer.refusal == RADDLEHUE_ACCEPTED && bits(answer.refraction_degrees) == 0x3fe3c8b013d371f2);
    answer = raddlehue_refraction_of(RADDLEHUE_LOWEST_REFRACTED_E8 - 1, temperate);
    CHECK(answer.refusal == RADDLEHUE_ACCEPTED && bits(answer.refraction_degrees) == 0);
    answer = raddlehue_refraction_of(0, hot);
    CHECK(answer.refusal == RADDLEHUE_TEMPERATURE && answer.refraction_degrees == 0.0);
    return 0;
}

/* Cases of 01 ("Time", "Cases by hand"). */
static int days_and_instants(void)
{
    const raddlehue_start_ms_t day_later = {2000, 1, 2, 12, 0, 0, 300, -900, 63800};
    raddlehue_start_ms_t nowhen = day_later;
    int64_t days = -7;
    raddlehue_instant_t instant = {-7, -8};
    raddlehue_day_count_answer_t day;
    raddlehue_instant_answer_t answer;
    nowhen.delta_t_ms = -8000001;
    CHECK(raddlehue_day_count(1900, 2, 29, &days) == RADDLEHUE_DAY && days == -7);
    CHECK(raddlehue_day_count(1900, 1, 1, &days) == RADDLEHUE_ACCEPTED && days == -36524);
    day = raddlehue_day_count_of(2100, 12, 31);
    CHECK(day.refusal == RADDLEHUE_ACCEPTED && day.days == 36889);
    day = raddlehue_day_count_of(2101, 13, 32);
    CHECK(day.refusal == RADDLEHUE_YEAR && day.days == 0);

    CHECK(raddlehue_instant(&nowhen, &instant) == RADDLEHUE_DELTA_T && instant.ut_ms == -7 && instant.tt_ms == -8);
    CHECK(raddlehue_instant(&day_later, &instant) == RADDLEHUE_ACCEPTED && instant.ut_ms == 86399400 && instant.tt_ms == 86463200);
    answer = raddlehue_instant_of(day_later);
    CHECK(answer.refusal == RADDLEHUE_ACCEPTED && answer.ut_ms == 86399400 && answer.tt_ms == 86463200);
    answer = raddlehue_instant_of(nowhen);
    CHECK(answer.refusal == RADDLEHUE_DELTA_T && answer.ut_ms == 0 && answer.tt_ms == 0);
    return 0;
}

/* sums 0 and sums -3026516131500 */
static int moon_and_sun(void)
{
    raddlehue_moon_sums_t moon = {-7, -8, -9};
    raddlehue_sun_sums_t sun = {-7, -8, -9};
    raddlehue_moon_sums_answer_t moon_answer = raddlehue_moon_sums_ms_of(-3026516131500);
    raddlehue_sun_sums_answer_t sun_answer = raddlehue_sun_sums_ms_of(-3026516131500);
    CHECK(raddlehue_moon_sums_ms(reach + 1, &moon) == RADDLEHUE_OUT_OF_REACH);
    CHECK(moon.longitude_e8 == -7 && moon.latitude_e8 == -8 && moon.distance_metres == -9);
    CHECK(raddlehue_moon_sums_ms(0, &moon) == RADDLEHUE_ACCEPTED);
    CHECK(moon.longitude_e8 == 22331871102 && moon.latitude_e8 == 517128006 && moon.distance_metres == 402444812);
    CHECK(moon_answer.refusal == RADDLEHUE_ACCEPTED && moon_answer.longitude_e8 == 18665596688);
    CHECK(moon_answer.latitude_e8 == 75740975 && moon_answer.distance_metres == 366895535);
    CHECK(raddlehue_moon_sums_ms_of(-1).longitude_e8 == 22331871087 && raddlehue_moon_sums_ms_of(1).longitude_e8 == 22331871115);
    CHECK(raddlehue_moon_sums_ms_of(-reach - 1).refusal == RADDLEHUE_OUT_OF_REACH && raddlehue_moon_sums_ms_of(-reach - 1).distance_metres == 0);

    CHECK(raddlehue_sun_sums_ms(-reach - 1, &sun) == RADDLEHUE_OUT_OF_REACH);
    CHECK(sun.longitude_radians_e10 == -7 && sun.latitude_radians_e10 == -8 && sun.radius_au_e10 == -9);
    CHECK(raddlehue_sun_sums_ms(0, &sun) == RADDLEHUE_ACCEPTED);
    CHECK(sun.longitude_radians_e10 == 17519226963 && sun.latitude_radians_e10 == -33050 && sun.radius_au_e10 == 9833275804);
    CHECK(sun_answer.refusal == RADDLEHUE_ACCEPTED && sun_answer.longitude_radians_e10 == -6008267956896);
    CHECK(sun_answer.latitude_radians_e10 == 3791 && sun_answer.radius_au_e10 == 9859682197);
    CHECK(raddlehue_sun_sums_ms_of(reach + 1).refusal == RADDLEHUE_OUT_OF_REACH && raddlehue_sun_sums_ms_of(reach + 1).radius_au_e10 == 0);
    return 0;
}

static int earth(void)
{
    int64_t sidereal = -7;
    raddlehue_nutation_t nutation = {-7, -8, -9};
    raddlehue_nutation_answer_t answer = raddlehue_nutation_ms_of(-3026516131500);
    CHECK(raddlehue_nutation_ms(reach + 1, &nutation) == RADDLEHUE_OUT_OF_REACH);
    CHECK(nutation.longitude_e8 == -7 && nutation.obliquity_e8 == -8 && nutation.true_obliquity_e8 == -9);
    CHECK(raddlehue_nutation_ms(0, &nutation) == RADDLEHUE_ACCEPTED);
    CHECK(nutation.longitude_e8 == -386755 && nutation.obliquity_e8 == -160387 && nutation.true_obliquity_e8 == 2343768724);
    CHECK(answer.refusal == RADDLEHUE_ACCEPTED && answer.longitude_e8 == 40398);
    CHECK(answer.obliquity_e8 == -255728 && answer.true_obliquity_e8 == 2344920337);
    CHECK(raddlehue_nutation_ms_of(reach + 1).refusal == RADDLEHUE_OUT_OF_REACH && raddlehue_nutation_ms_of(reach + 1).true_obliquity_e8 == 0);

    CHECK(raddlehue_mean_sidereal_ms(-reach - 1, &sidereal) == RADDLEHUE_OUT_OF_REACH && sidereal == -7);
    CHECK(raddlehue_mean_sidereal_ms(-86400000, &sidereal) == RADDLEHUE_ACCEPTED && sidereal == 27947497100);
    CHECK(raddlehue_mean_sidereal_ms_of(0).refusal == RADDLEHUE_ACCEPTED && raddlehue_mean_sidereal_ms_of(0).sidereal_e8 == 28046061837);
    CHECK(raddlehue_mean_sidereal_ms_of(reach + 1).refusal == RADDLEHUE_OUT_OF_REACH && raddlehue_mean_sidereal_ms_of(reach + 1).sidereal_e8 == 0);
    CHECK(raddlehue_mean_sidereal_ms_of(reach).refusal == RADDLEHUE_ACCEPTED && raddlehue_moon_sums_ms_of(-reach).refusal == RADDLEHUE_ACCEPTED);
    return 0;
}

static int numbers(void)
{
    CHECK(raddlehue_sine(24350000002) == -894934362 && raddlehue_cosine(24350000002) == -446197812);
    CHECK(raddlehue_arctangent(1, 0) == 9004472123 && raddlehue_arctangent(0, -1) == 18000000000);
    CHECK(raddlehue_arctangent(0, 1) == 0 && raddlehue_arctangent(0, 0) == RADDLEHUE_NO_DIRECTION_E8);
    CHECK(raddlehue_root(1146635045) == 33862 && raddlehue_root(~(uint64_t)0) == 4294967295u);
    return 0;
}

int main(void)
{
    return constants() || sizes() || texts() || place() || refusals() || milliseconds() || shown_place() || no_azimuth() || no_azimuth_shown() || batch() ||
           no_azimuth_in_a_batch() || refused_batch() || last_moment() || empty_batch() || day() || days_without() || refused_day() || day_azimuths() ||
           day_without_an_azimuth() || refused_day_azimuths() || strip_write() || refused_strip_write() || refused_headers() || strip_read() ||
           old_strip_read() || strip_lengths() || refused_strip_read() || strip_azimuth() || strip_find() || refused_strip_find() || largest_strip() ||
           values() || judge() || legs() || uncompared() || refused_points() || refused_judge() || plan() || plan_of() || no_plan() || refused_plan() ||
           eclipse() || refused_eclipse() || covered_share() || middle() || refraction() || days_and_instants() || moon_and_sun() || earth() || numbers();
}
