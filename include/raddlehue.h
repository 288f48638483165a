/* Raddlehue: where the Sun and the Moon stand, for C and C++.
 *
 * Link libraddlehue.a. No function keeps state, allocates or reads a clock, so any number of threads may call any of them; every number may be given, and what
 * cannot be answered is refused by a number. Each function comes in two forms: an export, which gives the refusal (0 where there is none), writes its answer
 * through a pointer, and **writes nothing where it refuses**; and beside it an inline function whose name ends in _of, which takes structs and returns the answer
 * as a struct, with the refusal in it and zeros elsewhere (but for the index of 13 and the minute of 31).
 *
 * Names say their unit: _e7 and _e8 are 1e-7 and 1e-8 degree, _e10 is 1e-10, _ms are milliseconds, _millionths are of the Sun's disk. Azimuth counts from
 * north over east (east is 90 degrees), longitude is east positive, latitude north positive, time is UTC in the Gregorian calendar and never a local zone, elevation
 * counts from the horizon upward.
 *
 * Since version 3 an azimuth may be absent: a body straight overhead, or straight underfoot, has none. A place says so by a flag beside it; a batch and the arctangent,
 * which give bare numbers, by RADDLEHUE_NO_DIRECTION_E8.
 *
 * Since version 4 every time is in milliseconds; it was in tenths of a second before, so that a number which is not multiplied by 100 is wrong. Each type that is filled with
 * such numbers, each field, and each function that is handed a bare one has another name for it, which ends in _ms: what was written for version 3 does not compile.
 *
 * Since version 5 there is no standard air: the air of a request is none or measured, and old strips in standard air are read as measured at 1010 mbar and 10 degrees
 * Celsius, with a mark that this was carried over. What named standard air, or read the air of a strip, does not compile.
 *
 * What is asked of the caller: a pointer points to as many numbers as its type or its length says, aligned as C aligns them; memories that are written do not
 * overlap others of the same call; about 8 KiB of stack (docs/FIGURES.md has the exact numbers), and beside it the caller's own: for a day 11.5 KB for the curve,
 * for a strip of every minute 5,760 bytes for the azimuths and 5,778 for the strip; and, for the doubles of the shown place and of the refraction, the usual state
 * of the floating-point unit: round to nearest, no flush to zero. Lengths have 64 bits on every processor.
 */
#ifndef RADDLEHUE_H
#define RADDLEHUE_H

#include <stdint.h>

#ifdef __cplusplus
extern "C" {
#endif

#if defined(__cplusplus) || (defined(__STDC_VERSION__) && __STDC_VERSION__ >= 199901L)
#define RADDLEHUE_INLINE static inline
#elif defined(__GNUC__)
#define RADDLEHUE_INLINE static __inline__
#else
#define RADDLEHUE_INLINE static
#endif

/* The version of this header and of the archive beside it. The first number changes when old code must not compile. */
#define RADDLEHUE_VERSION "5.0.0"
#define RADDLEHUE_VERSION_MAJOR 5
#define RADDLEHUE_VERSION_MINOR 0
#define RADDLEHUE_VERSION_PATCH 0

/* Units of time to a second, and units of angle to a degree. */
#define RADDLEHUE_SECOND_MS 1000
#define RADDLEHUE_DEGREE_E7 10000000
#define RADDLEHUE_DEGREE_E8 100000000

/* No direction, where one number has to say so: an entry of a batch's azimuths, and the arctangent of two zeros. It is no angle from 0 up to 360 degrees, and
 * raddlehue_middle refuses it by 15. (INT64_MAX, whose name an old C++ may lack.) */
#define RADDLEHUE_NO_DIRECTION_E8 9223372036854775807

/* The refusals. They are checked in the order of their numbers, but 15 before 14, and those from 101 on first of all, since no request can be formed (but 107, the last); a
 * strip's have an order of their own. Each function's comment says which it gives. docs/REFUSALS.md has the list. */
enum {
    RADDLEHUE_ACCEPTED = 0,
    RADDLEHUE_YEAR = 1,
    RADDLEHUE_MONTH = 2,
    RADDLEHUE_DAY = 3,
    RADDLEHUE_CLOCK = 4,
    RADDLEHUE_UT1 = 5,
    RADDLEHUE_DELTA_T = 6,
    RADDLEHUE_LONGITUDE = 7,
    RADDLEHUE_LATITUDE = 8,
    RADDLEHUE_HEIGHT = 9,
    RADDLEHUE_PRESSURE = 10,
    RADDLEHUE_TEMPERATURE = 11,
    RADDLEHUE_SHORT_BUFFER = 12,
    RADDLEHUE_TOO_LATE = 13,
    RADDLEHUE_OPPOSITE = 14,
    RADDLEHUE_NOT_REDUCED = 15,
    RADDLEHUE_NOT_A_LINE = 16,
    RADDLEHUE_STRIP_LENGTH = 20,
    RADDLEHUE_STRIP_VERSION = 21,
    RADDLEHUE_STRIP_AIR_OR_BODY = 22,
    RADDLEHUE_STRIP_DATE = 23,
    RADDLEHUE_STRIP_POINT = 24,
    RADDLEHUE_STRIP_STEP = 25,
    RADDLEHUE_STRIP_AZIMUTH = 26,
    RADDLEHUE_STRIP_NOT_FOUND = 27,
    RADDLEHUE_STRIP_BUFFER = 28,
    RADDLEHUE_PROPOSAL_POINTS = 29,
    RADDLEHUE_PROPOSAL_OPPOSITE = 30,
    RADDLEHUE_PROPOSAL_OUT = 31,
    RADDLEHUE_STRIP_MEASURED_AIR = 32,
    RADDLEHUE_UNKNOWN_BODY = 101,
    RADDLEHUE_UNKNOWN_AIR = 102,
    RADDLEHUE_NO_ELEVATION = 103,
    RADDLEHUE_OUT_OF_REACH = 104,
    RADDLEHUE_NO_DISKS = 105,
    RADDLEHUE_NO_STEP = 106,
    RADDLEHUE_NO_PLAN = 107
};

/* A refusal in words; of a number that is none, that it is unknown. The text is constant and not to be freed. */
RADDLEHUE_INLINE const char *raddlehue_refusal_text(uint32_t refusal)
{
    switch (refusal) {
    case RADDLEHUE_ACCEPTED: return "accepted";
    case RADDLEHUE_YEAR: return "the year is not 1900 to 2100";
    case RADDLEHUE_MONTH: return "the month is not 1 to 12";
    case RADDLEHUE_DAY: return "that month of the Gregorian calendar has no such day";
    case RADDLEHUE_CLOCK: return "the time of the day is not hour 0 to 23, minute 0 to 59, second 0 to 59, millisecond 0 to 999";
    case RADDLEHUE_UT1: return "UT1 minus UTC is not -900 to 900 milliseconds";
    case RADDLEHUE_DELTA_T: return "delta-T is not -8,000,000 to 8,000,000 milliseconds";
    case RADDLEHUE_LONGITUDE: return "the longitude is not within 180 degrees";
    case RADDLEHUE_LATITUDE: return "the latitude is not within 90 degrees";
    case RADDLEHUE_HEIGHT: return "the height is not -500 to 9,000 metres";
    case RADDLEHUE_PRESSURE: return "the measured pressure is not 0 to 1200 mbar";
    case RADDLEHUE_TEMPERATURE: return "the measured temperature is not -80 to 80 degrees Celsius";
    case RADDLEHUE_SHORT_BUFFER: return "a buffer is shorter than the list of offsets";
    case RADDLEHUE_TOO_LATE: return "a start plus offset lies after 2100-12-31 23:59:59.999 UTC";
    case RADDLEHUE_OPPOSITE: return "two azimuths half a turn apart have no middle";
    case RADDLEHUE_NOT_REDUCED: return "an azimuth is not from 0 up to but not 360 degrees";
    case RADDLEHUE_NOT_A_LINE: return "the line is not whole numbers with single spaces";
    case RADDLEHUE_STRIP_LENGTH: return "the strip's length does not agree with its bytes, with its step or with the number of azimuths";
    case RADDLEHUE_STRIP_VERSION: return "the strip is not of version 1";
    case RADDLEHUE_STRIP_AIR_OR_BODY: return "the strip's air byte is not 0 or 1, or its body byte not 0 or 1";
    case RADDLEHUE_STRIP_DATE: return "the strip's date is not one of 1900 to 2100 in the Gregorian calendar";
    case RADDLEHUE_STRIP_POINT: return "the strip's longitude is not within 180 degrees, or its latitude not within 90";
    case RADDLEHUE_STRIP_STEP: return "the step is not 1, 2, 5 or 10 minutes";
    case RADDLEHUE_STRIP_AZIMUTH: return "an azimuth of the strip is neither absent nor from 0 up to but not 360 degrees";
    case RADDLEHUE_STRIP_NOT_FOUND: return "neither strip bears that date";
    case RADDLEHUE_STRIP_BUFFER: return "the buffer is too small for the strip or its azimuths";
    case RADDLEHUE_PROPOSAL_POINTS: return "the turning points are not 2 to 1,440 minutes that rise from 0 to 1439, each with an azimuth from 0 up to but not 360 degrees";
    case RADDLEHUE_PROPOSAL_OPPOSITE: return "two neighbouring turning points lie exactly half a turn apart";
    case RADDLEHUE_PROPOSAL_OUT: return "a minute of the proposal is out of tolerance";
    case RADDLEHUE_STRIP_MEASURED_AIR: return "a strip in measured air is not written, whether it was carried over or not";
    case RADDLEHUE_UNKNOWN_BODY: return "the body is neither Sun nor Moon";
    case RADDLEHUE_UNKNOWN_AIR: return "the air is neither none nor measured";
    case RADDLEHUE_NO_ELEVATION: return "the elevation is not within 90 degrees";
    case RADDLEHUE_OUT_OF_REACH: return "the instant is not within 3,190,473,360,000 milliseconds of 2000-01-01 12:00";
    case RADDLEHUE_NO_DISKS: return "the separation is not 0 to 180 degrees, the Sun's radius not 0.2 to 0.3 or the Moon's not 0 to 0.3";
    case RADDLEHUE_NO_STEP: return "the strip has no such step";
    case RADDLEHUE_NO_PLAN: return "there is no plan: a minute of the day has no azimuth, or two adjacent minutes are exactly opposite";
    default: return "unknown refusal";
    }
}

/* The body of a request: its centre. */
enum { RADDLEHUE_SUN = 0, RADDLEHUE_MOON = 1 };

/* The air of a request: none, or measured. (1 was standard air before version 5; it is an unknown kind, which is refused by 102.) */
enum { RADDLEHUE_AIR_NONE = 0, RADDLEHUE_AIR_MEASURED = 2 };

/* A moment of UTC. */
typedef struct {
    int64_t year;        /* 1900 to 2100 */
    int64_t month;       /* 1 to 12 */
    int64_t day;         /* from 1 */
    int64_t hour;        /* 0 to 23, UTC */
    int64_t minute;      /* 0 to 59 */
    int64_t second;      /* 0 to 59: a leap second is refused */
    int64_t fraction_ms; /* 0 to 999 */
    int64_t ut1_ms;      /* UT1 minus UTC, -900 to 900 */
    int64_t delta_t_ms;  /* delta-T, TT minus UT1: 67 s is 67,000; -8,000,000 to 8,000,000 */
} raddlehue_start_ms_t;

/* Where the observer stands. */
typedef struct {
    int64_t longitude_e7;  /* east positive, within 1,800,000,000 */
    int64_t latitude_e7;   /* north positive, within 900,000,000 */
    int64_t height_metres; /* above the sea, -500 to 9,000 */
} raddlehue_point_t;

/* The air, as the inline functions take it. */
typedef struct {
    uint32_t kind;              /* RADDLEHUE_AIR_NONE or RADDLEHUE_AIR_MEASURED */
    double pressure_mbar;       /* read only where measured, 0 to 1200 */
    double temperature_celsius; /* read only where measured, -80 to 80 */
} raddlehue_air_t;

/* ---- the place of a body */

/* A body straight overhead or straight underfoot has no azimuth. has_azimuth, beside the place, is 1 where there is one and 0 where there is none. Ask it first: where there
 * is none the number is 0, as it is in the north, and the elevation does not tell the two apart. */
typedef struct {
    int64_t azimuth_if_any_e8; /* from north over east, 0 to 35,999,999,999; 0 where there is none */
    int64_t elevation_e8;      /* above the horizon, without refraction, within 9,000,000,000 */
} raddlehue_place_t;

/* Against JPL's DE431 the Sun lies within 0.0002 degree and the Moon within 0.002 (docs/FIGURES.md), given the right UT1 and delta-T. The air does not change this
 * place, and a bad one is refused all the same. The flag and the place are both written, or neither is. Refused: 101, 102, then 1 to 11. */
uint32_t raddlehue_place(
    const raddlehue_start_ms_t *start, uint32_t body, const raddlehue_point_t *point,
    uint32_t air, double pressure_mbar, double temperature_celsius, uint32_t *has_azimuth, raddlehue_place_t *place);

typedef struct {
    uint32_t refusal;
    uint32_t has_azimuth;
    int64_t azimuth_if_any_e8;
    int64_t elevation_e8;
} raddlehue_place_answer_t;

RADDLEHUE_INLINE raddlehue_place_answer_t raddlehue_place_of(
    raddlehue_start_ms_t start, uint32_t body, raddlehue_point_t point, raddlehue_air_t air)
{
    raddlehue_place_t place = {0, 0};
    raddlehue_place_answer_t answer;
    answer.has_azimuth = 0;
    answer.refusal = raddlehue_place(
        &start, body, &point, air.kind, air.pressure_mbar, air.temperature_celsius, &answer.has_azimuth, &place);
    answer.azimuth_if_any_e8 = place.azimuth_if_any_e8;
    answer.elevation_e8 = place.elevation_e8;
    return answer;
}

/* ---- the place as it is shown */

/* At and above this elevation without refraction, in 1e-8 degree, refraction is worked, for both bodies: -0.83337 degree, the Sun's radius and the usual refraction
 * at the horizon. Below it a body is shown where it stands. Where a body rises and sets is another number, RADDLEHUE_RISE_SET_E8. */
#define RADDLEHUE_LOWEST_REFRACTED_E8 (-83337000)

typedef struct {
    double azimuth_if_any_degrees; /* from north over east, from 0 up to but not 360; 0 where there is none */
    double elevation_degrees;      /* with the refraction in it */
    double refraction_degrees;     /* slightly below zero near the zenith, by the report's formula; 0 below RADDLEHUE_LOWEST_REFRACTED_E8 and without air */
} raddlehue_shown_place_t;

/* has_azimuth is the place's. Refused: 101, 102, then 1 to 11. */
uint32_t raddlehue_shown_place(
    const raddlehue_start_ms_t *start, uint32_t body, const raddlehue_point_t *point,
    uint32_t air, double pressure_mbar, double temperature_celsius, uint32_t *has_azimuth, raddlehue_shown_place_t *shown);

typedef struct {
    uint32_t refusal;
    uint32_t has_azimuth;
    double azimuth_if_any_degrees;
    double elevation_degrees;
    double refraction_degrees;
} raddlehue_shown_place_answer_t;

RADDLEHUE_INLINE raddlehue_shown_place_answer_t raddlehue_shown_place_of(
    raddlehue_start_ms_t start, uint32_t body, raddlehue_point_t point, raddlehue_air_t air)
{
    raddlehue_shown_place_t shown = {0.0, 0.0, 0.0};
    raddlehue_shown_place_answer_t answer;
    answer.has_azimuth = 0;
    answer.refusal = raddlehue_shown_place(
        &start, body, &point, air.kind, air.pressure_mbar, air.temperature_celsius, &answer.has_azimuth, &shown);
    answer.azimuth_if_any_degrees = shown.azimuth_if_any_degrees;
    answer.elevation_degrees = shown.elevation_degrees;
    answer.refraction_degrees = shown.refraction_degrees;
    return answer;
}

/* ---- many places from one start */

typedef struct {
    uint64_t index; /* the first offset that is too late, where the refusal is 13; otherwise 0 */
    uint64_t count; /* how many entries of each buffer were written */
} raddlehue_batch_t;

/* Entry i of each buffer is the place at offset i, which counts from the start and reaches 49.7 days. Where that has no azimuth, RADDLEHUE_NO_DIRECTION_E8 stands in the entry of the azimuths; the elevation is there as ever.
 * What lies beyond the last offset is left alone, and a refused batch writes to neither buffer. `batch` is written where the batch is accepted, and where it is refused
 * by 13, for the index. A length counts entries, and one of 0 may come with a null pointer. Refused: 101, then 1 to 9, 12 and 13. */
uint32_t raddlehue_batch_ms(
    const raddlehue_start_ms_t *start, uint32_t body, const raddlehue_point_t *point,
    const uint32_t *offsets_ms, uint64_t offsets_length,
    int64_t *azimuths_e8, uint64_t azimuths_length,
    int64_t *elevations_e8, uint64_t elevations_length,
    raddlehue_batch_t *batch);

typedef struct {
    uint32_t refusal;
    uint64_t index;
    uint64_t count;
} raddlehue_batch_answer_t;

RADDLEHUE_INLINE raddlehue_batch_answer_t raddlehue_batch_ms_of(
    raddlehue_start_ms_t start, uint32_t body, raddlehue_point_t point,
    const uint32_t *offsets_ms, uint64_t offsets_length,
    int64_t *azimuths_e8, uint64_t azimuths_length,
    int64_t *elevations_e8, uint64_t elevations_length)
{
    raddlehue_batch_t batch = {0, 0};
    raddlehue_batch_answer_t answer;
    answer.refusal = raddlehue_batch_ms(
        &start, body, &point, offsets_ms, offsets_length, azimuths_e8, azimuths_length, elevations_e8, elevations_length, &batch);
    answer.index = batch.index;
    answer.count = batch.count;
    return answer;
}

/* ---- a day: its curve, and when the body rises and sets */

/* A date of UTC, with UT1 minus UTC and delta-T for all of it. */
typedef struct {
    int64_t year;       /* 1900 to 2100 */
    int64_t month;      /* 1 to 12 */
    int64_t day;        /* from 1 */
    int64_t ut1_ms;     /* UT1 minus UTC, -900 to 900 */
    int64_t delta_t_ms; /* delta-T, TT minus UT1: 67 s is 67,000; -8,000,000 to 8,000,000 */
} raddlehue_date_ms_t;

typedef struct {
    uint32_t has_rise;    /* 1, or 0 where the body does not rise on this date */
    uint32_t rise_minute; /* from 00:00 UTC, 0 to 1439; 0 where it does not */
    uint32_t has_set;     /* 1, or 0 where the body does not set on this date */
    uint32_t set_minute;  /* from 00:00 UTC, 0 to 1439; 0 where it does not */
} raddlehue_rise_set_t;

/* How many entries a day's curve has. */
#define RADDLEHUE_DAY_MINUTES 1440

/* Where a body rises and sets, in 1e-8 degree without refraction: -0.8333 degree, the usual centre of the Sun at sunrise. */
#define RADDLEHUE_RISE_SET_E8 (-83330000)

/* Entry m of the curve, which has RADDLEHUE_DAY_MINUTES, is the elevation without refraction m minutes after 00:00:00 UTC. The body rises at the first minute at which
 * it is at or above RADDLEHUE_RISE_SET_E8 while at the minute before it is below; setting is the reverse. The minute before 0 is 23:59 of the day before, with the same
 * UT1 minus UTC and delta-T; 1900-01-01 has none, so that the body neither rises nor sets at its minute 0. There is no rise exactly where no minute is such a one, and no
 * set likewise; where there is neither, the whole curve lies on one side, and its entry 0 tells whether the body stays up or down. Refused: 101, then 1 to 3, then 5
 * to 9. */
uint32_t raddlehue_day(
    const raddlehue_date_ms_t *date, uint32_t body, const raddlehue_point_t *point,
    int64_t *elevations_e8, raddlehue_rise_set_t *rise_set);

typedef struct {
    uint32_t refusal;
    uint32_t has_rise;
    uint32_t rise_minute;
    uint32_t has_set;
    uint32_t set_minute;
} raddlehue_day_answer_t;

RADDLEHUE_INLINE raddlehue_day_answer_t raddlehue_day_of(
    raddlehue_date_ms_t date, uint32_t body, raddlehue_point_t point, int64_t *elevations_e8)
{
    raddlehue_rise_set_t rise_set = {0, 0, 0, 0};
    raddlehue_day_answer_t answer;
    answer.refusal = raddlehue_day(&date, body, &point, elevations_e8, &rise_set);
    answer.has_rise = rise_set.has_rise;
    answer.rise_minute = rise_set.rise_minute;
    answer.has_set = rise_set.has_set;
    answer.set_minute = rise_set.set_minute;
    return answer;
}

/* ---- day strips: a day's azimuths as bytes, to and from the phone */

/* A strip is a header and an azimuth for each step of a UTC date, all numbers big-endian: the length of all that follows (2 bytes), version 1 (1), air (1: 0
 * none; 1 in old strips), body (1: 0 Sun, 1 Moon), year (2), month (1), day (1), longitude and latitude (4 each, two's complement), step in minutes (1: 1, 2, 5 or
 * 10), then the azimuths from minute 0 on (4 each), in 1e-7 degree from north over east, rounded down, 0 to 3,599,999,999, or RADDLEHUE_NO_AZIMUTH_E7 where there
 * is none. Reading what was written gives the same strip, and writing what was read gives the same bytes, but for old strips: air byte 1 is read, and never written. */

/* Bytes of the header, which stand before the azimuths. */
#define RADDLEHUE_STRIP_HEADER 18

/* How many azimuths, and how many bytes, a strip of a step has; of step 1, the most, 1,440 and 5,778. */
#define RADDLEHUE_STRIP_STEPS(step_minutes) (RADDLEHUE_DAY_MINUTES / (step_minutes))
#define RADDLEHUE_STRIP_BYTES(step_minutes) (RADDLEHUE_STRIP_HEADER + 4 * RADDLEHUE_STRIP_STEPS(step_minutes))

/* An absent azimuth of a strip. It is no angle from 0 up to 360 degrees. */
#define RADDLEHUE_NO_AZIMUTH_E7 4294967295u

/* The kind of a strip's air where it was carried over from an old strip, whose air byte is 1: measured air, with this mark. No request has it. */
enum { RADDLEHUE_AIR_CARRIED_OVER = 3 };

/* What a strip says beside its azimuths. */
typedef struct {
    int64_t air_kind;     /* RADDLEHUE_AIR_NONE, or RADDLEHUE_AIR_CARRIED_OVER where an old strip was read; measured air, carried over or not, is not written */
    int64_t body;         /* RADDLEHUE_SUN or RADDLEHUE_MOON */
    int64_t year;         /* 1900 to 2100, of a UTC date */
    int64_t month;        /* 1 to 12 */
    int64_t day;          /* from 1 */
    int64_t longitude_e7; /* east positive, within 1,800,000,000 */
    int64_t latitude_e7;  /* north positive, within 900,000,000 */
    int64_t step_minutes; /* 1, 2, 5 or 10 */
} raddlehue_strip_t;

/* A day's azimuths for a strip: entry i is the body's azimuth i steps after 00:00:00 UTC of the date. Entries behind the last step are left alone. `count` is
 * how many were written. Refused: 101, then 1 to 3, 5 to 9, 25, and 28 where there are fewer entries than steps. */
uint32_t raddlehue_day_azimuths(
    const raddlehue_date_ms_t *date, uint32_t body, const raddlehue_point_t *point, int64_t step_minutes,
    uint32_t *azimuths_e7, uint64_t azimuths_length, uint64_t *count);

typedef struct {
    uint32_t refusal;
    uint64_t count;
} raddlehue_day_azimuths_answer_t;

RADDLEHUE_INLINE raddlehue_day_azimuths_answer_t raddlehue_day_azimuths_of(
    raddlehue_date_ms_t date, uint32_t body, raddlehue_point_t point, int64_t step_minutes, uint32_t *azimuths_e7, uint64_t azimuths_length)
{
    raddlehue_day_azimuths_answer_t answer;
    answer.count = 0;
    answer.refusal = raddlehue_day_azimuths(&date, body, &point, step_minutes, azimuths_e7, azimuths_length, &answer.count);
    return answer;
}

/* Writes a strip from its start on: bytes behind it are left alone. `written` is how many bytes it has. Refused: 101, 102, then 23 to 25, 20 for another number
 * of azimuths than the step has, 26, 32 for measured air, carried over or not, and 28 for a buffer that is too small. */
uint32_t raddlehue_strip_write(
    const raddlehue_strip_t *strip, const uint32_t *azimuths_e7, uint64_t azimuths_length,
    uint8_t *bytes, uint64_t bytes_length, uint64_t *written);

typedef struct {
    uint32_t refusal;
    uint64_t written;
} raddlehue_strip_write_answer_t;

RADDLEHUE_INLINE raddlehue_strip_write_answer_t raddlehue_strip_write_of(
    raddlehue_strip_t strip, const uint32_t *azimuths_e7, uint64_t azimuths_length, uint8_t *bytes, uint64_t bytes_length)
{
    raddlehue_strip_write_answer_t answer;
    answer.written = 0;
    answer.refusal = raddlehue_strip_write(&strip, azimuths_e7, azimuths_length, bytes, bytes_length, &answer.written);
    return answer;
}

/* What a strip's air was measured at: 1010 mbar and 10 degrees Celsius where it was carried over, zeros where there is none. */
typedef struct {
    double pressure_mbar;
    double temperature_celsius;
} raddlehue_strip_measured_t;

/* What the header of a strip says, and what its air was measured at. The bytes are the whole strip: its azimuths are judged too, and left where they are. The length is
 * judged twice, first against the bytes (and 16, the least), then against the step. Refused: 20, 21 to 25, 20 against the step, and 26. */
uint32_t raddlehue_strip_read(const uint8_t *bytes, uint64_t bytes_length, raddlehue_strip_t *strip, raddlehue_strip_measured_t *measured);

/* The air of a strip, with the mark that it was carried over in its kind. It is another type than a request's air, so that the mark is not lost unseen:
 * raddlehue_request_air says where it is left behind. */
typedef struct {
    uint32_t kind;              /* RADDLEHUE_AIR_NONE or RADDLEHUE_AIR_CARRIED_OVER */
    double pressure_mbar;       /* where carried over 1010 */
    double temperature_celsius; /* where carried over 10 */
} raddlehue_strip_air_t;

typedef struct {
    uint32_t refusal;
    raddlehue_strip_t strip;
    raddlehue_strip_air_t air;
} raddlehue_strip_read_answer_t;

RADDLEHUE_INLINE raddlehue_strip_read_answer_t raddlehue_strip_read_of(const uint8_t *bytes, uint64_t bytes_length)
{
    raddlehue_strip_t strip = {0, 0, 0, 0, 0, 0, 0, 0};
    raddlehue_strip_measured_t measured = {0.0, 0.0};
    raddlehue_strip_read_answer_t answer;
    answer.refusal = raddlehue_strip_read(bytes, bytes_length, &strip, &measured);
    answer.strip = strip;
    answer.air.kind = (uint32_t)strip.air_kind;
    answer.air.pressure_mbar = measured.pressure_mbar;
    answer.air.temperature_celsius = measured.temperature_celsius;
    return answer;
}

/* The air of a request at the place of a strip: none, or measured at the same pressure and temperature. Where it was carried over the shown place has the bits that
 * it had in standard air. */
RADDLEHUE_INLINE raddlehue_air_t raddlehue_request_air(raddlehue_strip_air_t air)
{
    raddlehue_air_t request;
    request.kind = air.kind;
    if (air.kind == RADDLEHUE_AIR_CARRIED_OVER) {
        request.kind = RADDLEHUE_AIR_MEASURED;
    }
    request.pressure_mbar = air.pressure_mbar;
    request.temperature_celsius = air.temperature_celsius;
    return request;
}

/* The azimuth of a step, counted from 0, in the azimuth bytes of a strip: those behind its header, or the part that raddlehue_strip_find hands back.
 * RADDLEHUE_NO_AZIMUTH_E7 where it is absent. Refused: 106 where there is no such step, and 26. */
uint32_t raddlehue_strip_azimuth(const uint8_t *azimuths, uint64_t azimuths_length, uint64_t step, uint32_t *azimuth_e7);

typedef struct {
    uint32_t refusal;
    uint32_t azimuth_e7;
} raddlehue_strip_azimuth_answer_t;

RADDLEHUE_INLINE raddlehue_strip_azimuth_answer_t raddlehue_strip_azimuth_of(const uint8_t *azimuths, uint64_t azimuths_length, uint64_t step)
{
    raddlehue_strip_azimuth_answer_t answer;
    answer.azimuth_e7 = 0;
    answer.refusal = raddlehue_strip_azimuth(azimuths, azimuths_length, step, &answer.azimuth_e7);
    return answer;
}

/* The azimuth bytes of one of two strips: `length` bytes from `offset` on. */
typedef struct {
    uint64_t strip;  /* 1 for the first, 2 for the second */
    uint64_t offset; /* RADDLEHUE_STRIP_HEADER */
    uint64_t length; /* in bytes, 4 for each step */
} raddlehue_strip_part_t;

/* Near midnight the watch has two strips: the part of whichever bears the date asked for, of the first if both do. Both are read wholly, whichever it is.
 * Refused: 20 to 26 of the first strip, then of the second, in the order of raddlehue_strip_read, then 27 for a date in neither. */
uint32_t raddlehue_strip_find(
    const uint8_t *first, uint64_t first_length, const uint8_t *second, uint64_t second_length,
    int64_t year, int64_t month, int64_t day, raddlehue_strip_part_t *part);

typedef struct {
    uint32_t refusal;
    uint64_t strip;
    uint64_t offset;
    uint64_t length;
} raddlehue_strip_find_answer_t;

RADDLEHUE_INLINE raddlehue_strip_find_answer_t raddlehue_strip_find_of(
    const uint8_t *first, uint64_t first_length, const uint8_t *second, uint64_t second_length, int64_t year, int64_t month, int64_t day)
{
    raddlehue_strip_part_t part = {0, 0, 0};
    raddlehue_strip_find_answer_t answer;
    answer.refusal = raddlehue_strip_find(first, first_length, second, second_length, year, month, day, &part);
    answer.strip = part.strip;
    answer.offset = part.offset;
    answer.length = part.length;
    return answer;
}

/* ---- a short strip: turning points that the phone proposes, and the watch's verdict on them */

/* A proposal is a list of minutes of a UTC date, strictly rising, the first 0 and the last 1439, and an azimuth to each, 0 to 35,999,999,999. Between two of them the
 * azimuth goes the short way round in proportion to the time, rounded down from the earlier one: from 13 back to 10 in two minutes it is 11 at the first. A proposal is
 * accepted exactly where at every minute its azimuth lies within the tolerance, the short way round, of the body's azimuth 0 seconds into that minute; a minute at which
 * the body has no azimuth is not compared. */

/* The watch's verdict. The points are only read. `out_minute`, the first minute out of tolerance, is written where the refusal is 31, and nowhere else. A length counts
 * entries, and one of 0 may come with a null pointer. Refused: 101, then 1 to 3, 5 to 9, 29 (also where one list is longer than the other), 30 and 31. */
uint32_t raddlehue_judge(
    const raddlehue_date_ms_t *date, uint32_t body, const raddlehue_point_t *point, uint64_t tolerance_e8,
    const uint32_t *minutes, uint64_t minutes_length, const int64_t *azimuths_e8, uint64_t azimuths_length,
    uint32_t *out_minute);

typedef struct {
    uint32_t refusal;
    uint32_t out_minute; /* the first minute out of tolerance where the refusal is 31; otherwise 0 */
} raddlehue_judge_answer_t;

RADDLEHUE_INLINE raddlehue_judge_answer_t raddlehue_judge_of(
    raddlehue_date_ms_t date, uint32_t body, raddlehue_point_t point, uint64_t tolerance_e8,
    const uint32_t *minutes, uint64_t minutes_length, const int64_t *azimuths_e8, uint64_t azimuths_length)
{
    raddlehue_judge_answer_t answer;
    answer.out_minute = 0;
    answer.refusal = raddlehue_judge(
        &date, body, &point, tolerance_e8, minutes, minutes_length, azimuths_e8, azimuths_length, &answer.out_minute);
    return answer;
}

/* A proposal for the day, of the first `count` entries of two buffers of RADDLEHUE_DAY_MINUTES each; entries behind them are left alone. Its points are azimuths of the
 * body; raddlehue_judge accepts it at the tolerance that it was planned for, whichever that is, and would refuse it, by 30 or 31, if any one inner point were dropped.
 * For the phone: some 12 KB of stack more than the others take, 1,440 azimuths, and up to 500 million comparisons, on real days about a million (docs/FIGURES.md has the
 * times). Refused: 101, then 1 to 3, 5 to 9, and last 107, no plan: exactly where a minute of the day has no azimuth or two adjacent minutes are exactly opposite. */
uint32_t raddlehue_plan(
    const raddlehue_date_ms_t *date, uint32_t body, const raddlehue_point_t *point, uint64_t tolerance_e8,
    uint32_t *minutes, int64_t *azimuths_e8, uint64_t *count);

typedef struct {
    uint32_t refusal;
    uint64_t count;
} raddlehue_plan_answer_t;

RADDLEHUE_INLINE raddlehue_plan_answer_t raddlehue_plan_of(
    raddlehue_date_ms_t date, uint32_t body, raddlehue_point_t point, uint64_t tolerance_e8, uint32_t *minutes, int64_t *azimuths_e8)
{
    raddlehue_plan_answer_t answer;
    answer.count = 0;
    answer.refusal = raddlehue_plan(&date, body, &point, tolerance_e8, minutes, azimuths_e8, &answer.count);
    return answer;
}

/* ---- how much of the Sun is covered */

typedef struct {
    int64_t separation_e8;    /* of the two centres, 0 to 18,000,000,000 */
    int64_t sun_radius_e8;    /* of the Sun's disk */
    int64_t moon_radius_e8;   /* of the Moon's disk */
    int64_t share_millionths; /* of the Sun's disk that the Moon's covers, 0 to 1,000,000 */
} raddlehue_eclipse_t;

/* The Sun and the Moon as two disks at a moment, from a point. The disks touch where the separation is the sum of the radii; from there on the share is 0, as it nearly always is. The whole Sun is covered,
 * and the share is 1,000,000, where the Moon's radius is at least the Sun's and the separation at most their difference; where the Moon's is the smaller, a ring is left there, whose share is a floor.
 * Elsewhere the share is within 10 millionths of the area of the two circles, and next to a contact may round to 0 or to 1,000,000: separation and radii tell the contacts. The horizon does not enter:
 * raddlehue_place says whether the Sun is up. Against JPL's DE431 the Moon lies within 0.002 degree (docs/FIGURES.md). Refused: 1 to 9. */
uint32_t raddlehue_eclipse(const raddlehue_start_ms_t *start, const raddlehue_point_t *point, raddlehue_eclipse_t *eclipse);

typedef struct {
    uint32_t refusal;
    int64_t separation_e8;
    int64_t sun_radius_e8;
    int64_t moon_radius_e8;
    int64_t share_millionths;
} raddlehue_eclipse_answer_t;

RADDLEHUE_INLINE raddlehue_eclipse_answer_t raddlehue_eclipse_of(raddlehue_start_ms_t start, raddlehue_point_t point)
{
    raddlehue_eclipse_t eclipse = {0, 0, 0, 0};
    raddlehue_eclipse_answer_t answer;
    answer.refusal = raddlehue_eclipse(&start, &point, &eclipse);
    answer.separation_e8 = eclipse.separation_e8;
    answer.sun_radius_e8 = eclipse.sun_radius_e8;
    answer.moon_radius_e8 = eclipse.moon_radius_e8;
    answer.share_millionths = eclipse.share_millionths;
    return answer;
}

/* The share by itself, of a separation of 0 to 18,000,000,000, a Sun's radius of 20,000,000 to 30,000,000 and a Moon's of 0 to 30,000,000. Refused: 105. */
uint32_t raddlehue_covered_share(int64_t separation_e8, int64_t sun_radius_e8, int64_t moon_radius_e8, int64_t *share_millionths);

typedef struct {
    uint32_t refusal;
    int64_t share_millionths;
} raddlehue_covered_share_answer_t;

RADDLEHUE_INLINE raddlehue_covered_share_answer_t raddlehue_covered_share_of(int64_t separation_e8, int64_t sun_radius_e8, int64_t moon_radius_e8)
{
    raddlehue_covered_share_answer_t answer;
    answer.share_millionths = 0;
    answer.refusal = raddlehue_covered_share(separation_e8, sun_radius_e8, moon_radius_e8, &answer.share_millionths);
    return answer;
}

/* ---- the middle of two azimuths */

/* Half way between two azimuths, the short way round: of 359.9 and 0.1 degree it is 0. Refused: 15, then 14. */
uint32_t raddlehue_middle(int64_t a_e8, int64_t b_e8, int64_t *azimuth_e8);

typedef struct {
    uint32_t refusal;
    int64_t azimuth_e8; /* 0 to 35,999,999,999 */
} raddlehue_middle_answer_t;

RADDLEHUE_INLINE raddlehue_middle_answer_t raddlehue_middle_of(int64_t a_e8, int64_t b_e8)
{
    raddlehue_middle_answer_t answer;
    answer.azimuth_e8 = 0;
    answer.refusal = raddlehue_middle(a_e8, b_e8, &answer.azimuth_e8);
    return answer;
}

/* ---- refraction */

/* How much the air raises a body whose elevation without refraction is given, within 9,000,000,000: 0 below RADDLEHUE_LOWEST_REFRACTED_E8, as in a shown place.
 * Refused: 102, 103, then 10 and 11. */
uint32_t raddlehue_refraction(
    int64_t elevation_e8, uint32_t air, double pressure_mbar, double temperature_celsius, double *refraction_degrees);

typedef struct {
    uint32_t refusal;
    double refraction_degrees;
} raddlehue_refraction_answer_t;

RADDLEHUE_INLINE raddlehue_refraction_answer_t raddlehue_refraction_of(int64_t elevation_e8, raddlehue_air_t air)
{
    raddlehue_refraction_answer_t answer;
    answer.refraction_degrees = 0.0;
    answer.refusal = raddlehue_refraction(elevation_e8, air.kind, air.pressure_mbar, air.temperature_celsius, &answer.refraction_degrees);
    return answer;
}

/* ---- dates and instants */

/* Days from 2000-01-01. Refused: 1 to 3. */
uint32_t raddlehue_day_count(int64_t year, int64_t month, int64_t day, int64_t *days);

typedef struct {
    uint32_t refusal;
    int64_t days;
} raddlehue_day_count_answer_t;

RADDLEHUE_INLINE raddlehue_day_count_answer_t raddlehue_day_count_of(int64_t year, int64_t month, int64_t day)
{
    raddlehue_day_count_answer_t answer;
    answer.days = 0;
    answer.refusal = raddlehue_day_count(year, month, day, &answer.days);
    return answer;
}

/* A moment in both scales, from 2000-01-01 12:00: UT turns the Earth, TT moves the Sun and the Moon. The sums below ask for them. */
typedef struct {
    int64_t ut_ms;
    int64_t tt_ms;
} raddlehue_instant_t;

/* Refused: 1 to 6. */
uint32_t raddlehue_instant(const raddlehue_start_ms_t *start, raddlehue_instant_t *instant);

typedef struct {
    uint32_t refusal;
    int64_t ut_ms;
    int64_t tt_ms;
} raddlehue_instant_answer_t;

RADDLEHUE_INLINE raddlehue_instant_answer_t raddlehue_instant_of(raddlehue_start_ms_t start)
{
    raddlehue_instant_t instant = {0, 0};
    raddlehue_instant_answer_t answer;
    answer.refusal = raddlehue_instant(&start, &instant);
    answer.ut_ms = instant.ut_ms;
    answer.tt_ms = instant.tt_ms;
    return answer;
}

/* ---- the sums at one instant; each is refused by 104 where the instant is out of reach */

/* The Moon from the Earth's centre, before nutation. */
typedef struct {
    int64_t longitude_e8;    /* ecliptic, 0 to 35,999,999,999 */
    int64_t latitude_e8;     /* ecliptic */
    int64_t distance_metres; /* from the Earth's centre */
} raddlehue_moon_sums_t;

uint32_t raddlehue_moon_sums_ms(int64_t tt_ms, raddlehue_moon_sums_t *sums);

typedef struct {
    uint32_t refusal;
    int64_t longitude_e8;
    int64_t latitude_e8;
    int64_t distance_metres;
} raddlehue_moon_sums_answer_t;

RADDLEHUE_INLINE raddlehue_moon_sums_answer_t raddlehue_moon_sums_ms_of(int64_t tt_ms)
{
    raddlehue_moon_sums_t sums = {0, 0, 0};
    raddlehue_moon_sums_answer_t answer;
    answer.refusal = raddlehue_moon_sums_ms(tt_ms, &sums);
    answer.longitude_e8 = sums.longitude_e8;
    answer.latitude_e8 = sums.latitude_e8;
    answer.distance_metres = sums.distance_metres;
    return answer;
}

/* The Earth around the Sun. */
typedef struct {
    int64_t longitude_radians_e10; /* ecliptic, no turn taken off */
    int64_t latitude_radians_e10;  /* ecliptic */
    int64_t radius_au_e10;         /* from the Sun's centre */
} raddlehue_sun_sums_t;

uint32_t raddlehue_sun_sums_ms(int64_t tt_ms, raddlehue_sun_sums_t *sums);

typedef struct {
    uint32_t refusal;
    int64_t longitude_radians_e10;
    int64_t latitude_radians_e10;
    int64_t radius_au_e10;
} raddlehue_sun_sums_answer_t;

RADDLEHUE_INLINE raddlehue_sun_sums_answer_t raddlehue_sun_sums_ms_of(int64_t tt_ms)
{
    raddlehue_sun_sums_t sums = {0, 0, 0};
    raddlehue_sun_sums_answer_t answer;
    answer.refusal = raddlehue_sun_sums_ms(tt_ms, &sums);
    answer.longitude_radians_e10 = sums.longitude_radians_e10;
    answer.latitude_radians_e10 = sums.latitude_radians_e10;
    answer.radius_au_e10 = sums.radius_au_e10;
    return answer;
}

typedef struct {
    int64_t longitude_e8;      /* nutation in longitude */
    int64_t obliquity_e8;      /* nutation in obliquity */
    int64_t true_obliquity_e8; /* of the ecliptic, the nutation in it */
} raddlehue_nutation_t;

uint32_t raddlehue_nutation_ms(int64_t tt_ms, raddlehue_nutation_t *nutation);

typedef struct {
    uint32_t refusal;
    int64_t longitude_e8;
    int64_t obliquity_e8;
    int64_t true_obliquity_e8;
} raddlehue_nutation_answer_t;

RADDLEHUE_INLINE raddlehue_nutation_answer_t raddlehue_nutation_ms_of(int64_t tt_ms)
{
    raddlehue_nutation_t nutation = {0, 0, 0};
    raddlehue_nutation_answer_t answer;
    answer.refusal = raddlehue_nutation_ms(tt_ms, &nutation);
    answer.longitude_e8 = nutation.longitude_e8;
    answer.obliquity_e8 = nutation.obliquity_e8;
    answer.true_obliquity_e8 = nutation.true_obliquity_e8;
    return answer;
}

/* Mean sidereal time at Greenwich, 0 to 35,999,999,999. */
uint32_t raddlehue_mean_sidereal_ms(int64_t ut_ms, int64_t *sidereal_e8);

typedef struct {
    uint32_t refusal;
    int64_t sidereal_e8;
} raddlehue_mean_sidereal_answer_t;

RADDLEHUE_INLINE raddlehue_mean_sidereal_answer_t raddlehue_mean_sidereal_ms_of(int64_t ut_ms)
{
    raddlehue_mean_sidereal_answer_t answer;
    answer.sidereal_e8 = 0;
    answer.refusal = raddlehue_mean_sidereal_ms(ut_ms, &answer.sidereal_e8);
    return answer;
}

/* ---- numbers; nothing is refused */

/* Sine and cosine times 1e9 of any angle, within 6 of the exact ones; at most 1,000,000,001 either way, since rounding may pass 1e9 by one. */
int64_t raddlehue_sine(int64_t angle_e8);
int64_t raddlehue_cosine(int64_t angle_e8);

/* The angle of the point (x, y) from the x axis towards the y axis, 0 to 35,999,999,999; RADDLEHUE_NO_DIRECTION_E8 where both are zero. Thirty whole-number steps: a pair of
 * thousands or more is good to some units, a tiny one is not (of y = 1, x = 0 it is 9,004,472,123). */
int64_t raddlehue_arctangent(int64_t y, int64_t x);

/* The greatest whole number whose square is not above the given one. */
uint64_t raddlehue_root(uint64_t square);

/* ---- names of version 3 that took tenths of a second: none can be called, not even where a C compiler lets an unknown function pass */

#define raddlehue_batch "call raddlehue_batch_ms, with milliseconds"
#define raddlehue_batch_of "call raddlehue_batch_ms_of, with milliseconds"
#define raddlehue_moon_sums "call raddlehue_moon_sums_ms, with milliseconds"
#define raddlehue_moon_sums_of "call raddlehue_moon_sums_ms_of, with milliseconds"
#define raddlehue_sun_sums "call raddlehue_sun_sums_ms, with milliseconds"
#define raddlehue_sun_sums_of "call raddlehue_sun_sums_ms_of, with milliseconds"
#define raddlehue_nutation "call raddlehue_nutation_ms, with milliseconds"
#define raddlehue_nutation_of "call raddlehue_nutation_ms_of, with milliseconds"
#define raddlehue_mean_sidereal "call raddlehue_mean_sidereal_ms, with milliseconds"
#define raddlehue_mean_sidereal_of "call raddlehue_mean_sidereal_ms_of, with milliseconds"

#ifdef __cplusplus
}
#endif

#endif
