/* Requests through every export: seeded random ones, valid and damaged, and the vectors. One line each, the words in hexadecimal, doubles as their bits:
 *
 *     EXPORT WHAT IT IS GIVEN -> WHAT IT GIVES AND WHAT LIES IN THE LENT MEMORY AFTER
 *
 * The same file is compiled for the host, over the archive, and for another processor, over the same module; the two have to say the same bytes. Lent memory is
 * poisoned before each call, on both sides of it too, so a line also shows that a refused call writes nothing.
 */
#include "requests.h"

#include <stddef.h>

#include "raddlehue.h"

/* ---- seeded numbers: SplitMix64, as in tests/differential.rs */

static uint64_t state;

void seed(uint64_t s) { state = s; }

static uint64_t next(void) {
    uint64_t z = state += 0x9e3779b97f4a7c15u;
    z = (z ^ (z >> 30)) * 0xbf58476d1ce4e5b9u;
    z = (z ^ (z >> 27)) * 0x94d049bb133111ebu;
    return z ^ (z >> 31);
}

static uint64_t below(uint64_t n) { return next() % n; }

static int64_t between(int64_t lo, int64_t hi) { return lo + (int64_t)below((uint64_t)hi - (uint64_t)lo + 1); }

/* Within lo to hi, more often than chance at either end. */
static int64_t field(int64_t lo, int64_t hi) {
    switch (below(12)) {
    case 0: return lo;
    case 1: return hi;
    default: return between(lo, hi);
    }
}

/* Just outside lo to hi, or far. */
static int64_t outside(int64_t lo, int64_t hi) {
    switch (below(4)) {
    case 0: return INT64_MIN;
    case 1: return INT64_MAX;
    case 2: return lo - 1;
    default: return hi + 1;
    }
}

static int64_t mostly(int64_t lo, int64_t hi) { return below(12) ? field(lo, hi) : outside(lo, hi); }

typedef struct {
    int64_t lo, hi;
} range_t;

static const range_t FIELDS[12] = {
    {1900, 2100}, {1, 12}, {1, 28}, {0, 23}, {0, 59}, {0, 59}, {0, 999}, {-900, 900}, {-8000000, 8000000},
    {-1800000000, 1800000000}, {-900000000, 900000000}, {-500, 9000}};

/* One request in eight has a number outside its range. */
static void damage(int64_t *n, const range_t *ranges, uint64_t count) {
    if (below(8) == 0) {
        uint64_t i = below(count);
        n[i] = outside(ranges[i].lo, ranges[i].hi);
    }
}

void random_request(int64_t n[12]) {
    for (int i = 0; i < 12; i++) {
        n[i] = field(FIELDS[i].lo, FIELDS[i].hi);
    }
    damage(n, FIELDS, 12);
}

/* ---- lines */

static char line[2048];
static unsigned at;

static void name(const char *s) {
    while (*s) {
        line[at++] = *s++;
    }
    line[at++] = ' ';
}

static void word(uint64_t x) {
    int shift = 60;
    while (shift > 0 && (x >> shift) == 0) {
        shift -= 4;
    }
    for (; shift >= 0; shift -= 4) {
        line[at++] = "0123456789abcdef"[(x >> shift) & 15];
    }
    line[at++] = ' ';
}

static void bytes_word(const uint8_t *bytes, int count) {
    for (int i = 0; i < 2 * count; i++) {
        line[at++] = "0123456789abcdef"[bytes[i / 2] >> (i % 2 ? 0 : 4) & 15];
    }
    line[at++] = ' ';
}

static uint64_t bits_of(double x) {
    uint64_t bits;
    __builtin_memcpy(&bits, &x, 8);
    return bits;
}

static double of_bits(uint64_t bits) {
    double x;
    __builtin_memcpy(&x, &bits, 8);
    return x;
}

static void end_line(void) {
    line[at - 1] = '\n';
    line[at] = 0;
    put_text(line);
    at = 0;
}

/* ---- lent memory: the answer's words with poison on both sides */

#define POISON 0x5a5a5a5a5a5a5a5aull

enum { SIDE = 2, ROOM = 10 };

static uint64_t lent[SIDE + ROOM + SIDE];

static void *lend(void) {
    for (int i = 0; i < SIDE + ROOM + SIDE; i++) {
        lent[i] = POISON;
    }
    return &lent[SIDE];
}

/* The answer's words; what was written beside them is shown too. */
static void show_lent(uint32_t refusal, int words) {
    name("->"), word(refusal);
    for (int i = 0; i < SIDE + ROOM + SIDE; i++) {
        if (i >= SIDE && i < SIDE + words) {
            word(lent[i]);
        } else if (lent[i] != POISON) {
            name("BESIDE"), word((uint64_t)i), word(lent[i]);
        }
    }
}

static void numbers(const int64_t *n, int count) {
    for (int i = 0; i < count; i++) {
        word((uint64_t)n[i]);
    }
}

/* ---- each export */

typedef struct {
    uint32_t kind;
    uint64_t pressure, temperature; /* bits */
} air_t;

/* A start of nine numbers and a point of three lie as the header's structs do. */
static const raddlehue_start_ms_t *start_of(const int64_t n[12]) { return (const raddlehue_start_ms_t *)(const void *)n; }
static const raddlehue_point_t *point_of(const int64_t n[12]) { return (const raddlehue_point_t *)(const void *)(n + 9); }

static void show_request(const char *what, const int64_t n[12], uint32_t body, air_t air) {
    name(what), numbers(n, 9), word(body), numbers(n + 9, 3), word(air.kind), word(air.pressure), word(air.temperature);
}

/* Whether there is an azimuth is lent a word before the numbers, of which it takes the lower half: the upper stays poisoned. */
static void show_place(const int64_t n[12], uint32_t body, air_t air) {
    double p = of_bits(air.pressure), t = of_bits(air.temperature);
    void *flag = &lent[SIDE], *place = &lent[SIDE + 1];
    show_request("place", n, body, air), lend();
    show_lent(raddlehue_place(start_of(n), body, point_of(n), air.kind, p, t, flag, place), 3), end_line();
    show_request("shown_place", n, body, air), lend();
    show_lent(raddlehue_shown_place(start_of(n), body, point_of(n), air.kind, p, t, flag, place), 4), end_line();
}

static void show_instant(const int64_t n[12]) {
    name("instant"), numbers(n, 9);
    show_lent(raddlehue_instant(start_of(n), lend()), 2), end_line();
}

enum { OFFSETS = 8 };

static void show_batch(const int64_t n[12], uint32_t body, const uint32_t *offsets, uint64_t count, uint64_t azimuths, uint64_t elevations) {
    int64_t buffer[2][OFFSETS + 2];
    uint32_t refusal;
    for (int i = 0; i < OFFSETS + 2; i++) {
        buffer[0][i] = -7, buffer[1][i] = -8;
    }
    name("batch_ms"), numbers(n, 9), word(body), numbers(n + 9, 3), word(count);
    for (uint64_t i = 0; i < count; i++) {
        word(offsets[i]);
    }
    word(azimuths), word(elevations);
    refusal = raddlehue_batch_ms(
        start_of(n), body, point_of(n), count ? offsets : 0, count, azimuths ? buffer[0] : 0, azimuths, elevations ? buffer[1] : 0, elevations, lend());
    show_lent(refusal, 2);
    numbers(buffer[0], OFFSETS + 2), numbers(buffer[1], OFFSETS + 2), end_line();
}

enum { MINUTES = 1440 };

static uint64_t curve[SIDE + MINUTES + SIDE];

static void poison(void *memory, size_t bytes) { __builtin_memset(memory, (uint8_t)POISON, bytes); }

/* Long memory, of cells of 8, 4 or 1 bytes with poison on both sides: a line has how many of its cells are still poisoned and its digest, as tests/vectors/days.txt says,
 * and what was written beside it. */
static void show_long(const void *memory, unsigned width, int cells) {
    uint64_t poisoned = 0, digest = 0xcbf29ce484222325u;
    for (int i = 0; i < SIDE + cells + SIDE; i++) {
        uint64_t cell = 0;
        __builtin_memcpy(&cell, (const uint8_t *)memory + width * (unsigned)i, width);
        const int is_poisoned = cell == POISON >> (64 - 8 * width);
        if (i >= SIDE && i < SIDE + cells) {
            poisoned += is_poisoned;
            digest = (digest ^ cell) * 0x100000001b3u;
        } else if (!is_poisoned) {
            name("BESIDE"), word((uint64_t)i), word(cell);
        }
    }
    word(poisoned), word(digest);
}

/* A day's eight numbers: a date of five and a point of three, as the header's structs lie. */
static const raddlehue_date_ms_t *date_of(const int64_t n[8]) { return (const raddlehue_date_ms_t *)(const void *)n; }
static const raddlehue_point_t *point_of_day(const int64_t n[8]) { return (const raddlehue_point_t *)(const void *)(n + 5); }

static void name_day(const char *what, const int64_t n[8], uint32_t body) { name(what), numbers(n, 5), word(body), numbers(n + 5, 3); }

static void show_day(const int64_t n[8], uint32_t body) {
    poison(curve, sizeof curve);
    name_day("day", n, body);
    show_lent(raddlehue_day(date_of(n), body, point_of_day(n), (int64_t *)&curve[SIDE], lend()), 2), show_long(curve, 8, MINUTES), end_line();
}

/* ---- strips */

/* Azimuths of a strip: a line has a seed for all, and the one that is put among them. A sixth of them are absent. */
typedef struct {
    uint32_t seed, at, azimuth;
} drawn_t;

static uint32_t drawn_azimuth(drawn_t drawn, uint64_t i) {
    uint32_t any = (uint32_t)((drawn.seed + i) * 0x9e3779b97f4a7c15u >> 32);
    if (i == drawn.at) {
        return drawn.azimuth;
    }
    return any < 3600000000u ? any : RADDLEHUE_NO_AZIMUTH_E7;
}

/* A strip as the reader gets it: a line has the bytes of its header, how many bytes there are in all, and its azimuths as they are drawn. */
typedef struct {
    uint8_t header[RADDLEHUE_STRIP_HEADER];
    uint64_t length;
    drawn_t drawn;
} strip_t;

/* The largest strip, and room for one that is longer than it says. */
enum { STRIP_ROOM = RADDLEHUE_STRIP_BYTES(1) + 2 };

static uint8_t strips[2][STRIP_ROOM], written[SIDE + STRIP_ROOM + SIDE];
static uint32_t azimuths[SIDE + MINUTES + SIDE];

static void show_drawn(drawn_t drawn) { word(drawn.seed), word(drawn.at), word(drawn.azimuth); }

static void show_strip(const strip_t *strip) { bytes_word(strip->header, RADDLEHUE_STRIP_HEADER), word(strip->length), show_drawn(strip->drawn); }

/* Azimuths as a strip has them, big-endian; the last may be cut. */
static void put_azimuths(uint8_t *bytes, uint64_t length, drawn_t drawn) {
    for (uint64_t i = 0; i < length; i++) {
        bytes[i] = (uint8_t)(drawn_azimuth(drawn, i / 4) >> (24 - 8 * (i % 4)));
    }
}

/* The bytes of a strip; none have a null pointer. */
static const uint8_t *put_strip(uint8_t *bytes, const strip_t *strip) {
    uint64_t header = strip->length < RADDLEHUE_STRIP_HEADER ? strip->length : RADDLEHUE_STRIP_HEADER;
    __builtin_memcpy(bytes, strip->header, header);
    put_azimuths(bytes + header, strip->length - header, strip->drawn);
    return strip->length ? bytes : 0;
}

/* A day's azimuths; and where there are any the first of them, and the strip that is written of them. */
static void show_day_azimuths(const int64_t n[8], uint32_t body, int64_t step, uint64_t length) {
    const raddlehue_date_ms_t *date = date_of(n);
    const raddlehue_point_t *point = point_of_day(n);
    uint32_t refusal;
    poison(azimuths, sizeof azimuths), poison(written, sizeof written);
    name_day("day_azimuths", n, body), word((uint64_t)step), word(length);
    refusal = raddlehue_day_azimuths(date, body, point, step, length ? &azimuths[SIDE] : 0, length, lend());
    show_lent(refusal, 1), show_long(azimuths, 4, MINUTES);
    if (refusal == RADDLEHUE_ACCEPTED) {
        const raddlehue_strip_t strip = {RADDLEHUE_AIR_NONE, body, date->year, date->month, date->day, point->longitude_e7, point->latitude_e7, step};
        uint64_t count = lent[SIDE];
        word(azimuths[SIDE]);
        refusal = raddlehue_strip_write(&strip, &azimuths[SIDE], count, &written[SIDE], STRIP_ROOM, lend());
        show_lent(refusal, 1), show_long(written, 1, STRIP_ROOM);
    }
    end_line();
}

static void show_strip_write(const int64_t n[8], uint64_t count, drawn_t drawn, uint64_t length) {
    const raddlehue_strip_t *strip = (const raddlehue_strip_t *)(const void *)n;
    uint32_t refusal;
    for (uint64_t i = 0; i < count; i++) {
        azimuths[i] = drawn_azimuth(drawn, i);
    }
    poison(written, sizeof written);
    name("strip_write"), numbers(n, 8), word(count), show_drawn(drawn), word(length);
    refusal = raddlehue_strip_write(strip, count ? azimuths : 0, count, length ? &written[SIDE] : 0, length, lend());
    show_lent(refusal, 1), show_long(written, 1, STRIP_ROOM), end_line();
}

/* The two doubles of its air are lent behind a strip's eight numbers. */
static void show_strip_read(const strip_t *strip) {
    void *header = lend(), *measured = &lent[SIDE + 8];
    name("strip_read"), show_strip(strip);
    show_lent(raddlehue_strip_read(put_strip(strips[0], strip), strip->length, header, measured), 10), end_line();
}

/* The azimuth takes the lower half of its word: the upper stays poisoned. */
static void show_strip_azimuth(uint64_t length, drawn_t drawn, uint64_t step) {
    put_azimuths(strips[0], length, drawn);
    name("strip_azimuth"), word(length), show_drawn(drawn), word(step);
    show_lent(raddlehue_strip_azimuth(length ? strips[0] : 0, length, step, lend()), 1), end_line();
}

static void show_strip_find(const strip_t *first, const strip_t *second, const int64_t date[3]) {
    const uint8_t *one = put_strip(strips[0], first), *two = put_strip(strips[1], second);
    name("strip_find"), show_strip(first), show_strip(second), numbers(date, 3);
    show_lent(raddlehue_strip_find(one, first->length, two, second->length, date[0], date[1], date[2], lend()), 3), end_line();
}

/* ---- turning points */

enum { POINTS = 12 };

/* A proposal as a line has it: so many minutes, and so many azimuths. */
typedef struct {
    uint32_t minutes[POINTS];
    int64_t azimuths[POINTS];
    uint64_t minutes_length, azimuths_length;
} proposal_t;

/* The minute takes the lower half of its word: the upper stays poisoned. */
static void show_judge(const int64_t n[8], uint32_t body, uint64_t tolerance, const proposal_t *given) {
    const uint32_t *minutes = given->minutes_length ? given->minutes : 0;
    const int64_t *directions = given->azimuths_length ? given->azimuths : 0;
    uint32_t refusal;
    name_day("judge", n, body), word(tolerance), word(given->minutes_length);
    for (uint64_t i = 0; i < given->minutes_length; i++) {
        word(given->minutes[i]);
    }
    word(given->azimuths_length), numbers(given->azimuths, (int)given->azimuths_length);
    refusal = raddlehue_judge(date_of(n), body, point_of_day(n), tolerance, minutes, given->minutes_length, directions, given->azimuths_length, lend());
    show_lent(refusal, 1), end_line();
}

/* A plan, which lies where a day's azimuths and its curve do; and where there is one the verdict on it, and on it without the point in its middle. */
static void show_plan(const int64_t n[8], uint32_t body, uint64_t tolerance) {
    const raddlehue_date_ms_t *date = date_of(n);
    const raddlehue_point_t *point = point_of_day(n);
    uint32_t *minutes = &azimuths[SIDE], refusal;
    int64_t *directions = (int64_t *)&curve[SIDE];
    uint64_t count;
    poison(azimuths, sizeof azimuths), poison(curve, sizeof curve);
    name_day("plan", n, body), word(tolerance);
    refusal = raddlehue_plan(date, body, point, tolerance, minutes, directions, lend());
    count = lent[SIDE];
    show_lent(refusal, 1), show_long(azimuths, 4, MINUTES), show_long(curve, 8, MINUTES);
    if (refusal == RADDLEHUE_ACCEPTED) {
        refusal = raddlehue_judge(date, body, point, tolerance, minutes, count, directions, count, lend());
        show_lent(refusal, 1);
    }
    if (refusal == RADDLEHUE_ACCEPTED && count > 2) {
        for (uint64_t i = count / 2; i + 1 < count; i++) {
            minutes[i] = minutes[i + 1], directions[i] = directions[i + 1];
        }
        refusal = raddlehue_judge(date, body, point, tolerance, minutes, count - 1, directions, count - 1, lend());
        show_lent(refusal, 1);
    }
    end_line();
}

static void show_eclipse(const int64_t n[12]) {
    name("eclipse"), numbers(n, 12);
    show_lent(raddlehue_eclipse(start_of(n), point_of(n), lend()), 4), end_line();
}

static void show_covered_share(const int64_t n[3]) {
    name("covered_share"), numbers(n, 3);
    show_lent(raddlehue_covered_share(n[0], n[1], n[2], lend()), 1), end_line();
}

static void show_middle(int64_t a, int64_t b) {
    name("middle"), word((uint64_t)a), word((uint64_t)b);
    show_lent(raddlehue_middle(a, b, lend()), 1), end_line();
}

static void show_refraction(int64_t elevation, air_t air) {
    name("refraction"), word((uint64_t)elevation), word(air.kind), word(air.pressure), word(air.temperature);
    show_lent(raddlehue_refraction(elevation, air.kind, of_bits(air.pressure), of_bits(air.temperature), lend()), 1), end_line();
}

static void show_day_count(int64_t year, int64_t month, int64_t day) {
    name("day_count"), word((uint64_t)year), word((uint64_t)month), word((uint64_t)day);
    show_lent(raddlehue_day_count(year, month, day, lend()), 1), end_line();
}

static void show_sums(int64_t n) {
    name("moon_sums_ms"), word((uint64_t)n);
    show_lent(raddlehue_moon_sums_ms(n, lend()), 3), end_line();
    name("sun_sums_ms"), word((uint64_t)n);
    show_lent(raddlehue_sun_sums_ms(n, lend()), 3), end_line();
    name("nutation_ms"), word((uint64_t)n);
    show_lent(raddlehue_nutation_ms(n, lend()), 3), end_line();
    name("mean_sidereal_ms"), word((uint64_t)n);
    show_lent(raddlehue_mean_sidereal_ms(n, lend()), 1), end_line();
}

static void show_sines(int64_t x) {
    name("sine"), word((uint64_t)x), name("->"), word((uint64_t)raddlehue_sine(x)), end_line();
    name("cosine"), word((uint64_t)x), name("->"), word((uint64_t)raddlehue_cosine(x)), end_line();
}

static void show_arctangent(int64_t y, int64_t x) {
    name("arctangent"), word((uint64_t)y), word((uint64_t)x), name("->"), word((uint64_t)raddlehue_arctangent(y, x)), end_line();
}

static void show_root(uint64_t x) { name("root"), word(x), name("->"), word(raddlehue_root(x)), end_line(); }

/* ---- random requests */

/* A double with one decimal between two whole numbers, or any bits. */
static uint64_t random_bits(int64_t lo, int64_t hi) {
    return below(16) ? bits_of((double)mostly(10 * lo, 10 * hi) / 10.0) : next();
}

static uint32_t code(uint32_t known) {
    uint32_t any = (uint32_t)next();
    return below(16) ? any % known : any >> below(32);
}

/* None, measured, or now and then any: 1 was standard air, and 3 is of strips alone. */
static uint32_t random_kind(void) {
    if (below(8) == 0) {
        return code(5);
    }
    return below(3) ? RADDLEHUE_AIR_MEASURED : RADDLEHUE_AIR_NONE;
}

/* Offsets reach 49.7 days: one batch in four starts so near the end of all that they may pass it. */
static void random_batch(const int64_t n[12], uint32_t body) {
    int64_t late[12];
    uint32_t offsets[OFFSETS];
    uint64_t count = below(OFFSETS + 1);
    uint64_t azimuths = below(8) ? OFFSETS : below(OFFSETS), elevations = below(8) ? OFFSETS : below(OFFSETS);
    for (int i = 0; i < OFFSETS; i++) {
        uint32_t any = (uint32_t)next();
        offsets[i] = any >> below(32);
    }
    for (int i = 0; i < 12; i++) {
        late[i] = n[i];
    }
    if (below(4) == 0) {
        late[0] = 2100, late[1] = 12, late[2] = between(1, 31);
    }
    show_batch(late, body, offsets, count, azimuths, elevations);
}

/* A day's numbers are a request's without its clock. */
static const int DAY_AT[8] = {0, 1, 2, 7, 8, 9, 10, 11};

static void day_numbers(const int64_t n[12], int64_t day[8]) {
    for (int i = 0; i < 8; i++) {
        day[i] = n[DAY_AT[i]];
    }
}

/* It is any but the day's, since 29 may be one. */
static void damage_day(int64_t day[8]) {
    int i = (int)below(7);
    i += i >= 2;
    day[i] = outside(FIELDS[DAY_AT[i]].lo, FIELDS[DAY_AT[i]].hi);
}

/* A whole day is 1,440 places, and dear under emulation: most get a number outside its range, and are refused. */
static void random_day(const int64_t n[12], uint32_t body, int whole) {
    int64_t day[8];
    day_numbers(n, day);
    if (!whole) {
        damage_day(day);
    }
    show_day(day, body);
}

static const int64_t STEPS[4] = {1, 2, 5, 10};
static const uint64_t TOLERANCES[4] = {1000000, 0, 500, 100000000};

/* Likewise: most have too few entries for any step, or something that is refused before that. */
static void random_day_azimuths(const int64_t n[12], uint32_t body, int whole, int64_t step) {
    int64_t day[8];
    day_numbers(n, day);
    if (whole) {
        show_day_azimuths(day, body, step, (uint64_t)field(RADDLEHUE_STRIP_STEPS(step), MINUTES));
        return;
    }
    if (below(2)) {
        damage_day(day);
    }
    switch (below(4)) {
    case 0: step = between(-1, 11); break;
    case 1: step += (int64_t)(next() << 32); break;
    default: break;
    }
    show_day_azimuths(day, body, step, below(RADDLEHUE_STRIP_STEPS(10)));
}

static const range_t STRIP_FIELDS[8] = {
    {0, 1}, {0, 1}, {1900, 2100}, {1, 12}, {1, 28}, {-1800000000, 1800000000}, {-900000000, 900000000}, {1, 10}};

/* What a strip says, all of it good; its air is the byte that is read, 0 or 1. */
static void random_header(int64_t n[8]) {
    for (int i = 0; i < 7; i++) {
        n[i] = field(STRIP_FIELDS[i].lo, STRIP_FIELDS[i].hi);
    }
    n[7] = STEPS[below(4)];
}

/* So many azimuths, all of them good; or one, often the first or the last, is at an end of the range, or just beyond. */
static drawn_t random_azimuths(uint64_t count, int good) {
    static const uint32_t ENDS[6] = {0, 3599999999u, 3600000000u, 4294967294u, RADDLEHUE_NO_AZIMUTH_E7, 16909060};
    drawn_t drawn;
    drawn.seed = (uint32_t)next();
    drawn.at = (uint32_t)(good || count == 0 ? (int64_t)count : field(0, (int64_t)count - 1));
    drawn.azimuth = ENDS[below(6)];
    return drawn;
}

/* An air that is not written, or is none of a strip's; a step that is none; or any number outside its range. */
static void damage_header(int64_t n[8]) {
    uint64_t i = below(8);
    switch (below(4)) {
    case 0: n[0] = between(1, 4); break;
    case 1: n[7] = between(0, 11); break;
    default: n[i] = outside(STRIP_FIELDS[i].lo, STRIP_FIELDS[i].hi);
    }
}

static void random_strip_write(void) {
    int64_t n[8];
    uint64_t count, length;
    random_header(n), n[0] = RADDLEHUE_AIR_NONE;
    count = (uint64_t)RADDLEHUE_STRIP_STEPS(n[7]);
    count = below(8) ? count : below(MINUTES + 1);
    length = RADDLEHUE_STRIP_HEADER + 4 * count;
    length = below(4) ? (uint64_t)field((int64_t)length, STRIP_ROOM) : below(length);
    for (uint64_t damages = below(4); damages > 1; damages--) {
        damage_header(n);
    }
    show_strip_write(n, count, random_azimuths(count, below(2) != 0), length);
}

/* A strip of such a header. */
static strip_t strip_of(const int64_t n[8], drawn_t drawn) {
    static const int WIDTHS[10] = {2, 1, 1, 1, 2, 1, 1, 4, 4, 1};
    const uint64_t length = (uint64_t)RADDLEHUE_STRIP_BYTES(n[7]);
    const int64_t fields[10] = {(int64_t)length - 2, 1, n[0], n[1], n[2], n[3], n[4], n[5], n[6], n[7]};
    strip_t strip;
    uint8_t *to = strip.header;
    for (int i = 0; i < 10; i++) {
        for (int shift = 8 * WIDTHS[i] - 8; shift >= 0; shift -= 8) {
            *to++ = (uint8_t)((uint64_t)fields[i] >> shift);
        }
    }
    strip.length = length;
    strip.drawn = drawn;
    return strip;
}

/* Good but, now and then, for an azimuth. */
static strip_t random_strip(const int64_t n[8]) { return strip_of(n, random_azimuths((uint64_t)RADDLEHUE_STRIP_STEPS(n[7]), below(8) != 0)); }

/* Cut or lengthened, with the length in its header or without; or another byte of its header. */
static void damage_strip(strip_t *strip) {
    uint64_t byte;
    switch (below(4)) {
    case 0: strip->length = below(STRIP_ROOM + 1); break;
    case 1: strip->length += (uint64_t)between(-2, 2); break;
    case 2:
        strip->length = RADDLEHUE_STRIP_HEADER + 4 * below(RADDLEHUE_DAY_MINUTES + 1);
        strip->header[0] = (uint8_t)((strip->length - 2) >> 8), strip->header[1] = (uint8_t)(strip->length - 2);
        break;
    default:
        byte = below(RADDLEHUE_STRIP_HEADER);
        strip->header[byte] = below(2) ? (uint8_t)next() : (uint8_t)(strip->header[byte] + 1);
    }
}

/* One strip as it is, with each byte of its header changed in turn, with anything changed, and with both. */
static void random_strip_reads(uint32_t turn) {
    int64_t n[8];
    strip_t strip, other;
    random_header(n);
    strip = random_strip(n);
    show_strip_read(&strip);
    other = strip;
    other.header[turn % RADDLEHUE_STRIP_HEADER] ^= (uint8_t)between(1, 255);
    show_strip_read(&other);
    damage_strip(&strip), damage_strip(&other);
    show_strip_read(&strip), show_strip_read(&other);
}

static void random_strip_azimuth(void) {
    uint64_t length = below(41), step = below(10);
    drawn_t drawn = random_azimuths(10, 0);
    switch (below(8)) {
    /* four times this passes 64 bits, or 32 */
    case 0: step += (uint64_t)1 << 62; break;
    case 1: step += (uint64_t)1 << 30; break;
    case 2: step = next(); break;
    default: step = below(2) ? step : drawn.at;
    }
    show_strip_azimuth(length, drawn, step);
}

/* Two strips of one day or of two, and a day of theirs or another. */
static void random_strip_find(void) {
    int64_t n[8], date[3];
    strip_t first, second;
    random_header(n);
    first = random_strip(n);
    for (int i = 0; i < 3; i++) {
        date[i] = n[2 + i];
    }
    n[7] = STEPS[below(4)];
    n[4] += below(2) ? between(-1, 1) : 0;
    second = random_strip(n);
    if (below(2)) {
        date[2] = n[4];
    }
    if (below(4) == 0) {
        uint64_t i = below(3);
        date[i] += below(2) ? 1 : 256 * between(-2, 2);
    }
    if (below(4) == 0) {
        damage_strip(below(2) ? &first : &second);
    }
    show_strip_find(&first, &second, date);
}

/* The body's azimuth at a minute of the day, some units beside it; where it has none, or the day is refused, the north. */
static int64_t near_azimuth(const int64_t day[8], uint32_t body, uint32_t minute) {
    const int64_t n[12] = {day[0], day[1], day[2], minute / 60, minute % 60, 0, 0, day[3], day[4], day[5], day[6], day[7]};
    raddlehue_place_t place = {0, 0};
    uint32_t flag;
    raddlehue_place(start_of(n), body, point_of(n), RADDLEHUE_AIR_NONE, 0.0, 0.0, &flag, &place);
    return (place.azimuth_if_any_e8 + between(-2, 2) + 36000000000) % 36000000000;
}

/* Points that rise from 0 to 1439. Only the first two lie near the body, so that some minutes are within a tolerance and the next is not. One may be opposite to the one
 * before. */
static void random_points(const int64_t day[8], uint32_t body, int opposite, proposal_t *drawn) {
    const uint32_t count = (uint32_t)between(2, POINTS), last = MINUTES - 1;
    for (uint32_t i = 0; i < POINTS; i++) {
        drawn->minutes[i] = last, drawn->azimuths[i] = field(0, 35999999999);
    }
    drawn->minutes[0] = 0, drawn->azimuths[0] = near_azimuth(day, body, 0);
    for (uint32_t i = 1; i + 1 < count; i++) {
        const uint32_t before = drawn->minutes[i - 1], most = last - (count - 1 - i);
        drawn->minutes[i] = (uint32_t)between(before + 1, i > 1 ? most : 8);
    }
    drawn->azimuths[1] = near_azimuth(day, body, drawn->minutes[1]);
    if (opposite) {
        const uint64_t i = (uint64_t)between(1, count - 1);
        drawn->azimuths[i] = (drawn->azimuths[i - 1] + 18000000000) % 36000000000;
    }
    drawn->minutes_length = drawn->azimuths_length = count;
}

/* Too many or too few of one list, or of both; a minute that does not rise, or is none; an azimuth that is none. */
static void damage_points(proposal_t *drawn) {
    const uint64_t i = below(drawn->minutes_length);
    const uint32_t any = (uint32_t)next();
    switch (below(6)) {
    case 0: drawn->minutes_length = below(POINTS + 1); break;
    case 1: drawn->azimuths_length = below(POINTS + 1); break;
    case 2: drawn->minutes_length = drawn->azimuths_length = below(POINTS + 1); break;
    case 3: drawn->minutes[i] = any >> below(32); break;
    case 4: drawn->minutes[i] = i ? drawn->minutes[i - 1] : 1; break;
    default: drawn->azimuths[i] = outside(0, 35999999999);
    }
}

/* A day that is not refused. */
static void random_good_day(int64_t day[8]) {
    for (int i = 0; i < 8; i++) {
        day[i] = between(FIELDS[DAY_AT[i]].lo, FIELDS[DAY_AT[i]].hi);
    }
}

/* At a tolerance of half a turn all is accepted: it is 1,440 places, and dear, so most have a minute that is out, soon after the second point. */
static void random_judge(const int64_t n[12], uint32_t body, int whole) {
    int64_t day[8];
    proposal_t drawn;
    uint64_t tolerance;
    if (whole) {
        random_good_day(day), body &= 1;
        random_points(day, body, 0, &drawn);
        tolerance = next() >> 1;
        show_judge(day, body, 18000000000 + (tolerance >> below(63)), &drawn);
        return;
    }
    day_numbers(n, day);
    random_points(day, body, below(8) == 0, &drawn);
    if (below(3) == 0) {
        damage_points(&drawn);
    }
    tolerance = (uint64_t)1 << below(24);
    show_judge(day, body, below(tolerance), &drawn);
}

/* Likewise a plan is a day, and the verdict on it another. */
static void random_plan(const int64_t n[12], uint32_t body, int whole, uint64_t tolerance) {
    int64_t day[8];
    if (whole) {
        random_good_day(day), body &= 1;
    } else {
        day_numbers(n, day), damage_day(day);
        tolerance = next();
        tolerance >>= below(64);
    }
    show_plan(day, body, tolerance);
}

/* Hardly any moment has an eclipse: this one is within two hours and five degrees of one of 003's Table 4. */
void near_eclipse(int64_t n[12]) {
    __builtin_memcpy(n, table_4[below(7)], sizeof table_4[0]);
    n[3] += between(-1, 1);
    for (int i = 4; i < 8; i++) {
        n[i] = between(FIELDS[i].lo, FIELDS[i].hi);
    }
    n[9] += between(-50000000, 50000000), n[10] += between(-50000000, 50000000);
    n[11] = between(FIELDS[11].lo, FIELDS[11].hi);
}

/* A separation, the Sun's radius and the Moon's: anywhere, where the disks overlap, and next to both contacts. */
static void random_share(void) {
    static const range_t DISKS[3] = {{0, 18000000000}, {20000000, 30000000}, {0, 30000000}};
    int64_t n[3];
    n[1] = field(DISKS[1].lo, DISKS[1].hi);
    n[2] = below(4) ? field(DISKS[2].lo, DISKS[2].hi) : n[1];
    switch (below(4)) {
    case 0: n[0] = field(DISKS[0].lo, DISKS[0].hi); break;
    case 1: n[0] = between(0, n[1] + n[2]); break;
    case 2: n[0] = n[1] + n[2] + between(-2, 2); break;
    default: n[0] = (n[1] < n[2] ? n[2] - n[1] : n[1] - n[2]) + between(-2, 2);
    }
    damage(n, DISKS, 3);
    show_covered_share(n);
}

void run_random(uint32_t count, uint64_t s) {
    seed(s);
    for (uint32_t i = 0; i < count; i++) {
        int64_t n[12], x, y;
        air_t air;
        air.kind = random_kind();
        air.pressure = random_bits(0, 1200);
        air.temperature = random_bits(-80, 80);
        random_request(n);
        show_place(n, RADDLEHUE_SUN, air);
        show_place(n, RADDLEHUE_MOON, air);
        show_place(n, code(2), air);
        show_instant(n);
        random_batch(n, code(2));
        random_day(n, code(2), i % 50 == 0);
        random_day_azimuths(n, code(2), i % 50 == 25, STEPS[i / 50 % 4]);
        random_strip_write(), random_strip_reads(i), random_strip_azimuth(), random_strip_find();
        random_judge(n, code(2), i % 100 == 10);
        random_plan(n, code(2), i % 100 == 60, TOLERANCES[i / 100 % 4]);
        show_eclipse(n);
        near_eclipse(n), damage(n, FIELDS, 12);
        show_eclipse(n);
        random_share();
        x = field(-1, 36000000000), y = below(4) ? field(-1, 36000000000) : x + 18000000000;
        show_middle(x, y);
        show_refraction(below(2) ? mostly(-9000000000, 9000000000) : field(RADDLEHUE_LOWEST_REFRACTED_E8 - 1, 200000000), air);
        show_refraction(field(RADDLEHUE_LOWEST_REFRACTED_E8 - 2, RADDLEHUE_LOWEST_REFRACTED_E8 + 2), air);
        /* one draw to a statement: C does not say in which order arguments are worked out */
        n[0] = mostly(1900, 2100), n[1] = mostly(1, 12), n[2] = mostly(1, 31);
        show_day_count(n[0], n[1], n[2]);
        show_sums(mostly(-3190473360000, 3190473360000));
        x = (int64_t)next(), y = (int64_t)next();
        x >>= below(64), y >>= below(64);
        show_sines(x), show_arctangent(y, x), show_root((uint64_t)x);
    }
}

/* ---- strips in every air */

enum { FAULTS = 7 };

/* A strip with an air of such a kind, and with something else that is refused, or, last, nothing. */
static void write_in_air(int64_t kind, int fault, uint64_t length) {
    int64_t n[8] = {kind, RADDLEHUE_MOON, 2003, 10, 17, -1051786000, 397424760, 10};
    uint64_t count = RADDLEHUE_STRIP_STEPS(10);
    drawn_t drawn = {7, 143, 3599999999u};
    switch (fault) {
    case 0: n[1] = 2; break;
    case 1: n[3] = 13; break;
    case 2: n[5] = 1800000001; break;
    case 3: n[7] = 3; break;
    case 4: count--; break;
    case 5: drawn.azimuth = 3600000000u; break;
    default: break;
    }
    show_strip_write(n, count, drawn, length);
}

/* A strip with such an air byte, its last azimuth good or not. */
static void read_in_air(int64_t byte, int64_t step, uint32_t last) {
    const int64_t n[8] = {byte, RADDLEHUE_SUN, 2003, 10, 17, -1051786000, 397424760, step};
    const drawn_t drawn = {7, (uint32_t)RADDLEHUE_STRIP_STEPS(step) - 1, last};
    const strip_t strip = strip_of(n, drawn);
    show_strip_read(&strip);
}

/* Each kind, with each fault, into a buffer that is large enough, into one that lacks a byte and into none; and each byte, and two that no strip has, at each step. */
void run_strips(void) {
    static const uint64_t LENGTHS[3] = {RADDLEHUE_STRIP_BYTES(10), RADDLEHUE_STRIP_BYTES(10) - 1, 0};
    for (int64_t kind = 0; kind <= 4; kind++) {
        for (int i = 0; i < 3 * FAULTS; i++) {
            write_in_air(kind, i / 3, LENGTHS[i % 3]);
        }
    }
    for (int64_t byte = 0; byte <= 3; byte++) {
        for (int i = 0; i < 4; i++) {
            read_in_air(byte, STEPS[i], 3599999999u);
            read_in_air(byte, STEPS[i], 3600000000u);
        }
    }
}

/* ---- the vectors: a kind, then its words with single spaces */

static const char *rest;

static int is_kind(const char *text, const char *kind) {
    while (*kind && *text == *kind) {
        text++, kind++;
    }
    if (*kind || *text != ' ') {
        return 0;
    }
    rest = text + 1;
    return 1;
}

static int64_t decimal(void) {
    uint64_t x = 0;
    int negative = *rest == '-';
    rest += negative;
    while (*rest >= '0' && *rest <= '9') {
        x = x * 10 + (uint64_t)(*rest++ - '0');
    }
    while (*rest == ' ') {
        rest++;
    }
    return (int64_t)(negative ? 0 - x : x);
}

static uint64_t hexadecimal(void) {
    uint64_t x = 0;
    for (; *rest && *rest != ' '; rest++) {
        x = x << 4 | (uint64_t)(*rest <= '9' ? *rest - '0' : *rest - 'a' + 10);
    }
    while (*rest == ' ') {
        rest++;
    }
    return x;
}

/* An old strip, whose air byte is 1; all its azimuths are 0. */
static const uint8_t OLD_STRIP[RADDLEHUE_STRIP_BYTES(10)] = {
    0x02, 0x50, 1, 1, 0, 0x07, 0xd3, 10, 17, 0xc1, 0x4f, 0x04, 0xf0, 0x17, 0xb0, 0x38, 0x78, 10};

/* Air that was carried over is what such a strip is read with, as a request has it. */
static air_t carried_over(void) {
    const raddlehue_air_t request = raddlehue_request_air(raddlehue_strip_read_of(OLD_STRIP, sizeof OLD_STRIP).air);
    const air_t air = {request.kind, bits_of(request.pressure_mbar), bits_of(request.temperature_celsius)};
    return air;
}

static air_t air_word(void) {
    air_t air = {RADDLEHUE_AIR_NONE, 0, 0};
    if (is_kind(rest, "measured")) {
        air.kind = RADDLEHUE_AIR_MEASURED;
        air.pressure = hexadecimal();
        air.temperature = hexadecimal();
    } else if (*rest == 'c') {
        air = carried_over();
    }
    return air;
}

static void twelve(int64_t n[12]) {
    for (int i = 0; i < 12; i++) {
        n[i] = decimal();
    }
}

static void run_vector(const char *text) {
    int64_t n[12], x;
    if (is_kind(text, "sine")) {
        show_sines(decimal());
    } else if (is_kind(text, "atan")) {
        x = decimal();
        show_arctangent(x, decimal());
    } else if (is_kind(text, "root")) {
        show_root((uint64_t)decimal());
    } else if (is_kind(text, "middle")) {
        x = decimal();
        show_middle(x, decimal());
    } else if (is_kind(text, "refr")) {
        x = decimal();
        show_refraction(x, air_word());
    } else if (is_kind(text, "sums")) {
        show_sums(decimal());
    } else if (is_kind(text, "batch")) {
        uint32_t offsets[OFFSETS], body = *rest == 'm';
        uint64_t count = 0, azimuths, elevations;
        is_kind(rest, body ? "moon" : "sun");
        twelve(n);
        azimuths = (uint64_t)decimal(), elevations = (uint64_t)decimal();
        rest += *rest == ';';
        while (*rest == ' ') {
            rest++;
        }
        while (*rest && count < OFFSETS) {
            offsets[count++] = (uint32_t)decimal();
        }
        show_batch(n, body, offsets, count, azimuths, elevations);
    } else if (is_kind(text, "day") || is_kind(text, "azimuths") || is_kind(text, "plan")) {
        uint32_t body = *rest == 'm';
        is_kind(rest, body ? "moon" : "sun");
        for (int i = 0; i < 8; i++) {
            n[i] = decimal();
        }
        if (*text == 'd') {
            show_day(n, body);
        } else if (*text == 'a') {
            show_day_azimuths(n, body, 10, RADDLEHUE_STRIP_STEPS(10));
        } else {
            show_plan(n, body, (uint64_t)decimal());
        }
    } else if (is_kind(text, "eclipse")) {
        twelve(n);
        show_eclipse(n);
    } else if (is_kind(text, "share")) {
        for (int i = 0; i < 3; i++) {
            n[i] = decimal();
        }
        show_covered_share(n);
    } else {
        const uint32_t body = *text == 'm', now = 0;
        if (!is_kind(text, body ? "moon" : "sun")) {
            put_text("a vector of no known kind\n");
            return;
        }
        twelve(n);
        show_place(n, body, air_word());
        show_batch(n, body, &now, 1, 1, 1);
        show_instant(n);
        show_day_count(n[0], n[1], n[2]);
    }
}

void run_vectors(const char *const *lines) {
    for (; *lines; lines++) {
        run_vector(*lines);
    }
}
