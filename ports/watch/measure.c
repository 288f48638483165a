/* What a call costs on the watch's processor: a line "CALL TURNS EACH STACK" for each, the turns it was called and the samples of one call. The plugin sections.so
 * counts the instructions between section_begin and section_end, in the same order. The first line is a call of nothing: what the measuring itself takes.
 */
#include <stdint.h>

#include "raddlehue.h"
#include "requests.h"

extern uint32_t stack_floor;

__attribute__((noinline)) void section_begin(void) { __asm__ volatile("nop"); }
__attribute__((noinline)) void section_end(void) { __asm__ volatile("nop"); }

/* A day is 1,440 samples: one is enough. */
enum { REQUESTS = 20, DAYS = 1, SAMPLES = 60, MINUTES = 1440 };

#define PAINT 0xA5A5A5A5u

static int64_t request[REQUESTS][12];
static uint32_t offsets[SAMPLES];
static int64_t azimuths[SAMPLES], elevations[SAMPLES], curve[MINUTES];
static const double pressure = 820.0, temperature = 11.0;
static uint32_t body, has_azimuth;
static volatile uint32_t kept;

static const raddlehue_start_ms_t *start;
static const raddlehue_point_t *point;
static raddlehue_date_ms_t date;
static int64_t elevation, a, b;
static raddlehue_place_t place;
static raddlehue_shown_place_t shown;
static raddlehue_batch_t told;
static raddlehue_rise_set_t rise_set;
static raddlehue_eclipse_t eclipses[REQUESTS], *eclipse;
static int64_t azimuth, share;
static double degrees;
static uint32_t day_azimuths[RADDLEHUE_STRIP_STEPS(1)], strip_azimuth;
static int64_t step;
static raddlehue_strip_t strip;
static raddlehue_strip_measured_t measured;
static uint8_t first[RADDLEHUE_STRIP_BYTES(1)], second[RADDLEHUE_STRIP_BYTES(1)];
static raddlehue_strip_part_t part;
static uint64_t count;

/* A day that is planned, and judged by its plan: its minutes lie where a strip's azimuths do, and their azimuths in the curve. */
static const raddlehue_date_ms_t planned_date = {2003, 10, 17, 0, 67000};
static const raddlehue_point_t planned_point = {-1051786000, 397424760, 1830};
enum { TOLERANCE = RADDLEHUE_DEGREE_E8 / 100 };
static uint32_t out_minute;

static void nothing(void) {}
static void a_place(void) { kept = raddlehue_place(start, body, point, RADDLEHUE_AIR_MEASURED, pressure, temperature, &has_azimuth, &place); }
static void a_shown_place(void) {
    kept = raddlehue_shown_place(start, body, point, RADDLEHUE_AIR_MEASURED, pressure, temperature, &has_azimuth, &shown);
}
static void a_batch(void) { kept = raddlehue_batch_ms(start, body, point, offsets, SAMPLES, azimuths, SAMPLES, elevations, SAMPLES, &told); }
static void a_day(void) { kept = raddlehue_day(&date, body, point, curve, &rise_set); }
static void a_plan(void) { kept = raddlehue_plan(&planned_date, body, &planned_point, TOLERANCE, day_azimuths, curve, &count); }
static void a_judge(void) { kept = raddlehue_judge(&planned_date, body, &planned_point, TOLERANCE, day_azimuths, count, curve, count, &out_minute); }
static void azimuths_of_a_day(void) { kept = raddlehue_day_azimuths(&date, body, point, step, day_azimuths, RADDLEHUE_STRIP_STEPS(1), &count); }
static void a_strip_write(void) { kept = raddlehue_strip_write(&strip, day_azimuths, RADDLEHUE_STRIP_STEPS(1), first, sizeof first, &count); }
static void a_strip_read(void) { kept = raddlehue_strip_read(second, sizeof second, &strip, &measured); }
/* the second bears the date, so that both are looked at */
static void a_strip_find(void) { kept = raddlehue_strip_find(first, sizeof first, second, sizeof second, strip.year, strip.month, strip.day, &part); }
static void a_strip_azimuth(void) {
    kept = raddlehue_strip_azimuth(second + RADDLEHUE_STRIP_HEADER, sizeof second - RADDLEHUE_STRIP_HEADER, RADDLEHUE_STRIP_STEPS(2), &strip_azimuth);
}
static void an_eclipse(void) { kept = raddlehue_eclipse(start, point, eclipse); }
static void a_covered_share(void) { kept = raddlehue_covered_share(eclipse->separation_e8, eclipse->sun_radius_e8, eclipse->moon_radius_e8, &share); }
static void a_refraction(void) { kept = raddlehue_refraction(elevation, RADDLEHUE_AIR_MEASURED, pressure, temperature, &degrees); }
static void a_middle(void) { kept = raddlehue_middle(a, b, &azimuth); }

static char *decimal(char *to, uint32_t v) {
    char digits[10];
    int i = 0;
    do {
        digits[i++] = (char)('0' + v % 10);
        v /= 10;
    } while (v);
    while (i) {
        *to++ = digits[--i];
    }
    return to;
}

/* Paints what is free of the stack, calls, and counts the paint that is left. */
static __attribute__((noinline)) uint32_t used_by(void (*call)(void)) {
    uint32_t *here, *p;
    __asm__ volatile("mov %0, sp" : "=r"(here));
    for (p = &stack_floor; p < here - 16; p++) {
        *(volatile uint32_t *)p = PAINT;
    }
    call();
    for (p = &stack_floor; *(volatile uint32_t *)p == PAINT; p++) {
    }
    return (uint32_t)((char *)here - (char *)p);
}

static void choose(int i) {
    const int64_t *n = request[i];
    start = (const raddlehue_start_ms_t *)(const void *)n;
    point = (const raddlehue_point_t *)(const void *)(n + 9);
    date = (raddlehue_date_ms_t){start->year, start->month, start->day, start->ut1_ms, start->delta_t_ms};
    eclipse = &eclipses[i];
    elevation = n[10] * 10, a = n[9] + 1800000000, b = n[10] * 10 + 9000000000;
}

/* A call that is refused would cost next to nothing, and is not measured. */
static void row(const char *name, void (*call)(void), int turns, uint32_t each) {
    static char line[80];
    uint32_t stack = 0, refused = 0;
    section_begin();
    for (int i = 0; i < turns; i++) {
        choose(i);
        call();
    }
    section_end();
    for (int i = 0; i < turns; i++) {
        choose(i);
        uint32_t used = used_by(call);
        stack = used > stack ? used : stack;
        refused += kept != 0;
    }
    char *to = line;
    while (*name) {
        *to++ = *name++;
    }
    *to++ = ' ';
    to = decimal(to, (uint32_t)turns);
    *to++ = ' ';
    to = decimal(to, each);
    *to++ = ' ';
    to = decimal(to, stack);
    *to++ = '\n';
    *to = 0;
    put_text(refused ? "REFUSED\n" : line);
}

/* The largest strip written, read, looked up and asked for an azimuth. A second one of it, of the day after, is made of the first: only the day's byte differs. */
static void strip_rows(void) {
    strip = (raddlehue_strip_t){RADDLEHUE_AIR_NONE, RADDLEHUE_MOON, 2003, 10, 17, -1051786000, 397424760, 1};
    row("strip_write", a_strip_write, REQUESTS, 1);
    __builtin_memcpy(second, first, sizeof second);
    second[8]++;
    row("strip_read", a_strip_read, REQUESTS, 1);
    row("strip_find", a_strip_find, REQUESTS, 1);
    row("strip_azimuth", a_strip_azimuth, REQUESTS, 1);
}

int main(void) {
    seed(1);
    for (int i = 0; i < REQUESTS;) {
        random_request(request[i]);
        choose(i);
        a_place();
        i += kept == 0 && start->year < 2100;
    }
    for (uint32_t i = 0; i < SAMPLES; i++) {
        offsets[i] = i * 60 * RADDLEHUE_SECOND_MS;
    }
    kept = 0;
    row("nothing", nothing, REQUESTS, 1);
    for (body = 0; body < 2; body++) {
        row(body ? "place-Moon" : "place-Sun", a_place, REQUESTS, 1);
        row(body ? "shown_place-Moon" : "shown_place-Sun", a_shown_place, REQUESTS, 1);
        row(body ? "batch-Moon" : "batch-Sun", a_batch, REQUESTS, SAMPLES);
        row(body ? "day-Moon" : "day-Sun", a_day, DAYS, MINUTES);
        row(body ? "plan-Moon" : "plan-Sun", a_plan, DAYS, MINUTES);
        row(body ? "judge-Moon" : "judge-Sun", a_judge, DAYS, MINUTES);
        step = 10;
        row(body ? "azimuths_10-Moon" : "azimuths_10-Sun", azimuths_of_a_day, DAYS, RADDLEHUE_STRIP_STEPS(10));
        step = 1;
        row(body ? "azimuths_1-Moon" : "azimuths_1-Sun", azimuths_of_a_day, DAYS, RADDLEHUE_STRIP_STEPS(1));
    }
    strip_rows();
    row("refraction", a_refraction, REQUESTS, 1);
    row("middle", a_middle, REQUESTS, 1);
    /* where nothing is covered, the share would cost next to nothing */
    for (int i = 0; i < REQUESTS;) {
        near_eclipse(request[i]);
        choose(i);
        an_eclipse();
        i += eclipse->share_millionths > 0;
    }
    row("eclipse", an_eclipse, REQUESTS, 1);
    row("covered_share", a_covered_share, REQUESTS, 1);
    return 0;
}
