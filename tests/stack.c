/* The greatest stack that each entry point uses: it is called on a stack of its own, painted before, and the paint that is left is counted. */
#define _XOPEN_SOURCE 700
#include <stdio.h>
#include <string.h>
#include <ucontext.h>

#include "raddlehue.h"

enum { STACK = 1 << 18, PAINT = 0xA5, COUNT = 64, MINUTES = 1440 };

static unsigned char stack[STACK];
static ucontext_t back, there;
static void (*entry)(void);

static raddlehue_start_ms_t start = {2003, 10, 17, 19, 30, 30, 0, 0, 67000};
static raddlehue_date_ms_t date = {2003, 10, 17, 0, 67000};
static raddlehue_point_t point = {-1051786000, 397424760, 1830};
/* 003, Table A.1.2: a part of the Sun is covered, so that the share is worked */
static raddlehue_start_ms_t eclipse_start = {2009, 7, 22, 1, 33, 0, 0, 0, 66400};
static raddlehue_point_t eclipse_point = {1433616700, 246116700, 0};
static const double pressure = 820.0, temperature = 11.0;
static uint32_t body, has_azimuth;
static uint32_t offsets[COUNT];
static int64_t azimuths[COUNT], elevations[COUNT], curve[MINUTES];
static raddlehue_place_t place;
static raddlehue_shown_place_t shown;
static raddlehue_batch_t told;
static raddlehue_rise_set_t rise_set;
static raddlehue_strip_t strip = {RADDLEHUE_AIR_NONE, RADDLEHUE_SUN, 2003, 10, 17, -1051786000, 397424760, 1};
static raddlehue_strip_measured_t measured;
static uint32_t day_azimuths[RADDLEHUE_STRIP_STEPS(1)], entry_e7;
static uint8_t bytes[RADDLEHUE_STRIP_BYTES(1)];
static raddlehue_strip_part_t part;
/* two points, which at the widest tolerance are accepted, after every minute */
static const uint32_t ends[2] = {0, 1439};
static const int64_t norths[2] = {0, 0};
static uint32_t out_minute;
static uint64_t count;
static raddlehue_eclipse_t disks;
static raddlehue_instant_t moment;
static raddlehue_moon_sums_t moon;
static raddlehue_sun_sums_t sun;
static raddlehue_nutation_t angles;
static int64_t number;
static double degrees;
static volatile uint64_t kept;

static void nothing(void) {}
static void plain_place(void) { kept = raddlehue_place(&start, body, &point, RADDLEHUE_AIR_MEASURED, pressure, temperature, &has_azimuth, &place); }
static void shown_place(void) {
    kept = raddlehue_shown_place(&start, body, &point, RADDLEHUE_AIR_MEASURED, pressure, temperature, &has_azimuth, &shown);
}
static void batch(void) { kept = raddlehue_batch_ms(&start, body, &point, offsets, COUNT, azimuths, COUNT, elevations, COUNT, &told); }
static void day(void) { kept = raddlehue_day(&date, body, &point, curve, &rise_set); }
static void azimuths_of_a_day(void) { kept = raddlehue_day_azimuths(&date, body, &point, 1, day_azimuths, RADDLEHUE_STRIP_STEPS(1), &count); }
static void strip_write(void) { kept = raddlehue_strip_write(&strip, day_azimuths, RADDLEHUE_STRIP_STEPS(1), bytes, sizeof bytes, &count); }
static void strip_read(void) { kept = raddlehue_strip_read(bytes, sizeof bytes, &strip, &measured); }
static void strip_find(void) { kept = raddlehue_strip_find(bytes, sizeof bytes, bytes, sizeof bytes, 2003, 10, 17, &part); }
static void strip_azimuth(void) { kept = raddlehue_strip_azimuth(bytes + RADDLEHUE_STRIP_HEADER, sizeof bytes - RADDLEHUE_STRIP_HEADER, 1439, &entry_e7); }
static void judge(void) { kept = raddlehue_judge(&date, body, &point, UINT64_MAX, ends, 2, norths, 2, &out_minute); }
static void plan(void) { kept = raddlehue_plan(&date, body, &point, RADDLEHUE_DEGREE_E8 / 100, day_azimuths, curve, &count); }
static void eclipse(void) { kept = raddlehue_eclipse(&eclipse_start, &eclipse_point, &disks); }
static void covered_share(void) { kept = raddlehue_covered_share(37487637, 26235977, 28334136, &number); }
static void middle(void) { kept = raddlehue_middle(35990000000, 10000000, &number); }
static void refraction(void) { kept = raddlehue_refraction(0, RADDLEHUE_AIR_MEASURED, pressure, temperature, &degrees); }
static void day_count(void) { kept = raddlehue_day_count(2100, 12, 31, &number); }
static void instant(void) { kept = raddlehue_instant(&start, &moment); }
static void moon_sums(void) { kept = raddlehue_moon_sums_ms(0, &moon); }
static void sun_sums(void) { kept = raddlehue_sun_sums_ms(0, &sun); }
static void nutation(void) { kept = raddlehue_nutation_ms(0, &angles); }
static void mean_sidereal(void) { kept = raddlehue_mean_sidereal_ms(0, &number); }
static void sine(void) { kept = (uint64_t)raddlehue_sine(3000000000); }
static void arctangent(void) { kept = (uint64_t)raddlehue_arctangent(INT64_MAX, INT64_MIN); }
static void root(void) { kept = raddlehue_root(UINT64_MAX); }

static void run(void) { entry(); }

static size_t used_by(void (*call)(void)) {
    size_t left = 0;
    memset(stack, PAINT, STACK);
    entry = call;
    getcontext(&there);
    there.uc_stack.ss_sp = stack;
    there.uc_stack.ss_size = STACK;
    there.uc_link = &back;
    makecontext(&there, run, 0);
    swapcontext(&back, &there);
    while (left < STACK && stack[left] == PAINT) {
        left++;
    }
    return STACK - left;
}

/* What is lent is the caller's, and comes on top. */
static void row_with(const char *name, void (*call)(void), size_t lent) {
    size_t most = 0;
    for (body = RADDLEHUE_SUN; body <= RADDLEHUE_MOON; body++) {
        size_t used = used_by(call) - used_by(nothing);
        most = used > most ? used : most;
    }
    printf("| %s | %zu |\n", name, most + lent);
}

/* A call that is refused would use next to nothing, and is no measure. */
static int refused;

static void row(const char *name, void (*call)(void)) {
    row_with(name, call, 0);
    refused += kept != RADDLEHUE_ACCEPTED;
}

int main(void) {
    for (uint32_t i = 0; i < COUNT; i++) {
        offsets[i] = i * 60 * RADDLEHUE_SECOND_MS;
    }
    puts("| Entry point | bytes of stack |\n|---|---:|");
    row("raddlehue_place", plain_place);
    row("raddlehue_shown_place", shown_place);
    row("raddlehue_batch_ms", batch);
    row("raddlehue_day", day);
    row_with("raddlehue_day and the curve that it is lent", day, sizeof curve);
    row("raddlehue_day_azimuths", azimuths_of_a_day);
    row("raddlehue_strip_write", strip_write);
    row("raddlehue_strip_read", strip_read);
    row("raddlehue_strip_find", strip_find);
    row("raddlehue_strip_azimuth", strip_azimuth);
    row("raddlehue_judge", judge);
    row("raddlehue_plan", plan);
    row_with("raddlehue_plan and the buffers that it is lent", plan, sizeof day_azimuths + sizeof curve);
    row("raddlehue_eclipse", eclipse);
    row("raddlehue_covered_share", covered_share);
    row("raddlehue_middle", middle);
    row("raddlehue_refraction", refraction);
    row("raddlehue_day_count", day_count);
    row("raddlehue_instant", instant);
    row("raddlehue_moon_sums_ms", moon_sums);
    row("raddlehue_sun_sums_ms", sun_sums);
    row("raddlehue_nutation_ms", nutation);
    row("raddlehue_mean_sidereal_ms", mean_sidereal);
    /* these three refuse nothing */
    row_with("raddlehue_sine", sine, 0);
    row_with("raddlehue_arctangent", arctangent, 0);
    row_with("raddlehue_root", root, 0);
    return refused != 0;
}
