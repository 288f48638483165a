/* An image that calls what a watch calls, for its size alone: nothing (EMPTY), all but the strips, or the strips too (STRIPS), then the judge of turning
 * points (JUDGE), and then the planner (PLAN). */
#include "raddlehue.h"

static raddlehue_start_ms_t start;
static raddlehue_point_t point;
static uint32_t offsets[60], has_azimuth;
static int64_t azimuths[60], elevations[60], curve[1440];
static raddlehue_place_t place;
static raddlehue_shown_place_t shown;
static raddlehue_batch_t told;
static raddlehue_date_ms_t date;
static raddlehue_rise_set_t rise_set;
static raddlehue_eclipse_t eclipse;
static uint32_t day_azimuths[RADDLEHUE_STRIP_STEPS(1)];
static uint8_t first[RADDLEHUE_STRIP_BYTES(1)], second[RADDLEHUE_STRIP_BYTES(1)];
static raddlehue_strip_t strip;
static raddlehue_strip_measured_t measured;
static raddlehue_strip_part_t part;
static uint64_t count;
static volatile double degrees;
static volatile uint32_t kept;

int main(void) {
#ifndef EMPTY
    kept = raddlehue_place(&start, kept, &point, kept, degrees, degrees, &has_azimuth, &place);
    kept = raddlehue_shown_place(&start, kept, &point, kept, degrees, degrees, &has_azimuth, &shown);
    kept = raddlehue_batch_ms(&start, kept, &point, offsets, 60, azimuths, 60, elevations, 60, &told);
    kept = raddlehue_day(&date, kept, &point, curve, &rise_set);
    kept = raddlehue_eclipse(&start, &point, &eclipse);
    kept = raddlehue_middle(azimuths[0], azimuths[1], &elevations[0]);
#ifdef STRIPS
    kept = raddlehue_day_azimuths(&date, kept, &point, kept, day_azimuths, RADDLEHUE_STRIP_STEPS(1), &count);
    kept = raddlehue_strip_write(&strip, day_azimuths, RADDLEHUE_STRIP_STEPS(1), first, sizeof first, &count);
    kept = raddlehue_strip_read(second, sizeof second, &strip, &measured);
    kept = raddlehue_strip_find(first, sizeof first, second, sizeof second, kept, kept, kept, &part);
    kept = raddlehue_strip_azimuth(second, sizeof second, kept, day_azimuths);
#endif
#ifdef JUDGE
    kept = raddlehue_judge(&date, kept, &point, kept, day_azimuths, kept, curve, kept, &has_azimuth);
#endif
#ifdef PLAN
    kept = raddlehue_plan(&date, kept, &point, kept, day_azimuths, curve, &count);
#endif
#else
    (void)start, (void)point, (void)offsets, (void)azimuths, (void)elevations, (void)place, (void)shown, (void)told, (void)degrees, (void)kept;
    (void)date, (void)curve, (void)rise_set, (void)eclipse, (void)has_azimuth;
#endif
#ifndef STRIPS
    (void)day_azimuths, (void)first, (void)second, (void)strip, (void)measured, (void)part, (void)count;
#endif
    return 0;
}
