/* What a caller wrote for an older version must not compile: one line of tests/old_lines.txt is put in below. With none all of this compiles. */
#include "raddlehue.h"

int main(void)
{
    raddlehue_start_ms_t start = {2003, 10, 17, 19, 30, 30, 0, 0, 67000};
    raddlehue_date_ms_t date = {2003, 10, 17, 0, 67000};
    raddlehue_point_t point = {-1051786000, 397424760, 1830};
    raddlehue_air_t air = {RADDLEHUE_AIR_NONE, 0.0, 0.0};
    raddlehue_place_t place = {0, 0};
    raddlehue_shown_place_t shown = {0.0, 0.0, 0.0};
    raddlehue_instant_t instant = {0, 0};
    raddlehue_batch_t batch = {0, 0};
    raddlehue_moon_sums_t moon = {0, 0, 0};
    raddlehue_sun_sums_t sun = {0, 0, 0};
    raddlehue_nutation_t nutation = {0, 0, 0};
    raddlehue_strip_t strip = {RADDLEHUE_AIR_NONE, RADDLEHUE_SUN, 2003, 10, 17, -1051786000, 397424760, 10};
    raddlehue_strip_measured_t measured = {0.0, 0.0};
    uint8_t bytes[1] = {0};
    uint32_t offsets[1] = {0}, has_azimuth = 0;
    int64_t azimuths[1] = {0}, elevations[1] = {0}, kept = 0;
    OLD_LINE;
    kept += raddlehue_place(&start, RADDLEHUE_SUN, &point, air.kind, 0.0, 0.0, &has_azimuth, &place);
    kept += raddlehue_shown_place(&start, RADDLEHUE_SUN, &point, air.kind, 0.0, 0.0, &has_azimuth, &shown);
    kept += raddlehue_batch_ms(&start, RADDLEHUE_SUN, &point, offsets, 1, azimuths, 1, elevations, 1, &batch);
    kept += raddlehue_day_azimuths_of(date, RADDLEHUE_SUN, point, 10, offsets, 1).refusal;
    kept += raddlehue_instant(&start, &instant) + raddlehue_moon_sums_ms(instant.tt_ms, &moon) + raddlehue_sun_sums_ms(instant.tt_ms, &sun);
    kept += raddlehue_strip_read(bytes, 1, &strip, &measured) + raddlehue_strip_read_of(bytes, 1).refusal;
    kept += raddlehue_nutation_ms(instant.tt_ms, &nutation) + raddlehue_mean_sidereal_ms(instant.ut_ms, &kept);
    return kept == -1;
}
