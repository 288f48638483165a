// node ports/wasm/calls.mjs RADDLEHUE.WASM : raddlehue.mjs as a page uses it. Its own example, days by the minute against single places, a body without an azimuth, day strips, old ones too,
// short strips, eclipses, and what it has to throw at.
import assert from 'node:assert/strict';
import { readFileSync } from 'node:fs';
import * as door from './raddlehue.mjs';
import { AIR_CARRIED_OVER_KIND, AIR_NONE, MOON, NO_AZIMUTH_E7, NO_DIRECTION_E8, SUN, load, measured, request_air } from './raddlehue.mjs';

const bytes = readFileSync(process.argv[2]);
const sky = await load(bytes);
const start = { year: 2003, month: 10, day: 17, hour: 19, minute: 30, second: 30, fraction_ms: 0, ut1_ms: 0, delta_t_ms: 67000 };
const point = { longitude_e7: -1051786000, latitude_e7: 397424760, height_metres: 1830 };

// the example of its comment, word for word, and the other ways to load
const comment = readFileSync(new URL('./raddlehue.mjs', import.meta.url), 'utf8');
const { azimuth_e8, elevation_e8 } = sky.place(start, SUN, point);
assert.ok(comment.includes(`{ refusal: 0, azimuth_e8: ${azimuth_e8}n, elevation_e8: ${elevation_e8}n }`), `${azimuth_e8} ${elevation_e8}`);
const compiled = await WebAssembly.compile(bytes);
for (const source of [compiled, Promise.resolve(bytes), new Response(bytes)]) {
  assert.deepEqual((await load(source)).place(start, SUN, point), { refusal: 0, azimuth_e8, elevation_e8 });
}
await assert.rejects(load(new Response('', { status: 404 })), /404/);

// an air, and a refusal, which has no other name beside it
const shown = sky.shown_place(start, SUN, point, measured(820, 11));
assert.ok(shown.refusal === 0 && shown.refraction_degrees > 0 && Math.abs(shown.azimuth_degrees - Number(azimuth_e8) / 1e8) < 1e-12);
assert.equal(sky.shown_place(start, SUN, point, AIR_NONE).refraction_degrees, 0);
assert.deepEqual(sky.shown_place(start, SUN, point), sky.shown_place(start, SUN, point, AIR_NONE));
assert.ok(sky.refraction(-83337000, measured(1010, 10)).refraction_degrees > 0.6);
assert.deepEqual(sky.refraction(-83337001, measured(1010, 10)), { refusal: 0, refraction_degrees: 0 });
assert.deepEqual(sky.place({ ...start, year: 2101n }, SUN, point), { refusal: 1 });
assert.deepEqual(sky.place(start, 2, point), { refusal: 101 });
assert.deepEqual(sky.place(start, SUN, point, measured(NaN, 11)), { refusal: 10 });

// a week by the minute, for which the memory has to grow
const week = Array.from({ length: 7 * 1440 }, (_, minute) => 60000 * minute);
const batch = sky.batch_ms({ ...start, hour: 0, minute: 0, second: 0 }, MOON, point, new Uint32Array(week));
assert.equal(batch.azimuths_e8.length, week.length);
for (let minute = 0; minute < week.length; minute += 97) {
  const at = { ...start, day: 17 + Math.floor(minute / 1440), hour: Math.floor((minute % 1440) / 60), minute: minute % 60, second: 0 };
  assert.deepEqual(sky.place(at, MOON, point), { refusal: 0, azimuth_e8: batch.azimuths_e8[minute], elevation_e8: batch.elevations_e8[minute] });
}
const eve = { ...start, year: 2100, month: 12, day: 31, hour: 23, minute: 59, second: 59 };
assert.deepEqual(sky.batch_ms(eve, SUN, point, [0, 999, 1000]), { refusal: 13, index: 2 });
assert.deepEqual(sky.batch_ms(start, SUN, point, []).azimuths_e8, new BigInt64Array(0));

// the Sun straight over Lahaina on Maui, which has no azimuth: 0.1 s before it is in the east, and 0.1 s after in the west
const noon = { ...start, year: 2005, month: 7, day: 18, hour: 22, minute: 32, second: 59, delta_t_ms: 64700 };
const lahaina = { longitude_e7: -1566828813, latitude_e7: 208783487, height_metres: 0 };
assert.deepEqual(sky.place(noon, SUN, lahaina), { refusal: 0, elevation_e8: 8999999993n });
assert.deepEqual(Object.keys(sky.shown_place(noon, SUN, lahaina, measured(1010, 10))), ['refusal', 'elevation_degrees', 'refraction_degrees']);
const [east, overhead, west] = sky.batch_ms({ ...noon, second: 58, fraction_ms: 900 }, SUN, lahaina, [0, 100, 200]).azimuths_e8;
assert.deepEqual([east, overhead, west], [8999156196n, NO_DIRECTION_E8, 26995783452n]);
assert.deepEqual(sky.middle(east, overhead), { refusal: 15 });
assert.deepEqual([sky.arctangent(0, 0), sky.arctangent(0, 1)], [undefined, 0n]);

// a day against its places, a rise and a set, a polar day that has neither name, and a refusal
const date = { year: 2003, month: 10, day: 17, ut1_ms: 0, delta_t_ms: 67000 };
const day = sky.day(date, SUN, point);
assert.deepEqual(Object.keys(day), ['refusal', 'elevations_e8', 'rise_minute', 'set_minute']);
assert.equal(day.elevations_e8.length, 1440);
for (let minute = 0; minute < 1440; minute += 97) {
  const at = { ...start, hour: Math.floor(minute / 60), minute: minute % 60, second: 0 };
  assert.equal(sky.place(at, SUN, point).elevation_e8, day.elevations_e8[minute]);
}
const isUp = (minute) => day.elevations_e8[minute] >= -83330000n;
assert.ok(isUp(day.rise_minute) && !isUp(day.rise_minute - 1) && !isUp(day.set_minute) && isUp(day.set_minute - 1));
const polar = sky.day({ ...date, month: 6 }, SUN, { ...point, latitude_e7: 800000000 });
assert.deepEqual(Object.keys(polar), ['refusal', 'elevations_e8']);
assert.deepEqual(sky.day({ ...date, day: 32 }, SUN, point), { refusal: 3 });
assert.deepEqual(sky.day(date, 2, point), { refusal: 101 });
assert.throws(() => sky.day({ ...date, year: 2003.5 }, SUN, point), RangeError);
assert.throws(() => sky.day(start.year, SUN, point), TypeError);

// a day's azimuths against its places, rounded down, and a day whose first minute has none
for (const [step, count] of [[1, 1440], [2n, 720], [5, 288], [10, 144]]) {
  const { refusal, azimuths_e7 } = sky.day_azimuths(date, MOON, point, step);
  assert.ok(refusal === 0 && azimuths_e7 instanceof Uint32Array && azimuths_e7.length === count);
  for (let entry = 0; entry < count; entry += 47) {
    const minute = entry * Number(step);
    const at = { ...start, hour: Math.floor(minute / 60), minute: minute % 60, second: 0 };
    assert.equal(BigInt(azimuths_e7[entry]), sky.place(at, MOON, point).azimuth_e8 / 10n);
  }
}
const first_day = { year: 1900, month: 1, day: 1, ut1_ms: -900, delta_t_ms: -7999900 };
const under_the_sun = { longitude_e7: -1792408461, latitude_e7: -230700717, height_metres: -500 };
const [none, ...others] = sky.day_azimuths(first_day, SUN, under_the_sun, 10).azimuths_e7;
assert.ok(none === NO_AZIMUTH_E7 && others.every((azimuth) => azimuth < 3600000000));
for (const step of [0, 3, -1, 2n ** 63n - 1n]) assert.deepEqual(sky.day_azimuths(date, SUN, point, step), { refusal: 25 });
assert.deepEqual(sky.day_azimuths({ ...date, month: 13 }, SUN, point, 3), { refusal: 2 });
assert.deepEqual(sky.day_azimuths(date, 2, point, 10), { refusal: 101 });

// a strip there and back; its header by hand from 02; a view into a longer buffer is as good as the bytes themselves
const { azimuths_e7 } = sky.day_azimuths(date, MOON, point, 10);
azimuths_e7[7] = NO_AZIMUTH_E7;
const header = { air: AIR_NONE, body: MOON, year: 2003, month: 10, day: 17, longitude_e7: -1051786000, latitude_e7: 397424760, step_minutes: 10 };
const { bytes: strip } = sky.strip_write(header, azimuths_e7);
assert.ok(strip instanceof Uint8Array && strip.length === 594);
assert.equal(Buffer.from(strip.subarray(0, 18)).toString('hex'), '0250' + '01' + '00' + '01' + '07d3' + '0a' + '11' + 'c14f04f0' + '17b03878' + '0a');
const read = sky.strip_read(strip);
assert.deepEqual(read, { refusal: 0, ...header, azimuths_e7 });
assert.deepEqual(sky.strip_write(read, [...read.azimuths_e7]), { refusal: 0, bytes: strip });
const longer = Uint8Array.from([9, ...strip, 9]);
assert.deepEqual(sky.strip_read(longer.subarray(1, 595)), read);
assert.deepEqual(sky.strip_read(Buffer.from(strip)), read);
assert.deepEqual(sky.strip_read(sky.strip_write({ ...header, body: SUN, year: 2003n }, azimuths_e7).bytes), { ...read, body: SUN });

// no request takes a strip's air with the mark, or an unknown kind
function refuse_air(air) {
  assert.deepEqual(sky.place(start, SUN, point, air), { refusal: 102 });
  assert.deepEqual(sky.shown_place(start, SUN, point, air), { refusal: 102 });
  assert.deepEqual(sky.refraction(0, air), { refusal: 102 });
}

// an old strip, whose air byte is 1, at every step: measured air with the mark that it was carried over; it is not written again
for (const step_minutes of [1, 2, 5, 10]) {
  const { azimuths_e7 } = sky.day_azimuths(date, MOON, point, step_minutes);
  const { bytes: new_strip } = sky.strip_write({ ...header, step_minutes }, azimuths_e7);
  const old_strip = new_strip.map((byte, i) => (i === 3 ? 1 : byte));
  const read = sky.strip_read(old_strip);
  const { air } = read;
  assert.deepEqual(air, { kind: AIR_CARRIED_OVER_KIND, pressure_mbar: 1010, temperature_celsius: 10 });
  assert.ok(Object.isFrozen(air));
  assert.deepEqual(read, { refusal: 0, ...header, air, step_minutes, azimuths_e7 });
  assert.deepEqual(request_air(air), measured(1010, 10));
  // 01's vector in standard air
  assert.deepEqual(sky.refraction(0, request_air(air)), { refusal: 0, refraction_degrees: 0.48303212705241616 });
  assert.deepEqual(sky.shown_place(start, SUN, point, request_air(air)), sky.shown_place(start, SUN, point, measured(1010, 10)));
  refuse_air(air);
  assert.deepEqual(sky.strip_write(read, azimuths_e7), { refusal: 32 });
  assert.deepEqual(sky.strip_write({ ...read, air: request_air(air) }, azimuths_e7), { refusal: 32 });
  assert.deepEqual(sky.strip_write({ ...read, air: AIR_NONE }, azimuths_e7), { refusal: 0, bytes: new_strip });
  assert.equal(new_strip[3], 0);
}
assert.equal(read.air, AIR_NONE);
assert.equal(request_air(read.air), AIR_NONE);
assert.deepEqual(request_air(measured(820, 11)), measured(820, 11));
for (const kind of [1, 4]) refuse_air(request_air({ kind, pressure_mbar: 1010, temperature_celsius: 10 }));

// the largest strip, which has a step to each minute, beside it: whichever bears the date, and the first if both do
const minutes = sky.day_azimuths({ ...date, day: 18 }, MOON, point, 1).azimuths_e7;
const next = sky.strip_write({ ...header, day: 18, step_minutes: 1 }, minutes).bytes;
assert.equal(next.length, 5778);
const today = sky.strip_find(strip, next, 2003, 10, 17n);
assert.deepEqual(today, { refusal: 0, strip: 1, azimuths: strip.slice(18) });
assert.deepEqual(sky.strip_find(strip, next, 2003, 10, 18), { refusal: 0, strip: 2, azimuths: next.slice(18) });
assert.deepEqual(sky.strip_find(next, next.slice(), 2003, 10, 18).strip, 1);
assert.deepEqual(sky.strip_azimuth(today.azimuths, 143n), { refusal: 0, azimuth_e7: azimuths_e7[143] });
assert.deepEqual(sky.strip_azimuth(today.azimuths, 7), { refusal: 0 });
assert.deepEqual(sky.strip_find(strip, next, 2003, 10, 19), { refusal: 27 });
assert.deepEqual(sky.strip_find(strip, next.slice(1), 2003, 10, 17), { refusal: 20 });

// refusals of strips, and what is thrown at
assert.deepEqual(sky.strip_write({ ...header, air: measured(820, 11) }, azimuths_e7), { refusal: 32 });
assert.deepEqual(sky.strip_write({ ...header, air: measured(820, 11), month: 13 }, azimuths_e7), { refusal: 23 });
for (const kind of [1, 4]) assert.deepEqual(sky.strip_write({ ...header, air: { kind }, month: 13 }, azimuths_e7), { refusal: 102 });
assert.deepEqual(sky.strip_write({ ...header, step_minutes: 5 }, azimuths_e7), { refusal: 20 });
assert.deepEqual(sky.strip_write(header, []), { refusal: 20 });
assert.deepEqual(sky.strip_write(header, azimuths_e7.map(() => 3600000000)), { refusal: 26 });
assert.deepEqual(sky.strip_read(new Uint8Array(0)), { refusal: 20 });
assert.deepEqual(sky.strip_read(strip.map((byte, i) => (i === 2 ? 2 : byte))), { refusal: 21 });
for (const air of [2, 3, 255]) assert.deepEqual(sky.strip_read(strip.map((byte, i) => (i === 3 ? air : byte))), { refusal: 22 });
assert.deepEqual([sky.strip_azimuth(today.azimuths, 144), sky.strip_azimuth(today.azimuths, 2n ** 62n)], [{ refusal: 106 }, { refusal: 106 }]);
for (const wrong of [[...strip], strip.buffer, 'strip', undefined]) {
  assert.throws(() => sky.strip_read(wrong), TypeError);
  assert.throws(() => sky.strip_find(strip, wrong, 2003, 10, 17), TypeError);
  assert.throws(() => sky.strip_azimuth(wrong, 0), TypeError);
}
for (const wrong of [-1, 2 ** 32, 0.5, null, '0', 0n]) assert.throws(() => sky.strip_write(header, [wrong]), RangeError);
for (const wrong of [{ ...header, year: undefined }, { ...header, air: 0 }, undefined]) assert.throws(() => sky.strip_write(wrong, azimuths_e7));
for (const wrong of [-1, 0.5, 2n ** 64n]) assert.throws(() => sky.strip_azimuth(today.azimuths, wrong), RangeError);
assert.throws(() => sky.day_azimuths(date, MOON, point), TypeError);

// short strips: plans against the places, which are accepted, and refused when they lack an inner point; a coarser one has fewer
const plans = [0, 500n, 1000000, 2n ** 64n - 1n].map((tolerance) => {
  const { refusal, minutes, azimuths_e8 } = sky.plan(date, MOON, point, tolerance);
  assert.ok(refusal === 0 && minutes instanceof Uint32Array && azimuths_e8 instanceof BigInt64Array && minutes.length === azimuths_e8.length);
  assert.deepEqual([minutes[0], minutes.at(-1)], [0, 1439]);
  assert.deepEqual(sky.judge(date, MOON, point, tolerance, minutes, azimuths_e8), { refusal: 0 });
  for (let at = 0; at < minutes.length; at += 37) {
    const moment = { ...start, hour: Math.floor(minutes[at] / 60), minute: minutes[at] % 60, second: 0 };
    assert.equal(sky.place(moment, MOON, point).azimuth_e8, azimuths_e8[at]);
  }
  for (let at = 1; at < minutes.length - 1; at += 97) {
    const without = (list) => [...list].filter((_, i) => i !== at);
    const { refusal: verdict, out_minute, ...none } = sky.judge(date, MOON, point, tolerance, without(minutes), without(azimuths_e8));
    assert.ok(verdict === 31 && out_minute > minutes[at - 1] && out_minute < minutes[at + 1] && Object.keys(none).length === 0);
  }
  return minutes.length;
});
assert.ok(plans[0] > plans[1] && plans[1] > plans[2] && plans[2] > plans[3] && plans[3] === 2, String(plans));

// verdicts: a unit beside the Moon, points of any form, and refusals, of which 31 alone has a minute
const { minutes: times, azimuths_e8: directions } = sky.plan(date, MOON, point, 1000000);
const ends = [directions[0], directions.at(-1)];
const beside = (at, units) => directions.map((azimuth, i) => (i === at ? (azimuth + units) % 36000000000n : azimuth));
assert.deepEqual(sky.judge(date, MOON, point, 1000000n, [...times], [...directions].map(Number)), { refusal: 0 });
assert.deepEqual(sky.judge(date, MOON, point, 1000000, times, beside(0, 1000001n)), { refusal: 31, out_minute: 0 });
assert.ok(sky.judge(date, MOON, point, 1000000, times, beside(times.length - 1, 1000001n)).out_minute > times.at(-2));
assert.deepEqual(sky.judge(date, MOON, point, 2n ** 64n - 1n, [0, 1439], [0, 18000000000]), { refusal: 30 });
const no_points = [
  [[], []], [[0], [0]], [[0, 1439], [0]], [[0, 1439], [...ends, 0]], [[0, 1438], ends], [[1, 1439], ends], [[0, 7, 7, 1439], [0, 0, 0, 0]],
  [[0, 1439], [-1, 0]], [[0, 1439], [0, 36000000000n]], [[0, 1439], [NO_DIRECTION_E8, 0]]];
for (const [minutes, azimuths] of no_points) {
  assert.deepEqual(sky.judge(date, MOON, point, 2n ** 64n - 1n, minutes, azimuths), { refusal: 29 });
}
assert.deepEqual(sky.judge({ ...date, month: 13 }, MOON, point, 0, [], []), { refusal: 2 });
assert.deepEqual(sky.judge(date, 2, point, 0, times, directions), { refusal: 101 });
assert.deepEqual(sky.plan({ ...date, day: 32 }, MOON, point, 0), { refusal: 3 });
assert.deepEqual(sky.plan(date, 2, point, 0), { refusal: 101 });

// no plan: no azimuth at the first minute, and the Sun at noon of an equinox, exactly opposite a minute later; a minute without one is not compared
const equinox = { year: 2026, month: 3, day: 20, ut1_ms: 0, delta_t_ms: 69100 };
assert.deepEqual(sky.plan(first_day, SUN, under_the_sun, 1000000), { refusal: 107 });
assert.deepEqual(sky.plan(equinox, SUN, { longitude_e7: 17322914, latitude_e7: -452846, height_metres: 0 }, 2n ** 64n - 1n), { refusal: 107 });
const each_minute = Array.from({ length: 1440 }, (_, minute) => minute);
const { azimuths_e8: worked } = sky.batch_ms({ ...start, ...first_day, hour: 0, minute: 0, second: 0 }, SUN, under_the_sun, each_minute.map((minute) => 60000 * minute));
assert.deepEqual(sky.judge(first_day, SUN, under_the_sun, 0, each_minute, worked), { refusal: 29 });
assert.deepEqual(sky.judge(first_day, SUN, under_the_sun, 0, each_minute, worked.map((azimuth, i) => (i === 0 ? 7n : azimuth))), { refusal: 0 });
for (const wrong of [-1, 0.5, 2n ** 64n]) {
  assert.throws(() => sky.plan(date, MOON, point, wrong), RangeError);
  assert.throws(() => sky.judge(date, MOON, point, wrong, times, directions), RangeError);
}
for (const wrong of [-1, 0.5, 2 ** 32, 0n, '0', null]) assert.throws(() => sky.judge(date, MOON, point, 0, [0, wrong], ends), RangeError);
for (const wrong of [0.5, NaN, 2n ** 63n, -(2n ** 63n) - 1n]) assert.throws(() => sky.judge(date, MOON, point, 0, [0, 1439], [0, wrong]), RangeError);
for (const wrong of ['0', null, undefined]) assert.throws(() => sky.judge(date, MOON, point, 0, [0, 1439], [0, wrong]), TypeError);
assert.throws(() => sky.judge(date, MOON, point, 0, times), TypeError);
assert.throws(() => sky.judge(date, MOON, point, 0), TypeError);
assert.throws(() => sky.plan(date, MOON, point), TypeError);

// 003, Table 4, its first eclipse; a moment without one; a share by itself, a ring; and refusals
const pacific = { longitude_e7: 1433617000, latitude_e7: 246117000, height_metres: 0 };
const morning = { ...start, year: 2009, month: 7, day: 22, hour: 2, minute: 33, second: 0, delta_t_ms: 66400 };
const whole = { refusal: 0, separation_e8: 45193n, sun_radius_e8: 26236064n, moon_radius_e8: 28346192n, share_millionths: 1000000n };
assert.deepEqual(sky.eclipse(morning, pacific), whole);
assert.equal(sky.eclipse(start, point).share_millionths, 0n);
assert.deepEqual(sky.eclipse({ ...morning, hour: 24 }, pacific), { refusal: 4 });
assert.deepEqual(sky.covered_share(1000000, 26000000n, 24000000), { refusal: 0, share_millionths: 852071n });
assert.deepEqual(sky.covered_share(-1, 26000000, 24000000), { refusal: 105 });
assert.throws(() => sky.eclipse({ ...morning, hour: 2.5 }, pacific), RangeError);
assert.throws(() => sky.eclipse(morning), TypeError);
assert.throws(() => sky.covered_share(1000000, 26000000), TypeError);

// what is no number of 64 bits, or of 32, never reaches the module
for (const year of [2003.5, NaN, Infinity, undefined, null, '', 'x', 2n ** 63n, -(2n ** 63n) - 1n]) {
  assert.throws(() => sky.place({ ...start, year }, SUN, point), undefined, String(year));
}
for (const body of [-1, 0.5, 2 ** 32, '0', 0n, undefined]) assert.throws(() => sky.place(start, body, point), RangeError);
assert.throws(() => sky.batch_ms(start, SUN, point, [2 ** 32]), RangeError);
assert.throws(() => sky.root(-1n), RangeError);
assert.throws(() => sky.root(''), TypeError);
assert.equal(sky.root(2n ** 64n - 1n), 2n ** 32n - 1n);

// times are milliseconds: one that is no whole 0.1 s, and the ends of 4, 5 and 6
const vector = { year: 1949, month: 1, day: 12, hour: 3, minute: 18, second: 41, fraction_ms: 906, ut1_ms: 31, delta_t_ms: -1239899 };
assert.deepEqual(sky.place(vector, SUN, { longitude_e7: 612395026, latitude_e7: -325135240, height_metres: 1454 }), { refusal: 0, azimuth_e8: 9971499373n, elevation_e8: 2688456507n });
for (const [name, last, refusal] of [['fraction_ms', 999, 4], ['ut1_ms', 900, 5], ['delta_t_ms', 8000000, 6]]) {
  assert.deepEqual([last, last + 1].map((number) => sky.instant({ ...start, [name]: number }).refusal), [0, refusal]);
}
assert.deepEqual(sky.batch_ms({ ...eve, fraction_ms: 999 }, SUN, point, [0, 1]), { refusal: 13, index: 1 });

// what was written for version 3, in tenths of a second, is no request
const { delta_t_ms, ...without } = start;
assert.throws(() => sky.place({ ...without, delta_t_tenths: 670 }, SUN, point), TypeError);
assert.throws(() => sky.day({ year: 2003, month: 10, day: 17, ut1_tenths: 0, delta_t_tenths: 670 }, SUN, point), TypeError);
for (const name of ['batch', 'moon_sums', 'sun_sums', 'nutation', 'mean_sidereal']) assert.equal(sky[name], undefined);

// what was written for version 4, in standard air, is neither a request nor a strip: its name is gone, and not taken for an air that is left out
assert.ok(!('AIR_STANDARD' in door));
for (const call of ['place', 'shown_place']) assert.throws(() => sky[call](start, SUN, point, door.AIR_STANDARD), TypeError);
assert.throws(() => sky.refraction(0, door.AIR_STANDARD), TypeError);
assert.throws(() => sky.strip_write({ ...header, air: door.AIR_STANDARD }, azimuths_e7), TypeError);
console.log('wasm: the calls of raddlehue.mjs do as they say');
