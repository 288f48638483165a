/* Raddlehue for JavaScript: where the Sun and the Moon stand, over raddlehue.wasm, in a browser or in node.
 *
 *     import { load, SUN, AIR_NONE } from './raddlehue.mjs';
 *     const sky = await load(fetch('raddlehue.wasm'));                      // in node: await load(readFileSync('raddlehue.wasm'))
 *     const start = { year: 2003, month: 10, day: 17, hour: 19, minute: 30, second: 30, fraction_ms: 0, ut1_ms: 0, delta_t_ms: 67000 };
 *     const point = { longitude_e7: -1051786000, latitude_e7: 397424760, height_metres: 1830 };
 *     sky.place(start, SUN, point)                                           // { refusal: 0, azimuth_e8: 19434024073n, elevation_e8: 3987204605n }
 *
 * A call gives an object: `refusal` is 0 and the answer's names stand beside it, or it is the number of the refusal, and nothing else (but for the index of a batch, and the
 * minute of a proposal). What an answer does not have is missing, neither 0 nor null: the azimuth of a body straight overhead or straight underfoot, a rise or a set that does not come. Names
 * (an azimuth without C's if_any) and numbers are those of include/raddlehue.h and docs/REFUSALS.md; names say their unit (_e7 and _e8 are 1e-7 and 1e-8 degree, _ms
 * are milliseconds, _millionths are of the Sun's disk). Whole numbers may be given as Number or BigInt and come back as BigInt, exact; minutes, degrees, mbar and
 * degrees Celsius are Numbers, and so is all that a strip holds. What is no whole number, or none of 64 bits, is a TypeError or a RangeError; every other number may be given, and what
 * cannot be answered is refused. Since version 4 times are milliseconds, under names of their own; an object with the names of version 3, which counted tenths of a second, is a TypeError.
 * Since version 5 there is no standard air: an air is AIR_NONE or measured(pressure_mbar, temperature_celsius), and an undefined one, as AIR_STANDARD is by now, is a TypeError.
 *
 *     place(start, body, point[, air])         azimuth_e8, which may be missing, elevation_e8
 *     shown_place(start, body, point[, air])   azimuth_degrees, which may be missing, elevation_degrees, refraction_degrees
 *     batch_ms(start, body, point, offsets_ms) azimuths_e8, elevations_e8: a BigInt64Array each, an entry for each offset (Uint32Array or list, up to 49.7 days); where there is no
 *                                              azimuth its entry is NO_DIRECTION_E8; where the refusal is 13, index: the first offset that is too late
 *     day(date, body, point)                   elevations_e8: a BigInt64Array, the elevation at each of the date's 1,440 minutes of UTC; rise_minute, set_minute: 0 to 1439,
 *                                              the first at which the body is at or above -0.8333 degree and was not the minute before, and the reverse; where there
 *                                              is none, as on a polar day, the name is missing. A date is { year, month, day, ut1_ms, delta_t_ms }
 *     day_azimuths(date, body, point, step_minutes)
 *                                              azimuths_e7: a Uint32Array, the azimuth at each step of the date from 00:00 UTC on, rounded down, for a strip; where there is none
 *                                              its entry is NO_AZIMUTH_E7. The step is 1, 2, 5 or 10 minutes
 *     strip_write(strip, azimuths_e7)          bytes: a Uint8Array, to be sent. A strip is { air, body, year, month, day, longitude_e7, latitude_e7, step_minutes }, its air
 *                                              AIR_NONE: measured air, carried over or not, is refused by 32; its azimuths are a Uint32Array or a list, one for each step
 *     strip_read(bytes)                        air, body, year, month, day, longitude_e7, latitude_e7, step_minutes: a strip; and azimuths_e7, a Uint32Array. Bytes are a Uint8Array.
 *                                              The air of an old strip, which was standard, is measured with the mark that it was carried over, { kind: AIR_CARRIED_OVER_KIND,
 *                                              pressure_mbar: 1010, temperature_celsius: 10 }: a request refuses it by 102, and request_air(air) is the same air for a request
 *     strip_find(first, second, year, month, day)
 *                                              strip: 1 or 2, whichever of two strips' bytes bears the date, the first if both do; azimuths: a Uint8Array, its azimuth bytes
 *     strip_azimuth(azimuths, step)            azimuth_e7, which may be missing: of a step, counted from 0, in such azimuth bytes
 *     judge(date, body, point, tolerance_e8, minutes, azimuths_e8)
 *                                              the watch's verdict on a short strip: turning points at minutes of the date that rise from 0 to 1439 (Uint32Array or list), an azimuth
 *                                              to each (BigInt64Array or list). Accepted where at every minute of UTC the way between them, the short one round, lies within the tolerance
 *                                              of the body's azimuth; where the refusal is 31, out_minute: the first that does not
 *     plan(date, body, point, tolerance_e8)    minutes, a Uint32Array, and azimuths_e8, a BigInt64Array: turning points that judge accepts, and would not if an inner one were dropped. The
 *                                              refusal is 107 where there is no plan: a minute of the date has no azimuth, or two adjacent ones are exactly opposite
 *     eclipse(start, point)                    separation_e8, of the two centres; sun_radius_e8, moon_radius_e8; share_millionths, of the Sun's disk that the Moon's covers,
 *                                              whether they are up or not
 *     covered_share(separation_e8, sun_radius_e8, moon_radius_e8)
 *                                              share_millionths, of these three alone
 *     middle(a_e8, b_e8)                       azimuth_e8
 *     refraction(elevation_e8, air)            refraction_degrees: 0 below -0.83337 degree, as in a shown place
 *     day_count(year, month, day)              days
 *     instant(start)                           ut_ms, tt_ms
 *     moon_sums_ms(tt_ms)                      longitude_e8, latitude_e8, distance_metres
 *     sun_sums_ms(tt_ms)                       longitude_radians_e10, latitude_radians_e10, radius_au_e10
 *     nutation_ms(tt_ms)                       longitude_e8, obliquity_e8, true_obliquity_e8
 *     mean_sidereal_ms(ut_ms)                  sidereal_e8
 *     sine(angle_e8), cosine(angle_e8)         a BigInt, times 1e9; nothing is refused by these four
 *     arctangent(y, x)                         a BigInt, 1e-8 degree; undefined where both are zero
 *     root(square)                             a BigInt; the square is 0 up to 2^64 - 1
 *
 * Without an air a place is asked for without refraction. A loaded module keeps no state between calls; one that is shared by workers is loaded in each of them.
 */
export const SUN = 0;
export const MOON = 1;

/* What stands in a batch's azimuths where there is none; middle refuses it. */
export const NO_DIRECTION_E8 = 2n ** 63n - 1n;

/* What stands in a strip's azimuths where there is none. */
export const NO_AZIMUTH_E7 = 2 ** 32 - 1;

/* The air of a request; measured(pressure_mbar, temperature_celsius) makes the other kind. (Kind 1 was standard air before version 5; it is refused by 102.) */
export const AIR_NONE = Object.freeze({ kind: 0, pressure_mbar: 0, temperature_celsius: 0 });
export const measured = (pressure_mbar, temperature_celsius) => ({ kind: 2, pressure_mbar, temperature_celsius });

/* The kind of a strip's air where it was carried over from an old strip: measured air, with this mark. No request has it. */
export const AIR_CARRIED_OVER_KIND = 3;

/* The air of a request at the place of a strip: none, or measured at the same pressure and temperature. This is where the mark is left behind. */
export const request_air = (air) => (air.kind === AIR_CARRIED_OVER_KIND ? measured(air.pressure_mbar, air.temperature_celsius) : air);

const START = ['year', 'month', 'day', 'hour', 'minute', 'second', 'fraction_ms', 'ut1_ms', 'delta_t_ms'];
const DATE = ['year', 'month', 'day', 'ut1_ms', 'delta_t_ms'];
const POINT = ['longitude_e7', 'latitude_e7', 'height_metres'];
// C's names; an object has `air` for the first, with the numbers beside its kind
const STRIP = ['air_kind', 'body', 'year', 'month', 'day', 'longitude_e7', 'latitude_e7', 'step_minutes'];
const STRIP_HEADER = 18;
const MINUTES = 1440;

/* A whole number; BigInt() itself throws at a fraction and at NaN. */
function exact(number, name) {
  if (typeof number !== 'number' && typeof number !== 'bigint') throw new TypeError(`${name}: ${number} is no number`);
  return BigInt(number);
}

/* A whole number of 64 bits. */
function whole(number, name) {
  const big = exact(number, name);
  if (big !== BigInt.asIntN(64, big)) throw new RangeError(`${name}: ${number} has more than 64 bits`);
  return big;
}

/* One from 0 up, as C's uint64_t. */
function natural(number, name) {
  const big = exact(number, name);
  if (big !== BigInt.asUintN(64, big)) throw new RangeError(`${name}: ${number} is no number from 0 to 2^64 - 1`);
  return big;
}

/* A code, as C's uint32_t: what is none is refused by the module, never wrapped into one. */
function code(number, name) {
  if (!Number.isInteger(number) || number < 0 || number > 0xffffffff) throw new RangeError(`${name}: ${number} is no number of 32 bits`);
  return number;
}

/* A list of numbers of 32 bits. */
function codes(list, name) {
  return Uint32Array.from(list, (number, i) => code(number, `${name} ${i}`));
}

/* A list of whole numbers of 64 bits. */
function wholes(list, name) {
  return BigInt64Array.from(list, (number, i) => whole(number, `${name} ${i}`));
}

/* source: the bytes of raddlehue.wasm, a WebAssembly.Module, or a Response, or a promise of one of these. */
export async function load(source) {
  let given = await source;
  if (typeof Response !== 'undefined' && given instanceof Response) {
    if (!given.ok) throw new Error(`raddlehue.wasm: ${given.status}`);
    given = await given.arrayBuffer();
  }
  const module = given instanceof WebAssembly.Module ? given : await WebAssembly.compile(given);
  return new Raddlehue(await WebAssembly.instantiate(module));
}

class Raddlehue {
  #raw;
  #base;

  constructor(instance) {
    this.#raw = instance.exports;
    // what is handed to a call lies above all that the module has: the start, the point, a place's flag and the answer, then a batch's lists, a day's curve, strips or turning points
    this.#base = this.#raw.__heap_base.value + 15 & ~15;
    this.#memory(256);
  }

  /* The module's functions as they are, for tests. */
  get raw() {
    return this.#raw;
  }

  /* A view of the memory with so many bytes from the base on; growing makes older views useless, so each call asks anew. */
  #memory(bytes) {
    const memory = this.#raw.memory;
    const lacking = this.#base + bytes - memory.buffer.byteLength;
    if (lacking > 0) memory.grow(Math.ceil(lacking / 65536));
    return new DataView(memory.buffer);
  }

  #put(at, names, given) {
    const numbers = names.map((name) => whole(given[name], name));
    const view = this.#memory(256);
    numbers.forEach((number, i) => view.setBigInt64(at + 8 * i, number, true));
    return at;
  }

  /* So many bytes where lists lie, with so many others before them. */
  #room(bytes, before = 0) {
    this.#memory(256 + before + bytes);
    return this.#base + 256 + before;
  }

  #lay(bytes, name, before = 0) {
    if (!(bytes instanceof Uint8Array)) throw new TypeError(`${name}: no Uint8Array`);
    const at = this.#room(bytes.length, before);
    new Uint8Array(this.#raw.memory.buffer).set(bytes, at);
    return at;
  }

  /* How many entries or bytes a call says it wrote. */
  #count() {
    return Number(this.#memory(256).getBigUint64(this.#answer, true));
  }

  #start(start) {
    return this.#put(this.#base, START, start);
  }

  #point(point) {
    return this.#put(this.#base + 96, POINT, point);
  }

  get #hasAzimuth() {
    return this.#base + 120;
  }

  get #answer() {
    return this.#base + 128;
  }

  /* The refusal, and where there is none the words of the answer by their names. */
  #answered(refusal, names, read) {
    const answer = { refusal };
    if (refusal === 0) {
      const view = this.#memory(256);
      names.forEach((name, i) => (answer[name] = view[read](this.#answer + 8 * i, true)));
    }
    return answer;
  }

  #units(refusal, ...names) {
    return this.#answered(refusal, names, 'getBigInt64');
  }

  #doubles(refusal, ...names) {
    return this.#answered(refusal, names, 'getFloat64');
  }

  /* An air that is left out is none. One that is undefined was not left out, and throws: AIR_STANDARD of version 4 would be shown without refraction. */
  #request(start, body, point, airs) {
    const air = airs.length === 0 ? AIR_NONE : airs[0];
    return [
      this.#start(start), code(body, 'body'), this.#point(point),
      code(air.kind, 'air'), Number(air.pressure_mbar), Number(air.temperature_celsius), this.#hasAzimuth, this.#answer];
  }

  /* Takes the name of the azimuth out where there is none: 0 would say north, and so would null, which counts as 0. */
  #ifAny(answer, azimuth) {
    if (answer.refusal === 0 && this.#memory(256).getUint32(this.#hasAzimuth, true) === 0) delete answer[azimuth];
    return answer;
  }

  place(start, body, point, ...air) {
    const refusal = this.#raw.raddlehue_place(...this.#request(start, body, point, air)) >>> 0;
    return this.#ifAny(this.#units(refusal, 'azimuth_e8', 'elevation_e8'), 'azimuth_e8');
  }

  shown_place(start, body, point, ...air) {
    const refusal = this.#raw.raddlehue_shown_place(...this.#request(start, body, point, air)) >>> 0;
    return this.#ifAny(this.#doubles(refusal, 'azimuth_degrees', 'elevation_degrees', 'refraction_degrees'), 'azimuth_degrees');
  }

  batch_ms(start, body, point, offsets_ms) {
    const count = offsets_ms.length;
    const offsets = codes(offsets_ms, 'offset');
    const azimuths = this.#room(20 * count);
    const [elevations, list] = [azimuths + 8 * count, azimuths + 16 * count];
    const view = this.#memory(256);
    offsets.forEach((offset, i) => view.setUint32(list + 4 * i, offset, true));
    const length = BigInt(count);
    const refusal = this.#raw.raddlehue_batch_ms(
      this.#start(start), code(body, 'body'), this.#point(point), list, length, azimuths, length, elevations, length, this.#answer) >>> 0;
    const answer = { refusal };
    if (refusal === 0) {
      const buffer = this.#raw.memory.buffer;
      answer.azimuths_e8 = new BigInt64Array(buffer.slice(azimuths, azimuths + 8 * count));
      answer.elevations_e8 = new BigInt64Array(buffer.slice(elevations, elevations + 8 * count));
    } else if (refusal === 13) {
      answer.index = this.#count();
    }
    return answer;
  }

  day(date, body, point) {
    const curve = this.#room(8 * MINUTES);
    const refusal = this.#raw.raddlehue_day(this.#put(this.#base, DATE, date), code(body, 'body'), this.#point(point), curve, this.#answer) >>> 0;
    const answer = { refusal };
    if (refusal === 0) {
      answer.elevations_e8 = new BigInt64Array(this.#raw.memory.buffer.slice(curve, curve + 8 * MINUTES));
      // a flag and a minute of 32 bits for the rise, and for the set
      const told = new Uint32Array(this.#raw.memory.buffer.slice(this.#answer, this.#answer + 16));
      if (told[0]) answer.rise_minute = told[1];
      if (told[2]) answer.set_minute = told[3];
    }
    return answer;
  }

  day_azimuths(date, body, point, step_minutes) {
    const azimuths = this.#room(4 * MINUTES);
    const refusal = this.#raw.raddlehue_day_azimuths(
      this.#put(this.#base, DATE, date), code(body, 'body'), this.#point(point), whole(step_minutes, 'step_minutes'), azimuths, BigInt(MINUTES), this.#answer) >>> 0;
    const answer = { refusal };
    if (refusal === 0) answer.azimuths_e7 = new Uint32Array(this.#raw.memory.buffer.slice(azimuths, azimuths + 4 * this.#count()));
    return answer;
  }

  strip_write(strip, azimuths_e7) {
    const list = codes(azimuths_e7, 'azimuth');
    const length = STRIP_HEADER + 4 * list.length;
    const [bytes, azimuths] = [this.#room(length, 4 * list.length), this.#room(4 * list.length)];
    const view = this.#memory(256);
    list.forEach((azimuth, i) => view.setUint32(azimuths + 4 * i, azimuth, true));
    const header = this.#put(this.#base, STRIP, { ...strip, air_kind: code(strip.air.kind, 'air'), body: code(strip.body, 'body') });
    const refusal = this.#raw.raddlehue_strip_write(header, azimuths, BigInt(list.length), bytes, BigInt(length), this.#answer) >>> 0;
    const answer = { refusal };
    if (refusal === 0) answer.bytes = new Uint8Array(this.#raw.memory.buffer.slice(bytes, bytes + this.#count()));
    return answer;
  }

  strip_read(bytes) {
    const at = this.#lay(bytes, 'bytes');
    // the two doubles of its air lie behind the strip's numbers
    const doubles = this.#answer + 8 * STRIP.length;
    const { refusal, air_kind, ...strip } = this.#units(this.#raw.raddlehue_strip_read(at, BigInt(bytes.length), this.#answer, doubles) >>> 0, ...STRIP);
    if (refusal !== 0) return { refusal };
    const view = this.#memory(256);
    const [kind, pressure_mbar, temperature_celsius] = [Number(air_kind), view.getFloat64(doubles, true), view.getFloat64(doubles + 8, true)];
    const air = kind === AIR_NONE.kind ? AIR_NONE : Object.freeze({ kind, pressure_mbar, temperature_celsius });
    for (const name in strip) strip[name] = Number(strip[name]);
    const azimuths_e7 = Uint32Array.from({ length: MINUTES / strip.step_minutes }, (_, step) => view.getUint32(at + STRIP_HEADER + 4 * step));
    return { refusal, air, ...strip, azimuths_e7 };
  }

  strip_find(first, second, year, month, day) {
    const [one, two] = [this.#lay(first, 'first'), this.#lay(second, 'second', first.length)];
    const refusal = this.#raw.raddlehue_strip_find(
      one, BigInt(first.length), two, BigInt(second.length), whole(year, 'year'), whole(month, 'month'), whole(day, 'day'), this.#answer) >>> 0;
    const { strip, offset, length } = this.#units(refusal, 'strip', 'offset', 'length');
    if (refusal !== 0) return { refusal };
    const azimuths = (strip === 1n ? one : two) + Number(offset);
    return { refusal, strip: Number(strip), azimuths: new Uint8Array(this.#raw.memory.buffer.slice(azimuths, azimuths + Number(length))) };
  }

  strip_azimuth(azimuths, step) {
    const at = this.#lay(azimuths, 'azimuths');
    const refusal = this.#raw.raddlehue_strip_azimuth(at, BigInt(azimuths.length), natural(step, 'step'), this.#answer) >>> 0;
    const answer = { refusal };
    const azimuth = this.#memory(256).getUint32(this.#answer, true);
    if (refusal === 0 && azimuth !== NO_AZIMUTH_E7) answer.azimuth_e7 = azimuth;
    return answer;
  }

  judge(date, body, point, tolerance_e8, minutes, azimuths_e8) {
    const [times, directions] = [codes(minutes, 'minute'), wholes(azimuths_e8, 'azimuth')];
    const azimuths = this.#room(8 * directions.length + 4 * times.length);
    const list = azimuths + 8 * directions.length;
    const view = this.#memory(256);
    directions.forEach((azimuth, i) => view.setBigInt64(azimuths + 8 * i, azimuth, true));
    times.forEach((minute, i) => view.setUint32(list + 4 * i, minute, true));
    const refusal = this.#raw.raddlehue_judge(
      this.#put(this.#base, DATE, date), code(body, 'body'), this.#point(point), natural(tolerance_e8, 'tolerance_e8'),
      list, BigInt(times.length), azimuths, BigInt(directions.length), this.#answer) >>> 0;
    const answer = { refusal };
    if (refusal === 31) answer.out_minute = this.#memory(256).getUint32(this.#answer, true);
    return answer;
  }

  plan(date, body, point, tolerance_e8) {
    const azimuths = this.#room(12 * MINUTES);
    const minutes = azimuths + 8 * MINUTES;
    const refusal = this.#raw.raddlehue_plan(
      this.#put(this.#base, DATE, date), code(body, 'body'), this.#point(point), natural(tolerance_e8, 'tolerance_e8'), minutes, azimuths, this.#answer) >>> 0;
    const answer = { refusal };
    if (refusal === 0) {
      const [buffer, count] = [this.#raw.memory.buffer, this.#count()];
      answer.minutes = new Uint32Array(buffer.slice(minutes, minutes + 4 * count));
      answer.azimuths_e8 = new BigInt64Array(buffer.slice(azimuths, azimuths + 8 * count));
    }
    return answer;
  }

  eclipse(start, point) {
    const refusal = this.#raw.raddlehue_eclipse(this.#start(start), this.#point(point), this.#answer) >>> 0;
    return this.#units(refusal, 'separation_e8', 'sun_radius_e8', 'moon_radius_e8', 'share_millionths');
  }

  covered_share(separation_e8, sun_radius_e8, moon_radius_e8) {
    const refusal = this.#raw.raddlehue_covered_share(
      whole(separation_e8, 'separation_e8'), whole(sun_radius_e8, 'sun_radius_e8'), whole(moon_radius_e8, 'moon_radius_e8'), this.#answer) >>> 0;
    return this.#units(refusal, 'share_millionths');
  }

  middle(a_e8, b_e8) {
    return this.#units(this.#raw.raddlehue_middle(whole(a_e8, 'a_e8'), whole(b_e8, 'b_e8'), this.#answer) >>> 0, 'azimuth_e8');
  }

  refraction(elevation_e8, air) {
    const refusal = this.#raw.raddlehue_refraction(
      whole(elevation_e8, 'elevation_e8'), code(air.kind, 'air'), Number(air.pressure_mbar), Number(air.temperature_celsius), this.#answer) >>> 0;
    return this.#doubles(refusal, 'refraction_degrees');
  }

  day_count(year, month, day) {
    const refusal = this.#raw.raddlehue_day_count(whole(year, 'year'), whole(month, 'month'), whole(day, 'day'), this.#answer) >>> 0;
    return this.#units(refusal, 'days');
  }

  instant(start) {
    return this.#units(this.#raw.raddlehue_instant(this.#start(start), this.#answer) >>> 0, 'ut_ms', 'tt_ms');
  }

  moon_sums_ms(tt_ms) {
    const refusal = this.#raw.raddlehue_moon_sums_ms(whole(tt_ms, 'tt_ms'), this.#answer) >>> 0;
    return this.#units(refusal, 'longitude_e8', 'latitude_e8', 'distance_metres');
  }

  sun_sums_ms(tt_ms) {
    const refusal = this.#raw.raddlehue_sun_sums_ms(whole(tt_ms, 'tt_ms'), this.#answer) >>> 0;
    return this.#units(refusal, 'longitude_radians_e10', 'latitude_radians_e10', 'radius_au_e10');
  }

  nutation_ms(tt_ms) {
    const refusal = this.#raw.raddlehue_nutation_ms(whole(tt_ms, 'tt_ms'), this.#answer) >>> 0;
    return this.#units(refusal, 'longitude_e8', 'obliquity_e8', 'true_obliquity_e8');
  }

  mean_sidereal_ms(ut_ms) {
    return this.#units(this.#raw.raddlehue_mean_sidereal_ms(whole(ut_ms, 'ut_ms'), this.#answer) >>> 0, 'sidereal_e8');
  }

  sine(angle_e8) {
    return this.#raw.raddlehue_sine(whole(angle_e8, 'angle_e8'));
  }

  cosine(angle_e8) {
    return this.#raw.raddlehue_cosine(whole(angle_e8, 'angle_e8'));
  }

  arctangent(y, x) {
    const angle = this.#raw.raddlehue_arctangent(whole(y, 'y'), whole(x, 'x'));
    return angle === NO_DIRECTION_E8 ? undefined : angle;
  }

  root(square) {
    return BigInt.asUintN(64, this.#raw.raddlehue_root(natural(square, 'square')));
  }
}
