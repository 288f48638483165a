// node ports/wasm/answers.mjs RADDLEHUE.WASM < LINES : reads lines that ports/requests.c writes, asks again for what stands before the arrow of each, and writes the lines anew.
//
// Each request is made twice: by the function as it is, with poisoned memory, which gives the line; and by raddlehue.mjs, which has to give the same words, or nothing
// where the call is refused. A difference ends the run.
import { readFileSync } from 'node:fs';
import { NO_AZIMUTH_E7, NO_DIRECTION_E8, load } from './raddlehue.mjs';

const sky = await load(readFileSync(process.argv[2]));
const raw = sky.raw;
const POISON = 0x5a5a5a5a5a5a5a5an;
const [SIDE, ROOM, CELLS, MINUTES] = [2, 10, 10, 1440];
const [STRIP_HEADER, STRIP_ROOM] = [18, 5780];

// beyond what raddlehue.mjs uses of the memory
raw.memory.grow(1);
const base = raw.memory.buffer.byteLength - 65536;
const [start, point, lent, offsets, buffers, curve] = [base, base + 96, base + 256, base + 1024, base + 2048, base + 4096];
const [azimuths, written, strips] = [base + 16384, base + 24576, [base + 32768, base + 40960]];
const view = () => new DataView(raw.memory.buffer);

const big = (word) => BigInt.asIntN(64, BigInt(`0x${word}`));
const code = (word) => Number(`0x${word}`);
const hex = (number) => BigInt.asUintN(64, number).toString(16);
const put = (at, numbers) => numbers.forEach((number, i) => view().setBigInt64(at + 8 * i, number, true));
const scratch = new DataView(new ArrayBuffer(8));
const double = (word) => (scratch.setBigInt64(0, big(word)), scratch.getFloat64(0));
const bits = (number) => (scratch.setFloat64(0, number), scratch.getBigInt64(0));

function fail(line, why) {
  console.error(`answers: ${why}\n  ${line}`);
  process.exit(1);
}

function words(refusal, count) {
  const said = [(refusal >>> 0).toString(16)];
  for (let i = 0; i < SIDE + ROOM + SIDE; i++) {
    const word = BigInt.asUintN(64, view().getBigInt64(lent + 8 * i, true));
    if (i >= SIDE && i < SIDE + count) said.push(hex(word));
    else if (word !== POISON) said.push('BESIDE', i.toString(16), hex(word));
  }
  return said;
}

const lend = () => (put(lent, Array(SIDE + ROOM + SIDE).fill(POISON)), lent + 8 * SIDE);

const named = (names, numbers) => Object.fromEntries(names.map((name, i) => [name, numbers[i]]));
const START = ['year', 'month', 'day', 'hour', 'minute', 'second', 'fraction_ms', 'ut1_ms', 'delta_t_ms'];
const DATE = ['year', 'month', 'day', 'ut1_ms', 'delta_t_ms'];
const POINT = ['longitude_e7', 'latitude_e7', 'height_metres'];
const airOf = (given) => ({ kind: code(given[0]), pressure_mbar: double(given[1]), temperature_celsius: double(given[2]) });

// The words of an object of raddlehue.mjs: the refusal and the values in the order of their names, doubles as bits.
const shown = (answer) => Object.values(answer).map((value, i) => (i === 0 ? value.toString(16) : hex(typeof value === 'number' ? bits(value) : value)));

// A place's, as the memory has them: whether there is an azimuth in the lower half of a poisoned word, and 0 for one that is missing.
function shownPlace(answer, azimuth) {
  if (answer.refusal !== 0) return shown(answer);
  const flag = azimuth in answer ? 1n : 0n;
  const { refusal, [azimuth]: number = 0, ...rest } = answer;
  return shown({ refusal, flag: (POISON >> 32n << 32n) + flag, number, ...rest });
}

// What each export is given, the count of words that are shown, the same by raddlehue.mjs, and the name of an azimuth that may be missing there.
function request(given) {
  put(start, given.slice(0, 9).map(big));
  put(point, given.slice(10, 13).map(big));
  const flag = lend();
  return [start, code(given[9]), point, code(given[13]), double(given[14]), double(given[15]), flag, flag + 8];
}
function startAndPoint(given) {
  put(start, given.slice(0, 9).map(big));
  put(point, given.slice(9).map(big));
  return [start, point, lend()];
}
const objects = (given) => [named(START, given.slice(0, 9).map(big)), code(given[9]), named(POINT, given.slice(10, 13).map(big))];
const CALLS = {
  place: [3, request, (g) => sky.place(...objects(g), airOf(g.slice(13))), 'azimuth_e8'],
  shown_place: [4, request, (g) => sky.shown_place(...objects(g), airOf(g.slice(13))), 'azimuth_degrees'],
  eclipse: [4, startAndPoint, (g) => sky.eclipse(named(START, g.slice(0, 9).map(big)), named(POINT, g.slice(9).map(big)))],
  covered_share: [1, (g) => [...g.map(big), lend()], (g) => sky.covered_share(...g.map(big))],
  instant: [2, (g) => (put(start, g.map(big)), [start, lend()]), (g) => sky.instant(named(START, g.map(big)))],
  middle: [1, (g) => [...g.map(big), lend()], (g) => sky.middle(...g.map(big))],
  refraction: [1, (g) => [big(g[0]), code(g[1]), double(g[2]), double(g[3]), lend()], (g) => sky.refraction(big(g[0]), airOf(g.slice(1)))],
  day_count: [1, (g) => [...g.map(big), lend()], (g) => sky.day_count(...g.map(big))],
  moon_sums_ms: [3, (g) => [big(g[0]), lend()], (g) => sky.moon_sums_ms(big(g[0]))],
  sun_sums_ms: [3, (g) => [big(g[0]), lend()], (g) => sky.sun_sums_ms(big(g[0]))],
  nutation_ms: [3, (g) => [big(g[0]), lend()], (g) => sky.nutation_ms(big(g[0]))],
  mean_sidereal_ms: [1, (g) => [big(g[0]), lend()], (g) => sky.mean_sidereal_ms(big(g[0]))],
};
const LEAVES = {
  sine: (g) => sky.sine(big(g[0])),
  cosine: (g) => sky.cosine(big(g[0])),
  arctangent: (g) => sky.arctangent(big(g[0]), big(g[1])) ?? NO_DIRECTION_E8,
  root: (g) => sky.root(BigInt(`0x${g[0]}`)),
};

function batch(given, line) {
  const count = code(given[13]);
  const list = given.slice(14, 14 + count).map(code);
  const lengths = given.slice(14 + count).map(big);
  put(start, given.slice(0, 9).map(big));
  put(point, given.slice(10, 13).map(big));
  put(buffers, [...Array(CELLS).fill(-7n), ...Array(CELLS).fill(-8n)]);
  list.forEach((offset, i) => view().setUint32(offsets + 4 * i, offset, true));
  const at = (which) => (lengths[which] ? buffers + 8 * CELLS * which : 0);
  const refusal = raw.raddlehue_batch_ms(start, code(given[9]), point, count ? offsets : 0, BigInt(count), at(0), lengths[0], at(1), lengths[1], lend());
  const said = words(refusal, 2);
  const cells = Array.from({ length: 2 * CELLS }, (_, i) => view().getBigInt64(buffers + 8 * i, true));
  // raddlehue.mjs lends buffers that are long enough
  const ours = sky.batch_ms(...objects(given), list);
  if (refusal === 0 || refusal === 13) {
    const agrees = refusal === 0
      ? list.every((_, i) => ours.azimuths_e8[i] === cells[i] && ours.elevations_e8[i] === cells[CELLS + i]) && ours.azimuths_e8.length === count
      : hex(BigInt(ours.index)) === said[1];
    if (ours.refusal !== refusal || !agrees) fail(line, 'raddlehue.mjs has another batch');
  } else if (refusal !== 12 && ours.refusal !== refusal) fail(line, `raddlehue.mjs has refusal ${ours.refusal}`);
  return [...said, ...cells.map(hex)];
}

const CELL = { 8: 'getBigUint64', 4: 'getUint32', 1: 'getUint8' };

// The cells of long memory, of so many bytes each: how many are still poisoned, the digest of tests/vectors/days.txt, and what was written beside them.
function longWords(at, width, cells) {
  const said = [];
  let [poisoned, digest] = [0n, 0xcbf29ce484222325n];
  for (let i = 0; i < SIDE + cells + SIDE; i++) {
    const word = BigInt(view()[CELL[width]](at + width * i, true));
    const isPoisoned = word === BigInt.asUintN(8 * width, POISON);
    if (i >= SIDE && i < SIDE + cells) {
      poisoned += isPoisoned ? 1n : 0n;
      digest = BigInt.asUintN(64, (digest ^ word) * 0x100000001b3n);
    } else if (!isPoisoned) said.push('BESIDE', i.toString(16), hex(word));
  }
  return [...said, hex(poisoned), hex(digest)];
}

const memory = (at, length) => new Uint8Array(raw.memory.buffer, at, length);
const poison = (at, width, cells) => memory(at, width * (SIDE + cells + SIDE)).fill(0x5a);
const same = (a, b) => a.length === b.length && a.every((entry, i) => entry === b[i]);

function day(given, line) {
  const [date, body, place] = [given.slice(0, 5).map(big), code(given[5]), given.slice(6).map(big)];
  put(start, date);
  put(point, place);
  poison(curve, 8, MINUTES);
  const refusal = raw.raddlehue_day(start, body, point, curve + 8 * SIDE, lend());
  const said = [...words(refusal, 2), ...longWords(curve, 8, MINUTES)];
  // raddlehue.mjs names a minute only where there is one; as two words of 32 bits each, the flag below
  const ours = sky.day(named(DATE, date), body, named(POINT, place));
  if (ours.refusal !== refusal >>> 0) fail(line, `raddlehue.mjs has refusal ${ours.refusal}`);
  if (refusal === 0) {
    const minutes = [ours.rise_minute, ours.set_minute].map((minute) => (minute === undefined ? '0' : hex((BigInt(minute) << 32n) + 1n)));
    if (!same(ours.elevations_e8, new BigInt64Array(raw.memory.buffer, curve + 8 * SIDE, MINUTES)) || minutes.join(' ') !== said.slice(1, 3).join(' ')) fail(line, 'raddlehue.mjs has another day');
  } else if (Object.keys(ours).length > 1) fail(line, 'raddlehue.mjs has more than the refusal');
  return said;
}

// ---- strips: a line has the seed of the azimuths and one that is put among them, and for a strip the bytes of its header and how many there are in all

const STRIP = ['air_kind', 'body', 'year', 'month', 'day', 'longitude_e7', 'latitude_e7', 'step_minutes'];

function drawnAzimuth([seed, at, azimuth], i) {
  const any = Number(BigInt.asUintN(64, (BigInt(seed) + BigInt(i)) * 0x9e3779b97f4a7c15n) >> 32n);
  if (i === at) return azimuth;
  return any < 3600000000 ? any : NO_AZIMUTH_E7;
}

// The azimuths that begin in so many bytes.
const drawnAzimuths = (bytes, drawn) => Array.from({ length: Math.ceil(bytes / 4) }, (_, i) => drawnAzimuth(drawn, i));

function azimuthBytes(length, drawn) {
  const list = drawnAzimuths(length, drawn);
  return Uint8Array.from({ length }, (_, i) => list[i >> 2] >>> (24 - 8 * (i & 3)));
}

function stripBytes([header, ...numbers]) {
  const [length, ...drawn] = numbers.map(code);
  const bytes = [...Buffer.from(header, 'hex'), ...azimuthBytes(Math.max(0, length - STRIP_HEADER), drawn)];
  return Uint8Array.from(bytes.slice(0, length));
}

// Where the bytes lie, and how many: none have a null pointer.
function lay(at, bytes) {
  memory(at, bytes.length).set(bytes);
  return [bytes.length ? at : 0, BigInt(bytes.length)];
}

// What raddlehue.mjs answers: the same refusal and nothing else, or what `agrees` finds right. It lends room enough, so that it has no 28.
function agree(line, refusal, ours, agrees) {
  if (refusal === 28) return;
  if (ours.refusal !== refusal) fail(line, `raddlehue.mjs has refusal ${ours.refusal}`);
  if (refusal === 0 ? !agrees(ours) : Object.keys(ours).length > 1) fail(line, 'raddlehue.mjs has another answer');
}

// The strip of a day's azimuths, where there are any.
function stripOf(date, body, place, step, count) {
  poison(written, 1, STRIP_ROOM);
  put(start, [0n, BigInt(body), ...date.slice(0, 3), ...place.slice(0, 2), step]);
  const refusal = raw.raddlehue_strip_write(start, azimuths + 4 * SIDE, count, written + SIDE, BigInt(STRIP_ROOM), lend());
  return [...words(refusal, 1), ...longWords(written, 1, STRIP_ROOM)];
}

function dayAzimuths(given, line) {
  const [date, body, place] = [given.slice(0, 5).map(big), code(given[5]), given.slice(6, 9).map(big)];
  const [step, length] = given.slice(9).map(big);
  put(start, date);
  put(point, place);
  poison(azimuths, 4, MINUTES);
  const refusal = raw.raddlehue_day_azimuths(start, body, point, step, length ? azimuths + 4 * SIDE : 0, length, lend());
  const said = [...words(refusal, 1), ...longWords(azimuths, 4, MINUTES)];
  if (refusal === 0) {
    const list = new Uint32Array(raw.memory.buffer, azimuths + 4 * SIDE, Number(big(said[1])));
    agree(line, 0, sky.day_azimuths(named(DATE, date), body, named(POINT, place), step), (ours) => same(ours.azimuths_e7, list));
    said.push(list[0].toString(16), '->', ...stripOf(date, body, place, step, big(said[1])));
  } else if (refusal !== 28) agree(line, refusal, sky.day_azimuths(named(DATE, date), body, named(POINT, place), step));
  return said;
}

function stripWrite(given, line) {
  const header = given.slice(0, 8).map(big);
  const [count, seed, at, azimuth, length] = given.slice(8).map(code);
  const list = drawnAzimuths(4 * count, [seed, at, azimuth]);
  put(start, header);
  new Uint32Array(raw.memory.buffer, azimuths, count).set(list);
  poison(written, 1, STRIP_ROOM);
  const refusal = raw.raddlehue_strip_write(start, count ? azimuths : 0, BigInt(count), length ? written + SIDE : 0, BigInt(length), lend());
  const said = [...words(refusal, 1), ...longWords(written, 1, STRIP_ROOM)];
  const [air, body] = header.slice(0, 2).map(Number);
  const ours = () => sky.strip_write({ ...named(STRIP, header), air: { kind: air }, body }, list);
  // raddlehue.mjs throws at a code that has not 32 bits
  const isCode = (number) => number >= 0 && number <= 0xffffffff;
  if (isCode(air) && isCode(body)) agree(line, refusal, ours(), ({ bytes }) => same(bytes, memory(written + SIDE, Number(big(said[1])))));
  else if (refusal !== 101 && refusal !== 102) fail(line, 'a code is no code');
  return said;
}

function stripRead(given, line) {
  const bytes = stripBytes(given);
  const numbers = lend();
  const refusal = raw.raddlehue_strip_read(...lay(strips[0], bytes), numbers, numbers + 8 * STRIP.length);
  const said = words(refusal, STRIP.length + 2);
  const list = drawnAzimuths(bytes.length - STRIP_HEADER, given.slice(2).map(code));
  agree(line, refusal, sky.strip_read(bytes), ({ refusal: _, air, azimuths_e7, ...strip }) => {
    const { kind, pressure_mbar, temperature_celsius } = air;
    const ours = [...Object.values({ kind, ...strip }).map(BigInt), bits(pressure_mbar), bits(temperature_celsius)].map(hex);
    return same(Object.keys(strip), STRIP.slice(1)) && same(ours, said.slice(1)) && same(azimuths_e7, list);
  });
  return said;
}

function stripAzimuth(given, line) {
  const bytes = azimuthBytes(code(given[0]), given.slice(1, 4).map(code));
  const step = BigInt(`0x${given[4]}`);
  const refusal = raw.raddlehue_strip_azimuth(...lay(strips[0], bytes), step, lend());
  const azimuth = view().getUint32(lent + 8 * SIDE, true);
  agree(line, refusal, sky.strip_azimuth(bytes, step), (ours) => (azimuth === NO_AZIMUTH_E7 ? !('azimuth_e7' in ours) : ours.azimuth_e7 === azimuth));
  return words(refusal, 1);
}

function stripFind(given, line) {
  const pair = [stripBytes(given.slice(0, 5)), stripBytes(given.slice(5, 10))];
  const date = given.slice(10).map(big);
  const refusal = raw.raddlehue_strip_find(...lay(strips[0], pair[0]), ...lay(strips[1], pair[1]), ...date, lend());
  const said = words(refusal, 3);
  agree(line, refusal, sky.strip_find(...pair, ...date), (ours) => {
    const [strip, offset, length] = said.slice(1).map(code);
    return ours.strip === strip && same(ours.azimuths, pair[strip - 1].slice(offset, offset + length));
  });
  return said;
}

// ---- turning points: a line has the minutes and the azimuths, with their numbers before them

// A verdict, which raddlehue.mjs has to give too, with the minute where the refusal is 31 alone.
function verdict(line, [date, body, place], tolerance, minutes, directions) {
  put(start, date);
  put(point, place);
  const [times, azimuth] = [azimuths + 4 * SIDE, curve + 8 * SIDE];
  new Uint32Array(raw.memory.buffer, times, minutes.length).set(minutes);
  put(azimuth, directions);
  const handed = [minutes.length ? times : 0, BigInt(minutes.length), directions.length ? azimuth : 0, BigInt(directions.length)];
  const refusal = raw.raddlehue_judge(start, body, point, tolerance, ...handed, lend());
  const expected = refusal === 31 ? { refusal, out_minute: view().getUint32(lent + 8 * SIDE, true) } : { refusal };
  const ours = sky.judge(named(DATE, date), body, named(POINT, place), tolerance, minutes, directions);
  if (JSON.stringify(ours) !== JSON.stringify(expected)) fail(line, `raddlehue.mjs has the verdict ${JSON.stringify(ours)}`);
  return words(refusal, 1);
}

const asked = (given) => [given.slice(0, 5).map(big), code(given[5]), given.slice(6, 9).map(big)];

function judge(given, line) {
  const count = code(given[10]);
  const [minutes, directions] = [given.slice(11, 11 + count).map(code), given.slice(12 + count).map(big)];
  if (directions.length !== code(given[11 + count])) fail(line, 'another number of azimuths');
  return verdict(line, asked(given), BigInt(`0x${given[9]}`), minutes, directions);
}

// A plan; and where there is one the verdict on it, and on it without the point in its middle.
function plan(given, line) {
  const [date, body, place] = asked(given);
  const tolerance = BigInt(`0x${given[9]}`);
  put(start, date);
  put(point, place);
  poison(azimuths, 4, MINUTES);
  poison(curve, 8, MINUTES);
  const refusal = raw.raddlehue_plan(start, body, point, tolerance, azimuths + 4 * SIDE, curve + 8 * SIDE, lend());
  const said = [...words(refusal, 1), ...longWords(azimuths, 4, MINUTES), ...longWords(curve, 8, MINUTES)];
  const count = refusal === 0 ? code(said[1]) : 0;
  const minutes = [...new Uint32Array(raw.memory.buffer, azimuths + 4 * SIDE, count)];
  const directions = [...new BigInt64Array(raw.memory.buffer, curve + 8 * SIDE, count)];
  agree(line, refusal, sky.plan(named(DATE, date), body, named(POINT, place), tolerance), (ours) => same(ours.minutes, minutes) && same(ours.azimuths_e8, directions));
  const middle = Math.floor(count / 2);
  const inner = (_, i) => i !== middle;
  if (refusal === 0) said.push('->', ...verdict(line, asked(given), tolerance, minutes, directions));
  if (count > 2) said.push('->', ...verdict(line, asked(given), tolerance, minutes.filter(inner), directions.filter(inner)));
  return said;
}

const LISTS = {
  batch_ms: batch, day, day_azimuths: dayAzimuths, strip_write: stripWrite, strip_read: stripRead, strip_azimuth: stripAzimuth, strip_find: stripFind, judge, plan };

const lines = [];
for (const line of readFileSync(0, 'utf8').split('\n').slice(0, -1)) {
  const [left] = line.split(' -> ');
  const [name, ...given] = left.split(' ');
  let said;
  if (name in LEAVES) {
    const number = LEAVES[name](given);
    const plain = BigInt.asUintN(64, raw[`raddlehue_${name}`](...given.map(big)));
    if (plain !== BigInt.asUintN(64, number)) fail(line, `raddlehue.mjs has ${number}`);
    said = [hex(number)];
  } else if (name in LISTS) {
    said = LISTS[name](given, line);
  } else {
    const [count, arguments_, ours, azimuth] = CALLS[name];
    said = words(raw[`raddlehue_${name}`](...arguments_(given)), count);
    const object = azimuth ? shownPlace(ours(given), azimuth) : shown(ours(given));
    const expected = said[0] === '0' ? said : said.slice(0, 1);
    if (object.join(' ') !== expected.join(' ')) fail(line, `raddlehue.mjs has ${object.join(' ')}`);
  }
  lines.push(`${left} -> ${said.join(' ')}\n`);
}
process.stdout.write(lines.join(''));
