// Values by hand, from the tz database and from the public standards.

import assert from 'node:assert/strict';
import { readFileSync } from 'node:fs';
import test from 'node:test';
import { inspect } from 'node:util';
import { Zone, databaseVersion, names } from '../index.js';
import { zoneFile } from './shared.js';

const paris = Zone.named('Europe/Paris');
const SPRING = Date.UTC(2000, 2, 26, 1);
const AUTUMN = Date.UTC(2000, 9, 29, 1);
const texts = (entries) => entries.map((it) => (it.isSkipped ? `${it.before} | ${it.after}` : `${it.dateTime}`));

test('a lookup gives fields, offset and abbreviation', () => {
  const shown = paris.at(SPRING - 1);
  const fields = {
    year: 2000, month: 3, day: 26, hour: 1, minute: 59, second: 59, millisecond: 999, microsecond: 0, nanosecond: 0,
    offsetSeconds: 3600, isDst: false, abbreviation: 'CET',
  };
  assert.deepEqual(Object.fromEntries(Object.keys(fields).map((name) => [name, shown[name]])), fields);
  assert.equal(inspect(shown), 'DateTime(2000-03-26T01:59:59.999000000+01:00 CET)');
  assert.equal(`${paris.at(SPRING)}`, '2000-03-26T03:00:00.000000000+02:00');
  assert.equal(paris.at(SPRING).abbreviation, 'CEST');
  assert.equal(JSON.stringify([paris.at(-1)]), '["1970-01-01T00:59:59.999000000+01:00"]');
});

test('an instant is milliseconds, seconds, a Date or nanoseconds', () => {
  const all = [SPRING, BigInt(SPRING / 1000), new Date(SPRING), { epochNanoseconds: BigInt(SPRING) * 1_000_000n }];
  for (const instant of all) assert.equal(`${paris.at(instant)}`, '2000-03-26T03:00:00.000000000+02:00');
  const before = paris.at({ epochNanoseconds: -1n });
  assert.equal(`${before}`, '1970-01-01T00:59:59.999999999+01:00');
  assert.deepEqual([before.millisecond, before.microsecond, before.nanosecond], [999, 999, 999]);
  assert.equal(before.epochNanoseconds, -1n);
  assert.equal(before.epochSeconds, -1n);
  assert.equal(before.epochMilliseconds, -1);
  assert.equal(paris.at(2n ** 55n).epochSeconds, 2n ** 55n);
  assert.ok(Number.isNaN(paris.at(2n ** 55n).epochMilliseconds));
  assert.equal(paris.at(Number.MAX_SAFE_INTEGER).epochMilliseconds, Number.MAX_SAFE_INTEGER);
  assert.equal(paris.at(Number.MIN_SAFE_INTEGER).epochMilliseconds, Number.MIN_SAFE_INTEGER);
});

test('days of the week and of the year are those of Temporal', () => {
  // 2000-02-27 was a Sunday.
  assert.equal(paris.at(Date.UTC(2000, 1, 27, 12)).dayOfWeek, 7);
  assert.equal(paris.at(Date.UTC(2000, 1, 28, 12)).dayOfWeek, 1);
  assert.equal(paris.at(Date.UTC(2000, 11, 31, 12)).dayOfYear, 366);
  assert.equal(paris.at(Date.UTC(2001, 0, 1, 12)).dayOfYear, 1);
});

test('a search finds both instants, jumps, and nothing else', () => {
  const both = ['2000-10-29T02:30:00.000000000+02:00', '2000-10-29T02:30:00.000000000+01:00'];
  assert.deepEqual(texts(paris.find({ year: 2000, month: 10, day: 29, hour: 2, minute: 30 })), both);
  assert.deepEqual(texts(paris.find('2000-10-29T02:30:00')), both);
  assert.deepEqual(texts(paris.find('2000-03-26 02:30:00.5')), [
    '2000-03-26T02:00:00.500000000+01:00 | 2000-03-26T03:00:00.500000000+02:00',
  ]);
  assert.deepEqual(texts(paris.find(paris.at(0))), ['1970-01-01T01:00:00.000000000+01:00']);
  // Second 60 is the next minute's second 0, and stays.
  assert.deepEqual(texts(paris.find('1998-12-31T23:59:60')), ['1998-12-31T23:59:60.000000000+01:00']);
});

test('a search takes more entries than it reads at once', () => {
  // Clocks are set back by an hour after each hour. The file says of no time after the last change.
  const hours = Array.from({ length: 11 }, (_, index) => index);
  const file = zoneFile(hours.slice(1).map((hour) => [3600 * hour, hour]), hours.map((hour) => -3600 * hour));
  const entries = Zone.fromFile(file).find({ year: 1970, month: 1, day: 1, hour: 0, minute: 30 });
  assert.equal(entries.length, 10);
  entries.forEach((entry, index) => assert.equal(entry.dateTime.epochSeconds, BigInt(1800 + 3600 * index)));
});

test('a choice gives one date time', () => {
  const one = (local, disambiguation) => `${paris.findOne(local, { disambiguation })}`.slice(11, 16);
  assert.deepEqual(['compatible', 'earlier', 'later'].map((it) => one('2000-10-29T02:30:00', it)), ['02:30', '02:30', '02:30']);
  assert.equal(paris.findOne('2000-10-29T02:30:00').offsetSeconds, 7200);
  assert.equal(paris.findOne('2000-10-29T02:30:00', { disambiguation: 'later' }).offsetSeconds, 3600);
  assert.deepEqual(['compatible', 'earlier', 'later'].map((it) => one('2000-03-26T02:30:00', it)), ['03:30', '01:30', '03:30']);
  assert.equal(one('2000-01-01T00:00:00', 'reject'), '00:00');
});

test('changes are those around an instant, also within a second', () => {
  const change = paris.following(SPRING - 1);
  assert.equal(change.epochMilliseconds, SPRING);
  assert.deepEqual({ ...change.before }, { offsetSeconds: 3600, isDst: false, abbreviation: 'CET' });
  assert.deepEqual({ ...change.after }, { offsetSeconds: 7200, isDst: true, abbreviation: 'CEST' });
  assert.equal(paris.following(SPRING).epochMilliseconds, AUTUMN);
  assert.equal(paris.preceding(SPRING + 1).epochMilliseconds, SPRING);
  assert.notEqual(paris.preceding(SPRING).epochMilliseconds, SPRING);
  const all = [...paris.changes(SPRING - 1, AUTUMN + 1)].map((it) => it.epochMilliseconds);
  assert.deepEqual(all, [SPRING, AUTUMN]);
  assert.deepEqual([...paris.changes(SPRING, AUTUMN)], []);
  // In the last second of 64 bits there is no next one.
  const last = 2n ** 63n - 1n;
  assert.notEqual(paris.preceding(last), null);
  assert.deepEqual(paris.preceding({ epochNanoseconds: last * 1_000_000_000n + 1n }), paris.preceding(last));
  const utc = Zone.fromString('UTC0');
  assert.deepEqual([utc.following(0), utc.preceding(0n), [...utc.changes()]], [null, null, []]);
  // Local mean time of Paris ended on 1911-03-10 at 23:50:39 of UTC.
  const [mean, west] = paris.changes();
  assert.equal(`${paris.at(mean.epochSeconds)}`, '1891-03-16T00:00:00.000000000+00:09:21');
  assert.equal(new Date(west.epochMilliseconds).toISOString(), '1911-03-10T23:50:39.000Z');
});

test('columns give what single calls give', () => {
  const instants = Array.from({ length: 1000 }, (_, index) => SPRING + 1000 * (index - 500) * 3_456_789 + index);
  const seconds = BigInt64Array.from(instants, (it) => BigInt(Math.floor(it / 1000)));
  const expected = instants.map((it) => paris.at(it));
  for (const column of [seconds, Float64Array.from(instants), instants, instants.map((it) => new Date(it))]) {
    assert.deepEqual([...paris.offsets(column)], expected.map((it) => it.offsetSeconds));
    const fields = paris.dateTimes(column);
    for (const [name, values] of Object.entries(fields)) {
      assert.deepEqual([...values], expected.map((it) => Number(it[name])), name);
    }
    // The one hour of these that clocks show twice is its first.
    const back = paris.instants(fields, { disambiguation: 'later' });
    back.forEach((it, index) => assert.equal(it, paris.findOne(expected[index], { disambiguation: 'later' }).epochSeconds));
  }
  assert.deepEqual(paris.instants({ year: [2000], month: [10], day: [29], hour: [2] }), BigInt64Array.of(972777600n));
  assert.equal(paris.offsets([]).length, 0);
  assert.equal(paris.dateTimes(new BigInt64Array(0)).year.length, 0);
});

test('codes say which values of a column have none', () => {
  const codes = new Uint32Array(3);
  assert.deepEqual(paris.offsets([0, NaN, SPRING], { codes }), Int32Array.of(3600, 0, 7200));
  assert.deepEqual(codes, Uint32Array.of(0, 1, 0));
  const fields = { year: [2000, 2000, 2 ** 40], month: [13, 3, 1], day: [1, 26, 1], hour: [0, 2, 0] };
  assert.deepEqual(paris.instants(fields, { disambiguation: 'reject', codes }), BigInt64Array.of(0n, 0n, 0n));
  assert.deepEqual(codes, Uint32Array.of(16, 5, 1));
  const { day } = paris.dateTimes([0, 2n ** 62n, Infinity], { codes });
  assert.deepEqual([day, codes], [Uint8Array.of(1, 0, 0), Uint32Array.of(0, 1, 1)]);
});

test('a zone is made of a name, of a file or of a string', () => {
  const file = readFileSync('/usr/share/zoneinfo/Asia/Kolkata');
  for (const bytes of [file, new Uint8Array(file), new Uint8Array(file).buffer, new DataView(file.buffer, file.byteOffset, file.length)]) {
    assert.equal(Zone.fromFile(bytes).at(0).offsetSeconds, 19800);
  }
  assert.equal(Zone.fromFile(file, 'Asia/Kolkata').name, 'Asia/Kolkata');
  assert.equal(Zone.fromFile(file).name, null);
  const rule = Zone.fromString('CET-1CEST,M3.5.0,M10.5.0/3');
  assert.equal(rule.name, 'CET-1CEST,M3.5.0,M10.5.0/3');
  assert.equal(`${rule.at(SPRING)}`, `${paris.at(SPRING)}`);
  assert.equal(Zone.fromString('<-0330>3:30').at(0).abbreviation, '-0330');
  assert.equal(Zone.fromString('<-02>2<-01>,M3.5.0/-1,M10.5.0/0', { isExtended: true }).at(SPRING).offsetSeconds, -3600);
});

test('types that begin alike stay apart', () => {
  const names = ['ABC', 'ABCD', 'ABCDE', 'ABCDF', 'ABCDEF', 'ABCDEFG', 'ABCDEFH'];
  for (let round = 0; round < 2; round++) {
    for (const name of names) {
      for (const hours of [0, 1, -1]) {
        const { abbreviation, offsetSeconds, isDst } = Zone.fromString(`${name}${-hours}`).at(0);
        assert.deepEqual([abbreviation, offsetSeconds, isDst], [name, 3600 * hours, false]);
      }
    }
  }
});

test('names are all those of the database', () => {
  const all = names();
  assert.match(databaseVersion(), /^20\d\d[a-z]$/);
  assert.ok(all.length > 500 && all.includes('Europe/Paris') && all.includes('UTC'));
  assert.deepEqual(all, [...all].sort());
  for (const name of all) assert.equal(Zone.named(name).name, name);
});
