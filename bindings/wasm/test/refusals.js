// Bad input: each is an error with the name and the text of a code, and changes nothing.

import assert from 'node:assert/strict';
import { readFileSync } from 'node:fs';
import test from 'node:test';
import { setFlagsFromString } from 'node:v8';
import { runInNewContext } from 'node:vm';
import { Zone, TzError, raw, start } from '../index.js';
import { zoneFile } from './shared.js';

const paris = Zone.named('Europe/Paris');
const PARIS_FILE = readFileSync('/usr/share/zoneinfo/Europe/Paris');
const NOON = { year: 2000, month: 1, day: 1, hour: 12 };

/** That a call fails with a code and its text. */
function refuses(call, code, message, index) {
  assert.throws(call, (error) => {
    assert.ok(error instanceof TzError && error instanceof RangeError, `${error}`);
    const { name, code: found, message: text, index: place } = error;
    assert.deepEqual([name, found, text, place], ['TzError', code, message, index]);
    return true;
  });
}

test('a name that is none', () => {
  for (const name of ['', 'Europe/paris', 'Mars/Olympus', '../Europe/Paris', 'Europe/Paris\0', 'UTC+3', '\ud800', 'x'.repeat(100_000)]) {
    refuses(() => Zone.named(name), 'INVALID_NAME', 'not a time zone name');
  }
  for (const name of [undefined, null, 5, {}]) assert.throws(() => Zone.named(name), TypeError);
});

test('a file that is refused', () => {
  refuses(() => Zone.fromFile(new Uint8Array(0)), 'FILE_UNEXPECTED_EOF', 'invalid TZ file: unexpected end of data');
  refuses(() => Zone.fromFile(PARIS_FILE.subarray(1)), 'FILE_INVALID_MAGIC_NUMBER', 'invalid TZ file: invalid magic number');
  for (let length = 0; length < PARIS_FILE.length; length += 7) {
    assert.throws(() => Zone.fromFile(PARIS_FILE.subarray(0, length)), TzError);
  }
  refuses(() => Zone.fromFile(zoneFile([[5, 1], [5, 0]], [0, 1])), 'INVALID_TRANSITION', 'invalid time zone: invalid transition');
  refuses(() => Zone.fromFile(zoneFile([[5, 2]], [0, 1])), 'INVALID_LOCAL_TIME_TYPE_INDEX', 'invalid time zone: invalid local time type index');
  for (const file of [undefined, 'TZif', [84, 90], PARIS_FILE.length]) assert.throws(() => Zone.fromFile(file), TypeError);
});

test('a string that is refused', () => {
  refuses(() => Zone.fromString('CET-1CEST'), 'STRING_MISSING_DST_START_END_RULES', 'invalid TZ string: missing DST start and end rules');
  assert.throws(() => Zone.fromString(''), TzError);
  assert.throws(() => Zone.fromString('CET-1CEST,M3.5.0,M10.5.0/25'), TzError);
  assert.throws(() => Zone.fromString('CET-1\u00e9'), TzError);
  assert.throws(() => Zone.fromString(5), TypeError);
});

test('an instant that is no safe integer, or has more than 64 bits', () => {
  const wide = [NaN, Infinity, -Infinity, 0.5, 2 ** 53, -(2 ** 53), 1e300, 2n ** 63n, -(2n ** 63n) - 1n, 2n ** 64n, new Date(NaN)];
  for (const instant of [...wide, { epochNanoseconds: 2n ** 63n * 1_000_000_000n }]) {
    for (const call of ['at', 'following', 'preceding']) refuses(() => paris[call](instant), 'OUT_OF_RANGE', 'out of range operation');
    refuses(() => paris.offsets([0, instant]), 'OUT_OF_RANGE', 'out of range operation', 1);
    refuses(() => paris.changes(instant).next(), 'OUT_OF_RANGE', 'out of range operation');
  }
  // These have 64 bits, and no year of 32.
  for (const instant of [2n ** 63n - 1n, -(2n ** 63n)]) refuses(() => paris.at(instant), 'OUT_OF_RANGE', 'out of range operation');
  for (const instant of [undefined, null, '0', {}, [], true]) assert.throws(() => paris.at(instant), TypeError);
  refuses(() => Zone.fromFile(zoneFile([[5, 0]], [0])).at(6000), 'NO_AVAILABLE_LOCAL_TIME_TYPE', 'no local time type is available for the specified timestamp');
});

test('fields out of range, also those that fit no byte', () => {
  const invalid = { month: 'month', day: 'month day', hour: 'hour', minute: 'minute', second: 'second' };
  for (const [field, words] of Object.entries(invalid)) {
    const code = `INVALID_${words.toUpperCase().replace(' ', '_')}`;
    for (const value of [61, 255, 256, 257, 2 ** 32 + 1, 2 ** 53, -1, -255, 1.5, NaN, Infinity]) {
      for (const call of ['find', 'findOne']) {
        refuses(() => paris[call]({ ...NOON, [field]: value }), code, `invalid date time: invalid ${words}`);
      }
    }
    for (const value of ['1', null, 1n]) assert.throws(() => paris.find({ ...NOON, [field]: value }), TypeError);
  }
  for (const field of ['millisecond', 'microsecond', 'nanosecond']) {
    for (const value of [1000, -1, 0.5, NaN, 2 ** 32]) {
      refuses(() => paris.find({ ...NOON, [field]: value }), 'INVALID_NANOSECONDS', 'invalid date time: invalid nanoseconds');
    }
  }
  for (const year of [2 ** 31, -(2 ** 31) - 1, 2 ** 32 + 2000, 0.5, NaN]) refuses(() => paris.find({ ...NOON, year }), 'OUT_OF_RANGE', 'out of range operation');
  refuses(() => paris.find({ year: 2001, month: 2, day: 29 }), 'INVALID_MONTH_DAY', 'invalid date time: invalid month day');
  assert.throws(() => paris.find({ year: 2000, month: 1 }), TypeError);
  assert.throws(() => paris.find(), TypeError);
  assert.throws(() => paris.find({ ...NOON, calendarId: 'hebrew' }), TypeError);
});

test('a text that is no local time', () => {
  refuses(() => paris.find('2000-01-01'), 'EXPECTED_SEPARATOR', 'expected `T` or a space');
  refuses(() => paris.find('2000-01-01T12:00:00Z'), 'EXPECTED_END', 'expected the end');
  refuses(() => paris.find('2000-01-01T12:00:00+01:00'), 'EXPECTED_END', 'expected the end');
});

test('a choice that is none, or that chooses none', () => {
  refuses(() => paris.findOne(NOON, { disambiguation: 'first' }), 'UNKNOWN_CHOICE', 'unknown choice');
  refuses(() => paris.findOne(NOON, { disambiguation: 'constructor' }), 'UNKNOWN_CHOICE', 'unknown choice');
  refuses(() => paris.instants({ year: [2000], month: [1], day: [1] }, { disambiguation: 5 }), 'UNKNOWN_CHOICE', 'unknown choice');
  for (const local of ['2000-03-26T02:30:00', '2000-10-29T02:30:00']) {
    refuses(() => paris.findOne(local, { disambiguation: 'reject' }), 'NO_DATE_TIME', 'the local time means no date time');
  }
});

test('columns of other lengths or types', () => {
  refuses(() => paris.offsets([0, 1], { codes: new Uint32Array(1) }), 'BUFFER_LENGTH', 'a buffer has the wrong length');
  refuses(() => paris.instants({ year: [2000], month: [1, 2], day: [1] }), 'BUFFER_LENGTH', 'a buffer has the wrong length');
  assert.throws(() => paris.offsets([0], { codes: new Uint8Array(1) }), TypeError);
  for (const column of [['0'], {}, { length: 0.5 }, { length: -1 }, 5, null]) assert.throws(() => paris.offsets(column), TypeError);
  assert.throws(() => paris.instants({ year: [2000], month: ['1'], day: [1] }), TypeError);
  refuses(() => paris.dateTimes([0, 0, NaN]), 'OUT_OF_RANGE', 'out of range operation', 2);
});

test('a zone that was freed answers no more, not even as another one', () => {
  const zone = Zone.named('Europe/Paris');
  const changes = zone.changes(0);
  changes.next();
  zone.free();
  zone.free();
  // Takes the memory of the zone.
  const other = Zone.named('Asia/Tokyo');
  const calls = {
    at: [0], find: [NOON], findOne: [NOON], following: [0], preceding: [0], offsets: [[0]], dateTimes: [[0]],
    instants: [{ year: [2000], month: [1], day: [1] }],
  };
  for (const [call, given] of Object.entries(calls)) {
    assert.throws(() => zone[call](...given), { name: 'TypeError', message: 'the zone was freed' }, call);
  }
  assert.throws(() => zone.changes(0).next(), TypeError);
  assert.throws(() => changes.next(), TypeError);
  assert.equal(other.at(0).offsetSeconds, 32400);
  assert.throws(() => new Zone(), TypeError);
  assert.throws(() => Zone.prototype.at.call({}, 0), TypeError);
});

test('a zone that is freed while a call reads its arguments', () => {
  const frees = (call) => {
    const zone = Zone.named('Europe/Paris');
    const value = (it) => {
      zone.free();
      Zone.named('Asia/Tokyo');
      return it;
    };
    assert.throws(() => call(zone, value), { name: 'TypeError', message: 'the zone was freed' });
  };
  frees((zone, value) => zone.at({ get epochNanoseconds() { return value(0n); } }));
  frees((zone, value) => zone.following({ get epochNanoseconds() { return value(0n); } }));
  frees((zone, value) => zone.find({ ...NOON, get year() { return value(2000); } }));
  frees((zone, value) => zone.findOne(NOON, { get disambiguation() { return value('later'); } }));
  frees((zone, value) => zone.offsets({ length: 1, get 0() { return value(0); } }));
  frees((zone, value) => zone.dateTimes({ length: 1, get 0() { return value(0); } }));
  frees((zone, value) => zone.instants({ year: [2000], month: [1], day: { length: 1, get 0() { return value(1); } } }));
});

test('a zone that is garbage gives its memory back', async () => {
  setFlagsFromString('--expose-gc');
  const collect = runInNewContext('gc');
  const size = raw.memory.buffer.byteLength;
  for (let round = 0; round < 40; round++) {
    for (let index = 0; index < 500; index++) Zone.fromFile(PARIS_FILE);
    collect();
    await new Promise((resolve) => setTimeout(resolve, 1));
  }
  // All at once would take 40 times 500 times 4096 bytes.
  assert.ok(raw.memory.buffer.byteLength - size < 20 * 500 * 4096);
});

test('zones that are freed, and calls that fail, take no more memory', () => {
  const work = () => {
    Zone.fromFile(PARIS_FILE).free();
    assert.throws(() => Zone.fromFile(PARIS_FILE.subarray(0, 1000)), TzError);
    assert.throws(() => Zone.named('x'), TzError);
    assert.throws(() => Zone.fromString('x'), TzError);
    assert.throws(() => paris.offsets([NaN]), TzError);
    assert.throws(() => paris.dateTimes(['0']), TypeError);
  };
  work();
  const size = raw.memory.buffer.byteLength;
  for (let round = 0; round < 2000; round++) work();
  assert.equal(raw.memory.buffer.byteLength, size);
});

test('memory that cannot grow', () => {
  const tz = start(readFileSync(new URL('../out/tz-zones.wasm', import.meta.url)));
  const { memory } = tz.raw;
  const kept = tz.Zone.fromFile(PARIS_FILE);
  // All of the 2^32 bytes, so that nothing is left for the module.
  while (memory.buffer.byteLength < 2 ** 32) memory.grow(Math.min(8192, 65536 - memory.buffer.byteLength / 65536));
  assert.throws(() => memory.grow(1), RangeError);
  assert.equal(`${kept.at(0)}`, `${paris.at(0)}`);
  const large = zoneFile(Array.from({ length: 50_000 }, (_, index) => [index, index % 2]), [0, 1]);
  refuses(() => tz.Zone.fromFile(large), 'MEMORY', 'no memory');
  refuses(() => kept.offsets(new BigInt64Array(100_000)), 'MEMORY', 'no memory');
  refuses(() => kept.dateTimes({ length: 2 ** 31 }), 'MEMORY', 'no memory');
  const zones = [];
  refuses(() => {
    for (;;) zones.push(tz.Zone.fromFile(PARIS_FILE));
  }, 'MEMORY', 'no memory');
  assert.ok(zones.length < 1000);
  for (const zone of [kept, ...zones]) assert.equal(`${zone.at(0)}`, `${paris.at(0)}`);
  // What is given back can be taken again.
  zones.pop().free();
  assert.equal(`${tz.Zone.fromFile(PARIS_FILE).at(0)}`, `${paris.at(0)}`);
});
