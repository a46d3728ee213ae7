// Unix time to the local date and time of a time zone, and back: JavaScript's values over the
// functions of raw.js, which run in a WebAssembly module.

import { codes as CODES, constants, functionsOf, layout } from './raw.js';

const { tz_alternate, tz_change, tz_date_time, tz_fields, tz_found, tz_local_time_type } = layout;
const { tz_parsed, tz_parts, tz_rule, tz_sizes, tz_zone } = layout;
const NAMES = new Map(Object.entries(CODES).map(([name, code]) => [code, name]));
const CHOICES = new Map(['compatible', 'earlier', 'later', 'reject']
  .map((word) => [word, constants[word.toUpperCase()]]));
const UNKNOWN_CHOICE = 255;
const TABLES = ['transitions', 'types', 'leap_seconds'];
const TWO_32 = 2 ** 32;
const GREATEST_BLOCK = 2 ** 31;
const FIRST_INSTANT = -(2n ** 63n);
const LAST_INSTANT = 2n ** 63n - 1n;
const GIGA = 1_000_000_000n;
// How many entries a search reads at once.
const SLOTS = 8;
const SCRATCH_SIZE = 320 + SLOTS * tz_found.size;

/** What a call refuses. `code` is a name of tz.h without `TZ_`, and `index` a place in a column. */
export class TzError extends RangeError {
  constructor(code, text, index) {
    super(text);
    this.name = 'TzError';
    this.code = code;
    if (index !== undefined) this.index = index;
  }
}

/** Loads a module: of a URL, a `Response`, bytes or a `WebAssembly.Module`, or promised. */
export async function load(source = new URL('./out/tz-zones.wasm', import.meta.url)) {
  let from = await source;
  if (typeof from === 'string' || from instanceof URL) {
    const base = globalThis.document?.baseURI ?? globalThis.location?.href ?? import.meta.url;
    const url = new URL(from, base);
    const isFile = url.protocol === 'file:' && globalThis.process?.versions?.node;
    from = isFile ? await (await import('node:fs/promises')).readFile(url) : await fetch(url);
  }
  if (typeof Response === 'function' && from instanceof Response) {
    if (!from.ok) throw new TypeError(`${from.url}: ${from.status} ${from.statusText}`);
    from = await from.arrayBuffer();
  }
  return start(from instanceof WebAssembly.Module ? from : await WebAssembly.compile(from));
}

/** The same of bytes or a `WebAssembly.Module`, without a promise. */
export function start(source) {
  const module = source instanceof WebAssembly.Module ? source : new WebAssembly.Module(source);
  return over(functionsOf(new WebAssembly.Instance(module)));
}

/** A number that fits no field of a byte stays out of range. */
function byte(value, name) {
  if ((value & 255) === value) return value;
  if (typeof value !== 'number') throw new TypeError(`${name} is no number`);
  return 255;
}

function nanosecondsOf({ millisecond = 0, microsecond = 0, nanosecond = 0 }) {
  const isPart = (value) => Number.isInteger(value) && value >= 0 && value < 1000;
  const isValid = [millisecond, microsecond, nanosecond].every(isPart);
  return isValid ? 1_000_000 * millisecond + 1000 * microsecond + nanosecond : TWO_32 - 1;
}

function over(raw) {
  const decoder = new TextDecoder();
  const encoder = new TextEncoder();
  let u8, i32, u32, i64;

  function view() {
    const { buffer } = raw.memory;
    u8 = new Uint8Array(buffer);
    i32 = new Int32Array(buffer);
    u32 = new Uint32Array(buffer);
    i64 = new BigInt64Array(buffer);
  }

  /** Views the memory anew if it has grown, by which older views became empty. */
  function look() {
    if (u8.length === 0) view();
  }

  function fail(code, index) {
    look();
    const isText = raw.tz_error_text(code, TEXT, 128, LENGTH) === CODES.OK;
    throw new TzError(NAMES.get(code) ?? `${code}`, isText ? textAt(TEXT) : `code ${code}`, index);
  }

  function check(code) {
    if (code !== CODES.OK) fail(code);
  }

  /** The text at a place, whose length a call wrote. */
  function textAt(place) {
    return decoder.decode(u8.subarray(place, place + u32[LENGTH >> 2]));
  }

  /** Takes memory, all zeros. */
  function take(size) {
    const place = size > GREATEST_BLOCK ? 0 : raw.tz_wasm_alloc(size) >>> 0;
    look();
    if (place === 0) fail(CODES.MEMORY);
    u8.fill(0, place, place + size);
    return place;
  }

  /** What `use` returns of memory that it has until then. */
  function lend(size, use) {
    const place = take(size);
    try {
      return use(place);
    } finally {
      raw.tz_wasm_free(place, size);
      look();
    }
  }

  function lendBytes(bytes, use) {
    return lend(bytes.length, (place) => {
      u8.set(bytes, place);
      return use(place, bytes.length);
    });
  }

  function lendText(text, use) {
    if (typeof text !== 'string') throw new TypeError('the text is no string');
    return lendBytes(encoder.encode(text), use);
  }

  // Memory for what one call reads and writes.
  const SCRATCH = raw.tz_wasm_alloc(SCRATCH_SIZE) >>> 0;
  view();
  if (SCRATCH === 0) throw new TzError('MEMORY', 'no memory');
  u8.fill(0, SCRATCH, SCRATCH + SCRATCH_SIZE);
  const [INSTANT, LENGTH, FIELDS, DATE_TIME, CHANGE, PARSED, TEXT, FOUND] =
    [0, 8, 16, 32, 80, 128, 160, 320].map((offset) => SCRATCH + offset);

  /** Writes an instant in seconds, and returns its nanoseconds, or -1 if it has none of 64 bits. */
  function putInstant(instant, place) {
    if (typeof instant === 'number') {
      if (!Number.isSafeInteger(instant)) return -1;
      // In two words, since to make a BigInt takes a quarter of a lookup.
      const seconds = Math.floor(instant / 1000);
      i32[place >> 2] = seconds;
      i32[(place >> 2) + 1] = Math.floor(seconds / TWO_32);
      return 1_000_000 * (instant - 1000 * seconds);
    }
    if (typeof instant === 'bigint') {
      i64[place >> 3] = instant;
      return i64[place >> 3] === instant ? 0 : -1;
    }
    if (instant instanceof Date) return putInstant(instant.getTime(), place);
    const nanoseconds = instant?.epochNanoseconds;
    if (typeof nanoseconds !== 'bigint') {
      throw new TypeError('an instant is a number, a bigint, a Date or a Temporal.Instant');
    }
    const rest = ((nanoseconds % GIGA) + GIGA) % GIGA;
    return putInstant((nanoseconds - rest) / GIGA, place) < 0 ? -1 : Number(rest);
  }

  /** The seconds of an instant; those in which a second has begun with `isUp`. */
  function secondsOf(instant, isUp) {
    look();
    const nanoseconds = putInstant(instant, INSTANT);
    if (nanoseconds < 0) fail(CODES.OUT_OF_RANGE);
    const seconds = i64[INSTANT >> 3];
    return isUp && nanoseconds > 0 && seconds < LAST_INSTANT ? seconds + 1n : seconds;
  }

  /** Writes fields, and returns whether the year has 32 bits. */
  function putFields(place, year, month, day, hour, minute, second, nanoseconds) {
    if (typeof year !== 'number') throw new TypeError('year is no number');
    i32[(place + tz_fields.year) >> 2] = year;
    u8[place + tz_fields.month] = byte(month, 'month');
    u8[place + tz_fields.month_day] = byte(day, 'day');
    u8[place + tz_fields.hour] = byte(hour, 'hour');
    u8[place + tz_fields.minute] = byte(minute, 'minute');
    u8[place + tz_fields.second] = byte(second, 'second');
    u32[(place + tz_fields.nanoseconds) >> 2] = nanoseconds;
    return (year | 0) === year;
  }

  /** Writes the fields of an object or of a text. */
  function putLocalTime(local) {
    look();
    if (typeof local === 'string') {
      check(lendText(local, (place, length) => raw.tz_date_time_read(place, length, PARSED)));
      if (u8[PARSED + tz_parsed.has_offset]) fail(CODES.EXPECTED_END);
      u8.copyWithin(FIELDS, PARSED + tz_parsed.local, PARSED + tz_parsed.local + tz_fields.size);
      return;
    }
    const { year, month, day, hour = 0, minute = 0, second = 0, calendarId = 'iso8601' } = local;
    if (calendarId !== 'iso8601') throw new TypeError(`the calendar is ${calendarId}`);
    const isYear = putFields(FIELDS, year, month, day, hour, minute, second, nanosecondsOf(local));
    if (!isYear) fail(CODES.OUT_OF_RANGE);
  }

  /** An offset in seconds, a daylight flag, and an abbreviation or null. */
  class LocalTimeType {
    constructor(place) {
      const length = u8[place + tz_local_time_type.designation_length];
      const from = place + tz_local_time_type.designation;
      const letters = u8.subarray(from, from + length);
      this.offsetSeconds = i32[place >> 2];
      this.isDst = u8[place + tz_local_time_type.is_dst] === 1;
      this.abbreviation = length === 0 ? null : String.fromCharCode(...letters);
      Object.freeze(this);
    }
  }

  // Lookups return few types, so each is kept with its words until another one takes its slot.
  const kept = new Array(64).fill(null);

  /** The words of the type at a place, and the type. */
  function typeAt(place) {
    const word = place >> 2;
    const first = i32[word];
    const second = i32[word + 1];
    const third = i32[word + 2];
    // What follows the length is padding.
    const length = u8[place + tz_local_time_type.designation_length];
    const slot = (first ^ (first >> 7) ^ second ^ (second >> 9) ^ third) & 63;
    const it = kept[slot];
    if (it?.first === first && it.second === second && it.third === third && it.length === length) {
      return it;
    }
    kept[slot] = { first, second, third, length, type: new LocalTimeType(place) };
    return kept[slot];
  }

  /** What a clock shows at an instant: the words of a `tz_date_time`. */
  class DateTime {
    #year;
    #minutes;
    #second;
    #nanoseconds;
    #type;
    #low;
    #high;
    constructor(place) {
      const word = place >> 2;
      this.#year = i32[word];
      this.#minutes = i32[word + 1];
      this.#second = u8[place + tz_fields.second];
      this.#nanoseconds = i32[word + 3];
      this.#type = typeAt(place + tz_date_time.local_time_type);
      this.#low = u32[word + 8];
      this.#high = i32[word + 9];
    }

    get year() { return this.#year; }
    get month() { return this.#minutes & 255; }
    get day() { return (this.#minutes >> 8) & 255; }
    get hour() { return (this.#minutes >> 16) & 255; }
    get minute() { return this.#minutes >> 24; }
    get second() { return this.#second; }
    get millisecond() { return Math.floor(this.#nanoseconds / 1_000_000); }
    get microsecond() { return Math.floor(this.#nanoseconds / 1000) % 1000; }
    get nanosecond() { return this.#nanoseconds % 1000; }
    get offsetSeconds() { return this.#type.first; }
    get isDst() { return this.#type.type.isDst; }
    get abbreviation() { return this.#type.type.abbreviation; }
    get epochSeconds() { return (BigInt(this.#high) << 32n) + BigInt(this.#low); }
    get epochNanoseconds() { return GIGA * this.epochSeconds + BigInt(this.#nanoseconds); }

    /** NaN if the number is no safe integer. */
    get epochMilliseconds() {
      const milliseconds = 1000 * (TWO_32 * this.#high + this.#low) + this.millisecond;
      return Number.isSafeInteger(milliseconds) ? milliseconds : NaN;
    }

    /** Writes the words back. */
    #put() {
      const { first, second, third, length } = this.#type;
      const fields = [this.#year, this.#minutes, this.#second, this.#nanoseconds];
      look();
      i32.set([...fields, first, second, third, length, this.#low, this.#high], DATE_TIME >> 2);
      return DATE_TIME;
    }

    /** From 1, Monday, to 7. */
    get dayOfWeek() { return raw.tz_date_time_week_day(this.#put()) || 7; }

    /** From 1. */
    get dayOfYear() { return raw.tz_date_time_year_day(this.#put()) + 1; }

    toString() {
      check(raw.tz_date_time_text(this.#put(), TEXT, 64, LENGTH));
      return textAt(TEXT);
    }

    toJSON() { return this.toString(); }

    /** What the console of node shows. */
    [Symbol.for('nodejs.util.inspect.custom')]() {
      return `DateTime(${this} ${this.abbreviation})`;
    }
  }

  /** An instant at which a clock begins to have another type. */
  class Change {
    constructor(place) {
      this.epochSeconds = i64[(place + tz_change.unix_time) >> 3];
      this.before = typeAt(place + tz_change.before).type;
      this.after = typeAt(place + tz_change.after).type;
      Object.freeze(this);
    }

    get epochMilliseconds() {
      const milliseconds = 1000 * Number(this.epochSeconds);
      return Number.isSafeInteger(milliseconds) ? milliseconds : NaN;
    }
  }

  /** Writes instants to memory, and returns the indexes of those without any of 64 bits. */
  function putInstants(instants, place, nanosecondsAt) {
    const refused = [];
    if (instants instanceof BigInt64Array) {
      i64.set(instants, place >> 3);
      return refused;
    }
    for (let index = 0; index < instants.length; index++) {
      const nanoseconds = putInstant(instants[index], place + 8 * index);
      if (nanoseconds < 0) refused.push(index);
      else if (nanosecondsAt !== undefined) u32[(nanosecondsAt >> 2) + index] = nanoseconds;
    }
    return refused;
  }

  /** Takes the codes of a column to the caller's, or fails by the first error. */
  function report(place, count, refused, codes) {
    for (const index of refused) u32[(place >> 2) + index] = CODES.OUT_OF_RANGE;
    const first = place >> 2;
    if (codes !== undefined) {
      codes.set(u32.subarray(first, first + count));
      return;
    }
    for (let index = 0; index < count; index++) {
      if (u32[first + index] !== CODES.OK) fail(u32[first + index], index);
    }
  }

  /** The columns of date times in a row. */
  function columnsAt(place, count) {
    const [year, offsetSeconds] = [new Int32Array(count), new Int32Array(count)];
    const bytes = () => new Uint8Array(count);
    const [month, day, hour, minute, second, isDst] = Array.from({ length: 6 }, bytes);
    for (let index = 0; index < count; index++, place += tz_date_time.size) {
      year[index] = i32[(place + tz_fields.year) >> 2];
      month[index] = u8[place + tz_fields.month];
      day[index] = u8[place + tz_fields.month_day];
      hour[index] = u8[place + tz_fields.hour];
      minute[index] = u8[place + tz_fields.minute];
      second[index] = u8[place + tz_fields.second];
      const type = place + tz_date_time.local_time_type;
      offsetSeconds[index] = i32[(type + tz_local_time_type.ut_offset) >> 2];
      isDst[index] = u8[type + tz_local_time_type.is_dst];
    }
    return { year, month, day, hour, minute, second, offsetSeconds, isDst };
  }

  /** The length of a column, which its codes have, too. */
  function lengthOf(column, codes) {
    const length = column?.length;
    if (!Number.isSafeInteger(length) || length < 0) throw new TypeError('a column is no array');
    if (codes === undefined) return length;
    if (!(codes instanceof Uint32Array)) throw new TypeError('codes is no Uint32Array');
    if (codes.length !== length) fail(CODES.BUFFER_LENGTH);
    return length;
  }

  const unused = new FinalizationRegistry(([place, size]) => raw.tz_wasm_free(place, size));

  /** A time zone, in memory of the module that `free` gives back, or else the garbage collector. */
  class Zone {
    #place;
    #size;
    #name;

    /** Of memory that begins with a `tz_zone`. */
    constructor(key, size, name) {
      if (key !== unused) throw new TypeError('zones are made by named, fromFile and fromString');
      this.#place = take(size);
      this.#size = size;
      this.#name = name;
      unused.register(this, [this.#place, size], this);
    }

    /** The zone, once `fill` has written it; if that fails its memory is given back. */
    static #made(size, name, fill) {
      const zone = new Zone(unused, size, name);
      try {
        fill(zone.#place);
        return zone;
      } catch (error) {
        zone.free();
        throw error;
      }
    }

    static named(name) {
      if (!raw.tz_built_in) throw new TypeError('the module has no zones: load tz-zones.wasm');
      return Zone.#made(tz_zone.size, name, (zone) => lendText(name, (place, length) => {
        if (!raw.tz_built_in(place, length, zone)) fail(CODES.INVALID_NAME);
      }));
    }

    static fromFile(file, name = null) {
      const view = ArrayBuffer.isView(file) ? file : new DataView(file);
      const bytes = new Uint8Array(view.buffer, view.byteOffset, view.byteLength);
      return lendBytes(bytes, (place, length) => {
        const counts = lend(tz_sizes.size, (sizes) => {
          check(raw.tz_file_sizes(place, length, sizes));
          return TABLES.map((field) => u32[(sizes + tz_sizes[field]) >> 2]);
        });
        // A zone, its rule and its tables, whose entries have 16 bytes each.
        const [transitions, types, leaps] = counts;
        const size = tz_zone.size + tz_rule.size + 16 * (transitions + types + leaps);
        return Zone.#made(size, name, (zone) => {
          const rule = zone + tz_zone.size;
          const first = rule + tz_rule.size;
          const tables = [first, first + 16 * transitions, first + 16 * (transitions + types)];
          const lists = tables.flatMap((table, index) => [table, counts[index]]);
          check(raw.tz_file_read(place, length, ...lists, rule, zone + tz_zone.offsets));
          look();
          TABLES.forEach((field, index) => putList(zone, field, tables[index], counts[index]));
          putRule(zone, rule);
        });
      });
    }

    static fromString(text, { isExtended = false } = {}) {
      return Zone.#made(tz_zone.size + tz_rule.size, text, (zone) => {
        const rule = zone + tz_zone.size;
        const mode = Boolean(isExtended);
        check(lendText(text, (place, length) => raw.tz_string_read(place, length, mode, rule)));
        // The types of the rule are those of the zone.
        if (putRule(zone, rule)) putList(zone, 'types', rule + tz_rule.fixed, 1);
        else putList(zone, 'types', rule + tz_rule.alternate + tz_alternate.types, 2);
        check(raw.tz_zone_check(zone, zone + tz_zone.offsets));
      });
    }

    /** Gives the memory of the zone back, after which it answers no more. */
    free() {
      if (this.#place === 0) return;
      unused.unregister(this);
      raw.tz_wasm_free(this.#place, this.#size);
      this.#place = 0;
    }

    get name() {
      return this.#name;
    }

    /** The place of the zone, to be asked once no code of the caller runs before the call. */
    get #live() {
      if (this.#place === 0) throw new TypeError('the zone was freed');
      return this.#place;
    }

    at(instant) {
      look();
      const nanoseconds = putInstant(instant, INSTANT);
      if (nanoseconds < 0) fail(CODES.OUT_OF_RANGE);
      // Read from memory the seconds reach the module without a BigInt.
      check(raw.tz_date_time_from_timespec(i64[INSTANT >> 3], nanoseconds, this.#live, DATE_TIME));
      return new DateTime(DATE_TIME);
    }

    find(local) {
      const entries = [];
      putLocalTime(local);
      const zone = this.#live;
      let count;
      do {
        check(raw.tz_find_n(FIELDS, zone, entries.length, FOUND, SLOTS, LENGTH));
        count = u32[LENGTH >> 2];
        for (let slot = 0; slot < SLOTS && entries.length < count; slot++) {
          const place = FOUND + slot * tz_found.size;
          const isSkipped = u8[place + tz_found.is_skipped] === 1;
          const after = new DateTime(place + tz_found.after);
          const before = isSkipped ? new DateTime(place + tz_found.before) : after;
          entries.push(isSkipped ? { isSkipped, before, after } : { isSkipped, dateTime: after });
        }
      } while (entries.length < count);
      return entries;
    }

    findOne(local, { disambiguation = 'compatible' } = {}) {
      putLocalTime(local);
      const choice = CHOICES.get(disambiguation) ?? UNKNOWN_CHOICE;
      check(raw.tz_find_one(FIELDS, choice, this.#live, DATE_TIME));
      return new DateTime(DATE_TIME);
    }

    following(instant) {
      const seconds = secondsOf(instant, false);
      return this.#change(raw.tz_zone_following(this.#live, seconds, CHANGE));
    }

    preceding(instant) {
      const seconds = secondsOf(instant, true);
      return this.#change(raw.tz_zone_preceding(this.#live, seconds, CHANGE));
    }

    #change(code) {
      if (code === CODES.NO_CHANGE) return null;
      check(code);
      return new Change(CHANGE);
    }

    *changes(from = FIRST_INSTANT, until = undefined) {
      const last = until === undefined ? undefined : secondsOf(until, true);
      let change = this.following(from);
      while (change !== null && (last === undefined || change.epochSeconds < last)) {
        yield change;
        change = this.following(change.epochSeconds);
      }
    }

    offsets(instants, { codes } = {}) {
      const count = lengthOf(instants, codes);
      return lend((8 + 4 + 4) * count, (times) => {
        const offsets = times + 8 * count;
        const written = offsets + 4 * count;
        const refused = putInstants(instants, times);
        check(raw.tz_column_offsets(times, count, this.#live, offsets, count, written, count));
        for (const index of refused) i32[(offsets >> 2) + index] = 0;
        report(written, count, refused, codes);
        return i32.slice(offsets >> 2, (offsets >> 2) + count);
      });
    }

    dateTimes(instants, { codes } = {}) {
      const count = lengthOf(instants, codes);
      const { size } = tz_date_time;
      return lend((8 + size + 4 + 4) * count, (times) => {
        const found = times + 8 * count;
        const nanoseconds = found + size * count;
        const written = nanoseconds + 4 * count;
        const refused = putInstants(instants, times, nanoseconds);
        check(raw.tz_column_date_times(
          times, count, nanoseconds, count, this.#live, found, count, written, count,
        ));
        for (const index of refused) u8.fill(0, found + size * index, found + size * (index + 1));
        report(written, count, refused, codes);
        return columnsAt(found, count);
      });
    }

    instants(columns, { disambiguation = 'compatible', codes } = {}) {
      const { year, month, day, hour, minute, second } = columns;
      const choice = CHOICES.get(disambiguation) ?? UNKNOWN_CHOICE;
      const count = lengthOf(year, codes);
      const { size } = tz_fields;
      for (const column of [month, day, hour, minute, second]) {
        if (column !== undefined && column.length !== count) fail(CODES.BUFFER_LENGTH);
      }
      return lend((size + 8 + 4) * count, (fields) => {
        const times = fields + size * count;
        const written = times + 8 * count;
        const refused = [];
        for (let index = 0; index < count; index++) {
          const time = [hour?.[index] ?? 0, minute?.[index] ?? 0, second?.[index] ?? 0, 0];
          const place = fields + size * index;
          const isYear = putFields(place, year[index], month[index], day[index], ...time);
          if (!isYear) refused.push(index);
        }
        const zone = this.#live;
        check(raw.tz_column_instants(fields, count, choice, zone, times, count, written, count));
        for (const index of refused) i64[(times >> 3) + index] = 0n;
        report(written, count, refused, codes);
        return i64.slice(times >> 3, (times >> 3) + count);
      });
    }
  }
  if (Symbol.dispose) Zone.prototype[Symbol.dispose] = Zone.prototype.free;

  /** Writes a list of a zone's parts; one without entries has no place. */
  function putList(zone, field, place, length) {
    const parts = zone + tz_zone.parts;
    u32[(parts + tz_parts[field]) >> 2] = length === 0 ? 0 : place;
    u32[(parts + tz_parts[`${field}_length`]) >> 2] = length;
  }

  /** Writes a rule as that of a zone, if there is one, and returns whether it is fixed. */
  function putRule(zone, rule) {
    const kind = u32[(rule + tz_rule.kind) >> 2];
    putList(zone, 'fixed', rule + tz_rule.fixed, Number(kind === constants.FIXED));
    putList(zone, 'alternate', rule + tz_rule.alternate, Number(kind === constants.ALTERNATE));
    return kind === constants.FIXED;
  }

  /** The names of the built-in zones, in the order of bytes; none if the module has no zones. */
  function names() {
    const all = [];
    look();
    if (!raw.tz_built_in_name) return all;
    while (raw.tz_built_in_name(all.length, TEXT, 32, LENGTH) === CODES.OK) all.push(textAt(TEXT));
    return all;
  }

  /** The version of the tz database of these zones, as 2025b, or null. */
  function databaseVersion() {
    look();
    return raw.tz_built_in_version?.(TEXT, 8, LENGTH) === CODES.OK ? textAt(TEXT) : null;
  }

  return { Zone, names, databaseVersion, raw };
}
