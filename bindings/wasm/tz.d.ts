import type { CodeName, Functions } from './raw.js';

export type { CodeName, Functions };

/**
 * An instant: milliseconds since 1970-01-01T00:00:00Z as a number, which is a safe integer; seconds
 * as a bigint of 64 bits; a `Date`; or a `Temporal.Instant` or other object with its nanoseconds.
 */
export type Instant = number | bigint | Date | { readonly epochNanoseconds: bigint };

/** Instants in a column: a BigInt64Array is of seconds, and numbers are of milliseconds. */
export type Instants = BigInt64Array | Float64Array | ArrayLike<Instant>;

/**
 * A local time: its fields, as of a `Temporal.PlainDateTime` (second 60 is one, too), or a text as
 * `2000-10-29T02:30:00.5`.
 */
export type LocalTime = string | Fields;

export interface Fields {
  /** Of 32 bits. */
  readonly year: number;
  /** From 1 to 12. */
  readonly month: number;
  /** From 1. */
  readonly day: number;
  /** The hour and what follows are 0 by default. */
  readonly hour?: number;
  readonly minute?: number;
  readonly second?: number;
  readonly millisecond?: number;
  readonly microsecond?: number;
  readonly nanosecond?: number;
  readonly calendarId?: string;
}

/**
 * Which date time a local time means.
 *
 * Where clocks are set back, and show it twice: the first by `compatible` and `earlier`, the last
 * by `later`. Where they are set forward over it: as much later as they are set forward by
 * `compatible` and `later`, as much earlier by `earlier`. By `reject` none in both.
 */
export type Disambiguation = 'compatible' | 'earlier' | 'later' | 'reject';

/** What a call refuses. */
export declare class TzError extends RangeError {
  constructor(code: CodeName, text: string, index?: number);
  readonly name: 'TzError';
  /** The code of tz.h without `TZ_`. */
  readonly code: CodeName;
  /** In a column, the place of the first value that is refused. */
  readonly index?: number;
}

export interface LocalTimeType {
  /** What is added to UTC. */
  readonly offsetSeconds: number;
  readonly isDst: boolean;
  readonly abbreviation: string | null;
}

/** What a clock shows at an instant. `Temporal.PlainDateTime.from` takes it. */
export interface DateTime extends LocalTimeType {
  readonly year: number;
  readonly month: number;
  readonly day: number;
  readonly hour: number;
  readonly minute: number;
  readonly second: number;
  readonly millisecond: number;
  readonly microsecond: number;
  readonly nanosecond: number;
  readonly epochSeconds: bigint;
  /** NaN if the number is no safe integer: hundreds of thousands of years from 1970. */
  readonly epochMilliseconds: number;
  readonly epochNanoseconds: bigint;
  /** From 1, Monday, to 7. */
  readonly dayOfWeek: number;
  /** From 1. */
  readonly dayOfYear: number;
  /** As `2000-10-29T02:30:00.000000000+01:00`. */
  toString(): string;
  toJSON(): string;
}

/**
 * An instant at which clocks show a local time; or a jump over it, with what clocks would show there
 * without the jump, and what they show.
 */
export type Entry =
  | { readonly isSkipped: false; readonly dateTime: DateTime }
  | { readonly isSkipped: true; readonly before: DateTime; readonly after: DateTime };

/** An instant at which a clock has another type than a second before. */
export interface Change {
  readonly epochSeconds: bigint;
  /** NaN if the number is no safe integer. */
  readonly epochMilliseconds: number;
  readonly before: LocalTimeType;
  readonly after: LocalTimeType;
}

/** Local times by columns of one length. */
export interface FieldColumns {
  readonly year: ArrayLike<number>;
  readonly month: ArrayLike<number>;
  readonly day: ArrayLike<number>;
  readonly hour?: ArrayLike<number>;
  readonly minute?: ArrayLike<number>;
  readonly second?: ArrayLike<number>;
}

export interface DateTimeColumns {
  year: Int32Array;
  month: Uint8Array;
  day: Uint8Array;
  hour: Uint8Array;
  minute: Uint8Array;
  second: Uint8Array;
  offsetSeconds: Int32Array;
  isDst: Uint8Array;
}

export interface Codes {
  /**
   * Gets the code of each value, 0 for those with an answer; what has none is 0 in the column.
   * Without it the first value without an answer is a `TzError`.
   */
  codes?: Uint32Array;
}

/** A time zone. Its memory is given back by `free`, or else once the zone is garbage. */
export interface Zone {
  /** The name, the string or what was given with the file. */
  readonly name: string | null;
  /** What clocks show at an instant. */
  at(instant: Instant): DateTime;
  /** All that a local time means, in order: usually one entry, two where clocks are set back. */
  find(local: LocalTime): Entry[];
  /** The one date time that a local time means. */
  findOne(local: LocalTime, options?: { disambiguation?: Disambiguation }): DateTime;
  /** The first change after an instant. */
  following(instant: Instant): Change | null;
  /** The last change before an instant. */
  preceding(instant: Instant): Change | null;
  /** The changes after `from`, by default from the first on, and before `until`. */
  changes(from?: Instant, until?: Instant): IterableIterator<Change>;
  /** The offsets at instants, in seconds. */
  offsets(instants: Instants, options?: Codes): Int32Array;
  /** What clocks show at instants. */
  dateTimes(instants: Instants, options?: Codes): DateTimeColumns;
  /** The instants that local times mean, in seconds. */
  instants(local: FieldColumns, options?: Codes & { disambiguation?: Disambiguation }): BigInt64Array;
  /** Gives the memory back. After it each call is a `TypeError`. */
  free(): void;
}

export interface ZoneClass {
  readonly prototype: Zone;
  /** A zone of the tz database, as `Europe/Paris`. */
  named(name: string): Zone;
  /** The zone of a TZif file. */
  fromFile(bytes: ArrayBuffer | ArrayBufferView, name?: string | null): Zone;
  /** The zone of a TZ string, as `CET-1CEST,M3.5.0,M10.5.0/3`; extended has hours to 167. */
  fromString(text: string, options?: { isExtended?: boolean }): Zone;
}

export interface Tz {
  readonly Zone: ZoneClass;
  /** The names of the module's zones, in the order of bytes. */
  names(): string[];
  /** The version of the tz database of these zones, as 2025b; null without zones. */
  databaseVersion(): string | null;
  /** The functions of tz.h. */
  readonly raw: Functions;
}

export type Source = string | URL | Response | ArrayBuffer | ArrayBufferView | WebAssembly.Module;

/** Loads a module, by default out/tz-zones.wasm beside this file. */
export declare function load(source?: Source | Promise<Source>): Promise<Tz>;

/** The same of bytes or a compiled module, without a promise. */
export declare function start(source: ArrayBuffer | ArrayBufferView | WebAssembly.Module): Tz;
