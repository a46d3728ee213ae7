// What compiles by the types, and what does not.
import { Zone, TzError, type Entry, type DateTime } from '../index.js';
import { load, start, type Tz } from '../tz.js';
import { codes, layout, functionsOf, type Functions } from '../raw.js';
const paris: Zone = Zone.named('Europe/Paris');
const now: DateTime = paris.at(Date.now());
const t: string = `${now} ${now.abbreviation}`;
for (const entry of paris.find({ year: 2026, month: 10, day: 25, hour: 2, minute: 30 })) {
  const x: DateTime = entry.isSkipped ? entry.after : entry.dateTime;
}
const c: Int32Array = paris.offsets(new BigInt64Array(3), { codes: new Uint32Array(3) });
const cols = paris.dateTimes([1, 2, 3]); const back: BigInt64Array = paris.instants(cols, { disambiguation: 'later' });
// @ts-expect-error
paris.findOne({ year: 2026, month: 1 });
// @ts-expect-error
paris.findOne('x', { disambiguation: 'first' });
const f = (raw: Functions) => raw.tz_find_n(0, 0, 0, 0, 1, 0) === codes.OK;
const tz: Promise<Tz> = load(fetch('x'));
