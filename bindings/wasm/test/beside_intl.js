// Offsets from 1970 on beside those of Intl.DateTimeFormat, over all zones that both have.

import assert from 'node:assert/strict';
import test from 'node:test';
import { Zone, databaseVersion, names } from '../index.js';
import { KNOWN, random } from './shared.js';

const END = Date.UTC(2037, 11, 31);
const isKnown = (name, instant) => instant < Date.UTC(KNOWN[name] ?? 0, 0);

/** The offset that Intl shows at an instant in whole seconds. */
function shownBy(format, instant) {
  const [, month, day, year, hour, minute, second] = /^(\d+)\/(\d+)\/(\d+), (\d+):(\d+):(\d+)$/.exec(format.format(instant)).map(Number);
  return (Date.UTC(year, month - 1, day, hour, minute, second) - instant) / 1000;
}

test('beside Intl', (context) => {
  const next = random(2);
  const [missing, differing] = [[], []];
  let count = 0;
  for (const name of names()) {
    const parts = { year: 'numeric', month: 'numeric', day: 'numeric', hour: 'numeric', minute: 'numeric', second: 'numeric' };
    let format;
    try {
      format = new Intl.DateTimeFormat('en-US', { timeZone: name, hourCycle: 'h23', ...parts });
    } catch {
      missing.push(name);
      continue;
    }
    const zone = Zone.named(name);
    const changes = [...zone.changes(0, END)].map((it) => it.epochMilliseconds);
    const instants = Array.from({ length: 20 }, () => 1000 * Number(next(END / 1000)));
    for (let index = 0; index < Math.min(changes.length, 20); index++) {
      const change = changes[Number(next(changes.length))];
      instants.push(change - 1000, change);
    }
    zone.offsets(instants).forEach((offset, index) => {
      const instant = instants[index];
      const shown = shownBy(format, instant);
      if (offset !== shown && !isKnown(name, instant)) differing.push(`${name} at ${new Date(instant).toISOString()}: ${offset}, Intl ${shown}`);
    });
    count += instants.length;
    zone.free();
  }
  assert.ok(count > 10_000);
  context.diagnostic(`${count} instants; zones of ${databaseVersion()}, of Intl ${process.versions.tz}`);
  // Another version has other zones: `KNOWN` has what two of them differ by.
  const alike = databaseVersion() === '2025b' ? ['2025b', '2025c'] : [databaseVersion()];
  if (alike.includes(process.versions.tz)) assert.deepEqual(differing, []);
  else context.diagnostic(`differing: ${differing.join('; ') || 'none'}`);
  if (missing.length > 0) context.diagnostic(`Intl has none of ${missing.join(' ')}`);
});
