// Prints how long calls take, in ns: the best of many short runs, so that other programs disturb
// few of them. Beside them Intl and, where it is, Temporal.
// usage: node bindings/wasm/speed.js

import { Zone } from './index.js';

const NAME = 'Europe/Paris';
const [FIRST, LAST] = [Date.UTC(1902, 0), Date.UTC(2037, 0)];
const MILLISECONDS = 1500;

const zone = Zone.named(NAME);
const random = (count) => Array.from({ length: count }, () => Math.floor(FIRST + Math.random() * (LAST - FIRST)));
const seconds = (instants) => BigInt64Array.from(instants, (it) => BigInt(Math.floor(it / 1000)));
const fields = ({ year, month, day, hour, minute, offsetSeconds }) => year + month + day + hour + minute + offsetSeconds;
let sum = 0;

/** The least time for a value, over runs of so many values each. */
function best(count, run) {
  const end = performance.now() + MILLISECONDS;
  let least = Infinity;
  while (performance.now() < end) {
    const start = performance.now();
    run();
    least = Math.min(least, performance.now() - start);
  }
  return Math.round((1e6 * least) / count);
}

function say(name, count, run) {
  console.log(`${String(best(count, run)).padStart(6)} ${name}`);
}

/** Times a call with each value, whose answer is used. */
function each(name, values, call) {
  say(name, values.length, () => {
    for (let index = 0; index < values.length; index++) sum += call(values[index]);
  });
}

const instants = random(500);
const dateTimes = instants.map((it) => zone.at(it));
each('at, six fields', instants, (it) => fields(zone.at(it)));
each('findOne, six fields', dateTimes, (it) => fields(zone.findOne(it)));
each('find, one entry', dateTimes, (it) => zone.find(it).length);
each('following', instants, (it) => zone.following(it)?.after.offsetSeconds ?? 0);

const column = random(4096);
for (const [order, values] of Object.entries({ random: column, 'in order': [...column].sort((a, b) => a - b) })) {
  const [words, numbers, local] = [seconds(values), Float64Array.from(values), zone.dateTimes(values)];
  say(`offsets of a BigInt64Array, ${order}`, values.length, () => { sum += zone.offsets(words)[0]; });
  say(`offsets of a Float64Array, ${order}`, values.length, () => { sum += zone.offsets(numbers)[0]; });
  say(`dateTimes of a BigInt64Array, ${order}`, values.length, () => { sum += zone.dateTimes(words).year[0]; });
  say(`instants, ${order}`, values.length, () => { sum += Number(zone.instants(local)[0]); });
}

const parts = { year: 'numeric', month: 'numeric', day: 'numeric', hour: 'numeric', minute: 'numeric', timeZoneName: 'longOffset' };
const intl = new Intl.DateTimeFormat('en', { timeZone: NAME, ...parts });
const few = instants.slice(0, 20);
each('Intl.DateTimeFormat, format', few, (it) => intl.format(it).length);
each('Intl.DateTimeFormat, formatToParts', few, (it) => intl.formatToParts(it).length);
if (globalThis.Temporal !== undefined) {
  const shown = (it) => Temporal.Instant.fromEpochMilliseconds(it).toZonedDateTimeISO(NAME);
  each('Temporal, six fields', few, (it) => {
    const { year, month, day, hour, minute, offsetNanoseconds } = shown(it);
    return year + month + day + hour + minute + offsetNanoseconds;
  });
}
if (sum === 0) console.log('no answer was used');
