// The answers of query lines beside those of tzq, for zone files, TZ strings and fixed offsets.

import assert from 'node:assert/strict';
import { spawnSync } from 'node:child_process';
import { existsSync, readFileSync } from 'node:fs';
import test from 'node:test';
import { Zone, names } from '../index.js';
import { TZQ, random, tzq } from './shared.js';

const FILES = '/usr/share/zoneinfo';
const GIGA = 1_000_000_000n;

const shown = (it) => `${it} ${it.abbreviation ?? '-'}`;
const error = ({ code }) => `E ${code.toLowerCase().replace(/(^|_)(.)/g, (_, __, letter) => letter.toUpperCase())}`;

/** What the zone answers to a line, in lines. */
function answer(zone, line) {
  const [kind, ...words] = line.split(' ');
  try {
    if (kind === 'T') return [shown(zone.at({ epochNanoseconds: BigInt(words[0]) * GIGA + BigInt(words[1]) }))];
    const [year, month, day, hour, minute, second, rest] = words.map(Number);
    const parts = { millisecond: Math.floor(rest / 1_000_000), microsecond: Math.floor(rest / 1000) % 1000, nanosecond: rest % 1000 };
    const entries = zone.find({ year, month, day, hour, minute, second, ...parts });
    return [`F ${entries.length}`, ...entries.map((it) => (it.isSkipped ? `S ${shown(it.before)} ${shown(it.after)}` : `N ${shown(it.dateTime)}`))];
  } catch (thrown) {
    return [error(thrown)];
  }
}

/** Lines of a zone: random ones, and some around its changes. */
function linesOf(zone, next) {
  const lines = [];
  const fields = (seconds) => {
    const date = new Date(1000 * seconds);
    const words = [date.getUTCFullYear(), date.getUTCMonth() + 1, date.getUTCDate(), date.getUTCHours(), date.getUTCMinutes(), date.getUTCSeconds()];
    lines.push(`F ${words.join(' ')} ${next(GIGA)}`);
  };
  for (let index = 0; index < 20; index++) {
    const seconds = Number(next(8_000_000_000n)) - 4_000_000_000;
    lines.push(`T ${seconds} ${next(GIGA)}`);
    fields(seconds);
  }
  const changes = [...zone.changes(-5_000_000_000n, 4_000_000_000n)];
  for (let index = 0; index < Math.min(changes.length, 15); index++) {
    const { epochSeconds, before, after } = changes[Number(next(BigInt(changes.length)))];
    for (const seconds of [epochSeconds - 1n, epochSeconds]) lines.push(`T ${seconds} 0`);
    for (const { offsetSeconds } of [before, after]) {
      for (const distance of [-1, 0, 1, -1800, 1800]) fields(Number(epochSeconds) + offsetSeconds + distance);
    }
  }
  lines.push(
    'F 2000 13 1 0 0 0 0', 'F 2000 2 30 0 0 0 0', 'F 2000 1 1 24 0 0 0', 'F 2000 1 1 0 60 0 0', 'F 2000 1 1 0 0 61 0', 'F 1998 12 31 23 59 60 0',
    'F 2147483647 12 31 23 59 59 0', 'F -2147483648 1 1 0 0 0 0', 'F -1 2 28 1 2 3 4',
    'T 67767976233532800 0', 'T -67768040609740800 0', `T ${2n ** 63n - 1n} 0`, `T ${-(2n ** 63n)} 999999999`, 'T 67767976233532799 999999999',
  );
  return lines;
}

function compare(zone, option, value, next) {
  const lines = linesOf(zone, next);
  const found = lines.flatMap((line) => answer(zone, line));
  assert.deepEqual(found, tzq(option, value, lines), value);
  return lines.length;
}

test('beside tzq', { skip: !existsSync(TZQ) && `no ${TZQ}: cargo build --release -p tzq` }, (context) => {
  const next = random(1);
  const seen = new Set();
  let count = 0;
  for (const name of names()) {
    if (!existsSync(`${FILES}/${name}`)) continue;
    const file = readFileSync(`${FILES}/${name}`);
    const text = file.toString('latin1');
    // Links have the same bytes.
    if (seen.has(text)) continue;
    seen.add(text);
    const zone = Zone.fromFile(file);
    count += compare(zone, '-f', `${FILES}/${name}`, next);
    zone.free();
  }
  assert.ok(seen.size > 300, `${seen.size} files in ${FILES}`);
  for (const text of ['UTC0', '<-0330>3:30', 'CET-1CEST,M3.5.0,M10.5.0/3', 'EST5EDT,J60,300/1:59:59', 'IST-2IDT,M3.4.4/26,M10.5.0', 'A-24:59:59B24,0/0,J365/23']) {
    let zone;
    try {
      zone = Zone.fromString(text);
    } catch {
      assert.notEqual(spawnSync(TZQ, ['-z', text], { input: '' }).status, 0, text);
      continue;
    }
    count += compare(zone, '-z', text, next);
  }
  context.diagnostic(`${count} lines of ${seen.size} files`);
});
