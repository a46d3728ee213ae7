// In headless chromium: date times, choices and changes beside Temporal, and the rows of the example
// page beside tzq.

import assert from 'node:assert/strict';
import { execFile, spawnSync } from 'node:child_process';
import { existsSync, mkdtempSync, readFileSync, rmSync, writeFileSync } from 'node:fs';
import { createServer } from 'node:http';
import { tmpdir } from 'node:os';
import { extname, join } from 'node:path';
import test from 'node:test';
import { fileURLToPath, pathToFileURL } from 'node:url';
import { promisify } from 'node:util';
import { databaseVersion } from '../index.js';
import { KNOWN, TZQ, tzq } from './shared.js';

const CHROMIUM = process.env.CHROMIUM ?? 'chromium';
const { status, stdout: version } = spawnSync(CHROMIUM, ['--version'], { encoding: 'utf8' });
const skip = status !== 0 && `no ${CHROMIUM}`;
const PAGE = new URL('../example/index.html', import.meta.url);

/** The elements of a page once its scripts have run. */
async function elementsOf(url) {
  const home = mkdtempSync(join(tmpdir(), 'tz-browser-'));
  const options = ['--headless', '--no-sandbox', '--disable-gpu', `--user-data-dir=${home}`, '--virtual-time-budget=1000', '--dump-dom'];
  try {
    const { stdout } = await promisify(execFile)(CHROMIUM, [...options, url], { timeout: 240_000, maxBuffer: 2 ** 28 });
    return stdout;
  } finally {
    rmSync(home, { recursive: true, force: true });
  }
}

const textOf = (html) => html.replaceAll('&lt;', '<').replaceAll('&gt;', '>').replaceAll('&amp;', '&');

/** What runs in the browser. It counts comparisons, and lists what differs. */
function besideTemporal(known) {
  const { Zone, names } = tz.start();
  // A browser may have a later version of the database, with other rules from then on.
  const [end, wrong] = [Date.UTC(2025, 0), []];
  let [count, seed] = [0, 1];
  const next = (bound) => {
    seed = (seed * 48271) % 2147483647;
    return Math.floor((seed / 2147483647) * bound);
  };
  const compare = (what, found, expected) => {
    count += 1;
    if (found !== expected && wrong.length < 20) wrong.push(`${what}: ${found}, Temporal ${expected}`);
  };
  const parts = ['year', 'month', 'day', 'hour', 'minute', 'second', 'millisecond', 'microsecond', 'nanosecond', 'dayOfWeek', 'dayOfYear'];
  const shown = (it) => parts.map((part) => it[part]).join();
  for (const name of names()) {
    try {
      new Temporal.ZonedDateTime(0n, name);
    } catch {
      continue;
    }
    const from = Date.UTC(known[name] ?? 1970, 0);
    if (from >= end) continue;
    const zone = Zone.named(name);
    const changes = [...zone.changes(from, end)].filter((it) => it.before.offsetSeconds !== it.after.offsetSeconds);
    for (let index = 0; index < 12; index++) {
      const change = changes[next(changes.length)];
      const instant = index % 2 === 0 || change === undefined ? from + next(end - from) : change.epochMilliseconds - (index % 4 === 1 ? 1 : 0);
      const what = `${name} at ${new Date(instant).toISOString()}`;
      const [ours, theirs] = [zone.at(instant), Temporal.Instant.fromEpochMilliseconds(instant).toZonedDateTimeISO(name)];
      compare(what, `${shown(ours)},${ours.offsetSeconds}`, `${shown(theirs)},${theirs.offsetNanoseconds / 1e9}`);
      compare(`${what}, back`, zone.at(theirs).epochNanoseconds, theirs.epochNanoseconds);
      compare(`${what}, plain`, String(Temporal.PlainDateTime.from(ours)), String(theirs.toPlainDateTime()));
      // Half an hour around a change clocks show a local time twice, or jump over it.
      const local = Temporal.PlainDateTime.from(ours).add({ minutes: [0, -30, 30][index % 3] });
      for (const disambiguation of ['compatible', 'earlier', 'later', 'reject']) {
        const outcome = (call) => {
          try {
            return call().epochNanoseconds;
          } catch (error) {
            return error instanceof RangeError ? 'none' : String(error);
          }
        };
        compare(`${what}, ${local} ${disambiguation}`, outcome(() => zone.findOne(local, { disambiguation })),
          outcome(() => local.toZonedDateTime(name, { disambiguation })));
      }
      const following = changes.find((it) => it.epochMilliseconds > instant);
      const nextOne = theirs.getTimeZoneTransition('next');
      if (nextOne !== null && nextOne.epochMilliseconds < end) compare(`${what}, following`, following?.epochMilliseconds, nextOne.epochMilliseconds);
    }
    zone.free();
  }
  return { count, wrong };
}

test('beside Temporal', { skip }, async (context) => {
  const folder = mkdtempSync(join(tmpdir(), 'tz-page-'));
  const script = fileURLToPath(new URL('../out/tz.global.js', import.meta.url));
  writeFileSync(join(folder, 'page.html'), `<!doctype html><meta charset="utf-8"><pre id="result"></pre>
<script src="${pathToFileURL(script)}"></script>
<script>
let said;
try {
  said = 'Temporal' in globalThis ? (${besideTemporal})(${JSON.stringify(KNOWN)}) : { none: true };
} catch (error) {
  said = { thrown: error.stack };
}
document.getElementById('result').textContent = JSON.stringify(said);
</script>`);
  const html = await elementsOf(pathToFileURL(join(folder, 'page.html')).href);
  rmSync(folder, { recursive: true });
  const { count, wrong, none, thrown } = JSON.parse(textOf(/<pre id="result">(.*?)<\/pre>/s.exec(html)[1]));
  if (none) return context.skip('the browser has no Temporal');
  assert.equal(thrown, undefined);
  assert.ok(count > 20_000);
  context.diagnostic(`${count} comparisons in ${version.trim()}`);
  // Another browser may have another version of the database, with other zones, and so may the module.
  if (databaseVersion() === '2025b' && / 156\./.test(version)) assert.deepEqual(wrong, []);
  else context.diagnostic(`differing: ${wrong.join('; ') || 'none'}`);
});

/** The rows that a page shows for a zone, as tzq's lines. */
function rowsOf(html, name) {
  const [, box] = new RegExp(`<div class="zone" data-zone="${name}">(.*?)</ol>`, 's').exec(html);
  return [...box.matchAll(/<div class="entry">(.*?)<\/div>/gs)].map(([, text]) => textOf(text).replace(' → ', ' '));
}

/** What tzq says of a local time, without fractions that are zero. */
function said(name, local) {
  const line = `F ${local.split(/[-T:]/).map(Number).join(' ')} 0`;
  return tzq('-z', name, [line]).slice(1).map((it) => it.slice(2).replaceAll('.000000000', ''));
}

test('the rows of the example page', { skip: skip || (!existsSync(TZQ) && `no ${TZQ}`) }, async () => {
  const pages = [
    ['Europe/Paris', '2026-10-25T02:30:00', ['America/New_York', 'Asia/Kolkata', 'Australia/Lord_Howe']],
    ['Pacific/Apia', '2011-12-30T12:00:00', ['Africa/Casablanca', 'Europe/Dublin', 'America/St_Johns']],
  ];
  for (const [zone, local, others] of pages) {
    const html = await elementsOf(`${PAGE}#${new URLSearchParams({ zone, local, others: others.join() })}`);
    for (const name of [zone, ...others]) assert.deepEqual(rowsOf(html, name), said(name, local), `${name} ${local}`);
    // The plot of each has a line for each span of time in view.
    assert.ok(html.match(/<line class="type/g).length > 2);
  }
});

/** What runs in the page: a user who types, clicks and drags. It notes what the page shows after each step. */
function useOf() {
  const $ = (id) => document.getElementById(id);
  const notes = [];
  const span = () => {
    const words = new URLSearchParams(location.hash.slice(1));
    return [Number(words.get('from')), Number(words.get('to'))];
  };
  const note = (step) => notes.push({ step, span: span(), zones: $('zones').outerHTML, reading: $('reading').textContent, lines: $('plot').querySelectorAll('.type').length });
  const type = (input, text) => {
    input.value = text;
    input.dispatchEvent(new Event('change'));
  };
  const pointer = (kind, clientX, pointerId = 1) => $('plot').dispatchEvent(new PointerEvent(kind, { clientX, pointerId }));
  $('plot').setPointerCapture = () => {};
  note('start');
  type($('zone'), 'America/New_York');
  type($('local'), '2026-03-08 02:30');
  note('typed');
  type(document.querySelectorAll('.zone input')[0], 'Africa/Monrovia');
  type($('local'), '1972-01-07T00:30:00');
  note('others');
  type($('zone'), 'Mars/Olympus');
  type($('local'), '2026-13-08T02:30:00');
  note('wrong');
  type($('zone'), 'Europe/Paris');
  for (const id of ['fold', 'gap', 'year', 'in', 'left', 'out', 'right', 'all']) {
    $(id).click();
    note(id);
  }
  $('plot').dispatchEvent(new WheelEvent('wheel', { deltaY: -500, ctrlKey: true, clientX: 400, cancelable: true }));
  note('wheel');
  pointer('pointerdown', 300);
  pointer('pointermove', 400);
  pointer('pointerup', 400);
  note('drag');
  pointer('pointerdown', 300, 1);
  pointer('pointerdown', 320, 2);
  pointer('pointermove', 480, 2);
  note('pinch');
  return notes;
}

test('the example page answers to its user', { skip: skip || (!existsSync(TZQ) && `no ${TZQ}`) }, async () => {
  const folder = mkdtempSync(join(tmpdir(), 'tz-page-'));
  const page = readFileSync(PAGE, 'utf8').replaceAll(/(src|href)="([^"]*)"/g, (_, name, path) => `${name}="${new URL(path, PAGE)}"`);
  const script = `<pre id="result"></pre><script>document.getElementById('result').textContent = JSON.stringify((${useOf})());</script>`;
  writeFileSync(join(folder, 'page.html'), page.replace('</html>', `${script}</html>`));
  const html = await elementsOf(pathToFileURL(join(folder, 'page.html')).href);
  rmSync(folder, { recursive: true });
  const notes = JSON.parse(textOf(/<pre id="result">(.*?)<\/pre>/s.exec(html)[1]));
  const [start, typed, others, wrong, fold, gap, year, zoomed, left, out, right, all, wheel, drag, pinch] = notes;
  assert.equal(notes.length, 15);
  assert.deepEqual(rowsOf(typed.zones, 'America/New_York'), said('America/New_York', '2026-03-08T02:30:00'));
  assert.match(typed.zones, /clocks are set forward by 1 h at 2026-03-08 07:00 UTC/);
  assert.deepEqual(rowsOf(others.zones, 'Africa/Monrovia'), said('Africa/Monrovia', '1972-01-07T00:30:00'));
  // A name that is none changes nothing, and a text that is none is an error in each zone.
  assert.deepEqual(rowsOf(wrong.zones, 'America/New_York'), []);
  assert.equal(wrong.zones.match(/class="wrong"/g).length, 4);
  assert.deepEqual([rowsOf(fold.zones, 'Europe/Paris').length, rowsOf(gap.zones, 'Europe/Paris').length], [2, 1]);
  const width = ({ span: [from, to] }) => to - from;
  const isNear = (found, expected) => assert.ok(Math.abs(found / expected - 1) < 0.01, `${found} ${expected}`);
  isNear(width(year), 365 * 86_400_000);
  // A year of Paris has three spans, and its local time is a jump into daylight saving time.
  assert.equal(year.lines, 3);
  assert.match(year.reading, /^CEST \+02:00, daylight saving time, from 20\d\d-03-\d\d 01:00 to 20\d\d-10-\d\d 01:00 UTC$/);
  isNear(width(zoomed), 0.4 * width(year));
  isNear(zoomed.span[0] - left.span[0], 0.5 * width(zoomed));
  isNear(width(out), 2.5 * width(left));
  isNear(right.span[0] - out.span[0], 0.5 * width(out));
  assert.ok(width(all) > 250 * 365 * 86_400_000 && all.lines > 300);
  assert.ok(width(start) < width(all));
  isNear(width(wheel), width(all) * 1.002 ** -500);
  isNear(width(drag), width(wheel));
  assert.ok(drag.span[0] < wheel.span[0]);
  isNear(width(pinch), width(drag) * (20 / 180));
});

test('modules from a server', { skip }, async () => {
  const page = `<!doctype html><pre id="result"></pre><script type="module">
    import { Zone, load, names } from '/index.js';
    const small = await load('out/tz.wasm');
    const result = document.getElementById('result');
    result.textContent = Zone.named('Europe/Paris').at(0) + ' ' + names().length + ' ' + small.Zone.fromString('UTC0').at(0);
  </script>`;
  const types = { '.js': 'text/javascript', '.wasm': 'application/wasm' };
  const server = createServer(({ url }, response) => {
    const isPage = url === '/';
    const file = new URL(`..${url}`, import.meta.url);
    response.writeHead(isPage || existsSync(file) ? 200 : 404, { 'content-type': isPage ? 'text/html' : types[extname(url)] ?? 'text/plain' });
    response.end(isPage ? page : existsSync(file) ? readFileSync(file) : '');
  });
  await new Promise((resolve) => server.listen(0, '127.0.0.1', resolve));
  try {
    const html = await elementsOf(`http://127.0.0.1:${server.address().port}/`);
    const [, text] = /<pre id="result">(.*?)<\/pre>/s.exec(html);
    assert.equal(text, '1970-01-01T01:00:00.000000000+01:00 598 1970-01-01T00:00:00.000000000Z');
  } finally {
    server.close();
  }
});
