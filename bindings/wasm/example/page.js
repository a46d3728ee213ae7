// What the page does. It stands alone, with out/tz.global.js; its state is in the part of its address after #.
'use strict';

(() => {
const $ = (id) => document.getElementById(id);
if (globalThis.tz === undefined) {
  $('footer').textContent = 'The module is not built: run bindings/wasm/build.';
  $('footer').className = 'wrong';
  return;
}

const { Zone, names, databaseVersion } = tz.start();
const SVG = 'http://www.w3.org/2000/svg';
const [MINUTE, HOUR, DAY] = [60_000, 3_600_000, 86_400_000];
const YEAR = 365.2425 * DAY;
// The plot ends here; its least width is half a day.
const [FIRST, LAST, LEAST] = [Date.UTC(1840, 0), Date.UTC(2101, 0), DAY / 2];
const NAMES = names();
const zones = new Map();

/** A zone by its name, which stays; null if there is none. */
function zoneOf(name) {
  if (!zones.has(name)) zones.set(name, NAMES.includes(name) ? Zone.named(name) : null);
  return zones.get(name);
}

const given = new URLSearchParams(location.hash.slice(1));
const thisYear = Date.UTC(new Date().getUTCFullYear(), 0);
const state = {
  names: [given.get('zone') ?? 'Europe/Paris', ...(given.get('others') ?? 'America/New_York,Asia/Kolkata,Australia/Lord_Howe').split(',')].slice(0, 4),
  local: given.get('local'),
  from: Number(given.get('from') ?? thisYear - 130 * YEAR),
  to: Number(given.get('to') ?? thisYear + 12 * YEAR),
};

function keepState() {
  const { names: [zone, ...others], local, from, to } = state;
  const words = { zone, others: others.join(','), local, from: Math.round(from), to: Math.round(to) };
  history.replaceState(null, '', `#${new URLSearchParams(words).toString().replaceAll('%2F', '/').replaceAll('%3A', ':').replaceAll('%2C', ',')}`);
}

// ---- Texts ------------------------------------------------------------------------------------

/** A date time without a fraction that is zero. */
const shown = (dateTime) => `${dateTime} ${dateTime.abbreviation ?? '-'}`.replace('.000000000', '');

/** An offset as +05:30. */
function offsetText(seconds) {
  const parts = [3600, 60, 1].map((unit, index) => Math.floor(Math.abs(seconds) / unit) % (index === 0 ? 100 : 60));
  const digits = parts.map((it) => String(it).padStart(2, '0'));
  return `${seconds < 0 ? '−' : '+'}${digits.slice(0, parts[2] === 0 ? 2 : 3).join(':')}`;
}

const utcText = (instant) => new Date(instant).toISOString().replace('T', ' ').replace(/(:00)?\.000Z$/, '');

function duration(seconds) {
  const words = [[3600, 'h'], [60, 'min'], [1, 's']].map(([unit, word], index) => {
    const count = Math.floor(seconds / unit) % (index === 0 ? 1e9 : 60);
    return count > 0 ? `${count} ${word}` : '';
  });
  return words.filter(Boolean).join(' ');
}

function element(name, { text, ...attributes } = {}, ...children) {
  const made = document.createElement(name);
  for (const [attribute, value] of Object.entries(attributes)) made.setAttribute(attribute, value);
  if (text !== undefined) made.textContent = text;
  made.append(...children);
  return made;
}

// ---- The plot ---------------------------------------------------------------------------------

/** Spans of one type in view: from, to, type. */
function spansOf(zone, from, to) {
  const spans = [];
  let start = from;
  let { offsetSeconds, isDst, abbreviation } = zone.at(Math.floor(from));
  let type = { offsetSeconds, isDst, abbreviation };
  for (const change of zone.changes(Math.floor(from), Math.ceil(to))) {
    spans.push({ from: start, to: change.epochMilliseconds, type });
    start = change.epochMilliseconds;
    type = change.after;
  }
  return [...spans, { from: start, to, type }];
}

/** The first of these steps of which at most `count` fit. */
const stepFor = (span, count, steps) => steps.find((step) => span / step <= count) ?? steps.at(-1);

/** Places on the axis of time, with labels: years, months, days or hours. */
function timeTicks(from, to, count) {
  const ticks = [];
  const add = (instant, label) => {
    if (instant >= from && instant <= to) ticks.push([instant, label]);
  };
  const start = new Date(from);
  const span = to - from;
  const english = (instant, options) => new Date(instant).toLocaleDateString('en-GB', { timeZone: 'UTC', ...options });
  if (span > count * 360 * DAY) {
    const step = stepFor(span / YEAR, count, [1, 2, 5, 10, 20, 50, 100]);
    for (let year = Math.floor(start.getUTCFullYear() / step) * step; Date.UTC(year, 0) <= to; year += step) add(Date.UTC(year, 0), String(year));
  } else if (span > count * 28 * DAY) {
    const step = stepFor(span / (30 * DAY), count, [1, 2, 3, 6, 12]);
    for (let month = 0; Date.UTC(start.getUTCFullYear(), month) <= to; month += step) {
      const instant = Date.UTC(start.getUTCFullYear(), month);
      add(instant, english(instant, { month: 'short', ...(month % 12 === 0 && { year: 'numeric' }) }));
    }
  } else if (span > count * 12 * HOUR) {
    const step = DAY * stepFor(span / DAY, count, [1, 2, 5, 10, 15]);
    for (let instant = Math.ceil(from / step) * step; instant <= to; instant += step) add(instant, english(instant, { day: 'numeric', month: 'short' }));
  } else {
    const step = HOUR * stepFor(span / HOUR, count, [1, 2, 3, 6, 12]);
    for (let instant = Math.ceil(from / step) * step; instant <= to; instant += step) add(instant, new Date(instant).toISOString().slice(11, 16));
  }
  return ticks;
}

const plot = { left: 58, right: 10, top: 10, bottom: 26 };

function drawPlot() {
  const svg = $('plot');
  const { width, height } = svg.getBoundingClientRect();
  const zone = zoneOf(state.names[0]);
  svg.replaceChildren();
  if (zone === null || width === 0) return;
  const { from, to } = state;
  const spans = spansOf(zone, from, to);
  const offsets = spans.map((it) => it.type.offsetSeconds);
  const span = Math.max(...offsets) - Math.min(...offsets);
  const hours = stepFor((span + 3600) / 3600, 5, [0.5, 1, 2, 3, 6, 12]) * 3600;
  const least = Math.min(...offsets) - 0.4 * hours;
  const greatest = Math.max(...offsets) + 0.4 * hours;
  Object.assign(plot, { width, height, spans });
  const x = (instant) => plot.left + ((instant - from) / (to - from)) * (width - plot.left - plot.right);
  const y = (offset) => plot.top + ((greatest - offset) / (greatest - least)) * (height - plot.top - plot.bottom);
  const put = (name, attributes, text) => {
    const made = document.createElementNS(SVG, name);
    for (const [attribute, value] of Object.entries(attributes)) made.setAttribute(attribute, typeof value === 'number' ? value.toFixed(1) : value);
    if (text !== undefined) made.textContent = text;
    svg.append(made);
    return made;
  };
  const line = (kind, x1, y1, x2, y2) => put('line', { class: kind, x1, y1, x2, y2 });
  for (let offset = Math.ceil(least / hours) * hours; offset <= greatest; offset += hours) {
    line(offset === 0 ? 'utc' : 'grid', plot.left, y(offset), width - plot.right, y(offset));
    put('text', { x: plot.left - 8, y: y(offset) + 4, 'text-anchor': 'end' }, offset === 0 ? 'UTC' : offsetText(offset));
  }
  const room = width - plot.left - plot.right;
  for (const [instant, label] of timeTicks(from, to, Math.max(2, Math.floor(room / 80)))) {
    line('grid', x(instant), plot.top, x(instant), height - plot.bottom);
    const anchor = x(instant) > width - 30 ? 'end' : 'middle';
    put('text', { x: x(instant), y: height - 8, 'text-anchor': anchor }, label);
  }
  spans.slice(1).forEach((it, index) => line('step', x(it.from), y(spans[index].type.offsetSeconds), x(it.from), y(it.type.offsetSeconds)));
  for (const it of spans) {
    line(it.type.isDst ? 'type daylight' : 'type', x(it.from), y(it.type.offsetSeconds), Math.max(x(it.to), x(it.from) + 0.1), y(it.type.offsetSeconds));
  }
  for (const instant of markedInstants(zone)) {
    if (instant >= from && instant <= to) line('marked', x(instant), plot.top, x(instant), height - plot.bottom);
  }
  plot.pointer = line('pointer', -9, plot.top, -9, height - plot.bottom);
}

const entriesOf = (zone) => {
  try {
    return zone.find(state.local);
  } catch {
    return [];
  }
};
const markedInstants = (zone) => entriesOf(zone).map((it) => (it.isSkipped ? it.after : it.dateTime).epochMilliseconds);

/** Which instant stands at a place of the screen. */
function instantAt(clientX) {
  const share = (clientX - $('plot').getBoundingClientRect().left - plot.left) / (plot.width - plot.left - plot.right);
  return state.from + share * (state.to - state.from);
}

/** Says which type holds at an instant, and until when. */
function read(instant) {
  const span = plot.spans?.find((it) => instant >= it.from && instant < it.to);
  if (span === undefined) return;
  const zone = zoneOf(state.names[0]);
  const { abbreviation, offsetSeconds, isDst } = span.type;
  const [last, next] = [zone.preceding(Math.floor(instant) + 1), zone.following(Math.floor(instant))];
  const since = last === null ? '' : ` from ${utcText(last.epochMilliseconds)}`;
  const until = next === null ? ', without an end' : ` to ${utcText(next.epochMilliseconds)} UTC`;
  $('reading').textContent = `${abbreviation ?? '-'} ${offsetText(offsetSeconds)}${isDst ? ', daylight saving time,' : ','}${since}${until}`;
  const share = (instant - state.from) / (state.to - state.from);
  const x = plot.left + share * (plot.width - plot.left - plot.right);
  for (const end of ['x1', 'x2']) plot.pointer.setAttribute(end, x.toFixed(1));
}

/** Shows these instants, within the ends of the plot. */
function show(from, to) {
  const span = Math.min(Math.max(to - from, LEAST), LAST - FIRST);
  const middle = (from + to) / 2;
  state.from = Math.min(Math.max(middle - span / 2, FIRST), LAST - span);
  state.to = state.from + span;
  drawPlot();
  keepState();
}

/** Shows `factor` times the span, and leaves an instant where it is. */
const zoom = (factor, instant = (state.from + state.to) / 2) => show(instant - (instant - state.from) * factor, instant + (state.to - instant) * factor);
const pan = (share) => {
  const distance = share * (state.to - state.from);
  const [from, to] = [state.from + distance, state.to + distance];
  if (from >= FIRST && to <= LAST) show(from, to);
  else if (distance < 0) show(FIRST, FIRST + state.to - state.from);
  else show(LAST - (state.to - state.from), LAST);
};

function listenToPlot() {
  const svg = $('plot');
  const pointers = new Map();
  svg.addEventListener('wheel', (event) => {
    // Without a key the wheel scrolls the page; a pinch on a touch pad comes with one.
    if (!event.ctrlKey && !event.metaKey) return;
    event.preventDefault();
    zoom(1.002 ** event.deltaY, instantAt(event.clientX));
  }, { passive: false });
  svg.addEventListener('dblclick', (event) => zoom(1 / 3, instantAt(event.clientX)));
  svg.addEventListener('pointerdown', (event) => {
    svg.setPointerCapture(event.pointerId);
    pointers.set(event.pointerId, event.clientX);
    read(instantAt(event.clientX));
  });
  svg.addEventListener('pointermove', (event) => {
    const before = [...pointers.values()];
    if (pointers.has(event.pointerId)) {
      pointers.set(event.pointerId, event.clientX);
      const after = [...pointers.values()];
      const room = plot.width - plot.left - plot.right;
      if (after.length === 1) pan((before[0] - after[0]) / room);
      if (after.length === 2) zoom(Math.abs(before[0] - before[1]) / Math.max(1, Math.abs(after[0] - after[1])), instantAt((after[0] + after[1]) / 2));
    }
    if (pointers.size < 2) read(instantAt(event.clientX));
  });
  for (const end of ['pointerup', 'pointercancel']) svg.addEventListener(end, (event) => pointers.delete(event.pointerId));
  svg.addEventListener('keydown', (event) => {
    const keys = { ArrowLeft: () => pan(-0.25), ArrowRight: () => pan(0.25), '+': () => zoom(0.5), '-': () => zoom(2) };
    if (!(event.key in keys)) return;
    event.preventDefault();
    keys[event.key]();
  });
  $('left').addEventListener('click', () => pan(-0.5));
  $('right').addEventListener('click', () => pan(0.5));
  $('in').addEventListener('click', () => zoom(0.4));
  $('out').addEventListener('click', () => zoom(2.5));
  $('all').addEventListener('click', () => show(FIRST, LAST));
  $('year').addEventListener('click', () => {
    const zone = zoneOf(state.names[0]);
    const [instant = Date.now()] = zone === null ? [] : markedInstants(zone);
    const year = new Date(instant).getUTCFullYear();
    show(Date.UTC(year, 0), Date.UTC(year + 1, 0));
  });
  new ResizeObserver(drawPlot).observe(svg);
}

// ---- The local time ---------------------------------------------------------------------------

/** What the entry of a search says, in rows as tzq's. */
function rowOf(entry) {
  if (!entry.isSkipped) {
    const utc = utcText(entry.dateTime.epochMilliseconds);
    return element('li', {}, element('div', { class: 'entry', text: shown(entry.dateTime) }), element('p', { text: `${utc} UTC` }));
  }
  const { before, after } = entry;
  const text = `${shown(before)} → ${shown(after)}`;
  const tag = element('span', { class: 'tag', text: 'Skipped: ' });
  const words = `clocks are set forward by ${duration(after.offsetSeconds - before.offsetSeconds)} at ${utcText(after.epochMilliseconds)} UTC`;
  return element('li', {}, element('div', { class: 'entry', text }), element('p', {}, tag, words));
}

function listEntries(list, name) {
  const zone = zoneOf(name);
  list.replaceChildren();
  try {
    if (zone === null) throw new RangeError(`no zone ${name}`);
    const entries = zone.find(state.local);
    list.append(...entries.map(rowOf));
    if (entries.length === 0) list.append(element('li', { class: 'none', text: 'Never' }));
  } catch (error) {
    list.append(element('li', { class: 'wrong', text: error.message }));
  }
}

function drawZones() {
  $('zones').replaceChildren(...state.names.map((name, place) => {
    const list = element('ol');
    const title = place === 0 ? element('strong', { text: name })
      : element('input', { value: name, list: 'names', 'aria-label': `Zone ${place + 1}`, autocomplete: 'off', spellcheck: 'false' });
    if (place > 0) title.addEventListener('change', () => setZone(place, title));
    listEntries(list, name);
    return element('div', { class: 'zone', 'data-zone': name }, title, list);
  }));
}

function setZone(place, input) {
  const name = input.value.trim();
  const isZone = zoneOf(name) !== null;
  input.setAttribute('aria-invalid', String(!isZone));
  if (!isZone) return;
  state.names[place] = name;
  drawAll();
}

function setLocal(text) {
  // As from an input of minutes.
  state.local = /^-?\d+-\d\d-\d\d[T ]\d\d:\d\d$/.test(text) ? `${text}:00` : text;
  drawAll();
}

/** A local time in the middle of the zone's next change by which clocks are set back, or forward. */
function nearChange(isForward) {
  const zone = zoneOf(state.names[0]);
  const now = BigInt(Math.floor(Date.now() / 1000));
  const isSo = ({ before, after }) => (after.offsetSeconds > before.offsetSeconds) === isForward && after.offsetSeconds !== before.offsetSeconds;
  const next = [...zone.changes(now, now + 100_000_000n)].find(isSo) ?? [...zone.changes(-(2n ** 40n), now)].findLast(isSo);
  if (next === undefined) return undefined;
  const middle = next.epochMilliseconds + 500 * (next.before.offsetSeconds + next.after.offsetSeconds);
  return new Date(Math.floor(middle / 1000) * 1000).toISOString().slice(0, 19);
}

// ---- All --------------------------------------------------------------------------------------

function drawNow() {
  const zone = zoneOf(state.names[0]);
  if (zone === null) return;
  const now = zone.at(Date.now());
  const [date, time] = `${now}`.slice(0, 19).split('T');
  $('now').replaceChildren('now ', element('b', { text: time }), ` ${now.abbreviation ?? ''} on ${date}`);
}

function drawAll() {
  $('zone').value = state.names[0];
  $('local').value = state.local;
  let isText = true;
  try {
    zoneOf('UTC').find(state.local);
  } catch {
    isText = false;
  }
  $('local').setAttribute('aria-invalid', String(!isText));
  for (const [id, isForward] of [['fold', false], ['gap', true]]) $(id).disabled = nearChange(isForward) === undefined;
  drawNow();
  drawPlot();
  drawZones();
  keepState();
  const [instant = Date.now()] = markedInstants(zoneOf(state.names[0]));
  read(Math.min(Math.max(instant, state.from), state.to - 1));
}

state.names = state.names.map((name) => (zoneOf(name) === null ? 'UTC' : name));
state.local ??= nearChange(false) ?? new Date(thisYear).toISOString().slice(0, 19);
if (!(state.to - state.from >= LEAST && state.from >= FIRST && state.to <= LAST)) [state.from, state.to] = [FIRST, LAST];
$('names').append(...NAMES.map((name) => element('option', { value: name })));
$('zone').addEventListener('change', () => setZone(0, $('zone')));
$('local').addEventListener('change', () => setLocal($('local').value.trim()));
$('fold').addEventListener('click', () => setLocal(nearChange(false)));
$('gap').addEventListener('click', () => setLocal(nearChange(true)));
$('footer').textContent = `tz ${tz.VERSION}; the ${NAMES.length} zones are of the tz database ${databaseVersion()}.`;
listenToPlot();
drawAll();
setInterval(drawNow, 1000);
})();
