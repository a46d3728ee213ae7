// The built files: how they are loaded, what they have, and that another module is refused.

import assert from 'node:assert/strict';
import { execFileSync, spawnSync } from 'node:child_process';
import { readFileSync } from 'node:fs';
import test from 'node:test';
import { fileURLToPath } from 'node:url';
import { runInNewContext } from 'node:vm';
import { raw } from '../index.js';
import { VERSION, codes } from '../raw.js';
import { load, start } from '../tz.js';

const HERE = new URL('.', import.meta.url);
const SMALL = new URL('../out/tz.wasm', HERE);
const LARGE = new URL('../out/tz-zones.wasm', HERE);
const small = readFileSync(SMALL);
const large = readFileSync(LARGE);
const PARIS_FILE = readFileSync('/usr/share/zoneinfo/Europe/Paris');
const isCalled = (command) => spawnSync(command, ['--version']).error === undefined;

test('the modules are small, and import nothing', (context) => {
  context.diagnostic(`tz.wasm has ${small.length} bytes, tz-zones.wasm ${large.length}`);
  assert.ok(small.length <= 147_000 && large.length <= 546_000);
  for (const bytes of [small, large]) assert.deepEqual(WebAssembly.Module.imports(new WebAssembly.Module(bytes)), []);
});

test('a module is loaded from a URL, a response, bytes, or compiled', async () => {
  const response = () => new Response(small, { headers: { 'content-type': 'application/wasm' } });
  const sources = [SMALL, SMALL.href, response(), Promise.resolve(response()), small, new Uint8Array(small).buffer, new WebAssembly.Module(small)];
  for (const source of sources) {
    const { Zone } = await load(source);
    assert.equal(Zone.fromFile(PARIS_FILE).at(0).hour, 1);
  }
  assert.equal((await load()).Zone.named('Europe/Paris').at(0).hour, 1);
  for (const source of [small, new WebAssembly.Module(small)]) assert.equal(start(source).Zone.fromFile(PARIS_FILE).at(0).hour, 1);
  await assert.rejects(load(new Response('', { status: 404, statusText: 'Not Found' })), { name: 'TypeError', message: /404 Not Found/ });
});

test('a module without zones has no names', () => {
  const { Zone, names, databaseVersion } = start(small);
  assert.throws(() => Zone.named('Europe/Paris'), { name: 'TypeError', message: /has no zones/ });
  assert.deepEqual([names(), databaseVersion()], [[], null]);
});

test('the script in one file has all of it', async () => {
  const script = readFileSync(new URL('../out/tz.global.js', HERE), 'utf8');
  const context = { TextDecoder, TextEncoder, WebAssembly, atob, URL, Response };
  const tz = runInNewContext(`${script}\ntz`, context);
  assert.deepEqual(Object.keys(tz).sort(), ['ABI', 'TzError', 'VERSION', 'load', 'start']);
  assert.equal(String(tz.start().Zone.named('Europe/Paris').at(0)), '1970-01-01T01:00:00.000000000+01:00');
  assert.equal((await tz.load()).names().length, start(large).names().length);
});

test('a module of another layout is refused', () => {
  // Of an empty module there is the header alone.
  assert.throws(() => start(Uint8Array.of(0, 0x61, 0x73, 0x6d, 1, 0, 0, 0)), { name: 'TypeError', message: /is not one of tz/ });
  // The sizes from the first on, in words: 2, 16, 6, 172. The last becomes 176.
  const changed = Buffer.from(small);
  const place = changed.indexOf(Buffer.from(Uint32Array.of(2, 16, 6, 172).buffer));
  assert.notEqual(place, -1);
  changed[place + 12] = 176;
  assert.throws(() => start(changed), { name: 'TypeError', message: /structs of other sizes/ });
});

test('the package has the version of tz.h', () => {
  const { version } = JSON.parse(readFileSync(new URL('../package.json', HERE), 'utf8'));
  assert.equal(version, VERSION);
  assert.match(readFileSync(new URL('../Cargo.toml', HERE), 'utf8'), new RegExp(`^version = "${VERSION}"$`, 'm'));
});

test('each code has a text', () => {
  const [text, length] = [raw.tz_wasm_alloc(128), raw.tz_wasm_alloc(4)];
  for (const [name, code] of Object.entries(codes)) assert.equal(raw.tz_error_text(code, text, 128, length), codes.OK, name);
  raw.tz_wasm_free(text, 128);
  raw.tz_wasm_free(length, 4);
});

test('memory is given out once, is aligned, and is taken again', () => {
  const { tz_wasm_alloc: alloc, tz_wasm_free: free, memory } = start(small).raw;
  const sizes = Array.from({ length: 400 }, (_, index) => (index * index * 7919) % 70_000);
  const blocks = sizes.map((size, index) => {
    const place = alloc(size) >>> 0;
    assert.ok(place > 0 && place % 16 === 0);
    new Uint8Array(memory.buffer, place, size).fill(index);
    return place;
  });
  blocks.forEach((place, index) => assert.ok(new Uint8Array(memory.buffer, place, sizes[index]).every((byte) => byte === index % 256)));
  const grown = memory.buffer.byteLength;
  for (let round = 0; round < 10; round++) {
    blocks.forEach((place, index) => free(place, sizes[index]));
    sizes.forEach((size, index) => {
      blocks[index] = alloc(size);
    });
  }
  assert.equal(memory.buffer.byteLength, grown);
  assert.deepEqual([alloc(2 ** 31 + 1), alloc(2 ** 32 - 1)], [0, 0]);
  // A caller may grow the memory, too.
  memory.grow(3);
  const place = alloc(65_536) >>> 0;
  assert.ok(!blocks.includes(place) && place + 65_536 <= memory.buffer.byteLength);
});

test('the types are right', { skip: !isCalled('tsc') && 'no tsc (Debian: node-typescript)' }, () => {
  const options = ['--noEmit', '--strict', '--target', 'es2022', '--module', 'nodenext', '--moduleResolution', 'nodenext', '--lib', 'es2022,dom'];
  const { status, stdout } = spawnSync('tsc', [...options, fileURLToPath(new URL('types.mts', HERE))], { encoding: 'utf8' });
  assert.equal(status, 0, stdout);
});

test('the lines of README print what it says', () => {
  const readme = readFileSync(new URL('../README.md', HERE), 'utf8');
  for (const [, script] of readme.matchAll(/```js\n(import .*?)```/gs)) {
    const said = [...script.matchAll(/\/\/ (.*)$/gm)].map(([, text]) => text);
    const run = script.replaceAll("'tz-proved'", JSON.stringify(new URL('../index.js', HERE).href));
    const printed = execFileSync(process.execPath, ['--input-type=module', '--eval', run], { encoding: 'utf8' });
    assert.deepEqual(printed.trimEnd().split('\n'), said);
  }
});
