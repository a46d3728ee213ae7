// What several tests take.

import assert from 'node:assert/strict';
import { spawnSync } from 'node:child_process';
import { fileURLToPath } from 'node:url';

/** The program whose answers are compared. */
export const TZQ = process.env.TZQ ?? fileURLToPath(new URL('../../../target/release/tzq', import.meta.url));

// Until which year others may differ. Debian's EET and WET have rules of their own, and elsewhere are
// links to Athens and Lisbon. Versions after 2025b have other changes in Tijuana to 1975, in Iran in
// 1979, in Colombia in 1992 and in Moldova from 2022 on.
export const KNOWN = {
  EET: 1981, WET: 1997,
  'America/Ensenada': 1976, 'America/Santa_Isabel': 1976, 'America/Tijuana': 1976, 'Mexico/BajaNorte': 1976,
  'Asia/Tehran': 1980, Iran: 1980, 'America/Bogota': 1994, 'Europe/Chisinau': 2025, 'Europe/Tiraspol': 2025,
};

/** What tzq says of lines. */
export function tzq(option, value, lines) {
  const { status, stdout, stderr } = spawnSync(TZQ, [option, value], { input: lines.join('\n'), encoding: 'utf8', maxBuffer: 2 ** 28 });
  assert.equal(status, 0, stderr);
  return stdout.split('\n').slice(0, -1);
}

/** Numbers below a bound that look random, the same for one seed. (splitmix64) */
export function random(seed) {
  let state = BigInt(seed);
  return (bound) => {
    state = BigInt.asUintN(64, state + 0x9e3779b97f4a7c15n);
    let mixed = state;
    mixed = BigInt.asUintN(64, (mixed ^ (mixed >> 30n)) * 0xbf58476d1ce4e5b9n);
    mixed = BigInt.asUintN(64, (mixed ^ (mixed >> 27n)) * 0x94d049bb133111ebn);
    return (mixed ^ (mixed >> 31n)) % BigInt(bound);
  };
}

/**
 * A TZif file of version 2, without a rule, with these transitions: each a time and the index of a
 * type. The types have these offsets, and one name. (RFC 8536, 3.2)
 */
export function zoneFile(transitions, offsets) {
  const NAME = [...'LMT\0'].map((letter) => letter.charCodeAt(0));
  const header = (transitionCount, typeCount) => {
    const view = new DataView(new ArrayBuffer(44));
    [...'TZif2'].forEach((letter, index) => view.setUint8(index, letter.charCodeAt(0)));
    [0, 0, 0, transitionCount, typeCount, NAME.length].forEach((count, index) => view.setUint32(20 + 4 * index, count));
    return new Uint8Array(view.buffer);
  };
  const tables = new DataView(new ArrayBuffer(9 * transitions.length + 6 * offsets.length));
  transitions.forEach(([time, type], index) => {
    tables.setBigInt64(8 * index, BigInt(time));
    tables.setUint8(8 * transitions.length + index, type);
  });
  offsets.forEach((offset, index) => tables.setInt32(9 * transitions.length + 6 * index, offset));
  // The part of version 1 has one type, and readers of version 2 leave it out.
  const first = [...header(0, 1), 0, 0, 0, 0, 0, 0, ...NAME];
  return Uint8Array.from([...first, ...header(transitions.length, offsets.length), ...new Uint8Array(tables.buffer), ...NAME, 10, 10]);
}
