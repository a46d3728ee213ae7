// Tests of the package, offline: in node, and in a browser where there is one.
// usage: node bindings/wasm/test
// It needs what bindings/wasm/build makes, zone files, and tzq (cargo build --release -p tzq).

import { existsSync } from 'node:fs';

const isBuilt = existsSync(new URL('../out/tz-zones.wasm', import.meta.url));
if (isBuilt) {
  await import('./values.js');
  await import('./refusals.js');
  await import('./modules.js');
  await import('./beside_tzq.js');
  await import('./beside_intl.js');
  await import('./browser.js');
} else {
  console.error('bindings/wasm/test: left out, since there is no module: bindings/wasm/build makes it');
}
