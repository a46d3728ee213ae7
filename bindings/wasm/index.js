// The package with the zones of the tz database. `tz-proved/load` has `load` alone.

import { load } from './tz.js';

export { TzError, load, start } from './tz.js';
export const { Zone, names, databaseVersion, raw } = await load();
