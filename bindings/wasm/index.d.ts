import type { Tz, Zone as ZoneType, ZoneClass } from './tz.js';

export * from './tz.js';
export declare const Zone: ZoneClass;
export type Zone = ZoneType;
export declare const names: Tz['names'];
export declare const databaseVersion: Tz['databaseVersion'];
export declare const raw: Tz['raw'];
