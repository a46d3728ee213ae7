// Made by `generate` of the tz database, which is in the public domain.

//! Zones of `Indian`.

use crate::parts::*;
use crate::zones::rules;
use tz::timezone::Transition;
use tz::{LocalTimeType, TimeZoneRef};

/// `Indian/Antananarivo`: 3 transitions, then `EAT-3`.
pub const ANTANANARIVO: TimeZoneRef<'static> = zone(
    &ANTANANARIVO_TABLE, &ANTANANARIVO_TYPES, &rules::EAT_MINUS_3,
);
static ANTANANARIVO_TYPES: [LocalTimeType; 4] = [
    local(11404, false, "LMT"), local(10800, false, "EAT"), local(14400, true, "EAST"),
    local(10800, false, "EAT"),
];
static ANTANANARIVO_TABLE: [Transition; 3] = table([
    (-1846293004, 1), (-499924800, 2), (-492062400, 3),
]);

/// `Indian/Chagos`: 2 transitions, then `<+06>-6`.
pub const CHAGOS: TimeZoneRef<'static> = zone(
    &CHAGOS_TABLE, &CHAGOS_TYPES, &rules::PLUS_06_MINUS_6,
);
static CHAGOS_TYPES: [LocalTimeType; 3] = [
    local(17380, false, "LMT"), local(18000, false, "+05"), local(21600, false, "+06"),
];
static CHAGOS_TABLE: [Transition; 2] = table([
    (-1988167780, 1), (820436400, 2),
]);

/// `Indian/Christmas`: 1 transition, then `<+07>-7`.
pub const CHRISTMAS: TimeZoneRef<'static> = zone(
    &CHRISTMAS_TABLE, &CHRISTMAS_TYPES, &rules::PLUS_07_MINUS_7,
);
static CHRISTMAS_TYPES: [LocalTimeType; 2] = [
    local(25372, false, "LMT"), local(25200, false, "+07"),
];
static CHRISTMAS_TABLE: [Transition; 1] = table([
    (-2364102172, 1),
]);

/// `Indian/Cocos`: 1 transition, then `<+0630>-6:30`.
pub const COCOS: TimeZoneRef<'static> = zone(
    &COCOS_TABLE, &COCOS_TYPES, &rules::PLUS_0630_MINUS_6_30,
);
static COCOS_TYPES: [LocalTimeType; 2] = [
    local(23260, false, "LMT"), local(23400, false, "+0630"),
];
static COCOS_TABLE: [Transition; 1] = table([
    (-2209012060, 1),
]);

/// `Indian/Comoro`: 1 transition, then `EAT-3`.
pub const COMORO: TimeZoneRef<'static> = zone(&COMORO_TABLE, &COMORO_TYPES, &rules::EAT_MINUS_3);
static COMORO_TYPES: [LocalTimeType; 2] = [
    local(10384, false, "LMT"), local(10800, false, "EAT"),
];
static COMORO_TABLE: [Transition; 1] = table([
    (-1846291984, 1),
]);

/// `Indian/Kerguelen`: 1 transition, then `<+05>-5`.
pub const KERGUELEN: TimeZoneRef<'static> = zone(
    &KERGUELEN_TABLE, &KERGUELEN_TYPES, &rules::PLUS_05_MINUS_5,
);
static KERGUELEN_TYPES: [LocalTimeType; 2] = [
    local(0, false, "-00"), local(18000, false, "+05"),
];
static KERGUELEN_TABLE: [Transition; 1] = table([
    (-631152000, 1),
]);

/// `Indian/Mahe`: 1 transition, then `<+04>-4`.
pub const MAHE: TimeZoneRef<'static> = zone(&MAHE_TABLE, &MAHE_TYPES, &rules::PLUS_04_MINUS_4);
static MAHE_TYPES: [LocalTimeType; 2] = [
    local(13308, false, "LMT"), local(14400, false, "+04"),
];
static MAHE_TABLE: [Transition; 1] = table([
    (-1988163708, 1),
]);

/// `Indian/Maldives`: 2 transitions, then `<+05>-5`.
pub const MALDIVES: TimeZoneRef<'static> = zone(
    &MALDIVES_TABLE, &MALDIVES_TYPES, &rules::PLUS_05_MINUS_5,
);
static MALDIVES_TYPES: [LocalTimeType; 3] = [
    local(17640, false, "LMT"), local(17640, false, "MMT"), local(18000, false, "+05"),
];
static MALDIVES_TABLE: [Transition; 2] = table([
    (-2840158440, 1), (-315636840, 2),
]);

/// `Indian/Mauritius`: 5 transitions, then `<+04>-4`.
pub const MAURITIUS: TimeZoneRef<'static> = zone(
    &MAURITIUS_TABLE, &MAURITIUS_TYPES, &rules::PLUS_04_MINUS_4,
);
static MAURITIUS_TYPES: [LocalTimeType; 3] = [
    local(13800, false, "LMT"), local(18000, true, "+05"), local(14400, false, "+04"),
];
static MAURITIUS_TABLE: [Transition; 5] = table([
    (-1988164200, 2), (403041600, 1), (417034800, 2), (1224972000, 1), (1238274000, 2),
]);

/// `Indian/Mayotte`: 1 transition, then `EAT-3`.
pub const MAYOTTE: TimeZoneRef<'static> = zone(&MAYOTTE_TABLE, &MAYOTTE_TYPES, &rules::EAT_MINUS_3);
static MAYOTTE_TYPES: [LocalTimeType; 2] = [
    local(10856, false, "LMT"), local(10800, false, "EAT"),
];
static MAYOTTE_TABLE: [Transition; 1] = table([
    (-1846292456, 1),
]);

/// `Indian/Reunion`: 1 transition, then `<+04>-4`.
pub const REUNION: TimeZoneRef<'static> = zone(
    &REUNION_TABLE, &REUNION_TYPES, &rules::PLUS_04_MINUS_4,
);
static REUNION_TYPES: [LocalTimeType; 2] = [
    local(13312, false, "LMT"), local(14400, false, "+04"),
];
static REUNION_TABLE: [Transition; 1] = table([
    (-1848886912, 1),
]);
