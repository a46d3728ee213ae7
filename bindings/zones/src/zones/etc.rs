// Made by `generate` of the tz database, which is in the public domain.

//! Zones of `Etc`.

use crate::parts::*;
use crate::zones::rules;
use tz::{LocalTimeType, TimeZoneRef};

/// `Etc/GMT`: no transitions, then `GMT0`.
pub const GMT: TimeZoneRef<'static> = zone(&[], &GMT_TYPES, &rules::GMT0);
static GMT_TYPES: [LocalTimeType; 1] = [
    local(0, false, "GMT"),
];

/// `Etc/GMT+0`, the same as [`Etc/GMT`](crate::etc::GMT).
pub const GMT_PLUS_0: TimeZoneRef<'static> = crate::etc::GMT;

/// `Etc/GMT+1`: no transitions, then `<-01>1`.
pub const GMT_PLUS_1: TimeZoneRef<'static> = zone(&[], &GMT_PLUS_1_TYPES, &rules::MINUS_01_1);
static GMT_PLUS_1_TYPES: [LocalTimeType; 1] = [
    local(-3600, false, "-01"),
];

/// `Etc/GMT+10`: no transitions, then `<-10>10`.
pub const GMT_PLUS_10: TimeZoneRef<'static> = zone(&[], &GMT_PLUS_10_TYPES, &rules::MINUS_10_10);
static GMT_PLUS_10_TYPES: [LocalTimeType; 1] = [
    local(-36000, false, "-10"),
];

/// `Etc/GMT+11`: no transitions, then `<-11>11`.
pub const GMT_PLUS_11: TimeZoneRef<'static> = zone(&[], &GMT_PLUS_11_TYPES, &rules::MINUS_11_11);
static GMT_PLUS_11_TYPES: [LocalTimeType; 1] = [
    local(-39600, false, "-11"),
];

/// `Etc/GMT+12`: no transitions, then `<-12>12`.
pub const GMT_PLUS_12: TimeZoneRef<'static> = zone(&[], &GMT_PLUS_12_TYPES, &rules::MINUS_12_12);
static GMT_PLUS_12_TYPES: [LocalTimeType; 1] = [
    local(-43200, false, "-12"),
];

/// `Etc/GMT+2`: no transitions, then `<-02>2`.
pub const GMT_PLUS_2: TimeZoneRef<'static> = zone(&[], &GMT_PLUS_2_TYPES, &rules::MINUS_02_2);
static GMT_PLUS_2_TYPES: [LocalTimeType; 1] = [
    local(-7200, false, "-02"),
];

/// `Etc/GMT+3`: no transitions, then `<-03>3`.
pub const GMT_PLUS_3: TimeZoneRef<'static> = zone(&[], &GMT_PLUS_3_TYPES, &rules::MINUS_03_3);
static GMT_PLUS_3_TYPES: [LocalTimeType; 1] = [
    local(-10800, false, "-03"),
];

/// `Etc/GMT+4`: no transitions, then `<-04>4`.
pub const GMT_PLUS_4: TimeZoneRef<'static> = zone(&[], &GMT_PLUS_4_TYPES, &rules::MINUS_04_4);
static GMT_PLUS_4_TYPES: [LocalTimeType; 1] = [
    local(-14400, false, "-04"),
];

/// `Etc/GMT+5`: no transitions, then `<-05>5`.
pub const GMT_PLUS_5: TimeZoneRef<'static> = zone(&[], &GMT_PLUS_5_TYPES, &rules::MINUS_05_5);
static GMT_PLUS_5_TYPES: [LocalTimeType; 1] = [
    local(-18000, false, "-05"),
];

/// `Etc/GMT+6`: no transitions, then `<-06>6`.
pub const GMT_PLUS_6: TimeZoneRef<'static> = zone(&[], &GMT_PLUS_6_TYPES, &rules::MINUS_06_6);
static GMT_PLUS_6_TYPES: [LocalTimeType; 1] = [
    local(-21600, false, "-06"),
];

/// `Etc/GMT+7`: no transitions, then `<-07>7`.
pub const GMT_PLUS_7: TimeZoneRef<'static> = zone(&[], &GMT_PLUS_7_TYPES, &rules::MINUS_07_7);
static GMT_PLUS_7_TYPES: [LocalTimeType; 1] = [
    local(-25200, false, "-07"),
];

/// `Etc/GMT+8`: no transitions, then `<-08>8`.
pub const GMT_PLUS_8: TimeZoneRef<'static> = zone(&[], &GMT_PLUS_8_TYPES, &rules::MINUS_08_8);
static GMT_PLUS_8_TYPES: [LocalTimeType; 1] = [
    local(-28800, false, "-08"),
];

/// `Etc/GMT+9`: no transitions, then `<-09>9`.
pub const GMT_PLUS_9: TimeZoneRef<'static> = zone(&[], &GMT_PLUS_9_TYPES, &rules::MINUS_09_9);
static GMT_PLUS_9_TYPES: [LocalTimeType; 1] = [
    local(-32400, false, "-09"),
];

/// `Etc/GMT-0`, the same as [`Etc/GMT`](crate::etc::GMT).
pub const GMT_MINUS_0: TimeZoneRef<'static> = crate::etc::GMT;

/// `Etc/GMT-1`: no transitions, then `<+01>-1`.
pub const GMT_MINUS_1: TimeZoneRef<'static> = zone(
    &[], &GMT_MINUS_1_TYPES, &rules::PLUS_01_MINUS_1,
);
static GMT_MINUS_1_TYPES: [LocalTimeType; 1] = [
    local(3600, false, "+01"),
];

/// `Etc/GMT-10`: no transitions, then `<+10>-10`.
pub const GMT_MINUS_10: TimeZoneRef<'static> = zone(
    &[], &GMT_MINUS_10_TYPES, &rules::PLUS_10_MINUS_10,
);
static GMT_MINUS_10_TYPES: [LocalTimeType; 1] = [
    local(36000, false, "+10"),
];

/// `Etc/GMT-11`: no transitions, then `<+11>-11`.
pub const GMT_MINUS_11: TimeZoneRef<'static> = zone(
    &[], &GMT_MINUS_11_TYPES, &rules::PLUS_11_MINUS_11,
);
static GMT_MINUS_11_TYPES: [LocalTimeType; 1] = [
    local(39600, false, "+11"),
];

/// `Etc/GMT-12`: no transitions, then `<+12>-12`.
pub const GMT_MINUS_12: TimeZoneRef<'static> = zone(
    &[], &GMT_MINUS_12_TYPES, &rules::PLUS_12_MINUS_12,
);
static GMT_MINUS_12_TYPES: [LocalTimeType; 1] = [
    local(43200, false, "+12"),
];

/// `Etc/GMT-13`: no transitions, then `<+13>-13`.
pub const GMT_MINUS_13: TimeZoneRef<'static> = zone(
    &[], &GMT_MINUS_13_TYPES, &rules::PLUS_13_MINUS_13,
);
static GMT_MINUS_13_TYPES: [LocalTimeType; 1] = [
    local(46800, false, "+13"),
];

/// `Etc/GMT-14`: no transitions, then `<+14>-14`.
pub const GMT_MINUS_14: TimeZoneRef<'static> = zone(
    &[], &GMT_MINUS_14_TYPES, &rules::PLUS_14_MINUS_14,
);
static GMT_MINUS_14_TYPES: [LocalTimeType; 1] = [
    local(50400, false, "+14"),
];

/// `Etc/GMT-2`: no transitions, then `<+02>-2`.
pub const GMT_MINUS_2: TimeZoneRef<'static> = zone(
    &[], &GMT_MINUS_2_TYPES, &rules::PLUS_02_MINUS_2,
);
static GMT_MINUS_2_TYPES: [LocalTimeType; 1] = [
    local(7200, false, "+02"),
];

/// `Etc/GMT-3`: no transitions, then `<+03>-3`.
pub const GMT_MINUS_3: TimeZoneRef<'static> = zone(
    &[], &GMT_MINUS_3_TYPES, &rules::PLUS_03_MINUS_3,
);
static GMT_MINUS_3_TYPES: [LocalTimeType; 1] = [
    local(10800, false, "+03"),
];

/// `Etc/GMT-4`: no transitions, then `<+04>-4`.
pub const GMT_MINUS_4: TimeZoneRef<'static> = zone(
    &[], &GMT_MINUS_4_TYPES, &rules::PLUS_04_MINUS_4,
);
static GMT_MINUS_4_TYPES: [LocalTimeType; 1] = [
    local(14400, false, "+04"),
];

/// `Etc/GMT-5`: no transitions, then `<+05>-5`.
pub const GMT_MINUS_5: TimeZoneRef<'static> = zone(
    &[], &GMT_MINUS_5_TYPES, &rules::PLUS_05_MINUS_5,
);
static GMT_MINUS_5_TYPES: [LocalTimeType; 1] = [
    local(18000, false, "+05"),
];

/// `Etc/GMT-6`: no transitions, then `<+06>-6`.
pub const GMT_MINUS_6: TimeZoneRef<'static> = zone(
    &[], &GMT_MINUS_6_TYPES, &rules::PLUS_06_MINUS_6,
);
static GMT_MINUS_6_TYPES: [LocalTimeType; 1] = [
    local(21600, false, "+06"),
];

/// `Etc/GMT-7`: no transitions, then `<+07>-7`.
pub const GMT_MINUS_7: TimeZoneRef<'static> = zone(
    &[], &GMT_MINUS_7_TYPES, &rules::PLUS_07_MINUS_7,
);
static GMT_MINUS_7_TYPES: [LocalTimeType; 1] = [
    local(25200, false, "+07"),
];

/// `Etc/GMT-8`: no transitions, then `<+08>-8`.
pub const GMT_MINUS_8: TimeZoneRef<'static> = zone(
    &[], &GMT_MINUS_8_TYPES, &rules::PLUS_08_MINUS_8,
);
static GMT_MINUS_8_TYPES: [LocalTimeType; 1] = [
    local(28800, false, "+08"),
];

/// `Etc/GMT-9`: no transitions, then `<+09>-9`.
pub const GMT_MINUS_9: TimeZoneRef<'static> = zone(
    &[], &GMT_MINUS_9_TYPES, &rules::PLUS_09_MINUS_9,
);
static GMT_MINUS_9_TYPES: [LocalTimeType; 1] = [
    local(32400, false, "+09"),
];

/// `Etc/GMT0`, the same as [`Etc/GMT`](crate::etc::GMT).
pub const GMT0: TimeZoneRef<'static> = crate::etc::GMT;

/// `Etc/Greenwich`, the same as [`Etc/GMT`](crate::etc::GMT).
pub const GREENWICH: TimeZoneRef<'static> = crate::etc::GMT;

/// `Etc/UCT`, the same as [`Etc/UTC`](crate::etc::UTC).
pub const UCT: TimeZoneRef<'static> = crate::etc::UTC;

/// `Etc/UTC`: no transitions, then `UTC0`.
pub const UTC: TimeZoneRef<'static> = zone(&[], &UTC_TYPES, &rules::UTC0);
static UTC_TYPES: [LocalTimeType; 1] = [
    local(0, false, "UTC"),
];

/// `Etc/Universal`, the same as [`Etc/UTC`](crate::etc::UTC).
pub const UNIVERSAL: TimeZoneRef<'static> = crate::etc::UTC;

/// `Etc/Zulu`, the same as [`Etc/UTC`](crate::etc::UTC).
pub const ZULU: TimeZoneRef<'static> = crate::etc::UTC;
