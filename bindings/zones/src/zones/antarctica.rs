// Made by `generate` of the tz database, which is in the public domain.

//! Zones of `Antarctica`.

use crate::parts::*;
use crate::zones::rules;
use tz::timezone::Transition;
use tz::{LocalTimeType, TimeZoneRef};

/// `Antarctica/Casey`: 17 transitions, then `<+08>-8`.
pub const CASEY: TimeZoneRef<'static> = zone(&CASEY_TABLE, &CASEY_TYPES, &rules::PLUS_08_MINUS_8);
static CASEY_TYPES: [LocalTimeType; 4] = [
    local(0, false, "-00"), local(28800, false, "+08"), local(39600, false, "+11"),
    local(28800, false, "+08"),
];
static CASEY_TABLE: [Transition; 17] = table([
    (-31536000, 1), (1255802400, 2), (1267714800, 1), (1319738400, 2), (1329843600, 3),
    (1477065600, 2), (1520701200, 1), (1538856000, 2), (1552752000, 1), (1570129200, 2),
    (1583596800, 1), (1601740860, 2), (1615640400, 1), (1633190460, 2), (1647090000, 1),
    (1664640060, 2), (1678291200, 1),
]);

/// `Antarctica/Davis`: 7 transitions, then `<+07>-7`.
pub const DAVIS: TimeZoneRef<'static> = zone(&DAVIS_TABLE, &DAVIS_TYPES, &rules::PLUS_07_MINUS_7);
static DAVIS_TYPES: [LocalTimeType; 4] = [
    local(0, false, "-00"), local(25200, false, "+07"), local(18000, false, "+05"),
    local(25200, false, "+07"),
];
static DAVIS_TABLE: [Transition; 7] = table([
    (-409190400, 1), (-163062000, 0), (-28857600, 1), (1255806000, 2), (1268251200, 3),
    (1319742000, 2), (1329854400, 3),
]);

/// `Antarctica/DumontDUrville`: 3 transitions, then `<+10>-10`.
pub const DUMONTDURVILLE: TimeZoneRef<'static> = zone(
    &DUMONTDURVILLE_TABLE, &DUMONTDURVILLE_TYPES, &rules::PLUS_10_MINUS_10,
);
static DUMONTDURVILLE_TYPES: [LocalTimeType; 2] = [
    local(0, false, "-00"), local(36000, false, "+10"),
];
static DUMONTDURVILLE_TABLE: [Transition; 3] = table([
    (-725846400, 1), (-566992800, 0), (-415497600, 1),
]);

/// `Antarctica/Macquarie`: 91 transitions, then `AEST-10AEDT,M10.1.0,M4.1.0/3`.
pub const MACQUARIE: TimeZoneRef<'static> = zone(
    &MACQUARIE_TABLE, &MACQUARIE_TYPES, &rules::AEST_MINUS_10AEDT_M10_1_0_M4_1_0_AT_3,
);
static MACQUARIE_TYPES: [LocalTimeType; 7] = [
    local(0, false, "-00"), local(36000, false, "AEST"), local(39600, true, "AEDT"),
    local(36000, false, "AEST"), local(0, false, "-00"), local(39600, true, "AEDT"),
    local(36000, false, "AEST"),
];
static MACQUARIE_TABLE: [Transition; 91] = table([
    (-2214259200, 1), (-1680508800, 2), (-1665388800, 3), (-1601719200, 4), (-687052800, 1),
    (-71136000, 5), (-55411200, 3), (-37267200, 5), (-25776000, 3), (-5817600, 5), (5673600, 3),
    (25632000, 5), (37728000, 3), (57686400, 5), (67968000, 3), (89136000, 5), (100022400, 3),
    (120585600, 5), (131472000, 3), (152035200, 5), (162921600, 3), (183484800, 5), (194976000, 3),
    (215539200, 5), (226425600, 3), (246988800, 5), (257875200, 3), (278438400, 5), (289324800, 3),
    (309888000, 5), (320774400, 3), (341337600, 5), (352224000, 3), (372787200, 5), (386092800, 3),
    (404841600, 5), (417542400, 3), (436291200, 5), (447177600, 3), (467740800, 5), (478627200, 3),
    (499190400, 5), (510076800, 3), (530035200, 5), (542736000, 3), (562089600, 5), (574790400, 3),
    (594144000, 5), (606240000, 3), (625593600, 5), (637689600, 3), (657043200, 5), (670348800, 3),
    (686678400, 5), (701798400, 3), (718128000, 5), (733248000, 3), (749577600, 5), (764697600, 3),
    (781027200, 5), (796147200, 3), (812476800, 5), (828201600, 3), (844531200, 5), (859651200, 3),
    (875980800, 5), (891100800, 3), (907430400, 5), (922550400, 3), (938880000, 5), (954000000, 3),
    (967305600, 5), (985449600, 3), (1002384000, 5), (1017504000, 3), (1033833600, 5),
    (1048953600, 3), (1065283200, 5), (1080403200, 3), (1096732800, 5), (1111852800, 3),
    (1128182400, 5), (1143907200, 3), (1159632000, 5), (1174752000, 3), (1191686400, 5),
    (1207411200, 3), (1223136000, 5), (1238860800, 3), (1254585600, 5), (1301760000, 3),
]);

/// `Antarctica/Mawson`: 2 transitions, then `<+05>-5`.
pub const MAWSON: TimeZoneRef<'static> = zone(
    &MAWSON_TABLE, &MAWSON_TYPES, &rules::PLUS_05_MINUS_5,
);
static MAWSON_TYPES: [LocalTimeType; 3] = [
    local(0, false, "-00"), local(21600, false, "+06"), local(18000, false, "+05"),
];
static MAWSON_TABLE: [Transition; 2] = table([
    (-501206400, 1), (1255809600, 2),
]);

/// `Antarctica/McMurdo`: 68 transitions, then `NZST-12NZDT,M9.5.0,M4.1.0/3`.
pub const MCMURDO: TimeZoneRef<'static> = zone(
    &MCMURDO_TABLE, &MCMURDO_TYPES, &rules::NZST_MINUS_12NZDT_M9_5_0_M4_1_0_AT_3,
);
static MCMURDO_TYPES: [LocalTimeType; 4] = [
    local(0, false, "-00"), local(46800, true, "NZDT"), local(43200, false, "NZST"),
    local(43200, false, "NZST"),
];
static MCMURDO_TABLE: [Transition; 68] = table([
    (-441849600, 3), (152632800, 1), (162309600, 2), (183477600, 1), (194968800, 2), (215532000, 1),
    (226418400, 2), (246981600, 1), (257868000, 2), (278431200, 1), (289317600, 2), (309880800, 1),
    (320767200, 2), (341330400, 1), (352216800, 2), (372780000, 1), (384271200, 2), (404834400, 1),
    (415720800, 2), (436284000, 1), (447170400, 2), (467733600, 1), (478620000, 2), (499183200, 1),
    (510069600, 2), (530632800, 1), (541519200, 2), (562082400, 1), (573573600, 2), (594136800, 1),
    (605023200, 2), (623772000, 1), (637682400, 2), (655221600, 1), (669132000, 2), (686671200, 1),
    (700581600, 2), (718120800, 1), (732636000, 2), (749570400, 1), (764085600, 2), (781020000, 1),
    (795535200, 2), (812469600, 1), (826984800, 2), (844524000, 1), (858434400, 2), (875973600, 1),
    (889884000, 2), (907423200, 1), (921938400, 2), (938872800, 1), (953388000, 2), (970322400, 1),
    (984837600, 2), (1002376800, 1), (1016287200, 2), (1033826400, 1), (1047736800, 2),
    (1065276000, 1), (1079791200, 2), (1096725600, 1), (1111240800, 2), (1128175200, 1),
    (1142690400, 2), (1159624800, 1), (1174140000, 2), (1191074400, 1),
]);

/// `Antarctica/Palmer`: 82 transitions, then `<-03>3`.
pub const PALMER: TimeZoneRef<'static> = zone(&PALMER_TABLE, &PALMER_TYPES, &rules::MINUS_03_3);
static PALMER_TYPES: [LocalTimeType; 8] = [
    local(0, false, "-00"), local(-14400, false, "-04"), local(-10800, true, "-03"),
    local(-7200, true, "-02"), local(-10800, false, "-03"), local(-10800, true, "-03"),
    local(-14400, false, "-04"), local(-10800, false, "-03"),
];
static PALMER_TABLE: [Transition; 82] = table([
    (-157766400, 2), (-152658000, 1), (-132955200, 2), (-121122000, 1), (-101419200, 2),
    (-86821200, 1), (-71092800, 2), (-54766800, 1), (-39038400, 2), (-23317200, 1), (-7588800, 4),
    (128142000, 3), (136605600, 4), (389070000, 1), (403070400, 5), (416372400, 6), (434520000, 5),
    (447822000, 6), (466574400, 5), (479271600, 6), (498024000, 5), (510721200, 6), (529473600, 5),
    (545194800, 6), (560923200, 5), (574225200, 6), (592372800, 5), (605674800, 6), (624427200, 5),
    (637124400, 6), (653457600, 5), (668574000, 6), (687326400, 5), (700628400, 6), (718776000, 5),
    (732078000, 6), (750225600, 5), (763527600, 6), (781675200, 5), (794977200, 6), (813729600, 5),
    (826426800, 6), (845179200, 5), (859690800, 6), (876628800, 5), (889930800, 6), (906868800, 5),
    (923194800, 6), (939528000, 5), (952830000, 6), (971582400, 5), (984279600, 6), (1003032000, 5),
    (1015729200, 6), (1034481600, 5), (1047178800, 6), (1065931200, 5), (1079233200, 6),
    (1097380800, 5), (1110682800, 6), (1128830400, 5), (1142132400, 6), (1160884800, 5),
    (1173582000, 6), (1192334400, 5), (1206846000, 6), (1223784000, 5), (1237086000, 6),
    (1255233600, 5), (1270350000, 6), (1286683200, 5), (1304823600, 6), (1313899200, 5),
    (1335668400, 6), (1346558400, 5), (1367118000, 6), (1378612800, 5), (1398567600, 6),
    (1410062400, 5), (1463281200, 6), (1471147200, 5), (1480820400, 4),
]);

/// `Antarctica/Rothera`: 1 transition, then `<-03>3`.
pub const ROTHERA: TimeZoneRef<'static> = zone(&ROTHERA_TABLE, &ROTHERA_TYPES, &rules::MINUS_03_3);
static ROTHERA_TYPES: [LocalTimeType; 2] = [
    local(0, false, "-00"), local(-10800, false, "-03"),
];
static ROTHERA_TABLE: [Transition; 1] = table([
    (218246400, 1),
]);

/// `Antarctica/South_Pole`, the same as [`Pacific/Auckland`](crate::pacific::AUCKLAND).
pub const SOUTH_POLE: TimeZoneRef<'static> = crate::pacific::AUCKLAND;

/// `Antarctica/Syowa`: 1 transition, then `<+03>-3`.
pub const SYOWA: TimeZoneRef<'static> = zone(&SYOWA_TABLE, &SYOWA_TYPES, &rules::PLUS_03_MINUS_3);
static SYOWA_TYPES: [LocalTimeType; 2] = [
    local(0, false, "-00"), local(10800, false, "+03"),
];
static SYOWA_TABLE: [Transition; 1] = table([
    (-407808000, 1),
]);

/// `Antarctica/Troll`: 1 transition, then `<+00>0<+02>-2,M3.5.0/1,M10.5.0/3`.
pub const TROLL: TimeZoneRef<'static> = zone(
    &TROLL_TABLE, &TROLL_TYPES, &rules::PLUS_00_0_PLUS_02_MINUS_2_M3_5_0_AT_1_M10_5_0_AT_3,
);
static TROLL_TYPES: [LocalTimeType; 4] = [
    local(0, false, "-00"), local(7200, true, "+02"), local(0, false, "+00"),
    local(0, false, "+00"),
];
static TROLL_TABLE: [Transition; 1] = table([
    (1108166400, 3),
]);

/// `Antarctica/Vostok`: 4 transitions, then `<+05>-5`.
pub const VOSTOK: TimeZoneRef<'static> = zone(
    &VOSTOK_TABLE, &VOSTOK_TYPES, &rules::PLUS_05_MINUS_5,
);
static VOSTOK_TYPES: [LocalTimeType; 3] = [
    local(0, false, "-00"), local(25200, false, "+07"), local(18000, false, "+05"),
];
static VOSTOK_TABLE: [Transition; 4] = table([
    (-380073600, 1), (760035600, 0), (783648000, 1), (1702839600, 2),
]);
