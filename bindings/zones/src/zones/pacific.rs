// Made by `generate` of the tz database, which is in the public domain.

//! Zones of `Pacific`.

use crate::parts::*;
use crate::zones::rules;
use tz::timezone::Transition;
use tz::{LocalTimeType, TimeZoneRef};

/// `Pacific/Apia`: 26 transitions, then `<+13>-13`.
pub const APIA: TimeZoneRef<'static> = zone(&APIA_TABLE, &APIA_TYPES, &rules::PLUS_13_MINUS_13);
static APIA_TYPES: [LocalTimeType; 7] = [
    local(45184, false, "LMT"), local(-41216, false, "LMT"), local(-41400, false, "-1130"),
    local(-36000, true, "-10"), local(-39600, false, "-11"), local(46800, false, "+13"),
    local(50400, true, "+14"),
];
static APIA_TABLE: [Transition; 26] = table([
    (-2445424384, 1), (-1861878784, 2), (-631110600, 4), (1285498800, 3), (1301752800, 4),
    (1316872800, 3), (1325239200, 6), (1333202400, 5), (1348927200, 6), (1365256800, 5),
    (1380376800, 6), (1396706400, 5), (1411826400, 6), (1428156000, 5), (1443276000, 6),
    (1459605600, 5), (1474725600, 6), (1491055200, 5), (1506175200, 6), (1522504800, 5),
    (1538229600, 6), (1554559200, 5), (1569679200, 6), (1586008800, 5), (1601128800, 6),
    (1617458400, 5),
]);

/// `Pacific/Auckland`: 96 transitions, then `NZST-12NZDT,M9.5.0,M4.1.0/3`.
pub const AUCKLAND: TimeZoneRef<'static> = zone(
    &AUCKLAND_TABLE, &AUCKLAND_TYPES, &rules::NZST_MINUS_12NZDT_M9_5_0_M4_1_0_AT_3,
);
static AUCKLAND_TYPES: [LocalTimeType; 7] = [
    local(41944, false, "LMT"), local(45000, true, "NZST"), local(41400, false, "NZMT"),
    local(43200, true, "NZST"), local(46800, true, "NZDT"), local(43200, false, "NZST"),
    local(43200, false, "NZST"),
];
static AUCKLAND_TABLE: [Transition; 96] = table([
    (-3192435544, 2), (-1330335000, 1), (-1320057000, 2), (-1300699800, 3), (-1287396000, 2),
    (-1269250200, 3), (-1255946400, 2), (-1237800600, 3), (-1224496800, 2), (-1206351000, 3),
    (-1192442400, 2), (-1174901400, 3), (-1160992800, 2), (-1143451800, 3), (-1125914400, 2),
    (-1112607000, 3), (-1094464800, 2), (-1081157400, 3), (-1063015200, 2), (-1049707800, 3),
    (-1031565600, 2), (-1018258200, 3), (-1000116000, 2), (-986808600, 3), (-968061600, 2),
    (-955359000, 3), (-936612000, 2), (-923304600, 3), (-757425600, 6), (152632800, 4),
    (162309600, 5), (183477600, 4), (194968800, 5), (215532000, 4), (226418400, 5), (246981600, 4),
    (257868000, 5), (278431200, 4), (289317600, 5), (309880800, 4), (320767200, 5), (341330400, 4),
    (352216800, 5), (372780000, 4), (384271200, 5), (404834400, 4), (415720800, 5), (436284000, 4),
    (447170400, 5), (467733600, 4), (478620000, 5), (499183200, 4), (510069600, 5), (530632800, 4),
    (541519200, 5), (562082400, 4), (573573600, 5), (594136800, 4), (605023200, 5), (623772000, 4),
    (637682400, 5), (655221600, 4), (669132000, 5), (686671200, 4), (700581600, 5), (718120800, 4),
    (732636000, 5), (749570400, 4), (764085600, 5), (781020000, 4), (795535200, 5), (812469600, 4),
    (826984800, 5), (844524000, 4), (858434400, 5), (875973600, 4), (889884000, 5), (907423200, 4),
    (921938400, 5), (938872800, 4), (953388000, 5), (970322400, 4), (984837600, 5), (1002376800, 4),
    (1016287200, 5), (1033826400, 4), (1047736800, 5), (1065276000, 4), (1079791200, 5),
    (1096725600, 4), (1111240800, 5), (1128175200, 4), (1142690400, 5), (1159624800, 4),
    (1174140000, 5), (1191074400, 4),
]);

/// `Pacific/Bougainville`: 5 transitions, then `<+11>-11`.
pub const BOUGAINVILLE: TimeZoneRef<'static> = zone(
    &BOUGAINVILLE_TABLE, &BOUGAINVILLE_TYPES, &rules::PLUS_11_MINUS_11,
);
static BOUGAINVILLE_TYPES: [LocalTimeType; 5] = [
    local(37336, false, "LMT"), local(35312, false, "PMMT"), local(36000, false, "+10"),
    local(32400, false, "+09"), local(39600, false, "+11"),
];
static BOUGAINVILLE_TABLE: [Transition; 5] = table([
    (-2840178136, 1), (-2366790512, 2), (-868010400, 3), (-768906000, 2), (1419696000, 4),
]);

/// `Pacific/Chatham`: 69 transitions, then `<+1245>-12:45<+1345>,M9.5.0/2:45,M4.1.0/3:45`.
pub const CHATHAM: TimeZoneRef<'static> = zone(
    &CHATHAM_TABLE, &CHATHAM_TYPES,
    &rules::PLUS_1245_MINUS_12_45_PLUS_1345_M9_5_0_AT_2_45_M4_1_0_AT_3_45,
);
static CHATHAM_TYPES: [LocalTimeType; 5] = [
    local(44028, false, "LMT"), local(44100, false, "+1215"), local(49500, true, "+1345"),
    local(45900, false, "+1245"), local(45900, false, "+1245"),
];
static CHATHAM_TABLE: [Transition; 69] = table([
    (-3192437628, 1), (-757426500, 4), (152632800, 2), (162309600, 3), (183477600, 2),
    (194968800, 3), (215532000, 2), (226418400, 3), (246981600, 2), (257868000, 3), (278431200, 2),
    (289317600, 3), (309880800, 2), (320767200, 3), (341330400, 2), (352216800, 3), (372780000, 2),
    (384271200, 3), (404834400, 2), (415720800, 3), (436284000, 2), (447170400, 3), (467733600, 2),
    (478620000, 3), (499183200, 2), (510069600, 3), (530632800, 2), (541519200, 3), (562082400, 2),
    (573573600, 3), (594136800, 2), (605023200, 3), (623772000, 2), (637682400, 3), (655221600, 2),
    (669132000, 3), (686671200, 2), (700581600, 3), (718120800, 2), (732636000, 3), (749570400, 2),
    (764085600, 3), (781020000, 2), (795535200, 3), (812469600, 2), (826984800, 3), (844524000, 2),
    (858434400, 3), (875973600, 2), (889884000, 3), (907423200, 2), (921938400, 3), (938872800, 2),
    (953388000, 3), (970322400, 2), (984837600, 3), (1002376800, 2), (1016287200, 3),
    (1033826400, 2), (1047736800, 3), (1065276000, 2), (1079791200, 3), (1096725600, 2),
    (1111240800, 3), (1128175200, 2), (1142690400, 3), (1159624800, 2), (1174140000, 3),
    (1191074400, 2),
]);

/// `Pacific/Chuuk`: 6 transitions, then `<+10>-10`.
pub const CHUUK: TimeZoneRef<'static> = zone(&CHUUK_TABLE, &CHUUK_TYPES, &rules::PLUS_10_MINUS_10);
static CHUUK_TYPES: [LocalTimeType; 5] = [
    local(-49972, false, "LMT"), local(36428, false, "LMT"), local(36000, false, "+10"),
    local(32400, false, "+09"), local(36000, false, "+10"),
];
static CHUUK_TABLE: [Transition; 6] = table([
    (-3944628428, 1), (-2177489228, 2), (-1743674400, 3), (-1606813200, 2), (-907408800, 3),
    (-770634000, 2),
]);

/// `Pacific/Easter`: 109 transitions, then `<-06>6<-05>,M9.1.6/22,M4.1.6/22`.
pub const EASTER: TimeZoneRef<'static> = zone(
    &EASTER_TABLE, &EASTER_TYPES, &rules::MINUS_06_6_MINUS_05_M9_1_6_AT_22_M4_1_6_AT_22,
);
static EASTER_TYPES: [LocalTimeType; 7] = [
    local(-26248, false, "LMT"), local(-26248, false, "EMT"), local(-21600, true, "-06"),
    local(-25200, false, "-07"), local(-25200, false, "-07"), local(-21600, false, "-06"),
    local(-18000, true, "-05"),
];
static EASTER_TABLE: [Transition; 109] = table([
    (-2524495352, 1), (-1178124152, 4), (-36619200, 2), (-23922000, 3), (-3355200, 2), (7527600, 3),
    (24465600, 2), (37767600, 3), (55915200, 2), (69217200, 3), (87969600, 2), (100666800, 3),
    (118209600, 2), (132116400, 3), (150868800, 2), (163566000, 3), (182318400, 2), (195620400, 3),
    (213768000, 2), (227070000, 3), (245217600, 2), (258519600, 3), (277272000, 2), (289969200, 3),
    (308721600, 2), (321418800, 3), (340171200, 2), (353473200, 3), (371620800, 2), (384922800, 5),
    (403070400, 6), (416372400, 5), (434520000, 6), (447822000, 5), (466574400, 6), (479271600, 5),
    (498024000, 6), (510721200, 5), (529473600, 6), (545194800, 5), (560923200, 6), (574225200, 5),
    (592372800, 6), (605674800, 5), (624427200, 6), (637124400, 5), (653457600, 6), (668574000, 5),
    (687326400, 6), (700628400, 5), (718776000, 6), (732078000, 5), (750225600, 6), (763527600, 5),
    (781675200, 6), (794977200, 5), (813729600, 6), (826426800, 5), (845179200, 6), (859690800, 5),
    (876628800, 6), (889930800, 5), (906868800, 6), (923194800, 5), (939528000, 6), (952830000, 5),
    (971582400, 6), (984279600, 5), (1003032000, 6), (1015729200, 5), (1034481600, 6),
    (1047178800, 5), (1065931200, 6), (1079233200, 5), (1097380800, 6), (1110682800, 5),
    (1128830400, 6), (1142132400, 5), (1160884800, 6), (1173582000, 5), (1192334400, 6),
    (1206846000, 5), (1223784000, 6), (1237086000, 5), (1255233600, 6), (1270350000, 5),
    (1286683200, 6), (1304823600, 5), (1313899200, 6), (1335668400, 5), (1346558400, 6),
    (1367118000, 5), (1378612800, 6), (1398567600, 5), (1410062400, 6), (1463281200, 5),
    (1471147200, 6), (1494730800, 5), (1502596800, 6), (1526180400, 5), (1534046400, 6),
    (1554606000, 5), (1567915200, 6), (1586055600, 5), (1599364800, 6), (1617505200, 5),
    (1630814400, 6), (1648954800, 5), (1662868800, 6),
]);

/// `Pacific/Efate`: 23 transitions, then `<+11>-11`.
pub const EFATE: TimeZoneRef<'static> = zone(&EFATE_TABLE, &EFATE_TYPES, &rules::PLUS_11_MINUS_11);
static EFATE_TYPES: [LocalTimeType; 5] = [
    local(40396, false, "LMT"), local(43200, true, "+12"), local(39600, false, "+11"),
    local(43200, true, "+12"), local(39600, false, "+11"),
];
static EFATE_TABLE: [Transition; 23] = table([
    (-1829387596, 4), (125409600, 1), (133876800, 2), (433256400, 3), (448977600, 4),
    (464706000, 3), (480427200, 4), (496760400, 3), (511876800, 4), (528210000, 3), (543931200, 4),
    (559659600, 3), (575380800, 4), (591109200, 3), (606830400, 4), (622558800, 3), (638280000, 4),
    (654008400, 3), (669729600, 4), (686062800, 3), (696340800, 4), (719931600, 3), (727790400, 4),
]);

/// `Pacific/Enderbury`, the same as [`Pacific/Kanton`](crate::pacific::KANTON).
pub const ENDERBURY: TimeZoneRef<'static> = crate::pacific::KANTON;

/// `Pacific/Fakaofo`: 2 transitions, then `<+13>-13`.
pub const FAKAOFO: TimeZoneRef<'static> = zone(
    &FAKAOFO_TABLE, &FAKAOFO_TYPES, &rules::PLUS_13_MINUS_13,
);
static FAKAOFO_TYPES: [LocalTimeType; 3] = [
    local(-41096, false, "LMT"), local(-39600, false, "-11"), local(46800, false, "+13"),
];
static FAKAOFO_TABLE: [Transition; 2] = table([
    (-2177411704, 1), (1325242800, 2),
]);

/// `Pacific/Fiji`: 29 transitions, then `<+12>-12`.
pub const FIJI: TimeZoneRef<'static> = zone(&FIJI_TABLE, &FIJI_TYPES, &rules::PLUS_12_MINUS_12);
static FIJI_TYPES: [LocalTimeType; 3] = [
    local(42944, false, "LMT"), local(46800, true, "+13"), local(43200, false, "+12"),
];
static FIJI_TABLE: [Transition; 29] = table([
    (-1709985344, 2), (909842400, 1), (920124000, 2), (941896800, 1), (951573600, 2),
    (1259416800, 1), (1269698400, 2), (1287842400, 1), (1299333600, 2), (1319292000, 1),
    (1327154400, 2), (1350741600, 1), (1358604000, 2), (1382796000, 1), (1390050000, 2),
    (1414850400, 1), (1421503200, 2), (1446300000, 1), (1452952800, 2), (1478354400, 1),
    (1484402400, 2), (1509804000, 1), (1515852000, 2), (1541253600, 1), (1547301600, 2),
    (1573308000, 1), (1578751200, 2), (1608386400, 1), (1610805600, 2),
]);

/// `Pacific/Funafuti`: 1 transition, then `<+12>-12`.
pub const FUNAFUTI: TimeZoneRef<'static> = zone(
    &FUNAFUTI_TABLE, &FUNAFUTI_TYPES, &rules::PLUS_12_MINUS_12,
);
static FUNAFUTI_TYPES: [LocalTimeType; 2] = [
    local(43012, false, "LMT"), local(43200, false, "+12"),
];
static FUNAFUTI_TABLE: [Transition; 1] = table([
    (-2177495812, 1),
]);

/// `Pacific/Galapagos`: 4 transitions, then `<-06>6`.
pub const GALAPAGOS: TimeZoneRef<'static> = zone(
    &GALAPAGOS_TABLE, &GALAPAGOS_TYPES, &rules::MINUS_06_6,
);
static GALAPAGOS_TYPES: [LocalTimeType; 4] = [
    local(-21504, false, "LMT"), local(-18000, false, "-05"), local(-18000, true, "-05"),
    local(-21600, false, "-06"),
];
static GALAPAGOS_TABLE: [Transition; 4] = table([
    (-1230746496, 1), (504939600, 3), (722930400, 2), (728888400, 3),
]);

/// `Pacific/Gambier`: 1 transition, then `<-09>9`.
pub const GAMBIER: TimeZoneRef<'static> = zone(&GAMBIER_TABLE, &GAMBIER_TYPES, &rules::MINUS_09_9);
static GAMBIER_TYPES: [LocalTimeType; 2] = [
    local(-32388, false, "LMT"), local(-32400, false, "-09"),
];
static GAMBIER_TABLE: [Transition; 1] = table([
    (-1806678012, 1),
]);

/// `Pacific/Guadalcanal`: 1 transition, then `<+11>-11`.
pub const GUADALCANAL: TimeZoneRef<'static> = zone(
    &GUADALCANAL_TABLE, &GUADALCANAL_TYPES, &rules::PLUS_11_MINUS_11,
);
static GUADALCANAL_TYPES: [LocalTimeType; 2] = [
    local(38388, false, "LMT"), local(39600, false, "+11"),
];
static GUADALCANAL_TABLE: [Transition; 1] = table([
    (-1806748788, 1),
]);

/// `Pacific/Guam`: 21 transitions, then `ChST-10`.
pub const GUAM: TimeZoneRef<'static> = zone(&GUAM_TABLE, &GUAM_TYPES, &rules::CHST_MINUS_10);
static GUAM_TYPES: [LocalTimeType; 6] = [
    local(-51660, false, "LMT"), local(34740, false, "LMT"), local(36000, false, "GST"),
    local(32400, false, "+09"), local(39600, true, "GDT"), local(36000, false, "ChST"),
];
static GUAM_TABLE: [Transition; 21] = table([
    (-3944626740, 1), (-2177487540, 2), (-885549600, 3), (-802256400, 2), (-331891200, 4),
    (-281610000, 2), (-73728000, 4), (-29415540, 2), (-16704000, 4), (-10659600, 2), (9907200, 4),
    (21394800, 2), (41356800, 4), (52844400, 2), (124819200, 4), (130863600, 2), (201888000, 4),
    (209487660, 2), (230659200, 4), (241542000, 2), (977493600, 5),
]);

/// `Pacific/Honolulu`: 7 transitions, then `HST10`.
pub const HONOLULU: TimeZoneRef<'static> = zone(&HONOLULU_TABLE, &HONOLULU_TYPES, &rules::HST10);
static HONOLULU_TYPES: [LocalTimeType; 6] = [
    local(-37886, false, "LMT"), local(-37800, false, "HST"), local(-34200, true, "HDT"),
    local(-34200, true, "HWT"), local(-34200, true, "HPT"), local(-36000, false, "HST"),
];
static HONOLULU_TABLE: [Transition; 7] = table([
    (-2334101314, 1), (-1157283000, 2), (-1155436200, 1), (-880198200, 3), (-769395600, 4),
    (-765376200, 1), (-712150200, 5),
]);

/// `Pacific/Johnston`, the same as [`Pacific/Honolulu`](crate::pacific::HONOLULU).
pub const JOHNSTON: TimeZoneRef<'static> = crate::pacific::HONOLULU;

/// `Pacific/Kanton`: 3 transitions, then `<+13>-13`.
pub const KANTON: TimeZoneRef<'static> = zone(
    &KANTON_TABLE, &KANTON_TYPES, &rules::PLUS_13_MINUS_13,
);
static KANTON_TYPES: [LocalTimeType; 4] = [
    local(0, false, "-00"), local(-43200, false, "-12"), local(-39600, false, "-11"),
    local(46800, false, "+13"),
];
static KANTON_TABLE: [Transition; 3] = table([
    (-1020470400, 1), (307627200, 2), (788871600, 3),
]);

/// `Pacific/Kiritimati`: 3 transitions, then `<+14>-14`.
pub const KIRITIMATI: TimeZoneRef<'static> = zone(
    &KIRITIMATI_TABLE, &KIRITIMATI_TYPES, &rules::PLUS_14_MINUS_14,
);
static KIRITIMATI_TYPES: [LocalTimeType; 4] = [
    local(-37760, false, "LMT"), local(-38400, false, "-1040"), local(-36000, false, "-10"),
    local(50400, false, "+14"),
];
static KIRITIMATI_TABLE: [Transition; 3] = table([
    (-2177415040, 1), (307622400, 2), (788868000, 3),
]);

/// `Pacific/Kosrae`: 9 transitions, then `<+11>-11`.
pub const KOSRAE: TimeZoneRef<'static> = zone(
    &KOSRAE_TABLE, &KOSRAE_TYPES, &rules::PLUS_11_MINUS_11,
);
static KOSRAE_TYPES: [LocalTimeType; 7] = [
    local(-47284, false, "LMT"), local(39116, false, "LMT"), local(39600, false, "+11"),
    local(32400, false, "+09"), local(36000, false, "+10"), local(43200, false, "+12"),
    local(39600, false, "+11"),
];
static KOSRAE_TABLE: [Transition; 9] = table([
    (-3944631116, 1), (-2177491916, 2), (-1743678000, 3), (-1606813200, 2), (-1041418800, 4),
    (-907408800, 3), (-770634000, 2), (-7988400, 5), (915105600, 2),
]);

/// `Pacific/Kwajalein`: 6 transitions, then `<+12>-12`.
pub const KWAJALEIN: TimeZoneRef<'static> = zone(
    &KWAJALEIN_TABLE, &KWAJALEIN_TYPES, &rules::PLUS_12_MINUS_12,
);
static KWAJALEIN_TYPES: [LocalTimeType; 6] = [
    local(40160, false, "LMT"), local(39600, false, "+11"), local(36000, false, "+10"),
    local(32400, false, "+09"), local(-43200, false, "-12"), local(43200, false, "+12"),
];
static KWAJALEIN_TABLE: [Transition; 6] = table([
    (-2177492960, 1), (-1041418800, 2), (-907408800, 3), (-817462800, 1), (-7988400, 4),
    (745934400, 5),
]);

/// `Pacific/Majuro`: 7 transitions, then `<+12>-12`.
pub const MAJURO: TimeZoneRef<'static> = zone(
    &MAJURO_TABLE, &MAJURO_TYPES, &rules::PLUS_12_MINUS_12,
);
static MAJURO_TYPES: [LocalTimeType; 5] = [
    local(41088, false, "LMT"), local(39600, false, "+11"), local(32400, false, "+09"),
    local(36000, false, "+10"), local(43200, false, "+12"),
];
static MAJURO_TABLE: [Transition; 7] = table([
    (-2177493888, 1), (-1743678000, 2), (-1606813200, 1), (-1041418800, 3), (-907408800, 2),
    (-818067600, 1), (-7988400, 4),
]);

/// `Pacific/Marquesas`: 1 transition, then `<-0930>9:30`.
pub const MARQUESAS: TimeZoneRef<'static> = zone(
    &MARQUESAS_TABLE, &MARQUESAS_TYPES, &rules::MINUS_0930_9_30,
);
static MARQUESAS_TYPES: [LocalTimeType; 2] = [
    local(-33480, false, "LMT"), local(-34200, false, "-0930"),
];
static MARQUESAS_TABLE: [Transition; 1] = table([
    (-1806676920, 1),
]);

/// `Pacific/Midway`: 3 transitions, then `SST11`.
pub const MIDWAY: TimeZoneRef<'static> = zone(&MIDWAY_TABLE, &MIDWAY_TYPES, &rules::SST11);
static MIDWAY_TYPES: [LocalTimeType; 4] = [
    local(-42568, false, "LMT"), local(-39600, false, "-11"), local(-36000, true, "-10"),
    local(-39600, false, "SST"),
];
static MIDWAY_TABLE: [Transition; 3] = table([
    (-2177410232, 1), (-428504400, 2), (-420645600, 3),
]);

/// `Pacific/Nauru`: 4 transitions, then `<+12>-12`.
pub const NAURU: TimeZoneRef<'static> = zone(&NAURU_TABLE, &NAURU_TYPES, &rules::PLUS_12_MINUS_12);
static NAURU_TYPES: [LocalTimeType; 4] = [
    local(40060, false, "LMT"), local(41400, false, "+1130"), local(32400, false, "+09"),
    local(43200, false, "+12"),
];
static NAURU_TABLE: [Transition; 4] = table([
    (-1545131260, 1), (-862918200, 2), (-767350800, 1), (287418600, 3),
]);

/// `Pacific/Niue`: 2 transitions, then `<-11>11`.
pub const NIUE: TimeZoneRef<'static> = zone(&NIUE_TABLE, &NIUE_TYPES, &rules::MINUS_11_11);
static NIUE_TYPES: [LocalTimeType; 3] = [
    local(-40780, false, "LMT"), local(-40800, false, "-1120"), local(-39600, false, "-11"),
];
static NIUE_TABLE: [Transition; 2] = table([
    (-543069620, 1), (-173623200, 2),
]);

/// `Pacific/Norfolk`: 6 transitions, then `<+11>-11<+12>,M10.1.0,M4.1.0/3`.
pub const NORFOLK: TimeZoneRef<'static> = zone(
    &NORFOLK_TABLE, &NORFOLK_TYPES, &rules::PLUS_11_MINUS_11_PLUS_12_M10_1_0_M4_1_0_AT_3,
);
static NORFOLK_TYPES: [LocalTimeType; 7] = [
    local(40312, false, "LMT"), local(40320, false, "+1112"), local(41400, false, "+1130"),
    local(45000, true, "+1230"), local(41400, false, "+1130"), local(39600, false, "+11"),
    local(43200, true, "+12"),
];
static NORFOLK_TABLE: [Transition; 6] = table([
    (-2177493112, 1), (-599656320, 2), (152029800, 3), (162916200, 4), (1443882600, 5),
    (1570287600, 6),
]);

/// `Pacific/Noumea`: 7 transitions, then `<+11>-11`.
pub const NOUMEA: TimeZoneRef<'static> = zone(
    &NOUMEA_TABLE, &NOUMEA_TYPES, &rules::PLUS_11_MINUS_11,
);
static NOUMEA_TYPES: [LocalTimeType; 5] = [
    local(39948, false, "LMT"), local(43200, true, "+12"), local(39600, false, "+11"),
    local(43200, true, "+12"), local(39600, false, "+11"),
];
static NOUMEA_TABLE: [Transition; 7] = table([
    (-1829387148, 2), (250002000, 1), (257342400, 2), (281451600, 1), (288878400, 2),
    (849366000, 3), (857228400, 4),
]);

/// `Pacific/Pago_Pago`: 2 transitions, then `SST11`.
pub const PAGO_PAGO: TimeZoneRef<'static> = zone(&PAGO_PAGO_TABLE, &PAGO_PAGO_TYPES, &rules::SST11);
static PAGO_PAGO_TYPES: [LocalTimeType; 3] = [
    local(45432, false, "LMT"), local(-40968, false, "LMT"), local(-39600, false, "SST"),
];
static PAGO_PAGO_TABLE: [Transition; 2] = table([
    (-2445424632, 1), (-1861879032, 2),
]);

/// `Pacific/Palau`: 2 transitions, then `<+09>-9`.
pub const PALAU: TimeZoneRef<'static> = zone(&PALAU_TABLE, &PALAU_TYPES, &rules::PLUS_09_MINUS_9);
static PALAU_TYPES: [LocalTimeType; 3] = [
    local(-54124, false, "LMT"), local(32276, false, "LMT"), local(32400, false, "+09"),
];
static PALAU_TABLE: [Transition; 2] = table([
    (-3944624276, 1), (-2177485076, 2),
]);

/// `Pacific/Pitcairn`: 2 transitions, then `<-08>8`.
pub const PITCAIRN: TimeZoneRef<'static> = zone(
    &PITCAIRN_TABLE, &PITCAIRN_TYPES, &rules::MINUS_08_8,
);
static PITCAIRN_TYPES: [LocalTimeType; 3] = [
    local(-31220, false, "LMT"), local(-30600, false, "-0830"), local(-28800, false, "-08"),
];
static PITCAIRN_TABLE: [Transition; 2] = table([
    (-2177421580, 1), (893665800, 2),
]);

/// `Pacific/Pohnpei`: 7 transitions, then `<+11>-11`.
pub const POHNPEI: TimeZoneRef<'static> = zone(
    &POHNPEI_TABLE, &POHNPEI_TYPES, &rules::PLUS_11_MINUS_11,
);
static POHNPEI_TYPES: [LocalTimeType; 6] = [
    local(-48428, false, "LMT"), local(37972, false, "LMT"), local(39600, false, "+11"),
    local(32400, false, "+09"), local(36000, false, "+10"), local(39600, false, "+11"),
];
static POHNPEI_TABLE: [Transition; 7] = table([
    (-3944629972, 1), (-2177490772, 2), (-1743678000, 3), (-1606813200, 2), (-1041418800, 4),
    (-907408800, 3), (-770634000, 2),
]);

/// `Pacific/Ponape`, the same as [`Pacific/Guadalcanal`](crate::pacific::GUADALCANAL).
pub const PONAPE: TimeZoneRef<'static> = crate::pacific::GUADALCANAL;

/// `Pacific/Port_Moresby`: 2 transitions, then `<+10>-10`.
pub const PORT_MORESBY: TimeZoneRef<'static> = zone(
    &PORT_MORESBY_TABLE, &PORT_MORESBY_TYPES, &rules::PLUS_10_MINUS_10,
);
static PORT_MORESBY_TYPES: [LocalTimeType; 3] = [
    local(35320, false, "LMT"), local(35312, false, "PMMT"), local(36000, false, "+10"),
];
static PORT_MORESBY_TABLE: [Transition; 2] = table([
    (-2840176120, 1), (-2366790512, 2),
]);

/// `Pacific/Rarotonga`: 28 transitions, then `<-10>10`.
pub const RAROTONGA: TimeZoneRef<'static> = zone(
    &RAROTONGA_TABLE, &RAROTONGA_TYPES, &rules::MINUS_10_10,
);
static RAROTONGA_TYPES: [LocalTimeType; 5] = [
    local(48056, false, "LMT"), local(-38344, false, "LMT"), local(-37800, false, "-1030"),
    local(-36000, false, "-10"), local(-34200, true, "-0930"),
];
static RAROTONGA_TABLE: [Transition; 28] = table([
    (-2209555256, 1), (-543072056, 2), (279714600, 4), (289387800, 3), (309952800, 4),
    (320837400, 3), (341402400, 4), (352287000, 3), (372852000, 4), (384341400, 3), (404906400, 4),
    (415791000, 3), (436356000, 4), (447240600, 3), (467805600, 4), (478690200, 3), (499255200, 4),
    (510139800, 3), (530704800, 4), (541589400, 3), (562154400, 4), (573643800, 3), (594208800, 4),
    (605093400, 3), (625658400, 4), (636543000, 3), (657108000, 4), (667992600, 3),
]);

/// `Pacific/Saipan`: 20 transitions, then `ChST-10`.
pub const SAIPAN: TimeZoneRef<'static> = zone(&SAIPAN_TABLE, &SAIPAN_TYPES, &rules::CHST_MINUS_10);
static SAIPAN_TYPES: [LocalTimeType; 6] = [
    local(-51420, false, "LMT"), local(34980, false, "LMT"), local(32400, false, "+09"),
    local(39600, true, "GDT"), local(36000, false, "GST"), local(36000, false, "ChST"),
];
static SAIPAN_TABLE: [Transition; 20] = table([
    (-3944626980, 1), (-2177487780, 2), (-804157200, 4), (-331891200, 3), (-281610000, 4),
    (-73728000, 3), (-29415540, 4), (-16704000, 3), (-10659600, 4), (9907200, 3), (21394800, 4),
    (41356800, 3), (52844400, 4), (124819200, 3), (130863600, 4), (201888000, 3), (209487660, 4),
    (230659200, 3), (241542000, 4), (977493600, 5),
]);

/// `Pacific/Samoa`, the same as [`Pacific/Pago_Pago`](crate::pacific::PAGO_PAGO).
pub const SAMOA: TimeZoneRef<'static> = crate::pacific::PAGO_PAGO;

/// `Pacific/Tahiti`: 1 transition, then `<-10>10`.
pub const TAHITI: TimeZoneRef<'static> = zone(&TAHITI_TABLE, &TAHITI_TYPES, &rules::MINUS_10_10);
static TAHITI_TYPES: [LocalTimeType; 2] = [
    local(-35896, false, "LMT"), local(-36000, false, "-10"),
];
static TAHITI_TABLE: [Transition; 1] = table([
    (-1806674504, 1),
]);

/// `Pacific/Tarawa`: 1 transition, then `<+12>-12`.
pub const TARAWA: TimeZoneRef<'static> = zone(
    &TARAWA_TABLE, &TARAWA_TYPES, &rules::PLUS_12_MINUS_12,
);
static TARAWA_TYPES: [LocalTimeType; 2] = [
    local(41524, false, "LMT"), local(43200, false, "+12"),
];
static TARAWA_TABLE: [Transition; 1] = table([
    (-2177494324, 1),
]);

/// `Pacific/Tongatapu`: 10 transitions, then `<+13>-13`.
pub const TONGATAPU: TimeZoneRef<'static> = zone(
    &TONGATAPU_TABLE, &TONGATAPU_TYPES, &rules::PLUS_13_MINUS_13,
);
static TONGATAPU_TYPES: [LocalTimeType; 6] = [
    local(44352, false, "LMT"), local(44400, false, "+1220"), local(46800, false, "+13"),
    local(50400, true, "+14"), local(46800, false, "+13"), local(50400, true, "+14"),
];
static TONGATAPU_TABLE: [Transition; 10] = table([
    (-767189952, 1), (-284041200, 2), (939214800, 3), (953384400, 4), (973342800, 5),
    (980596800, 2), (1004792400, 5), (1012046400, 2), (1478350800, 5), (1484398800, 2),
]);

/// `Pacific/Truk`, the same as [`Pacific/Port_Moresby`](crate::pacific::PORT_MORESBY).
pub const TRUK: TimeZoneRef<'static> = crate::pacific::PORT_MORESBY;

/// `Pacific/Wake`: 1 transition, then `<+12>-12`.
pub const WAKE: TimeZoneRef<'static> = zone(&WAKE_TABLE, &WAKE_TYPES, &rules::PLUS_12_MINUS_12);
static WAKE_TYPES: [LocalTimeType; 2] = [
    local(39988, false, "LMT"), local(43200, false, "+12"),
];
static WAKE_TABLE: [Transition; 1] = table([
    (-2177492788, 1),
]);

/// `Pacific/Wallis`: 1 transition, then `<+12>-12`.
pub const WALLIS: TimeZoneRef<'static> = zone(
    &WALLIS_TABLE, &WALLIS_TYPES, &rules::PLUS_12_MINUS_12,
);
static WALLIS_TYPES: [LocalTimeType; 2] = [
    local(44120, false, "LMT"), local(43200, false, "+12"),
];
static WALLIS_TABLE: [Transition; 1] = table([
    (-2177496920, 1),
]);

/// `Pacific/Yap`, the same as [`Pacific/Port_Moresby`](crate::pacific::PORT_MORESBY).
pub const YAP: TimeZoneRef<'static> = crate::pacific::PORT_MORESBY;
