// Made by `generate` of the tz database, which is in the public domain.

//! Zones of `Africa`.

use crate::parts::*;
use crate::zones::rules;
use tz::timezone::Transition;
use tz::{LocalTimeType, TimeZoneRef};

/// `Africa/Abidjan`: 1 transition, then `GMT0`.
pub const ABIDJAN: TimeZoneRef<'static> = zone(&ABIDJAN_TABLE, &ABIDJAN_TYPES, &rules::GMT0);
static ABIDJAN_TYPES: [LocalTimeType; 2] = [
    local(-968, false, "LMT"), local(0, false, "GMT"),
];
static ABIDJAN_TABLE: [Transition; 1] = table([
    (-1830383032, 1),
]);

/// `Africa/Accra`: 61 transitions, then `GMT0`.
pub const ACCRA: TimeZoneRef<'static> = zone(&ACCRA_TABLE, &ACCRA_TYPES, &rules::GMT0);
static ACCRA_TYPES: [LocalTimeType; 6] = [
    local(-52, false, "LMT"), local(1200, true, "+0020"), local(0, false, "GMT"),
    local(1800, false, "+0030"), local(1800, true, "+0030"), local(0, false, "GMT"),
];
static ACCRA_TABLE: [Transition; 61] = table([
    (-1709337548, 2), (-1581206400, 1), (-1577917200, 2), (-1556834400, 1), (-1546294800, 2),
    (-1525298400, 1), (-1514758800, 2), (-1493762400, 1), (-1483222800, 2), (-1462226400, 1),
    (-1451686800, 2), (-1430604000, 1), (-1420064400, 2), (-1399068000, 1), (-1388528400, 2),
    (-1367532000, 1), (-1356992400, 2), (-1335996000, 1), (-1325456400, 2), (-1304373600, 1),
    (-1293834000, 2), (-1272837600, 1), (-1262298000, 2), (-1241301600, 1), (-1230762000, 2),
    (-1209765600, 1), (-1199226000, 2), (-1178143200, 1), (-1167603600, 2), (-1146607200, 1),
    (-1136067600, 2), (-1115071200, 1), (-1104531600, 2), (-1083535200, 1), (-1072995600, 2),
    (-1051912800, 1), (-1041373200, 2), (-1020376800, 1), (-1009837200, 2), (-988840800, 1),
    (-978301200, 2), (-957304800, 1), (-946765200, 2), (-936309600, 1), (-915142800, 2),
    (-904773600, 1), (-883606800, 2), (-880329600, 3), (-756952200, 2), (-610149600, 4),
    (-599610600, 2), (-578613600, 4), (-568074600, 2), (-546991200, 4), (-536452200, 2),
    (-515455200, 4), (-504916200, 2), (-483919200, 4), (-473380200, 2), (-452383200, 4),
    (-441844200, 2),
]);

/// `Africa/Addis_Ababa`: 2 transitions, then `EAT-3`.
pub const ADDIS_ABABA: TimeZoneRef<'static> = zone(
    &ADDIS_ABABA_TABLE, &ADDIS_ABABA_TYPES, &rules::EAT_MINUS_3,
);
static ADDIS_ABABA_TYPES: [LocalTimeType; 3] = [
    local(9288, false, "LMT"), local(9320, false, "ADMT"), local(10800, false, "EAT"),
];
static ADDIS_ABABA_TABLE: [Transition; 2] = table([
    (-3155682888, 1), (-1062210920, 2),
]);

/// `Africa/Algiers`: 34 transitions, then `CET-1`.
pub const ALGIERS: TimeZoneRef<'static> = zone(&ALGIERS_TABLE, &ALGIERS_TYPES, &rules::CET_MINUS_1);
static ALGIERS_TYPES: [LocalTimeType; 8] = [
    local(732, false, "LMT"), local(561, false, "PMT"), local(3600, true, "WEST"),
    local(0, false, "WET"), local(0, false, "WET"), local(7200, true, "CEST"),
    local(3600, false, "CET"), local(3600, true, "WEST"),
];
static ALGIERS_TABLE: [Transition; 34] = table([
    (-2486592732, 1), (-1855958961, 4), (-1689814800, 2), (-1680397200, 3), (-1665363600, 2),
    (-1648342800, 3), (-1635123600, 2), (-1616893200, 3), (-1604278800, 2), (-1585443600, 3),
    (-1574038800, 2), (-1552266000, 3), (-1539997200, 2), (-1531443600, 3), (-956365200, 2),
    (-950486400, 4), (-942012000, 6), (-812502000, 5), (-796262400, 6), (-781052400, 5),
    (-766630800, 6), (-733280400, 4), (-439430400, 6), (-212029200, 4), (41468400, 2),
    (54774000, 3), (231724800, 7), (246236400, 6), (259545600, 5), (275274000, 6), (309740400, 4),
    (325468800, 7), (341802000, 4), (357523200, 6),
]);

/// `Africa/Asmara`: 3 transitions, then `EAT-3`.
pub const ASMARA: TimeZoneRef<'static> = zone(&ASMARA_TABLE, &ASMARA_TYPES, &rules::EAT_MINUS_3);
static ASMARA_TYPES: [LocalTimeType; 4] = [
    local(9332, false, "LMT"), local(9332, false, "AMT"), local(9320, false, "ADMT"),
    local(10800, false, "EAT"),
];
static ASMARA_TABLE: [Transition; 3] = table([
    (-3155682932, 1), (-2524530932, 2), (-1062210920, 3),
]);

/// `Africa/Asmera`, the same as [`Africa/Nairobi`](crate::africa::NAIROBI).
pub const ASMERA: TimeZoneRef<'static> = crate::africa::NAIROBI;

/// `Africa/Bamako`: 3 transitions, then `GMT0`.
pub const BAMAKO: TimeZoneRef<'static> = zone(&BAMAKO_TABLE, &BAMAKO_TYPES, &rules::GMT0);
static BAMAKO_TYPES: [LocalTimeType; 4] = [
    local(-1920, false, "LMT"), local(0, false, "GMT"), local(-3600, false, "-01"),
    local(0, false, "GMT"),
];
static BAMAKO_TABLE: [Transition; 3] = table([
    (-1830382080, 1), (-1131235200, 2), (-300841200, 1),
]);

/// `Africa/Bangui`: 1 transition, then `WAT-1`.
pub const BANGUI: TimeZoneRef<'static> = zone(&BANGUI_TABLE, &BANGUI_TYPES, &rules::WAT_MINUS_1);
static BANGUI_TYPES: [LocalTimeType; 2] = [
    local(4460, false, "LMT"), local(3600, false, "WAT"),
];
static BANGUI_TABLE: [Transition; 1] = table([
    (-1830388460, 1),
]);

/// `Africa/Banjul`: 3 transitions, then `GMT0`.
pub const BANJUL: TimeZoneRef<'static> = zone(&BANJUL_TABLE, &BANJUL_TYPES, &rules::GMT0);
static BANJUL_TYPES: [LocalTimeType; 4] = [
    local(-3996, false, "LMT"), local(-3996, false, "BMT"), local(-3600, false, "-01"),
    local(0, false, "GMT"),
];
static BANJUL_TABLE: [Transition; 3] = table([
    (-1830380004, 1), (-1159829604, 2), (-880930800, 3),
]);

/// `Africa/Bissau`: 2 transitions, then `GMT0`.
pub const BISSAU: TimeZoneRef<'static> = zone(&BISSAU_TABLE, &BISSAU_TYPES, &rules::GMT0);
static BISSAU_TYPES: [LocalTimeType; 3] = [
    local(-3740, false, "LMT"), local(-3600, false, "-01"), local(0, false, "GMT"),
];
static BISSAU_TABLE: [Transition; 2] = table([
    (-1830380400, 1), (157770000, 2),
]);

/// `Africa/Blantyre`: 3 transitions, then `CAT-2`.
pub const BLANTYRE: TimeZoneRef<'static> = zone(
    &BLANTYRE_TABLE, &BLANTYRE_TYPES, &rules::CAT_MINUS_2,
);
static BLANTYRE_TYPES: [LocalTimeType; 4] = [
    local(8400, false, "LMT"), local(8470, false, "ZMT"), local(8460, false, "ZMT"),
    local(7200, false, "CAT"),
];
static BLANTYRE_TABLE: [Transition; 3] = table([
    (-1844302800, 1), (-1751682070, 2), (-1404440460, 3),
]);

/// `Africa/Brazzaville`: 1 transition, then `WAT-1`.
pub const BRAZZAVILLE: TimeZoneRef<'static> = zone(
    &BRAZZAVILLE_TABLE, &BRAZZAVILLE_TYPES, &rules::WAT_MINUS_1,
);
static BRAZZAVILLE_TYPES: [LocalTimeType; 2] = [
    local(3668, false, "LMT"), local(3600, false, "WAT"),
];
static BRAZZAVILLE_TABLE: [Transition; 1] = table([
    (-1830387668, 1),
]);

/// `Africa/Bujumbura`: 1 transition, then `CAT-2`.
pub const BUJUMBURA: TimeZoneRef<'static> = zone(
    &BUJUMBURA_TABLE, &BUJUMBURA_TYPES, &rules::CAT_MINUS_2,
);
static BUJUMBURA_TYPES: [LocalTimeType; 2] = [
    local(7048, false, "LMT"), local(7200, false, "CAT"),
];
static BUJUMBURA_TABLE: [Transition; 1] = table([
    (-2524528648, 1),
]);

/// `Africa/Cairo`: 128 transitions, then `EET-2EEST,M4.5.5/0,M10.5.4/24`.
pub const CAIRO: TimeZoneRef<'static> = zone(
    &CAIRO_TABLE, &CAIRO_TYPES, &rules::EET_MINUS_2EEST_M4_5_5_AT_0_M10_5_4_AT_24,
);
static CAIRO_TYPES: [LocalTimeType; 4] = [
    local(7509, false, "LMT"), local(10800, true, "EEST"), local(7200, false, "EET"),
    local(10800, true, "EEST"),
];
static CAIRO_TABLE: [Transition; 128] = table([
    (-2185409109, 2), (-929844000, 1), (-923108400, 2), (-906170400, 1), (-892868400, 2),
    (-875844000, 1), (-857790000, 2), (-844308000, 1), (-825822000, 2), (-812685600, 1),
    (-794199600, 2), (-779853600, 1), (-762663600, 2), (-399088800, 1), (-386650800, 2),
    (-368330400, 1), (-355114800, 2), (-336790800, 1), (-323654400, 2), (-305168400, 1),
    (-292032000, 2), (-273632400, 1), (-260496000, 2), (-242096400, 1), (-228960000, 2),
    (-210560400, 1), (-197424000, 2), (-178938000, 1), (-165801600, 2), (-147402000, 1),
    (-134265600, 2), (-115866000, 1), (-102643200, 2), (-84330000, 1), (-71107200, 2),
    (-52707600, 1), (-39484800, 2), (-21171600, 1), (-7948800, 2), (10364400, 1), (23587200, 2),
    (41900400, 1), (55123200, 2), (73522800, 1), (86745600, 2), (105058800, 1), (118281600, 2),
    (136594800, 1), (149817600, 2), (168130800, 1), (181353600, 2), (199753200, 1), (212976000, 2),
    (231289200, 1), (244512000, 2), (262825200, 1), (276048000, 2), (294361200, 1), (307584000, 2),
    (325983600, 1), (339206400, 2), (357519600, 1), (370742400, 2), (396399600, 1), (402278400, 2),
    (426812400, 1), (433814400, 2), (452214000, 1), (465436800, 2), (483750000, 1), (496972800, 2),
    (515286000, 1), (528508800, 2), (546822000, 1), (560044800, 2), (578444400, 1), (591667200, 2),
    (610412400, 1), (623203200, 2), (641516400, 1), (654739200, 2), (673052400, 1), (686275200, 2),
    (704674800, 1), (717897600, 2), (736210800, 1), (749433600, 2), (767746800, 1), (780969600, 2),
    (799020000, 3), (812322000, 2), (830469600, 3), (843771600, 2), (861919200, 3), (875221200, 2),
    (893368800, 3), (906670800, 2), (925423200, 3), (938725200, 2), (956872800, 3), (970174800, 2),
    (988322400, 3), (1001624400, 2), (1019772000, 3), (1033074000, 2), (1051221600, 3),
    (1064523600, 2), (1083276000, 3), (1096578000, 2), (1114725600, 3), (1128027600, 2),
    (1146175200, 3), (1158872400, 2), (1177624800, 3), (1189112400, 2), (1209074400, 3),
    (1219957200, 2), (1240524000, 3), (1250802000, 2), (1272578400, 3), (1281474000, 2),
    (1284069600, 1), (1285880400, 2), (1400191200, 1), (1403816400, 2), (1406844000, 1),
    (1411678800, 2), (1682632800, 1),
]);

/// `Africa/Casablanca`: 197 transitions, then `<+01>-1`.
pub const CASABLANCA: TimeZoneRef<'static> = zone(
    &CASABLANCA_TABLE, &CASABLANCA_TYPES, &rules::PLUS_01_MINUS_1,
);
static CASABLANCA_TYPES: [LocalTimeType; 5] = [
    local(-1820, false, "LMT"), local(3600, true, "+01"), local(0, false, "+00"),
    local(3600, false, "+01"), local(0, true, "+00"),
];
static CASABLANCA_TABLE: [Transition; 197] = table([
    (-1773012580, 2), (-956361600, 1), (-950490000, 2), (-942019200, 1), (-761187600, 2),
    (-617241600, 1), (-605149200, 2), (-81432000, 1), (-71110800, 2), (141264000, 1),
    (147222000, 2), (199756800, 1), (207702000, 2), (231292800, 1), (244249200, 2), (265507200, 1),
    (271033200, 2), (448243200, 3), (504918000, 2), (1212278400, 1), (1220223600, 2),
    (1243814400, 1), (1250809200, 2), (1272758400, 1), (1281222000, 2), (1301788800, 1),
    (1312066800, 2), (1335664800, 1), (1342749600, 2), (1345428000, 1), (1348970400, 2),
    (1367114400, 1), (1373162400, 2), (1376100000, 1), (1382839200, 2), (1396144800, 1),
    (1403920800, 2), (1406944800, 1), (1414288800, 2), (1427594400, 1), (1434247200, 2),
    (1437271200, 1), (1445738400, 2), (1459044000, 1), (1465092000, 2), (1468116000, 1),
    (1477792800, 2), (1490493600, 1), (1495332000, 2), (1498960800, 1), (1509242400, 2),
    (1521943200, 1), (1526176800, 2), (1529200800, 1), (1540692000, 3), (1557021600, 4),
    (1560045600, 3), (1587261600, 4), (1590890400, 3), (1618106400, 4), (1621130400, 3),
    (1648346400, 4), (1651975200, 3), (1679191200, 4), (1682215200, 3), (1710036000, 4),
    (1713060000, 3), (1740276000, 4), (1743904800, 3), (1771120800, 4), (1774144800, 3),
    (1801965600, 4), (1804989600, 3), (1832205600, 4), (1835834400, 3), (1863050400, 4),
    (1866074400, 3), (1893290400, 4), (1896919200, 3), (1924135200, 4), (1927159200, 3),
    (1954980000, 4), (1958004000, 3), (1985220000, 4), (1988848800, 3), (2016064800, 4),
    (2019088800, 3), (2046304800, 4), (2049933600, 3), (2077149600, 4), (2080778400, 3),
    (2107994400, 4), (2111018400, 3), (2138234400, 4), (2141863200, 3), (2169079200, 4),
    (2172103200, 3), (2199924000, 4), (2202948000, 3), (2230164000, 4), (2233792800, 3),
    (2261008800, 4), (2264032800, 3), (2291248800, 4), (2294877600, 3), (2322093600, 4),
    (2325722400, 3), (2352938400, 4), (2355962400, 3), (2383178400, 4), (2386807200, 3),
    (2414023200, 4), (2417047200, 3), (2444868000, 4), (2447892000, 3), (2475108000, 4),
    (2478736800, 3), (2505952800, 4), (2508976800, 3), (2536192800, 4), (2539821600, 3),
    (2567037600, 4), (2570666400, 3), (2597882400, 4), (2600906400, 3), (2628122400, 4),
    (2631751200, 3), (2658967200, 4), (2661991200, 3), (2689812000, 4), (2692836000, 3),
    (2720052000, 4), (2723680800, 3), (2750896800, 4), (2753920800, 3), (2781136800, 4),
    (2784765600, 3), (2811981600, 4), (2815610400, 3), (2842826400, 4), (2845850400, 3),
    (2873066400, 4), (2876695200, 3), (2903911200, 4), (2906935200, 3), (2934756000, 4),
    (2937780000, 3), (2964996000, 4), (2968624800, 3), (2995840800, 4), (2998864800, 3),
    (3026080800, 4), (3029709600, 3), (3056925600, 4), (3060554400, 3), (3087770400, 4),
    (3090794400, 3), (3118010400, 4), (3121639200, 3), (3148855200, 4), (3151879200, 3),
    (3179700000, 4), (3182724000, 3), (3209940000, 4), (3213568800, 3), (3240784800, 4),
    (3243808800, 3), (3271024800, 4), (3274653600, 3), (3301869600, 4), (3305498400, 3),
    (3332714400, 4), (3335738400, 3), (3362954400, 4), (3366583200, 3), (3393799200, 4),
    (3396823200, 3), (3424644000, 4), (3427668000, 3), (3454884000, 4), (3458512800, 3),
    (3485728800, 4), (3488752800, 3), (3515968800, 4), (3519597600, 3), (3546813600, 4),
    (3549837600, 3), (3577658400, 4), (3580682400, 3), (3607898400, 4), (3611527200, 3),
    (3638743200, 4), (3641767200, 3), (3669588000, 4), (3672612000, 3), (3699828000, 4),
    (3703456800, 3),
]);

/// `Africa/Ceuta`: 43 transitions, then `CET-1CEST,M3.5.0,M10.5.0/3`.
pub const CEUTA: TimeZoneRef<'static> = zone(
    &CEUTA_TABLE, &CEUTA_TYPES, &rules::CET_MINUS_1CEST_M3_5_0_M10_5_0_AT_3,
);
static CEUTA_TYPES: [LocalTimeType; 8] = [
    local(-1276, false, "LMT"), local(0, false, "WET"), local(3600, true, "WEST"),
    local(0, false, "WET"), local(0, false, "WET"), local(3600, false, "CET"),
    local(7200, true, "CEST"), local(3600, false, "CET"),
];
static CEUTA_TABLE: [Transition; 43] = table([
    (-2177452800, 1), (-1630112400, 2), (-1616810400, 3), (-1442451600, 2), (-1427673600, 4),
    (-1379293200, 2), (-1364774400, 4), (-1348448400, 2), (-1333324800, 4), (-1316390400, 2),
    (-1301270400, 4), (-81432000, 2), (-71110800, 3), (141264000, 2), (147222000, 3),
    (199756800, 2), (207702000, 3), (231292800, 2), (244249200, 3), (265507200, 2), (271033200, 3),
    (448243200, 5), (512528400, 6), (528253200, 7), (543978000, 6), (559702800, 7), (575427600, 6),
    (591152400, 7), (606877200, 6), (622602000, 7), (638326800, 6), (654656400, 7), (670381200, 6),
    (686106000, 7), (701830800, 6), (717555600, 7), (733280400, 6), (749005200, 7), (764730000, 6),
    (780454800, 7), (796179600, 6), (811904400, 7), (828234000, 6),
]);

/// `Africa/Conakry`: 3 transitions, then `GMT0`.
pub const CONAKRY: TimeZoneRef<'static> = zone(&CONAKRY_TABLE, &CONAKRY_TYPES, &rules::GMT0);
static CONAKRY_TYPES: [LocalTimeType; 4] = [
    local(-3292, false, "LMT"), local(0, false, "GMT"), local(-3600, false, "-01"),
    local(0, false, "GMT"),
];
static CONAKRY_TABLE: [Transition; 3] = table([
    (-1830380708, 1), (-1131235200, 2), (-315615600, 1),
]);

/// `Africa/Dakar`: 2 transitions, then `GMT0`.
pub const DAKAR: TimeZoneRef<'static> = zone(&DAKAR_TABLE, &DAKAR_TYPES, &rules::GMT0);
static DAKAR_TYPES: [LocalTimeType; 3] = [
    local(-4184, false, "LMT"), local(-3600, false, "-01"), local(0, false, "GMT"),
];
static DAKAR_TABLE: [Transition; 2] = table([
    (-1830379816, 1), (-902098800, 2),
]);

/// `Africa/Dar_es_Salaam`: 3 transitions, then `EAT-3`.
pub const DAR_ES_SALAAM: TimeZoneRef<'static> = zone(
    &DAR_ES_SALAAM_TABLE, &DAR_ES_SALAAM_TYPES, &rules::EAT_MINUS_3,
);
static DAR_ES_SALAAM_TYPES: [LocalTimeType; 4] = [
    local(9428, false, "LMT"), local(10800, false, "EAT"), local(9900, false, "+0245"),
    local(10800, false, "EAT"),
];
static DAR_ES_SALAAM_TABLE: [Transition; 3] = table([
    (-1230777428, 1), (-694321200, 2), (-284006700, 1),
]);

/// `Africa/Djibouti`: 1 transition, then `EAT-3`.
pub const DJIBOUTI: TimeZoneRef<'static> = zone(
    &DJIBOUTI_TABLE, &DJIBOUTI_TYPES, &rules::EAT_MINUS_3,
);
static DJIBOUTI_TYPES: [LocalTimeType; 2] = [
    local(10356, false, "LMT"), local(10800, false, "EAT"),
];
static DJIBOUTI_TABLE: [Transition; 1] = table([
    (-1846291956, 1),
]);

/// `Africa/Douala`: 1 transition, then `WAT-1`.
pub const DOUALA: TimeZoneRef<'static> = zone(&DOUALA_TABLE, &DOUALA_TYPES, &rules::WAT_MINUS_1);
static DOUALA_TYPES: [LocalTimeType; 2] = [
    local(2328, false, "LMT"), local(3600, false, "WAT"),
];
static DOUALA_TABLE: [Transition; 1] = table([
    (-1830386328, 1),
]);

/// `Africa/El_Aaiun`: 186 transitions, then `<+01>-1`.
pub const EL_AAIUN: TimeZoneRef<'static> = zone(
    &EL_AAIUN_TABLE, &EL_AAIUN_TYPES, &rules::PLUS_01_MINUS_1,
);
static EL_AAIUN_TYPES: [LocalTimeType; 6] = [
    local(-3168, false, "LMT"), local(-3600, false, "-01"), local(3600, true, "+01"),
    local(0, false, "+00"), local(0, true, "+00"), local(3600, false, "+01"),
];
static EL_AAIUN_TABLE: [Transition; 186] = table([
    (-1136070432, 1), (198291600, 3), (199756800, 2), (207702000, 3), (231292800, 2),
    (244249200, 3), (265507200, 2), (271033200, 3), (1212278400, 2), (1220223600, 3),
    (1243814400, 2), (1250809200, 3), (1272758400, 2), (1281222000, 3), (1301788800, 2),
    (1312066800, 3), (1335664800, 2), (1342749600, 3), (1345428000, 2), (1348970400, 3),
    (1367114400, 2), (1373162400, 3), (1376100000, 2), (1382839200, 3), (1396144800, 2),
    (1403920800, 3), (1406944800, 2), (1414288800, 3), (1427594400, 2), (1434247200, 3),
    (1437271200, 2), (1445738400, 3), (1459044000, 2), (1465092000, 3), (1468116000, 2),
    (1477792800, 3), (1490493600, 2), (1495332000, 3), (1498960800, 2), (1509242400, 3),
    (1521943200, 2), (1526176800, 3), (1529200800, 2), (1540692000, 5), (1557021600, 4),
    (1560045600, 5), (1587261600, 4), (1590890400, 5), (1618106400, 4), (1621130400, 5),
    (1648346400, 4), (1651975200, 5), (1679191200, 4), (1682215200, 5), (1710036000, 4),
    (1713060000, 5), (1740276000, 4), (1743904800, 5), (1771120800, 4), (1774144800, 5),
    (1801965600, 4), (1804989600, 5), (1832205600, 4), (1835834400, 5), (1863050400, 4),
    (1866074400, 5), (1893290400, 4), (1896919200, 5), (1924135200, 4), (1927159200, 5),
    (1954980000, 4), (1958004000, 5), (1985220000, 4), (1988848800, 5), (2016064800, 4),
    (2019088800, 5), (2046304800, 4), (2049933600, 5), (2077149600, 4), (2080778400, 5),
    (2107994400, 4), (2111018400, 5), (2138234400, 4), (2141863200, 5), (2169079200, 4),
    (2172103200, 5), (2199924000, 4), (2202948000, 5), (2230164000, 4), (2233792800, 5),
    (2261008800, 4), (2264032800, 5), (2291248800, 4), (2294877600, 5), (2322093600, 4),
    (2325722400, 5), (2352938400, 4), (2355962400, 5), (2383178400, 4), (2386807200, 5),
    (2414023200, 4), (2417047200, 5), (2444868000, 4), (2447892000, 5), (2475108000, 4),
    (2478736800, 5), (2505952800, 4), (2508976800, 5), (2536192800, 4), (2539821600, 5),
    (2567037600, 4), (2570666400, 5), (2597882400, 4), (2600906400, 5), (2628122400, 4),
    (2631751200, 5), (2658967200, 4), (2661991200, 5), (2689812000, 4), (2692836000, 5),
    (2720052000, 4), (2723680800, 5), (2750896800, 4), (2753920800, 5), (2781136800, 4),
    (2784765600, 5), (2811981600, 4), (2815610400, 5), (2842826400, 4), (2845850400, 5),
    (2873066400, 4), (2876695200, 5), (2903911200, 4), (2906935200, 5), (2934756000, 4),
    (2937780000, 5), (2964996000, 4), (2968624800, 5), (2995840800, 4), (2998864800, 5),
    (3026080800, 4), (3029709600, 5), (3056925600, 4), (3060554400, 5), (3087770400, 4),
    (3090794400, 5), (3118010400, 4), (3121639200, 5), (3148855200, 4), (3151879200, 5),
    (3179700000, 4), (3182724000, 5), (3209940000, 4), (3213568800, 5), (3240784800, 4),
    (3243808800, 5), (3271024800, 4), (3274653600, 5), (3301869600, 4), (3305498400, 5),
    (3332714400, 4), (3335738400, 5), (3362954400, 4), (3366583200, 5), (3393799200, 4),
    (3396823200, 5), (3424644000, 4), (3427668000, 5), (3454884000, 4), (3458512800, 5),
    (3485728800, 4), (3488752800, 5), (3515968800, 4), (3519597600, 5), (3546813600, 4),
    (3549837600, 5), (3577658400, 4), (3580682400, 5), (3607898400, 4), (3611527200, 5),
    (3638743200, 4), (3641767200, 5), (3669588000, 4), (3672612000, 5), (3699828000, 4),
    (3703456800, 5),
]);

/// `Africa/Freetown`: 19 transitions, then `GMT0`.
pub const FREETOWN: TimeZoneRef<'static> = zone(&FREETOWN_TABLE, &FREETOWN_TYPES, &rules::GMT0);
static FREETOWN_TYPES: [LocalTimeType; 5] = [
    local(-3180, false, "LMT"), local(-3180, false, "FMT"), local(-2400, true, "-0040"),
    local(-3600, false, "-01"), local(0, false, "GMT"),
];
static FREETOWN_TABLE: [Transition; 19] = table([
    (-2776979220, 1), (-1783120020, 3), (-1170284400, 2), (-1159831200, 3), (-1146610800, 2),
    (-1128295200, 3), (-1115074800, 2), (-1096759200, 3), (-1083538800, 2), (-1065136800, 3),
    (-1051916400, 2), (-1033600800, 3), (-1020380400, 2), (-1002064800, 3), (-988844400, 2),
    (-965258400, 3), (-957308400, 2), (-956964000, 3), (-885769200, 4),
]);

/// `Africa/Gaborone`: 4 transitions, then `CAT-2`.
pub const GABORONE: TimeZoneRef<'static> = zone(
    &GABORONE_TABLE, &GABORONE_TYPES, &rules::CAT_MINUS_2,
);
static GABORONE_TYPES: [LocalTimeType; 4] = [
    local(6220, false, "LMT"), local(5400, false, "SAST"), local(7200, false, "CAT"),
    local(10800, true, "CAST"),
];
static GABORONE_TABLE: [Transition; 4] = table([
    (-2682294220, 1), (-2109288600, 2), (-829526400, 3), (-813805200, 2),
]);

/// `Africa/Harare`: 1 transition, then `CAT-2`.
pub const HARARE: TimeZoneRef<'static> = zone(&HARARE_TABLE, &HARARE_TYPES, &rules::CAT_MINUS_2);
static HARARE_TYPES: [LocalTimeType; 2] = [
    local(7452, false, "LMT"), local(7200, false, "CAT"),
];
static HARARE_TABLE: [Transition; 1] = table([
    (-2109290652, 1),
]);

/// `Africa/Johannesburg`: 6 transitions, then `SAST-2`.
pub const JOHANNESBURG: TimeZoneRef<'static> = zone(
    &JOHANNESBURG_TABLE, &JOHANNESBURG_TYPES, &rules::SAST_MINUS_2,
);
static JOHANNESBURG_TYPES: [LocalTimeType; 4] = [
    local(6720, false, "LMT"), local(5400, false, "SAST"), local(10800, true, "SAST"),
    local(7200, false, "SAST"),
];
static JOHANNESBURG_TABLE: [Transition; 6] = table([
    (-2458173120, 1), (-2109288600, 3), (-860976000, 2), (-845254800, 3), (-829526400, 2),
    (-813805200, 3),
]);

/// `Africa/Juba`: 35 transitions, then `CAT-2`.
pub const JUBA: TimeZoneRef<'static> = zone(&JUBA_TABLE, &JUBA_TYPES, &rules::CAT_MINUS_2);
static JUBA_TYPES: [LocalTimeType; 5] = [
    local(7588, false, "LMT"), local(10800, true, "CAST"), local(7200, false, "CAT"),
    local(10800, false, "EAT"), local(7200, false, "CAT"),
];
static JUBA_TABLE: [Transition; 35] = table([
    (-1230775588, 2), (10360800, 1), (24786000, 2), (41810400, 1), (56322000, 2), (73432800, 1),
    (87944400, 2), (104882400, 1), (119480400, 2), (136332000, 1), (151016400, 2), (167781600, 1),
    (182552400, 2), (199231200, 1), (214174800, 2), (230680800, 1), (245710800, 2), (262735200, 1),
    (277246800, 2), (294184800, 1), (308782800, 2), (325634400, 1), (340405200, 2), (357084000, 1),
    (371941200, 2), (388533600, 1), (403477200, 2), (419983200, 1), (435013200, 2), (452037600, 1),
    (466635600, 2), (483487200, 1), (498171600, 2), (947930400, 3), (1612126800, 2),
]);

/// `Africa/Kampala`: 4 transitions, then `EAT-3`.
pub const KAMPALA: TimeZoneRef<'static> = zone(&KAMPALA_TABLE, &KAMPALA_TYPES, &rules::EAT_MINUS_3);
static KAMPALA_TYPES: [LocalTimeType; 5] = [
    local(7780, false, "LMT"), local(10800, false, "EAT"), local(9000, false, "+0230"),
    local(9900, false, "+0245"), local(10800, false, "EAT"),
];
static KAMPALA_TABLE: [Transition; 4] = table([
    (-1309745380, 1), (-1262314800, 2), (-694319400, 3), (-410237100, 1),
]);

/// `Africa/Khartoum`: 35 transitions, then `CAT-2`.
pub const KHARTOUM: TimeZoneRef<'static> = zone(
    &KHARTOUM_TABLE, &KHARTOUM_TYPES, &rules::CAT_MINUS_2,
);
static KHARTOUM_TYPES: [LocalTimeType; 5] = [
    local(7808, false, "LMT"), local(10800, true, "CAST"), local(7200, false, "CAT"),
    local(10800, false, "EAT"), local(7200, false, "CAT"),
];
static KHARTOUM_TABLE: [Transition; 35] = table([
    (-1230775808, 2), (10360800, 1), (24786000, 2), (41810400, 1), (56322000, 2), (73432800, 1),
    (87944400, 2), (104882400, 1), (119480400, 2), (136332000, 1), (151016400, 2), (167781600, 1),
    (182552400, 2), (199231200, 1), (214174800, 2), (230680800, 1), (245710800, 2), (262735200, 1),
    (277246800, 2), (294184800, 1), (308782800, 2), (325634400, 1), (340405200, 2), (357084000, 1),
    (371941200, 2), (388533600, 1), (403477200, 2), (419983200, 1), (435013200, 2), (452037600, 1),
    (466635600, 2), (483487200, 1), (498171600, 2), (947930400, 3), (1509483600, 2),
]);

/// `Africa/Kigali`: 1 transition, then `CAT-2`.
pub const KIGALI: TimeZoneRef<'static> = zone(&KIGALI_TABLE, &KIGALI_TYPES, &rules::CAT_MINUS_2);
static KIGALI_TYPES: [LocalTimeType; 2] = [
    local(7216, false, "LMT"), local(7200, false, "CAT"),
];
static KIGALI_TABLE: [Transition; 1] = table([
    (-1091498416, 1),
]);

/// `Africa/Kinshasa`: 1 transition, then `WAT-1`.
pub const KINSHASA: TimeZoneRef<'static> = zone(
    &KINSHASA_TABLE, &KINSHASA_TYPES, &rules::WAT_MINUS_1,
);
static KINSHASA_TYPES: [LocalTimeType; 2] = [
    local(3672, false, "LMT"), local(3600, false, "WAT"),
];
static KINSHASA_TABLE: [Transition; 1] = table([
    (-2276643672, 1),
]);

/// `Africa/Lagos`: 4 transitions, then `WAT-1`.
pub const LAGOS: TimeZoneRef<'static> = zone(&LAGOS_TABLE, &LAGOS_TYPES, &rules::WAT_MINUS_1);
static LAGOS_TYPES: [LocalTimeType; 4] = [
    local(815, false, "LMT"), local(0, false, "GMT"), local(1800, false, "+0030"),
    local(3600, false, "WAT"),
];
static LAGOS_TABLE: [Transition; 4] = table([
    (-2035584815, 1), (-1940889600, 0), (-1767226415, 2), (-1588465800, 3),
]);

/// `Africa/Libreville`: 1 transition, then `WAT-1`.
pub const LIBREVILLE: TimeZoneRef<'static> = zone(
    &LIBREVILLE_TABLE, &LIBREVILLE_TYPES, &rules::WAT_MINUS_1,
);
static LIBREVILLE_TYPES: [LocalTimeType; 2] = [
    local(2268, false, "LMT"), local(3600, false, "WAT"),
];
static LIBREVILLE_TABLE: [Transition; 1] = table([
    (-1830386268, 1),
]);

/// `Africa/Lome`: 1 transition, then `GMT0`.
pub const LOME: TimeZoneRef<'static> = zone(&LOME_TABLE, &LOME_TYPES, &rules::GMT0);
static LOME_TYPES: [LocalTimeType; 2] = [
    local(292, false, "LMT"), local(0, false, "GMT"),
];
static LOME_TABLE: [Transition; 1] = table([
    (-2429827492, 1),
]);

/// `Africa/Luanda`: 2 transitions, then `WAT-1`.
pub const LUANDA: TimeZoneRef<'static> = zone(&LUANDA_TABLE, &LUANDA_TYPES, &rules::WAT_MINUS_1);
static LUANDA_TYPES: [LocalTimeType; 3] = [
    local(3176, false, "LMT"), local(3124, false, "LMT"), local(3600, false, "WAT"),
];
static LUANDA_TABLE: [Transition; 2] = table([
    (-2461452776, 1), (-1830387600, 2),
]);

/// `Africa/Lubumbashi`: 2 transitions, then `CAT-2`.
pub const LUBUMBASHI: TimeZoneRef<'static> = zone(
    &LUBUMBASHI_TABLE, &LUBUMBASHI_TYPES, &rules::CAT_MINUS_2,
);
static LUBUMBASHI_TYPES: [LocalTimeType; 3] = [
    local(6592, false, "LMT"), local(3600, false, "WAT"), local(7200, false, "CAT"),
];
static LUBUMBASHI_TABLE: [Transition; 2] = table([
    (-2276646592, 1), (-1567990800, 2),
]);

/// `Africa/Lusaka`: 1 transition, then `CAT-2`.
pub const LUSAKA: TimeZoneRef<'static> = zone(&LUSAKA_TABLE, &LUSAKA_TYPES, &rules::CAT_MINUS_2);
static LUSAKA_TYPES: [LocalTimeType; 2] = [
    local(6788, false, "LMT"), local(7200, false, "CAT"),
];
static LUSAKA_TABLE: [Transition; 1] = table([
    (-2109289988, 1),
]);

/// `Africa/Malabo`: 2 transitions, then `WAT-1`.
pub const MALABO: TimeZoneRef<'static> = zone(&MALABO_TABLE, &MALABO_TYPES, &rules::WAT_MINUS_1);
static MALABO_TYPES: [LocalTimeType; 3] = [
    local(2108, false, "LMT"), local(0, false, "GMT"), local(3600, false, "WAT"),
];
static MALABO_TABLE: [Transition; 2] = table([
    (-1830386108, 1), (-190857600, 2),
]);

/// `Africa/Maputo`: 1 transition, then `CAT-2`.
pub const MAPUTO: TimeZoneRef<'static> = zone(&MAPUTO_TABLE, &MAPUTO_TYPES, &rules::CAT_MINUS_2);
static MAPUTO_TYPES: [LocalTimeType; 2] = [
    local(7818, false, "LMT"), local(7200, false, "CAT"),
];
static MAPUTO_TABLE: [Transition; 1] = table([
    (-1924999818, 1),
]);

/// `Africa/Maseru`: 3 transitions, then `SAST-2`.
pub const MASERU: TimeZoneRef<'static> = zone(&MASERU_TABLE, &MASERU_TYPES, &rules::SAST_MINUS_2);
static MASERU_TYPES: [LocalTimeType; 3] = [
    local(6600, false, "LMT"), local(7200, false, "SAST"), local(10800, true, "SAST"),
];
static MASERU_TABLE: [Transition; 3] = table([
    (-2109289800, 1), (-829526400, 2), (-813805200, 1),
]);

/// `Africa/Mbabane`: 1 transition, then `SAST-2`.
pub const MBABANE: TimeZoneRef<'static> = zone(
    &MBABANE_TABLE, &MBABANE_TYPES, &rules::SAST_MINUS_2,
);
static MBABANE_TYPES: [LocalTimeType; 2] = [
    local(7464, false, "LMT"), local(7200, false, "SAST"),
];
static MBABANE_TABLE: [Transition; 1] = table([
    (-2109290664, 1),
]);

/// `Africa/Mogadishu`: 3 transitions, then `EAT-3`.
pub const MOGADISHU: TimeZoneRef<'static> = zone(
    &MOGADISHU_TABLE, &MOGADISHU_TYPES, &rules::EAT_MINUS_3,
);
static MOGADISHU_TYPES: [LocalTimeType; 4] = [
    local(10888, false, "LMT"), local(10800, false, "EAT"), local(9000, false, "+0230"),
    local(10800, false, "EAT"),
];
static MOGADISHU_TABLE: [Transition; 3] = table([
    (-2403572488, 1), (-1230778800, 2), (-410236200, 1),
]);

/// `Africa/Monrovia`: 3 transitions, then `GMT0`.
pub const MONROVIA: TimeZoneRef<'static> = zone(&MONROVIA_TABLE, &MONROVIA_TYPES, &rules::GMT0);
static MONROVIA_TYPES: [LocalTimeType; 4] = [
    local(-2588, false, "LMT"), local(-2588, false, "MMT"), local(-2670, false, "MMT"),
    local(0, false, "GMT"),
];
static MONROVIA_TABLE: [Transition; 3] = table([
    (-2776979812, 1), (-1604359012, 2), (63593070, 3),
]);

/// `Africa/Nairobi`: 5 transitions, then `EAT-3`.
pub const NAIROBI: TimeZoneRef<'static> = zone(&NAIROBI_TABLE, &NAIROBI_TYPES, &rules::EAT_MINUS_3);
static NAIROBI_TYPES: [LocalTimeType; 5] = [
    local(8836, false, "LMT"), local(9000, false, "+0230"), local(10800, false, "EAT"),
    local(9900, false, "+0245"), local(10800, false, "EAT"),
];
static NAIROBI_TABLE: [Transition; 5] = table([
    (-1946168836, 1), (-1309746600, 2), (-1261969200, 1), (-1041388200, 3), (-865305900, 2),
]);

/// `Africa/Ndjamena`: 3 transitions, then `WAT-1`.
pub const NDJAMENA: TimeZoneRef<'static> = zone(
    &NDJAMENA_TABLE, &NDJAMENA_TYPES, &rules::WAT_MINUS_1,
);
static NDJAMENA_TYPES: [LocalTimeType; 3] = [
    local(3612, false, "LMT"), local(3600, false, "WAT"), local(7200, true, "WAST"),
];
static NDJAMENA_TABLE: [Transition; 3] = table([
    (-1830387612, 1), (308703600, 2), (321314400, 1),
]);

/// `Africa/Niamey`: 3 transitions, then `WAT-1`.
pub const NIAMEY: TimeZoneRef<'static> = zone(&NIAMEY_TABLE, &NIAMEY_TYPES, &rules::WAT_MINUS_1);
static NIAMEY_TYPES: [LocalTimeType; 4] = [
    local(508, false, "LMT"), local(-3600, false, "-01"), local(0, false, "GMT"),
    local(3600, false, "WAT"),
];
static NIAMEY_TABLE: [Transition; 3] = table([
    (-1830384508, 1), (-1131231600, 2), (-315619200, 3),
]);

/// `Africa/Nouakchott`: 3 transitions, then `GMT0`.
pub const NOUAKCHOTT: TimeZoneRef<'static> = zone(
    &NOUAKCHOTT_TABLE, &NOUAKCHOTT_TYPES, &rules::GMT0,
);
static NOUAKCHOTT_TYPES: [LocalTimeType; 4] = [
    local(-3828, false, "LMT"), local(0, false, "GMT"), local(-3600, false, "-01"),
    local(0, false, "GMT"),
];
static NOUAKCHOTT_TABLE: [Transition; 3] = table([
    (-1830380172, 1), (-1131235200, 2), (-286930800, 1),
]);

/// `Africa/Ouagadougou`: 1 transition, then `GMT0`.
pub const OUAGADOUGOU: TimeZoneRef<'static> = zone(
    &OUAGADOUGOU_TABLE, &OUAGADOUGOU_TYPES, &rules::GMT0,
);
static OUAGADOUGOU_TYPES: [LocalTimeType; 2] = [
    local(-364, false, "LMT"), local(0, false, "GMT"),
];
static OUAGADOUGOU_TABLE: [Transition; 1] = table([
    (-1830383636, 1),
]);

/// `Africa/Porto-Novo`: 2 transitions, then `WAT-1`.
pub const PORTO_NOVO: TimeZoneRef<'static> = zone(
    &PORTO_NOVO_TABLE, &PORTO_NOVO_TYPES, &rules::WAT_MINUS_1,
);
static PORTO_NOVO_TYPES: [LocalTimeType; 3] = [
    local(628, false, "LMT"), local(0, false, "GMT"), local(3600, false, "WAT"),
];
static PORTO_NOVO_TABLE: [Transition; 2] = table([
    (-1830384628, 1), (-1131235200, 2),
]);

/// `Africa/Sao_Tome`: 4 transitions, then `GMT0`.
pub const SAO_TOME: TimeZoneRef<'static> = zone(&SAO_TOME_TABLE, &SAO_TOME_TYPES, &rules::GMT0);
static SAO_TOME_TYPES: [LocalTimeType; 5] = [
    local(1616, false, "LMT"), local(-2205, false, "LMT"), local(0, false, "GMT"),
    local(3600, false, "WAT"), local(0, false, "GMT"),
];
static SAO_TOME_TABLE: [Transition; 4] = table([
    (-2713912016, 1), (-1830384000, 2), (1514768400, 3), (1546304400, 4),
]);

/// `Africa/Timbuktu`, the same as [`Africa/Abidjan`](crate::africa::ABIDJAN).
pub const TIMBUKTU: TimeZoneRef<'static> = crate::africa::ABIDJAN;

/// `Africa/Tripoli`: 32 transitions, then `EET-2`.
pub const TRIPOLI: TimeZoneRef<'static> = zone(&TRIPOLI_TABLE, &TRIPOLI_TYPES, &rules::EET_MINUS_2);
static TRIPOLI_TYPES: [LocalTimeType; 4] = [
    local(3164, false, "LMT"), local(7200, true, "CEST"), local(3600, false, "CET"),
    local(7200, false, "EET"),
];
static TRIPOLI_TABLE: [Transition; 32] = table([
    (-1577926364, 2), (-574902000, 1), (-568087200, 2), (-512175600, 1), (-504928800, 2),
    (-449888400, 1), (-441856800, 2), (-347158800, 3), (378684000, 2), (386463600, 1),
    (402271200, 2), (417999600, 1), (433807200, 2), (449622000, 1), (465429600, 2), (481590000, 1),
    (496965600, 2), (512953200, 1), (528674400, 2), (544230000, 1), (560037600, 2), (575852400, 1),
    (591660000, 2), (607388400, 1), (623196000, 2), (641775600, 3), (844034400, 2), (860108400, 1),
    (875916000, 3), (1352505600, 2), (1364515200, 1), (1382659200, 3),
]);

/// `Africa/Tunis`: 34 transitions, then `CET-1`.
pub const TUNIS: TimeZoneRef<'static> = zone(&TUNIS_TABLE, &TUNIS_TYPES, &rules::CET_MINUS_1);
static TUNIS_TYPES: [LocalTimeType; 6] = [
    local(2444, false, "LMT"), local(561, false, "PMT"), local(7200, true, "CEST"),
    local(3600, false, "CET"), local(3600, false, "CET"), local(7200, true, "CEST"),
];
static TUNIS_TABLE: [Transition; 34] = table([
    (-2797202444, 1), (-1855958961, 4), (-969242400, 2), (-950493600, 3), (-941940000, 2),
    (-891136800, 4), (-877827600, 5), (-857257200, 4), (-844556400, 5), (-842918400, 4),
    (-842223600, 5), (-828230400, 4), (-812502000, 5), (-796269600, 4), (-781052400, 5),
    (-766634400, 4), (231202800, 2), (243903600, 3), (262825200, 2), (276044400, 3), (581122800, 2),
    (591145200, 3), (606870000, 2), (622594800, 3), (641516400, 2), (654649200, 3), (1114902000, 2),
    (1128038400, 3), (1143334800, 2), (1162083600, 3), (1174784400, 2), (1193533200, 3),
    (1206838800, 2), (1224982800, 3),
]);

/// `Africa/Windhoek`: 53 transitions, then `CAT-2`.
pub const WINDHOEK: TimeZoneRef<'static> = zone(
    &WINDHOEK_TABLE, &WINDHOEK_TYPES, &rules::CAT_MINUS_2,
);
static WINDHOEK_TYPES: [LocalTimeType; 6] = [
    local(4104, false, "LMT"), local(5400, false, "+0130"), local(7200, false, "SAST"),
    local(10800, true, "SAST"), local(3600, true, "WAT"), local(7200, false, "CAT"),
];
static WINDHOEK_TABLE: [Transition; 53] = table([
    (-2458170504, 1), (-2109288600, 2), (-860976000, 3), (-845254800, 2), (637970400, 5),
    (764200800, 4), (778640400, 5), (796780800, 4), (810090000, 5), (828835200, 4), (841539600, 5),
    (860284800, 4), (873594000, 5), (891734400, 4), (905043600, 5), (923184000, 4), (936493200, 5),
    (954633600, 4), (967942800, 5), (986083200, 4), (999392400, 5), (1018137600, 4),
    (1030842000, 5), (1049587200, 4), (1062896400, 5), (1081036800, 4), (1094346000, 5),
    (1112486400, 4), (1125795600, 5), (1143936000, 4), (1157245200, 5), (1175385600, 4),
    (1188694800, 5), (1207440000, 4), (1220749200, 5), (1238889600, 4), (1252198800, 5),
    (1270339200, 4), (1283648400, 5), (1301788800, 4), (1315098000, 5), (1333238400, 4),
    (1346547600, 5), (1365292800, 4), (1377997200, 5), (1396742400, 4), (1410051600, 5),
    (1428192000, 4), (1441501200, 5), (1459641600, 4), (1472950800, 5), (1491091200, 4),
    (1504400400, 5),
]);
