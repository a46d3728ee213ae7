// Made by `generate` of the tz database, which is in the public domain.

use crate::parts::*;
use tz::timezone::Transition;
use tz::{LocalTimeType, TimeZoneRef};

pub mod africa;
pub mod america;
pub mod antarctica;
pub mod arctic;
pub mod asia;
pub mod atlantic;
pub mod australia;
pub mod brazil;
pub mod canada;
pub mod chile;
pub mod etc;
pub mod europe;
pub mod indian;
pub mod mexico;
pub mod pacific;
pub mod us;

pub(crate) mod names;
pub(crate) mod rules;

/// `CET`: 53 transitions, then `CET-1CEST,M3.5.0,M10.5.0/3`.
pub const CET: TimeZoneRef<'static> = zone(
    &CET_TABLE, &CET_TYPES, &rules::CET_MINUS_1CEST_M3_5_0_M10_5_0_AT_3,
);
static CET_TYPES: [LocalTimeType; 4] = [
    local(3600, false, "CET"), local(7200, true, "CEST"), local(7200, true, "CEST"),
    local(3600, false, "CET"),
];
static CET_TABLE: [Transition; 53] = table([
    (-1693706400, 1), (-1680483600, 0), (-1663455600, 2), (-1650150000, 3), (-1632006000, 2),
    (-1618700400, 3), (-938905200, 2), (-857257200, 3), (-844556400, 2), (-828226800, 3),
    (-812502000, 2), (-796777200, 3), (-781052400, 2), (-766623600, 3), (228877200, 2),
    (243997200, 3), (260326800, 2), (276051600, 3), (291776400, 2), (307501200, 3), (323830800, 2),
    (338950800, 3), (354675600, 2), (370400400, 3), (386125200, 2), (401850000, 3), (417574800, 2),
    (433299600, 3), (449024400, 2), (465354000, 3), (481078800, 2), (496803600, 3), (512528400, 2),
    (528253200, 3), (543978000, 2), (559702800, 3), (575427600, 2), (591152400, 3), (606877200, 2),
    (622602000, 3), (638326800, 2), (654656400, 3), (670381200, 2), (686106000, 3), (701830800, 2),
    (717555600, 3), (733280400, 2), (749005200, 3), (764730000, 2), (780454800, 3), (796179600, 2),
    (811904400, 3), (828234000, 2),
]);

/// `CST6CDT`: 88 transitions, then `CST6CDT,M3.2.0,M11.1.0`.
pub const CST6CDT: TimeZoneRef<'static> = zone(
    &CST6CDT_TABLE, &CST6CDT_TYPES, &rules::CST6CDT_M3_2_0_M11_1_0,
);
static CST6CDT_TYPES: [LocalTimeType; 5] = [
    local(-21600, false, "CST"), local(-18000, true, "CDT"), local(-18000, true, "CWT"),
    local(-18000, true, "CPT"), local(-21600, false, "CST"),
];
static CST6CDT_TABLE: [Transition; 88] = table([
    (-1633276800, 1), (-1615136400, 0), (-1601827200, 1), (-1583686800, 0), (-880214400, 2),
    (-769395600, 3), (-765392400, 0), (-84384000, 1), (-68662800, 0), (-52934400, 1),
    (-37213200, 0), (-21484800, 1), (-5763600, 0), (9964800, 1), (25686000, 0), (41414400, 1),
    (57740400, 0), (73468800, 1), (89190000, 0), (104918400, 1), (120639600, 0), (126691200, 1),
    (152089200, 0), (162374400, 1), (183538800, 0), (199267200, 1), (215593200, 0), (230716800, 1),
    (247042800, 0), (262771200, 1), (278492400, 0), (294220800, 1), (309942000, 0), (325670400, 1),
    (341391600, 0), (357120000, 1), (372841200, 0), (388569600, 1), (404895600, 0), (420019200, 1),
    (436345200, 0), (452073600, 1), (467794800, 0), (483523200, 1), (499244400, 0), (514972800, 1),
    (530694000, 0), (544608000, 1), (562143600, 0), (576057600, 1), (594198000, 0), (607507200, 1),
    (625647600, 0), (638956800, 1), (657097200, 0), (671011200, 1), (688546800, 0), (702460800, 1),
    (719996400, 0), (733910400, 1), (752050800, 0), (765360000, 1), (783500400, 0), (796809600, 1),
    (814950000, 0), (828864000, 1), (846399600, 0), (860313600, 1), (877849200, 0), (891763200, 1),
    (909298800, 0), (923212800, 1), (941353200, 0), (954662400, 1), (972802800, 0), (986112000, 1),
    (1004252400, 0), (1018166400, 1), (1035702000, 0), (1049616000, 1), (1067151600, 0),
    (1081065600, 1), (1099206000, 0), (1112515200, 1), (1130655600, 0), (1143964800, 1),
    (1162105200, 0), (1173600000, 1),
]);

/// `Cuba`, the same as [`America/Havana`](crate::america::HAVANA).
pub const CUBA: TimeZoneRef<'static> = crate::america::HAVANA;

/// `EET`: 39 transitions, then `EET-2EEST,M3.5.0/3,M10.5.0/4`.
pub const EET: TimeZoneRef<'static> = zone(
    &EET_TABLE, &EET_TYPES, &rules::EET_MINUS_2EEST_M3_5_0_AT_3_M10_5_0_AT_4,
);
static EET_TYPES: [LocalTimeType; 4] = [
    local(7200, false, "EET"), local(10800, true, "EEST"), local(10800, true, "EEST"),
    local(7200, false, "EET"),
];
static EET_TABLE: [Transition; 39] = table([
    (228877200, 1), (243997200, 0), (260326800, 1), (276051600, 0), (291776400, 1), (307501200, 0),
    (323830800, 1), (338950800, 0), (354675600, 1), (370400400, 0), (386125200, 1), (401850000, 0),
    (417574800, 1), (433299600, 0), (449024400, 1), (465354000, 0), (481078800, 1), (496803600, 0),
    (512528400, 1), (528253200, 0), (543978000, 1), (559702800, 0), (575427600, 1), (591152400, 0),
    (606877200, 1), (622602000, 0), (638326800, 1), (654656400, 0), (670381200, 1), (686106000, 0),
    (701830800, 1), (717555600, 0), (733280400, 1), (749005200, 0), (764730000, 1), (780454800, 0),
    (796179600, 1), (811904400, 0), (828234000, 1),
]);

/// `EST`: no transitions, then `EST5`.
pub const EST: TimeZoneRef<'static> = zone(&[], &EST_TYPES, &rules::EST5);
static EST_TYPES: [LocalTimeType; 1] = [
    local(-18000, false, "EST"),
];

/// `EST5EDT`: 88 transitions, then `EST5EDT,M3.2.0,M11.1.0`.
pub const EST5EDT: TimeZoneRef<'static> = zone(
    &EST5EDT_TABLE, &EST5EDT_TYPES, &rules::EST5EDT_M3_2_0_M11_1_0,
);
static EST5EDT_TYPES: [LocalTimeType; 5] = [
    local(-18000, false, "EST"), local(-14400, true, "EDT"), local(-14400, true, "EWT"),
    local(-14400, true, "EPT"), local(-18000, false, "EST"),
];
static EST5EDT_TABLE: [Transition; 88] = table([
    (-1633280400, 1), (-1615140000, 0), (-1601830800, 1), (-1583690400, 0), (-880218000, 2),
    (-769395600, 3), (-765396000, 0), (-84387600, 1), (-68666400, 0), (-52938000, 1),
    (-37216800, 0), (-21488400, 1), (-5767200, 0), (9961200, 1), (25682400, 0), (41410800, 1),
    (57736800, 0), (73465200, 1), (89186400, 0), (104914800, 1), (120636000, 0), (126687600, 1),
    (152085600, 0), (162370800, 1), (183535200, 0), (199263600, 1), (215589600, 0), (230713200, 1),
    (247039200, 0), (262767600, 1), (278488800, 0), (294217200, 1), (309938400, 0), (325666800, 1),
    (341388000, 0), (357116400, 1), (372837600, 0), (388566000, 1), (404892000, 0), (420015600, 1),
    (436341600, 0), (452070000, 1), (467791200, 0), (483519600, 1), (499240800, 0), (514969200, 1),
    (530690400, 0), (544604400, 1), (562140000, 0), (576054000, 1), (594194400, 0), (607503600, 1),
    (625644000, 0), (638953200, 1), (657093600, 0), (671007600, 1), (688543200, 0), (702457200, 1),
    (719992800, 0), (733906800, 1), (752047200, 0), (765356400, 1), (783496800, 0), (796806000, 1),
    (814946400, 0), (828860400, 1), (846396000, 0), (860310000, 1), (877845600, 0), (891759600, 1),
    (909295200, 0), (923209200, 1), (941349600, 0), (954658800, 1), (972799200, 0), (986108400, 1),
    (1004248800, 0), (1018162800, 1), (1035698400, 0), (1049612400, 1), (1067148000, 0),
    (1081062000, 1), (1099202400, 0), (1112511600, 1), (1130652000, 0), (1143961200, 1),
    (1162101600, 0), (1173596400, 1),
]);

/// `Egypt`, the same as [`Africa/Cairo`](crate::africa::CAIRO).
pub const EGYPT: TimeZoneRef<'static> = crate::africa::CAIRO;

/// `Eire`, the same as [`Europe/Dublin`](crate::europe::DUBLIN).
pub const EIRE: TimeZoneRef<'static> = crate::europe::DUBLIN;

/// `Factory`: no transitions, then `<-00>0`.
pub const FACTORY: TimeZoneRef<'static> = zone(&[], &FACTORY_TYPES, &rules::MINUS_00_0);
static FACTORY_TYPES: [LocalTimeType; 1] = [
    local(0, false, "-00"),
];

/// `GB`, the same as [`Europe/London`](crate::europe::LONDON).
pub const GB: TimeZoneRef<'static> = crate::europe::LONDON;

/// `GB-Eire`, the same as [`Europe/London`](crate::europe::LONDON).
pub const GB_EIRE: TimeZoneRef<'static> = crate::europe::LONDON;

/// `GMT`, the same as [`Etc/GMT`](crate::etc::GMT).
pub const GMT: TimeZoneRef<'static> = crate::etc::GMT;

/// `GMT+0`, the same as [`Etc/GMT`](crate::etc::GMT).
pub const GMT_PLUS_0: TimeZoneRef<'static> = crate::etc::GMT;

/// `GMT-0`, the same as [`Etc/GMT`](crate::etc::GMT).
pub const GMT_MINUS_0: TimeZoneRef<'static> = crate::etc::GMT;

/// `GMT0`, the same as [`Etc/GMT`](crate::etc::GMT).
pub const GMT0: TimeZoneRef<'static> = crate::etc::GMT;

/// `Greenwich`, the same as [`Etc/GMT`](crate::etc::GMT).
pub const GREENWICH: TimeZoneRef<'static> = crate::etc::GMT;

/// `HST`: no transitions, then `HST10`.
pub const HST: TimeZoneRef<'static> = zone(&[], &HST_TYPES, &rules::HST10);
static HST_TYPES: [LocalTimeType; 1] = [
    local(-36000, false, "HST"),
];

/// `Hongkong`, the same as [`Asia/Hong_Kong`](crate::asia::HONG_KONG).
pub const HONGKONG: TimeZoneRef<'static> = crate::asia::HONG_KONG;

/// `Iceland`, the same as [`Africa/Abidjan`](crate::africa::ABIDJAN).
pub const ICELAND: TimeZoneRef<'static> = crate::africa::ABIDJAN;

/// `Iran`, the same as [`Asia/Tehran`](crate::asia::TEHRAN).
pub const IRAN: TimeZoneRef<'static> = crate::asia::TEHRAN;

/// `Israel`, the same as [`Asia/Jerusalem`](crate::asia::JERUSALEM).
pub const ISRAEL: TimeZoneRef<'static> = crate::asia::JERUSALEM;

/// `Jamaica`, the same as [`America/Jamaica`](crate::america::JAMAICA).
pub const JAMAICA: TimeZoneRef<'static> = crate::america::JAMAICA;

/// `Japan`, the same as [`Asia/Tokyo`](crate::asia::TOKYO).
pub const JAPAN: TimeZoneRef<'static> = crate::asia::TOKYO;

/// `Kwajalein`, the same as [`Pacific/Kwajalein`](crate::pacific::KWAJALEIN).
pub const KWAJALEIN: TimeZoneRef<'static> = crate::pacific::KWAJALEIN;

/// `Libya`, the same as [`Africa/Tripoli`](crate::africa::TRIPOLI).
pub const LIBYA: TimeZoneRef<'static> = crate::africa::TRIPOLI;

/// `MET`: 53 transitions, then `MET-1MEST,M3.5.0,M10.5.0/3`.
pub const MET: TimeZoneRef<'static> = zone(
    &CET_TABLE, &MET_TYPES, &rules::MET_MINUS_1MEST_M3_5_0_M10_5_0_AT_3,
);
static MET_TYPES: [LocalTimeType; 4] = [
    local(3600, false, "MET"), local(7200, true, "MEST"), local(7200, true, "MEST"),
    local(3600, false, "MET"),
];

/// `MST`: no transitions, then `MST7`.
pub const MST: TimeZoneRef<'static> = zone(&[], &MST_TYPES, &rules::MST7);
static MST_TYPES: [LocalTimeType; 1] = [
    local(-25200, false, "MST"),
];

/// `MST7MDT`: 88 transitions, then `MST7MDT,M3.2.0,M11.1.0`.
pub const MST7MDT: TimeZoneRef<'static> = zone(
    &MST7MDT_TABLE, &MST7MDT_TYPES, &rules::MST7MDT_M3_2_0_M11_1_0,
);
static MST7MDT_TYPES: [LocalTimeType; 5] = [
    local(-25200, false, "MST"), local(-21600, true, "MDT"), local(-21600, true, "MWT"),
    local(-21600, true, "MPT"), local(-25200, false, "MST"),
];
static MST7MDT_TABLE: [Transition; 88] = table([
    (-1633273200, 1), (-1615132800, 0), (-1601823600, 1), (-1583683200, 0), (-880210800, 2),
    (-769395600, 3), (-765388800, 0), (-84380400, 1), (-68659200, 0), (-52930800, 1),
    (-37209600, 0), (-21481200, 1), (-5760000, 0), (9968400, 1), (25689600, 0), (41418000, 1),
    (57744000, 0), (73472400, 1), (89193600, 0), (104922000, 1), (120643200, 0), (126694800, 1),
    (152092800, 0), (162378000, 1), (183542400, 0), (199270800, 1), (215596800, 0), (230720400, 1),
    (247046400, 0), (262774800, 1), (278496000, 0), (294224400, 1), (309945600, 0), (325674000, 1),
    (341395200, 0), (357123600, 1), (372844800, 0), (388573200, 1), (404899200, 0), (420022800, 1),
    (436348800, 0), (452077200, 1), (467798400, 0), (483526800, 1), (499248000, 0), (514976400, 1),
    (530697600, 0), (544611600, 1), (562147200, 0), (576061200, 1), (594201600, 0), (607510800, 1),
    (625651200, 0), (638960400, 1), (657100800, 0), (671014800, 1), (688550400, 0), (702464400, 1),
    (720000000, 0), (733914000, 1), (752054400, 0), (765363600, 1), (783504000, 0), (796813200, 1),
    (814953600, 0), (828867600, 1), (846403200, 0), (860317200, 1), (877852800, 0), (891766800, 1),
    (909302400, 0), (923216400, 1), (941356800, 0), (954666000, 1), (972806400, 0), (986115600, 1),
    (1004256000, 0), (1018170000, 1), (1035705600, 0), (1049619600, 1), (1067155200, 0),
    (1081069200, 1), (1099209600, 0), (1112518800, 1), (1130659200, 0), (1143968400, 1),
    (1162108800, 0), (1173603600, 1),
]);

/// `NZ`, the same as [`Pacific/Auckland`](crate::pacific::AUCKLAND).
pub const NZ: TimeZoneRef<'static> = crate::pacific::AUCKLAND;

/// `NZ-CHAT`, the same as [`Pacific/Chatham`](crate::pacific::CHATHAM).
pub const NZ_CHAT: TimeZoneRef<'static> = crate::pacific::CHATHAM;

/// `Navajo`, the same as [`America/Denver`](crate::america::DENVER).
pub const NAVAJO: TimeZoneRef<'static> = crate::america::DENVER;

/// `PRC`, the same as [`Asia/Shanghai`](crate::asia::SHANGHAI).
pub const PRC: TimeZoneRef<'static> = crate::asia::SHANGHAI;

/// `PST8PDT`: 88 transitions, then `PST8PDT,M3.2.0,M11.1.0`.
pub const PST8PDT: TimeZoneRef<'static> = zone(
    &PST8PDT_TABLE, &PST8PDT_TYPES, &rules::PST8PDT_M3_2_0_M11_1_0,
);
static PST8PDT_TYPES: [LocalTimeType; 5] = [
    local(-28800, false, "PST"), local(-25200, true, "PDT"), local(-25200, true, "PWT"),
    local(-25200, true, "PPT"), local(-28800, false, "PST"),
];
static PST8PDT_TABLE: [Transition; 88] = table([
    (-1633269600, 1), (-1615129200, 0), (-1601820000, 1), (-1583679600, 0), (-880207200, 2),
    (-769395600, 3), (-765385200, 0), (-84376800, 1), (-68655600, 0), (-52927200, 1),
    (-37206000, 0), (-21477600, 1), (-5756400, 0), (9972000, 1), (25693200, 0), (41421600, 1),
    (57747600, 0), (73476000, 1), (89197200, 0), (104925600, 1), (120646800, 0), (126698400, 1),
    (152096400, 0), (162381600, 1), (183546000, 0), (199274400, 1), (215600400, 0), (230724000, 1),
    (247050000, 0), (262778400, 1), (278499600, 0), (294228000, 1), (309949200, 0), (325677600, 1),
    (341398800, 0), (357127200, 1), (372848400, 0), (388576800, 1), (404902800, 0), (420026400, 1),
    (436352400, 0), (452080800, 1), (467802000, 0), (483530400, 1), (499251600, 0), (514980000, 1),
    (530701200, 0), (544615200, 1), (562150800, 0), (576064800, 1), (594205200, 0), (607514400, 1),
    (625654800, 0), (638964000, 1), (657104400, 0), (671018400, 1), (688554000, 0), (702468000, 1),
    (720003600, 0), (733917600, 1), (752058000, 0), (765367200, 1), (783507600, 0), (796816800, 1),
    (814957200, 0), (828871200, 1), (846406800, 0), (860320800, 1), (877856400, 0), (891770400, 1),
    (909306000, 0), (923220000, 1), (941360400, 0), (954669600, 1), (972810000, 0), (986119200, 1),
    (1004259600, 0), (1018173600, 1), (1035709200, 0), (1049623200, 1), (1067158800, 0),
    (1081072800, 1), (1099213200, 0), (1112522400, 1), (1130662800, 0), (1143972000, 1),
    (1162112400, 0), (1173607200, 1),
]);

/// `Poland`, the same as [`Europe/Warsaw`](crate::europe::WARSAW).
pub const POLAND: TimeZoneRef<'static> = crate::europe::WARSAW;

/// `Portugal`, the same as [`Europe/Lisbon`](crate::europe::LISBON).
pub const PORTUGAL: TimeZoneRef<'static> = crate::europe::LISBON;

/// `ROC`, the same as [`Asia/Taipei`](crate::asia::TAIPEI).
pub const ROC: TimeZoneRef<'static> = crate::asia::TAIPEI;

/// `ROK`, the same as [`Asia/Seoul`](crate::asia::SEOUL).
pub const ROK: TimeZoneRef<'static> = crate::asia::SEOUL;

/// `Singapore`, the same as [`Asia/Singapore`](crate::asia::SINGAPORE).
pub const SINGAPORE: TimeZoneRef<'static> = crate::asia::SINGAPORE;

/// `Turkey`, the same as [`Europe/Istanbul`](crate::europe::ISTANBUL).
pub const TURKEY: TimeZoneRef<'static> = crate::europe::ISTANBUL;

/// `UCT`, the same as [`Etc/UTC`](crate::etc::UTC).
pub const UCT: TimeZoneRef<'static> = crate::etc::UTC;

/// `UTC`, the same as [`Etc/UTC`](crate::etc::UTC).
pub const UTC: TimeZoneRef<'static> = crate::etc::UTC;

/// `Universal`, the same as [`Etc/UTC`](crate::etc::UTC).
pub const UNIVERSAL: TimeZoneRef<'static> = crate::etc::UTC;

/// `W-SU`, the same as [`Europe/Moscow`](crate::europe::MOSCOW).
pub const W_SU: TimeZoneRef<'static> = crate::europe::MOSCOW;

/// `WET`: 39 transitions, then `WET0WEST,M3.5.0/1,M10.5.0`.
pub const WET: TimeZoneRef<'static> = zone(
    &EET_TABLE, &WET_TYPES, &rules::WET0WEST_M3_5_0_AT_1_M10_5_0,
);
static WET_TYPES: [LocalTimeType; 4] = [
    local(0, false, "WET"), local(3600, true, "WEST"), local(3600, true, "WEST"),
    local(0, false, "WET"),
];

/// `Zulu`, the same as [`Etc/UTC`](crate::etc::UTC).
pub const ZULU: TimeZoneRef<'static> = crate::etc::UTC;
