// Made by `generate` of the tz database, which is in the public domain.

use crate::parts::*;
use tz::timezone::TransitionRule;

// <+00>0<+02>-2,M3.5.0/1,M10.5.0/3
pub static PLUS_00_0_PLUS_02_MINUS_2_M3_5_0_AT_1_M10_5_0_AT_3: Option<TransitionRule> = alternate(
    local(0, false, "+00"), local(7200, true, "+02"),
    week_day(3, 5, 0), 3600,
    week_day(10, 5, 0), 10800,
);

// <+01>-1
pub static PLUS_01_MINUS_1: Option<TransitionRule> = fixed(local(3600, false, "+01"));

// <+02>-2
pub static PLUS_02_MINUS_2: Option<TransitionRule> = fixed(local(7200, false, "+02"));

// <+0330>-3:30
pub static PLUS_0330_MINUS_3_30: Option<TransitionRule> = fixed(local(12600, false, "+0330"));

// <+03>-3
pub static PLUS_03_MINUS_3: Option<TransitionRule> = fixed(local(10800, false, "+03"));

// <+0430>-4:30
pub static PLUS_0430_MINUS_4_30: Option<TransitionRule> = fixed(local(16200, false, "+0430"));

// <+04>-4
pub static PLUS_04_MINUS_4: Option<TransitionRule> = fixed(local(14400, false, "+04"));

// <+0530>-5:30
pub static PLUS_0530_MINUS_5_30: Option<TransitionRule> = fixed(local(19800, false, "+0530"));

// <+0545>-5:45
pub static PLUS_0545_MINUS_5_45: Option<TransitionRule> = fixed(local(20700, false, "+0545"));

// <+05>-5
pub static PLUS_05_MINUS_5: Option<TransitionRule> = fixed(local(18000, false, "+05"));

// <+0630>-6:30
pub static PLUS_0630_MINUS_6_30: Option<TransitionRule> = fixed(local(23400, false, "+0630"));

// <+06>-6
pub static PLUS_06_MINUS_6: Option<TransitionRule> = fixed(local(21600, false, "+06"));

// <+07>-7
pub static PLUS_07_MINUS_7: Option<TransitionRule> = fixed(local(25200, false, "+07"));

// <+0845>-8:45
pub static PLUS_0845_MINUS_8_45: Option<TransitionRule> = fixed(local(31500, false, "+0845"));

// <+08>-8
pub static PLUS_08_MINUS_8: Option<TransitionRule> = fixed(local(28800, false, "+08"));

// <+09>-9
pub static PLUS_09_MINUS_9: Option<TransitionRule> = fixed(local(32400, false, "+09"));

// <+1030>-10:30<+11>-11,M10.1.0,M4.1.0
pub static PLUS_1030_MINUS_10_30_PLUS_11_MINUS_11_M10_1_0_M4_1_0: Option<TransitionRule> =
alternate(
    local(37800, false, "+1030"), local(39600, true, "+11"),
    week_day(10, 1, 0), 7200,
    week_day(4, 1, 0), 7200,
);

// <+10>-10
pub static PLUS_10_MINUS_10: Option<TransitionRule> = fixed(local(36000, false, "+10"));

// <+11>-11
pub static PLUS_11_MINUS_11: Option<TransitionRule> = fixed(local(39600, false, "+11"));

// <+11>-11<+12>,M10.1.0,M4.1.0/3
pub static PLUS_11_MINUS_11_PLUS_12_M10_1_0_M4_1_0_AT_3: Option<TransitionRule> = alternate(
    local(39600, false, "+11"), local(43200, true, "+12"),
    week_day(10, 1, 0), 7200,
    week_day(4, 1, 0), 10800,
);

// <+1245>-12:45<+1345>,M9.5.0/2:45,M4.1.0/3:45
pub static PLUS_1245_MINUS_12_45_PLUS_1345_M9_5_0_AT_2_45_M4_1_0_AT_3_45: Option<TransitionRule> =
alternate(
    local(45900, false, "+1245"), local(49500, true, "+1345"),
    week_day(9, 5, 0), 9900,
    week_day(4, 1, 0), 13500,
);

// <+12>-12
pub static PLUS_12_MINUS_12: Option<TransitionRule> = fixed(local(43200, false, "+12"));

// <+13>-13
pub static PLUS_13_MINUS_13: Option<TransitionRule> = fixed(local(46800, false, "+13"));

// <+14>-14
pub static PLUS_14_MINUS_14: Option<TransitionRule> = fixed(local(50400, false, "+14"));

// <-00>0
pub static MINUS_00_0: Option<TransitionRule> = fixed(local(0, false, "-00"));

// <-01>1
pub static MINUS_01_1: Option<TransitionRule> = fixed(local(-3600, false, "-01"));

// <-01>1<+00>,M3.5.0/0,M10.5.0/1
pub static MINUS_01_1_PLUS_00_M3_5_0_AT_0_M10_5_0_AT_1: Option<TransitionRule> = alternate(
    local(-3600, false, "-01"), local(0, true, "+00"),
    week_day(3, 5, 0), 0,
    week_day(10, 5, 0), 3600,
);

// <-02>2
pub static MINUS_02_2: Option<TransitionRule> = fixed(local(-7200, false, "-02"));

// <-02>2<-01>,M3.5.0/-1,M10.5.0/0
pub static MINUS_02_2_MINUS_01_M3_5_0_AT_MINUS_1_M10_5_0_AT_0: Option<TransitionRule> = alternate(
    local(-7200, false, "-02"), local(-3600, true, "-01"),
    week_day(3, 5, 0), -3600,
    week_day(10, 5, 0), 0,
);

// <-03>3
pub static MINUS_03_3: Option<TransitionRule> = fixed(local(-10800, false, "-03"));

// <-03>3<-02>,M3.2.0,M11.1.0
pub static MINUS_03_3_MINUS_02_M3_2_0_M11_1_0: Option<TransitionRule> = alternate(
    local(-10800, false, "-03"), local(-7200, true, "-02"),
    week_day(3, 2, 0), 7200,
    week_day(11, 1, 0), 7200,
);

// <-04>4
pub static MINUS_04_4: Option<TransitionRule> = fixed(local(-14400, false, "-04"));

// <-04>4<-03>,M9.1.6/24,M4.1.6/24
pub static MINUS_04_4_MINUS_03_M9_1_6_AT_24_M4_1_6_AT_24: Option<TransitionRule> = alternate(
    local(-14400, false, "-04"), local(-10800, true, "-03"),
    week_day(9, 1, 6), 86400,
    week_day(4, 1, 6), 86400,
);

// <-05>5
pub static MINUS_05_5: Option<TransitionRule> = fixed(local(-18000, false, "-05"));

// <-06>6
pub static MINUS_06_6: Option<TransitionRule> = fixed(local(-21600, false, "-06"));

// <-06>6<-05>,M9.1.6/22,M4.1.6/22
pub static MINUS_06_6_MINUS_05_M9_1_6_AT_22_M4_1_6_AT_22: Option<TransitionRule> = alternate(
    local(-21600, false, "-06"), local(-18000, true, "-05"),
    week_day(9, 1, 6), 79200,
    week_day(4, 1, 6), 79200,
);

// <-07>7
pub static MINUS_07_7: Option<TransitionRule> = fixed(local(-25200, false, "-07"));

// <-08>8
pub static MINUS_08_8: Option<TransitionRule> = fixed(local(-28800, false, "-08"));

// <-0930>9:30
pub static MINUS_0930_9_30: Option<TransitionRule> = fixed(local(-34200, false, "-0930"));

// <-09>9
pub static MINUS_09_9: Option<TransitionRule> = fixed(local(-32400, false, "-09"));

// <-10>10
pub static MINUS_10_10: Option<TransitionRule> = fixed(local(-36000, false, "-10"));

// <-11>11
pub static MINUS_11_11: Option<TransitionRule> = fixed(local(-39600, false, "-11"));

// <-12>12
pub static MINUS_12_12: Option<TransitionRule> = fixed(local(-43200, false, "-12"));

// ACST-9:30
pub static ACST_MINUS_9_30: Option<TransitionRule> = fixed(local(34200, false, "ACST"));

// ACST-9:30ACDT,M10.1.0,M4.1.0/3
pub static ACST_MINUS_9_30ACDT_M10_1_0_M4_1_0_AT_3: Option<TransitionRule> = alternate(
    local(34200, false, "ACST"), local(37800, true, "ACDT"),
    week_day(10, 1, 0), 7200,
    week_day(4, 1, 0), 10800,
);

// AEST-10
pub static AEST_MINUS_10: Option<TransitionRule> = fixed(local(36000, false, "AEST"));

// AEST-10AEDT,M10.1.0,M4.1.0/3
pub static AEST_MINUS_10AEDT_M10_1_0_M4_1_0_AT_3: Option<TransitionRule> = alternate(
    local(36000, false, "AEST"), local(39600, true, "AEDT"),
    week_day(10, 1, 0), 7200,
    week_day(4, 1, 0), 10800,
);

// AKST9AKDT,M3.2.0,M11.1.0
pub static AKST9AKDT_M3_2_0_M11_1_0: Option<TransitionRule> = alternate(
    local(-32400, false, "AKST"), local(-28800, true, "AKDT"),
    week_day(3, 2, 0), 7200,
    week_day(11, 1, 0), 7200,
);

// AST4
pub static AST4: Option<TransitionRule> = fixed(local(-14400, false, "AST"));

// AST4ADT,M3.2.0,M11.1.0
pub static AST4ADT_M3_2_0_M11_1_0: Option<TransitionRule> = alternate(
    local(-14400, false, "AST"), local(-10800, true, "ADT"),
    week_day(3, 2, 0), 7200,
    week_day(11, 1, 0), 7200,
);

// AWST-8
pub static AWST_MINUS_8: Option<TransitionRule> = fixed(local(28800, false, "AWST"));

// CAT-2
pub static CAT_MINUS_2: Option<TransitionRule> = fixed(local(7200, false, "CAT"));

// CET-1
pub static CET_MINUS_1: Option<TransitionRule> = fixed(local(3600, false, "CET"));

// CET-1CEST,M3.5.0,M10.5.0/3
pub static CET_MINUS_1CEST_M3_5_0_M10_5_0_AT_3: Option<TransitionRule> = alternate(
    local(3600, false, "CET"), local(7200, true, "CEST"),
    week_day(3, 5, 0), 7200,
    week_day(10, 5, 0), 10800,
);

// CST-8
pub static CST_MINUS_8: Option<TransitionRule> = fixed(local(28800, false, "CST"));

// CST5CDT,M3.2.0/0,M11.1.0/1
pub static CST5CDT_M3_2_0_AT_0_M11_1_0_AT_1: Option<TransitionRule> = alternate(
    local(-18000, false, "CST"), local(-14400, true, "CDT"),
    week_day(3, 2, 0), 0,
    week_day(11, 1, 0), 3600,
);

// CST6
pub static CST6: Option<TransitionRule> = fixed(local(-21600, false, "CST"));

// CST6CDT,M3.2.0,M11.1.0
pub static CST6CDT_M3_2_0_M11_1_0: Option<TransitionRule> = alternate(
    local(-21600, false, "CST"), local(-18000, true, "CDT"),
    week_day(3, 2, 0), 7200,
    week_day(11, 1, 0), 7200,
);

// ChST-10
pub static CHST_MINUS_10: Option<TransitionRule> = fixed(local(36000, false, "ChST"));

// EAT-3
pub static EAT_MINUS_3: Option<TransitionRule> = fixed(local(10800, false, "EAT"));

// EET-2
pub static EET_MINUS_2: Option<TransitionRule> = fixed(local(7200, false, "EET"));

// EET-2EEST,M3.4.4/50,M10.4.4/50
pub static EET_MINUS_2EEST_M3_4_4_AT_50_M10_4_4_AT_50: Option<TransitionRule> = alternate(
    local(7200, false, "EET"), local(10800, true, "EEST"),
    week_day(3, 4, 4), 180000,
    week_day(10, 4, 4), 180000,
);

// EET-2EEST,M3.5.0,M10.5.0/3
pub static EET_MINUS_2EEST_M3_5_0_M10_5_0_AT_3: Option<TransitionRule> = alternate(
    local(7200, false, "EET"), local(10800, true, "EEST"),
    week_day(3, 5, 0), 7200,
    week_day(10, 5, 0), 10800,
);

// EET-2EEST,M3.5.0/0,M10.5.0/0
pub static EET_MINUS_2EEST_M3_5_0_AT_0_M10_5_0_AT_0: Option<TransitionRule> = alternate(
    local(7200, false, "EET"), local(10800, true, "EEST"),
    week_day(3, 5, 0), 0,
    week_day(10, 5, 0), 0,
);

// EET-2EEST,M3.5.0/3,M10.5.0/4
pub static EET_MINUS_2EEST_M3_5_0_AT_3_M10_5_0_AT_4: Option<TransitionRule> = alternate(
    local(7200, false, "EET"), local(10800, true, "EEST"),
    week_day(3, 5, 0), 10800,
    week_day(10, 5, 0), 14400,
);

// EET-2EEST,M4.5.5/0,M10.5.4/24
pub static EET_MINUS_2EEST_M4_5_5_AT_0_M10_5_4_AT_24: Option<TransitionRule> = alternate(
    local(7200, false, "EET"), local(10800, true, "EEST"),
    week_day(4, 5, 5), 0,
    week_day(10, 5, 4), 86400,
);

// EST5
pub static EST5: Option<TransitionRule> = fixed(local(-18000, false, "EST"));

// EST5EDT,M3.2.0,M11.1.0
pub static EST5EDT_M3_2_0_M11_1_0: Option<TransitionRule> = alternate(
    local(-18000, false, "EST"), local(-14400, true, "EDT"),
    week_day(3, 2, 0), 7200,
    week_day(11, 1, 0), 7200,
);

// GMT0
pub static GMT0: Option<TransitionRule> = fixed(local(0, false, "GMT"));

// GMT0BST,M3.5.0/1,M10.5.0
pub static GMT0BST_M3_5_0_AT_1_M10_5_0: Option<TransitionRule> = alternate(
    local(0, false, "GMT"), local(3600, true, "BST"),
    week_day(3, 5, 0), 3600,
    week_day(10, 5, 0), 7200,
);

// HKT-8
pub static HKT_MINUS_8: Option<TransitionRule> = fixed(local(28800, false, "HKT"));

// HST10
pub static HST10: Option<TransitionRule> = fixed(local(-36000, false, "HST"));

// HST10HDT,M3.2.0,M11.1.0
pub static HST10HDT_M3_2_0_M11_1_0: Option<TransitionRule> = alternate(
    local(-36000, false, "HST"), local(-32400, true, "HDT"),
    week_day(3, 2, 0), 7200,
    week_day(11, 1, 0), 7200,
);

// IST-1GMT0,M10.5.0,M3.5.0/1
pub static IST_MINUS_1GMT0_M10_5_0_M3_5_0_AT_1: Option<TransitionRule> = alternate(
    local(3600, false, "IST"), local(0, true, "GMT"),
    week_day(10, 5, 0), 7200,
    week_day(3, 5, 0), 3600,
);

// IST-2IDT,M3.4.4/26,M10.5.0
pub static IST_MINUS_2IDT_M3_4_4_AT_26_M10_5_0: Option<TransitionRule> = alternate(
    local(7200, false, "IST"), local(10800, true, "IDT"),
    week_day(3, 4, 4), 93600,
    week_day(10, 5, 0), 7200,
);

// IST-5:30
pub static IST_MINUS_5_30: Option<TransitionRule> = fixed(local(19800, false, "IST"));

// JST-9
pub static JST_MINUS_9: Option<TransitionRule> = fixed(local(32400, false, "JST"));

// KST-9
pub static KST_MINUS_9: Option<TransitionRule> = fixed(local(32400, false, "KST"));

// MET-1MEST,M3.5.0,M10.5.0/3
pub static MET_MINUS_1MEST_M3_5_0_M10_5_0_AT_3: Option<TransitionRule> = alternate(
    local(3600, false, "MET"), local(7200, true, "MEST"),
    week_day(3, 5, 0), 7200,
    week_day(10, 5, 0), 10800,
);

// MSK-3
pub static MSK_MINUS_3: Option<TransitionRule> = fixed(local(10800, false, "MSK"));

// MST7
pub static MST7: Option<TransitionRule> = fixed(local(-25200, false, "MST"));

// MST7MDT,M3.2.0,M11.1.0
pub static MST7MDT_M3_2_0_M11_1_0: Option<TransitionRule> = alternate(
    local(-25200, false, "MST"), local(-21600, true, "MDT"),
    week_day(3, 2, 0), 7200,
    week_day(11, 1, 0), 7200,
);

// NST3:30NDT,M3.2.0,M11.1.0
pub static NST3_30NDT_M3_2_0_M11_1_0: Option<TransitionRule> = alternate(
    local(-12600, false, "NST"), local(-9000, true, "NDT"),
    week_day(3, 2, 0), 7200,
    week_day(11, 1, 0), 7200,
);

// NZST-12NZDT,M9.5.0,M4.1.0/3
pub static NZST_MINUS_12NZDT_M9_5_0_M4_1_0_AT_3: Option<TransitionRule> = alternate(
    local(43200, false, "NZST"), local(46800, true, "NZDT"),
    week_day(9, 5, 0), 7200,
    week_day(4, 1, 0), 10800,
);

// PKT-5
pub static PKT_MINUS_5: Option<TransitionRule> = fixed(local(18000, false, "PKT"));

// PST-8
pub static PST_MINUS_8: Option<TransitionRule> = fixed(local(28800, false, "PST"));

// PST8PDT,M3.2.0,M11.1.0
pub static PST8PDT_M3_2_0_M11_1_0: Option<TransitionRule> = alternate(
    local(-28800, false, "PST"), local(-25200, true, "PDT"),
    week_day(3, 2, 0), 7200,
    week_day(11, 1, 0), 7200,
);

// SAST-2
pub static SAST_MINUS_2: Option<TransitionRule> = fixed(local(7200, false, "SAST"));

// SST11
pub static SST11: Option<TransitionRule> = fixed(local(-39600, false, "SST"));

// UTC0
pub static UTC0: Option<TransitionRule> = fixed(local(0, false, "UTC"));

// WAT-1
pub static WAT_MINUS_1: Option<TransitionRule> = fixed(local(3600, false, "WAT"));

// WET0WEST,M3.5.0/1,M10.5.0
pub static WET0WEST_M3_5_0_AT_1_M10_5_0: Option<TransitionRule> = alternate(
    local(0, false, "WET"), local(3600, true, "WEST"),
    week_day(3, 5, 0), 3600,
    week_day(10, 5, 0), 7200,
);

// WIB-7
pub static WIB_MINUS_7: Option<TransitionRule> = fixed(local(25200, false, "WIB"));

// WIT-9
pub static WIT_MINUS_9: Option<TransitionRule> = fixed(local(32400, false, "WIT"));

// WITA-8
pub static WITA_MINUS_8: Option<TransitionRule> = fixed(local(28800, false, "WITA"));
