// Tests from crates/tz_zone_tests/src/tz_strings/altered.rt by bindings/erase. Change that file instead.
//! Texts near good ones that are none: their beginnings, and texts with one byte replaced. What
//! refuses them is as in tz-rs.

use super::*;
use crate::erased::tz_zone_tests::expect::expect_eq_at;
use crate::kit::{self, format_in};

/// What refuses a text, then ordinary texts that are refused so.
static ORDINARY_REFUSED: &str = "\
invalid TZ string: cannot parse integer from empty string
H
HS
HST
<-03>
IST-
IST-1GMT0,
IST-1GMT0,M
IST-1GMT0,M10.
IST-1GMT0,M10.5.
IST-1GMT0,M10.5.0,
IST-1GMT0,M10.5.0,M
IST-1GMT0,M10.5.0,M3.
IST-1GMT0,M10.5.0,M3.5.
IST-1GMT0,M10.5.0,M3.5.0/
EST5EDT,
EST5EDT,0/
EST5EDT,0/0,
EST5EDT,0/0,J
EST5EDT,0/0,J365/
EST5EDT,0/0,J365/23:
EST5EDT,0/0,J365/23:59:
I_T-1GMT0,M10.5.0,M3.5.0/1
IST-1G:T0,M10.5.0,M3.5.0/1
IST-1GM>0,M10.5.0,M3.5.0/1
IST-1GMT;,M10.5.0,M3.5.0/1
IST-1GMT0,M10.5.0,M3.-.0/1
IST-1GMT0,M10.5.0,M3.5../1
IST-1GMT0,M10.5.0,M3.5.0/,
>ST-1GMT0,M10.5.0,M3.5.0/1
IS--1GMT0,M10.5.0,M3.5.0/1
IST:1GMT0,M10.5.0,M3.5.0/1
IST-1GMT+,M10.5.0,M3.5.0/1
IST-1GMT0,M,0.5.0,M3.5.0/1
IST-1GMT0,M10.5.0,x3.5.0/1
EST5EDT,0/-,J365/23:59:59
EST5EDT,0/0,J365/+3:59:59
A0B,J100/-1,J200
A0B,J100/+1,J200

invalid TZ string: unexpected end of data
<
<-
<-0
<-03
IST-1GMT0,M1
IST-1GMT0,M10
IST-1GMT0,M10.5
IST-1GMT0,M10.5.0
IST-1GMT0,M10.5.0,M3
IST-1GMT0,M10.5.0,M3.5
EST5EDT,0
EST5EDT,0/0
IST-1<MT0,M10.5.0,M3.5.0/1

invalid TZ string: missing DST start and end rules
IST-1G
IST-1GM
IST-1GMT
IST-1GMT0

invalid TZ string: invalid data
IS8-1GMT0,M10.5.0,M3.5.0/1
IST-1GMT0/M10.5.0,M3.5.0/1
IST-1GMT0,J10.5.0,M3.5.0/1
IST-1GMT0,M10,5.0,M3.5.0/1
IST-1GMT0,M10.5.0:M3.5.0/1
I9T-1GMT0,M10.5.0,M3.5.0/1
IST-1G6T0,M10.5.0,M3.5.0/1
IST-1GMT0.M10.5.0,M3.5.0/1
IST-1GMT0,M1J.5.0,M3.5.0/1
IST-1GMT0,M10.5-0,M3.5.0/1
IST-1GMT0,M10.5.0 M3.5.0/1
IST-1GMT0,M10.5.0,M3:5.0/1
EST5EDT,0:0,J365/23:59:59
EST5EDT,0/0.J365/23:59:59

invalid transition rule: invalid rule day month
IST-1GMT0,M20.5.0,M3.5.0/1
IST-1GMT0,M18.5.0,M3.5.0/1
IST-1GMT0,M10.5.0,M0.5.0/1

invalid transition rule: invalid rule day week
IST-1GMT0,M10.9.0,M3.5.0/1
IST-1GMT0,M10.0.0,M3.5.0/1
IST-1GMT0,M10.5.0,M3.6.0/1

invalid transition rule: invalid rule day week day
IST-1GMT0,M10.5.7,M3.5.0/1
IST-1GMT0,M10.5.0,M3.5.091
IST-1GMT0,M10.5.0,M3.5.8/1

invalid TZ string: number too large to fit in target type
IST-1GMT0,M10.5.0,M325.0/1
IST-1GMT0,M10.5.0,M3.500/1
EST5EDT,0/0,M365/23:59:59

invalid transition rule: invalid rule day julian day
IST-1GMT0,910.5.0,M3.5.0/1
EST5EDT,0/0,J465/23:59:59
EST5EDT,0/0,J366/23:59:59

invalid TZ string: remaining data after parsing TZ string
IST-1GMT0,M10.5.0,M3.5.0;1
EST5EDT,0/0,J365,23:59:59
EST5EDT,0/0,J365/23.59:59
EST5EDT,0/0,J365/23:59;59
EST5EDT,0/0,J365/23:59:5x

invalid TZ string: invalid day time hour
EST5EDT,0/0,J365/29:59:59
A0B,J100/25,J200

invalid TZ string: invalid day time minute
EST5EDT,0/0,J365/23:69:59

invalid TZ string: invalid day time second
EST5EDT,0/0,J365/23:59:69
";

/// What refuses a text, then extended texts that are refused so.
static EXTENDED_REFUSED: &str = "\
invalid TZ string: cannot parse integer from empty string
<-03>3<-02>,M3.5.0/
<-03>3<-02>,M3.5.0/-
<-03>3<-02>,M3.5.0/-2,
<-03>3<-02>,M3.5.0/-2,M
<-03>3<-02>,M3.5.0/-2,M10.
<-03>3<-02>,M3.5.0/-2,M10.5.
<-03>3<-02>,M3.5.0/-2,M10.5.0/
<-03>3<-02>,M3.5.0/-2,M10.5.0/-
x-03>3<-02>,M3.5.0/-2,M10.5.0/-1
<-03<3<-02>,M3.5.0/-2,M10.5.0/-1
<-03>-<-02>,M3.5.0/-2,M10.5.0/-1
<-03>3<-02>;M3.5.0/-2,M10.5.0/-1
<-03>3<-02>,M3.5.0/x2,M10.5.0/-1
<-03>3<-02>,M3.5.0/-2,M10.5.0/-:
EST5EDT,0/0,J365/
A0B,J100/--1,J200

invalid TZ string: unexpected end of data
<-03>3<-02>,M3.5.0/-2
<-03>3<-02>,M3.5.0/-2,M1
<-03>3<-02>,M3.5.0/-2,M10
<-03>3<-02>,M3.5.0/-2,M10.5

invalid TZ string: invalid data
<-03>3<-02>,J3.5.0/-2,M10.5.0/-1
<-03>3<-02>,M3,5.0/-2,M10.5.0/-1
<-03>3<-02>,M3.5.0:-2,M10.5.0/-1
<-03>3<-02>,M3.5.0/-2/M10.5.0/-1

invalid TZ string: invalid day time hour
A0B,J100/168,J200
A0B,J100/-168,J200
A0B,J100,J200/168

invalid TZ string: invalid day time minute
A0B,J100/-0:60,J200

invalid TZ string: invalid day time second
A0B,J100/+167:0:60,J200
";

/// The text is refused so.
fn expect_refusal(
    rt: &impl Abort,
    alloc: Global,
    text: &str,
    extended: bool,
    refusal: &str,
) -> Result<(), Fail> {
    let Some(error) = rule_of(alloc, text, extended).err() else {
        assert!(false, "{text} is accepted");
        return Ok(());
    };
    let printed = format_in!(alloc; "{error}")?;
    expect_eq_at(rt, &text, &printed.as_str(), &refusal);
    Ok(())
}

/// The texts of a group are refused as its first line says.
fn expect_refused_group(
    rt: &impl Abort,
    alloc: Global,
    group: &str,
    extended: bool,
) -> Result<(), Fail> {
    let (refusal, texts) = group.split_once('\n').ok_or("a group of one line")?;
    for text in texts.lines() {
        expect_refusal(rt, alloc, text, extended, refusal)?;
    }
    Ok(())
}

/// The texts of each group are refused as its first line says. An empty line stands between groups.
fn expect_refusals(
    rt: &impl Abort,
    alloc: Global,
    groups: &str,
    extended: bool,
) -> Result<(), Fail> {
    for group in groups.split("\n\n") {
        expect_refused_group(rt, alloc, group, extended)?;
    }
    Ok(())
}

#[test]
fn texts_near_ordinary_ones() -> Result<(), Fail> {
    let rt = kit::HostRuntime;

    expect_refusals(&rt, rt.alloc(), ORDINARY_REFUSED, false)
}

/// A time of day with a plus, as tz-rs reads it.
static PLUS: &str = "\
<-03>3<-02>,M3.5.0/+2,M10.5.0/-1 | -03 -10800, -02 -7200, M3.5.0 7200, M10.5.0 -3600
";

#[test]
fn texts_near_extended_ones() -> Result<(), Fail> {
    let rt = kit::HostRuntime;

    expect_rules(&rt, rt.alloc(), PLUS, true)?;
    expect_refusals(&rt, rt.alloc(), EXTENDED_REFUSED, true)
}
