//! Names and the constants that they have.

use tz::TimeZoneRef;
use tz_zones::{NAMES, VERSION, named};

/// A zone in a constant of a user.
const HOME: TimeZoneRef<'static> = tz_zones::europe::PARIS;

/// A type that the compiler looks up: what clocks in Paris show at 2025-07-01T00:00:00Z.
const SUMMER: i32 = match HOME.find_local_time_type(1_751_328_000) {
    Ok(local_time_type) => local_time_type.ut_offset(),
    Err(_) => panic!("the zone has a rule"),
};

#[test]
fn zones_can_be_used_in_constants() {
    assert_eq!(SUMMER, 7200);
}

#[test]
fn names_are_in_order_and_each_has_a_zone() {
    assert!(NAMES.windows(2).all(|pair| pair[0] < pair[1]));
    for name in NAMES {
        assert!(named(name).is_some(), "{name}");
    }
}

#[test]
fn names_have_the_constants_of_their_rules() {
    use tz_zones::{america, antarctica, asia, etc, us};
    let rows = [
        ("Europe/Paris", tz_zones::europe::PARIS),
        ("America/Argentina/Ushuaia", america::argentina::USHUAIA),
        (
            "America/North_Dakota/New_Salem",
            america::north_dakota::NEW_SALEM,
        ),
        ("America/Port-au-Prince", america::PORT_AU_PRINCE),
        ("Antarctica/DumontDUrville", antarctica::DUMONTDURVILLE),
        ("Asia/Ust-Nera", asia::UST_NERA),
        ("Etc/GMT+12", etc::GMT_PLUS_12),
        ("Etc/GMT-14", etc::GMT_MINUS_14),
        ("Etc/GMT0", etc::GMT0),
        ("EST5EDT", tz_zones::EST5EDT),
        ("GB-Eire", tz_zones::GB_EIRE),
        ("GMT+0", tz_zones::GMT_PLUS_0),
        ("US/East-Indiana", us::EAST_INDIANA),
        ("UTC", tz_zones::UTC),
    ];
    for (name, zone) in rows {
        assert_eq!(named(name), Some(zone), "{name}");
    }
}

#[test]
fn links_have_the_tables_of_their_zones() {
    for (name, other) in [
        ("America/Buenos_Aires", "America/Argentina/Buenos_Aires"),
        ("Asia/Calcutta", "Asia/Kolkata"),
        ("US/Pacific", "America/Los_Angeles"),
        ("GB", "Europe/London"),
    ] {
        let (zone, other) = (named(name).unwrap(), named(other).unwrap());
        assert_eq!(zone, other, "{name}");
        let tables = [zone, other].map(|zone| zone.transitions().as_ptr());
        assert_eq!(tables[0], tables[1], "{name}");
        let types = [zone, other].map(|zone| zone.local_time_types().as_ptr());
        assert_eq!(types[0], types[1], "{name}");
    }
}

#[test]
fn other_names_have_no_zone() {
    let wrong = [
        "",
        " ",
        "/",
        "A",
        "zzz",
        "Europe",
        "Europe/",
        "Europe/Pari",
        "Europe/Paris ",
    ];
    let more = [
        "Europe/Paris/",
        "/Europe/Paris",
        "Europe\\Paris",
        "Europe/Pari\u{15f}",
        "\0",
        "é",
    ];
    for name in wrong.into_iter().chain(more) {
        assert_eq!(named(name), None, "{name:?}");
    }
    // Names of files that are no zones.
    for name in [
        "localtime",
        "posixrules",
        "posix/Europe/Paris",
        "right/Europe/Paris",
    ] {
        assert_eq!(named(name), None, "{name}");
    }
}

#[test]
fn names_in_another_case_have_no_zone() {
    for name in NAMES {
        let others = [name.to_lowercase(), name.to_uppercase()];
        for other in others.iter().filter(|other| *other != name) {
            let taken = NAMES.contains(&other.as_str());
            assert_eq!(named(other).is_some(), taken, "{other}");
            assert!(!taken, "{other} is a name too");
        }
    }
}

/// The page is by hand, so the version that the generator writes is not all that says it.
#[test]
fn the_version_and_the_number_of_names_are_those_of_the_page() {
    let page = include_str!("../README.md");
    let said = format!("Version {VERSION} has {} names", NAMES.len());
    assert!(page.contains(&said), "README.md lacks: {said}");
}

#[test]
fn the_version_is_a_year_and_a_letter() {
    let (year, letters) = VERSION.split_at(4);
    assert!(
        year.bytes().all(|digit| digit.is_ascii_digit()),
        "{VERSION}"
    );
    assert!(
        letters.starts_with(|letter: char| letter.is_ascii_lowercase()),
        "{VERSION}"
    );
}
