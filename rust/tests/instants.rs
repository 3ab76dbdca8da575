//! Fires and due fires, by the rows that the proved programs replay too.

mod rows;

use chrono::{DateTime, Duration, FixedOffset};
use cron::crontab::Crontab;
use cron::dues::Due;
use cron::zone::{Zone, ZoneError};
use cron::Schedule;
use rows::{data_of, for_each_row, instant_of, moment_text, offset_of};
use std::collections::HashMap;
use std::str::FromStr;

/// Returns the bytes of the zone files in `zones.txt`, by their names.
fn zone_files() -> HashMap<String, Vec<u8>> {
    let mut files = HashMap::new();
    for_each_row(
        &data_of("cron_test_replay").join("zones.txt"),
        |_, parts| {
            let digits = |at| u8::from_str_radix(&parts[1][at..at + 2], 16).unwrap();
            let bytes = (0..parts[1].len()).step_by(2).map(digits).collect();
            files.insert(parts[0].to_string(), bytes);
        },
    );
    files
}

/// Returns the zone of a row; none where `chrono` doesn't hold its offset.
fn zone_named(name: &str, files: &HashMap<String, Vec<u8>>) -> Option<Zone> {
    if name.starts_with("fixed ") {
        return offset_of(name).map(Zone::from);
    }
    if let Some(file) = name.strip_prefix("file ") {
        return Some(Zone::history(&files[file]).unwrap());
    }
    let rule = match name {
        "Chicago" => "CST6CDT,M3.2.0,M11.1.0",
        "New York" => "EST5EDT,M3.2.0,M11.1.0",
        "Los Angeles" => "PST8PDT,M3.2.0,M11.1.0",
        "São Paulo" => "<-03>3",
        "London" => "GMT0BST,M3.5.0/1,M10.5.0",
        "Berlin" => "CET-1CEST,M3.5.0,M10.5.0/3",
        "Helsinki" => "EET-2EEST,M3.5.0/3,M10.5.0/4",
        "Kolkata" => "IST-5:30",
        "Tokyo" => "JST-9",
        "Sydney" => "AEST-10AEDT,M10.1.0,M4.1.0/3",
        "Lord Howe" => "<+1030>-10:30<+11>-11,M10.1.0,M4.1.0",
        "Auckland" => "NZST-12NZDT,M9.5.0,M4.1.0/3",
        rule => rule,
    };
    Some(Zone::rule(rule).unwrap_or_else(|why| panic!("{name}: {why}")))
}

/// Calls for each row of a file with the schedule, the zone, the two last parts, and the row, and
/// returns how many.
fn replay(file: &str, mut call: impl FnMut(&Schedule, &Zone, &[&str], &str)) -> usize {
    let files = zone_files();
    for_each_row(&data_of("cron_test_replay").join(file), |row, parts| {
        let schedule = Schedule::from_str(parts[0]).unwrap();
        if let Some(zone) = zone_named(parts[1], &files) {
            call(&schedule, &zone, &parts[2..], row);
        }
    })
}

fn fire_text(fire: Option<DateTime<FixedOffset>>) -> String {
    fire.map_or("None".to_string(), |it| moment_text(&it))
}

fn due_text(due: Option<Due>) -> String {
    let Due { moment, nominal } = match due {
        Some(due) => due,
        None => return "None".to_string(),
    };
    let (text, shown) = (moment_text(&moment), moment.naive_local());
    if nominal == shown {
        text
    } else if nominal.date() == shown.date() {
        format!("{text} for {}", nominal.time())
    } else {
        format!("{text} for {nominal}")
    }
}

fn list_text(texts: impl Iterator<Item = String>) -> String {
    let text = texts.collect::<Vec<_>>().join(", ");
    if text.is_empty() {
        "none".to_string()
    } else {
        text
    }
}

#[test]
fn fires_are_those_of_their_rows() {
    let after = replay("fires_after.txt", |schedule, zone, parts, row| {
        let fire = schedule.fires(zone).after(&instant_of(parts[0]));
        assert_eq!(fire_text(fire), parts[1], "{row}");
    });
    let by = replay("fires_by.txt", |schedule, zone, parts, row| {
        let fire = schedule.fires(zone).by(&instant_of(parts[0]));
        assert_eq!(fire_text(fire), parts[1], "{row}");
    });
    assert!(after > 1_000 && by > 1_000, "{after} and {by} rows");
}

#[test]
fn fires_between_instants_are_those_of_their_rows() {
    for file in ["fires_between.txt", "fires_counted_by_hand.txt"] {
        let count = replay(file, |schedule, zone, parts, row| {
            let fires = schedule
                .fires(zone)
                .between(&instant_of(parts[0]), &instant_of(parts[1]));
            assert_eq!(
                list_text(fires.map(|it| moment_text(&it))),
                parts[2],
                "{row}"
            );
        });
        assert!(count > 10, "{count} rows of {file}");
    }
}

#[test]
fn due_fires_are_those_of_their_rows() {
    let after = replay("dues_after.txt", |schedule, zone, parts, row| {
        let dues = schedule.dues(zone);
        let mut due = dues.after(&instant_of(parts[0]));
        for answer in parts[1].split(", ") {
            assert_eq!(due_text(due), answer, "{row}");
            due = due.and_then(|it| dues.past(&it));
        }
    });
    let by = replay("dues_by.txt", |schedule, zone, parts, row| {
        let due = schedule.dues(zone).by(&instant_of(parts[0]));
        assert_eq!(due_text(due), parts[1], "{row}");
    });
    assert!(after > 100 && by > 100, "{after} and {by} rows");
}

#[test]
fn due_fires_between_instants_are_those_of_their_rows() {
    let count = replay("dues_between.txt", |schedule, zone, parts, row| {
        let dues = schedule
            .dues(zone)
            .between(&instant_of(parts[0]), &instant_of(parts[1]));
        assert_eq!(
            list_text(dues.map(|it| due_text(Some(it)))),
            parts[2],
            "{row}"
        );
    });
    assert!(count > 200, "{count} rows");
}

#[test]
fn crontabs_fire_as_the_schedules_of_their_rows() {
    let zone = Zone::rule("CST6CDT,M3.2.0,M11.1.0").unwrap();
    let start = instant_of("2024-02-01T00:00:00Z");
    let file = data_of("cron_test_tabs").join("schedules.txt");
    let count = for_each_row(&file, |row, parts| {
        let crontab = Crontab::from_str(&rows::text_of(parts[0]))
            .unwrap_or_else(|why| panic!("{row}: {why}"));
        let far = start + Duration::days(36_500);
        let mut fires = Vec::new();
        for text in parts[1].split('+').filter(|it| *it != "reboot") {
            let schedule = Schedule::from_str(text).unwrap();
            fires.extend(schedule.fires(&zone).between(&start, &far).take(40));
        }
        fires.sort();
        fires.dedup();
        fires.truncate(40);
        let end = fires
            .last()
            .map_or(start, |it| it.with_timezone(&chrono::Utc));
        let own: Vec<_> = crontab.fires(&zone).between(&start, &end).collect();
        assert_eq!(own, fires, "{row}");
        if let Some(first) = crontab.dues(&zone).after(&start) {
            assert!(first.moment <= fires[0], "{row}");
        }
    });
    assert!(count > 20, "{count} rows");
}

#[test]
fn crontabs_tell_why_a_text_is_refused() {
    let file = data_of("cron_test_tabs").join("messages.txt");
    let count = for_each_row(&file, |row, parts| {
        let error = Crontab::from_str(&rows::text_of(parts[0])).expect_err(row);
        assert_eq!(error.to_string(), rows::text_of(parts[1]), "{row}");
    });
    assert!(count > 20, "{count} rows");
}

#[test]
fn hours_that_run_backwards_never_fire() {
    let crontab = Crontab::from_str("0 22-2 * * *").unwrap();
    let start = instant_of("2024-02-01T00:00:00Z");
    assert!(crontab.canonical().is_empty());
    assert_eq!(crontab.fires(&Zone::utc()).after(&start), None);
}

#[test]
fn reboot_never_fires() {
    let crontab = Crontab::from_str("@reboot").unwrap();
    let start = instant_of("2024-02-01T00:00:00Z");
    assert_eq!(crontab.fires(&Zone::utc()).after(&start), None);
    assert_eq!(crontab.dues(&Zone::utc()).by(&start), None);
}

#[test]
fn instants_may_lie_anywhere() {
    let schedule = Schedule::from_str("@yearly").unwrap();
    let (utc, ahead) = (
        Zone::utc(),
        Zone::from(FixedOffset::east_opt(3_600).unwrap()),
    );
    let (first, last) = (
        DateTime::<chrono::Utc>::MIN_UTC,
        DateTime::<chrono::Utc>::MAX_UTC,
    );
    let fires = schedule.fires(&ahead);
    assert_eq!(fire_text(fires.after(&first)), "1970-01-01 00:00:00 +01:00");
    assert_eq!(fire_text(fires.by(&last)), "2100-01-01 00:00:00 +01:00");
    assert_eq!((fires.by(&first), fires.after(&last)), (None, None));
    assert_eq!(
        fire_text(fires.past(&first.into())),
        "1970-01-01 00:00:00 +01:00"
    );
    assert_eq!(fires.past(&last.into()), None);
    assert_eq!(fires.between(&first, &last).count(), 131);
    let dues = schedule.dues(&utc);
    let due = |moment: DateTime<chrono::Utc>| Due {
        moment: moment.into(),
        nominal: moment.naive_utc(),
    };
    assert_eq!(
        due_text(dues.past(&due(first))),
        "1970-01-01 00:00:00 +00:00"
    );
    assert_eq!(
        (dues.past(&due(last)), dues.by(&first), dues.after(&last)),
        (None, None, None)
    );
    assert_eq!(dues.between(&first, &last).count(), 131);
}

#[test]
fn zones_are_refused_where_they_are_none() {
    assert_eq!(Zone::rule("Chicago"), Err(ZoneError::Refused));
    assert_eq!(Zone::rule("AAA24"), Err(ZoneError::OffsetOfADay));
    assert_eq!(Zone::history(b"TZif"), Err(ZoneError::Refused));
    assert_eq!(Zone::history(b""), Err(ZoneError::Refused));
    assert_eq!(Zone::rule("UTC"), Ok(Zone::utc()));
}

#[test]
fn zones_are_opened_by_what_names_them() {
    assert_eq!(Zone::open("UTC"), Ok(Zone::utc()));
    let chicago = "CST6CDT,M3.2.0,M11.1.0";
    assert_eq!(Zone::open(chicago), Zone::rule(chicago));
    for text in ["", "../etc/passwd", "right/UTC", "no zone"] {
        assert_eq!(Zone::open(text), Err(ZoneError::Refused), "{text}");
    }
    assert_eq!(Zone::open("No/Such_Place"), Err(ZoneError::Unread));
    if let Ok(bytes) = std::fs::read("/usr/share/zoneinfo/America/Chicago") {
        assert_eq!(Zone::open("America/Chicago"), Zone::history(&bytes));
    }
}
