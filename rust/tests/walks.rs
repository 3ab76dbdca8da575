//! What walks answer, by rows: those that the proved programs replay too, and `data/`, whose
//! answers the original crate gave in zones of `chrono-tz`. To those of `data/walks_mended.txt` it
//! gave others, by faults that a copy of it, which gave these, has mended.

mod rows;

use chrono::{DateTime, TimeZone, Utc};
use chrono_tz::Tz;
use cron::{OwnedScheduleIterator, Schedule};
use rows::{answers_text, data_of, files_of, for_each_row, offset_of, start_of};
use std::path::Path;
use std::str::FromStr;

fn play<Z: TimeZone>(
    mut walk: impl DoubleEndedIterator<Item = DateTime<Z>>,
    calls: &str,
) -> String {
    let call = |it: char| {
        if it == '>' {
            walk.next()
        } else {
            walk.next_back()
        }
    };
    answers_text(&calls.chars().map(call).collect::<Vec<_>>())
}

fn replay<Z: TimeZone>(row: &str, parts: &[&str], zone: Z) {
    let schedule = Schedule::from_str(parts[0]).unwrap();
    let start = start_of(parts[2], &zone);
    let (calls, answers) = (parts[3], parts[4]);
    assert_eq!(play(schedule.after(&start), calls), answers, "{row}");
    assert_eq!(
        play(schedule.after_owned(start.clone()), calls),
        answers,
        "{row}"
    );
    let turned: String = calls
        .chars()
        .map(|it| if it == '>' { '<' } else { '>' })
        .collect();
    assert_eq!(
        play(schedule.after(&start).rev(), &turned),
        answers,
        "{row}"
    );
    assert_eq!(
        play(OwnedScheduleIterator::new(schedule, start).rev(), &turned),
        answers,
        "{row}"
    );
}

/// Returns the zone of `chrono-tz` by its name, or by that of its place in rows of the years from
/// 2007 on.
fn zone_named(name: &str) -> Option<Tz> {
    Tz::from_str(match name {
        "Chicago" => "America/Chicago",
        "New York" => "America/New_York",
        "Los Angeles" => "America/Los_Angeles",
        "London" => "Europe/London",
        "Berlin" => "Europe/Berlin",
        "Helsinki" => "Europe/Helsinki",
        "Kolkata" => "Asia/Kolkata",
        "Tokyo" => "Asia/Tokyo",
        "Sydney" => "Australia/Sydney",
        "Lord Howe" => "Australia/Lord_Howe",
        "Auckland" => "Pacific/Auckland",
        other => other,
    })
    .ok()
}

/// Replays the rows of a file and returns how many. Others name a rule, or an offset of a day.
fn replay_file(file: &Path) -> usize {
    let mut count = 0;
    for_each_row(file, |row, parts| {
        count += 1;
        if parts[1] == "UTC" {
            replay(row, parts, Utc);
        } else if let Some(offset) = offset_of(parts[1]) {
            replay(row, parts, offset);
        } else if let Some(zone) = zone_named(parts[1]) {
            replay(row, parts, zone);
        } else {
            count -= 1;
        }
    });
    count
}

#[test]
fn walks_answer_what_their_rows_say() {
    let files = files_of(&data_of("cron_test_replay"), "walks_");
    let count: usize = files.iter().map(|it| replay_file(it)).sum();
    assert!(count > 1_600, "{count} rows");
}

#[test]
fn walks_in_named_zones_answer_what_their_rows_say() {
    let files = files_of(
        &Path::new(env!("CARGO_MANIFEST_DIR")).join("tests/data"),
        "walks",
    );
    let count: usize = files.iter().map(|it| replay_file(it)).sum();
    assert!(count > 250, "{count} rows");
}

#[test]
fn walks_end_where_chrono_ends() {
    let schedule = Schedule::from_str("@hourly").unwrap();
    let [first, last] = [DateTime::<Utc>::MIN_UTC, DateTime::<Utc>::MAX_UTC];
    assert_eq!(schedule.after(&first).next_back(), None);
    assert_eq!(schedule.after(&last).next(), None);
    assert_eq!(
        play(schedule.after(&first), ">><"),
        "1970-01-01 00:00:00 +00:00, 1970-01-01 01:00:00 +00:00, 1970-01-01 00:00:00 +00:00"
    );
    assert_eq!(
        play(schedule.after(&last), "<>><"),
        "2100-12-31 23:00:00 +00:00, None, None, None"
    );
}

#[test]
fn upcoming_begins_after_now() {
    let schedule = Schedule::from_str("* * * * * *").unwrap();
    let before = Utc::now();
    let (next, back) = (
        schedule.upcoming(Utc).next().unwrap(),
        schedule.upcoming_owned(Utc).next_back().unwrap(),
    );
    let after = Utc::now();
    assert!(before < next && next <= after + chrono::Duration::seconds(1));
    assert!(before - chrono::Duration::seconds(1) <= back && back < after);
}

#[test]
fn schedules_and_walks_go_between_threads() {
    let schedule = Schedule::from_str("@hourly").unwrap();
    let start = start_of("2022-11-06T04:30:00Z", &Tz::America__Chicago);
    let mut walk = schedule.after_owned(start);
    let first = std::thread::spawn(move || walk.next()).join().unwrap();
    let shared =
        std::thread::scope(|it| it.spawn(|| schedule.after(&start).next()).join().unwrap());
    assert_eq!(
        (first, answers_text(&[shared])),
        (shared, "2022-11-06 00:00:00 -05:00".to_string())
    );
}
