//! Rows of the repository, and what they are made of.
#![allow(dead_code)]

use chrono::{DateTime, FixedOffset, NaiveDate, NaiveDateTime, Offset, TimeZone, Utc};
use std::fs;
use std::path::{Path, PathBuf};

/// Characters that a row shows by others.
const SHOWN: [(char, char); 12] = [
    ('␀', '\0'),
    ('␉', '\t'),
    ('␊', '\n'),
    ('␋', '\x0b'),
    ('␌', '\x0c'),
    ('␍', '\r'),
    ('␠', ' '),
    ('␤', '\u{85}'),
    ('⍽', '\u{a0}'),
    ('⎵', '\u{2003}'),
    ('〿', '\u{3000}'),
    ('⌷', '\u{feff}'),
];

/// Returns the text that a row shows.
pub fn text_of(row: &str) -> String {
    let meaning = |it: char| {
        SHOWN
            .iter()
            .find(|(shown, _)| *shown == it)
            .map_or(it, |them| them.1)
    };
    row.chars().map(meaning).collect()
}

/// Returns the folder of the rows that the proved programs replay too.
pub fn data_of(crate_name: &str) -> PathBuf {
    Path::new(env!("CARGO_MANIFEST_DIR"))
        .join("../crates")
        .join(crate_name)
        .join("data")
}

/// Returns the files of a folder whose names begin so, in their order.
pub fn files_of(folder: &Path, beginning: &str) -> Vec<PathBuf> {
    let entries = fs::read_dir(folder).unwrap_or_else(|why| panic!("{}: {why}", folder.display()));
    let mut files: Vec<PathBuf> = entries
        .map(|it| it.unwrap().path())
        .filter(|it| {
            it.file_name()
                .unwrap()
                .to_str()
                .unwrap()
                .starts_with(beginning)
        })
        .collect();
    files.sort();
    files
}

/// Calls for each row of a file, with its parts, and returns how many rows there are.
pub fn for_each_row(file: &Path, mut call: impl FnMut(&str, &[&str])) -> usize {
    let rows = fs::read_to_string(file).unwrap_or_else(|why| panic!("{}: {why}", file.display()));
    rows.lines()
        .filter(|it| !it.starts_with('#'))
        .map(|it| call(it, &parts_of(it)))
        .count()
}

/// Returns the parts of a row. The first may be empty, or end with a space.
fn parts_of(row: &str) -> Vec<&str> {
    row.split(" | ").collect()
}

/// Returns a moment as rows have it: what the clock shows, and its offset.
pub fn moment_text<Z: TimeZone>(moment: &DateTime<Z>) -> String {
    let offset = moment.offset().fix().local_minus_utc();
    let (sign, size) = (if offset < 0 { '-' } else { '+' }, offset.abs());
    let clock = moment.naive_local().format("%Y-%m-%d %H:%M:%S");
    let mut text = format!("{clock} {sign}{:02}:{:02}", size / 3600, size / 60 % 60);
    if size % 60 != 0 {
        text += &format!(":{:02}", size % 60);
    }
    text
}

/// Returns the answers as a row has them.
pub fn answers_text<Z: TimeZone>(answers: &[Option<DateTime<Z>>]) -> String {
    let texts = answers
        .iter()
        .map(|it| it.as_ref().map_or("None".to_string(), moment_text));
    texts.collect::<Vec<_>>().join(", ")
}

/// Reads an instant, as `2022-11-06T04:30:00.5Z`, or what a clock of the zone shows, as `2020-09-17
/// 14:29:36`.
pub fn start_of<Z: TimeZone>(text: &str, zone: &Z) -> DateTime<Z> {
    let text = match text {
        "the least instant" => "-009999-01-02T01:59:59Z",
        "the greatest instant" => "9999-12-30T22:00:00.999999999Z",
        other => other,
    };
    match text.strip_suffix('Z') {
        Some(text) => zone.from_utc_datetime(&civil_of(text)),
        None => zone.from_local_datetime(&civil_of(text)).unwrap(),
    }
}

pub fn instant_of(text: &str) -> DateTime<Utc> {
    start_of(text, &Utc)
}

fn civil_of(text: &str) -> NaiveDateTime {
    let (date, time) = text
        .split_once(&['T', ' '][..])
        .unwrap_or((text, "00:00:00"));
    let (date, sign) = date.strip_prefix('-').map_or((date, 1), |it| (it, -1));
    let date: Vec<i32> = date.split('-').map(|it| it.parse().unwrap()).collect();
    let (time, part) = time.split_once('.').unwrap_or((time, ""));
    let time: Vec<u32> = time.split(':').map(|it| it.parse().unwrap()).collect();
    let nanos = format!("{part:0<9}").parse().unwrap();
    NaiveDate::from_ymd_opt(sign * date[0], date[1] as u32, date[2] as u32)
        .and_then(|it| it.and_hms_nano_opt(time[0], time[1], time[2], nanos))
        .unwrap_or_else(|| panic!("{text} is no date-time"))
}

/// Returns the zone of rows that name one offset, where `chrono` holds it.
pub fn offset_of(name: &str) -> Option<FixedOffset> {
    FixedOffset::east_opt(name.strip_prefix("fixed ")?.parse().unwrap())
}
