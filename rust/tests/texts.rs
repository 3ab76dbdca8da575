//! What texts mean, by the rows that the proved programs replay too.

mod rows;

use cron::{Schedule, TimeUnitSpec};
use rows::{data_of, files_of, for_each_row, text_of};
use std::borrow::Cow;
use std::str::FromStr;

/// Returns a set as rows have it: `*` for the whole unit, else runs.
fn set_text(unit: &impl TimeUnitSpec) -> String {
    if unit.is_all() {
        return "*".to_string();
    }
    let mut runs: Vec<(u32, u32)> = Vec::new();
    for ordinal in unit.iter() {
        match runs.last_mut() {
            Some((_, end)) if *end + 1 == ordinal => *end = ordinal,
            _ => runs.push((ordinal, ordinal)),
        }
    }
    let texts = runs.iter().map(|(a, b)| {
        if a == b {
            a.to_string()
        } else {
            format!("{a}-{b}")
        }
    });
    texts.collect::<Vec<_>>().join(",")
}

fn meaning_of(schedule: &Schedule) -> String {
    let mut days = set_text(schedule.days_of_month());
    if schedule.last_day() {
        days = if days.is_empty() {
            "L".to_string()
        } else {
            days + ",L"
        };
    }
    [
        set_text(schedule.seconds()),
        set_text(schedule.minutes()),
        set_text(schedule.hours()),
        days,
        set_text(schedule.months()),
        set_text(schedule.days_of_week()),
        set_text(schedule.years()),
    ]
    .join(" ")
}

#[test]
fn texts_mean_what_their_rows_say() {
    let mut count = 0;
    for file in files_of(&data_of("cron_test_replay"), "texts_") {
        count += for_each_row(&file, |row, parts| {
            let text = text_of(parts[0]);
            let readings = [
                Schedule::from_str(&text),
                Schedule::try_from(text.as_str()),
                Schedule::try_from(text.clone()),
                Schedule::try_from(Cow::Borrowed(text.as_str())),
                Schedule::try_from(Cow::Owned(text.clone())),
            ];
            for reading in readings {
                let answer = match reading {
                    Ok(schedule) => {
                        assert_eq!(schedule.source(), text);
                        assert_eq!(schedule.to_string(), text);
                        let meaning = meaning_of(&schedule);
                        assert_eq!(schedule.canonical(), meaning, "{row}");
                        assert_eq!(String::from(schedule), text);
                        meaning
                    }
                    Err(error) => error.to_string(),
                };
                assert_eq!(answer, text_of(parts[1]), "{row}");
            }
        });
    }
    assert!(count > 3_000, "{count} rows");
}

#[test]
fn schedules_are_equal_by_their_texts() {
    let [weekly, same, other] =
        ["@weekly", "0 0 0 ? * 1", "0 0 0 * * 2"].map(|it| Schedule::from_str(it).unwrap());
    assert_eq!(weekly, weekly.clone());
    assert_ne!(weekly, same);
    assert!(weekly.timeunitspec_eq(&same));
    assert!(!weekly.timeunitspec_eq(&other));
}

#[test]
fn last_day_is_told_apart() {
    let [last, all, ends] = ["0 0 0 L * *", "0 0 0 *,L * *", "0 0 0 28-31 * *"]
        .map(|it| Schedule::from_str(it).unwrap());
    assert!(last.last_day() && all.last_day() && !ends.last_day());
    assert_eq!(last.days_of_month().count(), 0);
    assert!(all.days_of_month().is_all());
    let day = |it: &str| rows::instant_of(it);
    assert!(last.includes(day("2024-02-29T00:00:00Z")));
    assert!(!last.includes(day("2024-02-28T00:00:00Z")));
    assert!(last.includes(day("2023-02-28T00:00:00Z")));
}

#[test]
fn both_ends_of_a_set_meet() {
    let schedule = Schedule::from_str("0 0 0 1,7,15,31 * *").unwrap();
    let mut days = schedule.days_of_month().iter();
    assert_eq!((days.next(), days.next_back()), (Some(1), Some(31)));
    assert_eq!((days.next_back(), days.next()), (Some(15), Some(7)));
    assert_eq!((days.next(), days.next_back()), (None, None));
}

#[test]
fn ranges_are_cut_to_the_unit() {
    use std::ops::Bound::{Excluded, Included, Unbounded};
    let schedule = Schedule::from_str("0 0 0 1,7,15,31 * * 1970,2033,2034,2097,2098,2100").unwrap();
    let days = |bounds: (std::ops::Bound<u32>, std::ops::Bound<u32>)| {
        schedule.days_of_month().range(bounds).collect::<Vec<_>>()
    };
    assert_eq!(days((Unbounded, Unbounded)), [1, 7, 15, 31]);
    assert_eq!(days((Included(7), Included(15))), [7, 15]);
    assert_eq!(days((Excluded(7), Excluded(31))), [15]);
    assert_eq!(days((Included(0), Included(u32::MAX))), [1, 7, 15, 31]);
    assert_eq!(days((Excluded(u32::MAX), Unbounded)), []);
    assert_eq!(days((Included(20), Included(10))), []);
    let years = schedule.years();
    assert_eq!(
        years.range(2033..=2098).rev().collect::<Vec<_>>(),
        [2098, 2097, 2034, 2033]
    );
    assert_eq!(years.range(..2033).collect::<Vec<_>>(), [1970]);
    assert_eq!(
        (years.count(), years.includes(2100), years.includes(2101)),
        (6, true, false)
    );
}
