//! Walks and unions against a scan: each civil second of some days, or each instant, whether what
//! the clock shows lies in the sets, and how the zone reads it.

use chrono::{
    DateTime, Datelike, Duration, FixedOffset, LocalResult, NaiveDate, NaiveDateTime, Offset,
    TimeZone, Timelike,
};
use chrono_tz::Tz;
use cron::crontab::Crontab;
use cron::dues::Due;
use cron::unions::Union;
use cron::zone::Zone;
use cron::{Schedule, TimeUnitSpec};
use std::str::FromStr;

/// Places, and a day of a transition there.
const DAYS: [(&str, (i32, u32, u32)); 10] = [
    ("America/Chicago", (2022, 11, 6)),
    ("America/Chicago", (2022, 3, 13)),
    ("Europe/London", (2019, 10, 27)),
    ("Europe/London", (2019, 3, 31)),
    ("Australia/Lord_Howe", (2019, 4, 7)),
    ("Australia/Lord_Howe", (2019, 10, 6)),
    ("America/Sao_Paulo", (2018, 11, 4)),
    ("America/Sao_Paulo", (2019, 2, 17)),
    ("Pacific/Apia", (2011, 12, 30)),
    ("Antarctica/Troll", (2018, 10, 28)),
];

/// Numbers that look random, the same in each run.
struct Numbers(u64);

impl Numbers {
    fn below(&mut self, end: u64) -> u64 {
        self.0 = self
            .0
            .wrapping_mul(6_364_136_223_846_793_005)
            .wrapping_add(1_442_695_040_888_963_407);
        (self.0 >> 33) % end
    }

    fn field(&mut self, greatest: u64) -> String {
        match self.below(4) {
            0 => "*".to_string(),
            1 => self.below(greatest).to_string(),
            2 => format!("*/{}", 1 + self.below(greatest - 1)),
            _ => format!("{},{}", self.below(greatest), self.below(greatest)),
        }
    }

    fn text(&mut self) -> String {
        let (second, minute) = (self.below(60), self.field(60));
        let hour = if self.below(2) == 0 {
            "0-3".to_string()
        } else {
            self.field(24)
        };
        let day_of_week = ["*", "*", "*", "1", "1,7", "5-7"][self.below(6) as usize];
        format!("{second} {minute} {hour} * * {day_of_week}")
    }
}

fn is_in_sets(schedule: &Schedule, clock: &NaiveDateTime) -> bool {
    schedule.seconds().includes(clock.second())
        && schedule.minutes().includes(clock.minute())
        && schedule.hours().includes(clock.hour())
        && schedule.days_of_month().includes(clock.day())
        && schedule.months().includes(clock.month())
        && schedule
            .days_of_week()
            .includes(clock.weekday().number_from_sunday())
        && schedule.years().includes(clock.year() as u32)
}

/// Returns the items from one civil second up to another, by looking at each second.
fn scan(
    schedule: &Schedule,
    zone: Tz,
    from: NaiveDateTime,
    to: NaiveDateTime,
) -> Vec<DateTime<Tz>> {
    let mut items = Vec::new();
    let mut clock = from;
    while clock <= to {
        if is_in_sets(schedule, &clock) {
            match zone.from_local_datetime(&clock) {
                LocalResult::None => (),
                LocalResult::Single(item) => items.push(item),
                LocalResult::Ambiguous(earlier, later) => items.extend([earlier, later]),
            }
        }
        clock += Duration::seconds(1);
    }
    items
}

#[test]
fn walks_are_the_scan_in_both_directions() {
    let mut numbers = Numbers(20_261_127);
    let mut seen = 0;
    for (place, (year, month, day)) in DAYS {
        let zone = Tz::from_str(place).unwrap();
        let noon = NaiveDate::from_ymd_opt(year, month, day)
            .unwrap()
            .and_hms_opt(12, 0, 0)
            .unwrap();
        let (from, to) = (noon - Duration::hours(30), noon + Duration::hours(30));
        let start = zone.from_local_datetime(&from).single().unwrap() - Duration::seconds(1);
        let end = zone.from_local_datetime(&to).single().unwrap() + Duration::seconds(1);
        for _ in 0..6 {
            let text = numbers.text();
            let schedule = Schedule::from_str(&text).unwrap();
            let items = scan(&schedule, zone, from, to);
            seen += items.len();
            let ahead: Vec<_> = schedule.after(&start).take(items.len()).collect();
            assert_eq!(ahead, items, "{text} in {place}");
            assert!(schedule
                .after(&start)
                .nth(items.len())
                .map_or(true, |it| it.naive_local() > to));
            let mut back: Vec<_> = schedule.after(&end).rev().take(items.len()).collect();
            back.reverse();
            assert_eq!(back, items, "{text} in {place}");
            assert!(items.iter().all(|it| schedule.includes(*it)));
            turn_about(&schedule, start, &items, &mut numbers);
        }
    }
    assert!(seen > 5_000, "{seen} items");
}

/// Goes ahead and back along the items, and compares each answer with that of an index into them.
fn turn_about(
    schedule: &Schedule,
    start: DateTime<Tz>,
    items: &[DateTime<Tz>],
    numbers: &mut Numbers,
) {
    let mut walk = schedule.after_owned(start);
    let mut at: Option<usize> = None;
    for _ in 0..items.len().min(400) {
        let ahead = numbers.below(5) > 1;
        let next = match (at, ahead) {
            (None, _) => 0,
            (Some(it), true) if it + 1 < items.len() => it + 1,
            (Some(it), false) if it > 0 => it - 1,
            _ => continue,
        };
        let is_ahead = at.map_or(true, |it| next > it);
        let answer = if is_ahead {
            walk.next()
        } else {
            walk.next_back()
        };
        assert_eq!(answer.as_ref(), Some(&items[next]), "{schedule}");
        at = Some(next);
    }
}

/// Places with the rules that they had in these years, and a day of a transition there.
const RULES: [(&str, &str, (i32, u32, u32)); 5] = [
    ("America/Chicago", "CST6CDT,M3.2.0,M11.1.0", (2022, 11, 6)),
    ("America/Chicago", "CST6CDT,M3.2.0,M11.1.0", (2022, 3, 13)),
    ("Europe/London", "GMT0BST,M3.5.0/1,M10.5.0", (2019, 10, 27)),
    (
        "Australia/Lord_Howe",
        "<+1030>-10:30<+11>-11,M10.1.0,M4.1.0",
        (2019, 4, 7),
    ),
    (
        "Australia/Lord_Howe",
        "<+1030>-10:30<+11>-11,M10.1.0,M4.1.0",
        (2019, 10, 6),
    ),
];

/// What a union is made of: schedules, and a crontab's minute, hour, day and day of the week, from 0
/// for Sunday, of which one kind of day suffices.
struct Parts {
    schedules: Vec<Schedule>,
    crontab: [u32; 4],
}

impl Parts {
    fn random(numbers: &mut Numbers, day: u32) -> Parts {
        let schedules = (0..2).map(|_| Schedule::from_str(&numbers.text()).unwrap());
        Parts {
            schedules: schedules.collect(),
            crontab: [
                numbers.below(60) as u32,
                numbers.below(4) as u32,
                day,
                numbers.below(7) as u32,
            ],
        }
    }

    fn union(&self) -> Union {
        let [minute, hour, day, weekday] = self.crontab;
        let text = format!("{minute},59 {hour} {day} * {weekday}");
        let mut union: Union = self.schedules.iter().collect();
        union.extend([&Crontab::from_str(&text).unwrap()]);
        union
    }

    fn has(&self, clock: &NaiveDateTime) -> bool {
        let [minute, hour, day, weekday] = self.crontab;
        self.schedules.iter().any(|it| is_in_sets(it, clock))
            || clock.second() == 0
                && (clock.minute() == minute || clock.minute() == 59)
                && clock.hour() == hour
                && (clock.day() == day || clock.weekday().num_days_from_sunday() == weekday)
    }
}

/// Returns the fires and the due fires after one instant and up to another, by looking at each
/// instant. The clock shows no second twice just before the first one.
fn scan_instants(
    parts: &Parts,
    zone: Tz,
    start: i64,
    end: i64,
) -> (Vec<DateTime<FixedOffset>>, Vec<Due>) {
    let (mut fires, mut dues) = (Vec::new(), Vec::new());
    let shown = |instant: i64| {
        let moment = zone.timestamp_opt(instant, 0).unwrap();
        moment.with_timezone(&moment.offset().fix())
    };
    let mut latest = shown(start).naive_local();
    for instant in start + 1..=end {
        let moment = shown(instant);
        if parts.has(&moment.naive_local()) {
            fires.push(moment);
        }
        while latest < moment.naive_local() {
            latest += Duration::seconds(1);
            if parts.has(&latest) {
                dues.push(Due {
                    moment,
                    nominal: latest,
                });
            }
        }
    }
    (fires, dues)
}

#[test]
fn unions_are_the_scan_by_both_rules() {
    let mut numbers = Numbers(28_112_026);
    let mut seen = 0;
    for (place, rule, (year, month, day)) in RULES {
        let (tz, zone) = (Tz::from_str(place).unwrap(), Zone::rule(rule).unwrap());
        let date = NaiveDate::from_ymd_opt(year, month, day).unwrap();
        let noon = tz.from_local_datetime(&date.and_hms_opt(12, 0, 0).unwrap());
        let end = noon.single().unwrap();
        let start = end - Duration::hours(20);
        for _ in 0..4 {
            let parts = Parts::random(&mut numbers, day);
            let union = parts.union();
            let (fires, dues) = scan_instants(&parts, tz, start.timestamp(), end.timestamp());
            seen += fires.len() + dues.len();
            let (by_instants, once) = (union.fires(&zone), union.dues(&zone));
            let told = by_instants.between(&start, &end).map(|it| it.to_rfc3339());
            assert!(told.eq(fires.iter().map(|it| it.to_rfc3339())));
            assert!(once.between(&start, &end).eq(dues.iter().copied()));
            assert_eq!(by_instants.after(&start).as_ref(), fires.first());
            assert_eq!(by_instants.by(&end).as_ref(), fires.last());
            assert_eq!(once.after(&start).as_ref(), dues.first());
            assert_eq!(once.by(&end).as_ref(), dues.last());
        }
    }
    assert!(seen > 1_000, "{seen} fires");
}

#[test]
fn union_of_no_schedules_never_fires() {
    let (start, zone) = (DateTime::<chrono::Utc>::MIN_UTC, Zone::utc());
    assert_eq!(Union::new().fires(&zone).after(&start), None);
    assert_eq!(Union::new().dues(&zone).after(&start), None);
}
