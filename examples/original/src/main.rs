//! Times of the crate `cron` 0.17.0: parses, and steps of walks, the least of 15 rounds of 50,000, in nanoseconds.
use chrono::{FixedOffset, TimeZone, Utc};
use cron::Schedule;
use std::hint::black_box;
use std::str::FromStr;
use std::time::Instant;

const TEXTS: [&str; 3] = ["0 30 9,12,15 1,15 May-Aug Mon,Wed,Fri 2018/2", "* * * * * *", "@hourly"];
const WALKS: [&str; 3] = ["0 30 9,12,15 1,15 May-Aug Mon,Wed,Fri 2018/2", "* * * * * *", "0 0 0 29 2 *"];

fn least(mut turn: impl FnMut()) -> u128 {
    (0..15).map(|_| { let begun = Instant::now(); turn(); begun.elapsed().as_nanos() }).min().unwrap() / 50_000
}

fn walk<Z: TimeZone>(schedule: &Schedule, zone: &Z) {
    let start = zone.with_ymd_and_hms(2018, 1, 1, 0, 0, 0).unwrap();
    let mut walk = schedule.after(&start);
    for _ in 0..50_000 {
        if black_box(walk.next()).is_none() {
            walk = schedule.after(&start);
        }
    }
}

fn main() {
    for text in TEXTS {
        let each = least(|| for _ in 0..50_000 { black_box(Schedule::from_str(black_box(text))).unwrap(); });
        println!("parse | {text} | {each} ns");
    }
    for text in WALKS {
        let schedule = Schedule::from_str(text).unwrap();
        println!("walk | UTC | {text} | {} ns", least(|| walk(&schedule, &Utc)));
        println!("walk | +05:30 | {text} | {} ns", least(|| walk(&schedule, &FixedOffset::east_opt(19_800).unwrap())));
    }
}
