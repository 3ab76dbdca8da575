//! The first three items of an expression, and why another is refused.

use chrono::{FixedOffset, TimeZone};
use cron::Schedule;

fn main() {
    let utc = FixedOffset::east_opt(0).expect("the offset is less than a day");
    let start = utc.with_ymd_and_hms(2024, 1, 1, 0, 0, 0).unwrap();
    let schedule: Schedule = "0 0,30 9 * * 2".parse().expect("the text is read");
    for item in schedule.after(&start).take(3) {
        println!("{item}");
    }
    if let Err(message) = "0 0 25 * * *".parse::<Schedule>() {
        println!("error: {message}");
    }
}
