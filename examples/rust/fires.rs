//! What a scheduler asks for: the fires of a job where the clock goes back, and which was the last.

use chrono::{DateTime, TimeZone, Utc};
use cron::zone::Zone;
use cron::Schedule;

fn main() {
    let mut now: DateTime<Utc> = Utc.with_ymd_and_hms(2022, 11, 5, 12, 0, 0).unwrap();
    let restarted = Utc.with_ymd_and_hms(2022, 11, 7, 0, 0, 0).unwrap();
    let schedule: Schedule = "0 30 1 * * *".parse().expect("the text is read");
    let chicago = Zone::rule("CST6CDT,M3.2.0,M11.1.0").expect("the zone is read");
    let fires = schedule.fires(&chicago);
    for _ in 0..3 {
        if let Some(fire) = fires.after(&now) {
            println!("{fire}"); // sleep until then, and run the job
            now = fire.into();
        }
    }
    if let Some(fire) = fires.by(&restarted) {
        println!("last: {fire}");
    }
}
