//! Cron expressions in time zones: the API of the crate `cron` 0.17.0, over a proved library.
//!
//! What a text means and which civil second matches next is asked of the library `cron_c`, and how
//! a zone reads a civil second is asked of the zone of `chrono`.
//!
//! ```
//! use chrono::{TimeZone, Utc};
//! use cron::Schedule;
//! use std::str::FromStr;
//!
//! //                                   sec min hour    day of month month   day of week year
//! let schedule = Schedule::from_str("0   30  9,12,15 1,15         May-Aug Mon,Wed,Fri 2018/2")?;
//! let start = Utc.with_ymd_and_hms(2018, 1, 1, 0, 0, 0).unwrap();
//! let first: Vec<String> = schedule.after(&start).take(2).map(|it| it.to_string()).collect();
//! assert_eq!(first, ["2018-06-01 09:30:00 UTC", "2018-06-01 12:30:00 UTC"]);
//! # Ok::<(), cron::error::Error>(())
//! ```
//!
//! # Beyond the crate
//!
//! The walks go along what a clock shows. A scheduler goes by instants, or runs each match once
//! also where the clock changes, in a zone that the library reads itself:
//!
//! ```
//! use chrono::{TimeZone, Utc};
//! use cron::crontab::Crontab;
//! use cron::unions::Union;
//! use cron::zone::Zone;
//! use cron::Schedule;
//!
//! let schedule: Schedule = "0 30 1 * * *".parse()?;
//! let chicago = Zone::rule("CST6CDT,M3.2.0,M11.1.0")?; // or Zone::open("America/Chicago")?
//! let last = Utc.with_ymd_and_hms(2022, 11, 5, 0, 0, 0).unwrap();
//! let now = Utc.with_ymd_and_hms(2022, 11, 6, 7, 0, 0).unwrap();
//! let fires = schedule.fires(&chicago);
//! let fire = fires.after(&now).unwrap(); // when to wake
//! let _ = fires.past(&fire); // the next one after a fire that was run
//! let _ = fires.by(&now); // what fired last
//! assert_eq!(fires.between(&last, &now).count(), 2); // what was missed
//! let _ = schedule.dues(&chicago).after(&now); // each match once
//! let _ = "30 9 * * mon-fri".parse::<Crontab>()?.fires(&chicago).after(&now); // five fields
//! let _ = [&schedule, &schedule].into_iter().collect::<Union>().fires(&chicago); // several as one
//! # Ok::<(), Box<dyn std::error::Error>>(())
//! ```
//!
//! Texts, sets, messages, civil matches, fires and due fires are those of the proved library. That
//! walks ask a zone rightly, and that structs are laid out as in C, is tested. See [`fires`],
//! [`dues`], [`crontab`], [`unions`] and [`zone`]. With the feature `serde` a schedule is the string of its
//! text.
//!
//! # Panics
//!
//! Reading a text or a zone panics where the archive that was linked isn't of a version that this
//! package knows (1.7.0 or later, before 2.0.0). Nothing else panics.
#![deny(unsafe_code)]
#![deny(rust_2018_idioms)]
#![warn(missing_docs)]

pub mod crontab;
pub mod dues;
pub mod error;
#[allow(unsafe_code)]
mod ffi;
pub mod fires;
mod schedule;
#[cfg(feature = "serde")]
mod serde_support;
mod time_unit;
pub mod unions;
mod walk;
pub mod zone;

pub use crate::schedule::Schedule;
pub use crate::time_unit::TimeUnitSpec;
pub use crate::walk::{OwnedScheduleIterator, ScheduleIterator};
