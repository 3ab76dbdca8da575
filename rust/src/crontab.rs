//! Expressions of crontabs: five fields, or a nickname.
//!
//! ```
//! use chrono::{TimeZone, Utc};
//! use cron::crontab::Crontab;
//! use cron::zone::Zone;
//!
//! let line: Crontab = "30 9 13 * fri".parse()?;
//! let start = Utc.with_ymd_and_hms(2024, 9, 7, 0, 0, 0).unwrap();
//! let utc = Zone::utc();
//! let first = line.fires(&utc).after(&start).unwrap();
//! assert_eq!(first.to_string(), "2024-09-13 09:30:00 +00:00");
//! assert_eq!(line.fires(&utc).past(&first).unwrap().to_string(), "2024-09-20 09:30:00 +00:00");
//! # Ok::<(), Box<dyn std::error::Error>>(())
//! ```

use crate::error::Error;
use crate::ffi::{self, Sets};
use std::fmt;
use std::str::FromStr;

/// What an expression of a crontab means, as `30 9 * * mon-fri` or `@daily`. Where neither the third
/// nor the fifth field begins with a star, one of both kinds of day suffices. `@reboot`, which no
/// clock fires, never fires.
#[derive(Clone, Debug)]
pub struct Crontab {
    source: String,
    schedules: Vec<Sets>,
}

impl Crontab {
    /// Returns the text that was read.
    pub fn source(&self) -> &str {
        &self.source
    }

    /// Returns the canonical text of each schedule that the expression means and that can fire, as
    /// [`Schedule`](crate::Schedule) reads them: one, or two of which one suffices, or none.
    pub fn canonical(&self) -> Vec<String> {
        self.schedules.iter().filter_map(ffi::canonical).collect()
    }

    pub(crate) fn schedules(&self) -> &[Sets] {
        &self.schedules
    }
}

impl FromStr for Crontab {
    type Err = Error;

    fn from_str(text: &str) -> Result<Crontab, Error> {
        Ok(Crontab {
            source: text.to_string(),
            schedules: ffi::parse_crontab(text)?,
        })
    }
}

impl fmt::Display for Crontab {
    fn fmt(&self, f: &mut fmt::Formatter<'_>) -> fmt::Result {
        f.write_str(&self.source)
    }
}
