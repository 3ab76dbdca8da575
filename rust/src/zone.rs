//! Zones that the library reads itself: a rule as POSIX has it, or a zone file with its history.

use crate::ffi::{self, Era, NoHistory, Rule, Source};
use chrono::FixedOffset;
use std::env;
use std::error;
use std::fmt;
use std::fs;
use std::io::ErrorKind;
use std::path::{Path, PathBuf};

/// A zone, and since when the clock had which offset. Read it once and keep it.
#[derive(Clone, Debug, PartialEq, Eq)]
pub struct Zone {
    eras: Vec<Era>,
}

impl Zone {
    /// Returns UTC.
    pub fn utc() -> Zone {
        Zone {
            eras: vec![Era::always(ffi::UTC)],
        }
    }

    /// Reads a rule as POSIX has it, as `CST6CDT,M3.2.0,M11.1.0`, or `UTC`. The rule holds for all
    /// times.
    pub fn rule(text: &str) -> Result<Zone, ZoneError> {
        let rule = ffi::parse_rule(text).ok_or(ZoneError::Refused)?;
        Zone::of_eras(vec![Era::always(rule)])
    }

    /// Reads the bytes of a compiled zone file (TZif), as those below `/usr/share/zoneinfo`.
    pub fn history(bytes: &[u8]) -> Result<Zone, ZoneError> {
        match ffi::read_history(bytes) {
            Ok(eras) => Zone::of_eras(eras),
            Err(NoHistory::OutOfMemory) => Err(ZoneError::OutOfMemory),
            Err(NoHistory::Refused) => Err(ZoneError::Refused),
        }
    }

    /// Opens the zone of a text: `UTC`, a rule, a name of the time zone database, as
    /// `America/Chicago`, or `local`, which is what the variable TZ says, and where it isn't set the
    /// machine's own zone. One file is read at most, of a name that below the folder which TZDIR
    /// names, or else `/usr/share/zoneinfo`. No name leaves that folder. An empty TZDIR names none.
    pub fn open(text: &str) -> Result<Zone, ZoneError> {
        let tz = env::var_os("TZ").map(|it| it.to_string_lossy().into_owned());
        match ffi::zone_source(text, tz.as_deref()).ok_or(ZoneError::Refused)? {
            Source::Stated(rule) => Zone::of_eras(vec![Era::always(rule)]),
            Source::InFolder(name) => {
                let named = env::var_os("TZDIR").filter(|it| !it.is_empty());
                let folder = named.unwrap_or_else(|| "/usr/share/zoneinfo".into());
                Zone::of_file(&PathBuf::from(folder).join(name))
            }
            Source::AtPath(path) => Zone::of_file(path.as_ref()),
            Source::OfMachine => match fs::read("/etc/localtime") {
                Err(error) if error.kind() == ErrorKind::NotFound => Ok(Zone::utc()),
                read => Zone::history(&read.map_err(|_| ZoneError::Unread)?),
            },
        }
    }

    fn of_file(path: &Path) -> Result<Zone, ZoneError> {
        Zone::history(&fs::read(path).map_err(|_| ZoneError::Unread)?)
    }

    pub(crate) fn eras(&self) -> &[Era] {
        &self.eras
    }

    fn of_eras(eras: Vec<Era>) -> Result<Zone, ZoneError> {
        if eras.iter().all(|it| has_chrono_offsets(&it.rule)) {
            Ok(Zone { eras })
        } else {
            Err(ZoneError::OffsetOfADay)
        }
    }
}

impl From<FixedOffset> for Zone {
    fn from(offset: FixedOffset) -> Zone {
        Zone {
            eras: vec![Era::always(Rule::fixed(offset.local_minus_utc()))],
        }
    }
}

/// Returns whether a fire of the rule is a `DateTime<FixedOffset>`.
fn has_chrono_offsets(rule: &Rule) -> bool {
    [rule.offset, rule.saving]
        .iter()
        .all(|&it| FixedOffset::east_opt(it).is_some())
}

/// Why there is no zone.
#[derive(Clone, Copy, Debug, PartialEq, Eq)]
#[non_exhaustive]
pub enum ZoneError {
    /// The text says no zone, or the bytes are none that the library takes.
    Refused,
    /// The file that has the zone can't be read.
    Unread,
    /// An offset is 24 hours or more, which `chrono` holds none of.
    OffsetOfADay,
    /// There is no memory for what the bytes say.
    OutOfMemory,
}

impl fmt::Display for ZoneError {
    fn fmt(&self, f: &mut fmt::Formatter<'_>) -> fmt::Result {
        f.write_str(match self {
            ZoneError::Refused => "there is no such zone",
            ZoneError::Unread => "the zone's file can't be read",
            ZoneError::OffsetOfADay => "an offset of the zone is 24 hours or more",
            ZoneError::OutOfMemory => "out of memory",
        })
    }
}

impl error::Error for ZoneError {}
