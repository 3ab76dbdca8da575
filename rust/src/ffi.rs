//! The calls of `crates/cron_c/include/cron_c.h` as safe functions: the only module with unsafe
//! code.
//!
//! Each call reads and writes what its arguments point to and nothing else, and keeps nothing. So a
//! call is sound where each pointer is that of a live value, or of a slice beside its length, and
//! what it writes to overlaps nothing else. References and slices are such, and none of their
//! pointers is null.

use crate::error::{Error, ErrorKind};
use std::ops::Range;

const OK: u32 = 0;
const NO_ITEM: u32 = 1;
const REFUSED: u32 = 2;
const NOT_AN_ITEM: u32 = 6;
const MORE: u32 = 8;
const NO_MEMORY: u32 = 9;

/// The instants that a call takes, in seconds since 1970-01-01T00:00:00Z.
const LEAST_INSTANT: i64 = -377_705_023_201;
const GREATEST_INSTANT: i64 = 253_402_207_200;

/// The bytes that hold the canonical text of any schedule, as `CRON_C_SCHEDULE_TEXT` has it.
const SCHEDULE_TEXT: usize = 1245;

/// The civil seconds of the years 1970 to 2100, which alone can match.
pub(crate) const CIVIL_SECONDS: Range<i64> = 0..4_133_980_800;

/// `cron_c_schedule`: a bit for each ordinal.
#[repr(C)]
#[derive(Clone, Copy, Debug, Default, PartialEq, Eq)]
pub(crate) struct Sets {
    pub(crate) seconds: u64,
    pub(crate) minutes: u64,
    pub(crate) hours: u64,
    pub(crate) days_of_month: u64,
    pub(crate) last_day: u64,
    pub(crate) months: u64,
    pub(crate) days_of_week: u64,
    pub(crate) years: [u64; 3],
    reserved: [u64; 6],
}

/// `cron_c_turn`: when a clock turns each year.
#[repr(C)]
#[derive(Clone, Copy, Debug, Default, PartialEq, Eq)]
struct Turn {
    kind: u32,
    month: u32,
    week: u32,
    day: u32,
    time: i32,
}

/// `cron_c_zone`: UTC, one offset, or an offset and a saving.
#[repr(C)]
#[derive(Clone, Copy, Debug, Default, PartialEq, Eq)]
pub(crate) struct Rule {
    kind: u32,
    pub(crate) offset: i32,
    pub(crate) saving: i32,
    starts: Turn,
    ends: Turn,
    reserved: [u32; 3],
}

/// What `CRON_C_ZONE_UTC` is.
pub(crate) const UTC: Rule = {
    let never = Turn {
        kind: 0,
        month: 0,
        week: 0,
        day: 0,
        time: 0,
    };
    Rule {
        kind: 0,
        offset: 0,
        saving: 0,
        starts: never,
        ends: never,
        reserved: [0; 3],
    }
};

impl Rule {
    /// What `CRON_C_ZONE_FIXED` is.
    pub(crate) fn fixed(seconds: i32) -> Rule {
        Rule {
            kind: 1,
            offset: seconds,
            ..UTC
        }
    }
}

/// `cron_c_era`: a rule from an instant on.
#[repr(C)]
#[derive(Clone, Copy, Debug, Default, PartialEq, Eq)]
pub(crate) struct Era {
    starts: i64,
    pub(crate) rule: Rule,
}

impl Era {
    /// What `CRON_C_ERA_ALWAYS` is.
    pub(crate) fn always(rule: Rule) -> Era {
        Era {
            starts: i64::MIN,
            rule,
        }
    }
}

/// `cron_c_item`: an instant, the clock's offset at it, and of a due fire how far what the clock
/// shows lies past the match.
#[repr(C)]
#[derive(Clone, Copy, Debug, Default, PartialEq, Eq)]
pub(crate) struct Item {
    pub(crate) instant: i64,
    pub(crate) offset: i32,
    pub(crate) passed: u32,
}

/// A search from an instant: `cron_c_union_fire_after` and those of its form.
type Search = unsafe extern "C" fn(*const Sets, usize, *const Era, usize, i64, *mut Item) -> u32;

extern "C" {
    fn cron_c_version() -> u32;
    fn cron_c_parse(
        text: *const u8,
        text_length: usize,
        schedule: *mut Sets,
        message: *mut u8,
        message_length: usize,
        message_needed: *mut usize,
    ) -> u32;
    fn cron_c_crontab_parse(
        text: *const u8,
        text_length: usize,
        schedules: *mut Sets,
        schedules_length: usize,
        count: *mut usize,
        message: *mut u8,
        message_length: usize,
        message_needed: *mut usize,
    ) -> u32;
    fn cron_c_canonical(
        schedule: *const Sets,
        text: *mut u8,
        text_length: usize,
        text_needed: *mut usize,
    ) -> u32;
    fn cron_c_zone_parse(text: *const u8, text_length: usize, zone: *mut Rule) -> u32;
    fn cron_c_zone_source(
        text: *const u8,
        text_length: usize,
        tz: *const u8,
        tz_length: usize,
        tz_is_set: u32,
        zone: *mut Rule,
        place: *mut u32,
        path: *mut u8,
        path_length: usize,
        path_needed: *mut usize,
    ) -> u32;
    fn cron_c_history_read(
        bytes: *const u8,
        bytes_length: usize,
        eras: *mut Era,
        eras_length: usize,
        count: *mut usize,
    ) -> u32;
    fn cron_c_fire_after(
        schedule: *const Sets,
        zone: *const Rule,
        instant: i64,
        item: *mut Item,
    ) -> u32;
    fn cron_c_fire_by(
        schedule: *const Sets,
        zone: *const Rule,
        instant: i64,
        item: *mut Item,
    ) -> u32;
    fn cron_c_fire_at(
        schedule: *const Sets,
        zone: *const Rule,
        instant: i64,
        item: *mut Item,
    ) -> u32;
    fn cron_c_union_fire_after(
        schedules: *const Sets,
        schedules_length: usize,
        eras: *const Era,
        eras_length: usize,
        instant: i64,
        item: *mut Item,
    ) -> u32;
    fn cron_c_union_fire_by(
        schedules: *const Sets,
        schedules_length: usize,
        eras: *const Era,
        eras_length: usize,
        instant: i64,
        item: *mut Item,
    ) -> u32;
    fn cron_c_union_fires_past(
        schedules: *const Sets,
        schedules_length: usize,
        eras: *const Era,
        eras_length: usize,
        item: *const Item,
        now: i64,
        items: *mut Item,
        items_length: usize,
        count: *mut usize,
    ) -> u32;
    fn cron_c_union_due_after(
        schedules: *const Sets,
        schedules_length: usize,
        eras: *const Era,
        eras_length: usize,
        instant: i64,
        item: *mut Item,
    ) -> u32;
    fn cron_c_union_due_by(
        schedules: *const Sets,
        schedules_length: usize,
        eras: *const Era,
        eras_length: usize,
        instant: i64,
        item: *mut Item,
    ) -> u32;
    fn cron_c_union_due_past(
        schedules: *const Sets,
        schedules_length: usize,
        eras: *const Era,
        eras_length: usize,
        item: *mut Item,
    ) -> u32;
}

/// Panics where the archive has another version than these structs and calls.
fn expect_version() {
    // SAFETY: the call takes no pointer.
    let version = unsafe { cron_c_version() };
    assert!(
        (10_700..20_000).contains(&version),
        "libcron_c.a has version {version}, and this package is for 10700 up to 19999"
    );
}

/// Returns the item that was written with this status, if one was.
fn found(status: u32, item: Item) -> Option<Item> {
    match status {
        OK => Some(item),
        NO_ITEM => None,
        // The structs were written by the calls themselves, and instants and items are held to
        // their limits.
        other => unreachable!("cron_c answers the status {other}"),
    }
}

/// Reads an expression.
pub(crate) fn parse(text: &str) -> Result<Sets, Error> {
    expect_version();
    let mut sets = Sets::default();
    told(|message, needed| {
        // SAFETY: as at the head of this file.
        unsafe {
            cron_c_parse(
                text.as_ptr(),
                text.len(),
                &mut sets,
                message.as_mut_ptr(),
                message.len(),
                needed,
            )
        }
    })?;
    Ok(sets)
}

/// Reads an expression of a crontab. It means none, one or two schedules.
pub(crate) fn parse_crontab(text: &str) -> Result<Vec<Sets>, Error> {
    expect_version();
    let mut sets = [Sets::default(); 2];
    let mut count = 0;
    told(|message, needed| {
        // SAFETY: as at the head of this file.
        unsafe {
            cron_c_crontab_parse(
                text.as_ptr(),
                text.len(),
                sets.as_mut_ptr(),
                sets.len(),
                &mut count,
                message.as_mut_ptr(),
                message.len(),
                needed,
            )
        }
    })?;
    Ok(sets[..count].to_vec())
}

/// Returns the canonical text of sets that a text means, if none is empty.
pub(crate) fn canonical(sets: &Sets) -> Option<String> {
    let mut text = vec![0; SCHEDULE_TEXT];
    let mut needed = 0;
    // SAFETY: as at the head of this file.
    let status = unsafe { cron_c_canonical(sets, text.as_mut_ptr(), text.len(), &mut needed) };
    if status == NOT_AN_ITEM {
        return None;
    }
    assert_eq!(status, OK, "these sets were read of a text");
    text.truncate(needed);
    Some(String::from_utf8(text).expect("a canonical text is ASCII"))
}

/// Calls a reader of texts, and where it refuses the text once more, with room for the message.
fn told(mut read: impl FnMut(&mut [u8], &mut usize) -> u32) -> Result<(), Error> {
    let mut needed = 0;
    let mut status = read(&mut [], &mut needed);
    if status == OK {
        return Ok(());
    }
    let mut message = vec![0; needed];
    if status == REFUSED {
        status = read(&mut message, &mut needed);
    }
    let message = match status {
        REFUSED => String::from_utf8_lossy(&message).into_owned(),
        _ => "the text means nothing, and no message can be told".to_string(),
    };
    Err(ErrorKind::Expression(message).into())
}

/// Reads `UTC`, or a rule as POSIX has it.
pub(crate) fn parse_rule(text: &str) -> Option<Rule> {
    expect_version();
    let mut rule = UTC;
    // SAFETY: as at the head of this file.
    let status = unsafe { cron_c_zone_parse(text.as_ptr(), text.len(), &mut rule) };
    (status == OK).then_some(rule)
}

/// Where the zone of a text is found.
pub(crate) enum Source {
    Stated(Rule),
    InFolder(String),
    AtPath(String),
    OfMachine,
}

/// Tells where the zone of a text is found; `tz` is what the variable TZ holds, if it is set.
pub(crate) fn zone_source(text: &str, tz: Option<&str>) -> Option<Source> {
    expect_version();
    let told = tz.unwrap_or_default();
    let (mut rule, mut place, mut needed) = (UTC, 0, 0);
    // A name or a path is no longer than the text that has it.
    let mut path = vec![0; text.len().max(told.len())];
    // SAFETY: as at the head of this file.
    let status = unsafe {
        cron_c_zone_source(
            text.as_ptr(),
            text.len(),
            told.as_ptr(),
            told.len(),
            tz.is_some().into(),
            &mut rule,
            &mut place,
            path.as_mut_ptr(),
            path.len(),
            &mut needed,
        )
    };
    if status != OK {
        return None;
    }
    path.truncate(needed);
    let path = String::from_utf8(path).expect("it is a part of a text");
    Some(match place {
        0 => Source::Stated(rule),
        1 => Source::InFolder(path),
        2 => Source::AtPath(path),
        _ => Source::OfMachine,
    })
}

/// Why the bytes of a zone's file give no eras.
pub(crate) enum NoHistory {
    OutOfMemory,
    Refused,
}

/// Reads the bytes of a compiled zone file.
pub(crate) fn read_history(bytes: &[u8]) -> Result<Vec<Era>, NoHistory> {
    expect_version();
    let mut eras = vec![Era::default(); 400];
    loop {
        let mut count = 0;
        // SAFETY: as at the head of this file.
        let status = unsafe {
            cron_c_history_read(
                bytes.as_ptr(),
                bytes.len(),
                eras.as_mut_ptr(),
                eras.len(),
                &mut count,
            )
        };
        match status {
            OK => {
                eras.truncate(count);
                return Ok(eras);
            }
            MORE => eras.resize(count, Era::default()),
            NO_MEMORY => return Err(NoHistory::OutOfMemory),
            _ => return Err(NoHistory::Refused),
        }
    }
}

/// Returns whether the civil second matches.
pub(crate) fn is_match(sets: &Sets, second: i64) -> bool {
    // In UTC a civil second is its instant.
    CIVIL_SECONDS.contains(&second) && {
        let mut item = Item::default();
        // SAFETY: as at the head of this file.
        let status = unsafe { cron_c_fire_at(sets, &UTC, second, &mut item) };
        found(status, item).is_some()
    }
}

/// Returns the first civil second from this one on that matches.
pub(crate) fn match_at_or_after(sets: &Sets, second: i64) -> Option<i64> {
    let last = second.max(CIVIL_SECONDS.start) - 1;
    if last >= CIVIL_SECONDS.end {
        return None;
    }
    let mut item = Item::default();
    // SAFETY: as at the head of this file.
    let status = unsafe { cron_c_fire_after(sets, &UTC, last, &mut item) };
    found(status, item).map(|it| it.instant)
}

/// Returns the last civil second up to this one that matches.
pub(crate) fn match_at_or_before(sets: &Sets, second: i64) -> Option<i64> {
    if second < CIVIL_SECONDS.start {
        return None;
    }
    let mut item = Item::default();
    // SAFETY: as at the head of this file.
    let status = unsafe { cron_c_fire_by(sets, &UTC, second.min(CIVIL_SECONDS.end), &mut item) };
    found(status, item).map(|it| it.instant)
}

fn search(call: Search, schedules: &[Sets], eras: &[Era], instant: i64) -> Option<Item> {
    let mut item = Item::default();
    // Nothing fires near the limits.
    let instant = instant.clamp(LEAST_INSTANT, GREATEST_INSTANT);
    // SAFETY: as at the head of this file.
    let status = unsafe {
        call(
            schedules.as_ptr(),
            schedules.len(),
            eras.as_ptr(),
            eras.len(),
            instant,
            &mut item,
        )
    };
    found(status, item)
}

/// Returns the first fire whose instant comes after the given one.
pub(crate) fn fire_after(schedules: &[Sets], eras: &[Era], instant: i64) -> Option<Item> {
    search(cron_c_union_fire_after, schedules, eras, instant)
}

/// Returns the last fire whose instant is the given one or comes before it.
pub(crate) fn fire_by(schedules: &[Sets], eras: &[Era], instant: i64) -> Option<Item> {
    search(cron_c_union_fire_by, schedules, eras, instant)
}

/// Returns the first fire that is later than the item. Of two at one instant that is later which
/// shows more.
pub(crate) fn fire_past(schedules: &[Sets], eras: &[Era], item: &Item) -> Option<Item> {
    let shown = item.instant + i64::from(item.offset);
    if shown < CIVIL_SECONDS.start {
        // No fire shows less.
        return fire_after(schedules, eras, item.instant - 1);
    }
    if shown >= CIVIL_SECONDS.end {
        return fire_after(schedules, eras, item.instant);
    }
    let mut items = [Item::default()];
    let mut count = 0;
    // SAFETY: as at the head of this file.
    let status = unsafe {
        cron_c_union_fires_past(
            schedules.as_ptr(),
            schedules.len(),
            eras.as_ptr(),
            eras.len(),
            item,
            GREATEST_INSTANT,
            items.as_mut_ptr(),
            items.len(),
            &mut count,
        )
    };
    let status = if status == MORE { OK } else { status };
    found(status, items[0]).filter(|_| count > 0)
}

/// Returns the first due fire whose instant comes after the given one.
pub(crate) fn due_after(schedules: &[Sets], eras: &[Era], instant: i64) -> Option<Item> {
    search(cron_c_union_due_after, schedules, eras, instant)
}

/// Returns the last due fire whose instant is the given one or comes before it.
pub(crate) fn due_by(schedules: &[Sets], eras: &[Era], instant: i64) -> Option<Item> {
    search(cron_c_union_due_by, schedules, eras, instant)
}

/// Returns the first due fire whose nominal time is later than this civil second.
pub(crate) fn due_past(schedules: &[Sets], eras: &[Era], nominal: i64) -> Option<Item> {
    if nominal < CIVIL_SECONDS.start {
        return due_after(schedules, eras, LEAST_INSTANT);
    }
    if nominal >= CIVIL_SECONDS.end {
        return None;
    }
    // The nominal time alone counts.
    let mut item = Item {
        instant: nominal,
        offset: 0,
        passed: 0,
    };
    // SAFETY: as at the head of this file.
    let status = unsafe {
        cron_c_union_due_past(
            schedules.as_ptr(),
            schedules.len(),
            eras.as_ptr(),
            eras.len(),
            &mut item,
        )
    };
    found(status, item)
}

#[cfg(test)]
mod tests {
    use super::*;
    use std::mem::size_of;

    #[test]
    fn structs_have_the_sizes_of_the_header() {
        assert_eq!(size_of::<Sets>(), 16 * 8);
        assert_eq!(size_of::<Rule>(), 16 * 4);
        assert_eq!(size_of::<Era>(), 8 + 16 * 4);
        assert_eq!(size_of::<Item>(), 16);
    }

    #[test]
    fn sources_are_those_of_the_text_or_of_tz() {
        let found = |text, tz| match zone_source(text, tz) {
            None => "none".to_string(),
            Some(Source::Stated(rule)) => format!("stated {}", rule.offset),
            Some(Source::InFolder(name)) => format!("name {name}"),
            Some(Source::AtPath(path)) => format!("path {path}"),
            Some(Source::OfMachine) => "machine".to_string(),
        };
        assert_eq!(found("IST-5:30", Some("UTC")), "stated 19800");
        assert_eq!(found("America/Chicago", None), "name America/Chicago");
        assert_eq!(found("../passwd", None), "none");
        assert_eq!(found("local", None), "machine");
        assert_eq!(found("local", Some("")), "stated 0");
        assert_eq!(
            found("local", Some(":/etc/localtime")),
            "path /etc/localtime"
        );
        assert_eq!(found("local", Some("Asia/Tokyo")), "name Asia/Tokyo");
        assert_eq!(found("local", Some("\u{fffd}")), "none");
    }

    #[test]
    fn last_civil_second_is_that_of_2100() {
        let sets = parse("59 59 23 31 12 * 2100").unwrap();
        assert_eq!(
            match_at_or_after(&sets, i64::MIN / 2),
            Some(CIVIL_SECONDS.end - 1)
        );
        assert_eq!(
            match_at_or_before(&sets, i64::MAX / 2),
            Some(CIVIL_SECONDS.end - 1)
        );
        assert_eq!(match_at_or_after(&sets, CIVIL_SECONDS.end), None);
        assert_eq!(match_at_or_before(&sets, CIVIL_SECONDS.end - 2), None);
    }
}
