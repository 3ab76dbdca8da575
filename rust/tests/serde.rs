//! Schedules as strings of `serde`.
#![cfg(feature = "serde")]

use cron::Schedule;
use serde::de::value::{Error, StrDeserializer, StringDeserializer, U32Deserializer};
use serde::de::{Deserialize, IntoDeserializer};
use serde::ser::Serialize;
use std::fmt;

struct Written<'a>(&'a Schedule);

impl fmt::Display for Written<'_> {
    fn fmt(&self, f: &mut fmt::Formatter<'_>) -> fmt::Result {
        self.0.serialize(f)
    }
}

#[test]
fn schedule_is_the_string_of_its_text() {
    let text = " 0 30 9 * * Mon-Fri ";
    let borrowed: StrDeserializer<'_, Error> = text.into_deserializer();
    let schedule = Schedule::deserialize(borrowed).unwrap();
    assert_eq!(schedule.source(), text);
    assert_eq!(Written(&schedule).to_string(), text);
    let owned: StringDeserializer<Error> = text.to_string().into_deserializer();
    assert_eq!(Schedule::deserialize(owned).unwrap(), schedule);
}

#[test]
fn what_is_no_expression_is_refused() {
    let text: StrDeserializer<'_, Error> = "0 0 25 * * *".into_deserializer();
    let error = Schedule::deserialize(text).unwrap_err();
    assert_eq!(
        error.to_string(),
        "Hours must be less than 23. ('25' specified.)"
    );
    let number: U32Deserializer<Error> = 5_u32.into_deserializer();
    assert!(Schedule::deserialize(number).is_err());
}
