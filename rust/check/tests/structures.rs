//! The structures: what their errors say and a debugger shows, copies of tables, and places of floats. Random calls beside models are in
//! `models.rs`.

#[path = "structures/entities.rs"]
mod entities;
#[path = "structures/floats.rs"]
mod floats;
#[path = "structures/scene.rs"]
mod scene;
#[path = "structures/texts.rs"]
mod texts;

use slotmap_proved::fallible::TryClone;
use std::error::Error;
use std::fmt::Debug;

/// A value and its copy have this text in a debugger.
fn assert_shows<T: TryClone + Debug>(value: &T, shown: &str) {
    assert_eq!(format!("{value:?}"), shown);
    let copy = TryClone::clone(value).expect("memory");
    assert_eq!(format!("{copy:?}"), shown);
}

/// Errors have these messages, and these texts in a debugger. The value that an error holds isn't shown: it may be of any type.
fn assert_errors<E: Error>(errors: &[(E, &str, &str)]) {
    for (error, message, shown) in errors {
        assert_eq!((error.to_string().as_str(), format!("{error:?}").as_str()), (*message, *shown));
    }
}
